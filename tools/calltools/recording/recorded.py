"""The folder that `live_call --record` writes (docs/LIVE.md): its settings, logs, times, videos."""

import io
import json
import re
import sys
from dataclasses import dataclass
from fractions import Fraction
from pathlib import Path
from typing import Any, BinaryIO, Optional, Sequence

from .. import lines, progress_line
from . import logs
from ..report import picture_lines
from ..errors import BadInput, shown
from ..page.frames import frames_of
from ..network.picture_start import PERIODS
from .way import format_of
from ..y4m import FORMATS, Size


_TIME = re.compile(r"-?\d{1,9}(?:\.\d{1,9})?")
_RATE = re.compile(r"\d{1,6}(?:/\d{1,6}|\.\d{1,6})?")
_TARGET = re.compile(r"(\d{1,6}) (\d{1,9})")
_BEGAN = re.compile(r"[-0-9T:.+]{16,40}")
# Greater numbers are no setting's.
_MOST = 1e9
# A call.json of a thousand runs of each end has less.
_MOST_LETTERS = 1 << 22
# What a run of each command names; `targets` only where it followed the line.
_NAMES = {"send": ("video", "log", "wire", "report"), "recv": ("log", "video", "wire", "report")}


@dataclass(frozen=True)
class Record:
    """A folder, and what its call.json says."""

    folder: Path
    told: dict[str, Any]

    def path(self, name: str) -> Path:
        """A file of the folder."""
        return self.folder / name

    def runs(self, command: str) -> list[dict[str, Any]]:
        """The runs of `send`, or of `recv`."""
        return list(self.told.get(command, []))

    @property
    def is_cut(self) -> bool:
        """Whether nobody wrote the end: the files may stop anywhere."""
        return "counts" not in self.told

    def opened(self, name: str) -> BinaryIO:
        """A file of the folder, to be read; where the call was cut off, one that isn't there is empty."""
        path = self.path(name)
        return io.BytesIO() if self.is_cut and not path.exists() else open(path, "rb")

    def tell_cut(self) -> None:
        """Says on the standard error that the call has no end, if that is so."""
        if self.is_cut:
            print(
                f"{shown(str(self.folder))}: the recording was cut off: what is whole of it is taken", file=sys.stderr
            )

    @property
    def size(self) -> Size:
        return Size(*FORMATS[self.told["format"]])

    @property
    def period(self) -> float:
        return float(1 / Fraction(self.told["rate"]))

    @property
    def numbers(self) -> int:
        """How many numbers temporal references tell apart."""
        return PERIODS["custom" if self.told.get("clock") == "custom" else "standard"]


def read_record(folder: Path) -> Record:
    """A folder with a whole call.json of version 1."""
    path = folder / "call.json"
    _check_file(path)
    with open(path, encoding="utf-8") as file:
        try:
            told = json.loads(file.read(_MOST_LETTERS))
        except (ValueError, RecursionError) as fault:
            raise BadInput(str(path), "its text", f"this is no JSON: {fault}") from None
    if not isinstance(told, dict) or told.get("version") != 1:
        raise BadInput(str(path), "version", "1 is wanted")
    if not isinstance(told.get("format"), str) or told["format"] not in FORMATS:
        raise BadInput(str(path), "format", f"it is none of {', '.join(FORMATS)}")
    if not _is_rate(told.get("rate")):
        raise BadInput(str(path), "rate", "pictures a second are wanted, as in 30000/1001")
    for command, names in _NAMES.items():
        _check_runs(path, command, told.get(command, []), names)
    _check_files(path, told)
    return Record(folder, told)


def _check_file(path: Path) -> None:
    # Nothing would ever come out of a pipe.
    if path.exists() and not path.is_file():
        raise BadInput(str(path), "a file of the folder", "it is no file")


def _check_files(path: Path, told: dict[str, Any]) -> None:
    # Each run has its own files, so that reading all of them takes no longer than the folder is.
    seen: set[str] = set()
    for command, names in _NAMES.items():
        for number, run in enumerate(told.get(command, []), 1):
            for name in _named(run, names):
                if run[name] in seen:
                    raise BadInput(str(path), f"{command}, run {number}", f"{name} is a file of another run, too")
                seen.add(run[name])
                file = path.parent / run[name]
                _check_file(file)
                _check_file(file.with_suffix(".times"))


def _named(run: dict[str, Any], names: tuple[str, ...]) -> tuple[str, ...]:
    return (*names, "targets") if "targets" in run else names


def _is_rate(rate: object) -> bool:
    # In a number with an exponent a few digits would say millions.
    if not isinstance(rate, str) or not _RATE.fullmatch(rate):
        return False
    try:
        return Fraction(1, 10) <= Fraction(rate) <= 1000
    except ZeroDivisionError:
        return False


def _check_runs(path: Path, command: str, runs: object, names: tuple[str, ...]) -> None:
    if not isinstance(runs, list):
        raise BadInput(str(path), command, "a list of runs is wanted")
    for number, run in enumerate(runs, 1):
        place = f"{command}, run {number}"
        if not isinstance(run, dict):
            raise BadInput(str(path), place, "this is no run")
        for name in _named(run, names):
            # Names are flat, so that none leads out of the folder, and are printed as they are.
            file = run.get(name)
            if not isinstance(file, str) or file in ("", ".", "..") or "/" in file or not file.isprintable():
                raise BadInput(str(path), place, f"{name} names no file of the folder")
        for name in ("source", "first_sequence", "first_time", "skipped", "joined"):
            number_of = run.get(name)
            if number_of is not None and (type(number_of) is not int or not 0 <= number_of < 1 << 32):
                raise BadInput(str(path), place, f"{name} is no number of 32 bits")
        options = run.get("options", [])
        if not isinstance(options, list) or not all(isinstance(word, str) for word in options):
            raise BadInput(str(path), place, "its options are no list of words")


@dataclass(frozen=True)
class Timed:
    """An entry of a log and its time, or None where the times end before."""

    entry: logs.Entry
    time: Optional[float]


def times_in(path: Path, is_cut: bool = False) -> list[float]:
    """The times of a file, a line each. Where it may have been cut off, those before the cut."""
    if not path.exists():
        return []
    times = []
    with open(path, "rb") as file:
        try:
            for number, line in enumerate(lines.lines_in(file, str(path), lines.MOST_OF_TIMES), 1):
                # What follows the last newline is a number that may have been cut off.
                if not _TIME.fullmatch(line.rstrip("\n")) or is_cut and not line.endswith("\n"):
                    raise BadInput(str(path), f"line {number}", "a time in seconds is wanted")
                times.append(float(line))
        except BadInput:
            if not is_cut:
                raise
    return times


def rates_of(record: Record, run: dict[str, Any]) -> list[int]:
    """The rates of the line that a run of `send` followed, in kbit/s and by picture; none if it followed none."""
    if "targets" not in run:
        return []
    with record.opened(run["targets"]) as file:
        path, rates = str(record.path(run["targets"])), []
        for number, line in enumerate(lines.lines_in(file, path, lines.MOST_OF_REPORT), 1):
            # What follows the last newline was cut off.
            if not line.endswith("\n"):
                break
            fields = _TARGET.fullmatch(line.rstrip("\n"))
            if not fields:
                raise BadInput(path, f"line {number}", "a target and a rate are wanted")
            rates.append(int(fields[2]))
    return rates


def video_times(record: Record, name: str) -> list[float]:
    """When each picture of a video left its end."""
    return times_in(record.path(name).with_suffix(".times"), record.is_cut)


def entries_of(record: Record, name: str) -> list[Timed]:
    """The entries of a log with their times. Where the call was cut off, those before the cut that
    have a time, too."""
    path = record.path(name)
    beside = path.with_suffix(".times")
    times: list[Optional[float]] = [*times_in(beside, record.is_cut)]
    entries: list[logs.Entry] = []
    with record.opened(name) as file:
        try:
            entries.extend(progress_line.through(logs.read_log(file, str(path)), f"{path}: entries"))
        except BadInput:
            if not record.is_cut:
                raise
    if not record.is_cut or not beside.exists():
        times += [None] * (len(entries) - len(times))
    return [Timed(entry, time) for entry, time in zip(entries, times)]


def video_of(record: Record, name: str) -> Sequence[bytes]:
    """The pictures of a video, all of the call's size."""
    path = record.path(name)
    if not path.exists() or not path.stat().st_size:
        return []
    try:
        found = frames_of(path, record.is_cut)
    except BadInput:
        if record.is_cut:
            return []
        raise
    if found.size != record.size:
        raise BadInput(str(path), "the head", "its size is not the call's format")
    return found


def pictures_of(record: Record, name: str, first: int = 0) -> list[picture_lines.Picture]:
    """The pictures of a report, whose numbers begin with the first one's. One of an end that died at once has none."""
    path = record.path(name)
    with record.opened(name) as file:
        told = lines.lines_in(file, str(path), lines.MOST_OF_REPORT)
        if record.is_cut:
            # The last line may be the beginning of another one.
            return picture_lines.whole_pictures((line for line in told if line.endswith("\n")), str(path), first)
        has_any = bool(file.read(1))
        file.seek(0)
        return picture_lines.read_report(told, str(path), first).pictures if has_any else []


def about(record: Record) -> list[str]:
    """What was asked for, in words: format, rate, network, settings."""
    told = record.told
    words = [format_of(record.size), f"{1 / record.period:.4g} pictures a second"]
    network = told.get("network")
    if isinstance(network, dict):
        words.append(_network(network))
    if _is_number(told.get("target")):
        words.append(f"target {told['target']:,} bytes a picture")
    if _is_number(told.get("wait")):
        words.append(f"wait {1000 * told['wait']:g} ms")
    if isinstance(told.get("began"), str) and _BEGAN.fullmatch(told["began"]):
        words.append(f"{told['began'][:16].replace('T', ' ')} UTC")
    return words


def _is_number(value: object) -> bool:
    return type(value) in (int, float) and -_MOST <= value <= _MOST  # type: ignore[operator]


def _network(network: dict[str, Any]) -> str:
    # What is nothing isn't told.
    words = []
    signs = (
        ("loss", 100, " % lost"),
        ("duplicate", 100, " % twice"),
        ("delay", 1000, " ms of delay"),
    )
    for name, scale, unit in (*signs, ("jitter", 1000, " ms of jitter"), ("kbits", 1, " kbit/s")):
        value = network.get(name)
        if _is_number(value) and value:
            words.append(f"{scale * value:g}{unit}")
    if words and network.get("loss") and _is_number(network.get("burst")) and network["burst"] > 1:
        words[0] += f" in bursts of {network['burst']:g}"
    outage = network.get("outage")
    if isinstance(outage, list) and len(outage) == 2 and all(map(_is_number, outage)):
        words.append(f"nothing for {outage[1]:g} s from {outage[0]:g} s on")
    return "network: " + (", ".join(words) or "nothing lost")
