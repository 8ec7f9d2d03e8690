"""The folder of a call that can be looked at afterwards (docs/LIVE.md, "A recorded call")."""

import json
import os
from datetime import datetime, timezone
from pathlib import Path
from typing import Any, BinaryIO, Callable, Optional

from ..network.bad_network import BadNetwork
from ..errors import BadInput
from ..live.settings import Settings

VERSION = 1
# Runs of an end that a folder takes. A call that begins anew more often is recorded no further, so that nobody can fill
# a disk with files by streams of their own.
MOST_RUNS = 1_000
# A folder is taken where so many bytes have room in it.
_ROOM = 1 << 16
# What each end's run has: its key in call.json, the file's name, and whether it has times beside. One that follows the
# line has a line a picture: the target in bytes, and the rate in kbit/s.
TARGETS = ("targets", "targets", ".txt", False)
_FILES: dict[str, tuple[tuple[str, str, str, bool], ...]] = {
    "send": (
        ("video", "captured", ".y4m", False),
        ("log", "send", ".log", True),
        ("wire", "packets", ".log", True),
        ("report", "send", ".txt", False),
    ),
    "recv": (
        ("log", "recv", ".log", True),
        ("video", "shown", ".y4m", True),
        ("wire", "messages", ".log", True),
        ("report", "recv", ".txt", False),
    ),
}


class RunRecord:
    """The files of one run of an end. Of one that is only tried there are none, and what is written waits here until
    it is kept."""

    def __init__(self, recorder: "Recorder", end: str, facts: dict[str, Any], has_targets: bool) -> None:
        self._recorder, self._end = recorder, end
        self._files: dict[str, BinaryIO] = {}
        self._times: dict[str, BinaryIO] = {}
        self.facts = facts
        self._rows = (*_FILES[end], TARGETS) if has_targets else _FILES[end]
        self._timed = {key for key, _, _, has_times in self._rows if has_times}
        self._held: Optional[list[tuple[str, bytes, bool]]] = []
        self.held = 0  # bytes

    def keep(self) -> None:
        """From now on it is in the folder, with all that was written before."""
        held, self._held, self.held = self._held or [], None, 0
        number = self._recorder.runs_of(self._end) + 1
        if number > MOST_RUNS:
            return
        for key, name, suffix, has_times in self._rows:
            stem = name if number == 1 else f"{name}-{number}"
            self.facts[key] = stem + suffix
            self._recorder.open(self._files, key, stem + suffix)
            if has_times:
                self._recorder.open(self._times, key, stem + ".times")
        self._recorder.add(self._end, self)
        for row in held:
            self._put(*row)

    def write(self, key: str, data: bytes) -> None:
        """More bytes of a file."""
        self._put(key, data, False)

    def mark(self, key: str, when: float) -> None:
        """The time of the next entry, or frame, of a file."""
        if key in self._timed:
            self._put(key, f"{when - self._recorder.began:.6f}\n".encode(), True)

    def _put(self, key: str, data: bytes, is_time: bool) -> None:
        if self._held is None:
            self._recorder.write((self._times if is_time else self._files).get(key), data)
        elif self._recorder.is_on:
            self._held.append((key, data, is_time))
            self.held += len(data)

    def flush(self) -> None:
        """Hands what is written on to the system, but for videos: they are large, and go by themselves."""
        small = [file for key, file in self._files.items() if key != "video"]
        for file in (*small, *self._times.values()):
            if not self._recorder.fault:
                self._recorder.guarded(file.flush)

    def close(self) -> None:
        """Its end has ended: what is still written counts no more."""
        for file in (*self._files.values(), *self._times.values()):
            self._recorder.guarded(file.close)
        self._files, self._times = {}, {}


def make_folder(folder: Path) -> None:
    """Makes the folder of a record, and tries whether it takes a file: before a call is touched for it."""
    try:
        folder.mkdir(parents=True, exist_ok=True)
        if any(folder.iterdir()):
            raise BadInput(str(folder), "--record", "the folder isn't empty")
        trial = folder / "call.new"
        try:
            trial.write_bytes(bytes(_ROOM))
        finally:
            trial.unlink(missing_ok=True)
    except OSError as fault:
        raise BadInput(str(folder), "nothing can be recorded there", str(fault.strerror)) from None


def _replace(path: Path, text: str) -> None:
    # So that a whole file is there at any time, whatever ends the call or fills the disk.
    new = path.with_suffix(".new")
    new.write_text(text)
    os.replace(new, path)


def call_facts(settings: Settings, party: str, network: Optional[BadNetwork]) -> dict[str, Any]:
    """What call.json says of a call that begins now. `party` is alone, both, camera or screen."""
    return {
        "began": datetime.now(timezone.utc).isoformat(timespec="milliseconds"),
        "party": party,
        "format": settings.format,
        "rate": str(settings.rate),
        "clock": settings.clock,
        "messages": settings.messages,
        "wait": settings.wait,
        "lead": settings.lead,
        "slots": settings.slots,
        "target": settings.target,
        "adapts": settings.adapts,
        "network": vars(network) if network else None,
    }


class Recorder:
    """Writes a call's folder, or nothing without one. A folder that can't be made is refused. Where a write fails,
    recording ends, the call goes on, and `fault` says why; so it does where already the first one fails."""

    def __init__(self, folder: Optional[Path], began: float, facts: dict[str, Any]) -> None:
        self.began = began
        self.fault: Optional[OSError] = None
        self.on_fault: Callable[[OSError], None] = lambda _: None
        self._folder = folder
        self._facts: dict[str, Any] = {"version": VERSION, **facts, "send": [], "recv": []}
        self._runs: list[RunRecord] = []
        self._told = ""
        if folder:
            make_folder(folder)
            self._write_facts()

    @property
    def is_on(self) -> bool:
        """Whether anything is recorded."""
        return bool(self._folder) and not self.fault

    def run(self, end: str, facts: dict[str, Any], is_kept: bool = True, has_targets: bool = False) -> RunRecord:
        """A new run of `send` or `recv`; `facts` may be filled later on."""
        run = self._begun(end, facts, has_targets)
        if is_kept:
            run.keep()
        return run

    def runs_of(self, end: str) -> int:
        """How many runs of an end are in the folder."""
        return len(self._facts[end])

    def add(self, end: str, run: RunRecord) -> None:
        """Takes a run into the folder."""
        self._facts[end].append(run.facts)
        self._runs.append(run)
        self._write_facts()

    def _begun(self, end: str, facts: dict[str, Any], has_targets: bool) -> RunRecord:
        return RunRecord(self, end, facts, has_targets)

    def flush(self) -> None:
        """What is recorded by now outlives this process; so does what a run was found to be since it began."""
        for run in self._runs:
            run.flush()
        self._write_facts()

    def finish(self, counts: dict[str, Any]) -> None:
        """Closes the files, and writes what came of the call."""
        for run in self._runs:
            run.close()
        self._facts["counts"] = counts
        self._write_facts()

    def _write_facts(self) -> None:
        if self._folder and not self.fault:
            path, text = self._folder / "call.json", json.dumps(self._facts, indent=1) + "\n"
            if text != self._told:
                self.guarded(lambda: _replace(path, text))
                self._told = text

    def open(self, files: dict[str, BinaryIO], key: str, name: str) -> None:
        """Opens a file of the folder, if there is one."""
        if self._folder and not self.fault:
            path = self._folder / name
            self.guarded(lambda: files.update({key: open(path, "wb")}))

    def write(self, file: Optional[BinaryIO], data: bytes) -> None:
        if file and not self.fault:
            write = file.write
            self.guarded(lambda: write(data))

    def guarded(self, act: Callable[[], Any]) -> None:
        """Does what may fail for want of room."""
        try:
            act()
        except OSError as fault:
            if not self.fault:
                self.fault = fault
                self.on_fault(fault)
