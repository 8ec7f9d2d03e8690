"""Runs one job, and tells its row of the table. All of it may be on another machine."""

import os
import socket
import subprocess
import tempfile
import threading
import time
from dataclasses import dataclass, field
from functools import lru_cache
from pathlib import Path
from typing import Any, Iterable, Iterator, Optional, Sequence

from .. import lone_ends, plain_coder, y4m
from ..network import rtp
from ..report import quality
from ..errors import BadInput
from ..recording.wire import packets_of_pictures
from ..recording.logs import read_log
from .content import Store
from .jobs import Job, LABELS
from .measures import MEASURES, Shown, marks_measured, references_measured

# A run of the program that takes longer has failed, in seconds.
MOST_SECONDS = 600
ABOUT = ("key", "plan", "status", "words", *LABELS)
AFTER = ("wall", "worker", "program", "video_hash", "trace_hash")
COLUMNS = (*ABOUT, *MEASURES, *AFTER)
Row = dict[str, Any]


@dataclass(frozen=True)
class Spent:
    """What a run took: processor time in seconds, and the most memory in MB."""

    seconds: float
    megabytes: float


@dataclass(frozen=True)
class MeasuredCall(lone_ends.Call):
    """A call that notes what the last run of each command took."""

    spent: dict[str, Spent] = field(default_factory=dict)

    def printed(self, command: str, asked: list[str]) -> list[str]:
        """What a run of the program prints. One that takes too long is ended."""
        with tempfile.TemporaryFile() as out:
            process = subprocess.Popen(asked, stdin=subprocess.DEVNULL, stdout=out, stderr=out)
            timer = threading.Timer(MOST_SECONDS, process.kill)
            timer.start()
            _, status, usage = os.wait4(process.pid, 0)
            timer.cancel()
            process.returncode = os.waitstatus_to_exitcode(status)
            out.seek(0)
            told = out.read().decode("ascii", "replace")
        if process.returncode:
            last = (told.splitlines() or ["it said nothing"])[-1]
            raise BadInput(command, f"status {process.returncode}", last)
        self.spent[command] = Spent(usage.ru_utime + usage.ru_stime, usage.ru_maxrss / 1_024)
        return told.splitlines()


def row_of(job: Job, store: Store) -> Row:
    """Runs the job. A call that fails is a row, too, with its words."""
    began = time.monotonic()
    try:
        with tempfile.TemporaryDirectory(prefix="campaign-") as room:
            found = _measured(job, store, Path(room))
        status, words = "done", ""
    except (BadInput, OSError, ValueError, IndexError) as fault:
        found, status, words = {}, "failed", f"{type(fault).__name__}: {fault}"
    found = {name: value for name, value in found.items() if name in job.measures}
    return row_with(job, status, words, found, time.monotonic() - began)


def row_with(job: Job, status: str, words: str, found: Row, wall: Optional[float]) -> Row:
    """The row of a job with these measures."""
    row: Row = {**dict.fromkeys(COLUMNS), **job.labels, **found}
    row |= {"key": job.key, "plan": job.plan, "status": status, "words": words, "wall": wall}
    row |= {"worker": f"{socket.gethostname()}:{os.getpid()}"}
    return row | {"program": job.program, "video_hash": job.video, "trace_hash": job.trace}


def _measured(job: Job, store: Store, room: Path) -> Row:
    trace = store.get(job.trace).read_text(encoding="ascii").splitlines()
    if job.labels["sender"] == "plain":
        return _plain_measured(job, store, room, trace)
    return _own_measured(job, store, room, trace)


def _own_measured(job: Job, store: Store, room: Path, trace: list[str]) -> Row:
    call = MeasuredCall(store.get(job.program), store.get(job.video), job.options, room)
    report = lone_ends.joined_call(call, trace)
    with open(call.file("packets.log"), "rb") as file:
        packets = packets_of_pictures(read_log(file, "packets.log"), "packets.log")
    came = in_time(trace, int(job.options["lead"]))
    whole = [all(map(here.has, range(len(many)))) for here, many in zip(came, packets)]
    shown = [Shown(picture.mark or "held", is_whole) for picture, is_whole in zip(report.pictures, whole)]
    found = marks_measured(shown) | references_measured(report.pictures)
    found["bytes"] = sum(len(it) for many in packets for it in many) / len(packets)
    found["packets_sent"] = sum(map(len, packets)) / len(packets)
    found["seconds"] = sum(it.seconds for it in call.spent.values())
    found["megabytes"] = max(it.megabytes for it in call.spent.values())
    if "psnr" in job.measures:
        found["psnr"] = _psnr(call.video, _samples_of(call.file("shown.y4m")))
    return found


@dataclass
class InTime:
    """The packets of a picture that came by its turn to be shown: all of them, or some by their
    places."""

    is_all: bool = False
    places: set[int] = field(default_factory=set)

    def has(self, place: int) -> bool:
        """Whether the packet at this place came."""
        return self.is_all or place in self.places


def in_time(trace: Sequence[str], lead: int) -> list[InTime]:
    """What came of each picture, no earlier than the lead allows and by its turn to be shown."""
    pictures: list[InTime] = []
    played = 0
    for line in trace:
        if line == "S":
            pictures.append(InTime())
        played += line == "P"
        if line.startswith("D"):
            number, place = line[2:].split(".")
            if not played <= int(number) <= played + lead:
                continue
            if place == "*":
                pictures[int(number)].is_all = True
            else:
                pictures[int(number)].places.add(int(place))
    return pictures


def _plain_measured(job: Job, store: Store, room: Path, trace: list[str]) -> Row:
    pictures = trace.count("S")
    target = int(job.options["target"]) if "target" in job.options else None
    chosen = _Plain(store.get(job.video), pictures, job.labels["every"], int(job.options["limit"]))
    stream, size = _stream(chosen, target, int(job.options["quant"]))
    cut = [plain_coder.packets_of(picture, chosen.limit) for picture in stream.pictures]
    arrived = in_time(trace, int(job.options["lead"]))
    came = [_came(packets, here) for packets, here in zip(cut, arrived)]
    frames = list(plain_coder.shown_of_parts(stream, came, size, room))
    shown = [
        Shown(_mark(part, frame == whole), part == picture)
        for part, picture, frame, whole in zip(came, stream.pictures, frames, stream.shown)
    ]
    found = marks_measured(shown)
    found["intra"] = sum(stream.intra) / pictures
    found["bytes"] = sum(len(it) + rtp.HEADER_BYTES for packets in cut for it in packets) / pictures
    found["packets_sent"] = sum(map(len, cut)) / pictures
    if "psnr" in job.measures:
        found["psnr"] = _psnr(store.get(job.video), frames)
    return found


def _mark(part: Optional[bytes], is_same: bool) -> str:
    return "held" if not part else "exact" if is_same else "patched"


def _came(packets: Sequence[bytes], here: InTime) -> Optional[bytes]:
    """What came of a plain picture; without the first packet, which has its header, it is lost."""
    if not here.has(0):
        return None
    return b"".join(packet for place, packet in enumerate(packets) if here.has(place))


@dataclass(frozen=True)
class _Plain:
    # What a plain stream depends on beside its quantiser.
    video: Path
    pictures: int
    every: int
    limit: int


@lru_cache(maxsize=8)
def _stream(chosen: _Plain, target: Optional[int], quant: int) -> tuple[plain_coder.PlainStream, y4m.Size]:
    """The plain stream at the quantiser, or at the least one that keeps the target."""
    if target is None:
        return _coded(chosen, quant)
    least, most = 1, 31
    while least < most:
        middle = (least + most) // 2
        if _bytes_of(_coded(chosen, middle)[0], chosen) <= target:
            most = middle
        else:
            least = middle + 1
    return _coded(chosen, least)


def _bytes_of(stream: plain_coder.PlainStream, chosen: _Plain) -> float:
    packets = [it for picture in stream.pictures for it in plain_coder.packets_of(picture, chosen.limit)]
    return sum(len(it) + rtp.HEADER_BYTES for it in packets) / chosen.pictures


def _coded(chosen: _Plain, quant: int) -> tuple[plain_coder.PlainStream, y4m.Size]:
    coder = (*plain_coder.sliced(chosen.limit), "-frames:v", chosen.pictures)
    with open(chosen.video, "rb") as file:
        size = y4m.Y4mReader(file, str(chosen.video)).size
    with tempfile.TemporaryDirectory(prefix="campaign-") as room:
        stream = plain_coder.coded(_named_y4m(chosen.video, Path(room)), size, quant, chosen.every, Path(room), coder)
    if len(stream.pictures) != chosen.pictures:
        raise BadInput(
            "ffmpeg",
            "the coder",
            f"{chosen.pictures} pictures went in, {len(stream.pictures)} came out",
        )
    return stream, size


def _named_y4m(video: Path, room: Path) -> Path:
    # ffmpeg looks at the name's end.
    named = room / "video.y4m"
    named.symlink_to(video.absolute())
    return named


def _samples_of(path: Path) -> Iterator[bytes]:
    with open(path, "rb") as file:
        yield from (frame.samples for frame in y4m.Y4mReader(file, str(path)))


def _psnr(video: Path, shown: Iterable[bytes]) -> float:
    """PSNR of Y over all pictures, held ones included."""
    with open(video, "rb") as file:
        size = y4m.Y4mReader(file, str(video)).size
    pairs = zip(_samples_of(video), shown)
    every = (quality.errors_between(size, one, other) for one, other in pairs)
    return sum(every, quality.NO_ERRORS).psnr()[0]
