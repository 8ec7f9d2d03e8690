"""Processor time of programs, and how much of it a frame takes."""

import contextlib
import os
import resource
import statistics
import subprocess
from dataclasses import dataclass
from pathlib import Path
from typing import Callable, Iterable, Iterator, Optional, Sequence

from .errors import BadInput


@dataclass(frozen=True)
class Spent:
    """Processor time: of the programs themselves, and of the system for them."""

    user: float
    system: float

    @property
    def total(self) -> float:
        return self.user + self.system

    def __add__(self, other: "Spent") -> "Spent":
        return Spent(self.user + other.user, self.system + other.system)

    def __sub__(self, other: "Spent") -> "Spent":
        return Spent(self.user - other.user, self.system - other.system)

    def over(self, parts: float) -> "Spent":
        """One of so many equal parts."""
        return Spent(self.user / parts, self.system / parts)


# Runs programs on a video, and tells their processor time in seconds.
Run = Callable[[Path], Spent]


@dataclass(frozen=True)
class Videos:
    """The shorter video and the longer one, which has this many frames more."""

    short: Path
    long: Path
    more: int


@dataclass(frozen=True)
class Contest:
    """Runs to be compared, on the same videos."""

    runs: Sequence[Run]
    videos: Videos


@dataclass(frozen=True)
class FrameTime:
    """Milliseconds of a frame: by the runs of the two videos that took the least, and by the middle of what the rounds
    tell.

    None where the longer video took no more, so that nothing can be told.
    """

    least: Optional[Spent]
    middle: Optional[float]


@dataclass(frozen=True)
class _Taken:
    # The seconds of the shorter video and of the longer one, in the same round.
    short: Spent
    long: Spent


def processor_time(words: Sequence[object]) -> Spent:
    """The seconds that a program took of the processor. It must end with status 0."""
    before = resource.getrusage(resource.RUSAGE_CHILDREN)
    run = subprocess.run([str(word) for word in words], stdout=subprocess.DEVNULL, stderr=subprocess.DEVNULL)
    if run.returncode != 0:
        raise BadInput(str(words[0]), f"status {run.returncode}", "of " + " ".join(str(word) for word in words[1:]))
    after = resource.getrusage(resource.RUSAGE_CHILDREN)
    return Spent(after.ru_utime - before.ru_utime, after.ru_stime - before.ru_stime)


@contextlib.contextmanager
def on_one_core() -> Iterator[None]:
    """Whatever is run meanwhile stays on one core, where the system lets us choose: a move to another core would empty
    the caches, and cores need not be alike."""
    if not hasattr(os, "sched_setaffinity"):
        yield
        return
    allowed = os.sched_getaffinity(0)
    os.sched_setaffinity(0, {max(allowed)})
    try:
        yield
    finally:
        os.sched_setaffinity(0, allowed)


def frame_times(contests: Sequence[Contest], rounds: int, told: Callable[[int], None]) -> list[list[FrameTime]]:
    """The frame times of each contest's runs. Before each round its number is told.

    A round has each run of each contest once, so that a while in which the machine is slow falls on all of them. A
    contest's runs take turns, and the order turns around from round to round.
    """
    taken: list[list[list[_Taken]]] = [[[] for _ in contest.runs] for contest in contests]
    for number in range(rounds):
        told(number)
        for contest, of_runs in zip(contests, taken):
            pairs = list(zip(contest.runs, of_runs))
            for run, of_run in reversed(pairs) if number % 2 else pairs:
                of_run.append(_Taken(run(contest.videos.short), run(contest.videos.long)))
    return [
        [_frame_time(of_run, contest.videos.more) for of_run in of_runs] for contest, of_runs in zip(contests, taken)
    ]


def _frame_time(taken: Sequence[_Taken], frames: int) -> FrameTime:
    least = _least(each.long for each in taken) - _least(each.short for each in taken)
    middle = statistics.median((each.long - each.short).total for each in taken)
    return FrameTime(
        least.over(frames / 1000) if least.total > 0 else None, 1000 * middle / frames if middle > 0 else None
    )


def _least(runs: Iterable[Spent]) -> Spent:
    return min(runs, key=lambda each: each.total)


def coded_and_decoded(room: Path, quantiser: int, options: Sequence[str]) -> Run:
    """A run of ffmpeg that codes a video as H.263 at this quantiser by one thread, and decodes it again."""
    quiet = ["ffmpeg", "-nostdin", "-y", "-v", "error", "-threads", "1"]
    coder = ["-threads", "1", "-c:v", "h263", "-qscale:v", quantiser]
    coded = room / "coded.avi"

    def run(video: Path) -> Spent:
        coding = processor_time([*quiet, "-i", video, *coder, *options, coded])
        return coding + processor_time([*quiet, "-i", coded, "-threads", "1", "-f", "null", "-"])

    return run
