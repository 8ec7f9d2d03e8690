"""Which calls are made, and at which rate each coder has the same bits on the wire."""

import multiprocessing
import time
from dataclasses import asdict, dataclass
from functools import lru_cache
from pathlib import Path
from typing import Any, Callable, Iterator

from .. import library
from . import coders, videos
from .call import Call, Line, Receiver, Sender, Video
from .network import MILLISECOND, Network, PER, RATE
from .ours import OurReceiver, OurSender, Ours
from .rivals import (
    AcknowledgingReceiver,
    AcknowledgingSender,
    ChainReceiver,
    Coded,
    H264,
    KeptCoder,
    Kind,
    LiveCoder,
    RivalSender,
    VP8,
)

# On the wire, messages included, in bits a second.
RATES = {"qcif": 128_000, "cif": 384_000}
# Of each format: milliseconds of a round trip, and of the wait between a picture's arrival and its play; the shares of
# packets that are lost, each with the mean length of its bursts, 0 where it is by chance; and how often they are drawn.
Networks = tuple[tuple[int, int, tuple[tuple[float, int], ...], int], ...]
_ALL = ((0.0, 0), (0.01, 0), (0.03, 0), (0.05, 0), (0.1, 0), (0.01, 3), (0.03, 3), (0.05, 3), (0.1, 3))
_SOME = ((0.0, 0), (0.01, 0), (0.05, 0), (0.1, 0), (0.05, 3))
_FIVE = ((0.05, 0),)
NETWORKS: dict[str, Networks] = {
    "qcif": ((50, 100, _SOME, 2), (100, 100, _ALL, 5), (300, 100, _SOME, 2), (100, 200, _FIVE, 2)),
    "cif": ((50, 100, _FIVE, 2), (100, 100, _SOME, 2), (300, 100, _FIVE, 2)),
}
# After how many packets there is one of parity: each is tried, and the best of each network stands in the table.
PARITY = (2, 4, 8)
# How near a call's rate must be to what it is to have, and how often that is tried.
_NEAR, _TRIES = 0.02, 4
# Of the rate on the wire, what a coder is asked for at first.
_FIRST = 0.85


@dataclass(frozen=True)
class Scheme:
    """A coder, and what its ends do about losses."""

    name: str
    coder: str
    repair: str = ""
    has_parity: bool = False


SCHEMES = (
    Scheme("ours", "ours"),
    Scheme("ours+nack", "ours", "nack"),
    Scheme("x264+pli", "x264", "pli"),
    Scheme("x264+rtx", "x264", "rtx"),
    Scheme("x264+fec+rtx", "x264", "rtx", True),
    Scheme("vp8+pli", "vp8", "pli"),
    Scheme("vp8+rtx", "vp8", "rtx"),
    Scheme("vp8+fec+rtx", "vp8", "rtx", True),
    Scheme("vp8+ack", "vp8", "acknowledged"),
)
# What isn't there: ours with parity.
MORE = (Scheme("ours+fec", "ours", "", True), Scheme("ours+fec+nack", "ours", "nack", True))
# About what a call takes, to tell which jobs begin.
_COSTS = {"x264+pli": 9, "vp8+pli": 5, "vp8+ack": 5, "ours+fec": 6, "ours+fec+nack": 6}


@dataclass(frozen=True)
class Plan:
    """What is run, where the videos lie, how many pictures count of each call, and how ours is set."""

    room: Path
    library: Path
    pictures: int
    radius: int
    schemes: tuple[Scheme, ...] = SCHEMES
    forms: tuple[str, ...] = tuple(RATES)


@dataclass(frozen=True)
class Job:
    """One scheme on one video, over all networks."""

    plan: Plan
    form: str
    content: str
    scheme: Scheme

    @property
    def cost(self) -> int:
        return _COSTS.get(self.scheme.name, 2) * (4 if self.form == "cif" else 1)


@dataclass(frozen=True)
class Row:
    """A call and what came of it."""

    form: str
    content: str
    scheme: str
    parity: int
    loss: float
    burst: int
    round_trip: int
    wait: int
    draw: int
    asked: int
    good: float
    longest: int
    psnr: float
    packets: float
    messages: float


def networks(form: str) -> Iterator[tuple[Network, int]]:
    """Each network, and how often its losses are drawn: where there are none, once."""
    for round_trip, wait, losses, draws in NETWORKS[form]:
        for share, burst in losses:
            yield Network(share, burst, round_trip * MILLISECOND, wait * MILLISECOND), draws if share else 1


def run(plan: Plan, processes: int, told: Callable[[str], None]) -> Iterator[Row]:
    """Runs all calls on so many processes."""
    jobs = [
        Job(plan, form, content, scheme)
        for form in plan.forms
        for content in videos.CONTENTS
        for scheme in plan.schemes
    ]
    jobs.sort(key=lambda job: -job.cost)
    with multiprocessing.Pool(processes) as pool:
        for job, rows, seconds in pool.imap_unordered(rows_of, jobs):
            told(f"{job.form} {job.content} {job.scheme.name}: {len(rows)} calls, {seconds:.0f} s of a processor")
            yield from rows


def rows_of(job: Job) -> tuple[Job, list[Row], float]:
    """The rows of a job, and the seconds of a processor that it took."""
    began = time.process_time()
    coders.use(job.plan.library)
    rows = []
    for every in PARITY if job.scheme.has_parity else (0,):
        first = asked = round(_FIRST * RATES[job.form] * (every or 1) / (every + 1 if every else 1))
        for network, draws in networks(job.form):
            found = list(_calls(job, network, draws, every, asked))
            asked = found[0].asked if _off(found[0]) <= 2 * _NEAR else first
            rows += found
    return job, rows, time.process_time() - began


def _off(row: Row) -> float:
    """How far off its rate a call is."""
    return abs(1_000 * (row.packets + row.messages) / RATES[row.form] - 1)


def _calls(job: Job, network: Network, draws: int, every: int, asked: float) -> Iterator[Row]:
    """The draws of a network: the first finds the rate that is asked of the coder."""
    tried: list[Row] = []
    while len(tried) < _TRIES:
        tried.append(_row(job, Line(network, 1, every or None), round(asked / 500) * 500))
        if (
            _off(tried[-1]) <= _NEAR
            or len(tried) > 1
            and tried[-1].packets > 0.97 * tried[-2].packets > RATES[job.form] / 1_000
        ):
            # It has its rate, or its coarsest pictures have more.
            break
        wanted = RATES[job.form] / 1_000 - tried[-1].messages
        asked = tried[-1].asked * min(max(wanted / tried[-1].packets, 0.5), 2)
    best = min(tried, key=_off)
    yield best
    for draw in range(2, draws + 1):
        yield _row(job, Line(network, draw, every or None), best.asked)


def _row(job: Job, line: Line, asked: int) -> Row:
    video = videos.video(job.plan.room, job.form, job.content)
    sender, receiver = _ends(job, line, asked, video)
    outcome = Call(sender, receiver, video, line).outcome()
    network = line.network
    times = network.round_trip // MILLISECOND, network.wait // MILLISECOND
    where = (network.loss, int(network.burst), *times, line.draw)
    return Row(job.form, job.content, job.scheme.name, line.every or 0, *where, asked, **asdict(outcome))


def _ends(job: Job, line: Line, asked: int, video: Video) -> tuple[Sender, Receiver]:
    network, size, repair = line.network, video.size, job.scheme.repair
    if job.scheme.coder == "ours":
        lib = library.loaded()
        ours = Ours(job.form, asked * PER // (8 * RATE), job.plan.radius, repair == "nack")
        return OurSender(lib, ours), OurReceiver(lib, ours, network.round_trip, network.wait)
    kind = VP8 if job.scheme.coder == "vp8" else H264
    if repair == "acknowledged":
        return AcknowledgingSender(LiveCoder(kind, size, asked), kind, network), AcknowledgingReceiver(
            kind, size, network
        )
    coder: Any = LiveCoder(kind, size, asked)
    if repair == "rtx":
        pictures = list(video.pictures)
        coder = KeptCoder(kind, size, asked, _stream(job.plan.room, job.form, job.content, kind, asked), pictures)
    return RivalSender(coder, kind, network), ChainReceiver(kind, size, network, repair == "rtx", line.every)


@lru_cache(maxsize=8)
def _stream(room: Path, form: str, content: str, kind: Kind, asked: int) -> list[Coded]:
    """A video as a coder has it that hears of no loss."""
    video = videos.video(room, form, content)
    coder = LiveCoder(kind, video.size, asked)
    return [coder.code(picture, not number) for number, picture in enumerate(video.pictures)]
