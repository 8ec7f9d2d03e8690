"""Which calls of several receivers are made."""

import multiprocessing
import time
from dataclasses import asdict, dataclass
from pathlib import Path
from typing import Any, Callable, Iterator

from .. import library
from . import coders, videos
from .call import Receiver, Video
from .groups import GroupCall, ManySender, Ways
from .network import MILLISECOND, Message, Network, PER, RATE
from .ours import OurGroup, OurReceiver, Ours
from .rivals import ChainReceiver, H264, LiveCoder, RivalSender, VP8

# How many receivers there are; the share of packets that each loses; milliseconds of a round trip, and of the wait between a
# picture's arrival and its play; how often the losses are drawn; and bits a second on the line of each.
MEMBERS, LOSSES, TRIPS, WAIT, DRAWS, WIRE = (2, 4, 8), (0.01, 0.03, 0.05), (100, 300, 50), 100, 3, 128_000
FORM, CONTENTS = "qcif", ("test", "pan")
# One sender for all; one for each, which is a group of one; and other coders, whose key picture is for all.
SCHEMES = ("group", "each", "x264", "vp8")
# How near a call that loses nothing is to its rate, and how often that is tried.
_NEAR, _TRIES = 0.01, 6


@dataclass(frozen=True)
class Plan:
    """Where the videos lie, and how many pictures count of each call."""

    room: Path
    library: Path
    pictures: int


@dataclass(frozen=True)
class Job:
    """One scheme on one video, at one round trip."""

    plan: Plan
    content: str
    scheme: str
    round_trip: int


@dataclass(frozen=True)
class ManyRow:
    """A call and what came of it."""

    content: str
    scheme: str
    members: int
    round_trip: int
    loss: float
    common: int
    draw: int
    asked: int
    good: float
    least: float
    longest: int
    psnr: float
    keys: float
    packets: float
    messages: float


class ForAll(RivalSender):
    """A key picture that anybody asks for goes to all."""

    def hear_of(self, receiver: int, message: Message, now: int) -> None:
        self.hear(message, now)


def run(plan: Plan, processes: int, told: Callable[[str], None]) -> Iterator[ManyRow]:
    """Runs all calls on so many processes."""
    jobs = [Job(plan, content, scheme, trip) for trip in TRIPS for scheme in SCHEMES[::-1] for content in CONTENTS]
    with multiprocessing.Pool(processes) as pool:
        for job, rows, seconds in pool.imap_unordered(rows_of, jobs):
            told(f"{job.content} {job.scheme} {job.round_trip} ms: {len(rows)} calls, {seconds:.0f} s of a processor")
            yield from rows


def rows_of(job: Job) -> tuple[Job, list[ManyRow], float]:
    """The rows of a job, and the seconds of a processor that it took."""
    began = time.process_time()
    coders.use(job.plan.library)
    video = videos.video(job.plan.room, FORM, job.content)
    asked = _asked(job, video)
    # Each that has a sender of its own is a call by itself, with the losses that it has among eight.
    rows = [
        _row(job, video, asked, members, Ways(_network(job, loss), is_common, draw))
        for loss in LOSSES
        for is_common in (False, True)
        for members in ((1,) if job.scheme == "each" else MEMBERS)
        for draw in range(1, DRAWS + 1)
        if not (job.scheme == "each" and is_common)
    ]
    return job, rows, time.process_time() - began


def _network(job: Job, loss: float) -> Network:
    return Network(loss, 0, job.round_trip * MILLISECOND, WAIT * MILLISECOND)


def _asked(job: Job, video: Video) -> int:
    """What is asked of a coder, so that a call with one receiver that loses nothing has its rate on the wire."""
    asked, tried = round(0.85 * WIRE), []
    for _ in range(_TRIES):
        row = _row(job, video, asked, 1, Ways(_network(job, 0), False, 1))
        off = 1_000 * (row.packets + row.messages) / WIRE
        tried.append((abs(off - 1), asked))
        if abs(off - 1) <= _NEAR:
            break
        asked = round(asked * min(max((WIRE / 1_000 - row.messages) / row.packets, 0.5), 2))
    return min(tried)[1]


def _row(job: Job, video: Video, asked: int, members: int, ways: Ways) -> ManyRow:
    sender, receivers = _ends(job.scheme, asked, members, ways.network, video)
    outcome = GroupCall(sender, receivers, video, ways).outcome()
    where = (members, job.round_trip, ways.network.loss, int(ways.is_common), ways.draw)
    return ManyRow(job.content, job.scheme, *where, asked, **asdict(outcome))


def _ends(scheme: str, asked: int, members: int, network: Network, video: Video) -> tuple[ManySender, list[Receiver]]:
    if scheme in ("group", "each"):
        lib = library.loaded()
        ours = Ours(FORM, asked * PER // (8 * RATE))
        own: list[Any] = [OurReceiver(lib, ours, network.round_trip, network.wait) for _ in range(members)]
        return OurGroup(lib, ours, members), own
    kind = VP8 if scheme == "vp8" else H264
    coder = LiveCoder(kind, video.size, asked)
    chains: list[Any] = [ChainReceiver(kind, video.size, network, False) for _ in range(members)]
    return ForAll(coder, kind, network), chains
