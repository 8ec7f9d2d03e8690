"""What became of the packets of a captured RTP stream: which were lost, and how late the others
came."""

import bisect
import random
from collections import Counter
from dataclasses import dataclass
from pathlib import Path
from typing import Optional, Sequence

from . import pcap, rtp, streams
from ..errors import BadInput
from .numbers import signed
from ..report.traced_way import PERIOD

# A sequence number that leaps by more is another stream's, or made up (RFC 3550, A.1).
MOST_DROPOUT = 3_000
# A stream has no more packets a second than this; more that are missing are made up.
MOST_A_SECOND = 20_000
# Of so many packets one came at least; of others nobody could tell a call's losses.
MOST_TO_ONE = 100
# By this many seconds a packet's timestamp may be away from the capture's clock.
MOST_DRIFT = 10.0
# A call's pictures (docs/COMMANDS.md, "Limits"), and one that is later by more is lost to any call.
MOST_PICTURES = 1_048_576
MOST_LATE = 60
# The clocks of payload types that have a fixed one (RFC 3551, 6), in ticks a second.
_CLOCKS = {**dict.fromkeys((0, 3, 4, 5, 7, 8, 9, 12, 13, 15, 18), 8_000), 6: 16_000, 10: 44_100}
_CLOCKS |= {11: 44_100, 14: 90_000, 16: 11_025, 17: 22_050}


@dataclass(frozen=True)
class Heard:
    """A packet of the stream: when it was sent by its timestamp, in seconds from the first one's,
    and how much later than the quickest one it came; None where it was lost."""

    sent: float
    late: Optional[float]


@dataclass(frozen=True)
class _Arrival:
    # Sequence number and timestamp are counted on over their widths; times are seconds.
    sequence: int
    ticks: int
    time: float


def heard_in(path: Path, port: int, source: Optional[int], clock: Optional[int]) -> list[Heard]:
    """The packets of a capture's only stream to this port, or of the one with this SSRC."""
    with open(path, "rb") as file:
        found = list(pcap.read_capture(file, str(path)))
    stream = streams.stream_in(found, port, source, str(path))
    packets = [it for it in found if it and streams.stream_of(it, port) == stream]
    return _told(_arrivals(packets, str(path)), clock or _clock_of(packets), str(path))


def _clock_of(packets: Sequence[pcap.Datagram]) -> int:
    header = rtp.rtp_header(packets[0].body)
    return _CLOCKS.get(header.payload_type, rtp.CLOCK) if header else rtp.CLOCK


def _arrivals(packets: Sequence[pcap.Datagram], path: str) -> list[_Arrival]:
    # A packet that comes a second time is passed over.
    arrivals: dict[int, _Arrival] = {}
    newest: Optional[_Arrival] = None
    for packet in packets:
        header = rtp.rtp_header(packet.body)
        if header is None:
            continue
        time = (packet.time - packets[0].time) / 10**9
        if newest is None:
            newest = here = _Arrival(header.sequence, header.timestamp, time)
        else:
            ahead = signed(header.sequence - newest.sequence, 16)
            if abs(ahead) > MOST_DROPOUT:
                told = f"its sequence number leaps by {ahead:,}, more than {MOST_DROPOUT:,}"
                raise BadInput(path, f"RTP packet {len(arrivals)}", told)
            ticks = newest.ticks + signed(header.timestamp - newest.ticks, 32)
            here = _Arrival(newest.sequence + ahead, ticks, time)
            newest = here if ahead > 0 else newest
        arrivals.setdefault(here.sequence, here)
    return [arrivals[sequence] for sequence in sorted(arrivals)]


def _told(arrivals: Sequence[_Arrival], clock: int, path: str) -> list[Heard]:
    first = arrivals[0]
    span = max(it.time for it in arrivals) - min(it.time for it in arrivals)
    if span / PERIOD > MOST_PICTURES:
        raise BadInput(path, "its clock", f"{span:,.0f} s is longer than a call can be")
    sent = [(it.ticks - first.ticks) / clock for it in arrivals]
    ways = [it.time - time for it, time in zip(arrivals, sent)]
    quickest = min(ways)
    for number, way in enumerate(ways):
        if way - quickest > MOST_DRIFT + MOST_LATE * PERIOD:
            told = f"its timestamp is {way - quickest:,.0f} s away from the capture's clock"
            raise BadInput(path, f"RTP packet {number}", f"{told}, at {clock:,} ticks a second")
    missing = arrivals[-1].sequence - first.sequence + 1 - len(arrivals)
    if missing > MOST_DROPOUT + min(MOST_A_SECOND * span, MOST_TO_ONE * len(arrivals)):
        told = f"{missing:,} packets are missing, more than {span:,.0f} s can have had"
        raise BadInput(path, "its sequence numbers", told)
    heard: list[Heard] = []
    for number, (arrival, time, way) in enumerate(zip(arrivals, sent, ways)):
        if heard:
            heard += _lost_between(arrivals[number - 1], arrival, heard[-1].sent, time)
        heard.append(Heard(time, way - quickest))
    return heard


def _lost_between(one: _Arrival, other: _Arrival, start: float, end: float) -> list[Heard]:
    # Nobody saw when they were sent: evenly between their neighbours.
    missing = other.sequence - one.sequence - 1
    step = (end - start) / (missing + 1)
    return [Heard(start + step * place, None) for place in range(1, missing + 1)]


class Recorded:
    """The fates of a call's packets, taken from those of a captured stream.

    Packet i of a picture has the fate of the i-th packet that the stream sent from the picture's
    time on. A stream that ends before the call begins anew.
    """

    def __init__(self, heard: Sequence[Heard], delay: int, skipped: int = 0) -> None:
        self._heard, self._delay = sorted(heard, key=lambda it: it.sent), delay
        self._times = [it.sent for it in self._heard]
        self._pictures = pictures_in(heard)
        self._skipped = skipped

    def _at(self, picture: int, place: int) -> Heard:
        tick = (picture + self._skipped) % self._pictures
        first = bisect.bisect_left(self._times, (tick - 0.5) * PERIOD + self._times[0])
        return self._heard[min(first + place, len(self._heard) - 1)]

    def lateness(self, picture: int, place: int) -> Optional[int]:
        """Whole pictures, the delay with them."""
        late = self._at(picture, place).late
        if late is None or late > MOST_LATE * PERIOD:
            return None
        return self._delay + int(late / PERIOD)


class RecordedMessages:
    """Messages that are lost as the stream's packets were that were sent half a capture later."""

    def __init__(self, heard: Sequence[Heard]) -> None:
        self._fates = Recorded(heard, 0, pictures_in(heard) // 2)
        self._number = 0

    def is_lost(self) -> bool:
        """Whether the next message is lost."""
        self._number += 1
        return self._fates.lateness(self._number - 1, 0) is None


def pictures_in(heard: Sequence[Heard]) -> int:
    """How many pictures' times the stream lasted."""
    times = [it.sent for it in heard]
    return int((max(times) - min(times)) / PERIOD + 0.5) + 1


def packets_a_picture(heard: Sequence[Heard]) -> int:
    """The most packets that were sent at one time; a trace has no more than 400 of a picture."""
    return min(max(Counter(it.sent for it in heard).values()), 400)


def seeded_skip(heard: Sequence[Heard], seed: int) -> int:
    """Where in the stream a draw begins: at its start the first, anywhere the others."""
    return 0 if seed == 1 else random.Random(f"start {seed}").randrange(pictures_in(heard))
