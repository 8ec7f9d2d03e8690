"""The reports of a party of a call: when they are due, what they say, and what is heard."""

import base64
import math
import os
import random
import time
from dataclasses import dataclass
from fractions import Fraction
from typing import Callable, Optional

from ..network.loop import Loop
from ..network.reception import Reception
from ..network.reports import Report, ReportBlock, SenderInfo, compound_bytes
from ..network.rtp import CLOCK, HEADER_BYTES, RtpHeader, rtp_header

# From 1900, where NTP counts from, to 1970.
_EPOCH = 2_208_988_800
# RFC 3550, 6.2 and A.7: the least interval, half of it at first; RTCP's share of the session, and
# of that the senders' where they are few. Reconsideration makes intervals shorter, which the last
# one makes up for.
_LEAST, _SHARE, _SENDERS, _COMPENSATION = 5.0, 0.05, 0.25, math.e - 1.5
_MEMBERS = 2
# Bytes of IP and UDP, which the size of a report counts.
_HEADS = 28
# A longer round trip is none (a forged or an old report), in seconds.
_LONGEST = 60.0


@dataclass(frozen=True)
class Members:
    """Who is in a session: how many, how many of them send, and whether this party does."""

    members: int
    senders: int
    is_sender: bool


def interval(draw: float, who: Members, bandwidth: float, size: float, is_first: bool) -> float:
    """Seconds from a report to the next one (RFC 3550, A.7). `draw` is random, from 0 to 1;
    `bandwidth` is RTCP's in bytes a second, `size` the mean size of a report."""
    speakers = who.members
    if who.senders <= _SENDERS * who.members:
        bandwidth *= _SENDERS if who.is_sender else 1 - _SENDERS
        speakers = who.senders if who.is_sender else who.members - who.senders
    least = _LEAST / 2 if is_first else _LEAST
    return max(least, size * speakers / bandwidth) * (draw + 0.5) / _COMPENSATION


def round_trip(now: int, block: ReportBlock) -> Optional[float]:
    """The round trip of 6.4.1, in seconds, where the block tells one. `now` is the middle of the
    NTP time."""
    trip = ((now - block.last - block.delay) & 0xFFFFFFFF) / 65_536
    return trip if block.last and trip <= _LONGEST else None


class Sent:
    """What went out of one source."""

    def __init__(self, source: int) -> None:
        self.source = source
        self.packets = self.bytes = 0
        self._time: Optional[int] = None
        self._at = 0.0

    def packet(self, header: RtpHeader, size: int, now: float) -> None:
        self.packets += 1
        self.bytes += size
        if header.timestamp != self._time:
            self._time, self._at = header.timestamp, now

    def info(self, ntp: int, now: float) -> SenderInfo:
        """Where the RTP time stands now: it goes on from the last picture's first packet, which
        left within about a millisecond of the capture."""
        assert self._time is not None
        ticks = self._time + round((now - self._at) * CLOCK)
        counts = self.packets & 0xFFFFFFFF, self.bytes & 0xFFFFFFFF
        return SenderInfo(ntp, ticks & 0xFFFFFFFF, *counts)


class Reporting:
    """A party's reports. Whatever comes in changes two numbers that are shown, and no more."""

    def __init__(
        self, loop: Loop, session: float, send: Callable[[bytes], None], rate: Optional[Fraction] = None
    ) -> None:
        """`session` is the bytes a second of the pictures, of which RTCP has a share; `rate` is the camera's."""
        self._loop, self._bandwidth, self._send = loop, session * _SHARE, send
        self._rate = rate
        # The machine's clock is looked at once: NTP times of a call then go on evenly.
        self._epoch = time.time() - loop.now() + _EPOCH
        self._own = random.getrandbits(32)
        # A name for this call alone, which tells nobody anything (RFC 7022).
        self._name = base64.b64encode(os.urandom(12)).decode()
        self._size = 100.0
        self._before = loop.now()
        self._is_first = True
        self._sent: Optional[Sent] = None
        self._told = [0, 0]  # packets sent by the last report and the one before
        self.reception: Optional[Reception] = None
        self._said = 0  # packets that had come by the last report
        self._last: Optional[tuple[int, int, float]] = None
        self.round_trip: Optional[float] = None
        self.loss: Optional[float] = None
        self._plan(loop.now())

    @property
    def source(self) -> int:
        """By which SSRC this party speaks: the one that it sends by."""
        return self._sent.source if self._sent else self._own

    def sent(self, packet: bytes) -> None:
        """A packet goes out."""
        header = rtp_header(packet)
        assert header
        if not self._sent or self._sent.source != header.source:
            self._sent, self._told = Sent(header.source), [0, 0]
        self._sent.packet(header, len(packet) - HEADER_BYTES, self._loop.now())

    def came(self, header: RtpHeader) -> None:
        """A packet of the stream that is followed came."""
        if not self.reception or self.reception.source != header.source:
            self.reception, self._said = Reception(header), 0
        self.reception.packet(header, self._loop.now())

    def heard(self, report: Report, followed: Optional[int]) -> None:
        """The other party's report came, which sends the stream that is followed."""
        now = self._loop.now()
        if report.sent and report.speaker == followed:
            self._last = report.speaker, report.sent.ntp >> 16 & 0xFFFFFFFF, now
        for block in report.blocks:
            if self._sent and block.source == self._sent.source:
                self.loss = block.fraction / 256
                trip = round_trip(self._ntp(now) >> 16 & 0xFFFFFFFF, block)
                self.round_trip = self.round_trip if trip is None else trip

    def size(self, count: int) -> None:
        """A report of so many bytes went out or came in (6.3.3)."""
        self._size += (count + _HEADS - self._size) / 16

    def _ntp(self, now: float) -> int:
        return round((self._epoch + now) * (1 << 32)) & 0xFFFFFFFFFFFFFFFF

    @property
    def _is_sender(self) -> bool:
        # Whether packets went out since the report before the last one (6.4).
        return self._sent is not None and self._sent.packets > self._told[0]

    def _interval(self) -> float:
        hears = self.reception is not None
        who = Members(_MEMBERS, self._is_sender + hears, self._is_sender)
        return interval(random.random(), who, self._bandwidth, self._size, self._is_first)

    def _plan(self, after: float) -> None:
        self._loop.at(after + self._interval(), self._due)

    def _due(self) -> None:
        # The interval is drawn again, since the session may have changed meanwhile (6.3.6).
        now = self._loop.now()
        due = self._before + self._interval()
        if due > now:
            self._loop.at(due, self._due)
            return
        data = compound_bytes(self._report(now), self._name, self._rate)
        self._send(data)
        self.size(len(data))
        self._before, self._is_first = now, False
        self._plan(now)

    def _report(self, now: float) -> Report:
        info = None
        if self._sent:
            info = self._sent.info(self._ntp(now), now) if self._is_sender else None
            self._told = [self._told[1], self._sent.packets]
        return Report(self.source, info, self._blocks(now))

    def _blocks(self, now: float) -> tuple[ReportBlock, ...]:
        # Of a source of which nothing came since the last report, nothing is said (6.4).
        reception = self.reception
        if not reception or reception.came == self._said:
            return ()
        self._said = reception.came
        last = delay = 0
        if self._last and self._last[0] == reception.source:
            last = self._last[1]
            delay = min(round((now - self._last[2]) * 65_536), 0xFFFFFFFF)
        return (reception.block(last, delay),)
