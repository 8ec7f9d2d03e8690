"""A bad network between two channels: datagrams come later, twice, out of order, or not at all."""

import heapq
import random
from dataclasses import dataclass
from typing import Callable, Optional

from .loop import Loop
from .loss import GilbertElliott

# Bytes of IP and UDP before each datagram, on a line.
_HEADS = 28
# What waits longer than this before a narrow line is dropped, in seconds.
_QUEUE = 0.5


@dataclass(frozen=True)
class BadNetwork:
    """What a network does to each datagram. Times are seconds, shares from 0 to 1.

    `loss` is the share that is lost, `burst` the mean number lost in a row; each comes `delay`
    later and up to `jitter` more, so that some pass others; `duplicate` is the share that comes
    twice. In an outage, its start and its length, nothing comes. `kbits` a second fit the line.
    """

    loss: float = 0.0
    burst: float = 1.0
    delay: float = 0.0
    jitter: float = 0.0
    duplicate: float = 0.0
    outage: Optional[tuple[float, float]] = None
    kbits: Optional[int] = None
    seed: int = 1


class BadLink:
    """One way through the network."""

    def __init__(self, loop: Loop, network: BadNetwork, name: str, out: Callable[[bytes], None]) -> None:
        self._loop, self._network, self._out = loop, network, out
        self._losses = GilbertElliott(network.loss, network.burst, random.Random(f"{name} {network.seed}"))
        self._draws = random.Random(f"{name} times {network.seed}")
        self._waiting: list[tuple[float, int, bytes]] = []
        self._free = 0.0  # when the line has sent what it took
        self._began: Optional[float] = None
        self.came = self.lost = self.twice = 0

    def take(self, data: bytes) -> None:
        """A datagram enters."""
        now = self._loop.now()
        if self._began is None:
            self._began = now
        self.came += 1
        if self._losses.is_lost() or self._is_out(now - self._began):
            self.lost += 1
            return
        sent = self._through_line(now, len(data))
        if sent is None:
            self.lost += 1
            return
        is_twice = self._draws.random() < self._network.duplicate
        self.twice += is_twice
        for copy in range(1 + is_twice):
            when = sent + self._network.delay + self._draws.random() * self._network.jitter
            if when <= now:
                self._out(data)
            else:
                heapq.heappush(self._waiting, (when, 2 * self.came + copy, data))
                self._loop.at(when, self._give)

    def _is_out(self, second: float) -> bool:
        if not self._network.outage:
            return False
        start, length = self._network.outage
        return start <= second < start + length

    def _through_line(self, now: float, count: int) -> Optional[float]:
        # When a datagram has left the line, or None where too much waits before it.
        if not self._network.kbits:
            return now
        start = max(now, self._free)
        if start - now > _QUEUE:
            return None
        self._free = start + 8 * (count + _HEADS) / (1_000 * self._network.kbits)
        return self._free

    def _give(self) -> None:
        now = self._loop.now()
        while self._waiting and self._waiting[0][0] <= now:
            self._out(heapq.heappop(self._waiting)[2])
