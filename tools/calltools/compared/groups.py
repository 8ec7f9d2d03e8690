"""Calls of one camera and several receivers in virtual time: one sender for all, or one for each."""

import heapq
import itertools
import math
import random
from dataclasses import dataclass
from typing import Any, Callable, Optional, Protocol, Sequence

from ..network.loss import Independent, Losses
from .call import AFTER, Receiver, Video
from .coders import squares
from .network import CODING, MILLISECOND, Message, Network, PER, Packet, RATE, capture_of

# A picture is looked at so long after it is due.
_LOOK = MILLISECOND


class ManySender(Protocol):
    def code(self, number: int, picture: bytes, now: int) -> list[Packet]:
        """The packets of a picture, which go to all."""

    def hear_of(self, receiver: int, message: Message, now: int) -> None:
        """Takes a message of a receiver."""

    def reference(self, number: int) -> bytes:
        """What a decoder shows of a picture that missed nothing."""


@dataclass(frozen=True)
class Ways:
    """What is between the ends: a network, whether a packet is lost for all alike or for each by itself, and which draw it
    is. Messages are lost each by itself."""

    network: Network
    is_common: bool
    draw: int

    def losses(self, direction: int, receiver: int) -> Losses:
        """Those of a direction, there (1) or back (2), of a receiver."""
        return Independent(self.network.loss, random.Random(10_000 * self.draw + 100 * direction + receiver))


@dataclass(frozen=True)
class ManyOutcome:
    """Of a call: the share of good pictures, which are those that are, when they are due, what a decoder shows that missed
    nothing, over all receivers, and of the one that has the fewest; the longest run of others; the mean of PSNR of Y in
    dB; the share of pictures that are predicted from no other; and kbit/s of a receiver's line, of packets to it and of its
    messages."""

    good: float
    least: float
    longest: int
    psnr: float
    keys: float
    packets: float
    messages: float


class GroupCall:
    """The events of a call, in the order of their times."""

    def __init__(self, sender: ManySender, receivers: Sequence[Receiver], video: Video, ways: Ways) -> None:
        self._sender, self._receivers = sender, receivers
        self._pictures, self._luma, self._network = video.pictures, video.size.luma, ways.network
        everybody = range(len(receivers))
        self._there = [ways.losses(1, receiver) for receiver in ([0] if ways.is_common else everybody)]
        self._back = [ways.losses(2, receiver) for receiver in everybody]
        self._events: list[tuple[int, int, str, int, Any]] = []
        self._ticks = itertools.count()
        self._count = len(self._pictures) - AFTER
        self._end = capture_of(self._count)
        self._forward = self._backward = self._keys = 0
        self._is_good: list[list[bool]] = [[] for _ in receivers]
        self._psnr: list[float] = []
        self._woken: list[Optional[int]] = [None for _ in receivers]

    def outcome(self) -> ManyOutcome:
        """Runs the call."""
        for number in range(len(self._pictures)):
            self._at(capture_of(number), "capture", 0, number)
            for receiver in range(len(self._receivers)) if number < self._count else ():
                self._at(self._network.due_of(number) + _LOOK, "look", receiver, number)
        does: dict[str, Callable[[int, Any, int], None]] = {
            "capture": self._capture,
            "arrival": self._arrival,
            "message": self._message,
            "wake": self._wake,
            "look": self._look,
        }
        while self._events and len(self._is_good[-1]) < self._count:
            now, _, what, receiver, about = heapq.heappop(self._events)
            does[what](receiver, about, now)
        return self._found()

    def _found(self) -> ManyOutcome:
        shares = [sum(good) / self._count for good in self._is_good]
        runs = [[len(list(run)) for is_good, run in itertools.groupby(good) if not is_good] for good in self._is_good]
        second = self._count * PER / RATE
        return ManyOutcome(
            sum(shares) / len(shares),
            min(shares),
            max(max(run, default=0) for run in runs),
            sum(self._psnr) / len(self._psnr),
            self._keys / self._count,
            8 * self._forward / 1000 / second,
            8 * self._backward / 1000 / second / len(shares),
        )

    def _at(self, time: int, what: str, receiver: int, about: Any) -> None:
        heapq.heappush(self._events, (time, next(self._ticks), what, receiver, about))

    def _capture(self, _: int, number: int, now: int) -> None:
        packets = self._sender.code(number, self._pictures[number], now)
        counts = number < self._count
        self._keys += counts and packets[0].is_key
        for packet in packets:
            self._forward += packet.size if counts else 0
            is_lost = [losses.is_lost() for losses in self._there]
            for receiver in range(len(self._receivers)):
                if not is_lost[receiver % len(is_lost)]:
                    self._at(now + CODING + self._network.round_trip // 2, "arrival", receiver, packet)

    def _arrival(self, receiver: int, packet: Packet, now: int) -> None:
        self._say(receiver, self._receivers[receiver].take(packet, now), now)
        self._set_alarm(receiver, now)

    def _say(self, receiver: int, messages: list[Message], now: int) -> None:
        for message in messages:
            if now < self._end + self._network.round_trip // 2:
                self._backward += message.size
            if not self._back[receiver].is_lost():
                self._at(now + self._network.round_trip // 2, "message", receiver, message)

    def _message(self, receiver: int, message: Message, now: int) -> None:
        self._sender.hear_of(receiver, message, now)

    def _set_alarm(self, receiver: int, now: int) -> None:
        due = self._receivers[receiver].due(now)
        if due is not None and due != self._woken[receiver]:
            self._woken[receiver] = due
            self._at(max(due, now + 1), "wake", receiver, None)

    def _wake(self, receiver: int, _: None, now: int) -> None:
        self._say(receiver, self._receivers[receiver].wake(now), now)
        self._woken[receiver] = None
        self._set_alarm(receiver, now)

    def _look(self, receiver: int, number: int, now: int) -> None:
        screen = self._receivers[receiver].screen
        self._is_good[receiver].append(screen == self._sender.reference(number))
        error = squares(screen, self._pictures[number], self._luma)
        # A picture without a fault would have no number: one of a fault in one sample does for it.
        self._psnr.append(10 * math.log10(255**2 * self._luma / max(error, 1)))
