"""One call in virtual time: a sender, a receiver, a network, and what came of it."""

import heapq
import itertools
import math
from dataclasses import dataclass
from typing import Any, Callable, Optional, Protocol, Sequence, Union

from ..y4m import Size
from .coders import squares
from .network import CODING, Cover, MILLISECOND, Message, Network, PER, Packet, Parity, RATE, Recovery, capture_of

# Pictures that are sent after the last one that counts, so that each loss has something after it.
AFTER = 12
# A picture is looked at so long after it is due.
_LOOK = MILLISECOND


class Sender(Protocol):
    def code(self, number: int, picture: bytes, now: int) -> list[Packet]:
        """The packets of a picture, with sequence numbers."""

    def hear(self, message: Message, now: int) -> list[Packet]:
        """Takes a message, and says what is sent again."""

    def reference(self, number: int) -> bytes:
        """What a decoder shows of a picture that missed nothing."""


class Receiver(Protocol):
    @property
    def screen(self) -> bytes:
        """What is shown."""

    def take(self, packet: Packet, now: int) -> list[Message]:
        """Takes a packet."""

    def wake(self, now: int) -> list[Message]:
        """Does what is due."""

    def due(self, now: int) -> Optional[int]:
        """When something is due next."""


@dataclass(frozen=True)
class Outcome:
    """Of a call: the share of good pictures, which are those that are, when they are due, what a decoder shows that missed
    nothing; the longest run of others; the mean of the pictures' PSNR of Y in dB; and kbit/s on the wire, of packets,
    repeats and parity, and of messages."""

    good: float
    longest: int
    psnr: float
    packets: float
    messages: float

    @property
    def rate(self) -> float:
        return self.packets + self.messages


@dataclass(frozen=True)
class Video:
    """Pictures of a size, the last of them to have something after those that count."""

    size: Size
    pictures: Sequence[bytes]


@dataclass(frozen=True)
class Line:
    """A network, which draw of its losses, and after how many packets one of parity is sent."""

    network: Network
    draw: int
    every: Optional[int] = None


class Call:
    """The events of a call, in the order of their times."""

    def __init__(self, sender: Sender, receiver: Receiver, video: Video, line: Line) -> None:
        self._sender, self._receiver, self._pictures, self._luma = sender, receiver, video.pictures, video.size.luma
        self._network = line.network
        self._there, self._back = (line.network.losses(line.draw, direction) for direction in (1, 2))
        self._cover, self._recovery = Cover(line.every), Recovery()
        self._events: list[tuple[int, int, str, Any]] = []
        self._ticks = itertools.count()
        self._count = len(self._pictures) - AFTER
        self._end = capture_of(self._count)
        self._forward = self._backward = 0
        self._is_good: list[bool] = []
        self._psnr: list[float] = []
        self._woken: Optional[int] = None

    def outcome(self) -> Outcome:
        """Runs the call."""
        for number in range(len(self._pictures)):
            self._at(capture_of(number), "capture", number)
            if number < self._count:
                self._at(self._network.due_of(number) + _LOOK, "look", number)
        does: dict[str, Callable[[Any, int], None]] = {
            "capture": self._capture,
            "arrival": self._arrival,
            "message": self._message,
            "wake": self._wake,
            "look": self._look,
        }
        while self._events and len(self._is_good) < self._count:
            now, _, what, about = heapq.heappop(self._events)
            does[what](about, now)
        seconds = self._count * PER / RATE
        longest = max((len(list(run)) for good, run in itertools.groupby(self._is_good) if not good), default=0)
        return Outcome(
            sum(self._is_good) / self._count,
            longest,
            sum(self._psnr) / self._count,
            8 * self._forward / 1000 / seconds,
            8 * self._backward / 1000 / seconds,
        )

    def _at(self, time: int, what: str, about: Any) -> None:
        heapq.heappush(self._events, (time, next(self._ticks), what, about))

    def _capture(self, number: int, now: int) -> None:
        for packet in self._sender.code(number, self._pictures[number], now):
            self._send(packet, now + CODING)
            parity = self._cover.after(packet)
            if parity:
                self._send(parity, now + CODING)

    def _send(self, packet: Union[Packet, Parity], now: int) -> None:
        if now < self._end + CODING:
            self._forward += packet.size
        if not self._there.is_lost():
            self._at(now + self._network.round_trip // 2, "arrival", packet)

    def _arrival(self, packet: Union[Packet, Parity], now: int) -> None:
        found = self._recovery.with_parity(packet) if isinstance(packet, Parity) else self._recovery.with_packet(packet)
        for one in found:
            self._say(self._receiver.take(one, now), now)
        self._set_alarm(now)

    def _say(self, messages: list[Message], now: int) -> None:
        for message in messages:
            if now < self._end + self._network.round_trip // 2:
                self._backward += message.size
            if not self._back.is_lost():
                self._at(now + self._network.round_trip // 2, "message", message)

    def _message(self, message: Message, now: int) -> None:
        for packet in self._sender.hear(message, now):
            self._send(packet, now)

    def _set_alarm(self, now: int) -> None:
        due = self._receiver.due(now)
        if due is not None and due != self._woken:
            self._woken = due
            self._at(max(due, now + 1), "wake", None)

    def _wake(self, _: None, now: int) -> None:
        self._say(self._receiver.wake(now), now)
        self._woken = None
        self._set_alarm(now)

    def _look(self, number: int, now: int) -> None:
        screen = self._receiver.screen
        self._is_good.append(screen == self._sender.reference(number))
        error = squares(screen, self._pictures[number], self._luma)
        # A picture without a fault would have no number: one of a fault in one sample does for it.
        self._psnr.append(10 * math.log10(255**2 * self._luma / max(error, 1)))
