"""The encrypted lines of a call: to another party, by lines of text that the users exchange, or
between two parties of this machine over a bad network."""

import asyncio
import sys
from typing import Callable, Optional

import aioice

from .async_loop import AsyncLoop
from .bad_network import BadLink, BadNetwork
from .call_network import Line, Lines
from ..errors import BadInput
from .introduction import Introduction, read_introduction
from .secure import SecureEnd
from .udp import Address, Channel, LOOPBACK


# A terminal takes half of it.
_MOST_BYTES = 8_192


def _of(ends: list[SecureEnd]) -> list[Line]:
    return [Line(end.media, end.control) for end in ends]


class SecureNetwork(Lines):
    """What `CallNetwork` is, with each party's packets and messages over one encrypted way."""

    def __init__(self, loop: AsyncLoop, ends: list[SecureEnd]) -> None:
        self._loop, self._ends = loop, ends
        self.lines = _of(ends)

    def on_closed(self, call: Callable[[], None]) -> None:
        for end in self._ends:
            end.on_closed = call

    @property
    def strangers(self) -> int:
        """Datagrams that were dropped before their keys were looked at."""
        return sum(end.ice.dropped for end in self._ends) + self._loop.odd

    @property
    def long(self) -> int:
        return 0

    def close(self) -> None:
        self._loop.complete(self._close())

    async def _close(self) -> None:
        await asyncio.gather(*(end.close() for end in self._ends))


class ToAnother(SecureNetwork):
    """To another machine. Each user pastes what the other one's side has said."""

    def __init__(self, loop: AsyncLoop, at: Optional[str], stun: Optional[Address]) -> None:
        super().__init__(loop, [SecureEnd(loop, [at] if at else [], stun)])

    def open(self, say: Callable[[str], None]) -> None:
        try:
            self._introduce(say)
        except KeyboardInterrupt:
            raise BadInput("--secure", "the other side", "interrupted, and not found yet") from None

    def _introduce(self, say: Callable[[str], None]) -> None:
        (end,) = self._ends
        own = self._loop.complete(end.introduction())
        say("send this line to the other side, by a way on which nobody can change it:")
        say(own.line())
        say("and paste the line of the other side:")
        other = _pasted(own, say)
        say(f"this side is  {own.fingerprint}")
        say(f"the other one {other.fingerprint}")
        self._loop.complete(end.connect(own, other))


def _pasted(own: Introduction, say: Callable[[str], None]) -> Introduction:
    """The other side's line. A wrong one is told and asked for again: this side's own one stays as good as it was."""
    while True:
        line = _line()
        try:
            other = read_introduction(line)
            if own.fingerprint != other.fingerprint:
                return other
            raise BadInput("--secure", "the other side's line", "it is this side's own")
        except BadInput as fault:
            if line.strip():
                say(f"{fault}; paste it again:")


def _line() -> str:
    line = part = sys.stdin.buffer.readline(_MOST_BYTES)
    if not line:
        raise BadInput("--secure", "the other side's line", "none was given")
    # What is too long is one line, too.
    while len(part) == _MOST_BYTES and not part.endswith(b"\n"):
        part = sys.stdin.buffer.readline(_MOST_BYTES)
    return line.decode("ascii", "replace")


class WithItself(SecureNetwork):
    """Alone: the two parties have a bad network between them, which sees what anyone on the way
    sees."""

    def __init__(self, loop: AsyncLoop, network: BadNetwork) -> None:
        super().__init__(loop, [SecureEnd(loop, [LOOPBACK]) for _ in range(2)])
        self._network = network
        self.ways = [Channel(loop, (LOOPBACK, 0)) for _ in range(2)]

    def open(self, say: Callable[[str], None]) -> None:
        own = [self._loop.complete(end.introduction()) for end in self._ends]
        near, far = (_address(one) for one in own)
        for way, end in zip(self.ways, (near, far)):
            way.connect(end)
        forth, back = self.ways
        for name, one, other in (("forth", forth, back), ("back", back, forth)):
            one.on_datagram = BadLink(self._loop, self._network, name, other.send).take
        told = [_moved(one, way.address) for one, way in zip(own, reversed(self.ways))]
        self._loop.complete(self._connect(own, told))

    async def _connect(self, own: list[Introduction], told: list[Introduction]) -> None:
        near, far = self._ends
        await asyncio.gather(near.connect(own[0], told[1]), far.connect(own[1], told[0]))

    def close(self) -> None:
        super().close()
        for way in self.ways:
            way.close()


def _address(own: Introduction) -> Address:
    (candidate,) = map(aioice.Candidate.from_sdp, own.candidates)
    return candidate.host, candidate.port


def _moved(own: Introduction, to: Address) -> Introduction:
    # Reached through the bad network's socket.
    candidate = aioice.Candidate.from_sdp(own.candidates[0])
    candidate.host, candidate.port = to
    return Introduction(own.fingerprint, own.user, own.password, (candidate.to_sdp(),))
