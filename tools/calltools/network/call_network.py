"""The sockets of a call: to the other party, or alone between two parties over a bad network."""

from dataclasses import dataclass
from typing import Callable, Optional

from .bad_network import BadLink, BadNetwork
from .loop import Loop
from .udp import Address, AnyChannel, Channel


@dataclass(frozen=True)
class Line:
    """A party's two channels: packets go over `media`, messages over `control`."""

    media: AnyChannel
    control: AnyChannel

    @property
    def bytes_out(self) -> int:
        """Bytes of the datagrams that went to the other party."""
        return self.media.bytes_out + self.control.bytes_out

    @property
    def bytes_in(self) -> int:
        """Bytes of the datagrams that came from there."""
        return self.media.bytes_in + self.control.bytes_in

    @property
    def unreached(self) -> int:
        """How often the system said that nobody is there."""
        return self.media.unreached + self.control.unreached


class Lines:
    """The lines of the parties that are on this machine: one, or alone two, of which the first
    has the camera."""

    lines: list[Line]

    def open(self, say: Callable[[str], None]) -> None:
        """Finds the other party, where that takes more than its address."""

    def on_closed(self, call: Callable[[], None]) -> None:
        """Calls when a way closes that has to be held open."""

    @property
    def strangers(self) -> int:
        """Datagrams that came from anyone else."""
        raise NotImplementedError

    @property
    def long(self) -> int:
        """Datagrams that no log could hold."""
        raise NotImplementedError

    def close(self) -> None:
        """Lets go of the sockets."""
        raise NotImplementedError


class CallNetwork(Lines):
    """Sockets without encryption. Messages have the port after that of the packets."""

    def __init__(self, loop: Loop, at: Address, other: Optional[Address], network: BadNetwork) -> None:
        self._loop = loop
        self._channels: list[Channel] = []
        self.lines = [self._to(at, other)] if other else self._alone(at, network)

    @property
    def strangers(self) -> int:
        return sum(channel.strangers for channel in self._channels)

    @property
    def long(self) -> int:
        return sum(channel.long for channel in self._channels)

    def close(self) -> None:
        for channel in self._channels:
            channel.close()

    def _channel(self, at: Address, to: Optional[Address] = None) -> Channel:
        channel = Channel(self._loop, at, to)
        self._channels.append(channel)
        return channel

    def _to(self, at: Address, other: Address) -> Line:
        (host, port), (there, far) = at, other
        media = self._channel((host, port), (there, far))
        return Line(media, self._channel((host, port + 1), (there, far + 1)))

    def _alone(self, at: Address, network: BadNetwork) -> list[Line]:
        # The party with the camera, the network, and the party with the screen at the ports told.
        host, port = at
        near, far = [], []
        for name, own in (("packets", port), ("messages", port + 1)):
            ends = [self._channel((host, number)) for number in (0, 0, 0, own)]
            for one, other in ((ends[0], ends[1]), (ends[2], ends[3])):
                one.connect(other.address)
                other.connect(one.address)
            for one, other, way in ((ends[1], ends[2], "forth"), (ends[2], ends[1], "back")):
                link = BadLink(self._loop, network, f"{name} {way}", other.send)
                one.on_datagram = link.take
            near.append(ends[0])
            far.append(ends[3])
        return [Line(*near), Line(*far)]
