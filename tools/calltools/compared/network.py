"""What goes between two ends in virtual time, and how it is lost and delayed. Times are in nanoseconds."""

import random
from dataclasses import dataclass
from typing import Any, Optional

from ..network.loss import GilbertElliott, Independent, Losses

SECOND, MILLISECOND = 10**9, 10**6
# Pictures a second, as a fraction.
RATE, PER = 30_000, 1_001
# Bytes before an RTP packet or one of RTCP: IPv4 and UDP. An RTP packet's header (RFC 3550, 5.1).
UNDER_RTP, RTP_HEADER = 28, 12
# The most bytes of an RTP packet, of all coders.
LIMIT = 1_400


# From a picture's capture until its packets go out.
CODING = 5 * MILLISECOND


def capture_of(number: int) -> int:
    """When a picture is captured."""
    return number * PER * SECOND // RATE


@dataclass(frozen=True)
class Network:
    """A way that loses this share of all packets, there and back, by chance, or in bursts of this mean length, and takes
    half the round trip each way; and the wait from a picture's arrival to its play."""

    loss: float
    burst: float
    round_trip: int
    wait: int

    def due_of(self, number: int) -> int:
        """When a picture is to be on the screen."""
        return capture_of(number) + CODING + self.round_trip // 2 + self.wait

    def losses(self, draw: int, direction: int) -> Losses:
        """The losses of a direction, in the order in which packets are sent."""
        draws = random.Random(1_000 * draw + direction)
        if self.burst:
            return GilbertElliott(self.loss, self.burst, draws)
        return Independent(self.loss, draws)


@dataclass
class Packet:
    """A packet of media: of which picture it is, the how many-th of how many, and its bytes on the wire. `told` is what
    the other end reads off it beside its bytes. `sequence` is given where it is sent."""

    picture: int
    place: int
    count: int
    data: bytes
    size: int
    is_key: bool = False
    told: Any = None
    sequence: int = -1


@dataclass
class Parity:
    """A packet with the exclusive or of several (RFC 5109)."""

    of: list[Packet]

    @property
    def size(self) -> int:
        # The packet's own header, that of FEC and of its one level, and as much as the longest packet has to protect.
        return UNDER_RTP + RTP_HEADER + 14 + max(packet.size for packet in self.of) - UNDER_RTP - RTP_HEADER


@dataclass(frozen=True)
class Message:
    """What the receiver says: its kind, what it is about, and its bytes of RTCP (RFC 4585, 6)."""

    kind: str
    about: Any
    length: int

    @property
    def size(self) -> int:
        return UNDER_RTP + self.length


def loss_of_picture() -> Message:
    """A Picture Loss Indication."""
    return Message("pli", None, 12)


def not_there(sequences: list[int]) -> Message:
    """A Generic NACK of these sequence numbers."""
    fields, last = 0, -100
    for sequence in sorted(sequences):
        if sequence > last + 16:
            fields, last = fields + 1, sequence
    return Message("nack", tuple(sequences), 12 + 4 * fields)


def selection(about: Any) -> Message:
    """A Reference Picture Selection Indication of up to six bytes."""
    return Message("selection", about, 20)


class Cover:
    """The sending side of FEC: after so many packets one that covers them, or none."""

    def __init__(self, every: Optional[int]) -> None:
        self._every = every
        self._open: list[Packet] = []

    def after(self, packet: Packet) -> Optional[Parity]:
        """What is to be sent after this packet."""
        if not self._every:
            return None
        self._open.append(packet)
        if len(self._open) < self._every:
            return None
        parity, self._open = Parity(self._open), []
        return parity


class Recovery:
    """The receiving side of FEC: what can be worked out of what came."""

    def __init__(self) -> None:
        self._came: dict[int, Packet] = {}
        self._waiting: list[Parity] = []

    def with_packet(self, packet: Packet) -> list[Packet]:
        """What is there now that wasn't: this packet, unless it was, and those that follow from it."""
        if packet.sequence in self._came:
            return []
        return self._with([packet])

    def with_parity(self, parity: Parity) -> list[Packet]:
        """What follows from a packet of parity."""
        self._waiting = [*self._waiting[-63:], parity]
        return self._with([])

    def _with(self, packets: list[Packet]) -> list[Packet]:
        for packet in packets:
            self._came[packet.sequence] = packet
            self._came.pop(packet.sequence - 512, None)
        still: list[Parity] = []
        found: list[Packet] = []
        for parity in self._waiting:
            lacking = [packet for packet in parity.of if packet.sequence not in self._came]
            if len(lacking) == 1:
                found += lacking
            elif lacking:
                still.append(parity)
        self._waiting = still
        return packets + self._with(found) if found else packets
