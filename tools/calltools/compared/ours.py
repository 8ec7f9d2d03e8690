"""These ends in virtual time: the library's sender and session."""

from dataclasses import dataclass
from types import ModuleType
from typing import Any, Optional

from .network import LIMIT, Message, PER, Packet, RATE, UNDER_RTP, not_there, selection

# Pictures that each end keeps, and that may come before their turn: as of the elements by default.
SLOTS, LEAD = 39, 6
# Packets that the sender keeps to send again.
_KEPT = 512
# The pace's room, in targets.
_ROOM = 20


@dataclass(frozen=True)
class Ours:
    """How the two ends are set: the format, the target in bytes a picture, the search's radius, and whether packets are
    asked for again."""

    format: str
    target: int
    radius: int = 7
    repairs: bool = False


class OurSender:
    def __init__(self, lib: ModuleType, asked: Ours, coder: str = "Sender") -> None:
        limits = {"slots": SLOTS, "lead": LEAD}
        self._end = getattr(lib, coder)(lib.Params.of(asked.format, radius=asked.radius, limit=LIMIT, **limits))
        self._pace = lib.Pace(asked.format, target=asked.target, room=_ROOM * asked.target)
        self._beside = lib.Receiver(lib.Params.of(asked.format, **limits))
        self._references: dict[int, bytes] = {}
        self._kept: dict[int, Packet] = {}

    def code(self, number: int, picture: bytes, now: int) -> list[Packet]:
        quant = self._pace.next(self._end)
        coded = self._end.code(picture)
        packets = self._end.packets(coded)
        self._pace.coded(coded, quant, sum(map(len, packets)))
        for data in packets:
            self._beside.packet(data)
        played = self._beside.play()
        assert played.mark == "exact" and played.number == number
        self._references[number] = played.picture
        self._references.pop(number - 100, None)
        is_key = coded.reference is None
        return [self._packet(number, place, len(packets), data, is_key) for place, data in enumerate(packets)]

    def _packet(self, number: int, place: int, count: int, data: bytes, is_key: bool) -> Packet:
        sequence = int.from_bytes(data[2:4], "big")
        packet = Packet(number, place, count, data, UNDER_RTP + len(data), is_key, sequence=sequence)
        self._kept[sequence] = packet
        self._kept.pop(sequence - _KEPT, None)
        return packet

    def hear(self, message: Message, now: int) -> list[Packet]:
        if message.kind == "selection":
            self._end.feedback(message.about)
            return []
        return [self._kept[sequence] for sequence in message.about if sequence in self._kept]

    def reference(self, number: int) -> bytes:
        return self._references[number]


class OurGroup(OurSender):
    """One sender for several receivers, which are there from the start."""

    def __init__(self, lib: ModuleType, asked: Ours, members: int) -> None:
        super().__init__(lib, asked, "Group")
        for receiver in range(members):
            self._end.join(receiver)

    def hear_of(self, receiver: int, message: Message, now: int) -> None:
        """Takes a message of a receiver."""
        self._end.feedback(receiver, message.about)


class OurReceiver:
    def __init__(self, lib: ModuleType, asked: Ours, round_trip: int, wait: int) -> None:
        params = lib.Params.of(asked.format, slots=SLOTS, lead=LEAD)
        self._session = lib.Session(params, rate=RATE, second=PER, wait=wait)
        self._repairs, self._round_trip = asked.repairs, round_trip
        self.screen = bytes(lib.picture_size(asked.format))

    def take(self, packet: Packet, now: int) -> list[Message]:
        arrived = self._session.arrival(packet.data, now)
        messages = [selection(arrived.message)] if arrived.message else []
        if arrived.verdict == "ahead":
            messages += self.wake(now) + self.take(packet, now)
        return messages + self._missing(now)

    def wake(self, now: int) -> list[Message]:
        messages = []
        turn: Any = self._session.play(now)
        while turn:
            if turn.message:
                messages.append(selection(turn.message))
            if turn.run == "followed":
                self.screen = bytes(self._session.shown())
            turn = self._session.play(now)
        return messages + self._missing(now)

    def due(self, now: int) -> Optional[int]:
        due: Optional[int] = self._session.due()
        return due

    def _missing(self, now: int) -> list[Message]:
        if not self._repairs:
            return []
        asked = self._session.missing(self._round_trip, now)
        return [not_there(_sequences_of(*field)) for field in asked]


def _sequences_of(packet: int, following: int) -> list[int]:
    return [packet] + [(packet + 1 + bit) % 2**16 for bit in range(16) if following >> bit & 1]
