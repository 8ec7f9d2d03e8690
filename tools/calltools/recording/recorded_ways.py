"""The ways of a recorded call: each run of `recv` with the run of `send` that it heard."""

import bisect
from dataclasses import dataclass, replace
from typing import Iterator, Optional, Sequence

from . import way
from ..network.numbers import nearest
from .recorded import Record
from .recorded_ends import CamePacket, Receiver, Sender, receiver_of, sender_of

_SECOND = 90_000
# Rows of a gap of sequence numbers; each says how many packets it stands for.
_MOST_ROWS = 8
# A message comes back at most this much before it is said, in seconds: a busy machine notes a time too late.
_TOO_LATE = 0.05


@dataclass(frozen=True)
class Ends:
    """The runs of a call's ends: those of `recv` with the run of `send` that each heard, and those
    whose other end isn't recorded."""

    joined: list["Joined"]
    received: list[tuple[Record, Receiver]]
    sent: list[tuple[Record, Sender]]


def ends_of(record: Record, other: Optional[Record] = None) -> Ends:
    """All runs of a call. `other` is the folder of the other machine: its sender's pictures come
    here, and ours go there."""
    records = [record] if other is None else [record, other]
    senders = [(at, sender_of(at, number)) for at in records for number in range(len(at.runs("send")))]
    receivers = [(at, receiver_of(at, number)) for at in records for number in range(len(at.runs("recv")))]
    joined, received, heard = [], [], set()
    for at, receiver in receivers:
        if not receiver.packets:
            continue
        found = next((pair for pair in senders if pair[1].source == receiver.source), None)
        if found is None:
            received.append((at, receiver))
            continue
        heard.add(id(found[1]))
        joined.append(Joined(at, receiver, found[1], found[0]))
    return Ends(joined, received, [pair for pair in senders if id(pair[1]) not in heard])


def ways_of(record: Record, other: Optional[Record] = None) -> list[way.Way]:
    """All ways of a call. A run whose other end isn't recorded tells what it knows."""
    ends = ends_of(record, other)
    ways = [one.way() for one in ends.joined]
    ways += [_CameOnly(*one).way() for one in ends.received]
    ways += [_sent_only(*one) for one in ends.sent]
    ways = [one for one in ways if one.pictures]
    return [replace(one, name="") for one in ways] if len(ways) == 1 else ways


def _quickest(times: list[float]) -> float:
    # Of which one in twenty is less, since a busy machine may note a time too late.
    return sorted(times)[len(times) // 20] if times else 0.0


def _add(time: Optional[float], shift: float) -> Optional[float]:
    return None if time is None else time + shift


def _item(times: Sequence[Optional[float]], number: int) -> Optional[float]:
    return times[number] if 0 <= number < len(times) else None


def _rate(sender: Sender, number: int) -> Optional[int]:
    return sender.rates[number] if number < len(sender.rates) else None


def _fate(picture: int, packet: CamePacket, lead: int, is_taken: bool) -> str:
    # By the count of plays before it: what is open is taken, once.
    if picture < packet.played:
        return "late"
    return "early" if picture > packet.played + lead else "again" if is_taken else "taken"


def _run_name(record: Record, number: int) -> str:
    # The folder's name, and which run it was where there are more.
    return record.folder.resolve().name + (f" (run {number})" if number > 1 else "")


class _Unheard:
    """Equal messages by the times at which they were said; each is taken once."""

    def __init__(self, rows: list[tuple[float, int]]) -> None:
        self._rows = sorted(rows)
        self._times = [time for time, _ in self._rows]
        # Of each place, counted from 1, the last one up to it that wasn't taken, or a nearer one on the way there.
        self._last = list(range(len(rows) + 1))

    def take(self, until: float) -> Optional[int]:
        """The number of the last message that was said by this time and isn't taken."""
        at = bisect.bisect_right(self._times, until)
        while self._last[at] != at:
            self._last[at] = self._last[self._last[at]]
            at = self._last[at]
        if not at:
            return None
        self._last[at] = at - 1
        return self._rows[at - 1][1]


class Joined:
    """A run of `recv` and the run of `send` that it heard. Pictures have the sender's
    numbers, the receiver's plus `offset`; times are the receiver's, the sender's plus `shift`."""

    def __init__(self, record: Record, receiver: Receiver, sender: Sender, sent_at: Record) -> None:
        self.record, self.receiver, self.sender = record, receiver, sender
        self.is_one_clock = is_one_clock = sent_at is record
        self.name = _run_name(record, receiver.number)
        if not is_one_clock:
            self.name = f"{_run_name(sent_at, sender.number)} to {self.name}"
        self.came = list(self._came())
        first = sender.packets[self.came[0][0]].picture if self.came else 0
        self.offset = first - first % record.numbers
        self.shift = 0.0 if is_one_clock else self._least_way()
        self.heard = self._heard()
        if not is_one_clock:
            self.shift -= _quickest([heard - self._said(k) for k, heard in self.heard.items()]) / 2
            self.heard = self._heard()

    def _came(self) -> Iterator[tuple[int, CamePacket]]:
        # Each packet that came with its place among those sent.
        count = len(self.sender.packets)
        last = self._joined_at()
        for packet in self.receiver.packets:
            last = nearest(last, packet.sequence - self.sender.first_sequence, 1 << 16)
            if 0 <= last < count:
                yield last, packet

    def _joined_at(self) -> int:
        # About which place among those sent the first packet that came has, by its timestamp.
        since = (self.receiver.packets[0].stamp - self.sender.first_time) % (1 << 32) / _SECOND
        known = [time for time in self.sender.captured if time is not None]
        picture = sum(time - known[0] < since - 0.001 for time in known) if known else 0
        return sum(packet.picture < picture for packet in self.sender.packets)

    def _least_way(self) -> float:
        ways = [
            packet.time - sent
            for place, packet in self.came
            if packet.time is not None and (sent := self.sender.packets[place].time) is not None
        ]
        return _quickest(ways)

    def _said(self, number: int) -> float:
        return self.receiver.said[number].time or 0.0

    def _heard(self) -> dict[int, float]:
        # Of each message that came back, by its place: when.
        rows: dict[bytes, list[tuple[float, int]]] = {}
        for number, said in enumerate(self.receiver.said):
            rows.setdefault(said.body, []).append((self._said(number), number))
        by_body = {body: _Unheard(own) for body, own in rows.items()}
        found: dict[int, float] = {}
        for heard in self.sender.heard:
            time = (heard.time or 0.0) + self.shift
            equal = by_body.get(heard.body)
            if equal and (place := equal.take(time + _TOO_LATE)) is not None:
                found[place] = time
        return found

    def _packets(self) -> Iterator[way.Packet]:
        came, taken = set(), set()
        for place, packet in self.came:
            sent = self.sender.packets[place]
            fate = _fate(sent.picture - self.offset, packet, self.receiver.lead, place in taken)
            came.add(place)
            taken.update([place] if fate == "taken" else [])
            yield way.Packet(sent.picture, fate, _add(sent.time, self.shift), packet.time, sent.size)
        for place, sent in enumerate(self.sender.packets):
            if place not in came:
                yield way.Packet(sent.picture, "lost", _add(sent.time, self.shift), None, sent.size)

    def _messages(self) -> Iterator[way.Message]:
        for number, said in enumerate(self.receiver.said):
            heard = self.heard.get(number)
            fate = "lost" if heard is None else "taken"
            yield way.Message(said.picture + self.offset, said.is_ack, fate, said.time, heard)

    def _picture(self, number: int) -> way.Picture:
        coded, shown = self.sender.pictures[number], self.receiver.pictures[number - self.first]
        played = _item(self.receiver.played, number - self.first)
        return way.Picture(
            number,
            shown.mark,
            coded.is_intra,
            coded.reference,
            self.captured(number),
            played,
            _rate(self.sender, number),
        )

    @property
    def first(self) -> int:
        """The number of the receiver's first picture."""
        return self.offset + self.receiver.first

    def numbers(self) -> range:
        """The numbers of the pictures that were sent and played."""
        last = self.first + len(self.receiver.pictures)
        return range(self.first, min(len(self.sender.pictures), last))

    def captured(self, number: int) -> Optional[float]:
        """When a picture was captured, by the receiver's clock."""
        return _add(_item(self.sender.captured, number), self.shift)

    def mark(self, number: int) -> str:
        return self.receiver.pictures[number - self.first].mark or ""

    def shown(self, number: int) -> Optional[float]:
        """When a picture left the receiver."""
        return _item(self.receiver.shown, number - self.first)

    def sent(self, place: int) -> Optional[float]:
        """When the packet at this place went out, by the receiver's clock."""
        return _add(self.sender.packets[place].time, self.shift)

    def way(self) -> way.Way:
        """The pictures that were sent and played."""
        first, last = self.numbers().start, self.numbers().stop
        return way.Way(
            name=self.name,
            size=self.record.size,
            period=self.record.period,
            pictures=[self._picture(number) for number in self.numbers()],
            packets=list(self._packets()),
            messages=list(self._messages()),
            captured=self.sender.frames[first:last],
            shown=self.receiver.frames[: last - first],
        )


def _sent_only(record: Record, sender: Sender) -> way.Way:
    pictures = [
        way.Picture(
            line.number,
            None,
            line.is_intra,
            line.reference,
            _item(sender.captured, line.number),
            kbits=_rate(sender, line.number),
        )
        for line in sender.pictures
    ]
    packets = [way.Packet(packet.picture, "passed", packet.time, None, packet.size) for packet in sender.packets]
    name = f"sent by {_run_name(record, sender.number)}"
    return way.Way(name, record.size, record.period, pictures, packets, captured=sender.frames)


class _CameOnly:
    """A run of `recv` whose sender isn't recorded. Gaps of the sequence numbers tell what was lost,
    and timestamps when a picture was captured, as if the quickest packet took no time."""

    def __init__(self, record: Record, receiver: Receiver) -> None:
        self.record, self.receiver = record, receiver
        self.start = min(
            (packet.time - packet.stamp / _SECOND for packet in receiver.packets if packet.time is not None),
            default=0.0,
        )

    def _number(self, packet: CamePacket) -> int:
        reference = packet.played if packet.reference is None else packet.reference
        return nearest(packet.played, reference, self.record.numbers)

    def _sent(self, packet: CamePacket) -> float:
        return packet.stamp / _SECOND + self.start

    def _packets(self) -> Iterator[way.Packet]:
        taken: set[int] = set()
        for packet in self.receiver.packets:
            number = self._number(packet)
            fate = _fate(number, packet, self.receiver.lead, packet.sequence in taken)
            taken.update([packet.sequence] if fate == "taken" else [])
            yield way.Packet(number, fate, self._sent(packet), packet.time, packet.size)
        in_order = sorted({packet.sequence: packet for packet in self.receiver.packets}.items())
        for (before, one), (after, other) in zip(in_order, in_order[1:]):
            yield from self._lost(one, other, after - before - 1)

    def _lost(self, one: CamePacket, other: CamePacket, count: int) -> Iterator[way.Packet]:
        # Between two that came: of the pictures between them, shared out evenly. A row stands for all of a picture's,
        # and in a long gap for those of several pictures.
        first = self._number(one) + one.has_marker
        pictures = max(self._number(other) - first + 1, 1)
        rows = min(count, pictures, _MOST_ROWS)
        for row in range(rows):
            step = row * pictures // rows
            sent = self._sent(one) + (step + one.has_marker) * self.record.period
            share = count // rows + (row < count % rows)
            yield way.Packet(first + step, "lost", sent, count=share)

    def way(self) -> way.Way:
        """The pictures that were played."""
        receiver = self.receiver
        captured = {self._number(packet): self._sent(packet) for packet in receiver.packets}
        pictures = [
            way.Picture(
                line.number,
                line.mark,
                captured=captured.get(line.number),
                played=_item(receiver.played, line.number - receiver.first),
            )
            for line in receiver.pictures
        ]
        messages = [way.Message(said.picture, said.is_ack, "passed", said.time) for said in receiver.said]
        return way.Way(
            f"shown to {_run_name(self.record, receiver.number)}",
            self.record.size,
            self.record.period,
            pictures,
            list(self._packets()),
            messages,
            shown=receiver.frames,
        )
