"""Other coders in virtual time: VP8 and H.264, whose receivers show whole pictures alone, and hold the last one until what is
lost is repaired."""

from dataclasses import dataclass
from typing import Callable, Optional, Protocol

from ..y4m import Size
from .coders import Decoder, Encoder
from .network import (
    LIMIT,
    MILLISECOND,
    Message,
    Network,
    Packet,
    RTP_HEADER,
    SECOND,
    UNDER_RTP,
    loss_of_picture,
    not_there,
    selection,
)

# A packet that was asked for is given up after so long, and a key picture asked for.
_GIVE_UP = SECOND
# Between the end of a round trip and the next time that the same is asked for.
_PATIENCE = 10 * MILLISECOND
# Packets that a sender keeps to send again; a repeat has two bytes more (RFC 4588).
_KEPT, _REPEAT = 512, 2


@dataclass(frozen=True)
class Kind:
    """A coder of libavcodec, its decoder, the seconds of its rate that its buffer holds, and its options."""

    encoder: str
    decoder: str
    buffer: float
    options: str


VP8 = Kind(
    "libvpx",
    "vp8",
    1.0,
    "deadline=realtime;cpu-used=-4;lag-in-frames=0;undershoot-pct=100;overshoot-pct=15;static-thresh=1;max-intra-rate=450;"
    "qmin=2;qmax=63",
)
H264 = Kind(
    "libx264",
    "h264",
    0.5,
    "preset=medium;tune=zerolatency;forced-idr=1;x264-params=keyint=infinite:scenecut=0:threads=1:sliced-threads=0",
)
# libvpx's flags of a picture (vpx/vp8cx.h): which buffers it takes no reference from, and which it leaves as they are.
_NO_REFERENCE = {"last": 1 << 16, "golden": 1 << 17, "altref": 1 << 21}
_NO_UPDATE = {"last": 1 << 18, "golden": 1 << 22, "altref": 1 << 23}
_FORCED = {"last": 0, "golden": 1 << 19, "altref": 1 << 24}
_NO_ENTROPY = 1 << 20
BUFFERS = ("last", "golden", "altref")


@dataclass(frozen=True)
class Coded:
    """A picture's bytes, whether it needs no other, and what a decoder shows that missed nothing."""

    data: bytes
    is_key: bool
    shown: bytes


class Coder(Protocol):
    def code(self, picture: bytes, is_key: bool, flags: int = 0) -> Coded:
        """The next picture."""


class LiveCoder:
    """A coder with a decoder beside it."""

    def __init__(self, kind: Kind, size: Size, rate: int) -> None:
        self._encoder = Encoder(kind.encoder, size, rate, kind.buffer, kind.options)
        self._decoder = Decoder(kind.decoder, size)

    def code(self, picture: bytes, is_key: bool, flags: int = 0) -> Coded:
        data, found = self._encoder.code(picture, is_key, flags)
        return Coded(data, found, self._decoder.decode(data))


class KeptCoder:
    """A coder of one video whose pictures were coded before: as long as no key picture is asked for, nothing changes them.
    The first time that one is, all is coded anew up to there."""

    def __init__(self, kind: Kind, size: Size, rate: int, stream: list[Coded], video: list[bytes]) -> None:
        self._again: Callable[[], LiveCoder] = lambda: LiveCoder(kind, size, rate)
        self._stream, self._video = stream, video
        self._live: Optional[LiveCoder] = None
        self._number = 0

    def code(self, picture: bytes, is_key: bool, flags: int = 0) -> Coded:
        number = self._number
        self._number += 1
        if self._live is None and is_key and number:
            self._live = self._again()
            for before in range(number):
                self._live.code(self._video[before], not before)
        return self._live.code(picture, is_key) if self._live else self._stream[number]


class RivalSender:
    """Sends key pictures when they are asked for, and packets again."""

    def __init__(self, coder: Coder, kind: Kind, network: Network) -> None:
        self._coder, self._kind, self._network = coder, kind, network
        self._references: dict[int, bytes] = {}
        self._kept: dict[int, Packet] = {}
        self._sequence = 0
        self._is_wanted = True
        self._last_key = -SECOND
        self.descriptor = 1

    def code(self, number: int, picture: bytes, now: int) -> list[Packet]:
        is_wanted, self._is_wanted = self._is_wanted, False
        coded = self._coder.code(picture, is_wanted)
        return self._sent(number, coded, None, now)

    def _sent(self, number: int, coded: Coded, told: object, now: int) -> list[Packet]:
        if coded.is_key:
            self._last_key = now
        self._references[number] = coded.shown
        self._references.pop(number - 100, None)
        cut = cut_of_h264(coded.data) if self._kind is H264 else cut_of_vp8(coded.data, self.descriptor)
        return [
            self._packet(Packet(number, place, len(cut), data, size, coded.is_key, told))
            for place, (data, size) in enumerate(cut)
        ]

    def _packet(self, packet: Packet) -> Packet:
        packet.sequence = self._sequence
        self._sequence += 1
        self._kept[packet.sequence] = packet
        self._kept.pop(packet.sequence - _KEPT, None)
        return packet

    def hear(self, message: Message, now: int) -> list[Packet]:
        if message.kind == "nack":
            return [self._repeat(self._kept[sequence]) for sequence in message.about if sequence in self._kept]
        # A key picture that was sent within a round trip is what is asked for.
        if now - self._last_key > self._network.round_trip:
            self._is_wanted = True
        return []

    @staticmethod
    def _repeat(packet: Packet) -> Packet:
        return Packet(
            packet.picture,
            packet.place,
            packet.count,
            packet.data,
            packet.size + _REPEAT,
            packet.is_key,
            packet.told,
            packet.sequence,
        )

    def reference(self, number: int) -> bytes:
        return self._references[number]


def cut_of_vp8(data: bytes, descriptor: int) -> list[tuple[bytes, int]]:
    """The packets of a picture's bytes, and their sizes on the wire (RFC 7741)."""
    return [(part, UNDER_RTP + RTP_HEADER + descriptor + len(part)) for part in _parts_of(data, descriptor)]


def _parts_of(data: bytes, more: int) -> list[bytes]:
    count = -(-len(data) // (LIMIT - RTP_HEADER - more))
    return [data[len(data) * at // count : len(data) * (at + 1) // count] for at in range(count)]


def cut_of_h264(data: bytes) -> list[tuple[bytes, int]]:
    """The same (RFC 6184): parameter sets in a packet of several units, before what is in one or in fragments."""
    sets: list[bytes] = []
    slices: list[bytes] = []
    for unit in _units_of(data):
        kind = unit[0] & 31
        if kind in (7, 8):
            sets.append(unit)
        elif kind in (1, 5):
            slices.append(unit)
    over = UNDER_RTP + RTP_HEADER
    cut = []
    if sets:
        cut.append((_annex_b(sets), over + 1 + sum(2 + len(unit) for unit in sets)))
    for unit in slices:
        parts = [unit] if len(unit) <= LIMIT - RTP_HEADER else _parts_of(unit[1:], 2)
        sizes = [over + len(unit)] if len(parts) == 1 else [over + 2 + len(part) for part in parts]
        # A decoder takes units: the first fragment has what stands before a unit, and its first byte.
        parts[0] = _annex_b([unit]) if len(parts) == 1 else b"\0\0\0\1" + unit[:1] + parts[0]
        cut += zip(parts, sizes)
    return cut


def _annex_b(units: list[bytes]) -> bytes:
    return b"".join(b"\0\0\0\1" + unit for unit in units)


def _units_of(data: bytes) -> list[bytes]:
    return [unit.rstrip(b"\0") for unit in data.split(b"\0\0\1")[1:]]


class _Shown:
    """Pictures that were decoded and wait for their time, and the one on the screen."""

    def __init__(self, size: Size, network: Network) -> None:
        self._network = network
        self._pictures: dict[int, bytes] = {}
        self._next = 0
        self._last = -1
        self.screen = bytes(size.bytes)

    def has(self, number: int, picture: bytes) -> None:
        """A picture was decoded. One that is late is on the screen until the next one is due."""
        self._pictures[number] = picture
        if number < self._next:
            self._show(number)

    def play(self, now: int) -> None:
        """Shows what is due by now."""
        while self._network.due_of(self._next) <= now:
            self._show(self._next)
            self._next += 1

    def _show(self, number: int) -> None:
        picture = self._pictures.pop(number, None)
        if picture is not None and number > self._last:
            self.screen, self._last = picture, number

    def due(self) -> int:
        return self._network.due_of(self._next)


class Missing:
    """Sequence numbers of packets that haven't come: since when, and when they were last asked for."""

    def __init__(self, network: Network) -> None:
        self._network = network
        self._times: dict[int, tuple[int, int]] = {}
        self.top = -1

    def came(self, sequence: int, now: int) -> None:
        for before in range(self.top + 1, sequence):
            self._times[before] = now, -SECOND
        self.top = max(self.top, sequence)
        self._times.pop(sequence, None)

    def forgotten(self) -> bool:
        """Whether there were any: there are none any more."""
        found = bool(self._times)
        self._times.clear()
        return found

    def given_up(self, now: int) -> bool:
        """Whether there were any that are missing for too long: they are forgotten."""
        before = len(self._times)
        self._times = {sequence: times for sequence, times in self._times.items() if now - times[0] <= _GIVE_UP}
        return len(self._times) < before

    def asked(self, now: int, is_wanted: Callable[[int], bool]) -> list[Message]:
        """What asks for those that are wanted, each once in a round trip."""
        patience = self._network.round_trip + _PATIENCE
        again = [one for one, (_, asked) in self._times.items() if now - asked >= patience and is_wanted(one)]
        self._times.update((one, (self._times[one][0], now)) for one in again)
        return [not_there(again)] if again else []


class ChainReceiver:
    """Each picture is predicted from the one before: a picture is decoded when it is whole and that one was, or when it is a
    key picture. What is lost is asked for again, or a key picture is."""

    def __init__(self, kind: Kind, size: Size, network: Network, repairs: bool, every: Optional[int] = None) -> None:
        self._decoder: Callable[[], Decoder] = lambda: Decoder(kind.decoder, size)
        self._now_decoding = self._decoder()
        self._network, self._repairs, self._every = network, repairs, every or 1
        self._shown = _Shown(size, network)
        self._parts: dict[int, dict[int, Packet]] = {}
        self._next = 0
        self._is_broken = False
        self._missing = Missing(network)
        self._asked = -SECOND

    @property
    def screen(self) -> bytes:
        return self._shown.screen

    def take(self, packet: Packet, now: int) -> list[Message]:
        self._missing.came(packet.sequence, now)
        if not self._repairs and self._missing.forgotten():
            self._is_broken = True
        if packet.picture >= self._next:
            self._parts.setdefault(packet.picture, {})[packet.place] = packet
        self._decode()
        return self._ask(now)

    def wake(self, now: int) -> list[Message]:
        self._shown.play(now)
        return self._ask(now)

    def due(self, now: int) -> Optional[int]:
        return self._shown.due()

    def _decode(self) -> None:
        while True:
            number = self._first_that_can()
            if number is None:
                return
            parts = self._parts[number]
            if parts[0].is_key:
                self._now_decoding = self._decoder()
            data = b"".join(parts[place].data for place in sorted(parts))
            self._shown.has(number, self._now_decoding.decode(data))
            self._parts = {other: rest for other, rest in self._parts.items() if other > number}
            self._next, self._is_broken = number + 1, False

    def _first_that_can(self) -> Optional[int]:
        whole = [number for number, parts in self._parts.items() if len(parts) == next(iter(parts.values())).count]
        if self._next in whole and not self._is_broken:
            return self._next
        return max((number for number in whole if self._parts[number][0].is_key), default=None)

    def _ask(self, now: int) -> list[Message]:
        if self._missing.given_up(now):
            self._is_broken = True
        messages = self._missing.asked(now, self._is_to_be_asked)
        if self._is_broken and now - self._asked > self._network.round_trip + 4 * _PATIENCE:
            self._asked = now
            messages.append(loss_of_picture())
        return messages

    def _is_to_be_asked(self, sequence: int) -> bool:
        # What parity may still bring isn't asked for: that of its group comes before the next group's first packet.
        return self._every == 1 or self._missing.top // self._every > sequence // self._every


class AcknowledgingSender(RivalSender):
    """VP8 that predicts from a picture alone of which it knows that it came. One of the three buffers has that picture,
    the two others pictures that aren't acknowledged yet."""

    def __init__(self, coder: Coder, kind: Kind, network: Network) -> None:
        super().__init__(coder, kind, network)
        # With a picture's number of seven bits, which messages are about.
        self.descriptor = 3
        self._holds: dict[str, int] = {}
        self._waiting: dict[int, tuple[str, int]] = {}
        # The buffer with the reference, and since when it is one that isn't acknowledged.
        self._from = "golden"
        self._since: Optional[int] = None

    def code(self, number: int, picture: bytes, now: int) -> list[Packet]:
        patience = self._network.round_trip + 4 * _PATIENCE
        self._waiting = {one: kept for one, kept in self._waiting.items() if now - kept[1] <= patience}
        if not number or (self._since is not None and now - self._since > patience):
            return self._key(number, picture, now)
        put = self._place(now)
        flags = _NO_ENTROPY
        for name in BUFFERS:
            flags |= 0 if name == self._from else _NO_REFERENCE[name]
            flags |= _FORCED[name] if name == put else _NO_UPDATE[name]
        told = self._holds[self._from], self._from, put
        coded = self._coder.code(picture, False, flags)
        if put:
            self._holds[put], self._waiting[number] = number, (put, now)
        return self._sent(number, coded, told, now)

    def _key(self, number: int, picture: bytes, now: int) -> list[Packet]:
        coded = self._coder.code(picture, True)
        self._holds = dict.fromkeys(BUFFERS, number)
        self._waiting = {number: ("golden", now)}
        self._from, self._since = "golden", now
        return self._sent(number, coded, (None, "golden", None), now)

    def _place(self, now: int) -> Optional[str]:
        """The buffer that takes this picture: candidates are spread over the round trip."""
        busy = {self._from, *(name for name, _ in self._waiting.values())}
        free = [name for name in BUFFERS if name not in busy]
        newest = max((since for _, since in self._waiting.values()), default=-SECOND)
        return free[0] if free and now - newest >= self._network.round_trip // 2 - _PATIENCE else None

    def hear(self, message: Message, now: int) -> list[Packet]:
        if message.kind == "nack":
            return super().hear(message, now)
        number = message.about
        if number in self._waiting:
            name, _ = self._waiting[number]
            if self._holds[name] == number:
                self._from, self._since = name, None
            # Older ones were lost, or are of no use any more.
            self._waiting = {other: kept for other, kept in self._waiting.items() if other > number}
        return []


class AcknowledgingReceiver:
    """Decodes each whole picture whose reference its buffers have, and acknowledges those that a buffer keeps. Packets are
    asked for again until the first picture is there."""

    def __init__(self, kind: Kind, size: Size, network: Network) -> None:
        self._decoder = Decoder(kind.decoder, size)
        self._shown = _Shown(size, network)
        self._missing = Missing(network)
        self._parts: dict[int, dict[int, Packet]] = {}
        self._holds: dict[str, int] = {}
        self._newest = 0

    @property
    def screen(self) -> bytes:
        return self._shown.screen

    def take(self, packet: Packet, now: int) -> list[Message]:
        self._missing.came(packet.sequence, now)
        self._newest = max(self._newest, packet.picture)
        self._parts.setdefault(packet.picture, {})[packet.place] = packet
        messages = []
        for number in sorted(self._parts):
            parts = self._parts[number]
            if len(parts) == parts[next(iter(parts))].count and self._can(parts[0]):
                messages += self._decode(number, self._parts.pop(number))
        self._parts = {number: parts for number, parts in self._parts.items() if number > self._newest - 40}
        return messages + self._ask(now)

    def _can(self, packet: Packet) -> bool:
        # A buffer that has something newer by now isn't overwritten.
        reference, source, put = packet.told
        if packet.is_key:
            return packet.picture > max(self._holds.values(), default=-1)
        return self._holds.get(source) == reference and (not put or self._holds[put] < packet.picture)

    def _decode(self, number: int, parts: dict[int, Packet]) -> list[Message]:
        _, _, put = parts[0].told
        self._shown.has(number, self._decoder.decode(b"".join(parts[place].data for place in sorted(parts))))
        if parts[0].is_key:
            self._holds = dict.fromkeys(BUFFERS, number)
        elif put:
            self._holds[put] = number
        return [selection(number)] if put or parts[0].is_key else []

    def _ask(self, now: int) -> list[Message]:
        self._missing.given_up(now)
        return [] if self._holds else self._missing.asked(now, lambda _: True)

    def wake(self, now: int) -> list[Message]:
        self._shown.play(now)
        return self._ask(now)

    def due(self, now: int) -> Optional[int]:
        return self._shown.due()
