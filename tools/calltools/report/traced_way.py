"""A way of a call from its report, and from the trace that it went over where there is one."""

from dataclasses import dataclass, field
from typing import BinaryIO, Iterator, Optional, Sequence

from ..network import rtp
from ..recording import logs, way
from ..errors import BadInput
from .picture_lines import Picture, Report
from .trace import LINE
from ..y4m import Size

PERIOD = 1001 / 30000


def events_of(lines: Sequence[str], path: str) -> Iterator[tuple[str, float]]:
    """The events of a trace with their times: each capture is a picture's time after the one
    before, and what follows lies between."""
    ticks: list[list[str]] = [[]]
    for number, line in enumerate(lines, 1):
        if not LINE.fullmatch(line):
            raise BadInput(path, f"line {number}", "it says no event")
        if line == "S":
            ticks.append([])
        if line:
            ticks[-1].append(line)
    for tick, events in enumerate(ticks, -1):
        for place, event in enumerate(events):
            yield event, (tick + place / len(events)) * PERIOD


class _Teller:
    """What a trace says of a call's pictures, event by event. `sizes` has the bytes of each
    picture's packets, where they are known."""

    def __init__(self, pictures: list[Picture], lead: int, sizes: dict[int, list[int]]) -> None:
        self.pictures, self.lead, self.sizes = pictures, lead, sizes
        self.captured: list[float] = []
        self.played: list[float] = []
        self.came: dict[int, float] = {}  # of each picture, when the last packet came that was taken
        self.heard: dict[int, float] = {}  # of each message by its number
        self._packets: dict[int, list[way.Packet]] = {}
        self._places: dict[int, set[str]] = {}  # of each picture, what was delivered
        self._taken: dict[int, set[str]] = {}

    def tell(self, event: str, time: float) -> None:
        """One event."""
        if event == "S":
            self.captured.append(time)
        elif event == "P":
            self.played.append(time)
        elif event[0] == "B":
            self.heard.setdefault(int(event[2:]), time)
        else:
            number, place = event[2:].split(".")
            for place in self._meant(int(number), place):
                self._deliver(int(number), place, time)

    def _meant(self, picture: int, place: str) -> list[str]:
        # Each packet by its place, if they are known; one that the picture doesn't have is none.
        if picture not in self.sizes:
            return [place]
        places = list(map(str, range(len(self.sizes[picture]))))
        return places if place == "*" else [place] if place in places else []

    def _deliver(self, picture: int, place: str, time: float) -> None:
        if picture >= len(self.captured):
            return
        played, taken = len(self.played), self._taken.setdefault(picture, set())
        fate = "late" if picture < played else "early" if picture > played + self.lead else "taken"
        if fate == "taken" and taken & {place, "*"}:
            fate = "again"
        if fate == "taken":
            self.came[picture] = time
            taken.add(place)
        self._places.setdefault(picture, set()).add(place)
        size = self.sizes[picture][int(place)] if picture in self.sizes else None
        packet = way.Packet(picture, fate, self.captured[picture], time, size, place == "*")
        self._packets.setdefault(picture, []).append(packet)

    def packets(self) -> Iterator[way.Packet]:
        """Those that came, and those that were lost: each where they are known, else one of each
        picture of which some never came.

        Of a held picture none was taken: a place that the trace names has no packet then."""
        for line, sent in zip(self.pictures, self.captured):
            number, sizes = line.number, self.sizes.get(line.number)
            here = self._packets.get(number, [])
            if line.mark == "held":
                here = [packet for packet in here if packet.fate not in ("taken", "again")]
            yield from here
            if sizes is not None:
                came = self._places.get(number, set())
                lost = [size for place, size in enumerate(sizes) if str(place) not in came]
                yield from (way.Packet(number, "lost", sent, size=size) for size in lost)
            elif not here or line.mark == "patched":
                yield way.Packet(number, "lost", sent, is_all=not here)

    def messages(self) -> Iterator[way.Message]:
        """An ACK of each exact picture when its last packet came, and a NACK at the play of each
        other one; they are numbered in this order, and the trace says which come back."""
        said = []
        for line, played in zip(self.pictures, self.played):
            is_ack = line.mark == "exact" and line.number in self.came
            said.append((self.came[line.number] if is_ack else played, line.number, is_ack))
        for number, (time, picture, is_ack) in enumerate(sorted(said)):
            heard = self.heard.get(number)
            yield way.Message(picture, is_ack, "lost" if heard is None else "taken", time, heard)


@dataclass(frozen=True)
class Trace:
    """The lines of a trace, and what else is known of the call: how many pictures may come before
    their turn, and the sizes of each picture's packets."""

    path: str
    lines: Sequence[str]
    lead: int = 3
    sizes: dict[int, list[int]] = field(default_factory=dict)


def sizes_of(file: BinaryIO, path: str) -> dict[int, list[int]]:
    """The bytes of each picture's packets, from what `send` wrote on WIRE."""
    sizes: dict[int, list[int]] = {}
    for number, entry in enumerate(logs.read_log(file, path)):
        header = rtp.rtp_header(entry.body) if entry.letter == logs.PACKET else None
        if header is None:
            raise BadInput(path, f"entry {number}", "this is no RTP packet")
        sizes.setdefault(header.timestamp // rtp.TICKS_A_PICTURE, []).append(len(entry.body))
    return sizes


def _at(times: Sequence[float], number: int) -> Optional[float]:
    return times[number] if number < len(times) else None


def way_of_report(report: Report, size: Size, trace: Optional[Trace]) -> way.Way:
    """The way of a call. Without a trace pictures are evenly spaced, and no packet is told."""
    count = len(report.pictures)
    if trace is None:
        pictures = [
            way.Picture(line.number, line.mark, line.is_intra, line.reference, line.number * PERIOD)
            for line in report.pictures
        ]
        return way.Way("", size, PERIOD, pictures)
    teller = _Teller(report.pictures, trace.lead, trace.sizes)
    for event, time in events_of(trace.lines, trace.path):
        teller.tell(event, time)
    if len(teller.captured) < count:
        told = f"it sends {len(teller.captured)} of the report's {count} pictures"
        raise BadInput(trace.path, "its end", told)
    pictures = [
        way.Picture(
            line.number,
            line.mark,
            line.is_intra,
            line.reference,
            teller.captured[line.number],
            _at(teller.played, line.number),
        )
        for line in report.pictures
    ]
    return way.Way("", size, PERIOD, pictures, list(teller.packets()), list(teller.messages()))
