"""How long a recorded call's pictures took, and how its losses went."""

from collections import Counter
from dataclasses import dataclass
from pathlib import Path
from typing import Iterator, Optional

from ..errors import BadInput
from .recorded import Record, read_record
from .recorded_ways import Joined, ends_of
from ..report.picture_lines import MARKS


@dataclass(frozen=True)
class CallTimes:
    """A recorded stream, from its capture to the screen; times are by the receiver's clock. By
    picture: when it was captured, when its first packet went out, when it was shown, its mark and
    its reference. The bytes of all packets; when packets came, and of which picture; the rates of the line
    that was followed, by picture; and the share of a processor that its process took, of which nobody knows in a call
    that was cut off."""

    name: str
    first: int
    captured: list[Optional[float]]
    first_out: dict[int, float]
    bytes: int
    shown: list[Optional[float]]
    marks: list[str]
    references: list[Optional[int]]
    arrived: list[tuple[float, int]]
    rates: list[int]
    processor: Optional[float]
    is_one_clock: bool

    @property
    def seconds(self) -> float:
        known = [time for time in self.captured if time is not None]
        return known[-1] - known[0] if known else 0.0

    def to_first_packet(self) -> list[float]:
        known = zip(range(self.first, self.first + len(self.captured)), self.captured)
        return [
            self.first_out[number] - captured
            for number, captured in known
            if captured is not None and number in self.first_out
        ]

    def to_shown(self) -> list[float]:
        """Of the exact pictures."""
        rows = zip(self.captured, self.shown, self.marks)
        return [
            shown - captured
            for captured, shown, mark in rows
            if mark == "exact" and captured is not None and shown is not None
        ]

    def back(self) -> Counter[Optional[int]]:
        """How far references lie back, None for an intra picture."""
        told = enumerate(self.references, self.first)
        return Counter(None if reference is None else n - reference for n, reference in told)

    def wrong_runs(self) -> Counter[int]:
        """Lengths of runs of pictures that aren't exact."""
        runs, length = Counter[int](), 0
        for mark in (*self.marks, "exact"):
            if mark != "exact":
                length += 1
            elif length:
                runs[length] += 1
                length = 0
        return runs

    def silences(self, longest: float) -> Iterator[tuple[float, int, str]]:
        """After each silence of the network longer than this: its length, and the first picture
        of which something came, with its mark."""
        for (before, _), (time, picture) in zip(self.arrived, self.arrived[1:]):
            if time - before > longest and 0 <= picture - self.first < len(self.marks):
                yield time - before, picture, self.marks[picture - self.first]


def read_calls(folder: Path, other: Optional[Path]) -> list[CallTimes]:
    """The streams of a call of which both ends are recorded, in one folder or in those of two
    machines."""
    record = read_record(folder)
    far = read_record(other) if other else None
    for one in (record, far):
        if one:
            one.tell_cut()
    found = [_times_of(joined) for joined in ends_of(record, far).joined if joined.numbers()]
    if not found:
        told = "no stream of it has both ends recorded; --other names the other machine's folder"
        raise BadInput(str(record.path("call.json")), "its runs", told)
    return found


def _times_of(joined: Joined) -> CallTimes:
    numbers, packets = joined.numbers(), joined.sender.packets
    first_out: dict[int, float] = {}
    for place, packet in enumerate(packets):
        if (time := joined.sent(place)) is not None:
            first_out.setdefault(packet.picture, time)
    came = [(packet.time, packets[place].picture) for place, packet in joined.came]
    return CallTimes(
        name=joined.name,
        first=numbers.start,
        captured=[joined.captured(number) for number in numbers],
        first_out=first_out,
        bytes=sum(packet.size for packet in packets),
        shown=[joined.shown(number) for number in numbers],
        marks=[joined.mark(number) for number in numbers],
        references=[joined.sender.pictures[number].reference for number in numbers],
        arrived=[(time, picture) for time, picture in came if time is not None],
        rates=joined.sender.rates,
        processor=_processor(joined.record),
        is_one_clock=joined.is_one_clock,
    )


def _processor(record: Record) -> Optional[float]:
    counts = record.told.get("counts")
    if not isinstance(counts, dict):
        return None
    spent, seconds = _seconds(counts.get("processor_seconds")), _seconds(counts.get("seconds"))
    return spent / seconds if spent and seconds else None


def _seconds(told: object) -> Optional[float]:
    # A record may say anything.
    if isinstance(told, bool) or not isinstance(told, (int, float)) or not 0 < told < 1e9:
        return None
    return float(told)


def _spread(name: str, values: list[float]) -> str:
    if not values:
        return f"{name}: none"
    ordered = sorted(values)
    words = [f"{name}:"]
    for word, share in (("median", 0.5), ("95 %", 0.95), ("99 %", 0.99), ("most", 1.0)):
        value = ordered[min(len(ordered) - 1, int(share * len(ordered)))]
        words.append(f"{word} {1000 * value:.1f}")
    return " ".join(words) + " ms"


def lines_of(call: CallTimes) -> list[str]:
    """What is told of a call."""
    count = Counter(call.marks)
    shown = len(call.marks)
    marks = " ".join(f"{mark} {count[mark]}" for mark in MARKS)
    rate = 8 * call.bytes / max(call.seconds, 1e-9) / 1000
    sent = f"captured {len(call.captured)} in {call.seconds:.1f} s, {rate:.0f} kbit/s"
    back = call.back()
    inter = " ".join(f"{n} back {back[n]}" for n in sorted(n for n in back if n is not None))
    runs = call.wrong_runs()
    wrong = " ".join(f"{length} long {runs[length]}" for length in sorted(runs))
    lines = [
        sent,
        f"shown {shown} {marks}, exact {100 * count['exact'] / max(shown, 1):.1f} %",
        _spread("capture to first packet", call.to_first_packet()),
        _spread("capture to shown, of exact pictures", call.to_shown()),
        f"references: intra {back[None]} {inter}",
        f"runs of wrong pictures: {wrong or 'none'}",
    ]
    if call.rates:
        ordered = sorted(call.rates)
        median = ordered[len(ordered) // 2]
        lines.append(f"line followed: {ordered[0]} to {ordered[-1]} kbit/s, median {median}, last {call.rates[-1]}")
    if call.processor is not None:
        lines.append(f"its process: {100 * call.processor:.1f} % of a processor")
    if not call.is_one_clock:
        lines.append("two clocks: put together so that the quickest packet and message take as long")
    for length, picture, mark in call.silences(0.5):
        lines.append(f"after {length:.2f} s of silence: picture {picture} {mark}")
    return lines
