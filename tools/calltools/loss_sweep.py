"""Quality under loss at equal bytes: calls over one lossy network, each way of answering losses with a quantiser of its own."""

from dataclasses import dataclass, replace
from functools import cache
from pathlib import Path
from typing import Iterable, Iterator, Optional

from . import lone_ends, plain_coder as plain, y4m
from .report import quality, svg
from .report.trace import Loss, Network, trace

MOST_QUANT = 31


@dataclass(frozen=True)
class Way:
    """How a call answers losses: messages that come back this many pictures late, or none (intra pictures alone).

    With `plain` it is ffmpeg's coder, which hears of no loss: one picture is coded by itself every so often.
    """

    name: str
    back: Optional[int]
    colour: str
    plain: Optional[int] = None


WAYS = (
    Way("acknowledged at once", 0, "#2b8a5a"),
    Way("acknowledged 4 pictures late", 4, "#5b7fa6"),
    Way("intra pictures alone", None, "#e6a23c"),
)
PLAIN_WAYS = (
    Way("ffmpeg, one intra picture", None, "#b03a48", 600),
    Way("ffmpeg, one intra picture in ten", None, "#8a5fa8", 10),
)


@dataclass(frozen=True)
class Point:
    """What a call came to: its quantiser, the bytes of its packets, Y's PSNR of what was shown, and exact pictures."""

    quant: int
    bytes: int
    psnr: float
    exact: float


@dataclass(frozen=True)
class Sweep:
    """One video at one budget of bytes, over networks that lose in bursts; each rate is drawn `seeds` times."""

    call: lone_ends.Call
    size: y4m.Size
    pictures: int
    budget: int
    burst: float
    seeds: int

    def point(self, way: Way, rate: float, first_quant: int) -> Point:
        """The mean over the draws, each with the least quantiser that keeps the budget."""
        found = [self._best(way, rate, seed, first_quant) for seed in range(self.seeds if rate else 1)]
        count = len(found)
        return Point(
            round(sum(point.quant for point in found) / count),
            round(sum(point.bytes for point in found) / count),
            sum(point.psnr for point in found) / count,
            sum(point.exact for point in found) / count,
        )

    def _best(self, way: Way, rate: float, seed: int, quant: int) -> Point:
        # Bytes fall as the quantiser grows; the search begins where the point before ended.
        here = self._run(way, rate, seed, quant)
        while here.bytes > self.budget and here.quant < MOST_QUANT:
            here = self._run(way, rate, seed, here.quant + 1)
            if here.bytes <= self.budget:
                return here
        while here.quant > 1 and (finer := self._run(way, rate, seed, here.quant - 1)).bytes <= self.budget:
            here = finer
        return here

    def _run(self, way: Way, rate: float, seed: int, quant: int) -> Point:
        # A picture is lost whole or not at all, as where each is one packet.
        network = Network(packets=1, delay=0, jitter=0, hold=0, back=way.back or 0)
        lines = list(trace(self.pictures, network, Loss(rate, rate, self.burst), seed))
        if way.plain is not None:
            return self._run_plain(way.plain, lines, quant)
        call = replace(self.call, options={**self.call.options, "quant": str(quant)})
        if way.back is None:
            lines = [line for line in lines if not line.startswith("B")]
        told = lone_ends.joined_call(call, lines)
        exact = sum(picture.mark == "exact" for picture in told.pictures) / len(told.pictures)
        return Point(quant, lone_ends.bytes_of_packets(call), self._psnr(_samples_of(call.file("shown.y4m"))), exact)

    def _run_plain(self, every: int, lines: list[str], quant: int) -> Point:
        stream = _plain_stream(self.call.video, self.size, quant, every, self.call.room)
        arrived = [f"D {number}.*" in lines for number in range(self.pictures)]
        shown = list(plain.shown_of(stream, arrived, self.size, self.call.room))
        # Exact: it came, and is what a decoder shows that missed nothing.
        exact = sum(came and one == other for came, one, other in zip(arrived, shown, stream.shown))
        return Point(quant, stream.bytes, self._psnr(shown), exact / self.pictures)

    def _psnr(self, shown: Iterable[bytes]) -> float:
        """PSNR of Y over all pictures."""
        pairs = zip(_samples_of(self.call.video), shown)
        return sum((quality.errors_between(self.size, a, b) for a, b in pairs), quality.NO_ERRORS).psnr()[0]


# Losses change nothing of what a plain coder sends.
_plain_stream = cache(plain.coded)


def _samples_of(path: Path) -> Iterator[bytes]:
    with open(path, "rb") as file:
        yield from (frame.samples for frame in y4m.Y4mReader(file, str(path)))


def points_of(sweep: Sweep, rates: list[float], ways: Iterable[Way]) -> Iterator[tuple[Way, list[Point]]]:
    """Each way with its points, one a rate."""
    for way in ways:
        points: list[Point] = []
        for rate in rates:
            points.append(sweep.point(way, rate, points[-1].quant if points else 8))
        yield way, points


def table_of(rates: list[float], found: list[tuple[Way, list[Point]]]) -> str:
    """A table in Markdown."""
    lines = ["| Lost | " + " | ".join(way.name for way, _ in found) + " |", "|---|" + "---|" * len(found)]
    for at, rate in enumerate(rates):
        cells = [
            f"{points[at].psnr:.1f} dB, {100 * points[at].exact:.0f} % exact (quantiser {points[at].quant}, {points[at].bytes:,} bytes)"
            for _, points in found
        ]
        lines.append(f"| {100 * rate:g} % | " + " | ".join(cells) + " |")
    return "\n".join(lines) + "\n"


def figure_of(rates: list[float], found: list[tuple[Way, list[Point]]]) -> str:
    """PSNR by rate, a line for each way."""
    left, top, width, height = 50, 20, 420, 220
    values = [point.psnr for _, points in found for point in points]
    least, most = 5 * int(min(values) // 5), 5 * (int(max(values) // 5) + 1)

    def x(rate: float) -> float:
        return left + width * rate / max(rates[-1], 0.01)

    def y(value: float) -> float:
        return top + height * (most - value) / (most - least)

    parts = []
    for value in range(least, most + 1, 5):
        parts += [
            svg.line(left, y(value), left + width, y(value)),
            svg.text(left - 6, y(value) + 4, f"{value} dB", "end"),
        ]
    parts += [svg.text(x(rate), top + height + 16, f"{100 * rate:g} %") for rate in rates]
    parts.append(svg.text(left + width / 2, top + height + 34, "pictures and messages lost"))
    for way, points in found:
        places = [(x(rate), y(point.psnr)) for rate, point in zip(rates, points)]
        parts.append(svg.path("M " + " L ".join(f"{a:.1f} {b:.1f}" for a, b in places), way.colour, 2))
        parts += [f'<circle cx="{a:.1f}" cy="{b:.1f}" r="3" fill="{way.colour}"/>' for a, b in places]
    below = top + height + 58
    parts += [svg.legend(left, below + 18 * row, [(way.colour, way.name)]) for row, (way, _) in enumerate(found)]
    title = "PSNR of what is shown by loss rate, at equal bytes"
    return svg.drawing(left + width + 30, below + 18 * len(found), parts, title)
