"""What came of the calls: a table in Markdown, a short one, and a figure."""

from collections import defaultdict
from dataclasses import dataclass
from typing import Callable, Iterable, Optional

from ..report import svg
from .grid import RATES, Row

NAMES = {
    "ours": "ours",
    "ours+nack": "ours, NACK",
    "ours+fec": "ours, FEC",
    "ours+fec+nack": "ours, FEC, NACK",
    "x264+pli": "x264, PLI",
    "x264+rtx": "x264, RTX",
    "x264+fec+rtx": "x264, FEC, RTX",
    "vp8+pli": "VP8, PLI",
    "vp8+rtx": "VP8, RTX",
    "vp8+fec+rtx": "VP8, FEC, RTX",
    "vp8+ack": "VP8, acknowledged",
}
# Colours and dashes of the figure's lines: a colour for a coder, and a dash for what it does about losses.
_LINES = {
    "ours": ("#2b8a5a", ""),
    "ours+nack": ("#2b8a5a", "6 3"),
    "x264+rtx": ("#8a5fa8", "6 3"),
    "vp8+pli": ("#e6a23c", ""),
    "vp8+rtx": ("#e6a23c", "6 3"),
    "vp8+fec+rtx": ("#c0392b", "2 2"),
    "vp8+ack": ("#5b7fa6", ""),
}


@dataclass(frozen=True, order=True)
class Place:
    """Where calls were made: a format, and a network."""

    form: str
    round_trip: int
    wait: int
    burst: int
    loss: float

    def told(self) -> str:
        """The network in words."""
        lost = f"{100 * self.loss:g} %" + (f" in bursts of {self.burst}" if self.burst else "")
        return f"{self.round_trip} ms, {lost}" + (f", wait {self.wait} ms" if self.wait != 100 else "")


@dataclass(frozen=True)
class Mean:
    """The means over contents and draws; `parity` is after how many packets there is one, where there is."""

    parity: int
    calls: int
    good: float
    longest: float
    psnr: float
    rate: float


def means_of(rows: Iterable[Row]) -> dict[Place, dict[str, Mean]]:
    """The means of each scheme at each place. Of several parities the one with the most good pictures stands."""
    apart: dict[tuple[Place, str], dict[int, list[Row]]] = defaultdict(lambda: defaultdict(list))
    for row in rows:
        place = Place(row.form, row.round_trip, row.wait, row.burst, row.loss)
        apart[place, row.scheme][row.parity].append(row)
    found: dict[Place, dict[str, Mean]] = defaultdict(dict)
    for (place, scheme), parities in apart.items():
        means = [_mean(parity, calls) for parity, calls in parities.items()]
        found[place][scheme] = max(means, key=lambda mean: (round(mean.good, 3), mean.psnr))
    return found


def _mean(parity: int, rows: list[Row]) -> Mean:
    # Each content counts alike.
    by_content: dict[str, list[Row]] = defaultdict(list)
    for row in rows:
        by_content[row.content].append(row)

    def of(value: Callable[[Row], float]) -> float:
        return sum(sum(map(value, found)) / len(found) for found in by_content.values()) / len(by_content)

    rate = of(lambda row: row.packets + row.messages)
    return Mean(
        parity, len(rows), of(lambda row: row.good), of(lambda row: row.longest), of(lambda row: row.psnr), rate
    )


_ABOUT = """# Calls beside other coders

By `tools/compare_coders`, of all its rows. A cell has the good pictures in %, which are, when they are due, what the coder
reconstructed; the longest run of others, a mean of the calls'; and PSNR of Y in dB, a mean of the pictures'. In brackets
stands after how many packets there is one of parity, of 2, 4 and 8 the one with the most good pictures; a rate on the
wire that is off by more than 5 % is said. Each is a mean over three contents, each with one to five draws of the losses
(`NETWORKS` in `grid.py`).
"""


def _schemes_of(found: dict[Place, dict[str, Mean]]) -> list[str]:
    there = {scheme for means in found.values() for scheme in means}
    return [scheme for scheme in NAMES if scheme in there]


def table_of(rows: Iterable[Row]) -> str:
    """All of it."""
    found = means_of(rows)
    schemes = _schemes_of(found)
    lines = [_ABOUT]
    for form, rate in RATES.items():
        lines += [f"## {form.upper()}, {rate // 1000} kbit/s", "", *_head("Round trip, loss", schemes)]
        lines += [
            f"| {place.told()} | " + " | ".join(_cell(found[place].get(scheme), rate) for scheme in schemes) + " |"
            for place in sorted(found)
            if place.form == form
        ]
        lines.append("")
    return "\n".join(lines)


def _head(first: str, schemes: list[str]) -> list[str]:
    return [f"| {first} | " + " | ".join(NAMES[scheme] for scheme in schemes) + " |", "|---" * (len(schemes) + 1) + "|"]


def _cell(mean: Optional[Mean], rate: int) -> str:
    if mean is None:
        return ""
    told = f"{100 * mean.good:.1f}, {mean.longest:.1f}, {mean.psnr:.1f}"
    if mean.parity:
        told += f" ({mean.parity})"
    # A rate that isn't what it was to be is said.
    return told + (f" at {mean.rate:.0f}k" if abs(1000 * mean.rate / rate - 1) > 0.05 else "")


# Of the short table: its columns, and its rows.
_SHORT_OF = ("ours", "ours+nack", "vp8+ack", "vp8+pli", "vp8+rtx", "vp8+fec+rtx")
_SHORT = (
    ("qcif", 100, 0, 0.0),
    ("qcif", 100, 0, 0.05),
    ("qcif", 100, 0, 0.1),
    ("qcif", 100, 3, 0.05),
    ("qcif", 50, 0, 0.05),
    ("qcif", 300, 0, 0.05),
    ("cif", 100, 0, 0.05),
)


def short_of(rows: Iterable[Row]) -> str:
    """What a page has room for: good pictures and PSNR."""
    found = means_of(rows)
    lines = _head("Round trip, lost", list(_SHORT_OF))
    for form, trip, burst, loss in _SHORT:
        place = Place(form, trip, 100, burst, loss)
        if place in found:
            cells = [found[place].get(scheme) for scheme in _SHORT_OF]
            words = " | ".join(f"{100 * mean.good:.0f}/{mean.psnr:.1f}" if mean else "" for mean in cells)
            lines.append(f"| {form.upper()}, {place.told()} | {words} |")
    return "\n".join(lines) + "\n"


_LEFT, _TOP, _WIDTH, _HEIGHT, _GAP = 56, 54, 220, 150, 46


def figure_of(rows: Iterable[Row]) -> str:
    """Good pictures and PSNR of QCIF by the share that is lost by chance: a row of panels for each measure, a column for
    each round trip."""
    found = means_of(rows)
    trips = sorted({place.round_trip for place in found})
    schemes = [scheme for scheme in _schemes_of(found) if scheme in _LINES]
    parts: list[str] = []
    top = _TOP
    for what, value in (("good pictures, %", lambda mean: 100 * mean.good), ("PSNR, dB", lambda mean: mean.psnr)):
        parts += _panels(found, ("qcif", what, value), trips, schemes, top)
        top += _HEIGHT + _GAP
    parts.append(svg.text(_x(1, 5), top, "packets lost by chance", size=12))
    top += 26
    parts += [svg.text(_x(column, 5), 20, f"round trip {trip} ms", size=13) for column, trip in enumerate(trips)]
    for number, scheme in enumerate(schemes):
        x, y = _LEFT + 170 * (number % 4), top + 20 * (number // 4)
        parts += [_line([(x, y - 4), (x + 28, y - 4)], scheme), svg.text(x + 34, y, NAMES[scheme], "start")]
    width = _LEFT + len(trips) * (_WIDTH + _GAP)
    title = "QCIF at equal bits on the wire: good pictures and PSNR by the share of packets that are lost by chance"
    return svg.drawing(width, top + 40, parts, title)


def _x(column: int, per_cent: float) -> float:
    return _LEFT + column * (_WIDTH + _GAP) + _WIDTH * per_cent / 10


def _panels(
    found: dict[Place, dict[str, Mean]],
    measure: tuple[str, str, Callable[[Mean], float]],
    trips: list[int],
    schemes: list[str],
    top: float,
) -> list[str]:
    form, what, value = measure
    places = [place for place in sorted(found) if (place.form, place.wait, place.burst) == (form, 100, 0)]
    values = [value(found[place][scheme]) for place in places for scheme in schemes if scheme in found[place]]
    if not values:
        return []
    step = 20 if what.startswith("good") else 5
    least, most = step * int(min(values) // step), step * -int(-max(values) // step)

    def y(number: float) -> float:
        return top + _HEIGHT * (most - number) / max(most - least, 1)

    parts = [svg.text(14, top - 10, f"{form.upper()}: {what}", "start", 12)]
    for column, trip in enumerate(trips):
        for number in range(least, most + 1, step):
            parts += [svg.line(_x(column, 0), y(number), _x(column, 10), y(number))]
            parts += [svg.text(_x(column, 0) - 6, y(number) + 4, str(number), "end")]
        parts += [svg.text(_x(column, share), top + _HEIGHT + 15, f"{share} %") for share in (0, 5, 10)]
        for scheme in schemes:
            here = [place for place in places if place.round_trip == trip and scheme in found[place]]
            parts.append(
                _line([(_x(column, 100 * place.loss), y(value(found[place][scheme]))) for place in here], scheme)
            )
    return parts


def _line(points: list[tuple[float, float]], scheme: str) -> str:
    colour, dash = _LINES[scheme]
    steps = "M " + " L ".join(f"{x:.1f} {y:.1f}" for x, y in points)
    return svg.path(steps, colour, 2).replace("/>", f' stroke-dasharray="{dash}"/>' if dash else "/>")
