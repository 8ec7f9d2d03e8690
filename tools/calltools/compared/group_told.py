"""What came of the calls of several receivers: the table of all, two in Markdown."""

from __future__ import annotations

import csv
from collections import defaultdict
from dataclasses import asdict, astuple, dataclass, fields
from pathlib import Path
from typing import Callable, Iterable, Optional, TextIO

from ..errors import BadInput
from .group_grid import DRAWS, MEMBERS, ManyRow

NAMES = {"group": "ours, one for all", "each": "ours, one for each", "x264": "x264, PLI", "vp8": "VP8, PLI"}
_TYPES = {
    field.name: {"str": str, "int": int, "float": float}[str(getattr(field.type, "__name__", field.type))]
    for field in fields(ManyRow)
}


def write(path: Path, found: Iterable[ManyRow]) -> None:
    """Writes the rows as they come, and at the end in an order that doesn't depend on which came first."""
    kept = []
    with open(path, "w", encoding="utf-8", newline="") as file:
        writer = _begun(file)
        for row in found:
            kept.append(row)
            writer.writerow(_words_of(row))
            file.flush()
    with open(path, "w", encoding="utf-8", newline="") as file:
        _begun(file).writerows(map(_words_of, sorted(kept, key=astuple)))


def _begun(file: TextIO) -> csv.DictWriter[str]:
    writer = csv.DictWriter(file, list(_TYPES), lineterminator="\n")
    writer.writeheader()
    return writer


def _words_of(row: ManyRow) -> dict[str, object]:
    return {name: f"{value:.6g}" if isinstance(value, float) else value for name, value in asdict(row).items()}


def read(path: Path) -> list[ManyRow]:
    """The rows of a file."""
    with open(path, encoding="utf-8", newline="") as file:
        reader = csv.DictReader(file)
        if reader.fieldnames != list(_TYPES):
            raise BadInput(str(path), "line 1", "it has other columns")
        return [ManyRow(**{name: _TYPES[name](value) for name, value in row.items()}) for row in reader]


@dataclass(frozen=True, order=True)
class Place:
    """Where calls were made."""

    common: int
    round_trip: int
    loss: float
    members: int

    def told(self) -> str:
        """In words."""
        return f"{self.round_trip} ms | {100 * self.loss:g} % | {self.members}"


@dataclass(frozen=True)
class Mean:
    """The means over contents and draws."""

    good: float
    least: float
    longest: float
    psnr: float
    keys: float
    rate: float


def means_of(rows: Iterable[ManyRow]) -> dict[Place, dict[str, Mean]]:
    """The means of each scheme at each place. Who has a sender of its own has no part in how many others there are, or in
    whether they lose the same."""
    apart: dict[tuple[Place, str], list[ManyRow]] = defaultdict(list)
    for row in rows:
        for common in (0, 1) if row.scheme == "each" else (row.common,):
            for members in MEMBERS if row.scheme == "each" else (row.members,):
                apart[Place(common, row.round_trip, row.loss, members), row.scheme].append(row)
    found: dict[Place, dict[str, Mean]] = defaultdict(dict)
    for (place, scheme), calls in apart.items():
        found[place][scheme] = _mean(calls)
    return found


def _mean(rows: list[ManyRow]) -> Mean:
    def of(value: Callable[[ManyRow], float]) -> float:
        return sum(map(value, rows)) / len(rows)

    return Mean(
        of(lambda row: row.good),
        of(lambda row: row.least),
        of(lambda row: row.longest),
        of(lambda row: row.psnr),
        of(lambda row: row.keys),
        of(lambda row: row.packets + row.messages),
    )


_ABOUT = f"""# One camera, several viewers

By `tools/compare_groups`, of all its rows: QCIF, two contents, {DRAWS} draws of the losses each; a picture is due 100 ms after
it can come. Each viewer loses this share of the packets to it, and of its messages back. Each coder is set to 128 kbit/s on a
viewer's line where nothing is lost. A cell has the good pictures in %, which are, when they are due, what the coder
reconstructed, over all viewers and of the one that has the fewest; the longest run of others, over all viewers; PSNR of Y in
dB; the pictures that need no other, in %; and kbit/s on a viewer's line, messages included. The camera's own line carries
that once, if something forwards it, but with one sender for each as often as there are viewers, and each codes anew. x264 and
VP8 send a key picture to all when any viewer asks for one (PLI), at most once in a round trip.
"""


def table_of(rows: Iterable[ManyRow]) -> str:
    """All of it."""
    found = means_of(rows)
    lines = [_ABOUT]
    for common, title in ((0, "Lost by each viewer by itself"), (1, "Lost by all alike")):
        lines += [f"## {title}", "", *_head("Round trip | Lost | Viewers")]
        lines += [
            f"| {place.told()} | " + " | ".join(_cell(found[place].get(scheme)) for scheme in NAMES) + " |"
            for place in sorted(found)
            if place.common == common
        ]
        lines.append("")
    return "\n".join(lines)


def _head(first: str) -> list[str]:
    columns = first.count("|") + 1 + len(NAMES)
    return [f"| {first} | " + " | ".join(NAMES.values()) + " |", "|---" * columns + "|"]


def _cell(mean: Optional[Mean]) -> str:
    if mean is None:
        return ""
    shares = f"{100 * mean.good:.1f} ({100 * mean.least:.1f})"
    return f"{shares}, {mean.longest:.1f}, {mean.psnr:.1f}, {100 * mean.keys:.0f}, {mean.rate:.0f}k"


# Of the short table.
_SHORT = tuple(
    Place(0, trip, loss, members)
    for trip, loss, members in (
        (100, 0.01, 8),
        (100, 0.05, 2),
        (100, 0.05, 8),
        (50, 0.05, 8),
        (300, 0.05, 8),
    )
) + (Place(1, 100, 0.05, 8),)


def short_of(rows: Iterable[ManyRow]) -> str:
    """What a page has room for: good pictures, PSNR, and the pictures that need no other."""
    found = means_of(rows)
    lines = _head("Round trip | Lost | Viewers")
    for place in _SHORT:
        means = [found[place].get(scheme) for scheme in NAMES]
        words = [f"{100 * mean.good:.0f}/{mean.psnr:.1f}/{100 * mean.keys:.0f}" if mean else "" for mean in means]
        where = place.told().replace(" % |", " % of all |" if place.common else " % |")
        lines.append(f"| {where} | " + " | ".join(words) + " |")
    return "\n".join(lines) + "\n"
