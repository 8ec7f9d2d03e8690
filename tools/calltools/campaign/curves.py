"""What a figure of a campaign shows, by numbers: means of a measure by a column, in lines and
panels."""

import math
from collections import defaultdict
from dataclasses import dataclass
from typing import Any, Optional, Sequence

from ..errors import BadInput
from .calling import Row
from .intervals import Interval, interval_of
from .jobs import LABELS
from .measures import MEASURES

SHARES = {"exact", "patched", "held", "spoilt", "intra", "rate"}
# Of one panel: each line's means by their places.
Lines = dict[str, dict[Any, Interval]]


@dataclass(frozen=True)
class Curves:
    """What a figure shows: a measure by a column, a line for each value of others, a panel for each
    of another."""

    measure: str
    by: str
    lines: tuple[str, ...]
    panels: Optional[str] = None
    title: Optional[str] = None

    def faults(self) -> None:
        """Refuses columns that aren't there."""
        if self.measure not in (*MEASURES, "wall"):
            raise BadInput("--measure", self.measure, f"none of {', '.join(MEASURES)}")
        columns = [self.by, *self.lines, *([self.panels] if self.panels else [])]
        for name in columns:
            if name not in LABELS:
                raise BadInput("the figure", name, f"none of {', '.join(LABELS)}")


def sender_words(row: Row) -> str:
    """A sender in words."""
    if row["sender"] == "plain":
        return f"ffmpeg, an intra picture in {row['every']}"
    return {"acknowledged": "acknowledged references", "intra": "intra pictures alone"}[row["sender"]]


def _told(row: Row, name: str) -> str:
    if name == "sender":
        return sender_words(row)
    value = row[name]
    if name in SHARES and value is not None:
        return f"{100 * value:g} % lost" if name == "rate" else f"{100 * value:g} %"
    named = {"burst": "bursts of", "round_trip": "round trip of"}.get(name, name)
    return str(value) if name in ("video", "network") else f"{named} {_number(value)}"


def _number(value: Any) -> str:
    return f"{value:g}" if isinstance(value, (int, float)) else str(value)


def chosen(rows: Sequence[Row], where: dict[str, str]) -> list[Row]:
    """The rows whose columns have one of these values, or none: a sender that hears nothing has no
    round trip."""
    for name in where:
        if name not in LABELS:
            raise BadInput("--where", name, f"none of {', '.join(LABELS)}")
    wanted = {name: value.split(",") for name, value in where.items()}
    return [
        row for row in rows if all(row[name] is None or _number(row[name]) in values for name, values in wanted.items())
    ]


def points_of(rows: Sequence[Row], curves: Curves) -> dict[str, Lines]:
    """The panels by their names, each with its lines; the lines are in the order of their values."""
    curves.faults()
    used = [
        row
        for row in rows
        if row["status"] == "done" and row[curves.by] is not None and _is_number(row[curves.measure])
    ]
    if not used:
        raise BadInput("the figure", "its rows", "no call of the table is in it")
    names = list(dict.fromkeys(_panel(row, curves) for row in used))
    used.sort(key=lambda row: [(row[name] is None, row[name]) for name in curves.lines])
    found: dict[str, dict[str, dict[Any, list[float]]]] = {name: {} for name in names}
    for row in used:
        told = [_told(row, it) for it in curves.lines if it != "every" and row[it] is not None]
        line = found[_panel(row, curves)].setdefault(", ".join(told) or "all calls", defaultdict(list))
        line[row[curves.by]].append(row[curves.measure])
    return {
        panel: {line: {place: interval_of(points[place]) for place in sorted(points)} for line, points in lines.items()}
        for panel, lines in found.items()
    }


def _is_number(value: Optional[float]) -> bool:
    return value is not None and math.isfinite(value)


def _panel(row: Row, curves: Curves) -> str:
    return _told(row, curves.panels) if curves.panels else ""


def table_of(panels: dict[str, Lines], curves: Curves) -> list[str]:
    """The same as a table in Markdown: means, and half of their intervals."""
    places = sorted({place for lines in panels.values() for points in lines.values() for place in points})
    told = [f"{100 * it:g} %" if curves.by in SHARES else _number(it) for it in places]
    rows = [
        "| " + " | ".join([curves.panels or "", curves.measure, *told]) + " |",
        "|---" * (len(places) + 2) + "|",
    ]
    for panel, lines in panels.items():
        for name, points in lines.items():
            cells = [_cell(points.get(place), curves.measure in SHARES) for place in places]
            rows.append("| " + " | ".join([panel, name, *cells]) + " |")
    return rows


def _cell(found: Optional[Interval], is_share: bool) -> str:
    if found is None:
        return ""
    times, places, unit = (100, 1, " %") if is_share else (1, 1, "")
    mean = f"{times * found.mean:.{places}f}"
    return mean + (f" ± {times * found.half:.{places}f}" if found.count > 1 else "") + unit
