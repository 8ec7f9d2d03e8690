"""What a call counts, its line of each second, and its counts at the end."""

from collections import Counter, deque
from dataclasses import dataclass, field
from statistics import median
from typing import Any, Optional

from ..report.picture_lines import MARKS

# A silence this long is told, in seconds.
_SILENT = 2.0


@dataclass
class Tally:
    """Counts of a call so far; the dropped ones by the cause. `thinned` are frames that the line
    had no room for."""

    captured: int = 0
    left_out: int = 0
    thinned: int = 0
    coded: int = 0
    packets_out: int = 0
    packets_in: int = 0
    messages_out: int = 0
    messages_in: int = 0
    asked: int = 0  # packets that this side asked for again, and that it sent again
    repeated: int = 0
    bytes_out: int = 0
    bytes_in: int = 0
    marks: Counter[str] = field(default_factory=Counter)
    dropped: Counter[str] = field(default_factory=Counter)
    begun_anew: int = 0
    unshown: int = 0

    @property
    def shown(self) -> int:
        return sum(self.marks.values())

    def facts(self) -> dict[str, Any]:
        """All counts, for call.json."""
        return {**vars(self), "marks": dict(self.marks), "dropped": dict(self.dropped)}


class Recent:
    """What was seen of late: round trips and references, in pictures."""

    def __init__(self) -> None:
        self._trips: deque[int] = deque(maxlen=30)
        self._back: deque[int] = deque(maxlen=30)
        self.intra = 0
        # Kilobits a second, where the target follows the line.
        self.kbits: Optional[float] = None

    def trip(self, pictures: int) -> None:
        """How many pictures were captured since the one that a message is about."""
        self._trips.append(pictures)

    def reference(self, back: Optional[int]) -> None:
        """How far back a picture's reference lies; None for an intra picture."""
        if back is None:
            self.intra += 1
        else:
            self._back.append(back)

    def words(self) -> str:
        trip = f"{median(self._trips):.0f}" if self._trips else "-"
        back = f"{median(self._back):.0f}" if self._back else "-"
        return f"round trip {trip} references {back} back"


class StatusLine:
    """The line of a second."""

    def __init__(self, has_camera: bool, has_screen: bool) -> None:
        self._has_camera, self._has_screen = has_camera, has_screen
        self._out = self._in = self._thinned = 0

    def line(self, second: float, tally: Tally, recent: Recent, silent: float) -> str:
        """`silent` is since when nothing came for the screen, in seconds."""
        parts = [f"{second:.0f} s"]
        rate_out, rate_in = tally.bytes_out - self._out, tally.bytes_in - self._in
        self._out, self._in = tally.bytes_out, tally.bytes_in
        if self._has_camera:
            parts.append(f"sent {tally.coded} intra {recent.intra} {recent.words()}")
        if self._has_camera and recent.kbits is not None:
            parts.append(f"line {recent.kbits:,.0f} kbit/s")
        if tally.thinned > self._thinned:
            parts.append(f"too narrow: {tally.thinned - self._thinned} frames left out")
            self._thinned = tally.thinned
        if self._has_screen:
            marks = " ".join(f"{mark} {tally.marks[mark]}" for mark in MARKS)
            parts.append(f"shown {tally.shown} {marks}")
        parts.append(f"{rate_out:,} B/s out {rate_in:,} B/s in")
        if self._has_screen and silent >= _SILENT:
            parts.append(f"silent {silent:.0f} s")
        dropped = sum(tally.dropped.values())
        if dropped:
            parts.append(f"dropped {dropped}")
        return " | ".join(parts)


def counts(tally: Tally, has_camera: bool, has_screen: bool) -> list[str]:
    """The lines at the end."""
    lines = []
    if has_camera:
        lines.append(
            f"sent {tally.coded} pictures packets {tally.packets_out} messages in "
            f"{tally.messages_in} left out {tally.left_out}"
        )
        if tally.thinned:
            lines.append(f"frames left out for the line {tally.thinned}")
    if has_screen:
        marks = " ".join(f"{mark} {tally.marks[mark]}" for mark in MARKS)
        lines.append(
            f"shown {tally.shown} pictures {marks} packets {tally.packets_in} messages out "
            f"{tally.messages_out} left out {tally.unshown}"
        )
    if tally.asked or tally.repeated:
        lines.append(f"repair: asked for {tally.asked} packets, sent {tally.repeated} again")
    why = " ".join(f"{cause} {number}" for cause, number in sorted(tally.dropped.items()) if number)
    lines.append(f"dropped datagrams {why or 'none'}; ends begun anew {tally.begun_anew}")
    return lines
