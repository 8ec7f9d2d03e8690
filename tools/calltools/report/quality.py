"""PSNR of pictures, and its drawing beside a report."""

import importlib
import math
from dataclasses import dataclass
from typing import Any, Optional

from . import svg
from .picture_lines import MARKS, Picture
from ..y4m import Size


def _module_or_none(name: str) -> Any:
    try:
        return importlib.import_module(name)
    except ImportError:
        return None


# The sums are the same with it, and quicker.
numpy = _module_or_none("numpy")

_SQUARES = [difference * difference for difference in range(256)]
MOST_DRAWN = 60.0
# A PSNR in dB for where nothing differs, in a page.
SAME = 99.0


@dataclass(frozen=True)
class Errors:
    """Sums of squared differences of Y, Cb and Cr, and of how many samples."""

    sums: tuple[int, int, int]
    samples: tuple[int, int, int]

    def __add__(self, other: "Errors") -> "Errors":
        return Errors(
            tuple(a + b for a, b in zip(self.sums, other.sums)),  # type: ignore[arg-type]
            tuple(a + b for a, b in zip(self.samples, other.samples)),  # type: ignore[arg-type]
        )

    def psnr(self) -> tuple[float, float, float]:
        """PSNR of Y, Cb and Cr in dB, infinite where nothing differs."""
        return tuple(map(_psnr, self.sums, self.samples))  # type: ignore[return-value]


NO_ERRORS = Errors((0, 0, 0), (0, 0, 0))


def _psnr(squares: int, samples: int) -> float:
    return 10 * math.log10(255 * 255 * samples / squares) if squares else math.inf


def _squares_between(one: bytes, other: bytes) -> int:
    if numpy is None:
        return sum(_SQUARES[abs(x - y)] for x, y in zip(one, other))
    left, right = (numpy.frombuffer(plane, numpy.uint8).astype(numpy.int64) for plane in (one, other))
    return int(((left - right) ** 2).sum())


def errors_between(size: Size, one: bytes, other: bytes) -> Errors:
    """The differences of two pictures of one size."""
    pairs = list(zip(size.planes(one), size.planes(other)))
    sums = tuple(0 if a == b else _squares_between(a, b) for a, b in pairs)
    return Errors(sums, tuple(len(a) for a, _ in pairs))  # type: ignore[arg-type]


def curve_of(luma: list[float], pictures: Optional[list[Picture]]) -> str:
    """A line of the luma PSNR of each picture, with a dot in the colour of its mark where there is a report."""
    left, top, height, step = 46, 20, 200, 12 if len(luma) <= 120 else 4
    shown = [min(value, MOST_DRAWN) for value in luma]
    least = 10 * math.floor(min(shown) / 10)
    most = max(10 * math.ceil(max(shown) / 10), least + 10)

    def x(number: int) -> float:
        return left + (number + 0.5) * step

    def y(value: float) -> float:
        return top + height * (most - value) / (most - least)

    width = max(left + step * len(luma) + 20, 320)
    parts = []
    for level in range(least, most + 1, 10):
        parts += [
            svg.line(left, y(level), width - 20, y(level)),
            svg.text(left - 6, y(level) + 4, f"{level} dB", "end"),
        ]
    parts += [svg.text(x(number), top + height + 16, str(number), size=10) for number in range(0, len(luma), 10)]
    parts.append(svg.path("M " + " L ".join(f"{x(n):g} {y(value):.1f}" for n, value in enumerate(shown)), svg.LIGHT, 2))
    marks = [picture.mark for picture in pictures] if pictures else [None] * len(luma)
    for number, (value, mark) in enumerate(zip(shown, marks)):
        parts.append(
            f'<circle cx="{x(number):g}" cy="{y(value):.1f}" r="{min(step / 3, 3.5):.1f}" fill="{svg.COLOURS[mark]}"/>'
        )
    used = [(svg.COLOURS[mark], mark) for mark in MARKS if mark in marks]
    parts.append(svg.legend(left, top + height + 36, used))
    return svg.drawing(width, top + height + 50, parts, "PSNR of Y, picture by picture")
