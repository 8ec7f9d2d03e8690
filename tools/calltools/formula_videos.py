"""Videos by formulas, for times: contents that cost a coder unlike much."""

import random
from dataclasses import dataclass
from typing import Callable, Iterator, Sequence

from . import made_video
from .y4m import Size

# A picture's rows of Y.
Rows = list[bytes]

# Samples between two heights of a surface, and how far a pan goes before it begins again.
CELL = 8
ACROSS, DOWN = 256, 48
# The most that grain changes a sample by, and the change for each byte that is drawn, from 0 up.
GRAIN = 6
DRAWN = bytes(byte % (2 * GRAIN + 1) for byte in range(256))
# The colours of a sample of Y.
TINT = bytes((100 + value // 4) % 256 for value in range(256))
OPPOSITE = bytes(255 - value for value in range(256))


@dataclass(frozen=True)
class Content:
    """A kind of video: its name, what it shows, and its frames by the size and their number."""

    name: str
    shows: str
    frames: Callable[[Size, int], Iterator[bytes]]


def _surface(width: int, height: int, seed: int) -> Rows:
    """Rows of a surface: heights drawn for the corners of cells, and straight slopes between them."""
    draws = random.Random(seed)
    corners = [[draws.randrange(40, 216) for _ in range(width // CELL + 3)] for _ in range(height // CELL + 3)]
    return [_slope(corners[y // CELL], corners[y // CELL + 1], y % CELL, width) for y in range(height)]


def _slope(above: Sequence[int], below: Sequence[int], down: int, width: int) -> bytes:
    """A row between two rows of corners."""
    edge = [up * (CELL - down) + low * down for up, low in zip(above, below)]
    return bytes(
        (edge[x // CELL] * (CELL - x % CELL) + edge[x // CELL + 1] * (x % CELL)) // CELL**2 for x in range(width)
    )


def _picture(rows: Rows) -> bytes:
    """The samples of a picture whose colours follow its luma."""
    colour = b"".join(row[::2] for row in rows[::2]).translate(TINT)
    return b"".join(rows) + colour + colour.translate(OPPOSITE)


class _Scene:
    """A wide textured surface, and a smaller one that moves before it."""

    def __init__(self, size: Size) -> None:
        self.size = size
        self.back = _surface(size.width + 2 * ACROSS, size.height + 2 * CELL + DOWN, 1)
        self.side = size.height // 3
        self.thing = _surface(self.side, self.side, 2)

    def rows(self, x: int, y: int) -> Rows:
        """The part of the surface from a column and a row on."""
        x, y = x % ACROSS, y % DOWN
        return [row[x : x + self.size.width] for row in self.back[y : y + self.size.height]]

    def put_thing(self, rows: Rows, number: int) -> None:
        """Puts the smaller surface where it is in frame `number`."""
        top = self.size.height * 80 // 288
        left = self.size.width * 40 // 352 + 5 * number % (self.size.width * 200 // 352)
        for y, row in enumerate(self.thing, top):
            rows[y] = rows[y][:left] + row + rows[y][left + self.side :]


def _pan(size: Size, count: int) -> Iterator[bytes]:
    scene = _Scene(size)
    for number in range(count):
        yield _picture(scene.rows(6 * number, 3 * number))


def _textures(size: Size, count: int) -> Iterator[bytes]:
    scene = _Scene(size)
    for number in range(count):
        rows = scene.rows(0, 0)
        scene.put_thing(rows, number)
        yield _picture(rows)


def _grain(size: Size, count: int) -> Iterator[bytes]:
    scene, draws = _Scene(size), random.Random(1)
    for number in range(count):
        rows = scene.rows(2 * number, number)
        scene.put_thing(rows, number)
        yield _picture([_with_grain(row, draws) for row in rows])


def _with_grain(row: bytes, draws: random.Random) -> bytes:
    # Samples of a surface are from 40 to 215, so that none leaves its range.
    return bytes(value + change - GRAIN for value, change in zip(row, draws.randbytes(len(row)).translate(DRAWN)))


CONTENTS = (
    Content("grain", "a slow pan over a surface, a thing before it, and a noise of 6", _grain),
    Content("textures", "a surface at rest, and a thing that moves before it", _textures),
    Content("pan", "a surface that goes by, 6 columns and 3 rows a frame", _pan),
    Content("made", "the video of `demo`", lambda size, count: made_video.frames(size, count, 0)),
    Content("still", "its first frame again and again", lambda size, count: made_video.frames(size, count, 0, step=0)),
)
