"""The chart of a report: a row of pictures, and an arc from each to the picture that it is predicted from. A call of
two parties has a row of each."""

from . import svg
from .picture_lines import MARKS, Picture, Rows

MARGIN, BASE, GAP = 20, 20, 12
# What is written of the lines after the pictures: a report has three at most.
_MOST_LINES, _LONGEST = 8, 200
_SHAPES = {  # how a mark looks where colours can't be told apart: how much of the square is filled
    "exact": 1.0,
    "patched": 0.5,
    "held": 0.15,
    None: 1.0,
}


def chart_of(rows: Rows) -> str:
    """The whole drawing."""
    count = max(map(len, rows.by_letter.values()))
    cell = 24 if count <= 60 else 12 if count <= 240 else 5
    parts: list[str] = []
    below: float = MARGIN
    for letter, pictures in rows.by_letter.items():
        longest = max((p.number - p.reference for p in pictures if p.reference is not None), default=0)
        top = below + min(longest * cell / 2, 160) + 8
        parts += _row(letter, pictures, cell, top)
        below = top + cell + 14 + GAP
    below += 22 - GAP
    shown = {picture.mark for pictures in rows.by_letter.values() for picture in pictures}
    marks = [(svg.COLOURS[mark], mark) for mark in MARKS if mark in shown]
    parts.append(svg.legend(MARGIN, below, marks or [(svg.COLOURS[None], "sent")]))
    words = [line[:_LONGEST] for line in rows.rest if line][:_MOST_LINES]
    parts += [svg.text(MARGIN, below + 18 * row, line, "start") for row, line in enumerate(words, 1)]
    width = max(2 * MARGIN + count * cell, 400)
    return svg.drawing(width, below + 18 * len(words) + BASE, parts, "The pictures of a call and their references")


def _row(letter: str, pictures: list[Picture], cell: int, top: float) -> list[str]:
    # The pictures of one party, with their arcs above and their numbers below.
    parts = [svg.text(MARGIN / 2, top + cell / 2 + 4, letter, size=12)] if letter else []
    parts += [_square(picture, cell, top) for picture in pictures]
    parts += [_arc(picture, cell, top) for picture in pictures if picture.reference is not None]
    every = 1 if cell == 24 else 10 if cell == 12 else 50
    numbers = range(0, len(pictures), every)
    return parts + [svg.text(_middle(number, cell), top + cell + 14, str(number), size=10) for number in numbers]


def _middle(number: int, cell: int) -> float:
    return MARGIN + (number + 0.5) * cell


def _square(picture: Picture, cell: int, top: float) -> str:
    side = cell - max(cell // 6, 1)
    x = _middle(picture.number, cell) - side / 2
    colour = svg.COLOURS[picture.mark]
    filled = side * _SHAPES[picture.mark]
    reference = "intra" if picture.is_intra else "" if picture.reference is None else f"from {picture.reference}"
    title = " ".join(word for word in (str(picture.number), picture.mark, reference) if word)
    parts = [svg.rect(x, top, side, side, svg.LIGHT, title)]
    parts.append(svg.rect(x, top + side - filled, side, filled, colour, title))
    if picture.is_intra and cell == 24:
        parts.append(svg.text(_middle(picture.number, cell), top + side - 6, "I", size=12))
    return "".join(parts)


def _arc(picture: Picture, cell: int, top: float) -> str:
    assert picture.reference is not None
    start, end = _middle(picture.number, cell), _middle(picture.reference, cell)
    # A half circle's height is half its width; longer ones are pressed flat.
    across = (start - end) / 2
    height = min(across, 160)
    colour = svg.COLOURS["exact"] if picture.mark == "exact" else svg.DARK
    return svg.path(f"M {start:g} {top - 2:g} A {across:g} {height:g} 0 0 0 {end:g} {top - 2:g}", colour)
