"""A few words of SVG."""

import re
from html import escape as _escape

# What XML has no place for.
_NO_TEXT = re.compile("[^\t\n\x20-\ud7ff\ue000-\ufffd\U00010000-\U0010ffff]")

COLOURS = {"exact": "#2b8a5a", "patched": "#e6a23c", "held": "#c0392b", None: "#5b7fa6"}
LIGHT, DARK = "#d9d9d9", "#333333"


def escape(words: str) -> str:
    """Words as XML has them; a character that it can't have is shown as none."""
    return _escape(_NO_TEXT.sub("\ufffd", words))


def text(x: float, y: float, words: str, anchor: str = "middle", size: int = 11) -> str:
    return f'<text x="{x:g}" y="{y:g}" text-anchor="{anchor}" font-size="{size}">{escape(words)}</text>'


def rect(x: float, y: float, width: float, height: float, fill: str, title: str = "") -> str:
    told = f"<title>{escape(title)}</title>" if title else ""
    return f'<rect x="{x:g}" y="{y:g}" width="{width:g}" height="{height:g}" fill="{fill}">{told}</rect>'


def line(x1: float, y1: float, x2: float, y2: float, stroke: str = LIGHT) -> str:
    return f'<line x1="{x1:g}" y1="{y1:g}" x2="{x2:g}" y2="{y2:g}" stroke="{stroke}"/>'


def path(steps: str, stroke: str = DARK, width: float = 1) -> str:
    return f'<path d="{steps}" fill="none" stroke="{stroke}" stroke-width="{width:g}"/>'


def legend(x: float, y: float, entries: list[tuple[str, str]]) -> str:
    """Squares with a word after each: pairs of a colour and its word."""
    parts = []
    for colour, word in entries:
        parts += [rect(x, y - 9, 10, 10, colour), text(x + 14, y, word, "start")]
        x += 30 + 7 * len(word)
    return "".join(parts)


def drawing(width: float, height: float, parts: list[str], title: str) -> str:
    """A whole file, on white, so that it reads on any page."""
    return (
        f'<svg xmlns="http://www.w3.org/2000/svg" viewBox="0 0 {width:g} {height:g}" width="{width:g}" '
        f'height="{height:g}" font-family="sans-serif" fill="{DARK}"><title>{escape(title)}</title>\n'
        + rect(0, 0, width, height, "#ffffff")
        + "\n"
        + "\n".join(parts)
        + "\n</svg>\n"
    )
