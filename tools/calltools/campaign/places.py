"""In which line of a TOML document each table and key stands: `tomllib` doesn't say."""

import re
from typing import Iterator, Union

# A table's path: its name, and of an array of tables the number, counted from 0.
Path = tuple[Union[str, int], ...]

_HEADER = re.compile(r"\s*(\[\[?)\s*([^\[\]#]+?)\s*\]\]?\s*(?:#.*)?$")
_KEY = re.compile(r"\s*([A-Za-z0-9_-]+|\"[^\"]*\"|'[^']*')\s*[=.]")
# Strings, comments and brackets: what says whether a line goes on in the next one.
_MARKS = re.compile(r'"""|\'\'\'|"(?:\\.|[^"\\\n])*"|\'[^\'\n]*\'|#[^\n]*|[\[\]{}]')


def places_of(text: str) -> dict[Path, int]:
    """The line, from 1, of each table's head and of each key in it. The document is well-formed."""
    places: dict[Path, int] = {}
    counts: dict[str, int] = {}
    table: Path = ()
    for number, line in _beginnings(text):
        header = _HEADER.match(line)
        if header:
            name = header[2].strip("\"'")
            table = (name,)
            if header[1] == "[[":
                table = (name, counts.get(name, 0))
                counts[name] = counts.get(name, 0) + 1
            places.setdefault(table, number)
        elif key := _KEY.match(line):
            places.setdefault((*table, key[1].strip("\"'")), number)
    return places


def _beginnings(text: str) -> Iterator[tuple[int, str]]:
    """The lines in which nothing of an earlier one goes on, with their numbers."""
    depth, quotes = 0, ""
    for number, line in enumerate(text.splitlines(), 1):
        if not depth and not quotes:
            yield number, line
            if _HEADER.match(line):
                continue
        for mark in _MARKS.findall(line):
            if quotes:
                quotes = "" if mark == quotes else quotes
            elif mark in ('"""', "'''"):
                quotes = mark
            elif mark in "[{":
                depth += 1
            elif mark in "]}":
                depth -= 1
