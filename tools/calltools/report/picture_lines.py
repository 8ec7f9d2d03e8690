"""The report of `call`, `send`, `recv`, `duplex` and `group`: a line a picture, and counts at the end. A
line of `duplex` begins with the letter of the party whose picture it is, one of `group` with its receiver's
number."""

import re
from dataclasses import dataclass
from typing import Iterable, Optional

from ..errors import BadInput

MARKS = ("exact", "patched", "held")
# Lines that may follow the pictures: a command has a few.
_MOST_OTHERS = 100_000
_WHOSE = r"(?:([ab]|[1-3](?= \d+ (?:exact|patched|held) )) )?"
_PICTURE = re.compile(rf"{_WHOSE}(\d{{1,7}})(?: (exact|patched|held))?(?: (intra)| from (\d{{1,7}}))?")


@dataclass(frozen=True)
class Picture:
    """A line of a report. `mark` is None where nothing was shown (`send`); `is_intra` and
    `reference` are False and None where the report doesn't tell them (`recv`)."""

    number: int
    mark: Optional[str]
    is_intra: bool
    reference: Optional[int]


@dataclass(frozen=True)
class Report:
    """The pictures in their order, and the lines after them: counts, a refusal or none."""

    pictures: list[Picture]
    rest: list[str]


@dataclass(frozen=True)
class Rows:
    """A report of any command: the pictures of each party by its letter, a before b, or of each receiver by its
    number. The pictures of a command with one of them have the empty letter."""

    by_letter: dict[str, list[Picture]]
    rest: list[str]


def read_rows(lines: Iterable[str], path: str, first: int = 0) -> Rows:
    """Reads a report. A party's pictures count up from 0, or from the first one that is told, and each reference is an
    earlier one."""
    found: dict[str, list[Picture]] = {}
    rest: list[str] = []
    for number, line in enumerate(lines, 1):
        text = line.rstrip("\n")
        fields = _PICTURE.fullmatch(text)
        if not fields or rest:
            if len(rest) == _MOST_OTHERS:
                raise BadInput(path, f"line {number}", f"more than {_MOST_OTHERS:,} lines follow its pictures")
            rest.append(text)
            continue
        row = found.setdefault(fields[1] or "", [])
        row.append(_picture(fields, first + len(row), path, number))
    if not found:
        raise BadInput(path, "line 1", "the report has no picture")
    if len(found) > 1 and "" in found:
        raise BadInput(path, "line 1", "some of its lines say whose they are, and some don't")
    return Rows(dict(sorted(found.items())), rest)


def _picture(fields: re.Match[str], wanted: int, path: str, number: int) -> Picture:
    picture = Picture(
        number=int(fields[2]),
        mark=fields[3],
        is_intra=fields[4] is not None,
        reference=None if fields[5] is None else int(fields[5]),
    )
    if picture.number != wanted:
        raise BadInput(path, f"line {number}", f"picture {wanted} is wanted here")
    if picture.reference is not None and picture.reference >= picture.number:
        raise BadInput(path, f"line {number}", "the reference isn't an earlier picture")
    return picture


def read_report(lines: Iterable[str], path: str, first: int = 0) -> Report:
    """Reads a report of one party, or one receiver."""
    rows = read_rows(lines, path, first)
    if "" not in rows.by_letter:
        raise BadInput(path, "line 1", "this is the report of several")
    return Report(rows.by_letter[""], rows.rest)


def whole_pictures(lines: Iterable[str], path: str, first: int = 0) -> list[Picture]:
    """The pictures of a report of one party that may have been cut off: those before what is none."""
    found: list[Picture] = []
    try:
        for number, line in enumerate(lines, 1):
            fields = _PICTURE.fullmatch(line.rstrip("\n"))
            if not fields or fields[1]:
                break
            found.append(_picture(fields, first + len(found), path, number))
    except BadInput:
        pass
    return found


def text_of(report: Report) -> str:
    """The lines of a report, as `call` prints them."""
    lines = []
    for picture in report.pictures:
        reference = "intra" if picture.is_intra else f"from {picture.reference}"
        lines.append(" ".join(word for word in (str(picture.number), picture.mark, reference) if word))
    return "".join(line + "\n" for line in lines + report.rest)
