"""The lines of any report as facts: what `report_json` writes, a JSON object a line."""

import re
from typing import Iterable, Iterator, Optional, Union

from ..errors import BadInput

Fact = dict[str, Union[str, int, bool, dict[str, int]]]

_NUMBER = r"(\d{1,20})"
# Of `duplex` a line begins with its party's letter, of `group` with its receiver's number.
_WHOSE = r"(?:([ab]|[1-3](?= \d+ (?:exact|patched|held) )) )?"
_PICTURE = re.compile(rf"{_WHOSE}{_NUMBER}(?: (exact|patched|held))?(?: (intra)| from {_NUMBER})?")
_LEVEL = re.compile(rf"{_NUMBER} {_NUMBER} {_NUMBER}")
_COUNTS = re.compile(r"(?:([ab1-3]) )?((?:[a-z]+ \d{1,20} )*[a-z]+ \d{1,20})")
# The first words of lines of counts: what they count.
_COUNTED = {"played": "call", "sent": "call", "pictures": "line", "held": "joiner"}
_AUDITED = re.compile(rf"yes pictures {_NUMBER}|no {_NUMBER} (packet|number|header|overlap|gap|reference)")
# The causes for which an input is refused (docs/FORMATS.md, "Report").
CAUSES = {
    "video": ("not y4m", "size", "interlaced", "colour", "short frame", "too many frames"),
    "trace": ("bad line", "too many lines", "no frame", "not sent", "not said", "play before send"),
    "log": ("bad record", "no frame", "too many records"),
}
CAUSES["video 2"] = CAUSES["video"]
ROLES = ("video", "events", "pictures", "wire", "video 2", "pictures 2")
_REFUSED = re.compile(rf"(video|video 2|trace|log) refused: ([a-z0-9 ]+) at (byte|line) {_NUMBER}")
_FAR = re.compile(rf"trace refused: far at line {_NUMBER}: {_NUMBER} {_NUMBER}")
_ENDS = {"out of memory": "out of memory", "read fault": "a read failed"}


def facts_of(lines: Iterable[str], path: str) -> Iterator[Fact]:
    """A fact for each line, in their order."""
    for number, line in enumerate(lines, 1):
        text = line.rstrip("\n")
        fact = _fact(text)
        if fact is None:
            raise BadInput(path, f"line {number}", "this is no line of a report")
        yield fact


def _fact(text: str) -> Optional[Fact]:
    for reader in (_picture, _level, _audited, _refused, _counts, _end):
        if (fact := reader(text)) is not None:
            return fact
    return None


def _whose(word: Optional[str]) -> Fact:
    if word is None:
        return {}
    return {"receiver": int(word)} if word.isdigit() else {"party": word}


def _picture(text: str) -> Optional[Fact]:
    found = _PICTURE.fullmatch(text)
    if not found:
        return None
    fact: Fact = {**_whose(found[1]), "picture": int(found[2])}
    if found[3]:
        fact["mark"] = found[3]
    if found[4]:
        fact["intra"] = True
    if found[5]:
        fact["from"] = int(found[5])
    return fact


def _level(text: str) -> Optional[Fact]:
    found = _LEVEL.fullmatch(text)
    if not found:
        return None
    return {"picture": int(found[1]), "bytes": int(found[2]), "level": int(found[3])}


def _audited(text: str) -> Optional[Fact]:
    found = _AUDITED.fullmatch(text)
    if not found:
        return None
    if found[1]:
        return {"audit": "yes", "pictures": int(found[1])}
    return {"audit": "no", "picture": int(found[2]), "rule": found[3]}


def _refused(text: str) -> Optional[Fact]:
    if far := _FAR.fullmatch(text):
        line, one, other = map(int, far.groups())
        return {"refused": "trace", "cause": "far", "line": line, "number": one, "reached": other}
    found = _REFUSED.fullmatch(text)
    if not found or found[2] not in CAUSES[found[1]]:
        return None
    return {"refused": found[1], "cause": found[2], found[3]: int(found[4])}


def _counts(text: str) -> Optional[Fact]:
    found = _COUNTS.fullmatch(text)
    words = found[2].split() if found else [""]
    if not found or words[0] not in _COUNTED:
        return None
    counts = {name: int(number) for name, number in zip(words[::2], words[1::2])}
    return {**_whose(found[1]), "of": _COUNTED[words[0]], "counts": counts}


def _end(text: str) -> Optional[Fact]:
    if text in _ENDS:
        return {"failed": _ENDS[text]}
    if text.startswith("usage: h263rps "):
        return {"refused": "words"}
    role = text.removeprefix("cannot open ")
    return {"failed": "a file can't be opened", "role": role} if role != text and role in ROLES else None
