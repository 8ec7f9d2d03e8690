"""One HTML page of a call, without any outside part: the files of `web/` with its data in them."""

import base64
import hashlib
import html
import json
import re
from pathlib import Path
from typing import Optional, Sequence

from .. import progress_line
from . import stored_pictures
from ..recording import way
from ..report.quality import SAME, errors_between
from ..report.picture_lines import MARKS

WEB = Path(__file__).resolve().parent / "web"
_SCRIPTS = ("colours.js", "stored.js", "marks.js", "words.js", "timeline.js", "player.js", "page.js")
_PLACE = re.compile(r"\{\{(\w+)\}\}")
# What a picture's reference is where it is none, or isn't known.
_INTRA, _UNKNOWN = -1, -2
# Bytes that the videos have in the page besides their images.
_MARGIN = 2_000


def _rounded(time: Optional[float]) -> Optional[float]:
    return None if time is None else round(time, 4)


def _reference(picture: way.Picture) -> int:
    if picture.is_intra:
        return _INTRA
    return _UNKNOWN if picture.reference is None else picture.reference


def _psnr(told: way.Way) -> list[float]:
    count = min(len(told.captured), len(told.shown))
    pairs = progress_line.through(zip(told.captured, told.shown), "comparing pictures", count)
    values = (errors_between(told.size, one, other).psnr()[0] for one, other in pairs)
    return [round(min(value, SAME), 1) for value in values]


def _packet(packet: way.Packet) -> list[object]:
    sent, came = _rounded(packet.sent), _rounded(packet.came)
    return [packet.picture, packet.fate, sent, came, packet.size, packet.is_all, packet.count]


def _message(message: way.Message) -> list[object]:
    said, heard = _rounded(message.said), _rounded(message.heard)
    return [message.picture, message.is_ack, message.fate, said, heard]


def told_way(told: way.Way) -> dict[str, object]:
    """A way as the page's script reads it, without its videos."""
    pictures = told.pictures
    return {
        "name": told.name,
        "period": told.period,
        "first": told.first,
        "marks": [picture.mark for picture in pictures],
        "references": [_reference(picture) for picture in pictures],
        "captured": [_rounded(picture.captured) for picture in pictures],
        "played": [_rounded(picture.played) for picture in pictures],
        "kbits": [picture.kbits for picture in pictures],
        "psnr": _psnr(told),
        "packets": list(map(_packet, told.packets)),
        "messages": list(map(_message, told.messages)),
    }


def _hash_of(text: str) -> str:
    return "sha256-" + base64.b64encode(hashlib.sha256(text.encode()).digest()).decode()


def _json(value: object) -> str:
    # No `<`, so that nothing in it ends the script or begins a comment.
    return json.dumps(value, separators=(",", ":")).replace("<", "\\u003c")


def counts_of(ways: Sequence[way.Way]) -> str:
    """How many pictures have each mark, way by way."""
    words = []
    for told in ways:
        marks = [picture.mark for picture in told.pictures]
        counts = ", ".join(f"{marks.count(mark)} {mark}" for mark in MARKS if mark in marks)
        words.append(": ".join(part for part in (told.name, counts or f"{len(marks)} sent") if part))
    return "; ".join(words)


def _policy(style: str, script: str) -> str:
    # Nothing may be loaded, and nothing may run but the page's own script.
    own = f"style-src '{_hash_of(style)}'; script-src '{_hash_of(script)}'"
    return f"default-src 'none'; {own}; base-uri 'none'; form-action 'none'"


def _filled(parts: dict[str, str]) -> str:
    template = (WEB / "page.html").read_text(encoding="utf-8")
    return _PLACE.sub(lambda place: parts[place[1]], template)


def page_of(title: str, about: Sequence[str], ways: Sequence[way.Way], most: int) -> str:
    """The page, of at most this many bytes where the coarsest pictures are small enough."""
    style = (WEB / "page.css").read_text(encoding="utf-8")
    script = "".join((WEB / name).read_text(encoding="utf-8") for name in _SCRIPTS)
    told = [told_way(one) for one in ways]
    parts = {
        "title": html.escape(title),
        "counts": html.escape(counts_of(ways)),
        "about": html.escape(" \u00b7 ".join(about)),
        "policy": _policy(style, script),
        "style": style,
        "script": script,
        "call": _json({"ways": told}),
    }
    left = most - len(_filled(parts).encode()) - _MARGIN
    videos = [(one.size, video) for one in ways for video in (one.captured, one.shown) if video]
    made = iter(stored_pictures.fitting(videos, left))
    for one, fields in zip(ways, told):
        for name, video in (("captured_video", one.captured), ("shown_video", one.shown)):
            fields[name] = next(made).told() if video else None
    return _filled({**parts, "call": _json({"ways": told})})
