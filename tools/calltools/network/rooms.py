"""Rooms in which up to four pages are introduced to each other. Nothing is known here of sockets, and nothing is kept: a
room is there as long as somebody is in it."""

import hashlib
import json
import unicodedata
from dataclasses import dataclass, field
from typing import Callable, Optional

# Letters of a room's word, of a name, of a page's key, of the number of another page, of a description of a session, of the
# proof that it is of the same call, of an address and of the part of the description that it belongs to.
_MOST = {"room": 40, "name": 40, "key": 64, "to": 16, "sdp": 12_000, "proof": 64, "candidate": 600, "mid": 40}
# What a page says, and its fields. All but the first two is for another page in the room.
_FIELDS: dict[str, tuple[str, ...]] = {
    "enter": ("room", "name", "key"),
    "leave": (),
    "offer": ("to", "sdp", "proof"),
    "answer": ("to", "sdp", "proof"),
    "candidate": ("to", "candidate", "mid"),
    "decline": ("to",),
    "cancel": ("to",),
}
# Characters of a page's words, a few more than those of the longest.
MOST_TEXT = 16_384
MEMBERS = 4

Words = dict[str, str]


class Refused(Exception):
    """Words that no page says; it is shut out."""


def read_words(text: str) -> Words:
    """What a page says: exactly the fields that its kind has, each a text that isn't too long."""
    if len(text) > MOST_TEXT:
        raise Refused("too long")
    try:
        said = json.loads(text)
    except (ValueError, RecursionError):
        raise Refused("no JSON") from None
    if not isinstance(said, dict) or not all(isinstance(value, str) for value in said.values()):
        raise Refused("no texts")
    fields = _FIELDS.get(said.get("is", ""))
    if fields is None or set(said) != {"is", *fields}:
        raise Refused("no such words")
    for name in fields:
        if len(said[name]) > _MOST[name]:
            raise Refused(f"{name} is too long")
    return said


def _key(word: str) -> str:
    # The same word in capitals, or with other spaces, leads into the same room.
    return " ".join(unicodedata.normalize("NFKC", word).casefold().split())


def number_of(key: str) -> str:
    """What the others know a page by: nobody else has the key that gives it, so a page that comes back keeps its place."""
    return hashlib.sha256(key.encode()).hexdigest()[: _MOST["to"]]


@dataclass(eq=False)
class Member:
    """A page, and how it is told words."""

    tell: Callable[[Words], None]
    name: str = ""
    number: str = ""
    room: Optional[str] = None


@dataclass
class Rooms:
    """The rooms that there are, by their words."""

    most: int = 500
    _members: dict[str, list[Member]] = field(default_factory=dict)

    def __len__(self) -> int:
        return len(self._members)

    def take(self, member: Member, words: Words) -> None:
        """A page's words, as `read_words` gives them."""
        if words["is"] == "enter":
            self._enter(member, words)
        elif words["is"] == "leave":
            self.leave(member)
        elif other := self._other(member, words["to"]):
            other.tell({**{name: word for name, word in words.items() if name != "to"}, "from": member.number})

    def leave(self, member: Member) -> None:
        """A page has gone, or is in its room no longer."""
        if member.room is None:
            return
        left = self._members[member.room]
        left.remove(member)
        if not left:
            del self._members[member.room]
        member.room = None
        for other in left:
            other.tell({"is": "left", "from": member.number})

    def _enter(self, member: Member, words: Words) -> None:
        self.leave(member)
        key, number = _key(words["room"]), number_of(words["key"])
        for one in [one for one in self._members.get(key, []) if one.number == number]:
            self.leave(one)
        inside = self._members.get(key, [])
        if not key:
            member.tell({"is": "no word"})
        elif len(inside) >= MEMBERS:
            member.tell({"is": "full"})
        elif not inside and len(self._members) >= self.most:
            member.tell({"is": "no room"})
        else:
            self._members[key] = [*inside, member]
            member.room, member.name, member.number = key, words["name"], number
            member.tell({"is": "entered"})
            for other in inside:
                other.tell({"is": "came", "name": member.name, "from": number})
                member.tell({"is": "came", "name": other.name, "from": other.number})

    def _other(self, member: Member, number: str) -> Optional[Member]:
        inside = self._members.get(member.room, []) if member.room is not None else []
        return next((one for one in inside if one is not member and one.number == number), None)


class Allowance:
    """So many words at once, and so many a second from then on."""

    def __init__(self, burst: float, rate: float, now: float) -> None:
        self._burst, self._rate = burst, rate
        self._left, self._last = burst, now

    def take(self, now: float) -> bool:
        """Whether one more is allowed."""
        self._left = min(self._burst, self._left + (now - self._last) * self._rate)
        self._last = now
        self._left -= 1
        return self._left >= 0
