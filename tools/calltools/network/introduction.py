"""The line of text by which a party of an encrypted call is known to the other one: the fingerprint
of its certificate, and where it is reached (ICE: a name, a password and candidates)."""

import base64
import binascii
import ipaddress
import json
import re
from dataclasses import asdict, dataclass
from typing import Any, Optional

from ..errors import BadInput

_HEAD = "h263rps-call:"
# A terminal takes no longer line.
MOST_LETTERS = 4_000
MOST_CANDIDATES = 16
_FINGERPRINT = re.compile(r"(?:[0-9A-F]{2}:){31}[0-9A-F]{2}")
_WORD = re.compile(r"[0-9A-Za-z+/]{4,256}")
_BROADCAST = ipaddress.ip_address("255.255.255.255")
# RFC 8839, 5.1, of what goes over UDP: foundation, component, priority, address and port, type.
_CANDIDATE = re.compile(
    r"[0-9A-Za-z+/]{1,32} 1 udp [0-9]{1,10} ([0-9a-fA-F.:]{2,45}) ([0-9]{1,5}) typ (?:host|srflx)"
    r"( raddr [0-9a-fA-F.:]{2,45} rport [0-9]{1,5})?( generation 0)?"
)


@dataclass(frozen=True)
class Introduction:
    """`fingerprint` is SHA-256 in hexadecimal; `candidates` are lines as SDP has them."""

    fingerprint: str
    user: str
    password: str
    candidates: tuple[str, ...]

    def line(self) -> str:
        """The line, without spaces, so that it is marked by two clicks."""
        text = json.dumps(asdict(self), separators=(",", ":"))
        return _HEAD + base64.urlsafe_b64encode(text.encode()).decode()


def read_introduction(line: str) -> Introduction:
    """The introduction of a line that was pasted. Anything else is refused."""
    words = line.strip()
    if len(words) > MOST_LETTERS or not words.startswith(_HEAD):
        raise _refused(f"it begins with {_HEAD} and has at most {MOST_LETTERS:,} letters")
    try:
        text = base64.b64decode(words[len(_HEAD) :], altchars=b"-_", validate=True)
        facts = json.loads(text)
    except (binascii.Error, ValueError, RecursionError):
        raise _refused("it isn't whole") from None
    found = _introduction(facts)
    if not found:
        raise _refused("it doesn't say what a call needs")
    return found


def _refused(why: str) -> BadInput:
    return BadInput("--secure", "the other side's line", why)


def _introduction(facts: Any) -> Optional[Introduction]:
    if not isinstance(facts, dict) or set(facts) != set(Introduction.__annotations__):
        return None
    forms = {"fingerprint": _FINGERPRINT, "user": _WORD, "password": _WORD}
    words = {key: facts[key] for key in forms}
    if not all(isinstance(word, str) and forms[key].fullmatch(word) for key, word in words.items()):
        return None
    candidates = facts["candidates"]
    if not isinstance(candidates, list) or not 0 < len(candidates) <= MOST_CANDIDATES:
        return None
    if not all(map(_is_candidate, candidates)):
        return None
    return Introduction(**words, candidates=tuple(candidates))


def _is_candidate(text: Any) -> bool:
    # An address is a number: a name would be asked of a server that the other side chooses.
    found = _CANDIDATE.fullmatch(text) if isinstance(text, str) else None
    return bool(found and 0 < int(found[2]) < 65_536 and is_place(found[1]))


def is_place(text: str) -> bool:
    """Whether a line may name this address: one of a single machine, and of more than a single cable. Else a
    line might have this side ask all machines around, or one that answers for its services to neighbours."""
    try:
        address = ipaddress.ip_address(text)
    except ValueError:
        return False
    address = getattr(address, "ipv4_mapped", None) or address
    is_many = address.is_multicast or address.is_unspecified or address == _BROADCAST
    return not is_many and not address.is_link_local
