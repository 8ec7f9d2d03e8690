"""Logs of one end: a letter, two bytes with a length (high byte first), and as many bytes an entry."""

import struct
from dataclasses import dataclass
from typing import BinaryIO, Iterator

from ..errors import BadInput

CAPTURE, PACKET, PLAY, MESSAGE = "S", "K", "P", "B"
LETTERS = CAPTURE + PACKET + PLAY + MESSAGE


@dataclass(frozen=True)
class Entry:
    """`K`: an RTP packet; `B`: a message; `S` and `P`: a capture and a play, without bytes."""

    letter: str
    body: bytes = b""


def read_log(file: BinaryIO, path: str) -> Iterator[Entry]:
    """The entries of a log or a wire file, whichever end it belongs to."""
    at = 0
    while head := file.read(3):
        letter = chr(head[0])
        length = int.from_bytes(head[1:], "big")
        body = file.read(length)
        if len(head) < 3 or len(body) < length:
            raise BadInput(path, f"byte {at}", "the log ends within an entry")
        if letter not in LETTERS or (letter in CAPTURE + PLAY and length):
            raise BadInput(path, f"byte {at}", "no entry begins here")
        yield Entry(letter, body)
        at += 3 + length


def entry_bytes(letter: str, body: bytes = b"") -> bytes:
    """One entry as bytes; its body has at most 65,535."""
    return struct.pack(">cH", letter.encode(), len(body)) + body


def write_entry(file: BinaryIO, entry: Entry) -> None:
    """One entry; its body has at most 65,535 bytes."""
    file.write(entry_bytes(entry.letter, entry.body))
