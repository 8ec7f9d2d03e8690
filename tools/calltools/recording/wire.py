"""What `send` writes on WIRE: the packets of one picture after another."""

from typing import Iterable

from ..network import rtp
from . import logs
from ..errors import BadInput


def packets_of_pictures(entries: Iterable[logs.Entry], path: str) -> list[list[bytes]]:
    """The packets of a WIRE by pictures: those of one picture follow one another and have one
    timestamp."""
    pictures: list[list[bytes]] = []
    last = None
    for number, entry in enumerate(entries):
        if entry.letter != logs.PACKET:
            raise BadInput(path, f"entry {number}", f"{entry.letter} is no packet")
        header = rtp.rtp_header(entry.body)
        # Bytes that are no RTP are for the audit to judge: they stay with the picture before them.
        stamp = header.timestamp if header else last
        if not pictures or stamp != last:
            pictures.append([])
        last = stamp
        pictures[-1].append(entry.body)
    return pictures
