"""The log of an audit: each packet that a sender sent, and before it the messages that had come
back by then."""

from dataclasses import dataclass
from typing import Iterable, Optional, Sequence

from ..network import rtcp, rtp
from . import logs
from ..errors import BadInput
from ..network.pcap import Datagram
from ..network.picture_start import PictureStart, picture_start
from ..network.streams import Stream, stream_of
from .wire import packets_of_pictures


@dataclass(frozen=True)
class Ends:
    """What `send` was given and what it wrote: the entries of its LOG and of its WIRE, and the
    names of both."""

    log: Sequence[logs.Entry]
    wire: Sequence[logs.Entry]
    log_path: str
    wire_path: str


def entries_of_ends(ends: Ends, is_cut: bool = False) -> list[logs.Entry]:
    """The log of an audit by LOG and WIRE: the packets of picture n stand at the n-th capture.

    Where both may have been cut off, up to the last picture that is whole in both.
    """
    pictures = packets_of_pictures(ends.wire, ends.wire_path)
    if is_cut:
        return _whole_entries(ends.log, pictures)
    entries: list[logs.Entry] = []
    captures = 0
    for number, entry in enumerate(ends.log):
        if entry.letter == logs.MESSAGE:
            entries.append(entry)
        elif entry.letter == logs.CAPTURE:
            packets = pictures[captures] if captures < len(pictures) else []
            entries += [logs.Entry(logs.PACKET, packet) for packet in packets]
            captures += 1
        else:
            why = f"{entry.letter} is of no sender's log"
            raise BadInput(ends.log_path, f"entry {number}", why)
    if captures < len(pictures):
        why = f"it is of {len(pictures)} pictures, and {ends.log_path} has {captures} captures"
        raise BadInput(ends.wire_path, "its packets", why)
    return entries


def _whole_entries(log: Sequence[logs.Entry], pictures: Sequence[list[bytes]]) -> list[logs.Entry]:
    # A picture's last packet has the marker.
    count = len(pictures)
    while count and not ((header := rtp.rtp_header(pictures[count - 1][-1])) and header.is_last):
        count -= 1
    entries: list[logs.Entry] = []
    captures = 0
    for entry in log:
        if entry.letter == logs.MESSAGE:
            entries.append(entry)
        elif entry.letter == logs.CAPTURE:
            if captures == count:
                break
            entries += [logs.Entry(logs.PACKET, packet) for packet in pictures[captures]]
            captures += 1
    return entries


def _message(datagram: Datagram, stream: Stream, port: int) -> Optional[bytes]:
    # Plain, as `pcap_of_log` writes it, or RTCP about this stream, as in a live call.
    if datagram.target != (stream.host, port):
        return None
    if not rtcp.is_rtcp(datagram.body):
        return datagram.body
    said = rtcp.read_rtcp(datagram.body)
    return said.message if isinstance(said, rtcp.Feedback) and said.about == stream.source else None


def entries_of_capture(found: Sequence[Optional[Datagram]], stream: Stream, message_port: int) -> list[logs.Entry]:
    """The log of an audit by a capture, in its order. Packets get the program's SSRC."""
    entries: list[logs.Entry] = []
    for datagram in found:
        if not datagram:
            continue
        if stream_of(datagram, stream.port) == stream:
            entries.append(logs.Entry(logs.PACKET, rtp.with_source(datagram.body, rtp.OWN_SOURCE)))
        elif (message := _message(datagram, stream, message_port)) is not None:
            entries.append(logs.Entry(logs.MESSAGE, message))
    return entries


def start_in(entries: Iterable[logs.Entry]) -> Optional[PictureStart]:
    """What the first packet that can be read says of its picture: format and clock."""
    starts = (picture_start(entry.body) for entry in entries if entry.letter == logs.PACKET)
    return next((start for start in starts if start), None)
