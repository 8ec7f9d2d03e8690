"""Back-channel messages on the network, and the end of a stream: packets of RTCP.

A message goes as a Reference Picture Selection Indication (RFC 4585, 6.3.3), whose native bit
string it is; it carries the SSRC of the stream that it is about. Packets are asked for again by a
Generic NACK (6.2.1). A stream's end is a BYE (RFC 3550, 6.6). Each goes as a datagram by itself
(RFC 5506); what comes in may be a compound."""

import struct
from dataclasses import dataclass
from typing import Iterator, Optional, Union

from .rtp import PAYLOAD_TYPE

_VERSION = 0x80
_RPSI, _PAYLOAD_FEEDBACK, _BYE = 3, 206, 203
_NACK, _TRANSPORT_FEEDBACK = 1, 205
# A NACK's mask is of so many packets, and of more fields than these none is looked at.
_MASK, _MOST_FIELDS = 16, 16
# Bytes of a message: version 1, version 2 (docs/FORMATS.md, "Back-channel message").
MESSAGE_BYTES = (3, 5)
# Of a datagram with more packets than this, none is looked at: a report has two or three.
_MOST_PACKETS = 16


@dataclass(frozen=True)
class Feedback:
    """A message, by whom it is said and about which stream."""

    speaker: int
    about: int
    message: bytes


@dataclass(frozen=True)
class Missing:
    """Packets of a stream that a speaker lacks: sequence numbers (PID), each with a mask of those after it (BLP)."""

    speaker: int
    about: int
    fields: tuple[tuple[int, int], ...]

    def sequences(self) -> Iterator[int]:
        """The sequence numbers."""
        for packet, following in self.fields:
            yield packet
            for place in range(_MASK):
                if following >> place & 1:
                    yield (packet + 1 + place) & 0xFFFF


@dataclass(frozen=True)
class Bye:
    """The end of a stream."""

    source: int


def feedback_bytes(feedback: Feedback) -> bytes:
    """The packet of a message."""
    length = 2 + len(feedback.message)
    padding = -length % 4
    words = 2 + (length + padding) // 4
    head = struct.pack(
        ">BBHIIBB",
        _VERSION | _RPSI,
        _PAYLOAD_FEEDBACK,
        words,
        feedback.speaker,
        feedback.about,
        8 * padding,
        PAYLOAD_TYPE,
    )
    return head + feedback.message + bytes(padding)


def missing_bytes(missing: Missing) -> bytes:
    """The packet that asks for packets again."""
    head = struct.pack(
        ">BBHII",
        _VERSION | _NACK,
        _TRANSPORT_FEEDBACK,
        2 + len(missing.fields),
        missing.speaker,
        missing.about,
    )
    return head + b"".join(struct.pack(">HH", *field) for field in missing.fields)


def bye_bytes(source: int) -> bytes:
    """The packet that ends a stream."""
    return struct.pack(">BBHI", _VERSION | 1, _BYE, 1, source)


def is_rtcp(data: bytes) -> bool:
    """Whether the bytes look like RTCP: its version, and a type from 192 to 223 (RFC 5761, 4)."""
    return len(data) >= 4 and data[0] >> 6 == 2 and 192 <= data[1] <= 223


def packets_of(datagram: bytes) -> list[bytes]:
    """The packets of a datagram, each with its head, or none where they don't fill it exactly."""
    packets: list[bytes] = []
    at = 0
    while at < len(datagram) and len(packets) < _MOST_PACKETS:
        end = at + 4 + 4 * int.from_bytes(datagram[at + 2 : at + 4], "big")
        if not is_rtcp(datagram[at:end]) or end > len(datagram):
            return []
        packets.append(datagram[at:end])
        at = end
    return packets if at == len(datagram) else []


def read_rtcp(data: bytes) -> Optional[Union[Feedback, Missing, Bye]]:
    """The packet's message, what it asks for, or the end that it tells; None where it is none of these, or isn't
    whole."""
    if len(data) < 8 or len(data) != 4 + 4 * int.from_bytes(data[2:4], "big"):
        return None
    kind = (data[0], data[1])
    if kind == (_VERSION | 1, _BYE) and len(data) == 8:
        return Bye(int.from_bytes(data[4:8], "big"))
    if len(data) < 16:
        return None
    if kind == (_VERSION | _NACK, _TRANSPORT_FEEDBACK):
        return _read_missing(data)
    return _read_feedback(data) if kind == (_VERSION | _RPSI, _PAYLOAD_FEEDBACK) else None


def _read_missing(data: bytes) -> Missing:
    speaker, about = struct.unpack(">II", data[4:12])
    fields = struct.iter_unpack(">HH", data[12 : 12 + 4 * _MOST_FIELDS])
    return Missing(speaker, about, tuple((packet, following) for packet, following in fields))


def _read_feedback(data: bytes) -> Optional[Feedback]:
    speaker, about, padding, kind = struct.unpack(">IIBB", data[4:14])
    message = data[14 : len(data) - padding // 8]
    if padding % 8 or padding >= 32 or kind != PAYLOAD_TYPE or len(message) not in MESSAGE_BYTES:
        return None
    return Feedback(speaker, about, message)
