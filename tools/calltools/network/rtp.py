"""What the tools look at in an RTP packet (RFC 3550, 5.1)."""

import struct
from dataclasses import dataclass
from typing import Optional

CLOCK = 90_000
# A picture's time on that clock: 1001/30000 of a second.
TICKS_A_PICTURE = 3_003
PAYLOAD_TYPE = 96
HEADER_BYTES = 12
# The SSRC that the program writes, and the one that it takes.
OWN_SOURCE = int.from_bytes(b"H263", "big")


@dataclass(frozen=True)
class RtpHeader:
    """The fixed header's fields that tell where a packet belongs. `is_last` is the marker."""

    payload_type: int
    sequence: int
    timestamp: int
    source: int
    is_last: bool


def rtp_header(packet: bytes) -> Optional[RtpHeader]:
    """The header, or None where the bytes are no RTP of version 2."""
    if len(packet) < HEADER_BYTES or packet[0] >> 6 != 2:
        return None
    _, kind, sequence, timestamp, source = struct.unpack(">BBHII", packet[:HEADER_BYTES])
    return RtpHeader(kind & 0x7F, sequence, timestamp, source, bool(kind & 0x80))


def renumbered(packet: bytes, sequence: int, timestamp: int, source: int) -> bytes:
    """The packet with another sequence number, timestamp and SSRC, each modulo its width."""
    numbers = struct.pack(">HII", sequence & 0xFFFF, timestamp & 0xFFFFFFFF, source)
    return packet[:2] + numbers + packet[HEADER_BYTES:]


def with_source(packet: bytes, source: int) -> bytes:
    """The packet with another SSRC."""
    return packet[: HEADER_BYTES - 4] + struct.pack(">I", source) + packet[HEADER_BYTES:]


def payload_of(packet: bytes) -> Optional[bytes]:
    """What stands between the header and the padding, or None where they don't fit the packet."""
    start = HEADER_BYTES + 4 * (packet[0] & 15)
    if packet[0] & 0x10:
        if len(packet) < start + 4:
            return None
        start += 4 + 4 * int.from_bytes(packet[start + 2 : start + 4], "big")
    padding = packet[-1] if packet[0] & 0x20 else 0
    end = len(packet) - padding
    if start > end or (packet[0] & 0x20 and not padding):
        return None
    return packet[start:end]
