"""What each packet says of its picture: temporal reference, format and clock.

The picture header stands in every packet, where the picture begins or as the extra header of
RFC 4629 (docs/FORMATS.md, "Payload header" and "Picture header")."""

from dataclasses import dataclass
from typing import Optional

from .rtp import HEADER_BYTES, PAYLOAD_TYPE, payload_of, rtp_header

_FORMATS = {1: "sub-qcif", 2: "qcif", 3: "cif"}
PERIODS = {"standard": 256, "custom": 1_024}
# Places of fields, in bits from the header's start.
_TR, _PTYPE, _UFEP, _SOURCE, _CLOCK, _ETR = 6, 14, 22, 25, 28, 61
_BYTES = 8
# No packet has fewer: the headers of RTP and of the payload, and the picture's.
LEAST_BYTES = HEADER_BYTES + 2 + _BYTES


@dataclass(frozen=True)
class PictureStart:
    """The temporal reference of a packet's picture, its format and its clock."""

    reference: int
    format: str
    clock: str

    @property
    def period(self) -> int:
        """After this many pictures a temporal reference comes again."""
        return PERIODS[self.clock]


def picture_start(packet: bytes) -> Optional[PictureStart]:
    """The packet's picture, or None where the packet isn't one that `send` could have written."""
    header = rtp_header(packet)
    if not header or header.payload_type != PAYLOAD_TYPE:
        return None
    payload = payload_of(packet)
    if payload is None or len(payload) < 2 or not payload[0] & 4:
        return None
    # A byte of redundancy coding may stand between the payload header and what follows.
    start = 2 + bool(payload[0] & 2)
    return _of_header(payload[start : start + _BYTES])


def _of_header(data: bytes) -> Optional[PictureStart]:
    if len(data) < _BYTES:
        return None
    bits = int.from_bytes(data, "big")

    def field(start: int, count: int) -> int:
        return bits >> 8 * _BYTES - start - count & (1 << count) - 1

    format = _FORMATS.get(field(_SOURCE, 3))
    if field(0, 6) != 0b100000 or field(_PTYPE, 2) != 0b10 or field(_UFEP, 3) != 1 or not format:
        return None
    if not field(_CLOCK, 1):
        return PictureStart(field(_TR, 8), format, "standard")
    return PictureStart(field(_ETR, 2) << 8 | field(_TR, 8), format, "custom")
