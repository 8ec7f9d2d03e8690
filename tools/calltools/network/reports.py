"""Sender and receiver reports, and by whom they are: packets of RTCP (RFC 3550, 6.4 and 6.5)."""

import re
import struct
from dataclasses import dataclass
from fractions import Fraction
from typing import Iterator, Optional

_VERSION = 0x80
_SENDER, _RECEIVER, _DESCRIPTION = 200, 201, 202
_CNAME, _PRIVATE = 1, 8
# The private item (RFC 3550, 6.5.8) that says how many pictures a second a party's camera has.
_RATE = b"h263rps.rate"
_RATE_TEXT = re.compile(rb"[1-9]\d{0,5}(?:/[1-9]\d{0,5})?")
_HEAD = struct.Struct(">BBHI")
_SENT = struct.Struct(">QIII")
_BLOCK = struct.Struct(">IIIIII")


@dataclass(frozen=True)
class SenderInfo:
    """What a party has sent by a time: the NTP time (32.32 bits of seconds), the RTP time of the
    same instant, and the packets and the bytes of their payloads."""

    ntp: int
    time: int
    packets: int
    bytes: int


@dataclass(frozen=True)
class ReportBlock:
    """What a party has of a source: the share lost since its last report (in 256ths), how many
    were lost in all, the extended highest sequence number, and the jitter in units of the RTP
    clock. `last` is the middle of the NTP time of the source's last report, `delay` the time since
    then, in 65,536ths of a second; both are 0 where none came."""

    source: int
    fraction: int
    lost: int
    highest: int
    jitter: int
    last: int
    delay: int


@dataclass(frozen=True)
class Report:
    """A report, with what its speaker sent where it is a sender's."""

    speaker: int
    sent: Optional[SenderInfo]
    blocks: tuple[ReportBlock, ...]


def _block_bytes(block: ReportBlock) -> bytes:
    lost = max(-0x800000, min(block.lost, 0x7FFFFF)) & 0xFFFFFF
    word = block.fraction << 24 | lost
    return _BLOCK.pack(block.source, word, block.highest, block.jitter, block.last, block.delay)


def _report_bytes(report: Report) -> bytes:
    kind, body = _RECEIVER, b""
    if report.sent:
        sent = report.sent
        kind, body = _SENDER, _SENT.pack(sent.ntp, sent.time, sent.packets, sent.bytes)
    body += b"".join(map(_block_bytes, report.blocks))
    words = 1 + len(body) // 4
    return _HEAD.pack(_VERSION | len(report.blocks), kind, words, report.speaker) + body


def _item(kind: int, text: bytes) -> bytes:
    return bytes([kind, len(text)]) + text


def _description_bytes(source: int, name: str, rate: Optional[Fraction]) -> bytes:
    # The list of items ends with one zero or more, up to the next word.
    items = _item(_CNAME, name.encode())
    if rate:
        items += _item(_PRIVATE, bytes([len(_RATE)]) + _RATE + str(rate).encode())
    items += b"\0"
    items += bytes(-len(items) % 4)
    return _HEAD.pack(_VERSION | 1, _DESCRIPTION, 1 + len(items) // 4, source) + items


def compound_bytes(report: Report, name: str, rate: Optional[Fraction] = None) -> bytes:
    """The datagram of a report, with its speaker's canonical name, as each has to be, and its camera's rate."""
    return _report_bytes(report) + _description_bytes(report.speaker, name, rate)


def is_description(packet: bytes) -> bool:
    """Whether a packet tells names alone."""
    return packet[1] == _DESCRIPTION


def _items(packet: bytes) -> Iterator[tuple[int, bytes]]:
    # Those of the first speaker.
    at = _HEAD.size
    while at + 2 <= len(packet) and packet[at]:
        end = at + 2 + packet[at + 1]
        if end > len(packet):
            return
        yield packet[at], packet[at + 2 : end]
        at = end


def rate_in(packet: bytes) -> Optional[Fraction]:
    """The rate that a packet of names tells, or None where it tells none."""
    start = bytes([len(_RATE)]) + _RATE
    for kind, text in _items(packet):
        if kind == _PRIVATE and text.startswith(start) and _RATE_TEXT.fullmatch(text[len(start) :]):
            return Fraction(text[len(start) :].decode())
    return None


def _read_block(data: bytes) -> ReportBlock:
    source, word, highest, jitter, last, delay = _BLOCK.unpack(data)
    lost = (word & 0xFFFFFF ^ 0x800000) - 0x800000
    return ReportBlock(source, word >> 24, lost, highest, jitter, last, delay)


def read_report(packet: bytes) -> Optional[Report]:
    """The report of one whole packet, or None where it is none. What follows its blocks is of a
    profile's own, and passed over."""
    if len(packet) < _HEAD.size or packet[1] not in (_SENDER, _RECEIVER):
        return None
    is_sender = packet[1] == _SENDER
    start = _HEAD.size + (_SENT.size if is_sender else 0)
    end = start + _BLOCK.size * (packet[0] & 31)
    if len(packet) < end:
        return None
    sent = SenderInfo(*_SENT.unpack(packet[_HEAD.size : start])) if is_sender else None
    ends = range(start + _BLOCK.size, end + 1, _BLOCK.size)
    blocks = tuple(_read_block(packet[at - _BLOCK.size : at]) for at in ends)
    return Report(int.from_bytes(packet[4:8], "big"), sent, blocks)
