"""Captures (pcap and pcapng) of UDP over IPv4 and IPv6, read; pcap of UDP over IPv4, written."""

import os
import struct
from dataclasses import dataclass
from typing import BinaryIO, Iterator, Optional

from .. import progress_line
from ..errors import BadInput

_MAGICS = {  # the first four bytes: byte order, and parts of a second in the times
    b"\xd4\xc3\xb2\xa1": ("<", 10**6),
    b"\xa1\xb2\xc3\xd4": (">", 10**6),
    b"\x4d\x3c\xb2\xa1": ("<", 10**9),
    b"\xa1\xb2\x3c\x4d": (">", 10**9),
}
_PCAPNG = b"\x0a\x0d\x0d\x0a"
_RAW_IP = 101
# Bytes before the IP header by the type of the link: BSD loopback, Ethernet, raw IP, Linux cooked (both versions).
_BEFORE_IP = {0: 4, 1: 14, _RAW_IP: 0, 113: 16, 276: 20}
MOST_UDP = 65_507
# What is read at once: a size that a capture only claims takes no memory.
_AT_ONCE = 1 << 20
# Of an interface: many more than there are kinds of.
_MOST_OPTIONS = 1_000
# Of a pcapng block, by its kind: an interface, an enhanced packet.
_LEAST_BODY = {1: 8, 6: 20}


@dataclass(frozen=True)
class Datagram:
    """A UDP datagram: when it was captured, in nanoseconds, from where to where, and its bytes."""

    time: int
    source: tuple[str, int]
    target: tuple[str, int]
    body: bytes


@dataclass(frozen=True)
class _Frame:
    time: int
    link: int
    bytes: bytes


def read_capture(file: BinaryIO, path: str) -> Iterator[Optional[Datagram]]:
    """The datagrams of a capture in its order; None for each frame that is anything else, or was cut."""
    magic = file.read(4)
    if magic == _PCAPNG:
        frames = _pcapng_frames(file, path)
    elif magic in _MAGICS:
        frames = _pcap_frames(file, path, *_MAGICS[magic])
    else:
        raise BadInput(path, "byte 0", "this is neither pcap nor pcapng")
    whole = os.fstat(file.fileno()).st_size if file.seekable() else None
    for frame in progress_line.through(frames, f"{path}: reading", whole, file.tell if whole else None):
        yield _datagram(frame)


def _taken(file: BinaryIO, path: str, size: int) -> bytes:
    parts: list[bytes] = []
    while size:
        part = file.read(min(size, _AT_ONCE))
        if not part:
            raise BadInput(path, f"byte {file.tell()}", "the capture ends within a part")
        parts.append(part)
        size -= len(part)
    return b"".join(parts)


def _pcap_frames(file: BinaryIO, path: str, order: str, parts: int) -> Iterator[_Frame]:
    *_, link = struct.unpack(order + "HHiIII", _taken(file, path, 20))
    while head := file.read(1):
        head += _taken(file, path, 15)
        seconds, part, size, _ = struct.unpack(order + "IIII", head)
        time = seconds * 10**9 + part * (10**9 // parts)
        yield _Frame(time, link & 0xFFFF, _taken(file, path, size))


def _pcapng_frames(file: BinaryIO, path: str) -> Iterator[_Frame]:
    # The first block's type was read. Sections, interfaces and enhanced packets count; other blocks are passed over.
    order = "<"
    links: list[tuple[int, int]] = []
    kind_bytes = _PCAPNG
    while kind_bytes:
        kind_bytes += _taken(file, path, 4 - len(kind_bytes))
        size_bytes = _taken(file, path, 4)
        if kind_bytes == _PCAPNG:
            mark = _taken(file, path, 4)
            order = "<" if mark == b"\x4d\x3c\x2b\x1a" else ">"
            links = []
        (kind,) = struct.unpack(order + "I", kind_bytes)
        (size,) = struct.unpack(order + "I", size_bytes)
        done = 12 if kind_bytes == _PCAPNG else 8
        if size < done + 4 or size % 4:
            raise BadInput(path, f"byte {file.tell()}", "a block has a wrong size")
        body = _taken(file, path, size - done)[:-4]
        if len(body) < _LEAST_BODY.get(kind, 0):
            raise BadInput(path, f"byte {file.tell()}", "a block has a wrong size")
        if kind == 1:
            links.append((struct.unpack_from(order + "H", body)[0], _parts_of_a_second(order, body[8:])))
        elif kind == 6:
            interface, high, low, kept, _ = struct.unpack_from(order + "IIIII", body)
            if interface >= len(links):
                raise BadInput(path, f"byte {file.tell()}", "a packet is of an interface that isn't described")
            link, parts = links[interface]
            yield _Frame(((high << 32) | low) * 10**9 // parts, link, body[20 : 20 + kept])
        kind_bytes = file.read(1)


def _parts_of_a_second(order: str, options: bytes) -> int:
    # Option 9 of an interface is the unit of its times; without it they are microseconds.
    head = struct.Struct(order + "HH").unpack_from
    at, last = 0, len(options) - 5
    for _ in range(_MOST_OPTIONS):
        if at > last:
            break
        code, size = head(options, at)
        if not code:
            break
        if code == 9 and size == 1:
            unit = options[at + 4]
            return 1 << (unit & 0x7F) if unit & 0x80 else int(10**unit)
        at += 4 + (size + 3) // 4 * 4
    return 10**6


def _datagram(frame: _Frame) -> Optional[Datagram]:
    before = _BEFORE_IP.get(frame.link)
    if before is None:
        return None
    if frame.link == 1 and frame.bytes[12:14] == b"\x81\x00":
        before += 4
    ip = frame.bytes[before:]
    if len(ip) >= 20 and ip[0] >> 4 == 4:
        (total,) = struct.unpack_from(">H", ip, 2)
        is_fragment = struct.unpack_from(">H", ip, 6)[0] & 0x3FFF
        if ip[9] != 17 or is_fragment or len(ip) < total:
            return None
        addresses = [".".join(map(str, ip[at : at + 4])) for at in (12, 16)]
        udp = ip[4 * (ip[0] & 15) : total]
    elif len(ip) >= 40 and ip[0] >> 4 == 6 and ip[6] == 17:
        addresses = [ip[at : at + 16].hex(":", 2) for at in (8, 24)]
        udp = ip[40 : 40 + struct.unpack_from(">H", ip, 4)[0]]
    else:
        return None
    if len(udp) < 8:
        return None
    source, target, size, _ = struct.unpack_from(">HHHH", udp)
    if not 8 <= size <= len(udp):
        return None
    return Datagram(frame.time, (addresses[0], source), (addresses[1], target), udp[8:size])


def write_head(file: BinaryIO) -> None:
    """The head of a pcap whose frames begin with IP."""
    file.write(struct.pack("<IHHiIII", 0xA1B2C3D4, 2, 4, 0, 0, 65_535, _RAW_IP))


def write_datagram(file: BinaryIO, datagram: Datagram) -> None:
    """One datagram of at most 65,507 bytes, over IPv4, without UDP's checksum."""
    udp = struct.pack(">HHHH", datagram.source[1], datagram.target[1], 8 + len(datagram.body), 0)
    addresses = b"".join(bytes(map(int, host.split("."))) for host, _ in (datagram.source, datagram.target))
    size = 20 + len(udp) + len(datagram.body)
    head = struct.pack(">BBHHHBBH", 0x45, 0, size, 0, 0x4000, 64, 17, 0) + addresses
    total = sum(struct.unpack(">10H", head))
    total = (total & 0xFFFF) + (total >> 16)
    total = (total & 0xFFFF) + (total >> 16)
    head = head[:10] + struct.pack(">H", 0xFFFF - total) + head[12:]
    seconds, rest = divmod(datagram.time, 10**9)
    file.write(struct.pack("<IIII", seconds, rest // 1_000, size, size) + head + udp + datagram.body)
