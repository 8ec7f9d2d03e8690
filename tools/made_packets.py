"""Packets for tests: of streams that the library's sender codes, and one that needs no library."""

import functools
from typing import Any

from calltools import library
from calltools.network import rtp

_FORMATS = {"sub-qcif": 1, "qcif": 2, "cif": 3}
# A picture of each format that has one packet.
_PICTURES = {"sub-qcif": bytes(range(96, 160)) * 288, "qcif": bytes([99]) * 38_016}


def empty_packet(number: int, format: str) -> bytes:
    """A packet with a picture header alone, an I picture's of this number."""
    # Start, TR, PTYPE, UFEP 1, the format, and zeros; after them a picture of no bytes.
    bits = 0b100000 << 58 | (number & 255) << 50 | 0b10 << 48 | 0b111 << 42 | 1 << 39
    bits |= _FORMATS[format] << 36
    head = bytes([0x80, 0x80 | rtp.PAYLOAD_TYPE]) + (number & 0xFFFF).to_bytes(2, "big")
    time = (rtp.TICKS_A_PICTURE * number).to_bytes(4, "big")
    return head + time + b"H263" + b"\4\0" + bits.to_bytes(8, "big")


@functools.lru_cache(maxsize=None)
def stream(format: str, count: int, is_intra: bool = True, clock: str = "standard") -> list[list[bytes]]:
    """The packets of so many pictures, each complete by itself, or predicted from the one before."""
    module: Any = library.loaded()
    params = module.Params.of(format, lead=6, slots=39, clock=module.CLOCKS[clock])
    found: list[list[bytes]] = []
    with module.Sender(params) as sender, module.Receiver(params) as receiver:
        for _ in range(count):
            if is_intra:
                sender.forget()
            found.append(sender.packets(sender.code(_PICTURES[format])))
            for message in [*(receiver.packet(packet).message for packet in found[-1]), receiver.play().message]:
                if message:
                    sender.feedback(message)
    return found


def packet(number: int, format: str = "sub-qcif") -> bytes:
    """The packet of a picture that is complete by itself, with this number's temporal reference."""
    (found,) = stream(format, 256)[number % 256]
    return found
