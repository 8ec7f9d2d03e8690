#!/usr/bin/env python3
"""What the module for Python takes and gives: buffers of every kind, words with their texts, ends
that can't be copied.

    buffers.py TEXTS    TEXTS is what tests/words.c prints
"""

import array
import copy
import ctypes
import mmap
import pickle
import sys
from functools import partial
from pathlib import Path
from typing import Callable

sys.path[:0] = [str(Path(__file__).resolve().parent.parent)]
from h263rps import (  # noqa: E402
    FAULTS,
    STATUS,
    Fault,
    MessageFault,
    Params,
    Receiver,
    Refused,
    Sender,
    Status,
    label,
    native,
    packet_start,
)

SIZE = 18432
# No two rows are equal, so an offset or another length shows.
PICTURE = bytes(n * n // 7 % 251 for n in range(SIZE))
ACK = bytes((0xC0, 0x04, 0x00))


def wanted(error: str, call: Callable[[], object]) -> None:
    try:
        told = repr(call())
    except (BufferError, Refused, TypeError, ValueError) as fault:
        told = f"{type(fault).__name__}: {fault}"
    if told != error:
        sys.exit(f"{told}, and not {error}")


class Lying(bytes):
    """Bytes that say another length, and other contents."""

    def __len__(self) -> int:
        return 1 << 20

    def __getitem__(self, at: object) -> int:
        return 7

    def __bytes__(self) -> bytes:
        return b"other"


def mapped(data: bytes) -> mmap.mmap:
    room = mmap.mmap(-1, len(data))
    room[:] = data
    return room


KINDS: dict[str, Callable[[bytes], object]] = {
    "bytes": bytes,
    "a subclass": Lying,
    "bytearray": bytearray,
    "memoryview": memoryview,
    "a view to be written": lambda data: memoryview(bytearray(data)),
    "a part": lambda data: memoryview(b"xx" + data + b"yy")[2:-2],
    "rows": lambda data: memoryview(data).cast("B", [len(data), 1]),
    "array": lambda data: array.array("B", data),
    "signed": lambda data: array.array("b", data and memoryview(data).cast("b").tolist()),
    "of ctypes": lambda data: (ctypes.c_uint8 * len(data)).from_buffer_copy(data),
    "mmap": mapped,
    "PickleBuffer": pickle.PickleBuffer,
}
try:
    import numpy
except ImportError:
    print("without numpy: its arrays weren't tried")
else:
    KINDS["numpy"] = lambda data: numpy.frombuffer(data, numpy.uint8)
    KINDS["numpy, written"] = lambda data: numpy.array(bytearray(data), numpy.uint8)

# Each kind is the same picture, packet and message.
with Sender(Params.of("sub-qcif")) as sender:
    first = sender.packets(sender.code(PICTURE))
    for name, kind in KINDS.items():
        with Receiver(Params.of("sub-qcif")) as receiver:
            sender.reset(0)
            coded = sender.code(kind(PICTURE), [kind(ACK), b""])
            starts = [packet_start(kind(packet)).messages for packet in sender.packets(coded)]
            wanted("True", lambda: all(it == (ACK,) for it in starts))
            sender.reset(0)
            wanted("True", lambda: sender.packets(sender.code(kind(PICTURE))) == first)
            heard = [receiver.packet(kind(packet)) for packet in first]
            wanted("'completed'", lambda: heard[-1].kind)
            wanted("'noted'", lambda: sender.feedback(kind(heard[-1].message)).kind)
            wanted("True", lambda: label(kind(first[0]), 0x48323633, 96) == first[0])
            # It is let go after the call: nothing is held that would keep it from growing.
            room = bytearray(first[0])
            receiver.packet(room)
            room += b"more"

    # No copy: the library is given the place of the buffer, and how many bytes it has.
    room = bytearray(PICTURE)
    place = ctypes.addressof((ctypes.c_uint8 * SIZE).from_buffer(room))
    with native.passed(memoryview(room)[5:].toreadonly()) as passed:
        wanted(f"({place + 5}, {SIZE - 5})", lambda: passed)
        wanted(
            "BufferError: Existing exports of data: object cannot be re-sized",
            lambda: room.append(1),
        )
    with native.passed(Lying(b"abc")) as passed:
        wanted("3", lambda: passed[1])
    wanted("Refused: code: wrong length", lambda: sender.code(Lying(b"abc")))
    wanted("Refused: code: wrong length", lambda: sender.code(bytearray()))
    wanted("'no message'", lambda: sender.feedback(memoryview(b"")).kind)

    # What isn't bytes in one piece is refused.
    wide = array.array("H", PICTURE)
    wanted("TypeError: bytes are wanted, and not items of 2 bytes", lambda: sender.code(wide))
    wanted(
        "BufferError: memoryview: underlying buffer is not C-contiguous",
        lambda: sender.code(memoryview(PICTURE + PICTURE)[::2]),
    )
    for text in ("text", 7, None, [1, 2, 3]):
        told = f"TypeError: a bytes-like object is required, not '{type(text).__name__}'"
        wanted(told, lambda: sender.code(text))
        wanted(told, lambda: sender.feedback(text))
        wanted(told, lambda: packet_start(text))
        wanted(told, lambda: label(text, 1, 96))
    released = memoryview(PICTURE)
    released.release()
    wanted(
        "ValueError: operation forbidden on released memoryview object",
        lambda: sender.code(released),
    )

    # Numbers that 32 bits don't hold, and numbers that aren't whole.
    wanted("ValueError: number: 4294967296 is out of its range", lambda: sender.packet(1 << 32))
    wanted("ValueError: number: -1 is out of its range", lambda: sender.packet(-1))
    wanted("Refused: packet: no packet", lambda: sender.packet((1 << 32) - 1))
    wanted("ValueError: ssrc: 4294967296 is out of its range", lambda: label(first[0], 1 << 32, 1))
    wrong = "TypeError: 'float' object cannot be interpreted as an integer"
    wanted(wrong, lambda: sender.target(1.0))
    wanted(wrong, lambda: Params.of("qcif", quant=3.0))
    wanted(wrong, lambda: label(first[0], 1, 96.0))

    # A copy would share the end, and close it.
    for it, name in ((sender, "sender"), (Receiver(Params.of("sub-qcif")), "receiver")):
        told = f"TypeError: a {name} can't be copied or pickled"
        for copied in (copy.copy, copy.deepcopy, pickle.dumps, lambda it: copy.copy([it][0])):
            wanted(told, lambda: copied(it))
        wanted(told, lambda: copy.deepcopy({"end": it}))

# The structs of ctypes are those of the header (tests/abi.c).
STRUCTS = (native.Counted, native.End, native.Message, native.Answer)
STRUCTS += (native.CodedPicture, native.Noted, native.PacketStart, native.Lent)
wanted("[200, 216, 6, 32, 16, 8, 48, 16]", lambda: [ctypes.sizeof(it) for it in STRUCTS])

# Parameters may be: they have no end.
params = Params.of("qcif", quant=3)
for same in (copy.copy(params), copy.deepcopy(params), pickle.loads(pickle.dumps(params))):
    wanted("True", lambda: same == params and same is not params)
    same.quant = 4
    wanted("(3, False)", lambda: (params.quant, same == params))
wanted("True", lambda: "quant=3," in repr(params) and "target=0" in repr(params))


def cannot_be_written(lent: memoryview) -> memoryview:
    """Tries each way that leads to a picture that is lent, and returns a slice of it."""
    wanted("(True, 18432, 1, 'B')", lambda: (lent.readonly, lent.nbytes, lent.ndim, lent.format))
    for view in (lent, lent.obj, memoryview(lent.obj), lent[3:], lent[3:].obj):
        wanted("TypeError: cannot modify read-only memory", partial(view.__setitem__, 0, 1))
    wanted("128", lambda: lent[0])
    return lent.obj[5:]


# What is lent can't be written, by none of the ways that lead there.
with Receiver(Params.of("sub-qcif")) as receiver:
    for lend in (receiver.shown, lambda: receiver.play_lent().picture):
        held = cannot_be_written(lend())
        wanted("BufferError: the picture that was lent is still held, by a slice or an array", receiver.play)
        del held

# Words with their texts, and those of the header are the same.
with Receiver(Params.of("sub-qcif")) as receiver:
    heard = receiver.packet(bytes(12))
    wanted("<Fault.BYTES_VERSION: 136>", lambda: heard.fault)
    wanted("'another version of RTP than 2'", lambda: heard.fault.text)
    wanted("(136, True)", lambda: (int(heard.fault), heard.fault == 136))
with Sender(Params.of("sub-qcif")) as sender:
    noted = sender.feedback(b"abcd")
    wanted("<MessageFault.LENGTH: 1>", lambda: noted.fault)
    wanted("True", lambda: not sender.feedback(ACK).fault)
    try:
        sender.code(b"")
    except Refused as fault:
        refused = fault.status
    wanted("True", lambda: refused is Status.WRONG_LENGTH and refused == "wrong length")
    wanted("'not the length of a picture'", lambda: refused.text)
    wanted("'wrong length wrong length'", lambda: f"{refused} {refused!s}")
wanted("(999, 'no fault', 'NUMBER_999')", lambda: (int(Fault(999)), Fault(999).text, Fault(999).name))

texts = [f"status {it.text}" for it in STATUS if it is not Status.OTHER]
texts += [f"fault {int(it)} {it.text}" for it in Fault if it]
texts += [f"message {int(it)} {it.text}" for it in MessageFault if it]
texts += [f"parameter {it}" for it in FAULTS]
wanted("True", lambda: texts == Path(sys.argv[1]).read_text().splitlines())
