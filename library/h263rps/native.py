"""The library's own functions and structs by ctypes, and buffers of Python as it takes them."""

from __future__ import annotations

import ctypes
import operator
import os
from pathlib import Path
from typing import TYPE_CHECKING, Union

from .words import CAUSES, DISTANCES, GROUPS, HEARD, MARKS, NOTED

if TYPE_CHECKING:
    from typing import Any, Protocol

    from _typeshed import ReadableBuffer

    class _Array(Protocol):
        """An array of numpy, in which an older checker of types sees no buffer."""

        @property
        def __array_interface__(self) -> Any:
            ...

    # bytes, bytearray, memoryview, array, mmap, an array of numpy: bytes that lie in one piece.
    Buffer = Union[ReadableBuffer, _Array]
else:
    Buffer = object


class Counted(ctypes.Structure):
    _fields_ = [
        *[(name, ctypes.c_uint64) for name in ("packets", "bytes")],
        ("heard", ctypes.c_uint64 * len(HEARD)),
        ("faults", ctypes.c_uint64 * len(GROUPS)),
        ("played", ctypes.c_uint64 * len(MARKS)),
        ("coded", ctypes.c_uint64 * len(DISTANCES)),
        ("noted", ctypes.c_uint64 * len(NOTED)),
    ]


class End(ctypes.Structure):
    _fields_ = [("kind", ctypes.c_uint32), ("at", ctypes.c_void_p), ("counted", Counted)]


class GroupEnd(ctypes.Structure):
    _fields_ = [("kind", ctypes.c_uint32), ("at", ctypes.c_void_p), ("counted", Counted)]


class Message(ctypes.Structure):
    _fields_ = [("bytes", ctypes.c_uint8 * 5), ("length", ctypes.c_uint8)]

    def text(self) -> bytes:
        return bytes(self.bytes[: self.length])


class Answer(ctypes.Structure):
    _fields_ = [
        *[(name, ctypes.c_uint32) for name in ("kind", "fault", "at", "number", "predicted", "reference")],
        ("message", Message),
    ]

    def rest(self) -> tuple[bytes, int, int | None]:
        """Of a play: its message, its number and its reference."""
        reference = int(self.reference) if self.predicted else None
        return self.message.text(), int(self.number), reference


class CodedPicture(ctypes.Structure):
    _fields_ = [(name, ctypes.c_uint32) for name in ("number", "packets", "intra", "reference")]


class PacketStart(ctypes.Structure):
    _fields_ = [
        *[(name, ctypes.c_uint32) for name in ("format", "clock", "temporal_reference", "intra", "reference", "count")],
        ("messages", Message * 4),
    ]


class Lent(ctypes.Structure):
    _fields_ = [("samples", ctypes.c_void_p), ("length", ctypes.c_size_t)]


class Bounds(ctypes.Structure):
    _fields_ = [(name, ctypes.c_uint32) for name in ("first", "least", "most", "finest", "period")]


class FitPace(ctypes.Structure):
    _fields_ = [
        *[(name, ctypes.c_uint32) for name in ("target", "room")],
        *[(name, ctypes.c_uint64) for name in ("level", "intra", "predicted", "excess")],
    ]


class SessionEnd(ctypes.Structure):
    _fields_ = [("kind", ctypes.c_uint32), ("at", ctypes.c_void_p)]


class Timing(ctypes.Structure):
    _fields_ = [("rate", ctypes.c_uint32), ("second", ctypes.c_uint32), ("wait", ctypes.c_uint64)]


class Arrival(ctypes.Structure):
    _fields_ = [
        *[(name, ctypes.c_uint32) for name in ("verdict", "cause", "run", "source", "ahead", "rival")],
        ("answer", Answer),
    ]


class Playing(ctypes.Structure):
    _fields_ = [
        *[(name, ctypes.c_uint32) for name in ("plays", "run", "source")],
        ("answer", Answer),
    ]


class SessionCounts(ctypes.Structure):
    _fields_ = [
        ("taken", ctypes.c_uint64),
        # The first place is 0: causes are numbered from 1 on.
        ("dropped", ctypes.c_uint64 * (1 + len(CAUSES))),
        ("played", ctypes.c_uint64 * len(MARKS)),
    ]


class Nack(ctypes.Structure):
    _fields_ = [
        ("asks", ctypes.c_uint32),
        *[(name, ctypes.c_uint16) for name in ("packet", "following")],
    ]


class Noted(ctypes.Structure):
    _fields_ = [("kind", ctypes.c_uint32), ("fault", ctypes.c_uint32)]


class _View(ctypes.Structure):
    """`Py_buffer`: what PyObject_GetBuffer writes."""

    _fields_ = [
        ("buf", ctypes.c_void_p),
        ("obj", ctypes.c_void_p),
        ("len", ctypes.c_ssize_t),
        ("itemsize", ctypes.c_ssize_t),
        ("readonly", ctypes.c_int),
        ("ndim", ctypes.c_int),
        *[(name, ctypes.c_void_p) for name in ("format", "shape", "strides", "suboffsets", "internal")],
    ]


_get, _release = ctypes.pythonapi.PyObject_GetBuffer, ctypes.pythonapi.PyBuffer_Release
_get.argtypes = [ctypes.py_object, ctypes.POINTER(_View), ctypes.c_int]
_release.argtypes, _release.restype = [ctypes.POINTER(_View)], None


class passed:
    """Where these bytes lie, and how many they are: no copy. Until its end nothing moves them."""

    __slots__ = ("_data", "_view")

    def __init__(self, data: Buffer) -> None:
        self._data = data
        self._view: _View | None = None

    def __enter__(self) -> tuple[Union[int, bytes], int]:
        data = self._data
        if isinstance(data, bytes):
            # By itself: a subclass may say another length.
            return data, bytes.__len__(data)
        view = _View()
        _get(data, ctypes.byref(view), 0)
        self._view = view
        if view.itemsize != 1:
            self.__exit__()
            raise TypeError(f"bytes are wanted, and not items of {view.itemsize} bytes")
        return (view.buf if view.len else b""), view.len

    def __exit__(self, *_: object) -> None:
        if self._view is not None:
            _release(ctypes.byref(self._view))


def copied(data: Buffer) -> bytes:
    """These bytes, for what is short."""
    with passed(data) as (at, size):
        return ctypes.string_at(at, size)


def counted(name: str, value: int, bits: int = 32) -> int:
    """A number that fits into so many bits: ctypes would cut it."""
    number = operator.index(value)
    if not 0 <= number < 1 << bits:
        raise ValueError(f"{name}: {value} is out of its range")
    return number


_loaded: ctypes.CDLL | None = None


def _found() -> str:
    own = Path(__file__).resolve().parent
    beside = (own / "libh263rps.so.3", own.parent / "build" / "libh263rps.so")
    return next((str(it) for it in beside if it.exists()), "libh263rps.so.3")


def library() -> ctypes.CDLL:
    """The library, with the types of its functions."""
    global _loaded
    if _loaded is None:
        found = ctypes.CDLL(os.environ.get("H263RPS_LIBRARY") or _found())
        pointer, size, number = ctypes.c_void_p, ctypes.c_size_t, ctypes.c_uint32
        time = ctypes.c_uint64
        for name, takes in {
            "version": [],
            "defaults": [number, pointer],
            "picture_size": [number],
            "packet_start": [pointer, size, pointer],
            "datagram_start": [pointer, size, pointer],
            "receiver_start": [pointer, pointer, pointer],
            "receiver_start_at": [pointer, pointer, number, pointer],
            "receiver_packet": [pointer, pointer, size, pointer],
            "receiver_play": [pointer, pointer, size, pointer],
            "receiver_next": [pointer, pointer],
            "receiver_shown": [pointer, pointer],
            "receiver_reset": [pointer, number],
            "receiver_played": [pointer, pointer],
            "receiver_statistics": [pointer, pointer],
            "receiver_finish": [pointer],
            "sender_start": [pointer, pointer, pointer],
            "sender_code": [pointer, pointer, size, pointer, size, pointer],
            "sender_packet": [pointer, number, pointer, size, pointer],
            "sender_feedback": [pointer, pointer, size, pointer],
            "sender_target": [pointer, number],
            "sender_quant": [pointer, ctypes.c_uint8],
            "sender_forget": [pointer],
            "sender_reset": [pointer, number],
            "sender_sent": [pointer, pointer],
            "sender_known": [pointer, pointer],
            "sender_statistics": [pointer, pointer],
            "sender_finish": [pointer],
            "group_start": [pointer, pointer, pointer],
            "group_join": [pointer, number],
            "group_leave": [pointer, number],
            "group_code": [pointer, pointer, size, pointer, size, pointer],
            "group_packet": [pointer, number, pointer, size, pointer],
            "group_feedback": [pointer, number, pointer, size, pointer],
            "group_waiting_for": [pointer, pointer],
            "group_reference": [pointer, pointer],
            "group_target": [pointer, number],
            "group_quant": [pointer, ctypes.c_uint8],
            "group_sent": [pointer, pointer],
            "group_statistics": [pointer, pointer],
            "group_finish": [pointer],
            "repeats_start": [pointer, number, number],
            "repeats_keep": [pointer, pointer, size],
            "repeats_find": [pointer, ctypes.c_uint16, pointer],
            "repeats_finish": [pointer],
            "line_start": [pointer, pointer, time],
            "line_sent": [pointer, number, number, ctypes.c_uint16, time],
            "line_told": [pointer, number, number, time],
            "line_has_room": [pointer, time, pointer],
            "line_rate": [pointer, pointer],
            "line_wanted": [pointer, pointer],
            "line_target": [pointer, pointer],
            "line_quant": [pointer, pointer],
            "line_finish": [pointer],
            "pace_start": [pointer, number, number, number],
            "pace_redirect": [pointer, number, number],
            "pace_quant": [pointer, number],
            "session_start": [pointer, pointer, pointer, pointer],
            "session_arrival": [pointer, pointer, size, time, pointer],
            "session_arrival_of": [pointer, number, pointer, size, time, pointer],
            "session_missing": [pointer, time, time, pointer],
            "session_bye": [pointer, number, time],
            "session_reset": [pointer, time],
            "session_due": [pointer, pointer],
            "session_play": [pointer, time, pointer],
            "session_shown": [pointer, pointer],
            "session_source": [pointer, number, pointer],
            "session_statistics": [pointer, pointer],
            "session_finish": [pointer],
        }.items():
            call = getattr(found, f"h263rps_raw_{name}")
            call.argtypes, call.restype = takes, number
        coded = found.h263rps_raw_pace_coded
        coded.argtypes, coded.restype = [pointer, number, ctypes.c_uint8, number], None
        _loaded = found
    return _loaded
