"""Pipes of a live call: written without waiting, and read as what comes through them."""

import fcntl
import os
import select
from collections import deque
from typing import Callable, Iterator, Optional

from .loop import Call, Loop

_SET_SIZE = 1031  # F_SETPIPE_SZ of Linux
# A few CIF frames; Linux gives 64 kB at first, through which a frame goes in pieces.
WIDE = 1 << 20
# What is read at once: more would have its memory mapped for each read.
_AT_ONCE = 1 << 16


def widen(file: int) -> None:
    """Room for a few frames in a pipe, where the system grants it."""
    try:
        fcntl.fcntl(file, _SET_SIZE, WIDE)
    except OSError:
        pass


class Feed:
    """Bytes on their way into a pipe; what it has no room for waits here."""

    def __init__(self, loop: Loop, file: int, on_broken: Call) -> None:
        os.set_blocking(file, False)
        self._loop, self._file, self._on_broken = loop, file, on_broken
        self._parts: deque[memoryview] = deque()
        self._is_last = self.is_closed = False
        self.waiting = 0

    def put(self, data: bytes) -> None:
        """Writes what there is room for now, and the rest when there is."""
        if self.is_closed or self._is_last:
            return
        self._parts.append(memoryview(data))
        self.waiting += len(data)
        if len(self._parts) == 1:
            self._write()
            if self._parts:
                self._loop.on_writable(self._file, self._write)

    def end(self) -> None:
        """Closes the pipe when all was written."""
        self._is_last = True
        if not self._parts:
            self.close()

    def drain(self, patience: float) -> None:
        """Waits for what isn't written yet, this many seconds at most, and closes the pipe."""
        until = self._loop.now() + patience
        while self._parts and (left := until - self._loop.now()) > 0:
            if select.select([], [self._file], [], left)[1]:
                self._write()
        self.close()

    def close(self) -> None:
        """Closes the pipe now."""
        if not self.is_closed:
            self.is_closed = True
            self._parts.clear()
            self.waiting = 0
            self._loop.on_writable(self._file, None)
            os.close(self._file)

    def _write(self) -> None:
        try:
            while self._parts:
                count = os.write(self._file, self._parts[0])
                self.waiting -= count
                if count == len(self._parts[0]):
                    self._parts.popleft()
                else:
                    self._parts[0] = self._parts[0][count:]
        except BlockingIOError:
            return
        except BrokenPipeError:
            self.close()
            self._on_broken()
            return
        self._loop.on_writable(self._file, None)
        if self._is_last:
            self.close()


class Source:
    """What comes out of a pipe, handed on as it comes."""

    def __init__(self, loop: Loop, file: int, on_bytes: Callable[[bytes], None], on_end: Call) -> None:
        os.set_blocking(file, False)
        self._loop, self._file, self._on_bytes, self._on_end = loop, file, on_bytes, on_end
        self.is_closed = False
        loop.on_readable(file, self._read)

    def close(self) -> None:
        if not self.is_closed:
            self.is_closed = True
            self._loop.on_readable(self._file, None)
            os.close(self._file)

    def _read(self) -> None:
        try:
            data = os.read(self._file, _AT_ONCE)
        except BlockingIOError:
            return
        if data:
            self._on_bytes(data)
        else:
            self.close()
            self._on_end()


class Cutter:
    """Cuts bytes that come in pieces into parts: `size_of` tells the next part's length, or None
    where more bytes are needed to know."""

    def __init__(self, size_of: Callable[[bytearray], Optional[int]]) -> None:
        self._size_of = size_of
        self._bytes = bytearray()

    def parts(self, data: bytes) -> Iterator[bytes]:
        """The parts that are whole by these bytes; each is cut when it is asked for."""
        self._bytes += data
        while (size := self._size_of(self._bytes)) is not None and size <= len(self._bytes):
            part = bytes(self._bytes[:size])
            del self._bytes[:size]
            yield part
