"""Y4M video that comes through a pipe, cut into frames as it comes."""

import io
from typing import Iterator, Optional

from ..errors import BadInput
from ..network.pipes import Cutter
from ..y4m import Frame, MOST_LINE, Size, Y4mReader


class FrameCutter:
    """Takes bytes in any pieces, and gives the frames that are whole."""

    def __init__(self, path: str) -> None:
        self._path = path
        self._cutter = Cutter(self._next_size)
        self.head: Optional[bytes] = None
        self.size = Size(0, 0)

    def frames(self, data: bytes) -> Iterator[Frame]:
        """The frames that are whole by these bytes. Bytes that are no Y4M are bad input."""
        for part in self._cutter.parts(data):
            if self.head is None:
                self.head = part
                self.size = Y4mReader(io.BytesIO(part), self._path).size
                continue
            line, _, _ = part.partition(b"\n")
            tags = line.decode("latin-1").split(" ")[1:]
            yield Frame(tuple(tags), part[-self.size.bytes :])

    def _next_size(self, data: bytearray) -> Optional[int]:
        end = data.find(b"\n", 0, MOST_LINE)
        if end < 0:
            if len(data) >= MOST_LINE:
                raise BadInput(self._path, "a line", "it doesn't end, so this is no Y4M")
            return None
        if self.head is None:
            return end + 1
        if data[:end].split(b" ")[0] != b"FRAME":
            raise BadInput(self._path, "a frame's line", "no frame begins here")
        return end + 1 + self.size.bytes
