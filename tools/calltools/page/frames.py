"""The pictures of a Y4M file as a sequence that reads each when it is asked for."""

from pathlib import Path
from typing import Sequence, Union, overload

from ..errors import BadInput
from ..y4m import Size, Y4mReader


class Frames(Sequence[bytes]):
    """Pictures by the places of their samples in a file. A slice reads nothing."""

    def __init__(self, path: Path, size: Size, places: Sequence[int]) -> None:
        self.path, self.size, self._places = path, size, places

    def __len__(self) -> int:
        return len(self._places)

    @overload
    def __getitem__(self, number: int) -> bytes:
        ...

    @overload
    def __getitem__(self, number: slice) -> "Frames":
        ...

    def __getitem__(self, number: Union[int, slice]) -> Union[bytes, "Frames"]:
        if isinstance(number, slice):
            return Frames(self.path, self.size, self._places[number])
        with open(self.path, "rb") as file:
            file.seek(self._places[number])
            return file.read(self.size.bytes)


def frames_of(path: Path, is_cut: bool = False) -> Frames:
    """The pictures of a file. Where it may have been cut off, those before the cut."""
    with open(path, "rb") as file:
        reader = Y4mReader(file, str(path))
        places: list[int] = []
        try:
            for _ in reader:
                places.append(file.tell() - reader.size.bytes)
        except BadInput:
            if not is_cut:
                raise
    return Frames(path, reader.size, places)
