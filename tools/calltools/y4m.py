"""Y4M video as the program reads and writes it: 4:2:0, three formats, 30000/1001 pictures a second."""

from dataclasses import dataclass
from fractions import Fraction
from typing import BinaryIO, Iterator

from .errors import BadInput

FORMATS = {"sub-qcif": (128, 96), "qcif": (176, 144), "cif": (352, 288)}
MOST_LINE = 256
# Of a picture that is read, in samples.
MOST_SIDE = 16_384
COLOURS = {"C420", "C420jpeg", "C420mpeg2", "C420paldv"}


# `bytes` within a `Size` is how many it has.
_Samples = bytes


@dataclass(frozen=True)
class Size:
    """Width and height of Y in samples; Cb and Cr have half of each."""

    width: int
    height: int

    @property
    def luma(self) -> int:
        return self.width * self.height

    @property
    def colour(self) -> int:
        return self.luma // 4

    @property
    def bytes(self) -> int:
        return self.luma + 2 * self.colour

    def planes(self, samples: _Samples) -> tuple[_Samples, _Samples, _Samples]:
        """Y, Cb and Cr of a picture's bytes."""
        cb, cr = self.luma, self.luma + self.colour
        return samples[:cb], samples[cb:cr], samples[cr:]


@dataclass(frozen=True)
class Frame:
    """A picture's bytes, and the tags of its line (`XEXACT` in what `call` and `recv` write)."""

    tags: tuple[str, ...]
    samples: bytes

    def as_written(self) -> bytes:
        """Its line and its bytes."""
        return " ".join(("FRAME", *self.tags)).encode("latin-1") + b"\n" + self.samples


class Y4mReader:
    """A Y4M file, read frame by frame."""

    def __init__(self, file: BinaryIO, path: str) -> None:
        self._file = file
        self._path = path
        self._at = 0
        self.size = self._read_head()

    def _line(self) -> list[str]:
        line = self._file.readline(MOST_LINE)
        if not line.endswith(b"\n"):
            raise BadInput(self._path, f"byte {self._at + len(line)}", "a line of Y4M doesn't end")
        self._at += len(line)
        return line[:-1].decode("latin-1").split(" ")

    def _read_head(self) -> Size:
        magic, *tags = self._line()
        if magic != "YUV4MPEG2":
            raise BadInput(self._path, "byte 0", "this is no Y4M")
        numbers = {tag[0]: tag[1:] for tag in tags if tag}
        colour = "C" + numbers.get("C", "420")
        if colour not in COLOURS:
            raise BadInput(self._path, "the head", f"{colour} is not 4:2:0 with bytes for samples")
        width, height = numbers.get("W", ""), numbers.get("H", "")
        if not (width.isdecimal() and height.isdecimal()):
            raise BadInput(self._path, "the head", "the width or the height is missing")
        size = Size(int(width), int(height))
        if max(size.width, size.height) > MOST_SIDE:
            raise BadInput(self._path, "the head", f"a side of more than {MOST_SIDE:,} samples")
        if not size.luma or size.width % 2 or size.height % 2:
            raise BadInput(self._path, "the head", f"{width} x {height} has no planes of half the size")
        return size

    def __iter__(self) -> Iterator[Frame]:
        while self._file.peek(1):  # type: ignore[attr-defined]
            start = self._at
            word, *tags = self._line()
            if word != "FRAME":
                raise BadInput(self._path, f"byte {start}", "no frame begins here")
            samples = self._file.read(self.size.bytes)
            self._at += len(samples)
            if len(samples) < self.size.bytes:
                raise BadInput(self._path, f"byte {self._at}", "the file ends within a frame")
            yield Frame(tuple(tags), samples)


def format_of(size: Size, path: str) -> str:
    """The format's name of a video of this size; one of another size is refused."""
    for name, (width, height) in FORMATS.items():
        if size == Size(width, height):
            return name
    told = f"{size.width} x {size.height} is none of the three formats"
    raise BadInput(path, "the head", told)


# Frames a second of the program's videos.
RATE = Fraction(30_000, 1_001)


def head_bytes(size: Size, rate: Fraction = RATE) -> bytes:
    """The head of a progressive video."""
    told = f"F{rate.numerator}:{rate.denominator}"
    return f"YUV4MPEG2 W{size.width} H{size.height} {told} Ip C420jpeg\n".encode()


def write_head(file: BinaryIO, size: Size) -> None:
    """The head of a video: progressive, 30000/1001 frames a second."""
    file.write(head_bytes(size))


def write_frame(file: BinaryIO, samples: bytes) -> None:
    """One frame without tags."""
    file.write(b"FRAME\n" + samples)
