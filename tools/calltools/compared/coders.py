"""Other coders, by libavcodec: `coders.c` is compiled where it is first wanted."""

import ctypes
import subprocess
from functools import cache
from pathlib import Path

from ..errors import BadInput
from ..y4m import Size

_HERE = Path(__file__).resolve().parent / "coders.c"
_ROOM = 1 << 20
_PACKAGES = ("libavcodec", "libavutil")


def compiled(room: Path) -> Path:
    """The compiled file in a folder."""
    path = room / "coders.so"
    flags = subprocess.run(["pkg-config", "--cflags", "--libs", *_PACKAGES], capture_output=True, text=True)
    if flags.returncode:
        raise BadInput("libavcodec", "it isn't there", "apt install libavcodec-dev")
    words = ["cc", "-O3", "-shared", "-fPIC", "-o", str(path), str(_HERE), *flags.stdout.split()]
    done = subprocess.run(words, capture_output=True, text=True)
    if done.returncode:
        raise BadInput(str(_HERE), "it isn't compiled", done.stderr)
    return path


_path: list[Path] = []


def use(path: Path) -> None:
    """The compiled file that is used from here on."""
    _path[:] = [path]


@cache
def _library() -> ctypes.CDLL:
    it = ctypes.CDLL(str(_path[0]))
    whole, size, wide = ctypes.c_int, ctypes.c_size_t, ctypes.c_int64
    it.coder_open.restype = it.decoder_open.restype = ctypes.c_void_p
    it.coder_open.argtypes = [ctypes.c_char_p, whole, whole, wide, wide, ctypes.c_char_p]
    it.decoder_open.argtypes = [ctypes.c_char_p]
    it.coder_close.argtypes, it.coder_close.restype = [ctypes.c_void_p], None
    counted = ctypes.POINTER(whole)
    it.coder_code.argtypes = [
        ctypes.c_void_p,
        ctypes.c_char_p,
        wide,
        whole,
        ctypes.c_uint,
        ctypes.c_char_p,
        whole,
        counted,
    ]
    it.decoder_decode.argtypes = [ctypes.c_void_p, ctypes.c_char_p, whole, ctypes.c_char_p]
    it.squares.argtypes, it.squares.restype = [ctypes.c_char_p, ctypes.c_char_p, size], ctypes.c_uint64
    return it


def squares(one: bytes, other: bytes, count: int) -> int:
    """The sum of the squares of the differences of the first samples."""
    return int(_library().squares(one, other, count))


class _Opened:
    def __init__(self, at: int, what: str) -> None:
        if not at:
            raise BadInput(what, "the coder", "isn't in this libavcodec")
        self._at = at

    def __del__(self) -> None:
        if getattr(self, "_at", None):
            _library().coder_close(self._at)


class Encoder(_Opened):
    """A coder of pictures, at so many bits a second."""

    def __init__(self, name: str, size: Size, rate: int, buffer: float, options: str) -> None:
        text = options.encode()
        super().__init__(
            _library().coder_open(name.encode(), size.width, size.height, rate, round(rate * buffer), text), name
        )
        self._room = ctypes.create_string_buffer(_ROOM)
        self._number = 0

    def code(self, picture: bytes, is_key: bool, flags: int = 0) -> tuple[bytes, bool]:
        """The next picture's bytes, and whether it needs no other."""
        found = ctypes.c_int()
        key = ctypes.byref(found)
        count = _library().coder_code(self._at, picture, self._number, is_key, flags, self._room, _ROOM, key)
        if count <= 0:
            raise ValueError(f"picture {self._number} isn't coded")
        self._number += 1
        return self._room.raw[:count] if count > _ROOM // 2 else ctypes.string_at(self._room, count), bool(found.value)


class Decoder(_Opened):
    """What shows pictures of a coder."""

    def __init__(self, name: str, size: Size) -> None:
        super().__init__(_library().decoder_open(name.encode()), name)
        self._length = size.width * size.height * 3 // 2

    def decode(self, data: bytes) -> bytes:
        """The picture of these bytes."""
        room = ctypes.create_string_buffer(self._length)
        if not _library().decoder_decode(self._at, data, len(data), room):
            raise ValueError("nothing is decoded")
        return room.raw
