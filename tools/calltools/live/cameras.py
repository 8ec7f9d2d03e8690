"""Cameras of a live call: ffmpeg, a Y4M file in its own time, or Y4M that comes in."""

import os
import stat
import subprocess
from pathlib import Path
from typing import Callable, Optional, Union

from . import ffmpeg
from ..errors import BadInput
from .settings import Settings
from ..network.loop import Call, Loop, Timer
from ..network.pipes import Source, widen
from ..y4m import Frame, Y4mReader
from .y4m_pipe import FrameCutter

DEVICE = "/dev/video0"
# The least time between two frames of a file, in pictures.
_LEAST = 0.75


class Camera:
    """Gives frames of the call's size until it ends, or is stopped. `on_frame` answers whether
    the frame was taken."""

    def __init__(self) -> None:
        self.on_frame: Callable[[bytes], bool] = lambda _: True
        self.on_end: Call = lambda: None
        self.on_fault: Callable[[BadInput], None] = lambda _: None
        self.left_out = 0

    def start(self) -> None:
        """Begins to give frames."""

    def stop(self) -> None:
        """Gives no more."""


class FileCamera(Camera):
    """A Y4M file, a frame in each picture's time. Where the machine is too slow for one, it and
    the later ones wait: none is left out."""

    def __init__(self, loop: Loop, settings: Settings, path: Path) -> None:
        super().__init__()
        self._loop, self._period = loop, settings.period
        self._file = path.open("rb")
        reader = Y4mReader(self._file, str(path))
        _check_size(reader, settings, str(path))
        self._frames = iter(reader)
        self._frame: Optional[Frame] = None
        self._timer: Optional[Timer] = None
        self._next = 0.0

    def start(self) -> None:
        self._next = self._loop.now()
        self._tick()

    def stop(self) -> None:
        if self._timer:
            self._timer.cancel()
        self._file.close()

    def _tick(self) -> None:
        try:
            self._frame = self._frame or next(self._frames, None)
        except BadInput as fault:
            self.on_fault(fault)
            return
        if self._frame is None:
            self.on_end()
            return
        soonest = self._loop.now() + _LEAST * self._period
        self._next = max(self._next + self._period, soonest)
        self._timer = self._loop.at(self._next, self._tick)
        if self.on_frame(self._frame.samples):
            self._frame = None


class PipeCamera(Camera):
    """Y4M that comes in, from ffmpeg or from whatever writes it, as it comes."""

    def __init__(self, loop: Loop, settings: Settings, name: str, words: list[str]) -> None:
        """Without words it comes in on the standard input."""
        super().__init__()
        self._loop, self._settings, self._name, self._words = loop, settings, name, words
        self._cutter = FrameCutter(f"camera {name}")
        self._process: Optional[subprocess.Popen[bytes]] = None
        self._source: Optional[Source] = None
        self._is_checked = False

    def start(self) -> None:
        file = os.dup(0) if not self._words else self._started()
        widen(file)
        self._source = Source(self._loop, file, self._came, self._ended)

    def _started(self) -> int:
        self._process = subprocess.Popen(
            self._words,
            stdin=subprocess.DEVNULL,
            stdout=subprocess.PIPE,
            start_new_session=True,
        )
        assert self._process.stdout
        file = os.dup(self._process.stdout.fileno())
        self._process.stdout.close()
        return file

    def stop(self) -> None:
        if self._process:
            # Asked to end it would still write, and complain.
            self._process.kill()
            self._process.wait()
        if self._source:
            self._source.close()

    def _came(self, data: bytes) -> None:
        try:
            for frame in self._cutter.frames(data):
                if not self._is_checked:
                    _check_size(self._cutter, self._settings, f"camera {self._name}")
                    self._is_checked = True
                self.left_out += not self.on_frame(frame.samples)
        except BadInput as fault:
            self.on_fault(fault)

    def _ended(self) -> None:
        if self._is_checked:
            self.on_end()
            return
        status = f" (status {self._process.wait()})" if self._process else ""
        self.on_fault(BadInput(f"camera {self._name}", "no picture", f"it ended{status}"))


def _check_size(video: Union[Y4mReader, FrameCutter], settings: Settings, name: str) -> None:
    size, wanted = video.size, settings.size
    if size != wanted:
        told = f"{size.width} x {size.height}, and the call is {settings.format}"
        raise BadInput(name, "the head", f"{told}, {wanted.width} x {wanted.height}")


def camera_of(loop: Loop, settings: Settings, name: str) -> Camera:
    """`test`, a device, a video file, a Y4M file, or `-`."""
    if name == "-":
        if stat.S_ISREG(os.fstat(0).st_mode):
            return FileCamera(loop, settings, Path("/dev/stdin"))
        return PipeCamera(loop, settings, name, [])
    if name.endswith(".y4m"):
        return FileCamera(loop, settings, Path(name))
    if name.startswith("/dev/video") and not os.path.exists(name):
        raise BadInput(name, "no camera", "is one plugged in? --camera test has a test picture")
    if name != "test" and not os.access(name, os.R_OK):
        raise BadInput(name, "no camera", "there is no such file that can be read")
    words = ffmpeg.camera_words(name, settings.size, settings.rate)
    return PipeCamera(loop, settings, name, words)
