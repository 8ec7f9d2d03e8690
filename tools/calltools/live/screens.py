"""Screens of a live call: a window, a file, the standard output, or none."""

import os
import stat
import subprocess
from typing import BinaryIO, Callable, Optional

from . import ffmpeg
from ..errors import BadInput
from .settings import Settings
from ..network.loop import Call, Loop
from ..network.pipes import Feed, widen
from ..y4m import Frame, head_bytes

WINDOW = "window"
# How many frames may wait before a window, and before a program that writes a file.
_WINDOW_AHEAD, _FILE_AHEAD = 3, 300
# How long a program may take to end, in seconds.
_PATIENCE = 5.0
# One of them tells a window where to be.
_DISPLAYS = ("DISPLAY", "WAYLAND_DISPLAY", "SDL_VIDEODRIVER")


class Screen:
    """Shows frames; the one without a place shows none."""

    def __init__(self) -> None:
        self.on_gone: Call = lambda: None
        self.on_fault: Callable[[BadInput], None] = lambda _: None
        self.left_out = 0

    def show(self, frame: Frame, now: float) -> None:
        """The next frame, with its mark."""

    def finish(self) -> None:
        """No more frames."""


def _end(process: "subprocess.Popen[bytes]") -> None:
    # Asks a program to end, and then ends it.
    process.terminate()
    try:
        process.wait(_PATIENCE)
    except subprocess.TimeoutExpired:
        process.kill()
        process.wait()


def _frame_bytes(frame: Frame) -> bytes:
    return f"{' '.join(('FRAME', *frame.tags))}\n".encode() + frame.samples


class FileScreen(Screen):
    """A Y4M file, written as the pictures come."""

    def __init__(self, settings: Settings, file: BinaryIO, name: str) -> None:
        super().__init__()
        self._file, self._name = file, name
        self._file.write(head_bytes(settings.size, settings.rate))

    def show(self, frame: Frame, now: float) -> None:
        try:
            self._file.write(_frame_bytes(frame))
        except OSError as fault:
            self.on_fault(BadInput(self._name, "it can't be written", str(fault.strerror)))

    def finish(self) -> None:
        try:
            self._file.close()
        except OSError as fault:
            self.on_fault(BadInput(self._name, "it can't be written", str(fault.strerror)))


class PipeScreen(Screen):
    """A program that shows or writes Y4M, or whatever reads the standard output. It is never
    waited for: frames that it has no room for are left out."""

    def __init__(self, loop: Loop, settings: Settings, name: str, words: list[str]) -> None:
        """Without words it is the standard output."""
        super().__init__()
        self._name = name
        is_window = name == WINDOW
        self._process: Optional[subprocess.Popen[bytes]] = None
        self._is_window, self._period = is_window, settings.period
        self._last = 0.0
        self._feed = Feed(loop, self._opened(words), self._broke)
        ahead = _WINDOW_AHEAD if is_window else _FILE_AHEAD
        self._most = ahead * settings.size.bytes
        self._feed.put(head_bytes(settings.size, settings.rate))

    def _opened(self, words: list[str]) -> int:
        if not words:
            # Opened anew, so that who shares the pipe isn't switched to writing without waiting.
            return os.open("/proc/self/fd/1", os.O_WRONLY)
        self._process = subprocess.Popen(
            words, stdin=subprocess.PIPE, stdout=subprocess.DEVNULL, start_new_session=True
        )
        assert self._process.stdin
        file = os.dup(self._process.stdin.fileno())
        self._process.stdin.close()
        widen(file)
        return file

    def show(self, frame: Frame, now: float) -> None:
        # Held pictures that come in one go after a silence would only make a window late.
        is_late = self._is_window and "XHELD" in frame.tags and now - self._last < self._period / 3
        if is_late or self._feed.waiting > self._most:
            self.left_out += 1
            return
        self._last = now
        self._feed.put(_frame_bytes(frame))

    def finish(self) -> None:
        self._feed.drain(_PATIENCE)
        if not self._process:
            return
        try:
            self._process.wait(_PATIENCE)
        except subprocess.TimeoutExpired:
            _end(self._process)

    def _broke(self) -> None:
        status = 0
        if self._process:
            try:
                status = self._process.wait(_PATIENCE)
            except subprocess.TimeoutExpired:
                _end(self._process)
        if status:
            self.on_fault(BadInput(self._name, "the screen", f"it ended with status {status}"))
        else:
            self.on_gone()


def screen_of(loop: Loop, settings: Settings, name: str, title: str) -> Screen:
    """`window`, a Y4M file, a file that ffmpeg writes, `-`, or `none`."""
    if name == "none":
        return Screen()
    if name == WINDOW:
        if not any(map(os.environ.get, _DISPLAYS)):
            told = "there is no display here, so --screen takes a Y4M file, - or none"
            raise BadInput("--screen", WINDOW, told)
        return PipeScreen(loop, settings, name, ffmpeg.window_words(settings.size, title))
    if name == "-":
        if stat.S_ISFIFO(os.fstat(1).st_mode):
            return PipeScreen(loop, settings, name, [])
        if os.isatty(1):
            raise BadInput("--screen", "-", "the standard output is a terminal")
        return FileScreen(settings, os.fdopen(os.dup(1), "wb"), "the standard output")
    if name.endswith(".y4m"):
        return FileScreen(settings, open(name, "wb"), name)
    return PipeScreen(loop, settings, name, ffmpeg.file_words(name))
