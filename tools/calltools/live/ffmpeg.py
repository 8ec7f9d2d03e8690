"""ffmpeg and ffplay as camera and screen of a live call."""

import shutil
from fractions import Fraction

from ..errors import BadInput
from ..y4m import Size

_QUIET = ("-v", "error", "-nostdin")
# Of a window, about.
_WINDOW_WIDTH = 704


def _found(name: str, without: str) -> str:
    path = shutil.which(name)
    if not path:
        raise BadInput(name, "not on this machine", without)
    return path


def _source(name: str, size: Size, rate: Fraction) -> list[str]:
    if name == "test":
        told = f"testsrc2=size={size.width}x{size.height}:rate={rate}"
        return ["-re", "-f", "lavfi", "-i", told]
    if name.startswith("/dev/video"):
        return ["-fflags", "nobuffer", "-f", "v4l2", "-i", name]
    return ["-re", "-i", f"file:{name}"]


def camera_words(name: str, size: Size, rate: Fraction) -> list[str]:
    """The words that make Y4M of a camera, of the test picture or of a video file."""
    whole = f"{size.width} x {size.height}"
    without = f"so --camera takes a Y4M file of {whole}, or - for one that comes in"
    fit = (
        f"fps={rate},scale={size.width}:{size.height}:force_original_aspect_ratio=increase,"
        f"crop={size.width}:{size.height},format=yuv420p"
    )
    own = [_found("ffmpeg", without), *_QUIET, *_source(name, size, rate)]
    return [*own, "-an", "-vf", fit, "-f", "yuv4mpegpipe", "-"]


def window_words(size: Size, title: str) -> list[str]:
    """The words of a window that shows each picture as soon as it comes, enlarged."""
    own = _found("ffplay", "so --screen takes a Y4M file, - or none")
    low = ["-fflags", "nobuffer", "-flags", "low_delay", "-framedrop", "-probesize", "32"]
    times = max(1, _WINDOW_WIDTH // size.width)
    big = ["-x", str(times * size.width), "-y", str(times * size.height)]
    words = [own, "-v", "error", *low, "-sync", "ext", "-autoexit", *big, "-window_title", title]
    return [*words, "-f", "yuv4mpegpipe", "-i", "-"]


def file_words(name: str) -> list[str]:
    """The words that write a video file of ffmpeg's."""
    own = _found("ffmpeg", "so --screen takes a Y4M file, - or none")
    return [own, "-v", "error", "-y", "-f", "yuv4mpegpipe", "-i", "-", f"file:{name}"]
