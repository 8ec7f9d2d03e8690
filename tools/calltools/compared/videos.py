"""The contents: ffmpeg makes them by these words."""

import subprocess
from functools import lru_cache
from pathlib import Path
from typing import Iterable

from ..errors import BadInput
from ..y4m import Size
from .call import AFTER, Video
from .network import PER, RATE

FORMATS = {"qcif": Size(176, 144), "cif": Size(352, 288)}
# What moves on a still background, with a camera's noise; a slow approach; a camera in the hand that turns.
CONTENTS = {
    "test": "testsrc2=s={size}:r={rate},noise=alls=3:allf=t:all_seed=1",
    "zoom": "mandelbrot=s={size}:r={rate}",
    "pan": "mandelbrot=s=1408x1152:start_scale=0.9:end_scale=0.9:start_x=-0.5:start_y=0.3,trim=end_frame=1,loop=-1:1,setpts=N,"
    "crop=704:576:352+250*sin(n/60)+10*sin(n/5):288+180*sin(n/75)+10*sin(n/7),scale={size},"
    "noise=alls=2:allf=t:all_seed=2,fps={rate}",
}


def make(room: Path, pictures: int, forms: Iterable[str] = FORMATS, contents: Iterable[str] = CONTENTS) -> None:
    """Makes the videos in a folder."""
    for form in forms:
        size = FORMATS[form]
        for content in contents:
            words = CONTENTS[content].format(size=f"{size.width}x{size.height}", rate=f"{RATE}/{PER}")
            _made(_path(room, form, content), words, pictures + AFTER)


def _made(path: Path, source: str, pictures: int) -> None:
    words = ["ffmpeg", "-v", "error", "-y", "-f", "lavfi", "-i", source, "-frames:v", str(pictures)]
    try:
        done = subprocess.run(
            [*words, "-pix_fmt", "yuv420p", "-f", "rawvideo", str(path)], capture_output=True, text=True
        )
    except FileNotFoundError as fault:
        raise BadInput("ffmpeg", "it isn't there", "apt install ffmpeg") from fault
    if done.returncode:
        raise BadInput("ffmpeg", source, done.stderr)


def _path(room: Path, form: str, content: str) -> Path:
    return room / f"{form}-{content}.yuv"


@lru_cache(maxsize=1)
def video(room: Path, form: str, content: str) -> Video:
    """A video of the folder."""
    size = FORMATS[form]
    data = _path(room, form, content).read_bytes()
    return Video(size, [data[at : at + size.bytes] for at in range(0, len(data), size.bytes)])
