"""Made input, the formula of docs/FORMATS.md: two moving ridges in Y, slopes in Cb and Cr."""

import random
from typing import Iterator

from .y4m import Size


def _ridge(value: int) -> int:
    # The distance of the value modulo 128 from 64.
    return abs(value % 128 - 64)


def made_frame(size: Size, seed: int, number: int) -> bytes:
    """Frame `number` of the video made from a seed."""
    across = [60 + _ridge(x + 2 * number + seed % 128) for x in range(size.width)]
    down = [_ridge(2 * y + 2 * number) for y in range(size.height)]
    luma = b"".join(bytes(value + row for value in across) for row in down)
    cb = bytes(96 + _ridge(x + number) for x in range(size.width // 2)) * (size.height // 2)
    cr = b"".join(bytes([160 - _ridge(y + number)]) * (size.width // 2) for y in range(size.height // 2))
    return luma + cb + cr


def with_noise(size: Size, samples: bytes, noise: int, draws: random.Random) -> bytes:
    """The picture with a number from -noise to noise added to each sample of Y, drawn anew for each."""
    luma, cb, cr = size.planes(samples)
    noisy = bytes(min(max(value + draws.randint(-noise, noise), 0), 255) for value in luma)
    return noisy + cb + cr


def frames(size: Size, count: int, noise: int, seed: int = 1, step: int = 1) -> Iterator[bytes]:
    """The first frames of the video that a seed makes. Where there is noise, it is drawn from the seed, too.

    From one frame to the next the video goes on by `step` of its frames: where that is 0, the picture is still.
    """
    draws = random.Random(seed)
    for number in range(count):
        frame = made_frame(size, seed, step * number)
        yield with_noise(size, frame, noise, draws) if noise else frame
