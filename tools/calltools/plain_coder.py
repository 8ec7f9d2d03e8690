"""A plain coder beside ours: ffmpeg's H.263, which predicts each picture from the one before and hears of no loss."""

import subprocess
from dataclasses import dataclass
from pathlib import Path
from typing import Iterator, Optional, Sequence

from .errors import BadInput
from .network.rtp import HEADER_BYTES
from .y4m import Size

# A picture start code (H.263, 5.1.1): 16 zeros, a one, five zeros, and the first two bits of TR; bytes are aligned.
_FRONT, _LAST = b"\0\0", 0x80
# The 17 bits that begin a slice or a group of blocks are 16 zeros and a one; bytes are aligned.
_RESYNC = 0x80
# What a packet may hold beside its RTP header; its two bytes of payload header stand for the start code's two zeros.
_MOST_IN_PACKET = 1_438
# H.263 as of 1996, whose pictures aren't cut.
_WHOLE = ("-c:v", "h263")


def ffmpeg(*words: object) -> None:
    """Runs ffmpeg by one thread; what it says of lost pictures is not printed."""
    asked = ["ffmpeg", "-nostdin", "-y", "-v", "fatal", "-threads", "1", *map(str, words)]
    done = subprocess.run(asked, capture_output=True, text=True)
    if done.returncode:
        raise BadInput("ffmpeg", f"status {done.returncode}", done.stderr)


def pictures_of(stream: bytes) -> list[bytes]:
    """The pictures of a stream, each from its start code on."""
    starts = []
    at = stream.find(_FRONT)
    while at >= 0:
        if at + 2 < len(stream) and stream[at + 2] & 0xFC == _LAST:
            starts.append(at)
        at = stream.find(_FRONT, at + 1)
    return [stream[a:b] for a, b in zip(starts, starts[1:] + [len(stream)])]


@dataclass(frozen=True)
class PlainStream:
    """A coded video, and which of its pictures are coded by themselves."""

    pictures: list[bytes]
    intra: list[bool]
    shown: list[bytes]

    @property
    def bytes(self) -> int:
        """The bytes of all packets, RTP headers included."""
        return sum(len(picture) + HEADER_BYTES * -(-len(picture) // _MOST_IN_PACKET) for picture in self.pictures)


def sliced(limit: int) -> tuple[object, ...]:
    """The words that make ffmpeg begin a slice before a packet of this many bytes is full (Annex K)."""
    return ("-c:v", "h263p", "-structured_slices", 1, "-ps", limit - HEADER_BYTES)


def coded(video: Path, size: Size, quant: int, every: int, room: Path, coder: Sequence[object] = _WHOLE) -> PlainStream:
    """Codes a video at one quantiser, one picture in `every` by itself, and decodes it with nothing lost."""
    path = room / "plain.h263"
    ffmpeg(
        "-i", video, *coder, "-qmin", 1, "-qscale:v", quant, "-g", every, "-sc_threshold", 10**9, "-f", "h263", path
    )
    pictures = pictures_of(path.read_bytes())
    shown = decoded(pictures, size, room)
    if len(shown) != len(pictures):
        raise BadInput("ffmpeg", f"quantiser {quant}", f"{len(pictures)} pictures coded, {len(shown)} decoded")
    return PlainStream(pictures, [is_intra(picture) for picture in pictures], shown)


def packets_of(picture: bytes, limit: int) -> list[bytes]:
    """A picture cut where a slice begins, into packets within the limit as far as the slices allow."""
    starts = [0]
    at = picture.find(_FRONT, 1)
    while at >= 0:
        if at + 2 < len(picture) and picture[at + 2] & _RESYNC:
            starts.append(at)
        at = picture.find(_FRONT, at + 1)
    slices = [picture[a:b] for a, b in zip(starts, starts[1:] + [len(picture)])]
    packets = slices[:1]
    for piece in slices[1:]:
        if len(packets[-1]) + len(piece) + HEADER_BYTES <= limit:
            packets[-1] += piece
        else:
            packets.append(piece)
    return packets


def is_intra(picture: bytes) -> bool:
    """Whether a picture is coded by itself: bit 9 of PTYPE (H.263, 5.1.3), or the first three bits of MPPTYPE where a
    PLUSPTYPE follows (5.1.4), which stand after OPPTYPE's 18 if UFEP is 1."""
    bits = int.from_bytes(picture[:8].ljust(8, b"\0"), "big")

    def field(first: int, count: int) -> int:
        return bits >> 64 - first - count & (1 << count) - 1

    if field(35, 3) != 0b111:
        return not field(38, 1)
    return not field(59 if field(38, 3) == 1 else 41, 3)


def decoded(pictures: list[bytes], size: Size, room: Path) -> list[bytes]:
    """The pictures that ffmpeg shows of a stream."""
    stream, out = room / "arrived.h263", room / "arrived.yuv"
    stream.write_bytes(b"".join(pictures))
    ffmpeg("-f", "h263", "-i", stream, "-fps_mode", "passthrough", "-f", "rawvideo", "-pix_fmt", "yuv420p", out)
    samples = out.read_bytes()
    return [samples[at : at + size.bytes] for at in range(0, len(samples), size.bytes)]


def shown_of(stream: PlainStream, arrived: list[bool], size: Size, room: Path) -> Iterator[bytes]:
    """What is shown at the time of each picture: the last one that came, and grey before a first one that can be decoded."""
    came = [picture if here else None for picture, here in zip(stream.pictures, arrived)]
    return shown_of_parts(stream, came, size, room)


def shown_of_parts(stream: PlainStream, came: list[Optional[bytes]], size: Size, room: Path) -> Iterator[bytes]:
    """The same of pictures of which perhaps a part came; what is missing inside one is concealed by ffmpeg."""
    first = next((n for n, part in enumerate(came) if part and stream.intra[n]), len(came))
    kept = [part if number >= first else None for number, part in enumerate(came)]
    pictures = [part for part in kept if part]
    shown = decoded(pictures, size, room) if pictures else []
    if len(shown) != len(pictures):
        raise BadInput("ffmpeg", "the decoder", f"{len(pictures)} pictures came, {len(shown)} were shown")
    frames, last = iter(shown), bytes([128]) * size.bytes
    for part in kept:
        if part:
            last = next(frames)
        yield last
