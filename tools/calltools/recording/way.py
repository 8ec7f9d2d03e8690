"""One way of a call as a page tells it: pictures, packets and messages, each with its times."""

from dataclasses import dataclass, field, replace
from typing import Optional, Sequence

from ..y4m import FORMATS, Size


@dataclass(frozen=True)
class Picture:
    """A picture by its number at the sender. What isn't known is None; times are in seconds, `kbits` is the rate of the
    line that its sender followed."""

    number: int
    mark: Optional[str] = None
    is_intra: bool = False
    reference: Optional[int] = None
    captured: Optional[float] = None
    played: Optional[float] = None
    kbits: Optional[int] = None


@dataclass(frozen=True)
class Packet:
    """A packet of a picture, or as many as `count` says, or where `is_all` all that it has. `fate` is
    taken, lost, late, early, again, or passed where nobody says whether it came."""

    picture: int
    fate: str
    sent: Optional[float] = None
    came: Optional[float] = None
    size: Optional[int] = None
    is_all: bool = False
    count: int = 1


@dataclass(frozen=True)
class Message:
    """An ACK of a picture, or a NACK. `fate` is taken (it came back), lost or passed."""

    picture: int
    is_ack: bool
    fate: str
    said: Optional[float] = None
    heard: Optional[float] = None


@dataclass(frozen=True)
class Way:
    """A sender's pictures and what a receiver made of them; `period` is the time of a picture.

    `first` is the number of the first picture; those of `captured` and `shown` count from it, too.
    """

    name: str
    size: Size
    period: float
    pictures: list[Picture]
    packets: list[Packet] = field(default_factory=list)
    messages: list[Message] = field(default_factory=list)
    captured: Sequence[bytes] = ()
    shown: Sequence[bytes] = ()

    @property
    def first(self) -> int:
        return self.pictures[0].number

    def section(self, start: int, count: int) -> "Way":
        """The way of this many pictures from place `start` on, as far as each video has them."""
        count = min([count, *(len(video) - start for video in (self.captured, self.shown) if video)])
        pictures = self.pictures[start : start + max(count, 0)]
        kept = {picture.number for picture in pictures}
        return replace(
            self,
            pictures=pictures,
            packets=[packet for packet in self.packets if packet.picture in kept],
            messages=[message for message in self.messages if message.picture in kept],
            captured=self.captured[start : start + count],
            shown=self.shown[start : start + count],
        )


def with_videos(told: Way, captured: Sequence[bytes], shown: Sequence[bytes]) -> Way:
    """The way with the pictures that were captured and shown."""
    return replace(told, captured=captured, shown=shown)


def format_of(size: Size) -> str:
    """A format's name and size."""
    names = {FORMATS[name]: name for name in FORMATS}
    name = names[size.width, size.height].upper().replace("SUB", "sub")
    return f"{name}, {size.width} \u00d7 {size.height}"
