"""Pictures as a page stores them: images in WebP by Pillow, lossless where they fit. Browsers decode them."""

import base64
import hashlib
import io
from dataclasses import dataclass
from typing import Optional, Sequence

from PIL import Image

from .. import progress_line
from ..report.quality import Errors, NO_ERRORS, SAME, errors_between
from ..y4m import Size

# Of WebP, from the finest on; None is lossless.
QUALITIES: tuple[Optional[int], ...] = (None, 95, 90, 80, 60, 40, 20, 0)
# How much WebP tries, of 6: more takes several times as long and saves a hundredth.
_METHOD = 2
# Of lossless pictures: how much is tried, of 100.
_EFFORT = 60
# So many pictures tell how long a video becomes, and what is lost.
_SAMPLED = 32
# Estimates above this share of the room aren't tried.
_RESERVE = 1.03


def encoded(size: Size, samples: bytes, quality: Optional[int]) -> bytes:
    """A picture's image: its samples are a grey one's, in their order, so that no colour is converted."""
    image = Image.frombytes("L", (size.width, size.height * 3 // 2), samples)
    file = io.BytesIO()
    if quality is None:
        image.save(file, "WEBP", method=_METHOD, lossless=True, quality=_EFFORT)
    else:
        image.save(file, "WEBP", method=_METHOD, quality=quality)
    return file.getvalue()


def decoded(image: bytes) -> bytes:
    """The samples that a page shows of an image."""
    samples: bytes = Image.open(io.BytesIO(image), formats=("WEBP",)).convert("RGB").getchannel(0).tobytes()
    return samples


@dataclass(frozen=True)
class Distinct:
    """The pictures that none before them equals, by their places; and for each picture, which of these it is."""

    places: list[int]
    which: list[int]


def distinct(pictures: Sequence[bytes]) -> Distinct:
    """A picture that is held, or comes again, is stored once."""
    numbers: dict[bytes, int] = {}
    found = Distinct([], [])
    for place, samples in enumerate(pictures):
        key = hashlib.sha256(samples).digest()
        if key not in numbers:
            numbers[key] = len(found.places)
            found.places.append(place)
        found.which.append(numbers[key])
    return found


@dataclass(frozen=True)
class Video:
    """What is stored of a video: its images as base64, which of them each picture is, and what it has lost."""

    size: Size
    quality: Optional[int]
    images: list[str]
    which: list[int]
    errors: Errors

    @property
    def length(self) -> int:
        # In JSON, with quotes and commas.
        return sum(len(image) + 3 for image in self.images) + sum(len(str(number)) + 1 for number in self.which)

    def told(self) -> dict[str, object]:
        """As the page's script reads it."""
        luma = None if self.quality is None else round(min(self.errors.psnr()[0], SAME), 1)
        size = {"width": self.size.width, "height": self.size.height}
        return {**size, "psnr": luma, "which": self.which, "images": self.images}


@dataclass(frozen=True)
class Film:
    """A video to be stored."""

    size: Size
    pictures: Sequence[bytes]
    distinct: Distinct

    def estimate(self, quality: Optional[int]) -> float:
        """How long it becomes as base64, by some of its pictures."""
        places = self.distinct.places
        some = places[:: -(-len(places) // _SAMPLED)]
        sizes = [len(encoded(self.size, self.pictures[place], quality)) for place in some]
        return sum(sizes) / len(some) * len(places) * 4 / 3

    def stored(self, quality: Optional[int]) -> Video:
        """All of it. What is lost is measured at some of the pictures."""
        images, errors = [], NO_ERRORS
        places = self.distinct.places
        for number, place in enumerate(progress_line.through(places, "storing pictures", len(places))):
            samples = self.pictures[place]
            image = encoded(self.size, samples, quality)
            images.append(base64.b64encode(image).decode())
            if quality is not None and number % _SAMPLED == 0:
                errors += errors_between(self.size, samples, decoded(image))
        return Video(self.size, quality, images, self.distinct.which, errors)


def film(size: Size, pictures: Sequence[bytes]) -> Film:
    """The video of these pictures."""
    return Film(size, pictures, distinct(pictures))


def fitting(videos: Sequence[tuple[Size, Sequence[bytes]]], most: int) -> list[Video]:
    """The videos with at most this many characters in all, in the finest quality that allows it, the
    same for all of them; in the coarsest one where none does."""
    films = [film(*video) for video in videos]
    for quality in QUALITIES:
        is_last = quality == QUALITIES[-1]
        if not is_last and sum(film.estimate(quality) for film in films) > _RESERVE * most:
            continue
        made = [film.stored(quality) for film in films]
        if is_last or sum(video.length for video in made) <= most:
            break
    return made
