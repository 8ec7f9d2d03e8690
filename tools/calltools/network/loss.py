"""Models of packet loss: in bursts, after Gilbert and Elliott, independent, and by a recorded pattern."""

import random
from pathlib import Path
from typing import Optional, Protocol, Sequence

from ..errors import BadInput


class Losses(Protocol):
    """Tells of one packet after another whether it is lost."""

    def is_lost(self) -> bool:
        """Whether the next packet is lost."""


class GilbertElliott:
    """Draws one packet after another, in a good state that loses nothing and a bad one that loses all.

    `rate` is the share of packets that are lost in the long run (0 to below 1), `burst` the mean number of
    packets lost in a row (1 at least). The chain leaves the bad state with probability 1 / burst and the good one
    with what keeps the share, rate / (1 - rate) / burst, which must be a probability.
    """

    def __init__(self, rate: float, burst: float, draws: random.Random) -> None:
        if not (0 <= rate < 1 <= burst):  # nor what is no number
            raise ValueError("the rate is from 0 to below 1, and the burst 1 at least")
        self._leave_bad = 1 / burst
        self._leave_good = rate / (1 - rate) / burst
        if self._leave_good > 1:
            raise ValueError(f"bursts of {burst:g} are too short for a rate of {rate:g}")
        self._draws = draws
        self._bad = draws.random() < rate

    def is_lost(self) -> bool:
        """Whether the next packet is lost."""
        lost = self._bad
        self._bad ^= self._draws.random() < (self._leave_bad if lost else self._leave_good)
        return lost


class Independent:
    """Each packet is lost with this probability, whatever became of the others (RFC 8868, 4.4)."""

    def __init__(self, rate: float, draws: Optional[random.Random] = None) -> None:
        self._rate, self._draws = rate, draws or random.Random(1)

    def is_lost(self) -> bool:
        """Whether the next packet is lost."""
        return self._draws.random() < self._rate


class Elliott:
    """Elliott's channel of 1963: two states, each of which loses packets with a probability of its own.

    `to_bad` and `to_good` are the probabilities of a change after a packet; the first state is drawn by the shares
    of the states in the long run. Gilbert's channel of 1960 is the one with no loss in the good state.
    """

    def __init__(self, to_bad: float, to_good: float, in_good: float, in_bad: float, draws: random.Random) -> None:
        self._change = {False: to_bad, True: to_good}
        self._lost = {False: in_good, True: in_bad}
        self._draws = draws
        moving = to_bad + to_good
        self._bad = draws.random() * moving < to_bad if moving else False

    def is_lost(self) -> bool:
        """Whether the next packet is lost."""
        lost = self._draws.random() < self._lost[self._bad]
        self._bad ^= self._draws.random() < self._change[self._bad]
        return lost


class Pattern:
    """Losses as they were recorded, from a place that is drawn on and round and round."""

    def __init__(self, lost: Sequence[bool], draws: random.Random) -> None:
        self._lost = lost
        self._at = draws.randrange(len(lost))

    def is_lost(self) -> bool:
        """Whether the next packet is lost."""
        lost = self._lost[self._at]
        self._at = (self._at + 1) % len(self._lost)
        return lost


# The words of ITU-T G.192 for a frame that came and for one that was lost, in both byte orders.
_G192 = {b"\x21\x6b": False, b"\x20\x6b": True, b"\x6b\x21": False, b"\x6b\x20": True}
MOST_PATTERN = 16_777_216


def read_pattern(path: Path) -> list[bool]:
    """An error pattern: `0` (came) and `1` (lost) as text, or words of ITU-T G.192."""
    with open(path, "rb") as file:
        data = file.read(2 * MOST_PATTERN + 1)
    if len(data) > 2 * MOST_PATTERN:
        raise BadInput(str(path), f"byte {2 * MOST_PATTERN}", "the pattern is longer than any call")
    lost = _words(data, str(path)) if data[:2] in _G192 else _digits(data, str(path))
    if not lost:
        raise BadInput(str(path), "its end", "the pattern tells of no packet")
    return lost


def _words(data: bytes, path: str) -> list[bool]:
    found: list[Optional[bool]] = [_G192.get(data[at : at + 2]) for at in range(0, len(data), 2)]
    if None in found:
        raise BadInput(path, f"byte {2 * found.index(None)}", "this is no word of G.192")
    return [bool(lost) for lost in found]


def _digits(data: bytes, path: str) -> list[bool]:
    for at, byte in enumerate(data):
        if byte not in b"01 \r\n\t":
            raise BadInput(path, f"byte {at}", "a pattern has the digits 0 and 1 alone")
    return [byte == ord("1") for byte in data if byte in b"01"]
