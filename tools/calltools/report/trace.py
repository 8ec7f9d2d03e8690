"""Traces of a call, the lines of `call --trace`: `S`, `D n.i`, `D n.*`, `B k`, `P`; and those of `duplex`, which have
no `B`, and a party's letter first: `a S`; and those of `group`, a receiver's number first but for `S`."""

import random
import re
from dataclasses import dataclass
from typing import Iterator, Optional, Protocol, Sequence

from ..network.loss import GilbertElliott, Losses

LINE = re.compile(r"|S|P|B \d{1,7}|D \d{1,7}\.(?:\d{1,7}|\*)")
PARTY_LINE = re.compile(r"|[ab] (?:S|P|D \d{1,7}\.(?:\d{1,7}|\*))")
GROUP_LINE = re.compile(r"|S|[1-3] (?:P|B \d{1,7}|D \d{1,7}\.(?:\d{1,7}|\*))")
PARTIES = ("a", "b")


@dataclass(frozen=True)
class Network:
    """A network between two ends, in units of a picture's time.

    Each picture has `packets` packets. They arrive `delay` pictures after their capture, each up to `jitter` later;
    a picture is played `hold` pictures after it is due; a message arrives `back` pictures after the play of its picture.
    """

    packets: int
    delay: int
    jitter: int
    hold: int
    back: int


class Fates(Protocol):
    """What becomes of each packet, asked once of one after another."""

    def lateness(self, picture: int, place: int) -> Optional[int]:
        """How many pictures after its capture the packet at this place arrives; None where it is lost."""


class Drawn:
    """Packets that are lost by a model, and come up to `jitter` pictures later than `delay`, evenly drawn."""

    def __init__(self, losses: Losses, delay: int, jitter: int, draws: random.Random) -> None:
        self._losses, self._delay, self._jitter, self._draws = losses, delay, jitter, draws

    def lateness(self, picture: int, place: int) -> Optional[int]:
        """As drawn; the place doesn't matter."""
        if self._losses.is_lost():
            return None
        return self._delay + self._draws.randint(0, self._jitter)


@dataclass(frozen=True)
class Loss:
    """Shares of packets and of messages that are lost, and the mean length of a loss."""

    packets: float
    messages: float
    burst: float


def trace(pictures: int, network: Network, loss: Loss, seed: int) -> Iterator[str]:
    """The lines of a call of this many pictures.

    One message is said of each picture, by its play at the latest, so message n is brought back no sooner. Packets,
    messages and delays are drawn apart from one another, so which packets are lost depends on nothing else.
    """
    forth = GilbertElliott(loss.packets, loss.burst, random.Random(f"packets {seed}"))
    back = GilbertElliott(loss.messages, loss.burst, random.Random(f"messages {seed}"))
    late = random.Random(f"delays {seed}")
    return trace_of_fates(pictures, network, Drawn(forth, network.delay, network.jitter, late), back)


def trace_of_fates(pictures: int, network: Network, fates: Fates, back: Losses) -> Iterator[str]:
    """The lines of a call whose packets have these fates, and whose messages are lost like this."""
    arrivals: dict[int, list[str]] = {}
    wait = network.delay + network.hold
    for tick in range(pictures + wait):
        if tick < pictures:
            yield "S"
            for delay, line in _deliveries(tick, network.packets, fates):
                arrivals.setdefault(tick + delay, []).append(line)
        yield from arrivals.pop(tick, [])
        if tick >= wait:
            yield "P"
        said = tick - wait - network.back
        if said >= 0 and not back.is_lost():
            yield f"B {said}"


def duplex_trace(pictures: int, network: Network, losses: Sequence[Loss], seed: int) -> Iterator[str]:
    """The lines of a duplex call of this many pictures each way, with the losses of a's pictures and of b's.

    Both parties capture at the same time, then what arrives is delivered, then both play. The letter of a line is
    that of the party whose picture it is about. What is drawn for a party's pictures is drawn apart from the other's.
    """
    ways = [_Way(letter, network, loss, seed) for letter, loss in zip(PARTIES, losses)]
    wait = network.delay + network.hold
    for tick in range(pictures + wait):
        if tick < pictures:
            for way in ways:
                way.capture(tick)
                yield f"{way.letter} S"
        for way in ways:
            yield from (f"{way.letter} {line}" for line in way.arrivals.pop(tick, []))
        if tick >= wait:
            yield from (f"{way.letter} P" for way in ways)


class _Way:
    # One way of a duplex call: what arrives of a party's pictures, by its time.

    def __init__(self, letter: str, network: Network, loss: Loss, seed: int) -> None:
        self.letter, self._packets = letter, network.packets
        self.arrivals: dict[int, list[str]] = {}
        forth = GilbertElliott(loss.packets, loss.burst, random.Random(f"packets {letter} {seed}"))
        self._fates = Drawn(forth, network.delay, network.jitter, random.Random(f"delays {letter} {seed}"))

    def capture(self, picture: int) -> None:
        for delay, line in _deliveries(picture, self._packets, self._fates):
            self.arrivals.setdefault(picture + delay, []).append(line)


def _deliveries(picture: int, packets: int, fates: Fates) -> list[tuple[int, str]]:
    # The packets of a picture that arrive, each with how many pictures after the capture.
    told = [(place, fates.lateness(picture, place)) for place in range(packets)]
    kept = [(place, delay) for place, delay in told if delay is not None]
    if len(kept) == packets and len({delay for _, delay in kept}) == 1:
        return [(kept[0][1], f"D {picture}.*")]
    return [(delay, f"D {picture}.{place}") for place, delay in kept]
