"""Repair: what the other side asks for again (RFC 4585, 6.2.1), and how long an answer takes."""

from collections import OrderedDict, deque
from dataclasses import replace
from types import ModuleType
from typing import Iterator, Optional

from .rtcp import Missing

# Packets that are kept to be sent again: those of a wait and a round trip, at the largest pictures.
_KEPT = 512
# What is sent again in so many seconds is at most what was sent anew in them. A packet that isn't kept counts, too, as
# one of so many bytes, so that asking for it costs little.
_WINDOW, _UNKNOWN = 1.0, 100
# What is missing is asked for a second time so many seconds later, since a question may be lost, too. One that comes
# twice is answered once: within so many seconds a packet isn't sent again.
TWICE, _ANSWERED = 0.005, 0.02
# Packets of which it is known when they were asked for.
_MOST_ASKED = 256
# For so many seconds a round trip counts that was seen. Then what is missing is asked for again, and tells: as if an
# answer took this share of the wait.
_FRESH, _GUESS = 10.0, 0.125
# The share of a new one in it. One of less than half was no answer: a packet that passed others had come by itself. So
# many of these in a row are the way's.
_SHARE, _SHORT = 0.25, 8


class _Lately:
    """Bytes of the last second."""

    def __init__(self) -> None:
        self._rows: deque[tuple[float, int]] = deque()
        self._bytes = 0

    def add(self, size: int, now: float) -> None:
        self._rows.append((now, size))
        self._bytes += size

    def bytes(self, now: float) -> int:
        while self._rows and self._rows[0][0] <= now - _WINDOW:
            self._bytes -= self._rows.popleft()[1]
        return self._bytes


class Repeating:
    """The packets that went out of late, for the side that asks for some again. However much it asks for, what is sent
    again is in each second at most as much as what was sent anew."""

    def __init__(self, library: ModuleType, longest: int, wait: float) -> None:
        self._repeats, self._wait = library.Repeats(_KEPT, longest), wait
        # When packets went out first.
        self._times: OrderedDict[int, float] = OrderedDict()
        self._anew, self._again = _Lately(), _Lately()
        # When packets were sent again of late.
        self._answered: OrderedDict[int, float] = OrderedDict()

    def sent(self, packet: bytes, now: float) -> None:
        """A packet went out."""
        self._repeats.keep(packet)
        self._times[int.from_bytes(packet[2:4], "big")] = now
        self._anew.add(len(packet), now)

    def asked(self, missing: Missing, now: float) -> Iterator[bytes]:
        """The packets to send again."""
        room = self._anew.bytes(now) - self._again.bytes(now)
        for sequence in missing.sequences():
            if room < _UNKNOWN:
                return
            is_due = self._is_in_time(sequence, now) and not self._is_answered(sequence, now)
            packet = self._repeats.find(sequence) if is_due else None
            size = len(packet) if packet else _UNKNOWN
            room -= size
            self._again.add(size, now)
            if packet and room >= 0:
                self._answered[sequence] = now
                yield packet

    def _is_in_time(self, sequence: int, now: float) -> bool:
        """Its picture may still wait: what went out longer ago would fill the line for nothing."""
        while self._times and next(iter(self._times.values())) < now - self._wait:
            self._times.popitem(last=False)
        return sequence in self._times

    def _is_answered(self, sequence: int, now: float) -> bool:
        while self._answered and next(iter(self._answered.values())) <= now - _ANSWERED:
            self._answered.popitem(last=False)
        return sequence in self._answered

    def close(self) -> None:
        self._repeats.close()


class Asked:
    """The packets that were asked for, and by those that come how long an answer takes."""

    def __init__(self, wait: float) -> None:
        self._asked: OrderedDict[int, float] = OrderedDict()
        self._guess = _GUESS * wait
        # Those of the last silence.
        self._given_up: frozenset[int] = frozenset()
        self._trip, self._seen, self._short = 0.0, -_FRESH, 0

    def round_trip(self, reported: Optional[float], now: float) -> float:
        """In seconds: what the other side's reports tell, else what was seen of late, else a guess."""
        if reported is not None:
            return reported
        return self._trip if now - self._seen < _FRESH else self._guess

    def ask(self, missing: Missing, now: float) -> None:
        """These are asked for."""
        for sequence in missing.sequences():
            self._asked.setdefault(sequence, now)
        while len(self._asked) > _MOST_ASKED:
            self._asked.popitem(last=False)

    def give_up(self, missing: Missing) -> None:
        """These aren't asked for."""
        self._given_up = frozenset(missing.sequences())

    def wanted(self, missing: Missing) -> Missing:
        """These without those that were given up."""
        if self._given_up.isdisjoint(missing.sequences()):
            return missing
        return _only(missing, [it for it in missing.sequences() if it not in self._given_up])

    def left(self, missing: Missing) -> Missing:
        """What of these hasn't come yet."""
        return _only(missing, [it for it in missing.sequences() if it in self._asked])

    def came(self, sequence: int, now: float) -> bool:
        """A packet came. Answers whether it was asked for."""
        when = self._asked.pop(sequence, None)
        if when is not None:
            self._note(now - when, now)
        return when is not None

    def _note(self, trip: float, now: float) -> None:
        is_first = now - self._seen >= _FRESH
        self._short = self._short + 1 if not is_first and trip < self._trip / 2 else 0
        if is_first or self._short == _SHORT:
            self._trip, self._short = trip, 0
        elif not self._short:
            self._trip += _SHARE * (trip - self._trip)
        self._seen = now


def _only(missing: Missing, sequences: list[int]) -> Missing:
    return replace(missing, fields=tuple((sequence, 0) for sequence in sequences))
