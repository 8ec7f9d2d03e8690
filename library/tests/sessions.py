#!/usr/bin/env python3
"""sessions.py SECONDS [SEED]: random calls through the library's session and through session_model, compared answer by
answer.

A call has up to four streams of real senders, over ways that lose, delay, repeat and change packets; cameras that pause
or hurry, leaps of timestamps and of the clock, junk, floods; plays when they are due, late, or not at all. What the
session says goes back to the senders, and what it asks for comes again; streams end, and calls begin anew. Ends with status 1 at the first difference, with the seed that makes it again.
"""

import heapq
import random
import sys
import time
from collections import Counter
from functools import partial
from itertools import count
from pathlib import Path
from typing import Callable, Optional

sys.path[:0] = [str(Path(__file__).resolve().parent.parent)]
import h263rps  # noqa: E402
from session_model import FOLLOWED, SECOND, Dropped, Model, Taken  # noqa: E402

RATES = ((30, 1), (30_000, 1_001), (25, 1), (15, 1), (10, 1), (5, 1), (1, 1), (65_536, 4_096))
MILLI = SECOND // 1000


class Difference(Exception):
    """The session answered something else than the model."""


def same(what: str, one: object, other: object) -> None:
    """Wants the two to be equal."""
    if one != other:
        raise Difference(f"{what}: the session has {one}, the model {other}")


class Pair:
    """A session and its model, asked the same."""

    def __init__(self, seen: Counter[str], params: h263rps.Params, rate: tuple[int, int], wait: int) -> None:
        self._seen = seen
        self.session = h263rps.Session(params, rate=rate[0], second=rate[1], wait=wait)
        self.model = Model(params, *rate, wait)

    def arrival(
        self, datagram: bytes, now: int, source: Optional[int] = None, is_last: bool = True
    ) -> "Taken | Dropped":
        """Hands both a datagram. Within a flood it isn't asked what is due."""
        has, wanted = self.session.arrival(datagram, now, source), self.model.arrival(datagram, now, source)
        if isinstance(wanted, Dropped):
            self._seen[wanted.cause] += 1
            same("a drop", (has.cause, has.is_rival), (wanted.cause, wanted.rival))
        else:
            answer = wanted.answer
            self._seen[f"{answer.verdict} {answer.kind}".strip()] += 1
            self._seen[h263rps.RUNS[wanted.run]] += 1
            run = has.run and h263rps.RUNS.index(has.run)
            same("a run", (run, has.source, has.is_rival), (wanted.run, wanted.source, wanted.rival))
            words = (answer.verdict, answer.kind, answer.message, answer.ahead)
            same("an answer", (has.verdict, has.kind or "", has.message, has.ahead or 0), words)
        self._seen["rival"] += wanted.rival
        if is_last:
            self._same_after()
        return wanted

    def play(self, now: int) -> Optional[tuple[int, h263rps.Played]]:
        """Has both play the next picture that is due."""
        has, wanted = self.session.play(now), self.model.play(now)
        same("whether one is played", has is None, wanted is None)
        if has and wanted:
            same("a run", h263rps.RUNS.index(has.run), wanted[0])
            words = (has.mark, has.number, has.message, has.reference)
            played = wanted[1]
            self._seen[played.mark] += 1
            same("a play", words, (played.mark, played.number, played.message, played.reference))
            if wanted[0] == FOLLOWED:
                same("the screen", bytes(self.session.shown()) == self.model.shown(), True)
        self._same_after()
        return wanted

    def missing(self, round_trip: int, now: int) -> list[tuple[int, int]]:
        """Asks both what is missing."""
        has, wanted = self.session.missing(round_trip, now), self.model.missing(round_trip, now)
        same("what is asked for", has, wanted)
        self._seen["asked for"] += sum(1 + bin(following).count("1") for _, following in wanted)
        return wanted

    def bye(self, source: int, now: int) -> None:
        """Tells both that a stream has ended."""
        self._seen["bye"] += 1
        self._seen["bye of the followed stream"] += self.model.source(FOLLOWED) == source
        self.session.bye(source, now)
        self.model.bye(source, now)
        self._same_after()

    def reset(self, now: int) -> None:
        """Begins both anew."""
        self._seen["reset"] += 1
        self.session.reset(now)
        self.model.reset(now)
        self._same_after()
        self._same_streams()

    def _same_after(self) -> None:
        same("what is due", self.session.due(), self.model.due())

    def _same_streams(self) -> None:
        for place, run in enumerate(h263rps.RUNS):
            same(f"the {run} stream", self.session.source(run), self.model.source(place))
        same("the screen", bytes(self.session.shown()) == self.model.shown(), True)

    def end(self) -> None:
        """Compares what both have counted, their streams and their screens."""
        counts = self.session.statistics()
        same("taken", counts.taken, self.model.taken)
        same("dropped", counts.dropped, self.model.dropped)
        same("played", counts.played, self.model.played)
        self._same_streams()
        self.session.close()


class Camera:
    """A stream: a sender, its clock, and what its way does to packets."""

    def __init__(self, chance: random.Random, params: h263rps.Params, rate: tuple[int, int], source: int) -> None:
        self._chance, self._rate = chance, rate
        self.source, self.sender = source, h263rps.Sender(params)
        self.sent: dict[int, bytes] = {}
        self._size = h263rps.picture_size("sub-qcif")
        self._offset = chance.choice((0, 1, (1 << 32) - 90_000, chance.getrandbits(32)))
        self._sequence, self._first = chance.choice((0, 65_500, chance.getrandbits(16))), 0
        self.loss = chance.choice((0, 0, 0.02, 0.1, 0.3))
        self.delay = chance.randrange(0, 300) * MILLI
        self.jitter = chance.choice((0, 1, 20, 100)) * MILLI
        self.drift = 1 + chance.choice((0, 0, 2e-4, -2e-4, 0.01))
        self._is_rich = chance.random() < 0.4
        self.begins = chance.choice((0, 0, 0, chance.randrange(4 * SECOND)))
        self._hurry = 0

    @property
    def period(self) -> int:
        """The time between two captures."""
        return self._rate[1] * SECOND // self._rate[0]

    def until_next(self) -> int:
        """The time until the next capture: now and then the camera pauses, or is in a hurry, and so are its stamps."""
        chance = self._chance
        if chance.random() < 0.01:
            self._hurry = chance.choice((10, 100, 200))
        if self._hurry:
            self._hurry -= 1
            step = self.period // 10
            self._offset += (self.period - step) * 9 // 100_000
            return step
        pause = chance.choice((0, 0, 0, 0, 0, 0, 0, 1, 29, 30, 31)) if chance.random() < 0.02 else 0
        return self.period + pause * SECOND

    def picture(self, now: int) -> list[tuple[int, bytes]]:
        """The packets of the next picture, each with the time when it comes."""
        chance = self._chance
        text = chance.randbytes(16 if self._is_rich else 1)
        coded = self.sender.code((text * self._size)[: self._size])
        packets = self.sender.packets(coded)
        if chance.random() < 0.01:
            self.delay = chance.randrange(0, 300) * MILLI
        if chance.random() < 0.01:
            self._offset += chance.choice((90_000, 171_000, -90_000, 900_000, 1 << 31))
        if chance.random() < 0.01:
            self._sequence += chance.choice((1, 100, 30_000))
        comes = []
        for packet in packets:
            packet = self._labelled(packet, now)
            self.sent[int.from_bytes(packet[2:4], "big")] = packet
            if chance.random() < self.loss:
                continue
            for _ in range(chance.choice((1, 1, 1, 1, 1, 2))):
                comes.append((now + self.delay + chance.randrange(self.jitter + 1), packet))
        return comes

    def _labelled(self, packet: bytes, now: int) -> bytes:
        stamp = (self._offset + int(now * 9 / 100_000 * self.drift)) % (1 << 32)
        sequence = (self._sequence + int.from_bytes(packet[2:4], "big")) % 65536
        return (
            packet[:2]
            + sequence.to_bytes(2, "big")
            + stamp.to_bytes(4, "big")
            + self.source.to_bytes(4, "big")
            + packet[12:]
        )


def changed(chance: random.Random, packet: bytes) -> bytes:
    """A packet with a few other bits or another length."""
    text = bytearray(packet)
    for _ in range(chance.choice((1, 1, 2, 8))):
        if text:
            at = chance.randrange(chance.choice((len(text), min(24, len(text)))))
            text[at] ^= 1 << chance.randrange(8)
    return bytes(text[: chance.choice((len(text), len(text), chance.randrange(len(text) + 1)))])


OTHERS = [
    h263rps.Sender(h263rps.Params.of("sub-qcif", clock=0)),
    h263rps.Sender(h263rps.Params.of("sub-qcif", clock=1)),
    h263rps.Sender(h263rps.Params.of("qcif", clock=0)),
]


def junk(chance: random.Random, of: bytes) -> bytes:
    """Bytes that are no packet of the call's pictures, or hardly one."""
    kind = chance.randrange(7)
    if kind == 3:
        other = chance.choice(OTHERS)
        coded = other.code(bytes(h263rps.picture_size("qcif" if other is OTHERS[2] else "sub-qcif")))
        return other.packets(coded)[0]
    if kind == 0:
        return chance.randbytes(chance.randrange(40))
    if kind == 1:
        return of[:12]
    if kind == 2:
        return of + bytes(chance.choice((1, 8_000, 9_001)))
    return changed(chance, of)


class Call:
    """A random call."""

    def __init__(self, seed: int, seen: Counter[str]) -> None:
        self._chance = chance = random.Random(seed)
        clock = chance.choice((0, 1))
        slots = chance.choice((3, 16, 16, 16, 64))
        lead = chance.choice((1, min(3, slots - 2), slots - 2, chance.randrange(1, slots - 1)))
        self._params = h263rps.Params.of("sub-qcif", clock=clock, slots=slots, lead=lead, radius=0, limit=1200)
        rate = chance.choice(RATES)
        longest = lead * rate[1] * SECOND // rate[0]
        self._wait = chance.choice((0, longest, chance.randrange(longest + 1), min(longest, 100 * MILLI)))
        self._pair = Pair(seen, self._params, rate, self._wait)
        sources = [chance.getrandbits(32) for _ in range(chance.choice((1, 1, 2, 2, 3, 4)))]
        self._cameras = [Camera(chance, self._params, rate, source) for source in sources]
        self._length = chance.choice((2, 5, 10)) * max(SECOND, 3 * self._cameras[0].period)
        self._plays = chance.choice((0, 0, 0, 0.05, 0.5))
        self._junk = chance.choice((0, 0, 0.02, 0.3))
        self._floods = chance.choice((0, 0, 0, 0, 0, 0.002))
        self._asks, self._trip = chance.choice((0, 0, 0.1, 1)), chance.choice((0, 1, 20, 100, 1_000)) * MILLI
        self._ends, self._resets = chance.choice((0, 0, 0.01, 0.1)), chance.choice((0, 0, 0, 0.01))
        self._of = chance.choice((0, 0, 0, 0.1, 1))
        self._events: list[tuple[int, int, Callable[[int], None]]] = []
        self._numbers = count()

    def _at(self, time: int, event: Callable[[int], None]) -> None:
        heapq.heappush(self._events, (time, next(self._numbers), event))

    def run(self) -> None:
        """Makes the call."""
        for camera in self._cameras:
            self._at(camera.begins, partial(self._capture, camera))
        while self._events and self._events[0][0] <= self._length:
            now, _, event = heapq.heappop(self._events)
            self._play_until(now)
            event(now)
        self._pair.end()

    def _play_until(self, now: int) -> None:
        chance = self._chance
        while (due := self._pair.model.due()) is not None and due <= now:
            if chance.random() < self._plays:
                return
            # Also late, also a moment too early, when nothing is played.
            played = self._pair.play(chance.choice((max(due, self._pair.model.now), now, max(due - 1, 0))))
            if played is None:
                continue
            self._tell(self._pair.model.source(played[0]), played[1].message, now)

    def _tell(self, source: Optional[int], message: bytes, now: int) -> None:
        for camera in self._cameras:
            if message and camera.source == source and self._chance.random() < 0.9:
                self._at(now + camera.delay, partial(self._hear, camera, message))

    def _hear(self, camera: Camera, message: bytes, _: int) -> None:
        camera.sender.feedback(message)

    def _ask(self, now: int) -> None:
        chance = self._chance
        if chance.random() >= self._asks:
            return
        # Also just in time for one of the next pictures, or just too late.
        then, periods = self._pair.model.due() or now, chance.randrange(5) * self._cameras[0].period
        just = max(0, then + periods - now + chance.choice((-1, 0, 1)))
        asked = self._pair.missing(chance.choice((self._trip, self._trip, just, chance.getrandbits(64))), now)
        source = self._pair.model.source(FOLLOWED)
        sent: dict[int, bytes] = next((it.sent for it in self._cameras if it.source == source), {})
        for packet, following in asked:
            for number in [packet, *(packet + bit + 1 for bit in range(16) if following >> bit & 1)]:
                again = sent.get(number % 65536)
                if again and chance.random() < 0.9:
                    self._at(now + self._trip, partial(self._come, again))

    def _steer(self, camera: Camera, now: int) -> None:
        chance = self._chance
        if chance.random() < self._ends:
            self._pair.bye(chance.choice((camera.source, chance.choice(self._cameras).source, 7)), now)
        if chance.random() < self._resets:
            self._pair.reset(now)

    def _capture(self, camera: Camera, now: int) -> None:
        chance = self._chance
        self._steer(camera, now)
        for when, packet in camera.picture(now):
            self._at(when, partial(self._come, packet))
            if chance.random() < self._junk:
                self._at(when + chance.randrange(50 * MILLI), partial(self._come, junk(chance, packet)))
            if chance.random() < self._floods:
                self._at(when, partial(self._flood, packet))
        step = camera.until_next()
        self._length += step if step > SECOND and self._length < 100 * SECOND else 0
        self._at(now + step, partial(self._capture, camera))

    def _flood(self, datagram: bytes, now: int) -> None:
        anew = self._chance.choice((0, 0, 6_000))
        for more in range(12_200):
            if anew and more == anew:
                self._pair.reset(now + more * 50_000)
            self._pair.arrival(datagram, now + more * 50_000, is_last=more == 12_199)

    def _come(self, datagram: bytes, now: int) -> None:
        chance = self._chance
        if chance.random() < 0.002:
            now = chance.choice((0, now // 2))
        of = chance.choice(self._cameras).source if chance.random() < self._of else None
        self._ask(now)
        for _ in range(4):
            taken = self._pair.arrival(datagram, now, of)
            if isinstance(taken, Dropped):
                return
            self._tell(taken.source, taken.answer.message, now)
            if taken.answer.verdict != "ahead" or chance.random() < 0.2:
                return
            while (played := self._pair.play(now)) is not None:
                self._tell(self._pair.model.source(played[0]), played[1].message, now)


def main() -> int:
    """Makes calls for so many seconds."""
    ends = time.monotonic() + float(sys.argv[1])
    first = int(sys.argv[2]) if sys.argv[2:] else random.SystemRandom().getrandbits(32)
    made, seen = 0, Counter[str]()
    while time.monotonic() < ends or not made:
        try:
            Call(first + made, seen).run()
        except Difference as difference:
            print(f"wrong: seed {first + made}: {difference}")
            return 1
        made += 1
    print(", ".join(f"{word} {times}" for word, times in sorted(seen.items())))
    print(f"{made} calls from seed {first}: the session answers as its model does")
    return 0


if __name__ == "__main__":
    sys.exit(main())
