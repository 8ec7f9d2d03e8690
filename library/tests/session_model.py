"""A session in plain Python, after the words of docs/LIVE.md: what `h263rps_session_*` is compared with.

It keeps lists of all that came, and asks the library's receiver for pictures alone. Times are nanoseconds.
"""

from dataclasses import dataclass, field
from typing import Optional

import h263rps

SECOND = 1_000_000_000
LAST_TIME = (1 << 62) - 1
MOST_PICTURES = 1 << 20
OWN = b"H263"
FOLLOWED, FORMER, TRIED = range(3)


def nearest(base: int, rest: int, period: int) -> Optional[int]:
    """The number from half a period below base to less than half a period above it that leaves this rest."""
    number = base - period // 2 + (rest - (base - period // 2)) % period
    return number if number >= 0 else None


def ahead_of(before: int, sequence: int) -> int:
    """By how much a sequence number is ahead of another, or 0 where it is behind."""
    ahead = (sequence - before) % 65536
    return ahead if ahead < 32768 else 0


@dataclass
class Packet:
    """What a packet says of itself."""

    source: int
    reference: int
    sequence: int
    timestamp: int
    own: bytes = field(repr=False)


@dataclass
class Newest:
    """The newest picture of a stream, and by how much the stream may run ahead."""

    number: int
    stamp: int
    sequence: int
    at: int
    credit: int


class Numbers:
    """Which picture a packet is of (rule 11)."""

    def __init__(self, period: int, rate: int, second: int) -> None:
        self._period, self._rate, self._second = period, rate, second
        self._newest: Optional[Newest] = None

    def place(self, packet: Packet, now: int) -> Optional[tuple[int, int]]:
        """The packet's number and time of capture; None, and nothing changes, where it has no place."""
        if self._newest is None:
            stamp = (1 << 32) + packet.timestamp
            self._newest = Newest(packet.reference, stamp, packet.sequence, now, 2 * SECOND)
            return packet.reference, stamp * 100_000 // 9
        newest, near = self._newest, nearest(self._newest.stamp, packet.timestamp, 1 << 32)
        if near is None or near >= 1 << 46:
            return None
        stamp = near
        later = max(0, stamp - newest.stamp)
        pictures = (2 * later * self._rate + 90_000 * self._second) // (180_000 * self._second)
        ahead = ahead_of(newest.sequence, packet.sequence)
        number = nearest(newest.number + min(pictures, ahead), packet.reference, self._period)
        if number is None or number >= MOST_PICTURES:
            return None
        if number > newest.number:
            cost = -((newest.number - number) * self._second * SECOND // self._rate)
            time = max(0, now - newest.at)
            left = newest.credit + time + time // 10 - cost
            if left < 0:
                return None
            newest.number, newest.stamp, newest.at, newest.credit = number, stamp, now, min(left, 2 * SECOND)
        newest.sequence = (newest.sequence + ahead) % 65536
        return number, stamp * 100_000 // 9


@dataclass
class Missing:
    """A packet that is missing: the picture of the packet after it, and when it was asked for."""

    picture: int
    asked: list[int]


@dataclass(frozen=True)
class Moment:
    """A moment at which packets may be asked for: the round trip, the next picture, when it is due, and the period."""

    now: int
    round_trip: int
    next: int
    due: int
    period: int

    def is_in_time(self, picture: int) -> bool:
        """Whether what is asked for now comes before this picture is due."""
        due = self.due + (picture - self.next) * self.period
        return picture >= self.next and self.now + self.round_trip <= due


class Gaps:
    """The packets that are missing, by their sequence numbers, counted on: the newest 64."""

    def __init__(self) -> None:
        self._newest: Optional[int] = None
        self._missing: dict[int, Missing] = {}

    def came(self, sequence: int, picture: int) -> None:
        """A packet of this picture came."""
        if self._newest is None:
            self._newest = 65_536 + sequence
            return
        number = nearest(self._newest, sequence, 65_536)
        assert number is not None
        for between in range(self._newest + 1, number):
            self._missing[between] = Missing(picture, [])
        self._newest = max(self._newest, number)
        self._missing.pop(number, None)
        self._missing = dict(sorted(self._missing.items())[-64:])

    def played(self, next: int) -> None:
        """The pictures before this one were played."""
        self._missing = {number: it for number, it in self._missing.items() if it.picture >= next}

    def asked(self, moment: Moment) -> list[tuple[int, int]]:
        """What is asked for now, as PID and BLP of Generic NACKs."""
        fields = []
        while some := [number for number, it in self._missing.items() if self._may_ask(number, it, moment)]:
            first = some[0]
            near = [number for number in some if number - first <= 16]
            fields.append((first % 65_536, sum(1 << number - first - 1 for number in near[1:])))
            for number in near:
                self._missing[number].asked.append(moment.now)
        return fields

    def _may_ask(self, number: int, it: Missing, moment: Moment) -> bool:
        assert self._newest is not None
        if self._newest - number >= 32_768 or len(it.asked) > 1 or not moment.is_in_time(it.picture):
            return False
        return all(moment.now - then >= moment.round_trip for then in it.asked)


@dataclass(frozen=True)
class Answer:
    """What becomes of a packet that a run takes: "no place", "ahead", or "heard" with the receiver's answer."""

    verdict: str
    kind: str = ""
    message: bytes = b""
    ahead: int = 0

    def is_in_vain(self) -> bool:
        """Whether such packets alone mean that none would be heard again."""
        return self.verdict == "no place" or self.kind == "late"


@dataclass(frozen=True)
class Arrival:
    """A packet of a picture that was captured then came now."""

    picture: int
    captured: int
    at: int


def counted(arrivals: list[Arrival]) -> list[Arrival]:
    """Those whose ways count: of the last half second, in quarters of one, and of the last three pictures in a row."""
    quarter, pictures, latest = arrivals[-1].at // 250_000_000, 0, len(arrivals)
    while latest and pictures <= 3:
        latest -= 1
        pictures += latest + 1 == len(arrivals) or arrivals[latest].picture != arrivals[latest + 1].picture
    latest += pictures > 3
    return [it for at, it in enumerate(arrivals) if at >= latest or it.at // 250_000_000 + 2 >= quarter]


class History:
    """A run: what came of one stream since it began (rules 3, 5 and 10)."""

    def __init__(self, model: "Model", reference: int, now: int) -> None:
        self._model = model
        self.next = max(0, reference - 2)
        self._numbers = Numbers(model.period, *model.rate)
        self._arrivals: list[Arrival] = []
        self._room = 1_000
        self._until = 0
        self._last, self._unheard, self._since = now, 0, now
        self._gaps = Gaps()
        self.receiver = h263rps.Receiver(model.params, self.next)

    def must_begin(self, now: int) -> bool:
        """Whether nothing of it would ever be heard again."""
        silent = now - self._last > 30 * SECOND
        in_vain = self._unheard >= 30 and now - self._since >= SECOND
        return self.next >= MOST_PICTURES or silent or in_vain

    def packet(self, packet: Packet, now: int) -> Answer:
        """What becomes of a packet of it."""
        answer = self._answer(packet, now)
        self._last = now
        if answer.is_in_vain():
            self._since = self._since if self._unheard else now
            self._unheard += 1
        else:
            self._unheard, self._since = 0, now
        return answer

    def _answer(self, packet: Packet, now: int) -> Answer:
        place = self._numbers.place(packet, now)
        if place is None:
            return Answer("no place")
        number, captured = place
        if number > self.next + self._model.lead:
            self._until = max(self._until, number - self._model.lead)
            return Answer("ahead", ahead=number)
        self._gaps.came(packet.sequence, number)
        self._arrivals.append(Arrival(number, captured, now))
        if len(self._arrivals) > self._room:
            # What will never count again goes.
            kept = set(map(id, counted(self._arrivals)))
            self._arrivals = [it for it in self._arrivals if id(it) in kept or it.picture >= self.next]
            self._room = 1_000 + 2 * len(self._arrivals)
        if number < self.next:
            return Answer("heard", "late")
        heard = self.receiver.packet(packet.own)
        return Answer("heard", heard.kind, heard.message)

    def due(self) -> Optional[int]:
        """When its next picture is due, as far as that is known."""
        if self.next >= MOST_PICTURES:
            return None
        if self.next < self._until:
            return 0
        captured = [it.captured for it in self._arrivals if it.picture >= self.next]
        if not captured:
            return None
        way = min(it.at - it.captured for it in counted(self._arrivals))
        return max(0, min(captured) + way + self._model.wait)

    def play(self) -> h263rps.Played:
        """Plays its next picture."""
        self.next += 1
        self._gaps.played(self.next)
        return self.receiver.play()

    def missing(self, round_trip: int, now: int) -> list[tuple[int, int]]:
        """What of it is asked for: nothing where it isn't known when the next picture is due, or it is at once."""
        due, (rate, second) = self.due(), self._model.rate
        return self._gaps.asked(Moment(now, round_trip, self.next, due, second * SECOND // rate)) if due else []


@dataclass
class Stream:
    """A stream that has a run: how many pictures of it were complete, and when the last one was."""

    source: int
    pictures: int
    last: int

    def is_live(self, now: int) -> bool:
        """Whether a picture of it was complete in the last half second."""
        return now - self.last < SECOND // 2

    def counted(self, now: int) -> "Stream":
        """With one more picture."""
        return Stream(self.source, min(self.pictures + 1, (1 << 32) - 1), now)


@dataclass
class Trial:
    """A stream that is tried: since when, and when its last packet came."""

    source: int
    began: int
    last: int

    def is_over(self, now: int, long: int = 0) -> bool:
        """Whether it has been over for so long."""
        return now - self.began >= SECOND + long or now - self.last >= SECOND // 2 + long


class Budget:
    """So many in each second of the clock."""

    def __init__(self, most: int) -> None:
        self._most, self._second, self._taken = most, 0, 0

    def grants(self, now: int) -> bool:
        """Whether one more is granted."""
        if now // SECOND != self._second:
            self._second, self._taken = now // SECOND, 0
        self._taken += self._taken < self._most + 1
        return self._taken <= self._most


@dataclass(frozen=True)
class Dropped:
    """A datagram that no run takes, and whether it is told that its stream comes beside a live one."""

    cause: str
    rival: bool


@dataclass(frozen=True)
class Taken:
    """A datagram that a run takes, and whether it is told that its stream comes beside a live one."""

    run: int
    source: int
    answer: Answer
    rival: bool


class Model:
    """A session (rules 3, 5, 6, 10, 11 and 13), and what it asks for. Runs stand by their places: followed, former, tried."""

    def __init__(self, params: h263rps.Params, rate: int, second: int, wait: int) -> None:
        self.params, self.rate = params, (rate, second)
        self.lead, self.wait = params.lead, max(wait, SECOND // 1000)
        self.period = 1024 if params.clock else 256
        self.now = 0
        self._streams: list[Optional[Stream]] = [None, None]
        self._trial: Optional[Trial] = None
        self._runs: list[Optional[History]] = [None, None, None]
        self._budgets = [Budget(12_000), Budget(12_000), Budget(12_000)]
        self._told = Budget(1)
        self.dropped = {"long": 0, "malformed": 0, "other pictures": 0, "too fast": 0, "other stream": 0}
        self.taken = 0
        self.played = {"exact": 0, "patched": 0, "held": 0}

    def _tick(self, now: int) -> int:
        self.now = max(self.now, min(now, LAST_TIME))
        return self.now

    # ---- datagrams

    def seen(self, datagram: bytes) -> "Packet | str":
        """What a datagram says that is a packet of the call's pictures, or why it is none."""
        if len(datagram) > 9_000:
            return "long"
        params, own = self.params, datagram[:8] + OWN + datagram[12:]
        try:
            start = h263rps.packet_start(own)
        except h263rps.Refused:
            return "malformed"
        if (h263rps.FORMATS[start.format], h263rps.CLOCKS[start.clock]) != (params.format, params.clock):
            return "other pictures"
        number = int.from_bytes
        sequence, timestamp = number(datagram[2:4], "big"), number(datagram[4:8], "big")
        return Packet(number(datagram[8:12], "big"), start.temporal_reference, sequence, timestamp, own)

    def arrival(self, datagram: bytes, now: int, source: Optional[int] = None) -> "Taken | Dropped":
        """What becomes of a datagram; with a source, where only that stream's are taken."""
        now = self._tick(now)
        packet = self.seen(datagram)
        if isinstance(packet, str):
            return self._drop(packet)
        if source not in (None, packet.source):
            return self._drop("other stream")
        place, is_new = self._taker(packet.source, now)
        budget = self._budgets[place if place in (FOLLOWED, FORMER) else TRIED]
        if not budget.grants(now):
            return self._drop("too fast")
        followed = self._streams[FOLLOWED]
        is_beside = place in (FORMER, None) and followed is not None and followed.is_live(now)
        rival = is_beside and self._told.grants(now)
        if place == TRIED:
            if is_new:
                self._trial = Trial(packet.source, now, now)
            else:
                assert self._trial
                self._trial.last = now
        if place is None:
            return self._drop("other stream", rival)
        run = self._runs[place]
        if is_new or run is None or run.must_begin(now):
            run = self._runs[place] = History(self, packet.reference, now)
        self.taken += 1
        answer = run.packet(packet, now)
        if answer.kind == "completed":
            self._complete(place, now)
        return Taken(place, packet.source, answer, rival)

    def _drop(self, cause: str, rival: bool = False) -> Dropped:
        self.dropped[cause] += 1
        return Dropped(cause, rival)

    def _taker(self, source: int, now: int) -> tuple[Optional[int], bool]:
        for place in (FOLLOWED, FORMER):
            stream = self._streams[place]
            if stream and stream.source == source:
                return place, False
        trial, followed = self._trial, self._streams[FOLLOWED]
        if trial and trial.source == source and not trial.is_over(now):
            return TRIED, False
        if followed and followed.is_live(now):
            return None, False
        if trial is None or trial.is_over(now, SECOND // 2 if trial.source == source else 0):
            return TRIED, True
        return None, False

    def _complete(self, place: int, now: int) -> None:
        followed, former = self._streams
        if place == FOLLOWED:
            assert followed
            self._streams[FOLLOWED] = followed.counted(now)
        elif place == FORMER:
            assert former
            self._streams[FORMER] = former = former.counted(now)
            if not followed or not followed.is_live(now) or former.pictures > followed.pictures:
                self._streams = [former, followed]
                self._runs[:2] = self._runs[FORMER], self._runs[FOLLOWED]
        elif self._trial:
            trial, self._trial = self._trial, None
            if followed and followed.is_live(now):
                return
            # Of the two that were there the one with more pictures keeps its run.
            one, two, tried = self._runs
            if followed and (not former or followed.pictures > former.pictures):
                former, self._runs = followed, [tried, one, two]
            else:
                self._runs = [tried, two, one]
            self._streams = [Stream(trial.source, 1, now), former]

    def bye(self, source: int, now: int) -> None:
        """The stream with this SSRC has ended: if it is the one that is followed, it is live no longer."""
        now = self._tick(now)
        followed = self._streams[FOLLOWED]
        if followed and followed.source == source:
            self._streams[FOLLOWED] = Stream(source, followed.pictures, min(followed.last, max(0, now - SECOND // 2)))

    def reset(self, now: int) -> None:
        """Begins anew: no stream has a run any more."""
        self._tick(now)
        self._streams, self._trial, self._runs = [None, None], None, [None, None, None]

    # ---- plays

    def _has_stream(self, place: int) -> bool:
        return self._trial is not None if place == TRIED else self._streams[place] is not None

    def source(self, place: int) -> Optional[int]:
        """The SSRC of the stream of a run."""
        it = self._trial if place == TRIED else self._streams[place]
        return it.source if it else None

    def _due_of(self, place: int) -> Optional[int]:
        run = self._runs[place]
        return run.due() if run and self._has_stream(place) else None

    def due(self) -> Optional[int]:
        """When something is due next, as far as that is known."""
        return min((due for due in map(self._due_of, range(3)) if due is not None), default=None)

    def play(self, now: int) -> Optional[tuple[int, h263rps.Played]]:
        """Plays the next picture that is due by now."""
        now = self._tick(now)
        for place in range(3):
            due, run = self._due_of(place), self._runs[place]
            if run and due is not None and due <= now:
                played = run.play()
                if place == FOLLOWED:
                    self.played[played.mark] += 1
                return place, played
        return None

    def missing(self, round_trip: int, now: int) -> list[tuple[int, int]]:
        """What is asked for again of the stream that is followed."""
        now, run = self._tick(now), self._runs[FOLLOWED]
        return run.missing(round_trip, now) if run and self._streams[FOLLOWED] else []

    def shown(self) -> bytes:
        """The picture on the screen."""
        run = self._runs[FOLLOWED]
        if run is None:
            with h263rps.Receiver(self.params) as grey:
                return bytes(grey.shown())
        return bytes(run.receiver.shown())
