"""The receiving end of a live call: the library's session between the network and the screen."""

import random
from collections import deque
from typing import Any, Callable, Optional, Sequence

from .call_context import CallContext
from ..errors import BadInput
from ..network.loop import Call, Timer
from ..network.picture_start import LEAST_BYTES
from ..network.repair import Asked, TWICE
from ..network.rtcp import Bye, Feedback, Missing
from ..network.rtp import RtpHeader, rtp_header
from ..recording.session_record import SessionRecord
from ..y4m import Frame

SECOND = 1_000_000_000
# What a session takes of a rate: so many pictures, and so many seconds, at most. Any rate has a near one that fits.
_MOST_SECONDS = 500
# The words by which a call counts what a session drops.
_CAUSES = {
    "long": "malformed",
    "malformed": "malformed",
    "other pictures": "other format or clock",
    "too fast": "too fast",
    "other stream": "other source",
}
# Datagrams that wait behind one whose picture is ahead, while those before it are played.
_MOST_WAITING = 4_096
# A session tells of a second stream once a second. A sender that begins anew has one beside its old one for less.
_AGAIN = 2.0
# A stream that said its end has hung up when so many seconds go by without a complete picture. For so many more that is
# waited for: who forges an end ends no call.
_OVER, _PATIENCE = 0.5, 3.0


class Receiving:
    """Hands on what comes, shows what is played, and sends what is said. Which stream is followed, of which picture a
    packet is and when that is played is the session's, which is proved (docs/LIVE.md, "Rules")."""

    def __init__(self, context: CallContext) -> None:
        self._context = context
        self._loop, self._settings, self._tally = context.loop, context.settings, context.tally
        self.on_feedback: Callable[[Feedback], None] = lambda _: None
        self.on_missing: Callable[[Missing], None] = lambda _: None
        # What is done with the messages in the header of a packet of the stream, if anything is.
        self.on_messages: Optional[Callable[[Sequence[bytes]], None]] = None
        # The round trip by the other side's reports, in seconds.
        self.reported: Callable[[], Optional[float]] = lambda: None
        self.on_frame: Callable[[Frame], None] = lambda _: None
        self.on_hung_up: Call = lambda: None
        self.on_over: Call = lambda: None
        self._session = self._started()
        self._record = SessionRecord(context) if context.recorder.is_on else None
        self._own_source = random.getrandbits(32)
        self._source: Optional[int] = None
        self._former: Optional[int] = None
        self._sources: set[Optional[int]] = set()  # of the streams that have a run
        self._next: Optional[int] = None  # the number of the picture that is shown next
        # When a packet of the stream came last, and when a picture of it was complete.
        self.last = self._complete = 0.0
        self._asked = Asked(self._settings.wait)
        self._waiting: deque[bytes] = deque()
        self._rival: Optional[float] = None
        self._told: set[object] = set()
        self._timer, self._ended = Timer(lambda: None), Timer(lambda: None)
        # Whether the stream that is followed has said its end, and may have ended.
        self.is_leaving = False
        self._is_ending = False

    def _started(self) -> Any:
        library, settings = self._context.library, self._settings
        rate = settings.rate.limit_denominator(_MOST_SECONDS)
        clock = library.CLOCKS[settings.clock]
        words = {"slots": settings.slots, "lead": settings.lead, "messages": settings.messages}
        try:
            params = library.Params.of(settings.format, clock=clock, **words)
            timing = {"rate": rate.numerator, "second": rate.denominator}
            return library.Session(params, wait=round(SECOND * settings.wait), **timing)
        except library.Refused as fault:
            raise BadInput("the library", "no session", str(fault)) from fault

    @property
    def source(self) -> Optional[int]:
        """The SSRC of the stream that is followed, or None before there is one."""
        return self._source

    def packet(self, data: bytes) -> Optional[RtpHeader]:
        """A datagram came from the other side. Answers its header if it may be a packet of a stream, and wasn't asked
        for."""
        if self._is_ending:
            return None
        if len(data) < LEAST_BYTES:
            # No packet is that short. Most of what fills a line with datagrams is, and shall cost little.
            self._tally.dropped["malformed"] += 1
            return None
        if self._waiting:
            self._wait(data)
            return self._counted(data)
        now = self._time()
        self._wait(data)
        if self._hand_in(now) == "dropped":
            return None
        self._play_due(now)
        return self._counted(data)

    def _counted(self, data: bytes) -> Optional[RtpHeader]:
        header = rtp_header(data)
        is_answer = header and header.source == self._source and self._asked.came(header.sequence, self._loop.now())
        return None if is_answer else header

    def bye(self, bye: Bye) -> None:
        """The other side says that a stream ends."""
        if self._is_ending:
            return
        self._session.bye(bye.source, self._time())
        if bye.source == self._source:
            now, self.is_leaving = self._loop.now(), True
            self._ended.cancel()
            self._ended = self._loop.at(now + _OVER, lambda: self._look_whether_over(now))
        elif self._source is not None:
            self._tally.dropped["other source"] += 1

    def _look_whether_over(self, said: float) -> None:
        # Pictures that were on the way may still have come.
        now, quiet = self._loop.now(), self._complete + _OVER
        if now >= quiet:
            self.on_hung_up()
        elif now < said + _PATIENCE:
            self._ended = self._loop.at(quiet, lambda: self._look_whether_over(said))
        else:
            self.is_leaving = False

    def end(self) -> None:
        """No more packets. What is left is played, as many at once as are kept; then `on_over` is called."""
        self._is_ending = True
        self._timer.cancel()
        self._ended.cancel()
        for _ in range(self._settings.slots):
            due = self._session.due()
            if due is None:
                if self._record:
                    self._record.end()
                self._session.close()
                self.on_over()
                return
            self._play(max(due, self._time()))
        self._timer = self._loop.at(self._loop.now(), self.end)

    def _time(self) -> int:
        return round(SECOND * self._loop.now())

    def _wait(self, data: bytes) -> None:
        if len(self._waiting) < _MOST_WAITING:
            self._waiting.append(data)
        else:
            self._tally.dropped["too many"] += 1

    def _hand_in(self, now: int) -> Optional[str]:
        # What waits is handed in, up to one that is ahead: with those after it that one waits until what is due at once
        # is played. Answers the last verdict.
        verdict = None
        while self._waiting and verdict != "ahead":
            arrived = self._session.arrival(self._waiting[0], now)
            verdict = arrived.verdict
            if verdict != "ahead":
                self._heard(self._waiting.popleft(), arrived)
        return verdict

    def _heard(self, data: bytes, arrived: Any) -> None:
        if arrived.is_rival:
            self._note_rival()
        if arrived.verdict == "dropped":
            self._drop(data, arrived.cause)
        elif arrived.verdict == "no place":
            self._tally.dropped["ahead of the clock"] += 1
        else:
            self._took(data, arrived)

    def _drop(self, data: bytes, cause: str) -> None:
        self._tally.dropped[_CAUSES[cause]] += 1
        if cause == "other pictures":
            self._tell_other_pictures(data)

    def _tell_other_pictures(self, data: bytes) -> None:
        theirs, own = self._context.library.datagram_start(data), self._settings
        self._tell_once(
            (theirs.format, theirs.clock),
            f"the other side sends {theirs.format} in the {theirs.clock} clock, and this call is "
            f"{own.format} in the {own.clock} clock: give both the same --format and --clock",
        )

    def _note_rival(self) -> None:
        now, before = self._loop.now(), self._rival
        self._rival = now
        if before is not None and now - before <= _AGAIN:
            words = "two streams come from the other side's address, and the one that is shown may be forged"
            self._tell_once("rival", f"{words}: --secure of live_call keeps others out")

    def _tell_once(self, about: object, words: str) -> None:
        if about not in self._told:
            self._told.add(about)
            self._context.say(words)

    def _took(self, data: bytes, arrived: Any) -> None:
        now = self._loop.now()
        self._tally.packets_in += 1
        if arrived.kind == "completed" or arrived.source not in self._sources:
            self._look_at_streams()
        if self._record:
            self._record.heard(arrived.source, data, arrived.kind, now)
        self._say(arrived.source, arrived.message)
        if arrived.source == self._source:
            self._followed(data, arrived.kind, now)

    def _followed(self, data: bytes, kind: str, now: float) -> None:
        # A packet of the stream that is followed was heard.
        silent, self.last = now - self.last, now
        if kind == "completed":
            self._complete = now
        if self._settings.repairs:
            self._ask(silent, now)
        if self.on_messages:
            self.on_messages(self._context.library.datagram_start(data).messages)

    def _ask(self, silent: float, now: float) -> None:
        # What is missing and can still come in time is asked for. Of a silence the session says all.
        assert self._source is not None
        trip = self._asked.round_trip(self.reported(), now)
        fields = self._session.missing(round(SECOND * trip), self._time())
        missing = Missing(self._own_source, self._source, tuple(fields))
        if silent > self._settings.repaired:
            self._asked.give_up(missing)
            return
        missing = self._asked.wanted(missing)
        if missing.fields:
            self._asked.ask(missing, now)
            self._tally.asked += len(list(missing.sequences()))
            self.on_missing(missing)
            self._loop.at(now + TWICE, lambda: self._ask_twice(missing))

    def _ask_twice(self, missing: Missing) -> None:
        left = self._asked.left(missing)
        if left.fields and left.about == self._source and not self._is_ending:
            self.on_missing(left)

    def _look_at_streams(self) -> None:
        # Another one is tried, or comes to be followed with a complete picture.
        source = self._session.source()
        if source != self._source:
            self._tally.begun_anew += self._source is not None and source != self._former
            self._source, self._next = source, None
        self._former = self._session.source("former")
        self._sources = {source, self._former, self._session.source("tried")}
        if self._record:
            self._record.follow(source, self._sources)

    def _say(self, source: int, message: bytes) -> None:
        if message:
            self._tally.messages_out += 1
            self.on_feedback(Feedback(self._own_source, source, message))

    def _play_due(self, now: int) -> None:
        # At most as many at once as are kept: what is due beyond them waits for a look at the sockets.
        for _ in range(self._settings.slots):
            if not self._play(now) and self._hand_in(now) != "ahead":
                break
        self._timer.cancel()
        due = self._session.due()
        if due is not None:
            self._timer = self._loop.at(due / SECOND, lambda: self._play_due(max(due, self._time())))

    def _play(self, now: int) -> bool:
        # Plays a picture that is due by then, if there is one.
        turn = self._session.play(now)
        if turn is None:
            return False
        if self._record:
            self._record.played(turn.source, turn.number, self._loop.now())
        if turn.run == "followed":
            self._show(turn)
        self._say(turn.source, turn.message)
        return True

    def _show(self, turn: Any) -> None:
        if self._next not in (None, turn.number):
            self._tally.begun_anew += 1
        self._next = turn.number + 1
        self._tally.marks[turn.mark] += 1
        self.on_frame(Frame((f"X{turn.mark.upper()}",), bytes(self._session.shown())))
