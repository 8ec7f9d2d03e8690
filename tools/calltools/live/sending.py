"""The sending end of a live call: frames in, packets out to the network, messages back in."""

import random
from collections import Counter
from typing import Any, Callable, Optional, Sequence

from ..recording import logs
from .call_context import CallContext
from ..errors import BadInput
from ..network.header_messages import Incoming
from .settings import MOST_TARGET
from ..network.loop import Call
from ..network.messages import read_message
from ..network.numbers import nearest
from ..network.picture_start import PERIODS
from ..network.repair import Repeating
from ..network.rtcp import Feedback, Missing
from ..network.rtp import CLOCK, renumbered, rtp_header
from .tally import Recent
from ..y4m import head_bytes

SECOND = 1_000_000_000
# Where nothing comes back for this many seconds, a picture goes out only each so many (after RFC 8083: what nobody is
# seen to receive must not fill a line that may be full).
_UNHEARD = ((10.0, 1.0), (2.0, 0.2))
# That a run is nearly full is told this many seconds before.
_NOTICE = 60
# The times of so many pictures are kept, for the messages about them.
_KEPT = 100


class SendingRun:
    """One run of the library's sender, with an SSRC, a first sequence number and a first time of its own (RFC 3550,
    5.1). It is recorded as a run of `send`. Where the call's target follows the line, it begins with `first`."""

    def __init__(self, context: CallContext, recent: Recent, first: int) -> None:
        loop, settings = context.loop, context.settings
        self._context, self._loop, self._settings = context, loop, settings
        self._tally, self._recent = context.tally, recent
        # The first sequence number is below 2^15: were it just below 2^16 and the first packets lost, a receiver of
        # SRTP would guess another turn of the numbers (RFC 3711, 3.3.1).
        self.source, self._first_sequence, self._first_time = map(random.getrandbits, (32, 15, 32))
        self._sender = self._started()
        self._line = self._following(first) if settings.adapts else None
        self._repeating = Repeating(context.library, settings.limit, settings.repaired)
        self._record = context.recorder.run("send", self._facts(), has_targets=settings.adapts)
        self._record.write("video", head_bytes(settings.size, settings.rate))
        self.on_packet: Callable[[bytes], None] = lambda _: None
        self.on_repeat: Callable[[bytes], None] = lambda _: None
        self.captured = 0
        self._began = self._last = 0.0
        # When pictures went out, and the newest of those that are known to be complete.
        self._times: dict[int, float] = {}
        self._known = 0.0
        self._counts: Counter[str] = Counter()
        self.incoming = Incoming()
        self.is_heard = False

    def _started(self) -> Any:
        library, settings = self._context.library, self._settings
        own = {"target": settings.target, "quant": settings.quant, "radius": settings.radius}
        # As `send --target` does, by which a record is replayed.
        own["pace"] = library.PACES["follows"]
        shared = {"limit": settings.limit, "slots": settings.slots, "lead": settings.lead}
        clock = library.CLOCKS[settings.clock]
        try:
            return library.Sender(library.Params.of(settings.format, clock=clock, **own, **shared))
        except library.Refused as fault:
            raise BadInput("the library", "no sender", str(fault)) from fault

    def _following(self, first: int) -> Any:
        settings = self._settings
        return self._context.library.Line(
            first=first,
            least=settings.least_target,
            most=MOST_TARGET,
            finest=settings.quant,
            period=round(SECOND * settings.period),
            now=round(SECOND * self._loop.now()),
        )

    def _facts(self) -> dict[str, object]:
        return {
            "options": self._settings.send_options(),
            "source": self.source,
            "first_sequence": self._first_sequence,
            "first_time": self._first_time,
        }

    @property
    def size(self) -> int:
        """Bytes a picture that the line has room for."""
        if not self._line:
            return self._settings.target
        return min(max(int(self._line.rate * self._settings.period), self._settings.least_target), MOST_TARGET)

    def has_room(self, now: float) -> bool:
        """Whether the line, as far as its rate is followed, has room for more."""
        return not self._line or self._line.has_room(round(SECOND * now))

    def capture(self, samples: bytes, messages: Sequence[bytes], now: float) -> bool:
        """A frame came from the camera, and its picture goes out with these messages. It is left out where it had piled
        up with another."""
        if self.captured > 0 and now - self._last < 0.5 * self._settings.period:
            return False
        if not self.captured:
            self._began = now
        self._times[self.captured] = self._last = now
        self._times.pop(self.captured - _KEPT, None)
        self.captured += 1
        self._set_target()
        self._record.mark("log", now)
        self._record.write("log", logs.entry_bytes(logs.CAPTURE))
        self._record.write("video", b"FRAME\n" + samples)
        self._code(samples, messages, now)
        return True

    def _set_target(self) -> None:
        if self._line:
            target, self._recent.kbits = self._line.target, 8 * self._line.rate / 1_000
            self._sender.target(target)
            self._record.write("targets", f"{target} {self._recent.kbits:.0f}\n".encode())

    def _code(self, samples: bytes, messages: Sequence[bytes], now: float) -> None:
        coded = self._sender.code(samples, messages)
        packets = self._sender.packets(coded)
        # RTP's time is that of the capture: the sender counts pictures, and a camera may skip some.
        ticks = self._first_time + round((now - self._began) * CLOCK)
        for packet in packets:
            self._packet(packet, ticks)
        if self._line:
            sizes = sum(map(len, packets)), len(packets)
            self._line.sent(coded.number, *sizes, round(SECOND * self._loop.now()))
        self._counts.update(sent=1, packets=len(packets))
        self._tally.coded += 1
        self._recent.reference(None if coded.reference is None else coded.number - coded.reference)
        told = "intra" if coded.reference is None else f"from {coded.reference}"
        self._record.write("report", f"{coded.number} {told}\n".encode())

    def _packet(self, packet: bytes, ticks: int) -> None:
        header = rtp_header(packet)
        assert header
        now = self._loop.now()
        data = renumbered(packet, self._first_sequence + header.sequence, ticks, self.source)
        self.on_packet(data)
        self._repeating.sent(data, now)
        self._tally.packets_out += 1
        self._record.mark("wire", now)
        self._record.write("wire", logs.entry_bytes(logs.PACKET, packet))

    def message(self, body: bytes, now: float) -> None:
        """A message came back about this run."""
        said = read_message(body)
        newest, period = self.captured - 1, PERIODS[self._settings.clock]
        picture = nearest(newest - period // 2 + 1, said.reference, period)
        if said.is_ack:
            self._recent.trip(newest - picture)
            self._known = max(self._known, self._times.get(picture, 0.0))
        if self._line and picture >= 0 and body[0] >> 7:
            # Else it is none (docs/FORMATS.md, "Back-channel message").
            self._line.told(picture, said.is_ack, round(SECOND * now))
        self._record.mark("log", now)
        self._record.write("log", logs.entry_bytes(logs.MESSAGE, body))
        noted = self._sender.feedback(body).kind
        self._counts["refused" if noted == "no message" else noted] += 1

    def missing(self, missing: Missing, now: float) -> None:
        """The other side asks for packets again. They go where the line has room, and is known to be quick enough."""
        if now - self._known <= self._settings.repaired and self.has_room(now):
            for packet in self._repeating.asked(missing, now):
                self._tally.repeated += 1
                self.on_repeat(packet)

    def end(self) -> None:
        """No more of it."""
        words = " ".join(f"{word} {self._counts[word]}" for word in ("sent", "packets", "noted", "old", "refused"))
        self._record.write("report", f"{words}\n".encode())
        for part in (self._sender, self._line, self._repeating):
            if part:
                part.close()


class Sending:
    """The sending end, begun anew where it has coded as much as it may."""

    def __init__(self, context: CallContext) -> None:
        self._context = context
        self._loop, self._settings, self._tally = context.loop, context.settings, context.tally
        self.recent = Recent()
        self.on_packet: Callable[[bytes], None] = lambda _: None
        self.on_repeat: Callable[[bytes], None] = lambda _: None
        self.on_over: Call = lambda: None
        # The messages that wait for the next picture's header.
        self.waiting: Callable[[], Sequence[bytes]] = lambda: ()
        self._is_ending = self._is_told = self._is_unheard = False
        self._captured = 0.0
        # Since when pictures are sent of which nothing is heard.
        self._unheard: Optional[float] = None
        self._run = self._begun(self._settings.target)

    def _begun(self, first: int) -> SendingRun:
        run = SendingRun(self._context, self.recent, first)
        run.on_packet = lambda packet: self.on_packet(packet)
        run.on_repeat = lambda packet: self.on_repeat(packet)
        return run

    @property
    def source(self) -> int:
        """The SSRC of the present run."""
        return self._run.source

    @property
    def next_capture(self) -> float:
        """When the next frame is to come from the camera."""
        return self._captured + self._settings.period

    def frame(self, samples: bytes) -> bool:
        """A frame came from the camera; answers whether it was taken."""
        now = self._loop.now()
        if self._is_ending or not self._is_due(now):
            return False
        if self._run.captured >= self._settings.most_pictures:
            self._begin_anew()
        self._tell_of_the_end()
        if not self._run.has_room(now):
            self._tally.thinned += 1
            return False
        is_taken = self._run.capture(samples, self.waiting(), now)
        if is_taken:
            self._captured = now
            self._unheard = now if self._unheard is None else self._unheard
        self._tally.captured += is_taken
        return is_taken

    def _is_due(self, now: float) -> bool:
        silent = 0.0 if self._unheard is None else now - self._unheard
        least = next((each for after, each in _UNHEARD if silent >= after), 0.0)
        if least and not self._is_unheard:
            self._is_unheard = True
            self._context.say("nothing comes back: fewer pictures are sent until something does")
        return now - self._captured >= least

    def feedback(self, feedback: Feedback) -> None:
        """A message came from the network."""
        if self._is_ours(feedback.about):
            self._run.incoming.note(feedback.message)
            self._run.is_heard = True
            self._message(feedback.message)

    def headed(self, messages: Sequence[bytes]) -> None:
        """Messages came in the header of a packet. They are of the present run once one came by itself that says so."""
        if self._run.is_heard and not self._is_ending:
            for message in self._run.incoming.new(messages):
                self._message(message)

    def _message(self, body: bytes) -> None:
        self._unheard, self._is_unheard = None, False
        self._tally.messages_in += 1
        self._run.message(body, self._loop.now())

    def missing(self, missing: Missing) -> None:
        """Packets are asked for again."""
        if self._is_ours(missing.about):
            self._run.missing(missing, self._loop.now())

    def _is_ours(self, source: int) -> bool:
        # Whether something is about the present run, and counts still.
        if source != self._run.source:
            self._tally.dropped["stale messages"] += 1
        return source == self._run.source and not self._is_ending

    def end(self) -> None:
        """No more frames."""
        self._is_ending = True
        self._run.end()
        self.on_over()

    def _tell_of_the_end(self) -> None:
        most = self._settings.most_pictures
        left = (most - self._run.captured) * self._settings.period
        if left <= _NOTICE and not self._is_told:
            self._is_told = True
            told = f"in {left:.0f} s, after {most:,} pictures, the sending end begins anew"
            self._context.say(told)

    def _begin_anew(self) -> None:
        self._tally.begun_anew += 1
        self._is_told, first = False, self._run.size
        self._run.end()
        self._run = self._begun(first)
