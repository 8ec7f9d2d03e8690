"""The record of a session: each run of a stream as a run of `recv`, with its log and what that gives."""

from collections import Counter
from collections.abc import Iterable
from dataclasses import dataclass
from typing import Any, Optional

from . import logs
from ..live.call_context import CallContext
from ..network.picture_start import picture_start
from ..network.rtp import OWN_SOURCE, with_source
from ..y4m import head_bytes

# Bytes of a stream that wait until it is followed.
_MOST_HELD = 8 << 20


@dataclass(frozen=True)
class _Packet:
    data: bytes
    when: float
    is_late: bool
    reference: int


class _Run:
    """One run of a stream: its log goes to the record, and to a receiver of the library's beside, which says what
    `recv` writes over it."""

    def __init__(self, context: CallContext, source: int, number: int, first: Optional[int]) -> None:
        self.next = number
        self._loop = context.loop
        settings, library = context.settings, context.library
        clock = library.CLOCKS[settings.clock]
        words = {"slots": settings.slots, "lead": settings.lead, "messages": settings.messages, "clock": clock}
        facts: dict[str, object] = {
            "options": settings.recv_options(),
            "source": source,
            "joined": number,
            "first": first,
        }
        self._record = context.recorder.run("recv", facts, is_kept=False)
        self._receiver = library.Receiver(library.Params.of(settings.format, **words), number)
        self._counts = Counter(played=number, held=number)
        self._head = head_bytes(settings.size, settings.rate)
        self._is_kept = False

    @property
    def _is_left_out(self) -> bool:
        # One that waited that long isn't recorded: nobody fills the memory by streams of their own.
        return self._record.held > _MOST_HELD

    def keep(self) -> None:
        if not self._is_kept and not self._is_left_out:
            self._is_kept = True
            self._record.keep()

    def heard(self, packet: bytes, when: float) -> None:
        """A packet was heard."""
        if self._is_left_out:
            return
        self._log(logs.PACKET, packet, when)
        heard = self._receiver.packet(packet)
        # A packet that completes its picture is taken, too.
        self._counts["taken" if heard.kind == "completed" else heard.kind] += 1
        self._said(heard.message)

    def play(self, when: float) -> None:
        """The next picture was played."""
        if self._is_left_out:
            return
        self._log(logs.PLAY, b"", when)
        # Lent until the next call of the receiver: what is written is the only copy.
        played = self._receiver.play_lent()
        number = self._counts["played"]
        self._counts.update(("played", played.mark))
        self._record.write("video", self._head + f"FRAME X{played.mark.upper()}\n".encode() + played.picture)
        self._head = b""
        self._record.mark("video", self._loop.now())
        self._said(played.message)
        self._record.write("report", f"{number} {played.mark}\n".encode())

    def end(self) -> None:
        """No more of it."""
        if not self._is_left_out:
            words = ("played", "exact", "patched", "held", "taken", "late", "early", "repeat", "refused")
            told = " ".join(f"{word} {self._counts[word]}" for word in words)
            self._record.write("report", f"{told}\n".encode())
        self._receiver.close()
        self._record.close()

    def _log(self, letter: str, body: bytes, when: float) -> None:
        self._record.mark("log", when)
        self._record.write("log", logs.entry_bytes(letter, body))

    def _said(self, message: bytes) -> None:
        if message:
            self._record.mark("wire", self._loop.now())
            self._record.write("wire", logs.entry_bytes(logs.MESSAGE, message))


class _Stream:
    """A stream that has a run in the session. A run that begins anew begins a record anew: its numbers tell."""

    def __init__(self, context: CallContext, source: int) -> None:
        self._context, self._source = context, source
        self._run: Optional[_Run] = None
        # What was heard since the last play: of this run, or already of the next one.
        self._waiting: list[_Packet] = []
        self._is_followed = False

    def heard(self, packet: _Packet) -> None:
        self._waiting.append(packet)

    def played(self, number: int, when: float) -> None:
        if not self._run or self._run.next != number:
            self._begin(number)
        self._write(self._waiting)
        self._waiting = []
        if self._run:
            self._run.play(when)
            self._run.next = number + 1

    def follow(self) -> None:
        self._is_followed = True
        if self._run:
            self._run.keep()

    def end(self) -> None:
        self._write(self._waiting)
        if self._run:
            self._run.end()

    def _begin(self, number: int) -> None:
        # A run's first play is of the second picture before the one that began it.
        came = self._waiting
        begins = (place for place, it in enumerate(came) if not it.is_late and max(0, it.reference - 2) == number)
        place = next(begins, len(came)) if self._run else 0
        self._waiting = came[:place]
        self.end()
        self._waiting = came[place:]
        first = came[place].reference if place < len(came) else None
        self._run = _Run(self._context, self._source, number, first)
        if self._is_followed:
            self._run.keep()

    def _write(self, packets: Iterable[_Packet]) -> None:
        if self._run:
            for packet in packets:
                self._run.heard(packet.data, packet.when)


class SessionRecord:
    """What a session heard and played, by streams. One that is only tried is recorded once it is followed."""

    def __init__(self, context: CallContext) -> None:
        self._context = context
        self._streams: dict[int, _Stream] = {}

    def heard(self, source: int, data: bytes, kind: Any, when: float) -> None:
        """A run took this packet, with this answer of its receiver."""
        packet = with_source(data, OWN_SOURCE)
        start = picture_start(packet)
        if source not in self._streams:
            self._streams[source] = _Stream(self._context, source)
        self._streams[source].heard(_Packet(packet, when, kind == "late", start.reference if start else -1))

    def played(self, source: int, number: int, when: float) -> None:
        """The run of this stream played the picture of this number."""
        if source in self._streams:
            self._streams[source].played(number, when)

    def follow(self, source: Optional[int], sources: set[Optional[int]]) -> None:
        """This stream is followed, and these have a run."""
        for gone in self._streams.keys() - sources:
            self._streams.pop(gone).end()
        if source in self._streams:
            self._streams[source].follow()

    def end(self) -> None:
        """Nothing more comes."""
        for stream in self._streams.values():
            stream.end()
        self._streams = {}
