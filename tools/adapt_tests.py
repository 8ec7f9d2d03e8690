"""Tests of what follows the line, and of repair: calls over simulated lines, in discrete time.

The ends and what follows the line are the library's, between this tool's own `Sending` and `Receiving`; the clock, the
line and the sockets are made here, so that a minute of a call takes seconds, and is always the same.
"""

import heapq
import json
import random
import subprocess
from dataclasses import dataclass, field
from pathlib import Path
from typing import Any, Callable, Optional

from calltools import library as own_library
from calltools import made_video, y4m
from calltools.live import receiving, sending, settings as live_settings
from calltools.recording import recorded, recorded_ways
from calltools.live.call_context import CallContext
from calltools.network.loop import Timer
from calltools.recording.recorder import Recorder
from calltools.live.tally import StatusLine, Tally
from live_tests import TOOLS, Calls, needs_library


_QCIF = y4m.Size(*y4m.FORMATS["qcif"])
_HEADS = 28
# What waits before a line, in seconds.
_QUEUE = 0.2
_WAY = 0.03


class Clock:
    """A loop whose time is the next call's."""

    def __init__(self) -> None:
        self._now = 0.0
        self._timers: list[tuple[float, int, Timer]] = []
        self._count = 0
        self.turns = 0

    def now(self) -> float:
        return self._now

    def at(self, when: float, call: Callable[[], None]) -> Timer:
        timer = Timer(call)
        self._count += 1
        heapq.heappush(self._timers, (max(when, self._now), self._count, timer))
        return timer

    def run(self, until: float) -> None:
        while self._timers and self._timers[0][0] <= until:
            self._now, _, timer = heapq.heappop(self._timers)
            self.turns += 1
            if timer.call:
                timer.call()
        self._now = until


class Line:
    """A line of a rate that may change, with a queue before it, and losses by chance."""

    def __init__(
        self, clock: Clock, kbits: dict[float, int], loss: float = 0.0, way: float = _WAY, queue: float = _QUEUE
    ) -> None:
        self._clock, self._loss, self._draws, self._way = clock, loss, random.Random(5), way
        self._most = queue
        self._waiting: list[tuple[int, Callable[[], None]]] = []
        self._bytes, self._is_busy = 0, False
        self.kbits = kbits[0]
        for when, rate in kbits.items():
            clock.at(when, lambda rate=rate: setattr(self, "kbits", rate))

    @property
    def queue(self) -> float:
        """How long what waits takes, in seconds."""
        return 8 * self._bytes / (1_000 * self.kbits)

    def take(self, size: int, arrive: Callable[[], None]) -> bool:
        """Answers whether it was taken, and not dropped before a full queue."""
        if self.queue > self._most:
            return False
        self._bytes += size
        self._waiting.append((size, arrive))
        if not self._is_busy:
            self._serve()
        return True

    def _serve(self) -> None:
        self._is_busy = bool(self._waiting)
        if self._waiting:
            size, arrive = self._waiting.pop(0)
            left = self._clock.now() + 8 * size / (1_000 * self.kbits)
            self._clock.at(left, lambda: self._sent(size, arrive))

    def _sent(self, size: int, arrive: Callable[[], None]) -> None:
        self._bytes -= size
        if self._draws.random() >= self._loss:
            self._clock.at(self._clock.now() + self._way, arrive)
        self._serve()


class Flow:
    """TCP's additive increase and multiplicative decrease, by windows of whole segments."""

    SEGMENT = 1_460

    def __init__(self, clock: Clock, line: Line, began: float) -> None:
        self._clock, self._line = clock, line
        self._window, self._flying, self._cut = 4.0, 0, 0.0
        self.arrived = 0
        clock.at(began, self._fill)

    def _fill(self) -> None:
        while self._flying < int(self._window):
            self._flying += 1
            sent = self._clock.now()
            if not self._line.take(self.SEGMENT + 40, lambda sent=sent: self._came(sent)):
                # Three segments behind it tell of the loss, a round trip later.
                self._clock.at(sent + 2 * _WAY + _QUEUE, lambda sent=sent: self._lost(sent))

    def _came(self, sent: float) -> None:
        self.arrived += self.SEGMENT
        self._clock.at(self._clock.now() + _WAY, self._acknowledged)

    def _acknowledged(self) -> None:
        self._flying -= 1
        self._window += 1 / self._window
        self._fill()

    def _lost(self, sent: float) -> None:
        self._flying -= 1
        if sent > self._cut:
            self._window, self._cut = max(2.0, self._window / 2), self._clock.now()
        self._fill()


_MADE: list[bytes] = []


def frames() -> list[bytes]:
    """A video that has 4,000 bytes a picture at the finest quantiser: the made one with noise."""
    if not _MADE:
        draws, count = random.Random(1), _QCIF.width * _QCIF.height
        mask = int.from_bytes(bytes([63]) * count, "big")
        for number in range(64):
            frame = made_video.made_frame(_QCIF, 1, number)
            noise = int.from_bytes(draws.randbytes(count), "big") & mask
            noisy = int.from_bytes(frame[:count], "big") + noise
            _MADE.append(noisy.to_bytes(count, "big") + frame[count:])
    return _MADE


@dataclass
class Moment:
    """How a picture was shown."""

    when: float
    mark: str


@dataclass
class Seen:
    """What came of a call."""

    shown: list[Moment] = field(default_factory=list)
    queues: list[tuple[float, float]] = field(default_factory=list)
    bytes_out: list[tuple[float, int]] = field(default_factory=list)
    left_out: int = 0
    told: list[str] = field(default_factory=list)

    def exact(self, start: float = 0.0, end: float = 1e9) -> float:
        """The share of pictures shown that are exact: a stream of which none is complete isn't shown at all."""
        marks = [it.mark for it in self.shown if start <= it.when < end]
        return marks.count("exact") / len(marks) if marks else 0.0

    def kbits(self, start: float, end: float) -> float:
        """What was sent, with the heads of IP and UDP."""
        sent = sum(size for when, size in self.bytes_out if start <= when < end)
        return 8 * sent / (end - start) / 1_000

    def waited(self, start: float, end: float) -> list[float]:
        """What waited before the line, in seconds, when pictures were captured."""
        return [queue for when, queue in self.queues if start <= when < end]


class SimulatedCall:
    """A call of the tool's own ends over a line."""

    def __init__(
        self,
        kbits: dict[float, int],
        target: Optional[int] = None,
        loss: float = 0.0,
        flow: Optional[float] = None,
        time: Optional[Clock] = None,
        library: Any = None,
        record: Optional[Path] = None,
        way: float = _WAY,
        queue: float = _QUEUE,
        **more: Any,
    ) -> None:
        random.seed(3)
        self.clock, self.seen, self._way = time or Clock(), Seen(), way
        self.line = Line(self.clock, kbits, loss, way, queue)
        self.flow = None if flow is None else Flow(self.clock, self.line, flow)
        self._losses, self._loss = random.Random(6), loss
        settings = live_settings.Settings(target=target or 1_800, adapts=not target, **more)
        self.tally = Tally()
        clock: Any = self.clock
        self.recorder, say = Recorder(record, 0.0, {}), self.seen.told.append
        context = CallContext(clock, settings, self.recorder, self.tally, say, library or own_library.loaded())
        self.sending, self.receiving = sending.Sending(context), receiving.Receiving(context)
        self.sending.on_packet = self.sending.on_repeat = self._packet
        self.receiving.on_feedback = lambda said: self._back(lambda: self.sending.feedback(said))
        self.receiving.on_missing = lambda missing: self._back(lambda: self.sending.missing(missing))
        self.receiving.on_frame = self._show
        self._period, self._number = settings.period, 0
        self.clock.at(0.0, self._capture)

    def run(self, seconds: float) -> Seen:
        self.clock.run(seconds)
        return self.seen

    def _capture(self) -> None:
        video, place = frames(), self._number % (2 * len(frames()))
        self.seen.queues.append((self.clock.now(), self.line.queue))
        self.seen.left_out += not self.sending.frame(video[min(place, 2 * len(video) - 1 - place)])
        self._number += 1
        self.clock.at(self._number * self._period, self._capture)

    def _show(self, frame: y4m.Frame) -> None:
        self.seen.shown.append(Moment(self.clock.now(), frame.tags[0][1:].lower()))

    def _packet(self, data: bytes) -> None:
        size = len(data) + _HEADS
        self.seen.bytes_out.append((self.clock.now(), size))
        self.line.take(size, lambda: self.receiving.packet(data))

    def _back(self, arrive: Callable[[], None]) -> None:
        if self._losses.random() >= self._loss:
            self.clock.at(self.clock.now() + self._way, arrive)


def quant_of(packet: bytes, is_intra: bool) -> int:
    """PQUANT of a picture's first packet, whose header has no messages (docs/FORMATS.md)."""
    place = 61 if is_intra else 71
    return int.from_bytes(packet[14:26], "big") >> 96 - place - 5 & 31


@needs_library
class AdaptTest(Calls):
    def test_each_line_is_followed(self) -> None:
        """Pictures are exact, the line is used, and no queue stands before it."""
        lines = ((1_000, 15, 0.98), (500, 15, 0.95), (300, 30, 0.95), (150, 20, 0.9))
        for kbits, seconds, exact in lines:
            with self.subTest(kbits=kbits):
                seen = SimulatedCall({0: kbits}).run(seconds)
                waited = seen.waited(3, seconds)
                self.assertGreater(seen.exact(), exact)
                self.assertGreater(seen.exact(3), 0.98)
                self.assertGreater(seen.kbits(8, seconds), 0.75 * kbits)
                self.assertLess(sum(waited) / len(waited), 0.05)

    def test_a_fixed_target_stays(self) -> None:
        """One that is too much for the line has half of its pictures exact at the most."""
        call = SimulatedCall({0: 300}, target=1_800)
        seen = call.run(10)
        self.assertLess(seen.exact(), 0.55)
        self.assertGreater(seen.kbits(5, 10), 430)
        self.assertIsNone(call.sending.recent.kbits)
        self.assertGreater(SimulatedCall({0: 300}, target=917).run(10).exact(), 0.95)

    def test_a_line_that_becomes_slower_and_fast_again(self) -> None:
        """Two seconds after it pictures are exact, and the queue goes. It isn't gone sooner, since each rise that is seen
        takes three tenths of the rate at the most, and eight round trips of 250 ms while the queue is full."""
        seen = SimulatedCall({0: 1_000, 15: 200, 30: 1_000}).run(50)
        self.assertGreater(seen.exact(17, 30), 0.99)
        self.assertLess(max(seen.waited(17, 17.5)), 0.15)
        self.assertLess(max(seen.waited(17.5, 22)), 0.1)
        waited = seen.waited(17.5, 30)
        self.assertLess(sum(waited) / len(waited), 0.04)
        self.assertGreater(seen.kbits(24, 30), 150)
        # As fast as it was within 12 seconds.
        self.assertGreater(seen.kbits(42, 50), 750)

    def test_a_line_that_becomes_slower_at_any_moment(self) -> None:
        """Two seconds later no queue of 150 ms stands before it, and pictures are exact, whatever its queue holds and
        however long the way is."""
        ways = [(queue, way) for queue in (0.1, 0.2, 0.5) for way in (0.01, 0.03, 0.075)]
        for number, (queue, way) in enumerate(2 * ways):
            step = 6 + 0.23 * number
            with self.subTest(step=step, queue=queue, way=way):
                seen = SimulatedCall({0: 1_000, step: 200}, queue=queue, way=way).run(step + 4.5)
                self.assertLess(max(seen.waited(step + 2, step + 4.5)), 0.15)
                self.assertGreater(seen.exact(step + 2), 0.95)

    def test_losses_by_chance_are_no_full_line(self) -> None:
        for kbits in (2_000, 500):
            with self.subTest(kbits=kbits):
                seen = SimulatedCall({0: kbits}, loss=0.05).run(24)
                rates = [seen.kbits(start, start + 4) for start in range(4, 24, 4)]
                self.assertGreater(min(rates), 432 / 2)
                self.assertGreater(sum(rates) / len(rates), 0.75 * 432)
                self.assertEqual(seen.left_out, 0)

    def test_beside_a_flow_of_tcp(self) -> None:
        """Neither starves, though TCP fills the queue that this one leaves empty."""
        call = SimulatedCall({0: 1_000}, flow=5)
        seen = call.run(45)
        assert call.flow
        self.assertGreater(8 * call.flow.arrived / 40 / 1_000, 300)
        # Which of the two has the more hangs on when the flow begins.
        self.assertGreater(seen.kbits(10, 45), 50)
        self.assertGreater(seen.exact(5), 0.9)

    def test_a_line_too_narrow_for_the_coarsest_pictures(self) -> None:
        """Frames are left out, and those that go out are shown exactly."""
        call = SimulatedCall({0: 40})
        seen = call.run(40)
        self.assertGreater(seen.exact(10), 0.95)
        thinned = call.tally.thinned
        self.assertGreater(thinned, 300)
        self.assertGreater(len(seen.shown), 5 * 40)
        status = StatusLine(True, False)
        told, later = [status.line(40, call.tally, call.sending.recent, 0) for _ in range(2)]
        self.assertNotIn("too narrow", later)
        self.assertRegex(told, rf"line \d+ kbit/s \| too narrow: {thinned} frames left out")

    def test_what_is_lost_is_sent_again(self) -> None:
        """At 5 % of loss by chance and a round trip of 50 ms 99 of 100 pictures are exact, for as many bits more as are
        lost. Where an answer takes longer than the wait hardly anything is asked for, and nothing is sent again."""
        shares = {}
        for way in (0.025, 0.06):
            for is_repaired in (True, False):
                call = SimulatedCall({0: 20_000}, target=1_800, loss=0.05, way=way)
                if not is_repaired:
                    call.receiving.on_missing = lambda _: None
                shares[way, is_repaired] = call.run(20).exact()
                again = call.tally.repeated / call.tally.packets_out
                self.assertLess(again, 0.06 if way < 0.05 and is_repaired else 0.01)
        self.assertGreaterEqual(shares[0.025, True], 0.99)
        self.assertLess(shares[0.025, False], 0.93)
        self.assertAlmostEqual(shares[0.06, True], shares[0.06, False], delta=0.02)

    def test_a_silence_is_not_repaired(self) -> None:
        """After half a second without anything nothing of it is asked for, and pictures are exact at once."""

        class Cut(SimulatedCall):
            def _packet(self, data: bytes) -> None:
                if not 3.0 <= self.clock.now() < 3.5:
                    super()._packet(data)

        call = Cut({0: 2_000}, target=1_800)
        seen = call.run(6)
        self.assertLess(call.tally.asked, 5)
        self.assertEqual(call.tally.repeated, 0)
        self.assertEqual(seen.exact(3.65), 1.0)

    def test_the_longer_nothing_comes_back_the_fewer_pictures_go_out(self) -> None:
        """Five a second after two seconds, one after ten, and all again with the first message."""

        class Deaf(SimulatedCall):
            def _back(self, arrive: Callable[[], None]) -> None:
                if self.clock.now() >= 20:
                    super()._back(arrive)

        for target in (1_800, None):
            call = Deaf({0: 2_000}, target=target)
            coded = []
            for second in (2, 10, 20, 23):
                call.run(second)
                coded.append(call.tally.captured)
            steps = [after - before for before, after in zip([0, *coded], coded)]
            # In the last three seconds one picture goes out alone, and the messages about it come back.
            for step, (least, most) in zip(steps, ((55, 61), (38, 42), (9, 11), (50, 91))):
                self.assertTrue(least <= step <= most, steps)
            self.assertEqual(sum("nothing comes back" in words for words in call.seen.told), 1)

    def test_a_target_gives_the_quantiser(self) -> None:
        """What the sender takes is what its sizes and the target were said to give."""
        library, period = own_library.loaded(), 33_333_333
        bounds = {"first": 1_800, "least": 60, "most": 999_999, "finest": 8, "period": period}
        quants = set()
        params = library.Params.of("qcif", target=1_800, pace=library.PACES["follows"])
        with library.Sender(params) as sender, library.Line(**bounds, now=0) as line:
            for number, frame in enumerate(frames()[:40]):
                # No message comes, so each picture is intra.
                wanted = line.quant
                sender.target(line.target)
                packets = sender.packets(sender.code(frame))
                quant = quant_of(packets[0], True)
                quants.add(quant)
                self.assertLessEqual(wanted, quant)
                self.assertLessEqual(quant, wanted + 1)
                line.sent(number, sum(map(len, packets)), len(packets), number * period)
        self.assertGreater(len(quants), 5)

    def test_a_call_that_follows_and_one_that_does_not(self) -> None:
        """Without a target it does, and that is recorded."""
        for words, adapts in (((), True), (("--target", 900), False)):
            folder = self.room / f"call{adapts}"
            ends = ("--format", "sub-qcif", "--camera", self.video(75), "--screen", "none")
            call = self.run_call(*ends, "--record", folder, *words)
            self.assertEqual(call.status, 0, call.told)
            self.assertGreater(call.shown("exact"), 50, call.told)
            facts = json.loads((folder / "call.json").read_text())
            self.assertEqual((facts["adapts"], facts["target"]), (adapts, 900))
            # What it followed is told picture by picture, by both tools.
            (run,) = facts["send"]
            self.assertEqual("targets" in run, adapts)
            lines = (folder / run["targets"]).read_text().splitlines() if adapts else []
            self.assertEqual(len(lines), call.count("sent", "sent") if adapts else 0)
            (way,) = recorded_ways.ways_of(recorded.read_record(folder))
            rates = [int(line.split()[1]) for line in lines] or [None] * len(way.pictures)
            self.assertEqual([picture.kbits for picture in way.pictures], rates[: len(way.pictures)])
            told = subprocess.run([TOOLS / "times_of_call", folder], capture_output=True, text=True, check=True).stdout
            self.assertEqual("line followed: " in told, adapts)
