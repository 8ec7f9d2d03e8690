"""Tests of the receiving end: calls in discrete time, without sockets, between the library's own sender and what
`live_call` shows by."""

import json
import random
import tempfile
import types
import unittest
from fractions import Fraction
from pathlib import Path
from typing import Any, Optional

from adapt_tests import Clock
from calltools import library as own_library
from calltools.live import receiving, settings as live_settings
from calltools.network import rtp
from calltools.live.call_context import CallContext
from calltools.recording.recorder import Recorder
from calltools.network.rtcp import Bye
from calltools.live.tally import Tally
from live_tests import needs_library, of_run, shown_again
from way_scenarios import CLOCK, STEP, Scenario, lead_of, scenarios

# A message takes this long on its way back, and what is left is played for so long after the last packet, in seconds.
_BACK, _LONG = 0.03, 12.0
_SSRC = 0xABCDEF


_NOISE = [random.Random(number).randbytes(18_432) for number in range(4)]


def _picture(packets: int, number: int) -> bytes:
    """A picture in sub-QCIF that has one packet, or several where it has noise."""
    return bytes([64 + number % 128]) * 18_432 if packets == 1 else _NOISE[number % 4]


def _counted(library: Any, turns: list[Any]) -> Any:
    """The library, where what a session plays is listed."""

    class Session(library.Session):  # type: ignore[name-defined,misc]
        def play(self, now: int) -> Any:
            turn = super().play(now)
            if turn:
                turns.append(turn)
            return turn

    return types.SimpleNamespace(**{**vars(library), "Session": Session})


class Call:
    """A stream of a scenario, coded by the library, and the end that shows it."""

    def __init__(self, scenario: Scenario, record: Optional[Path] = None) -> None:
        self.scenario, self.clock, self.said = scenario, Clock(), list[str]()
        self.turns: list[Any] = []
        library = own_library.loaded()
        lead = lead_of(scenario)
        settings = live_settings.Settings(
            format="sub-qcif",
            rate=Fraction(scenario.rate, scenario.second),
            wait=scenario.wait,
            lead=lead,
            slots=live_settings.slots_for(lead, None),
        )
        self.tally, clock = Tally(), self.clock
        self.context = CallContext(
            clock,
            settings,
            Recorder(record, 0.0, {}),
            self.tally,
            self.said.append,  # type: ignore[arg-type]
            _counted(library, self.turns),
        )
        self.end = receiving.Receiving(self.context)
        self.end.on_feedback = self._feedback
        self._sender = library.Sender(library.Params.of("sub-qcif", slots=settings.slots, lead=lead, quant=31))
        self._draws, self._sequence = random.Random(5), 0
        self.lost: set[int] = set()
        self.pictures = int(scenario.seconds / scenario.period)
        for number in range(self.pictures):
            self.clock.at(number * scenario.period, lambda number=number: self._capture(number))

    def run(self) -> "Call":
        self.clock.run(self.scenario.seconds + _LONG)
        return self

    def exact(self, first: int = 0) -> float:
        """Of the pictures from this one on that came whole, but for the last ones, the share that is exact."""
        exact = {turn.number for turn in self.turns if turn.mark == "exact" and turn.run != "former"}
        whole = [number for number in range(first, self.pictures - 3) if number not in self.lost]
        return len(exact.intersection(whole)) / len(whole)

    def _capture(self, number: int) -> None:
        scenario, now = self.scenario, self.clock.now()
        coded = self._sender.code(_picture(scenario.packets, number))
        stamp = round(now * (1 + scenario.drift) * CLOCK)
        for place, packet in enumerate(self._sender.packets(coded)):
            is_false = not place and number == round(STEP / scenario.period)
            said = stamp + (round(scenario.ahead * CLOCK) if is_false else 0)
            data = rtp.renumbered(packet, self._sequence, said, _SSRC)
            self._sequence += 1
            when = now + place * scenario.apart
            if self._draws.random() < scenario.loss:
                self.lost.add(number)
            else:
                self.clock.at(when + scenario.delay(when), lambda data=data: self.end.packet(data))

    def _feedback(self, feedback: Any) -> None:
        self.clock.at(self.clock.now() + _BACK, lambda: self._sender.feedback(feedback.message))


@needs_library
class SessionTest(unittest.TestCase):
    def test_no_honest_network_freezes_a_call(self) -> None:
        """Ways that get longer at each rate, losses, drifting clocks, one false time, no wait: all pictures that came whole
        are exact before, and again within two seconds or the third picture."""
        for scenario in scenarios():
            with self.subTest(scenario.name):
                call = Call(scenario).run()
                self.assertEqual(call.tally.begun_anew, 0)
                most = (scenario.settled * scenario.period - STEP) / (scenario.seconds - 3)
                self.assertEqual(call.exact(scenario.settled), 1.0)
                self.assertGreaterEqual(call.exact(), 1 - most)

    def test_each_picture_is_due_at_its_capture_the_way_and_the_wait(self) -> None:
        """With no wait each is shown when it comes."""
        for wait in (0.001, 0.1):
            call = Call(Scenario("due", 25, seconds=4.0, wait=wait))
            shown: list[float] = []
            call.end.on_frame = lambda _, call=call, shown=shown: shown.append(call.clock.now())  # type: ignore[misc]
            call.run()
            self.assertEqual(call.exact(), 1.0)
            for number, when in enumerate(shown[10:-1], 10):
                self.assertAlmostEqual(when, number / 25 + 0.03 + wait, delta=1e-4)

    def test_junk_and_strangers_cost_a_count(self) -> None:
        """Twelve bytes, or packets of streams of their own, 50,000 a second from the other side's address: all pictures of
        the stream that is followed are exact, and each datagram that wasn't looked at is counted."""
        for junk, cause in ((bytes([0x80, 96, *range(10)]), "malformed"), (None, "other source")):
            call = Call(Scenario("junk", 30, seconds=3.0))
            stranger = junk or self.stranger(call)

            def flood(call: Call = call, stranger: bytes = stranger) -> None:
                for _ in range(50):
                    call.end.packet(stranger)

            for step in range(500):
                call.clock.at(1.0 + step / 1_000, flood)
            call.run()
            self.assertEqual(call.exact(), 1.0)
            dropped = call.tally.dropped
            self.assertEqual(dropped.total(), 25_000)
            self.assertGreater(dropped[cause], 10_000)

    def test_two_streams_are_told(self) -> None:
        """Once, and not for a sender that begins anew: which one is forged nobody here can know."""
        for seconds, told in ((0.4, 0), (4.0, 1)):
            call = Call(Scenario("two", 30, seconds=6.0))
            data = self.stranger(call)
            for step in range(round(30 * seconds)):
                call.clock.at(1.0 + step / 30, lambda data=data, call=call: call.end.packet(data))
            call.run()
            self.assertEqual(sum("two streams come" in words for words in call.said), told, call.said)
            self.assertEqual(call.exact(), 1.0)

    def test_another_format_or_clock_is_told(self) -> None:
        call = Call(Scenario("other", 30, seconds=1.0))
        library = own_library.loaded()
        with library.Sender(library.Params.of("qcif", clock=library.CLOCKS["custom"])) as sender:
            packet = sender.packets(sender.code(bytes(38_016)))[0]
        # From a sender on the network, which has an SSRC of its own.
        for source in (library.SSRC, 1, 0xFFFFFFFF):
            self.assertIsNone(call.end.packet(library.label(packet, source, library.PAYLOAD_TYPE)))
        told = "the other side sends qcif in the custom clock, and this call is sub-qcif in the standard clock"
        self.assertEqual([words.split(":")[0] for words in call.said], [told])
        self.assertEqual(call.tally.dropped, {"other format or clock": 3})

    def test_only_the_stream_that_is_followed_can_hang_up(self) -> None:
        """Half a second after its last picture."""
        call, over = Call(Scenario("bye", 30, seconds=1.0)), list[float]()
        call.end.on_hung_up = lambda: over.append(call.clock.now())
        call.clock.at(0.5, lambda: call.end.bye(Bye(_SSRC + 1)))
        call.clock.at(0.9, lambda: call.end.bye(Bye(_SSRC)))
        call.run()
        self.assertEqual(len(over), 1)
        self.assertAlmostEqual(over[0], 29 / 30 + 0.03 + 0.5, delta=0.01)
        self.assertEqual(call.tally.dropped["other source"], 1)

    def test_a_forged_bye_ends_no_call(self) -> None:
        """Nor does it lose a picture, while the stream goes on."""
        call, over = Call(Scenario("bye", 30, seconds=6.0)), list[float]()
        call.end.on_hung_up = lambda: over.append(call.clock.now())
        for step in range(20):
            call.clock.at(1.0 + step / 100, lambda: call.end.bye(Bye(_SSRC)))
        call.run()
        self.assertEqual((over, call.exact()), ([], 1.0))

    def test_what_is_left_is_played_at_the_end(self) -> None:
        """As many at once as are kept, with a look at the sockets between; then it is over."""
        call, over = Call(Scenario("end", 120, seconds=1.0, wait=0.4)), list[float]()
        call.end.on_over = lambda: over.append(call.clock.now())
        call.clock.at(1.03, call.end.end)
        for when in (1.04, 2.0):  # what comes then counts no more
            call.clock.at(when, lambda: call.end.bye(Bye(_SSRC)))
            call.clock.at(when, lambda: call.end.packet(bytes(99)))
        call.run()
        self.assertEqual((len(over), call.exact()), (1, 1.0))
        self.assertEqual(call.tally.shown, 120)

    def test_each_run_is_recorded_as_recv_would_write_it(self) -> None:
        """After 32 s of silence another run begins, at the number that its pictures say."""
        with tempfile.TemporaryDirectory() as room:
            scenario = Scenario("silence", 30, seconds=40.0, delay=lambda when: 1e6 if 4.0 <= when < 36.0 else 0.03)
            call = Call(scenario, Path(room) / "call")
            call.clock.at(41.0, call.end.end)
            call.run()
            call.context.recorder.finish({})
            facts = json.loads((Path(room) / "call" / "call.json").read_text())
            facts |= {"format": "sub-qcif", "rate": str(call.context.settings.rate)}
            first, second = facts["recv"]
            self.assertEqual((first["joined"], first["source"], second["source"]), (0, _SSRC, _SSRC))
            self.assertEqual(second["joined"], second["first"] - 2)
            self.assertEqual(call.tally.begun_anew, 1)
            plays = 0
            for run in (first, second):
                again = shown_again(Path(room) / "call", run, facts)
                self.assertEqual(again, of_run(Path(room) / "call", run, ("video", "wire", "report")))
                plays += len(again[2].splitlines()) - 1
            self.assertEqual(plays, call.tally.shown)

    def stranger(self, call: Call) -> bytes:
        """A packet of a picture that can't become complete, of another stream than the call's."""
        library = own_library.loaded()
        with library.Sender(library.Params.of("sub-qcif", quant=1)) as sender:
            packet = sender.packets(sender.code(_picture(4, 0)))[0]
        return rtp.renumbered(packet, 9, 9, _SSRC + 1)


if __name__ == "__main__":
    unittest.main()
