"""Tests of calls both ways, in discrete time: two parties, each with a camera and a screen, and a way between them."""

import random
import unittest
from collections import Counter
from typing import Any, Callable, Optional

from adapt_tests import Clock, frames
from calltools import library
from calltools.live import parties, screens, settings as live_settings, tally
from calltools.network import header_messages, rtcp
from calltools.recording import recorder as recording
from calltools.live.call_context import CallContext
from calltools.network.call_network import Line
from live_tests import needs_library

_WAY = 0.025


class Wire:
    """In the place of a channel: what is sent comes a way later at the other end, unless it is lost."""

    def __init__(self, clock: Clock, loss: float, draws: random.Random) -> None:
        self._clock, self._loss, self._draws = clock, loss, draws
        self.on_datagram: Callable[[bytes], None] = lambda _: None
        self.other: Optional["Wire"] = None
        self.sent: list[bytes] = []
        self.bytes_in = self.bytes_out = self.unreached = 0

    def send(self, data: bytes) -> None:
        self.sent.append(data)
        if self._draws.random() >= self._loss:
            self._clock.at(self._clock.now() + _WAY, lambda: self._come(data))

    def _come(self, data: bytes) -> None:
        if self.other:
            self.other.on_datagram(data)


class Camera:
    """Thirty frames a second, from a time on."""

    def __init__(self, clock: Clock, begin: float) -> None:
        self._clock, self._number, self._is_over, self._begin = clock, 0, False, begin
        self.on_frame: Callable[[bytes], bool] = lambda _: True
        self.on_end: Any = None
        self.on_fault: Any = None

    def start(self) -> None:
        self._clock.at(self._begin + self._number / 30, self._tick)

    def stop(self) -> None:
        self._is_over = True

    def _tick(self) -> None:
        if not self._is_over:
            self.on_frame(frames()[self._number % 64])
            self._number += 1
            self.start()


class TwoWay:
    """A call of two parties. One of release 2.0 neither writes messages into headers nor reads them there."""

    def __init__(self, loss: float, apart: float, are_old: tuple[bool, bool] = (False, False)) -> None:
        random.seed(5)
        self.clock: Any = Clock()
        draws = random.Random(7)
        self.wires = [[Wire(self.clock, loss, draws) for _ in range(2)] for _ in range(2)]
        for one, other in zip(*self.wires):
            one.other, other.other = other, one
        self.tallies = [tally.Tally(), tally.Tally()]
        settings = live_settings.Settings(rate=live_settings.Fraction(30), target=1_800)
        self.parties: list[parties.Party] = []
        for place in range(2):
            recorder = recording.Recorder(None, 0.0, {})
            context = CallContext(self.clock, settings, recorder, self.tallies[place], print, library.loaded())
            channels: Any = self.wires[place]
            party = parties.Party(context, Line(*channels))
            camera: Any = Camera(self.clock, place * apart)
            party.add_camera(camera)
            party.add_screen(screens.Screen())
            if are_old[place] and party.sending and party.receiving:
                party._outgoing, party.sending.waiting, party.receiving.on_messages = None, lambda: (), None
            self.parties.append(party)
            camera.start()

    def run(self, seconds: float) -> "TwoWay":
        self.clock.run(seconds)
        return self

    def said(self, place: int) -> int:
        """How many messages a party sent by themselves."""
        kinds = Counter(type(rtcp.read_rtcp(data)) for data in self.wires[place][1].sent)
        return kinds[rtcp.Feedback]

    def exact(self, place: int) -> float:
        return self.tallies[place].marks["exact"] / self.tallies[place].shown


@needs_library
class TwoWayTest(unittest.TestCase):
    def test_messages_go_in_the_headers_of_pictures(self) -> None:
        """By themselves, too, where the next picture is more than 20 ms away: so by its phase nearly none, or all. Each
        comes once."""
        shares = []
        for apart in (0.0, 0.01, 0.02, 0.03):
            call = TwoWay(0.0, apart).run(10)
            for place in range(2):
                shares.append(call.said(place) / call.tallies[place].messages_out)
                self.assertEqual(call.exact(place), 1.0)
                coming = call.tallies[1 - place].messages_out - call.tallies[place].messages_in
                self.assertIn(coming, range(4))
        self.assertLess(min(shares), 0.05)
        self.assertLess(sum(shares) / len(shares), 0.6)

    def test_losses_cost_no_more(self) -> None:
        """With messages in headers at least as many pictures are exact as without."""
        exact = {}
        for is_old in (False, True):
            calls = [TwoWay(0.05, apart, (is_old, is_old)).run(20) for apart in (0.005, 0.02)]
            exact[is_old] = sum(call.exact(place) for call in calls for place in range(2)) / 4
        self.assertGreater(exact[False], 0.985)
        self.assertGreater(exact[False], exact[True] - 0.005)

    def test_a_party_that_reads_no_headers(self) -> None:
        """It gets each message by itself."""
        call = TwoWay(0.0, 0.01, (False, True)).run(10)
        for place in range(2):
            self.assertEqual(call.said(place), call.tallies[place].messages_out)
            self.assertEqual(call.exact(place), 1.0)

    def test_a_message_waits_no_longer_than_for_a_picture(self) -> None:
        """Where the camera pauses it goes by itself after 20 ms; four go in a header, and earlier ones by themselves."""
        clock: Any = Clock()
        sent: list[tuple[float, bytes]] = []
        out = header_messages.Outgoing(clock, lambda body: sent.append((clock.now(), body)), lambda: clock.now() + 0.01)
        out.say(b"a")
        self.assertEqual(sent, [(0.0, b"a")])
        out.is_read = True
        for body in (b"b", b"c", b"d", b"e", b"f"):
            out.say(body)
        self.assertEqual(out.take(), [b"c", b"d", b"e", b"f"])
        out.say(b"g")
        clock.run(1.0)
        self.assertEqual(sent[1:], [(0.02, b"b"), (0.02, b"g")])
        incoming = header_messages.Incoming()
        incoming.note(b"x")
        self.assertEqual(incoming.new([b"x", b"y"]) + incoming.new([b"y", b"z"]), [b"y", b"z"])


if __name__ == "__main__":
    unittest.main()
