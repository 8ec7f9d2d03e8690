"""Tests of streams that are forged by one who knows the other party's address and no more: in an outage each is tried,
at the number that its pictures say. Most run over the library's own ends in discrete time."""

import random
import re
import time
import types
from pathlib import Path
from typing import Any, Callable, Optional

import made_packets
from adapt_tests import Clock, SimulatedCall
from calltools import library
from calltools.network import rtp
from calltools.network.loop import Timer
from live_tests import Call, Calls, bound, free_port, needs_library, wait_for_port

# How many streams of three packets are forged a second.
RATES = {"once": 1 / 3.5, "three packets a second": 1, "by fives": 5, "by hundreds": 100}
# The outage, and when the first and the last one is forged.
OUTAGE, FORGED = (3.0, 7.0), (4.0, 7.5)
# They begin at this picture of a stream in the custom clock, with 1,024 numbers.
LATE = 1_021


class Counts:
    """The library, with what its receivers do counted."""

    def __init__(self) -> None:
        real = library.loaded()
        self.plays = self.started = self.open = self.most_open = 0
        counts = self

        class Receiver(real.Receiver):  # type: ignore[name-defined,misc]
            def __init__(self, *words: Any) -> None:
                super().__init__(*words)
                self.is_open = True
                counts.started += 1
                counts.open += 1
                counts.most_open = max(counts.most_open, counts.open)

            def play_lent(self) -> Any:
                counts.plays += 1
                return super().play_lent()

            def close(self) -> None:
                counts.open -= getattr(self, "is_open", False)
                self.is_open = False
                super().close()

        self.library: Any = types.SimpleNamespace(**{**vars(real), "Receiver": Receiver})


class CountingClock(Clock):
    """A clock that notes the most plays between two looks at the sockets, which are its calls."""

    def __init__(self, counts: Counts) -> None:
        super().__init__()
        self._counts, self.most = counts, 0

    def at(self, when: float, call: Callable[[], None]) -> Timer:
        def counted() -> None:
            before = self._counts.plays
            call()
            self.most = max(self.most, self._counts.plays - before)

        return super().at(when, counted)


_LATE: dict[bool, list[bytes]] = {}


def late_packets(is_whole: bool) -> list[bytes]:
    """Three packets of a stream under way, of pictures that are complete by themselves, or that want earlier ones."""
    if is_whole not in _LATE:
        module, picture, found = library.loaded(), bytes(range(96, 160)) * 594, []
        params = module.Params.of("qcif", clock=module.CLOCKS["custom"])
        with module.Sender(params) as sender, module.Receiver(params) as receiver:
            for number in range(LATE + 3):
                if is_whole and number >= LATE:
                    sender.forget()
                packets = sender.packets(sender.code(picture))
                found += packets if number >= LATE else []
                for message in [*(receiver.packet(packet).message for packet in packets), receiver.play().message]:
                    if message:
                        sender.feedback(message)
        _LATE[is_whole] = found
    return _LATE[is_whole]


class ForgedCall(SimulatedCall):
    """A call with an outage, in which streams come from the other party's address."""

    def __init__(self, streams: float, is_whole: bool = False, record: Optional[Path] = None) -> None:
        self.counts = Counts()
        self.time = CountingClock(self.counts)
        super().__init__(
            {0: 2_000}, target=1_800, time=self.time, library=self.counts.library, record=record, clock="custom"
        )
        self._draws, self._late = random.Random(9), late_packets(is_whole)
        for place in range(round((FORGED[1] - FORGED[0]) * streams)):
            self.clock.at(FORGED[0] + place / streams, self._forge)

    def _packet(self, data: bytes) -> None:
        if not OUTAGE[0] <= self.clock.now() < OUTAGE[1]:
            super()._packet(data)

    def _forge(self) -> None:
        source, sequence, stamp = (self._draws.getrandbits(bits) for bits in (32, 16, 32))
        for place, packet in enumerate(self._late):
            header = rtp.rtp_header(packet)
            assert header
            data = rtp.renumbered(packet, sequence + place, stamp + header.timestamp, source)
            self.clock.at(self.clock.now(), lambda data=data: self.receiving.packet(data))


def size_of(folder: Path) -> int:
    """The bytes of a folder's files."""
    return sum(path.stat().st_size for path in folder.iterdir())


@needs_library
class ForgedTest(Calls):
    def test_streams_that_are_tried_cost_nothing(self) -> None:
        """However many come in an outage: never more plays at once than are kept, three receivers at most, all pictures
        exact when it is over, and recorded is nothing but what was shown."""
        sizes = {}
        for is_whole in (False, True):
            for name, streams in {"none": 0, **RATES}.items():
                with self.subTest(streams=name, is_whole=is_whole):
                    folder = self.room / f"{name}{is_whole}"
                    call = ForgedCall(streams, is_whole, folder)
                    seen = call.run(10)
                    call.recorder.finish({})
                    self.assertLessEqual(call.time.most, 39)
                    self.assertLessEqual(call.counts.most_open, 3)
                    self.assertLessEqual(call.counts.started, 20)
                    self.assertEqual(seen.exact(OUTAGE[1] + 0.2), 1.0)
                    sizes[name, is_whole] = size_of(folder)
                    # Complete ones are followed, so what is shown of them is recorded.
                    self.assertLess(sizes[name, is_whole], (1.1 if is_whole else 1.001) * sizes["none", is_whole])
                    self.assertEqual(call.tally.begun_anew > 0, is_whole and streams > 0)

    def test_a_forged_stream_that_goes_on_gives_way(self) -> None:
        """One with complete pictures is followed in an outage, and no more once the true stream is there again."""
        call = ForgedCall(0)
        module, picture = call.counts.library, bytes(range(96, 160)) * 594
        with module.Sender(module.Params.of("qcif", clock=module.CLOCKS["custom"])) as sender:

            def forge() -> None:
                sender.forget()
                for packet in sender.packets(sender.code(picture)):
                    header = rtp.rtp_header(packet)
                    assert header
                    call.receiving.packet(rtp.renumbered(packet, header.sequence, header.timestamp, 8))

            for number in range(120):
                call.clock.at(FORGED[0] + 1.5 + number / 30, forge)
            call.run(OUTAGE[1] - 0.1)
            self.assertEqual(call.receiving.source, 8)
            call.run(OUTAGE[1] + 0.2)
            self.assertEqual(call.receiving.source, call.sending.source)
            seen = call.run(10)
        self.assertEqual(call.receiving.source, call.sending.source)
        self.assertEqual(seen.exact(OUTAGE[1] + 0.2), 1.0)

    def test_a_forged_stream_that_is_never_complete_is_no_bar(self) -> None:
        """The sender begins anew in an outage, with another SSRC, while such a stream comes from before until after it:
        its trial ends after a second, and the next one is the sender's."""
        call = ForgedCall(0)
        call.clock.at(5.0, call.sending._begin_anew)

        def forge(number: int) -> None:
            packet = rtp.renumbered(late_packets(False)[0], number, rtp.TICKS_A_PICTURE * number, 8)
            call.receiving.packet(packet)

        for number in range(180):
            call.clock.at(FORGED[0] + number / 30, lambda number=number: forge(number))
        call.run(OUTAGE[1])
        self.assertNotEqual(call.receiving.source, call.sending.source)
        seen = call.run(10)
        self.assertEqual(call.receiving.source, call.sending.source)
        self.assertEqual(seen.exact(OUTAGE[1] + 1.3), 1.0)

    def assert_late_streams_hold_nothing(self, packets: list[list[bytes]], late: list[bytes]) -> int:
        """Over sockets: four outages, in which such streams come once, by three packets a second, by fives and by
        hundreds, until a moment after each. A line is told each second; the memory stays, and what is recorded is what
        was shown; pictures are exact again soon after each. Answers how many runs were recorded."""
        port, other_port, folder = free_port(), free_port(), self.folder_in_memory()
        ends = ("--with", "127.0.0.1", "--port", port, "--other-port", other_port, "--one-way", "screen")
        call = Call([*ends, "--format", "sub-qcif", "--screen", "none", "--seconds", 12, "--record", folder])
        self.calls.append(call)
        other, draws, sent, memory = bound(other_port), random.Random(8), 0, []
        self.addCleanup(other.close)
        wait_for_port(port)
        began = time.monotonic()
        for count in range(30 + 4 * 75):
            outage, place = divmod(count - 30, 75)
            if outage < 0 or place >= 36:
                sent += 1
                for data in packets[count]:
                    header = rtp.rtp_header(data)
                    assert header
                    own = rtp.renumbered(data, header.sequence, rtp.TICKS_A_PICTURE * count, 7)
                    other.sendto(own, ("127.0.0.1", port))
            streams = 0.0
            if 18 <= place < 40 and outage >= 0:
                streams = (float(place == 18), float(place in (18, 38)), float(place % 6 == 0), 4.0)[outage]
            for _ in range(int(streams)):
                numbers = [draws.getrandbits(bits) for bits in (16, 32, 32)]
                for step, data in enumerate(late):
                    forged = rtp.renumbered(
                        data, numbers[0] + step, numbers[1] + rtp.TICKS_A_PICTURE * step, numbers[2]
                    )
                    other.sendto(forged, ("127.0.0.1", port))
            if count in (29, 329):
                status = Path(f"/proc/{call.process.pid}/status").read_text()
                memory.append(int(re.search(r"VmRSS:\s+(\d+)", status)[1]))  # type: ignore[index]
            time.sleep(max(0.0, began + (count + 1) / 30 - time.monotonic()))
        self.assertEqual(call.ended().status, 0, call.told)
        self.assertGreater(call.shown("exact"), sent - 4 * 6, call.told)
        seconds = [int(line.split()[0]) for line in call.told.splitlines() if re.match(r"\d+ s ", line)]
        self.assertEqual(seconds[:11], list(range(1, 12)), call.told)
        self.assertLess(memory[1] - memory[0], 8_000)
        # All pictures of the call are shown once; beside them there is what was shown of forged streams.
        self.assertLess(size_of(folder), (330 + 60) * 18_500 + 500_000)
        runs = self.assert_played_again(folder)["recv"]
        self.assertEqual([run["joined"] for run in runs], [0] + (len(runs) - 1) * [251])
        return len(runs)

    def test_late_streams(self) -> None:
        """Those that want earlier pictures, and those that are complete: these are followed, and what is recorded of them
        begins where they were joined."""
        packets = made_packets.stream("sub-qcif", 330)
        for is_whole in (False, True):
            late = sum(made_packets.stream("sub-qcif", 256, is_whole)[253:], [])
            runs = self.assert_late_streams_hold_nothing(packets, late)
            self.assertEqual(runs > 1, is_whole)
