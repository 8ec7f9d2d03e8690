"""Tests of what a network, and who is on it, does to a live call: over real sockets, in real time. Where this process may,
the call runs at real-time priority, so that no other one's work is taken for the network's."""

import contextlib
import json
import os
import shutil
import socket
import subprocess
import sys
import time
import unittest
from pathlib import Path
from typing import Callable

import made_packets
from adapt_tests import frames
from calltools import library, y4m
from calltools.network import repair, rtcp, rtp
from live_tests import Call, Calls, bound, free_port, needs_library, wait_for_port

# Within these words a program runs before all others.
FIRST = ["chrt", "-f", "1"] if os.geteuid() == 0 and shutil.which("chrt") else []
LOOPBACK = "127.0.0.1"
# Sends junk of so many bytes by a socket that it is given, to a port, so many a second, for so many seconds.
FLOOD = """
import socket, sys, time
net = socket.socket(fileno=int(sys.argv[1]))
port, size, rate, seconds = map(int, sys.argv[2:])
junk = bytes([0x80, 96]) + bytes(range(size - 2))
began, sent = time.monotonic(), 0
while (second := time.monotonic() - began) < seconds:
    while sent < second * rate:
        net.sendto(junk, ("127.0.0.1", port))
        sent += 1
    time.sleep(0.0005)
print(sent)
"""


@needs_library
class LiveNetworkTest(Calls):
    def test_what_is_sent_again_is_bounded(self) -> None:
        """However much is asked for, known or not: as much in each second as went out anew, and few are looked for."""
        repeating = repair.Repeating(library.loaded(), 1_500, 0.2)
        asked = [rtcp.Missing(1, 7, tuple((first + 17 * field, 0xFFFF) for field in range(16))) for first in (0, 9_000)]
        again, began = 0, time.process_time()
        for turn in range(20_000):
            now = turn / 10_000
            if turn % 200 == 0:
                repeating.sent(rtp.renumbered(bytes([0x80]) + bytes(999), turn // 200, 0, 7), now)
            again += sum(map(len, repeating.asked(asked[turn % 2], now)))
        self.assertLess(time.process_time() - began, 1.0)
        self.assertTrue(0 < again <= 2 * 51_000, again)
        repeating.close()

    def noisy(self, count: int) -> Path:
        """A video whose pictures have two packets at the usual target."""
        path, video = self.room / "noisy.y4m", frames()
        forth_and_back = [*video, *reversed(video)]
        with open(path, "wb") as file:
            file.write(y4m.head_bytes(y4m.Size(*y4m.FORMATS["qcif"])))
            for number in range(count):
                file.write(b"FRAME\n" + forth_and_back[number % len(forth_and_back)])
        return path

    def test_questions_cost_little(self) -> None:
        """From the other side's address 20,000 NACKs a second, each for 272 packets: pictures go out as before, and no
        more bytes again than anew."""
        port, other_port = free_port(), free_port()
        ends = ("--with", LOOPBACK, "--port", port, "--other-port", other_port, "--one-way", "camera")
        call = self.start(*ends, "--camera", self.noisy(240), "--target", 1_800, within=FIRST)
        media, control = bound(other_port), bound(other_port + 1)
        for net in (media, control):
            self.addCleanup(net.close)
        media.settimeout(20)
        first = rtp.rtp_header(media.recv(2_000))
        assert first
        media.setblocking(False)
        began, asked, newest, seen = time.monotonic(), 0, first.sequence, {first.sequence}
        sizes, pictures = {True: 0, False: 0}, 0
        while (second := time.monotonic() - began) < 6:
            with contextlib.suppress(BlockingIOError):
                while data := media.recv(2_000):
                    header = rtp.rtp_header(data)
                    assert header
                    sizes[header.sequence not in seen] += len(data)
                    if header.sequence in seen:
                        continue
                    newest = header.sequence
                    seen.add(newest)
                    if header.is_last:
                        said = bytes([0xC0 | pictures >> 5, (pictures & 31) << 3 | 4, pictures])
                        feedback = rtcp.Feedback(1, first.source, said)
                        control.sendto(rtcp.feedback_bytes(feedback), (LOOPBACK, port + 1))
                        pictures += 1
            while second > 1 and asked < 20_000 * (second - 1):
                fields = tuple(((newest - 17 * field) & 0xFFFF, 0xFFFF) for field in range(16))
                control.sendto(rtcp.missing_bytes(rtcp.Missing(1, first.source, fields)), (LOOPBACK, port + 1))
                asked += 1
            time.sleep(0.001)
        self.assertEqual(call.ended(60).status, 0, call.told)
        self.assertGreater(asked, 50_000)
        self.assertGreater(pictures, 165, call.told)
        self.assertTrue(0 < sizes[False] < sizes[True], sizes)

    def lossy(self, delay: int) -> Call:
        """A call of 30 s at 5 % of loss by chance, with a wait of 100 ms."""
        ends = ("--camera", self.noisy(900), "--screen", "none", "--target", 1_800)
        call = self.run_call(*ends, "--loss", 0.05, "--delay", delay, within=FIRST, seconds=60)
        self.assertEqual(call.status, 0, call.told)
        return call

    def test_what_is_lost_is_sent_again(self) -> None:
        """At a round trip of 50 ms: 99 of 100 pictures are exact."""
        call = self.lossy(25)
        self.assertGreaterEqual(call.shown("exact"), 0.99 * 900 if FIRST else 0.97 * 900, call.told)
        self.assertGreater(call.count("sent", "repair:"), 50, call.told)

    def test_a_round_trip_beyond_the_wait(self) -> None:
        """Hardly anything is asked for, and what is lost is lost."""
        call = self.lossy(60)
        self.assertIn(call.shown("exact"), range(740, 870), call.told)
        self.assertLess(call.count("asked for", "repair:"), 20, call.told)

    def beside(self, count: int, rate: int, delay: Callable[[int], float], during: Callable[..., None]) -> Call:
        """A screen of a call whose other party is the test: each of so many pictures, `rate` a second, comes after its
        delay. `during` is called at each with the number, the party's socket and the port."""
        port, other_port, packets = free_port(), free_port(), made_packets.stream("sub-qcif", count)
        ends = ("--with", LOOPBACK, "--port", port, "--other-port", other_port, "--one-way", "screen")
        words = ("--format", "sub-qcif", "--screen", "none", "--rate", rate, "--record", self.room / "call")
        call = self.start(*ends, *words, "--seconds", count / rate + 2, within=FIRST)
        other = bound(other_port)
        self.addCleanup(other.close)
        wait_for_port(port)
        began = time.monotonic()
        for number in range(count):
            time.sleep(max(0.0, began + number / rate + delay(number) - time.monotonic()))
            for packet in packets[number]:
                data = rtp.renumbered(packet, number, round(number * rtp.CLOCK / rate), 7)
                other.sendto(data, (LOOPBACK, port))
            during(number, other, port)
        return call.ended(60)

    def marks(self) -> list[str]:
        """How the pictures of the recorded call were shown."""
        (run,) = json.loads((self.room / "call" / "call.json").read_text())["recv"]
        lines = (self.room / "call" / run["report"]).read_text().splitlines()
        return [line.split()[1] for line in lines[:-1]]

    def test_junk_costs_a_count(self) -> None:
        """Twelve bytes, 50,000 times a second for six seconds, from the other side's address."""
        flood: list["subprocess.Popen[str]"] = []

        def begin(number: int, other: socket.socket, port: int) -> None:
            if number == 60:
                words = list(map(str, [*FIRST, sys.executable, "-c", FLOOD, other.fileno(), port, 12, 50_000, 6]))
                begun = subprocess.Popen(words, stdout=subprocess.PIPE, text=True, pass_fds=[other.fileno()])
                flood.append(begun)

        call = self.beside(300, 30, lambda _: 0.0, begin)
        sent = int(flood[0].communicate()[0])
        self.assertGreater(sent, 200_000)
        self.assertGreaterEqual(call.shown("exact"), 285, call.told)
        self.assertGreater(call.dropped("malformed"), 0.95 * sent, call.told)

    def test_a_strangers_stream_takes_no_screen(self) -> None:
        """One of complete pictures comes beside the other side's own, from its address, ten times as fast."""
        forged = [packet for (packet,) in made_packets.stream("sub-qcif", 256)]

        def forge(number: int, other: socket.socket, port: int) -> None:
            for place in range(10 * (number > 20)):
                count = 10 * number + place
                data = rtp.renumbered(forged[count % 256], count, 300 * count, 8)
                other.sendto(data, (LOOPBACK, port))

        call = self.beside(240, 30, lambda _: 0.0, forge)
        self.assertEqual((call.shown("exact"), call.shown("shown")), (240, 240), call.told)
        self.assertEqual((call.count("anew", "dropped"), call.dropped("other source")), (0, 2_190), call.told)
        self.assertEqual(call.told.count("two streams come from the other side's address"), 1, call.told)

    def test_a_way_that_gets_longer_freezes_no_call(self) -> None:
        """From 30 to 250 ms, at five pictures a second: two seconds later all are exact."""
        call = self.beside(60, 5, lambda number: 0.03 if number < 20 else 0.25, lambda *_: None)
        marks = self.marks()
        self.assertEqual(len(marks), 60, call.told)
        self.assertEqual(marks[:20] + marks[30:], 50 * ["exact"], marks)


if __name__ == "__main__":
    unittest.main()
