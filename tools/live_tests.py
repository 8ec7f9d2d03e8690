"""Tests of the live call: its parts by themselves, and calls of a few seconds over loopback."""

import functools
import http.client
import json
import os
import random
import re
import resource
import shutil
import signal
import socket
import subprocess
import sys
import tempfile
import time
import unittest
from collections import Counter
from fractions import Fraction
from pathlib import Path
from typing import Any, Callable, Sequence
from unittest import mock

import made_packets
from calltools import errors, library
from calltools.live import settings
from calltools.network import bad_network, loop, messages, pipes
from calltools.recording import logs
from calltools import program, y4m
from calltools.live import y4m_pipe
from calltools.network import picture_start, reports, rtcp, rtp, udp

TOOLS = Path(__file__).resolve().parent
EXAMPLES = TOOLS.parent / "examples"
# The proved program, where the gate left it; another one may be named.
PROGRAM = Path(os.environ.get("H263RPS_PROGRAM", program.OWN))
HAS_PROGRAM = os.access(PROGRAM, os.X_OK)
needs_ffmpeg = unittest.skipUnless(shutil.which("ffmpeg"), "ffmpeg isn't there")
# The library, where make -C library left it; another one may be named.
LIBRARY = Path(os.environ.get("H263RPS_LIBRARY", TOOLS.parent / "library" / "build" / "libh263rps.so"))
needs_library = unittest.skipUnless(LIBRARY.exists(), "the library isn't built: make -C library does it")


def example_packets() -> list[bytes]:
    with open(EXAMPLES / "recv.log", "rb") as file:
        return [entry.body for entry in logs.read_log(file, "recv.log") if entry.letter == logs.PACKET]


def wait(turns: loop.Loop, seconds: float) -> None:
    """Lets a loop go on for a while."""
    until = turns.now() + seconds
    turns.at(until, lambda: None)
    turns.run(lambda: turns.now() >= until)


class PartsTest(unittest.TestCase):
    def test_messages_and_what_is_missing_go_as_feedback(self) -> None:
        for body in (bytes([0xC0, 0x0C, 0x01]), bytes([0xE0, 0x0C, 0x01, 0x80, 0x80])):
            said = rtcp.Feedback(1, 2, body)
            data = rtcp.feedback_bytes(said)
            self.assertEqual(len(data) % 4, 0)
            self.assertEqual(rtcp.read_rtcp(data), said)
            for cut in range(len(data)):
                self.assertIsNone(rtcp.read_rtcp(data[:cut]))
        self.assertEqual(
            rtcp.feedback_bytes(rtcp.Feedback(1, 2, bytes(3))).hex(), "83ce0004000000010000000218600000000000" + "00"
        )
        self.assertEqual(rtcp.read_rtcp(rtcp.bye_bytes(7)), rtcp.Bye(7))
        missing = rtcp.Missing(1, 2, ((65_535, 1), (7, 0x8000)))
        data = rtcp.missing_bytes(missing)
        self.assertEqual(data.hex(), "81cd0004" "00000001" "00000002" "ffff0001" "00078000")
        self.assertEqual((rtcp.read_rtcp(data), list(missing.sequences())), (missing, [65_535, 0, 7, 23]))
        draws = random.Random(1)
        for _ in range(2_000):
            rtcp.read_rtcp(draws.randbytes(draws.randrange(40)))
        self.assertEqual(messages.read_message(bytes([0xC0, 0x2C, 0x05])), messages.Message(True, 5))

    def test_each_packet_tells_its_picture(self) -> None:
        found = {(start := picture_start.picture_start(packet)) and start.reference for packet in example_packets()}
        self.assertEqual(found, {0, 1, 2, 3, 4, 7, 8, 9, 12, 13, 14, 15})
        packet = example_packets()[0]
        start = picture_start.picture_start(packet)
        self.assertEqual((start.format, start.clock, start.period), ("sub-qcif", "standard", 256))
        for bad in (
            packet[:20],
            b"\0" + packet[1:],
            packet[:1] + b"\x61" + packet[2:],
            packet[:12] + b"\0" + packet[13:],
            packet[:14] + bytes(60),
        ):
            self.assertIsNone(picture_start.picture_start(bad))
        draws = random.Random(2)
        for _ in range(5_000):
            data = bytearray(packet[: draws.randrange(len(packet))])
            for _ in range(min(len(data), 3)):
                data[draws.randrange(len(data))] = draws.randrange(256)
            picture_start.picture_start(bytes(data))

    def test_padding_and_extensions_are_no_payload(self) -> None:
        packet = example_packets()[0]
        padded = bytes([packet[0] | 0x20]) + packet[1:] + bytes([0, 0, 3])
        extended = bytes([packet[0] | 0x11]) + packet[1:12] + bytes(4) + bytes([0, 0, 0, 1]) + bytes(4) + packet[12:]
        for other in (padded, extended):
            self.assertEqual(rtp.payload_of(other), packet[12:])
        self.assertIsNone(rtp.payload_of(bytes([0xA0]) + packet[1:] + b"\0"))
        self.assertIsNone(rtp.payload_of(bytes([0x8F]) + packet[1:40]))

    def test_an_interrupted_tool_ends_without_a_word(self) -> None:
        code = (
            "import signal, sys; from calltools import errors; errors.run(lambda _: signal.raise_signal(signal.SIGINT))"
        )
        # A test that runs in the background ignores SIGINT, and so would what it starts.
        usual = functools.partial(signal.signal, signal.SIGINT, signal.SIG_DFL)
        run = subprocess.run([sys.executable, "-c", code], cwd=TOOLS, capture_output=True, preexec_fn=usual)
        self.assertEqual((run.returncode, run.stdout, run.stderr), (130, b"", b""))

    def test_lead_and_slots_hold_the_wait(self) -> None:
        rate = y4m.RATE
        self.assertEqual([settings.lead_for(wait, rate, None) for wait in (0, 0.1, 0.101, 1.9)], [3, 6, 7, 60])
        self.assertEqual([settings.slots_for(lead, None) for lead in (3, 6, 31, 60)], [36, 39, 64, 64])
        self.assertEqual(settings.lead_for(0.1, rate, 4), 4)
        refused: list[tuple[Callable[[], int], str]] = [
            (lambda: settings.lead_for(0.1, rate, 3), "--lead: 3: it can't hold --wait 100, for which 4 is the least"),
            (lambda: settings.lead_for(2.01, rate, None), "--wait: 2010 ms: 2002 is the most"),
            (lambda: settings.slots_for(6, 7), "--slots: 7: they can't hold a lead of 6, for which 8 is the least"),
        ]
        for call, told in refused:
            with self.assertRaises(errors.BadInput) as caught:
                call()
            self.assertEqual(str(caught.exception), told)

    def test_pipes_are_wide_and_never_waited_for(self) -> None:
        turns = loop.Loop()
        read, write = os.pipe()
        pipes.widen(read)
        data = random.Random(3).randbytes(3 << 20)
        feed = pipes.Feed(turns, write, lambda: None)
        feed.put(data)
        self.assertGreater(feed.waiting, 0)
        self.assertGreaterEqual(len(data) - feed.waiting, 1 << 20)
        feed.end()
        came, ended = [], []
        pipes.Source(turns, read, came.append, lambda: ended.append(True))
        turns.run(lambda: bool(ended))
        self.assertEqual(b"".join(came), data)

    def test_a_closed_pipe_is_told(self) -> None:
        turns, broken = loop.Loop(), []
        read, write = os.pipe()
        feed = pipes.Feed(turns, write, lambda: broken.append(True))
        os.close(read)
        feed.put(b"x")
        self.assertEqual((broken, feed.is_closed), ([True], True))

    def test_video_is_cut_out_of_a_pipe(self) -> None:
        video = (EXAMPLES / "video.y4m").read_bytes()
        cutter = y4m_pipe.FrameCutter("camera")
        found = [frame for at in range(0, len(video), 1_000) for frame in cutter.frames(video[at : at + 1_000])]
        with open(EXAMPLES / "video.y4m", "rb") as file:
            self.assertEqual(found, list(y4m.Y4mReader(file, "video")))
        for bad in (b"RIFF\n", b"Y" * 256, y4m.head_bytes(y4m.Size(16, 16)) + b"FRAM\n"):
            with self.assertRaises(errors.BadInput):
                list(y4m_pipe.FrameCutter("camera").frames(bad))

    def test_a_bad_link(self) -> None:
        turns = loop.Loop()
        came: list[bytes] = []
        network = bad_network.BadNetwork(delay=0.01, jitter=0.03, duplicate=0.3, outage=(0.05, 0.05), loss=0.1, burst=2)
        link = bad_network.BadLink(turns, network, "link", came.append)
        sent = [bytes([number]) for number in range(100)]
        began = turns.now()
        for number, data in enumerate(sent):
            turns.at(began + number / 500, lambda data=data: link.take(data))
        wait(turns, 0.5)
        self.assertEqual((link.came, len(came)), (100, 100 - link.lost + link.twice))
        self.assertNotEqual(came, sorted(came))
        self.assertTrue(20 <= link.lost <= 60 and link.twice)

    def test_a_narrow_line(self) -> None:
        turns = loop.Loop()
        came: list[float] = []
        link = bad_network.BadLink(turns, bad_network.BadNetwork(kbits=100), "link", lambda _: came.append(turns.now()))
        began = turns.now()
        for _ in range(60):
            link.take(bytes(97))  # with its heads 125 bytes: 10 ms
        wait(turns, 0.7)
        self.assertTrue(49 <= len(came) <= 52, len(came))
        self.assertAlmostEqual(came[9] - began, 0.1, delta=0.03)

    def test_strangers_are_kept_apart(self) -> None:
        turns = loop.Loop()
        one, other, stranger = (udp.Channel(turns, ("127.0.0.1", 0)) for _ in range(3))
        one.connect(other.address)
        other.connect(one.address)
        stranger.connect(one.address)
        came: list[bytes] = []
        one.on_datagram = came.append
        for _ in range(5):
            stranger.send(b"strange")
            other.send(b"good")
        wait(turns, 0.1)
        self.assertEqual((came, one.strangers), ([b"good"] * 5, 5))
        with self.assertRaises(errors.BadInput) as caught:
            udp.Channel(turns, one.address)
        self.assertEqual(str(caught.exception), f"127.0.0.1: port {one.address[1]}: it is taken")
        with mock.patch.object(udp, "MOST_BYTES", 3):
            other.send(b"long")
            wait(turns, 0.1)
        self.assertEqual((len(came), one.long), (5, 1))
        for channel in (one, other, stranger):
            channel.close()


def bound(port: int) -> socket.socket:
    """A socket of a loopback port, or of any with 0."""
    net = socket.socket(socket.AF_INET, socket.SOCK_DGRAM)
    net.bind(("127.0.0.1", port))
    return net


def free_port() -> int:
    """A port that is free, as the next one is."""
    while True:
        with bound(0) as net:
            port = net.getsockname()[1]
            try:
                bound(port + 1).close()
                return port
            except (OSError, OverflowError):
                continue


def flood(port: int, seconds: float, rate: int) -> int:
    """Sends datagrams of random bytes to a port and the next one. Answers how many."""
    net, draws = bound(0), random.Random(4)
    began, sent = time.monotonic(), 0
    while (second := time.monotonic() - began) < seconds:
        while sent < second * rate:
            net.sendto(draws.randbytes(draws.randrange(200)), ("127.0.0.1", port + sent % 2))
            sent += 1
        time.sleep(0.001)
    net.close()
    return sent


def mutated(draws: random.Random, data: bytes) -> bytes:
    """Some bytes changed, but not the SSRC, and now and then the end cut."""
    changed = bytearray(data)
    for _ in range(draws.randrange(4)):
        at = draws.choice([0, 1, 2, 3, 4, 5, 6, 7, *range(12, min(len(data), 40))])
        changed[at] = draws.randrange(256)
    return bytes(changed[: draws.choice([len(data), len(data), draws.randrange(len(data))])])


def wait_for_port(port: int) -> None:
    """Until a call has this port."""
    until = time.monotonic() + 20
    while f":{port:04X} " not in Path("/proc/net/udp").read_text() and time.monotonic() < until:
        time.sleep(0.02)
    time.sleep(0.2)


def joined_hosts(names: list[str], at_end: Callable[..., Any]) -> bool:
    """Two network namespaces with 192.0.2.6 and 192.0.2.7; whether that could be had."""
    ways = [f"h2{os.getpid()}{letter}" for letter in "ab"]
    lines = [f"netns add {name}" for name in names]
    lines.append(f"link add {ways[0]} netns {names[0]} type veth peer name {ways[1]} netns {names[1]}")
    for name, way, host in zip(names, ways, (6, 7)):
        lines.append(f"-n {name} addr add 192.0.2.{host}/24 dev {way}")
        lines.append(f"-n {name} link set {way} up")
        at_end(subprocess.run, ["ip", "netns", "del", name], stderr=subprocess.DEVNULL)
    return all(not subprocess.run(["ip", *line.split()], stderr=subprocess.DEVNULL).returncode for line in lines)


class Call:
    """A running live_call: the words of one party, and what came of it."""

    def __init__(
        self,
        words: list[object],
        within: Sequence[str] = (),
        given: Any = subprocess.DEVNULL,
        out: Any = subprocess.PIPE,
        **more: Any,
    ) -> None:
        told = [*within, sys.executable, *(str(word) for word in (TOOLS / "live_call", *words))]
        pipes = {"stdin": given, "stdout": out, "stderr": subprocess.PIPE}
        self.process = subprocess.Popen(told, **pipes, **more)
        self.out, self.told, self.status = b"", "", -1

    def ended(self, seconds: float = 30) -> "Call":
        """Waits for its end."""
        try:
            self.out, told = self.process.communicate(timeout=seconds)
        except subprocess.TimeoutExpired:
            self.process.kill()
            raise
        self.told, self.status = told.decode(), self.process.returncode
        return self

    def interrupt(self) -> "Call":
        self.process.send_signal(signal.SIGINT)
        return self

    def count(self, word: str, line: str) -> int:
        """A count of the last line that begins so."""
        row = [row for row in self.told.splitlines() if row.startswith(line)][-1]
        found = re.search(rf"(?:^| ){word} (\d+)", row)
        return int(found[1]) if found else 0

    def shown(self, word: str) -> int:
        return self.count(word, "shown")

    def dropped(self, cause: str) -> int:
        return self.count(cause, "dropped")


class Calls(unittest.TestCase):
    """Tests that make live calls."""

    def setUp(self) -> None:
        room = tempfile.TemporaryDirectory()
        self.addCleanup(room.cleanup)
        self.room = Path(room.name)
        self.calls: list[Call] = []
        self.addCleanup(lambda: [call.process.kill() for call in self.calls if call.process.poll() is None])

    def folder_in_memory(self) -> Path:
        """A folder to record into where no other process's writes to the disk are waited for."""
        memory = "/dev/shm" if os.access("/dev/shm", os.W_OK) else None
        room = tempfile.TemporaryDirectory(dir=memory)
        self.addCleanup(room.cleanup)
        return Path(room.name) / "call"

    def start(self, *words: object, **more: Any) -> Call:
        call = Call([*words, "--quiet"], **more)
        self.calls.append(call)
        return call

    def run_call(self, *words: object, seconds: float = 30, **more: Any) -> Call:
        return self.start("--port", free_port(), *words, **more).ended(seconds)

    def video(self, frames: int, format: str = "sub-qcif") -> Path:
        path = self.room / f"{format}-{frames}.y4m"
        words = [TOOLS / "make_video", path, "--frames", frames, "--format", format]
        subprocess.run(list(map(str, words)), check=True)
        return path

    def assert_played_again(self, folder: Path, *, is_sent: bool = True) -> dict[str, Any]:
        """Both ends write the same bytes over the recorded logs: the library's, and those of the program where there is
        one. Answers what was recorded. What followed the line, or had messages in its pictures, isn't sent again."""
        facts = json.loads((folder / "call.json").read_text())
        for run in facts["send"] if is_sent else []:
            self.assertEqual(sent_again(folder, run, facts), of_run(folder, run, ("wire", "report")))
            if HAS_PROGRAM:
                self.assert_sent_by_program(folder, run)
        for run in facts["recv"]:
            self.assertEqual(shown_again(folder, run, facts), of_run(folder, run, ("video", "wire", "report")))
            if HAS_PROGRAM:
                self.assert_shown_by_program(folder, run, facts["format"])
        return facts

    def assert_sent_by_program(self, folder: Path, run: dict[str, Any]) -> None:
        again = self.room / "again"
        words = [PROGRAM, "send", folder / run["video"], folder / run["log"], again, *run["options"]]
        told = subprocess.run(words, capture_output=True).stdout
        self.assertEqual([again.read_bytes(), told], of_run(folder, run, ("wire", "report")))

    def assert_shown_by_program(self, folder: Path, run: dict[str, Any], format: str) -> None:
        out, log, again, joined = self.room / "out", self.room / "log", self.room / "again", run["joined"]
        log.write_bytes(joined * logs.entry_bytes(logs.PLAY) + (folder / run["log"]).read_bytes())
        told = subprocess.run([PROGRAM, "recv", log, out, again, *run["options"]], capture_output=True).stdout
        with again.open("rb") as wire:
            said = [logs.entry_bytes(it.letter, it.body) for it in logs.read_log(wire, "again")]
        before = out.read_bytes()
        # The program's head tells another rate.
        frame = len(b"FRAME XHELD\n") + y4m.Size(*y4m.FORMATS[format]).bytes
        shown = before.split(b"\n", 1)[1][joined * frame :]
        found = [shown, b"".join(said[joined:]), told.split(b"\n", joined)[joined]]
        video, *others = of_run(folder, run, ("video", "wire", "report"))
        self.assertEqual(found, [video.split(b"\n", 1)[1], *others])


def of_run(folder: Path, run: dict[str, Any], keys: Sequence[str]) -> list[bytes]:
    """The files of a recorded run."""
    return [(folder / run[key]).read_bytes() for key in keys]


def params_of(run: dict[str, Any], format: str) -> Any:
    """The parameters that a run's options say."""
    found = dict(option.lstrip("-").split("=") for option in run["options"])
    clock = library.loaded().CLOCKS[found.pop("clock")]
    found.pop("format", None)
    numbers = {name: int(value) for name, value in found.items()}
    return library.loaded().Params.of(format, clock=clock, pace=library.loaded().PACES["follows"], **numbers)


def entries_of(folder: Path, run: dict[str, Any]) -> list[logs.Entry]:
    with open(folder / run["log"], "rb") as file:
        return list(logs.read_log(file, run["log"]))


def counted(counts: "Counter[str]", words: str) -> bytes:
    """The last line of a report."""
    return (" ".join(f"{word} {counts[word]}" for word in words.split()) + "\n").encode()


def sent_again(folder: Path, run: dict[str, Any], facts: dict[str, Any]) -> list[bytes]:
    """What the library's sender writes over a recorded run, and its report."""
    wire, report, counts = b"", b"", Counter[str]()
    with open(folder / run["video"], "rb") as video:
        frames = iter(list(y4m.Y4mReader(video, run["video"])))
    with library.loaded().Sender(params_of(run, facts["format"])) as sender:
        for entry in entries_of(folder, run):
            if entry.letter == logs.MESSAGE:
                noted = sender.feedback(entry.body).kind
                counts["refused" if noted == "no message" else noted] += 1
                continue
            coded = sender.code(next(frames).samples)
            wire += b"".join(logs.entry_bytes(logs.PACKET, packet) for packet in sender.packets(coded))
            source = "intra" if coded.reference is None else f"from {coded.reference}"
            report += f"{coded.number} {source}\n".encode()
            counts.update(sent=1, packets=coded.packets)
    return [wire, report + counted(counts, "sent packets noted old refused")]


def shown_again(folder: Path, run: dict[str, Any], facts: dict[str, Any]) -> list[bytes]:
    """What the library's receiver shows and says over a recorded run, and its report."""
    size = y4m.Size(*y4m.FORMATS[facts["format"]])
    video, wire, report = [y4m.head_bytes(size, Fraction(facts["rate"]))], b"", b""
    counts = Counter(played=run["joined"], held=run["joined"])
    with library.loaded().Receiver(params_of(run, facts["format"]), run["joined"]) as receiver:
        for entry in entries_of(folder, run):
            if entry.letter == logs.PLAY:
                told = receiver.play()
                video.append(f"FRAME X{told.mark.upper()}\n".encode() + told.picture)
                report += f"{counts['played']} {told.mark}\n".encode()
                counts.update(("played", told.mark))
            else:
                told = receiver.packet(entry.body)
                counts["taken" if told.kind == "completed" else told.kind] += 1
            wire += logs.entry_bytes(logs.MESSAGE, told.message) if told.message else b""
    words = "played exact patched held taken late early repeat refused"
    return [b"".join(video), wire, report + counted(counts, words)]


@needs_library
class CallsTest(Calls):
    def test_a_call_alone(self) -> None:
        """Losses in bursts, reordering, duplicates and a second without anything."""
        video, out, folder = self.video(120, "qcif"), self.room / "out.y4m", self.room / "call"
        bad = ("--loss", 0.05, "--burst", 2, "--delay", 30, "--jitter", 30, "--duplicate", 0.05, "--outage", "1.5:1")
        ends = ("--camera", video, "--screen", out, "--target", 1_800, "--record", folder)
        call = self.run_call(*ends, *bad)
        self.assertEqual((call.status, call.count("sent", "sent")), (0, 120), call.told)
        self.assertGreater(call.shown("exact"), 60)
        self.assertGreater(call.shown("held"), 20)
        facts = self.assert_played_again(folder)
        self.assertEqual((facts["party"], facts["counts"]["captured"]), ("alone", 120))
        self.assertEqual((folder / "captured.y4m").read_bytes(), video.read_bytes())
        self.assertEqual(out.read_bytes(), (folder / "shown.y4m").read_bytes())
        told = subprocess.run([TOOLS / "times_of_call", folder], capture_output=True, text=True, check=True).stdout
        self.assertRegex(told, r"after 1\.\d+ s of silence: picture \d+ exact")

    def test_a_clean_call_is_exact(self) -> None:
        for clock, version, format in (("standard", 1, "qcif"), ("custom", 2, "cif")):
            video, folder = self.video(45, format), self.room / format
            ends = ("--format", format, "--clock", clock, "--messages", version, "--camera", video, "--target", 6_000)
            call = self.run_call(*ends, "--screen", "none", "--record", folder)
            self.assertEqual((call.status, call.shown("exact"), call.shown("held")), (0, 45, 0), call.told)
            self.assert_played_again(folder)

    @needs_ffmpeg
    def test_ffmpeg_is_camera_and_screen(self) -> None:
        screen = self.room / "out.mp4"
        call = self.run_call("--camera", "test", "--screen", screen, "--seconds", 3)
        self.assertEqual(call.status, 0, call.told)
        frames = call.shown("exact")
        self.assertGreater(frames, 20)
        call = self.run_call("--camera", screen, "--screen", "none")
        self.assertEqual(call.status, 0, call.told)
        self.assertGreater(call.shown("exact"), frames / 2)
        words = ["ffprobe", "-v", "error", "-show_entries", "stream=width,height", "-of", "csv=p=0", str(screen)]
        self.assertEqual(subprocess.run(words, capture_output=True, text=True).stdout.strip(), "176,144")

    def test_without_ffmpeg(self) -> None:
        video = self.video(2)
        for words in (("--camera", "test"), ("--camera", video), ("--camera", video, "--screen", "out.mkv")):
            call = self.run_call(
                "--format",
                "sub-qcif",
                *words,
                env={"PATH": str(self.room), "DISPLAY": ":0", "H263RPS_LIBRARY": str(LIBRARY)},
            )
            told = r"^ff(mpeg|play): not on this machine: so --(camera|screen) takes a Y4M file.*\n$"
            self.assertEqual(call.status, 1)
            self.assertRegex(call.told, told)

    def test_a_call_to_another_party(self) -> None:
        """Both ways; one party is interrupted, and both finish."""
        port = free_port()
        ends = ("--port", port, "--camera", self.video(600), "--format", "sub-qcif", "--rate", 15)
        parties = []
        for own, other in (("127.0.0.1", "127.0.0.2"), ("127.0.0.2", "127.0.0.1")):
            words = ("--at", own, "--with", other, "--screen", self.room / f"{own}.y4m", "--record", self.room / own)
            parties.append(self.start(*ends, *words))
        reports = [self.room / own / "recv.txt" for own in ("127.0.0.1", "127.0.0.2")]
        until = time.monotonic() + 30
        while time.monotonic() < until and not all(
            path.exists() and path.read_text().count("exact") > 15 for path in reports
        ):
            time.sleep(0.1)
        parties[0].interrupt()
        for call, own in zip(parties, ("127.0.0.1", "127.0.0.2")):
            call.ended()
            self.assertEqual(call.status, 0, call.told)
            self.assertGreater(call.shown("exact"), 15, call.told)
            # Messages go in the headers of pictures, so these aren't sent again.
            self.assert_played_again(self.room / own, is_sent=False)
            with (self.room / f"{own}.y4m").open("rb") as video:
                self.assertIn(b" F15:1 ", video.readline())

    @unittest.skipUnless(os.geteuid() == 0 and shutil.which("ip"), "not root, or ip isn't there")
    def test_a_call_between_two_hosts(self) -> None:
        """Each in a network namespace of its own, with a pair of links between them."""
        names = [f"h263rps{os.getpid()}{letter}" for letter in "ab"]
        if not joined_hosts(names, self.addCleanup):
            self.skipTest("no network namespaces here")
        video = self.video(60, "qcif")
        parties = []
        for name, own, other in ((names[0], 6, 7), (names[1], 7, 6)):
            words = ("--at", f"192.0.2.{own}", "--with", f"192.0.2.{other}", "--camera", video, "--screen", "none")
            parties.append(self.start(*words, within=["ip", "netns", "exec", name]))
        for call in parties:
            self.assertEqual(call.ended().status, 0, call.told)
            self.assertGreater(call.shown("exact"), 40, call.told)

    def test_one_way_and_joining_late(self) -> None:
        """The screen's party comes when the stream is at picture 300 or so, after a wrap."""
        port = free_port()
        ends = ("--port", port, "--format", "sub-qcif", "--rate", 120, "--wait", 50)
        camera = self.start(
            *ends, "--at", "127.0.0.1", "--with", "127.0.0.2", "--one-way", "camera", "--camera", self.video(600)
        )
        time.sleep(2.5)
        folder = self.room / "call"
        screen = self.start(
            *ends,
            "--at",
            "127.0.0.2",
            "--with",
            "127.0.0.1",
            "--one-way",
            "screen",
            "--screen",
            self.room / "out.y4m",
            "--record",
            folder,
        )
        self.assertEqual([call.ended().status for call in (camera, screen)], [0, 0], screen.told)
        self.assertEqual(camera.count("sent", "sent"), 600)
        run = self.assert_played_again(folder)["recv"][0]
        self.assertEqual(run["joined"], max(0, run["first"] - 2))
        self.assertGreater(screen.shown("exact"), 100)
        self.assertLessEqual(screen.shown("held"), 12)
        shown = (self.room / "out.y4m").read_bytes().count(b"FRAME X")
        self.assertEqual(shown, screen.shown("shown"))

    def test_a_run_is_full(self) -> None:
        """That is told before it comes, and the ends begin anew."""
        ends = ("--format", "sub-qcif", "--camera", self.video(90), "--screen", "none", "--most-pictures", 40)
        call = self.run_call(*ends)
        self.assertEqual((call.status, call.count("sent", "sent")), (0, 90), call.told)
        self.assertIn("in 1 s, after 40 pictures, the sending end begins anew\n", call.told)
        self.assertGreater(call.shown("exact"), 50, call.told)

    def test_strangers_and_bad_datagrams_count_and_do_no_harm(self) -> None:
        """The test is the other party: what it sends of another SSRC or malformed is dropped; what it should send is
        shown."""
        port, other_port = free_port(), free_port()
        ends = ("--with", "127.0.0.1", "--port", port, "--other-port", other_port, "--one-way", "screen")
        call = self.start(*ends, "--format", "sub-qcif", "--screen", "none", "--seconds", 7)
        other, control = bound(other_port), bound(other_port + 1)
        stranger = bound(0)
        wait_for_port(port)
        packets = example_packets()
        for number, packet in enumerate(packets):
            other.sendto(packet, ("127.0.0.1", port))
            other.sendto(packet[:8] + b"othr" + packet[12:], ("127.0.0.1", port))
            other.sendto(packet[:20], ("127.0.0.1", port))
            stranger.sendto(packet, ("127.0.0.1", port))
            control.sendto(bytes(9), ("127.0.0.1", port + 1))
            control.sendto(rtcp.feedback_bytes(rtcp.Feedback(1, 2, bytes(3))), ("127.0.0.1", port + 1))
            control.sendto(rtcp.bye_bytes(5), ("127.0.0.1", port + 1))
        time.sleep(2.5)  # then another stream is followed, and the first one isn't any more
        for packet in packets:
            other.sendto(packet[:8] + b"next" + packet[12:], ("127.0.0.1", port))
        self.assertEqual(call.ended().status, 0, call.told)
        count = len(packets)
        self.assertEqual((call.shown("packets"), call.count("anew", "dropped")), (2 * count, 1), call.told)
        wanted = {"malformed": 2 * count, "of strangers": count, "not asked for": count}
        self.assertEqual({cause: call.dropped(cause) for cause in wanted}, wanted, call.told)
        # A BYE that is read before a stream is followed is of nobody.
        self.assertIn(call.dropped("other source"), range(2 * count - 4, 2 * count + 1), call.told)
        for net in (other, control, stranger):
            net.close()

    def test_mutated_datagrams_do_no_harm(self) -> None:
        """From the other party's address, with the right SSRC, to a screen and to a camera: then a stream is shown."""
        port, other_port = free_port(), free_port()
        ends = ("--with", "127.0.0.1", "--port", port, "--other-port", other_port, "--seconds", 7)
        words = ("--format", "sub-qcif", "--camera", self.video(600), "--screen", "none")
        call = self.start(*ends, *words)
        other, control = bound(other_port), bound(other_port + 1)
        wait_for_port(port)
        source = rtp.rtp_header(other.recv(2_000)).source
        draws, packets = random.Random(5), example_packets()
        messages = [rtcp.feedback_bytes(rtcp.Feedback(1, source, bytes([0xC0, number, 4]))) for number in range(8)]
        for number in range(4_000):
            other.sendto(mutated(draws, packets[number % len(packets)]), ("127.0.0.1", port))
            control.sendto(mutated(draws, draws.choice(messages)), ("127.0.0.1", port + 1))
            if number % 20 == 0:
                time.sleep(0.01)
        for number in range(60):
            packet = rtp.renumbered(made_packets.packet(number), number, rtp.TICKS_A_PICTURE * number, 7)
            other.sendto(packet, ("127.0.0.1", port))
            time.sleep(1 / 30)
        self.assertEqual(call.ended().status, 0, call.told)
        self.assertNotIn("Traceback", call.told)
        self.assertGreater(call.shown("exact"), 20, call.told)
        self.assertGreater(call.count("messages in", "sent"), 1_000, call.told)
        self.assertGreater(call.dropped("malformed"), 100, call.told)
        for net in (other, control):
            net.close()

    def start_screen(self, seconds: float) -> tuple[Call, socket.socket, int]:
        """A call with a screen alone, whose other party is the test: the call, that party's socket and the port."""
        port, other_port = free_port(), free_port()
        ends = ("--with", "127.0.0.1", "--port", port, "--other-port", other_port, "--one-way", "screen")
        call = self.start(*ends, "--format", "sub-qcif", "--screen", "none", "--seconds", seconds)
        other = bound(other_port)
        self.addCleanup(other.close)
        wait_for_port(port)
        return call, other, port

    def test_forged_streams_hold_nothing(self) -> None:
        """From the other party's address, by one who doesn't know the SSRC: a stray packet every 0.4 s from the start,
        one in a silence of 0.7 s, and a whole stream in a later one. Pictures are exact soon after each."""
        call, other, port = self.start_screen(9)
        draws, stray = random.Random(6), 0
        for count in range(240):
            packet = made_packets.packet(count)
            is_silent = 60 <= count < 81 or 140 <= count < 170
            if not is_silent:
                other.sendto(rtp.renumbered(packet, count, rtp.TICKS_A_PICTURE * count, 7), ("127.0.0.1", port))
            if count % 12 == 0 or count == 65:
                stray += 1
                numbers = draws.getrandbits(16), draws.getrandbits(32), draws.getrandbits(32)
                other.sendto(rtp.renumbered(packet, *numbers), ("127.0.0.1", port))
            if 140 <= count < 170:
                other.sendto(rtp.renumbered(packet, count, rtp.TICKS_A_PICTURE * count, 8), ("127.0.0.1", port))
            time.sleep(1 / 30)
        self.assertEqual(call.ended().status, 0, call.told)
        # All but those of both silences, and of the second after the forged stream that was followed.
        self.assertGreater(call.shown("exact"), 240 - 21 - 30 - 30, call.told)
        self.assertLess(call.shown("held"), 240 - 100, call.told)
        self.assertLessEqual(call.count("anew", "dropped"), 2, call.told)

    def forged(self, draws: random.Random, count: int) -> list[bytes]:
        """A datagram of each kind that one makes who knows the other party's address and no more."""
        packet = made_packets.packet(count)
        numbers = draws.getrandbits(16), draws.getrandbits(32)
        own = draws.getrandbits(32)
        return [
            rtp.renumbered(packet, *numbers, own),  # a stray packet of an SSRC of its own
            rtp.renumbered(packet, count, 3_003 * count, 8),  # the next one of a stream that goes on
            rtp.renumbered(packet, 30_000 + count, 1_000 * rtp.CLOCK, 8),  # the same, far ahead
            rtp.renumbered(made_packets.packet(count + 120), count, 3_003 * count, own),
            rtp.renumbered(made_packets.empty_packet(count, "cif"), *numbers, own),
            packet[:1] + bytes([packet[1] ^ 1]) + packet[2:],  # another payload type
            packet[: draws.randrange(20)],
            draws.randbytes(draws.randrange(1, 1_400)),
            b"",
            bytes([packet[0] | 0x20]) + packet[1:],  # padding that there isn't
        ]

    def test_forged_packets_do_nothing(self) -> None:
        """Kinds of forged packets come once each, then by fives and then by hundreds a second; each picture is exact,
        a line is told each second, the memory stays, and nothing but the call is recorded."""
        port, other_port, folder = free_port(), free_port(), self.folder_in_memory()
        ends = ("--with", "127.0.0.1", "--port", port, "--other-port", other_port, "--one-way", "screen")
        told = [*ends, "--format", "sub-qcif", "--screen", "none", "--seconds", 11, "--wait", 300]
        call = Call([*told, "--record", folder])
        self.calls.append(call)
        packets = made_packets.stream("sub-qcif", 270, False)
        other, control, draws = bound(other_port), bound(other_port + 1), random.Random(8)
        wait_for_port(port)
        memory = []
        for count in range(270):
            for packet in packets[count]:
                header = rtp.rtp_header(packet)
                assert header
                data = rtp.renumbered(packet, header.sequence, rtp.TICKS_A_PICTURE * count, 7)
                other.sendto(data, ("127.0.0.1", port))
            # From the second second on: once, then 5 a second for 2 s, then 300 a second for 2 s.
            turns = 1 if count == 30 or 60 <= count < 120 and count % 6 == 0 or 150 <= count < 210 else 0
            for data in self.forged(draws, count)[: 10 if turns else 0]:
                other.sendto(data, ("127.0.0.1", port))
                control.sendto(data, ("127.0.0.1", port + 1))
            if turns:
                control.sendto(rtcp.bye_bytes(draws.getrandbits(32)), ("127.0.0.1", port + 1))
            if count in (29, 269):
                status = Path(f"/proc/{call.process.pid}/status").read_text()
                memory.append(int(re.search(r"VmRSS:\s+(\d+)", status)[1]))
            time.sleep(1 / 30)
        self.assertEqual(call.ended().status, 0, call.told)
        self.assertEqual((call.shown("exact"), call.shown("shown")), (270, 270), call.told)
        self.assertEqual(call.count("anew", "dropped"), 0, call.told)
        seconds = [int(line.split()[0]) for line in call.told.splitlines() if re.match(r"\d+ s ", line)]
        self.assertEqual(seconds[:9], list(range(1, 10)), call.told)
        self.assertLess(memory[1] - memory[0], 4_000)
        self.assertLess(sum(path.stat().st_size for path in folder.iterdir()), 270 * 20_000)
        for net in (other, control):
            net.close()

    def test_packets_ahead_of_the_clock_are_dropped(self) -> None:
        """One that is 30,000 packets and 1,000 s ahead, and twenty of which each is 120 pictures ahead of the one
        before: nothing is played for them beyond two seconds' pictures, and the call goes on."""
        call, other, port = self.start_screen(6)
        for count in range(120):
            packet = made_packets.packet(count)
            time_of = rtp.TICKS_A_PICTURE * count
            other.sendto(rtp.renumbered(packet, count, time_of, 7), ("127.0.0.1", port))
            if count == 40:
                ahead = rtp.renumbered(packet, count + 30_000, time_of + 1_000 * rtp.CLOCK, 7)
                other.sendto(ahead, ("127.0.0.1", port))
            if 50 <= count < 70:
                number = count + 120 * (count - 49)
                forged = made_packets.packet(number)
                other.sendto(rtp.renumbered(forged, count + 1, time_of + 1, 7), ("127.0.0.1", port))
            time.sleep(1 / 30)
        self.assertEqual(call.ended().status, 0, call.told)
        # Half of the twenty have the reference of a picture that is behind, and are late.
        self.assertGreaterEqual(call.dropped("ahead of the clock"), 10, call.told)
        self.assertLessEqual(call.shown("shown"), 120 + 60, call.told)
        # What is played for them is late when it comes: for a second, and then the run begins anew.
        self.assertGreater(call.shown("exact"), 80, call.told)

    def test_a_flood_of_the_right_stream(self) -> None:
        """Whatever a second and a half of it does, pictures are exact again a second later, and the call ends in its
        time."""
        call, other, port = self.start_screen(6)
        began, sent = time.monotonic(), 0
        while (second := time.monotonic() - began) < 5:
            packet = made_packets.packet(int(30 * second))
            for _ in range(50 if 1 < second < 2.5 else 1):
                data = rtp.renumbered(packet, sent, int(second * rtp.CLOCK), 7)
                other.sendto(data, ("127.0.0.1", port))
                sent += 1
            time.sleep(0.001 if 1 < second < 2.5 else 1 / 30)
        self.assertEqual(call.ended(20).status, 0, call.told)
        self.assertGreater(call.shown("exact"), 60, call.told)
        self.assertLess(call.shown("shown"), 240, call.told)

    def test_without_messages_fewer_pictures_are_sent(self) -> None:
        """Nothing comes back: after two seconds five pictures a second, and that is told once."""
        port, other_port = free_port(), free_port()
        ends = ("--with", "127.0.0.1", "--port", port, "--other-port", other_port, "--one-way", "camera")
        other = bound(other_port)
        call = self.start(*ends, "--format", "sub-qcif", "--camera", self.video(300), "--seconds", 6)
        self.assertEqual(call.ended().status, 0, call.told)
        self.assertIn(call.count("sent", "sent"), range(40, 100), call.told)
        self.assertEqual(call.told.count("nothing comes back: fewer pictures are sent"), 1, call.told)
        other.close()

    def test_another_rate_is_told(self) -> None:
        """Once, by the reports of the other side; not of one that leaves frames out."""
        port, calls = free_port(), []
        for own, other, rate in (("127.0.0.1", "127.0.0.2", 20), ("127.0.0.2", "127.0.0.1", 30)):
            words = ("--at", own, "--with", other, "--rate", rate, "--camera", self.video(300), "--screen", "none")
            calls.append(self.start("--port", port, *words, "--format", "sub-qcif", "--seconds", 7))
        for call, own, other in zip(calls, (20, 30), (30, 20)):
            self.assertEqual(call.ended().status, 0, call.told)
            told = f"the other side's --rate is {other}, and here it is {own}: give both the same\n"
            self.assertEqual(call.told.count(told), 1, call.told)
        call, other_end, port = self.start_screen(4)
        control = bound(other_end.getsockname()[1] + 1)
        for count in range(60):
            packet = made_packets.packet(count)
            other_end.sendto(rtp.renumbered(packet, count, 4_500 * count, 7), ("127.0.0.1", port))
            report = reports.Report(7, None, ())
            control.sendto(reports.compound_bytes(report, "abc", y4m.RATE), ("127.0.0.1", port + 1))
            time.sleep(1 / 20)
        control.close()
        self.assertEqual(call.ended().status, 0, call.told)
        self.assertNotIn("--rate", call.told)

    def test_numbers_that_go_back(self) -> None:
        """Where all that comes is of pictures that were played, the receiving end joins anew."""
        port, other_port = free_port(), free_port()
        ends = ("--with", "127.0.0.1", "--port", port, "--other-port", other_port, "--one-way", "screen")
        call = self.start(*ends, "--format", "sub-qcif", "--screen", "none", "--seconds", 6)
        other = bound(other_port)
        wait_for_port(port)
        for count, number in enumerate([*range(40), *range(60)]):
            packet = made_packets.packet(number)
            time_of = rtp.TICKS_A_PICTURE * count
            other.sendto(rtp.renumbered(packet, count, time_of, 7), ("127.0.0.1", port))
            time.sleep(1 / 30)
        self.assertEqual(call.ended().status, 0, call.told)
        self.assertIn("ends begun anew 1\n", call.told)
        self.assertGreater(call.shown("exact"), 60, call.told)
        other.close()

    def test_no_wait_at_all(self) -> None:
        """Each picture is played as soon as it was heard, and is exact."""
        for wait in (0, 0.4):
            call = self.run_call("--format", "sub-qcif", "--camera", self.video(60), "--screen", "none", "--wait", wait)
            self.assertEqual(call.status, 0, call.told)
            self.assertGreater(call.shown("exact"), 50, call.told)

    def test_what_a_camera_sends(self) -> None:
        """The test is the other party: an SSRC, sequence numbers and times of its own, the times
        those of the captures, and BYE at the end; a message counts if it is about that SSRC."""
        port, other_port = free_port(), free_port()
        other, control = bound(other_port), bound(other_port + 1)
        for net in (other, control):
            net.settimeout(20)
        ends = ("--with", "127.0.0.1", "--port", port, "--other-port", other_port, "--one-way", "camera")
        call = self.start(*ends, "--format", "sub-qcif", "--rate", 20, "--camera", self.video(30))
        headers = []
        for number in range(30):
            packet = other.recv(2_000)
            header = rtp.rtp_header(packet)
            start = picture_start.picture_start(packet)
            assert header and start
            self.assertEqual(start.reference, number)
            headers.append(header)
            for about in (header.source, header.source ^ 1):
                said = rtcp.Feedback(1, about, bytes([0xC0 | number >> 5, (number & 31) << 3 | 4, number]))
                control.sendto(rtcp.feedback_bytes(said), ("127.0.0.1", port + 1))
        first = headers[0]
        self.assertEqual({header.source for header in headers}, {first.source})
        self.assertNotEqual(first.source, rtp.OWN_SOURCE)
        steps = [(header.sequence - first.sequence) & 0xFFFF for header in headers]
        self.assertEqual(steps, list(range(30)))
        ticks = (headers[-1].timestamp - first.timestamp) & 0xFFFFFFFF
        self.assertAlmostEqual(ticks / rtp.CLOCK, 29 / 20, delta=0.5)
        # Reports come on the control port, too.
        while (data := control.recv(200))[1] in (200, 201):
            pass
        self.assertEqual(rtcp.read_rtcp(data), rtcp.Bye(first.source))
        self.assertEqual(call.ended().status, 0, call.told)
        self.assertEqual((call.count("messages in", "sent"), call.dropped("stale messages")), (30, 30), call.told)
        for net in (other, control):
            net.close()

    def test_a_flood_of_strangers(self) -> None:
        """10,000 datagrams a second for five seconds, and all pictures are exact."""
        port = free_port()
        ends = ("--port", port, "--format", "sub-qcif", "--camera", self.video(160), "--screen", "none", "--wait", 300)
        call = self.start(*ends)
        wait_for_port(port)
        sent = flood(port, 5.0, 10_000)
        self.assertEqual(call.ended().status, 0, call.told)
        self.assertEqual((call.shown("exact"), call.shown("held")), (160, 0), call.told)
        self.assertGreater(sent, 20_000)
        self.assertGreater(call.dropped("of strangers"), sent // 4)

    def test_another_format_or_clock_is_told(self) -> None:
        for words, told in (
            (
                ("--format", "sub-qcif"),
                "the other side sends sub-qcif in the standard clock, and this call is qcif in the standard clock",
            ),
            (
                ("--format", "qcif", "--clock", "custom"),
                "the other side sends qcif in the custom clock, and this call is qcif in the standard clock",
            ),
        ):
            port, video = free_port(), self.video(40, words[1])
            camera = self.start("--port", port, "--with", "127.0.0.2", "--one-way", "camera", "--camera", video, *words)
            ends = (
                "--at",
                "127.0.0.2",
                "--with",
                "127.0.0.1",
                "--one-way",
                "screen",
                "--screen",
                "none",
                "--seconds",
                2.5,
            )
            screen = self.start("--port", port, *ends)
            self.assertEqual([call.ended().status for call in (camera, screen)], [0, 0])
            self.assertEqual(screen.told.count(told), 1, screen.told)
            self.assertEqual(screen.shown("shown"), 0)
            self.assertGreater(screen.dropped("other format or clock"), 0)

    def test_a_full_disk(self) -> None:
        """The recording ends and the call goes on; a screen that can't be written ends it."""
        small = {"preexec_fn": lambda: resource.setrlimit(resource.RLIMIT_FSIZE, (200_000, 200_000))}
        ends = ("--format", "sub-qcif", "--camera", self.video(60))
        call = self.run_call(*ends, "--screen", "none", "--record", self.room / "call", **small)
        self.assertEqual((call.status, call.shown("shown")), (1, 60), call.told)
        self.assertIn("the recording ends here: File too large; the call goes on\n", call.told)
        call = self.run_call(*ends, "--screen", self.room / "out.y4m", **small)
        self.assertEqual(call.status, 1)
        self.assertIn(f"{self.room / 'out.y4m'}: it can't be written: File too large\n", call.told)

    def test_bad_words_are_refused(self) -> None:
        video = self.video(2)
        taken = bound(0)
        port = taken.getsockname()[1]
        none = self.room / "none"
        ends = ("--camera", video, "--screen", "none", "--format", "sub-qcif")
        for words, told in (
            ((*ends, "--port", port), f"127.0.0.1: port {port}: it is taken"),
            ((*ends, "--with", "host.invalid"), "host.invalid: port 5004: no such host: .*"),
            (
                (*ends, "--with", "192.0.2.7"),
                "--with: 192.0.2.7: it isn't reached from 127.0.0.1: give --at and this machine's address",
            ),
            (
                (*ends, "--at", "192.0.2.66", "--with", "192.0.2.7"),
                "192.0.2.66: port 5004: Cannot assign requested address",
            ),
            ((*ends, "--wait", 200, "--lead", 3), "--lead: 3: it can't hold --wait 200, for which 7 is the least"),
            ((*ends, "--loss", 0.9), "--loss: 0.9: bursts of 1 are too short for so much loss"),
            ((*ends, "--one-way", "screen"), "--one-way: screen: it needs --with and the other machine"),
            (("--camera", none, "--screen", "none"), f"{none}: no camera: there is no such file that can be read"),
            (("--camera", "/dev/video99", "--screen", "none"), "/dev/video99: no camera: is one plugged in.*"),
            (("--camera", none.with_suffix(".y4m"), "--screen", "none"), f"{none}.y4m: No such file or directory"),
            ((*ends[:4], "--format", "qcif"), f"{video}: the head: 128 x 96, and the call is qcif, 176 x 144"),
            (
                (*ends, "--screen", "window"),
                "--screen: window: there is no display here, so --screen takes a Y4M file, - or none",
            ),
            ((*ends, "--screen", none / "x.y4m"), f"{none}/x.y4m: No such file or directory"),
        ):
            call = Call([*words], env={"PATH": os.environ["PATH"], "H263RPS_LIBRARY": str(LIBRARY)}).ended()
            self.assertEqual(call.status, 1, (words, call.told))
            self.assertRegex(call.told, f"^{told}\n$")
        taken.close()

    def test_metrics(self) -> None:
        """Each line is Prometheus' text; counts agree with the call's own; other paths, hosts and ports are refused."""
        taken = socket.create_server(("127.0.0.1", 0))
        free = taken.getsockname()[1]
        ends = ("--camera", "test", "--screen", "none", "--format", "sub-qcif", "--loss", 0.2, "--quiet")
        if not shutil.which("ffmpeg"):
            ends = ("--camera", self.video(300), *ends[2:])
        call = self.run_call(*ends, "--metrics", free)
        self.assertEqual(call.status, 1)
        self.assertIn(f"--metrics: {free}: Address already in use", call.told)
        taken.close()
        call = self.start("--port", free_port(), *ends, "--seconds", 6, "--metrics", free)
        self.wait_for_metrics(free)
        with socket.create_connection(("127.0.0.1", free)) as silent:
            answers = [
                self.fetched(free, *words)
                for words in (("/metrics", "localhost"), ("/", "127.0.0.1"), ("/metrics", "evil.example"))
            ]
            silent.close()
        self.assertEqual(call.ended().status, 0, call.told)
        self.assertEqual([status for status, _ in answers], [200, 404, 403])
        text = answers[0][1]
        for line in text.splitlines():
            self.assertRegex(
                line, r'^(# (HELP|TYPE) h263rps_[a-z_]+ .+|h263rps_[a-z_]+({[a-z]+="[a-z ]+"})? [0-9.e+-]+)$'
            )
        told = dict(line.rsplit(" ", 1) for line in text.splitlines() if not line.startswith("#"))
        self.assertGreater(float(told["h263rps_pictures_sent_total"]), 30)
        self.assertGreater(float(told['h263rps_bits_per_second{way="out"}']), 1_000)
        self.assertLess(float(told["h263rps_exact_ratio"]), 1)
        self.assertIn('h263rps_pictures_shown_total{mark="held"}', told)

    def wait_for_metrics(self, port: int) -> None:
        until = time.monotonic() + 30
        while time.monotonic() < until:
            try:
                told = re.search(r"^h263rps_call_seconds (\d+)", self.fetched(port, "/metrics", "localhost")[1], re.M)
                if told and int(told[1]) >= 3:
                    return
            except OSError:
                pass
            time.sleep(0.2)
        self.fail("no metrics come")

    @staticmethod
    def fetched(port: int, path: str, host: str) -> tuple[int, str]:
        connection = http.client.HTTPConnection("127.0.0.1", port, timeout=10)
        connection.request("GET", path, headers={"Host": f"{host}:{port}"})
        answer = connection.getresponse()
        return answer.status, answer.read().decode()

    def test_nobody_there(self) -> None:
        """A party that isn't there: that is told, and the call ends as asked."""
        ends = ("--format", "sub-qcif", "--camera", self.video(20), "--screen", "none", "--with", "127.0.0.3")
        call = self.run_call(*ends)
        self.assertEqual((call.status, call.count("sent", "sent")), (0, 20), call.told)
        self.assertIn("127.0.0.3: nobody is there yet\n", call.told)

    def test_a_screen_that_is_closed_ends_the_call(self) -> None:
        read, write = os.pipe()
        ends = ("--port", free_port(), "--format", "sub-qcif", "--camera", self.video(600), "--screen", "-")
        call = self.start(*ends, out=write)
        os.close(write)
        self.assertTrue(os.read(read, 1_000).startswith(b"YUV4MPEG2 W128 H96 F30000:1001 "))
        os.close(read)
        call.ended(15)
        self.assertEqual(call.status, 0, call.told)

    def test_a_camera_that_pauses(self) -> None:
        """For as long as temporal references alone can't bridge; no picture is held for it."""
        video = self.video(50).read_bytes()
        head, frames = video.split(b"\n", 1)
        size = len(frames) // 50
        port = free_port()
        call = self.start(
            "--port", port, "--format", "sub-qcif", "--camera", "-", "--screen", "none", given=subprocess.PIPE
        )
        camera = call.process.stdin
        assert camera
        camera.write(head + b"\n")
        wait_for_port(port)
        for number in range(50):
            time.sleep(4 if number == 25 else 1 / 30)
            camera.write(frames[number * size : (number + 1) * size])
            camera.flush()
        camera.close()
        call.process.stdin = None
        self.assertEqual(call.ended().status, 0, call.told)
        # Frames that pile up are left out, where the machine has no time: there are some from before the pause and from after.
        self.assertGreater(call.count("sent", "sent"), 25, call.told)
        self.assertEqual(call.shown("exact"), call.count("sent", "sent"), call.told)
        self.assertEqual((call.shown("held"), call.dropped("anew")), (0, 0), call.told)

    def test_video_that_comes_in(self) -> None:
        """On the standard input, from a pipe; frames that pile up are left out."""
        video = self.video(60)
        with video.open("rb") as file, subprocess.Popen(["cat"], stdin=file, stdout=subprocess.PIPE) as give:
            call = self.run_call("--format", "sub-qcif", "--camera", "-", "--screen", "none", given=give.stdout)
        self.assertEqual(call.status, 0, call.told)
        self.assertEqual(call.count("sent", "sent") + call.count("left out", "sent"), 60, call.told)
