"""Tests of the page of a call: what it holds, and what it is made of."""

import contextlib
import html.parser
import io
import json
import os
import random
import re
import socket
import subprocess
import tempfile
import unittest
from base64 import b64decode
from collections import Counter
from pathlib import Path
from typing import Any, Optional, Sequence

from calltools import errors, made_video, y4m
from calltools.recording import logs, recorded, recorded_ways, way
from calltools.report import picture_lines, traced_way
from tool_modules import TOOLS, tool

try:
    from calltools.page import stored_pictures as stored
except ImportError:
    stored = None  # type: ignore[assignment]

NO_PILLOW = "Pillow isn't there: apt install python3-pil"

EXAMPLES = TOOLS.parent / "examples"
VIDEO = EXAMPLES / "video.y4m"
LIVE_CALL = TOOLS / "live_call"
LIBRARY = Path(os.environ.get("H263RPS_LIBRARY", TOOLS.parent / "library" / "build" / "libh263rps.so"))
BURST = EXAMPLES / "expected" / "burst.txt"
TRACE = EXAMPLES / "burst.trace"
SMALL = y4m.Size(*y4m.FORMATS["sub-qcif"])
PERIOD = 1001 / 30000
WITHOUT_END = ("meta", "link", "br", "input", "path")
OUTSIDE = r"(?i)https?:|//[a-z]|url\(|@import|\bfetch\(|XMLHttpRequest|import\("


def is_pillow_here() -> bool:
    """In this Python, and in the one that tools are started with."""
    return bool(stored) and not subprocess.run(["python3", "-c", "import PIL"], capture_output=True).returncode


needs_pillow = unittest.skipUnless(is_pillow_here(), NO_PILLOW)


def free_port() -> int:
    with socket.socket(socket.AF_INET, socket.SOCK_DGRAM) as found:
        found.bind(("127.0.0.1", 0))
        return found.getsockname()[1]


def frames(path: Path = VIDEO) -> list[bytes]:
    with open(path, "rb") as file:
        return [frame.samples for frame in y4m.Y4mReader(file, str(path))]


def burst_marks() -> list[Optional[str]]:
    told = picture_lines.read_report(BURST.read_text().splitlines(), str(BURST))
    return [picture.mark for picture in told.pictures]


def write_video(path: Path, size: y4m.Size, pictures: Sequence[bytes]) -> Path:
    with open(path, "wb") as file:
        y4m.write_head(file, size)
        for samples in pictures:
            y4m.write_frame(file, samples)
    return path


def as_shown(pictures: Sequence[bytes], marks: Sequence[Optional[str]]) -> list[bytes]:
    """What a receiver might show: exact pictures, and the one before in the place of others."""
    shown = [bytes([128]) * len(pictures[0])]
    for samples, mark in zip(pictures, marks):
        shown.append(samples if mark == "exact" else shown[-1])
    return shown[1:]


def noisy(count: int) -> list[bytes]:
    draws = random.Random(7)
    return [made_video.with_noise(SMALL, made_video.made_frame(SMALL, 1, n), 4, draws) for n in range(count)]


def call_of(page: Path) -> dict[str, Any]:
    """The data of a page."""
    start, end = '<script type="application/json" id="call">', "</script>"
    return json.loads(page.read_text().partition(start)[2].partition(end)[0])


def samples_of(told: dict[str, Any]) -> list[bytes]:
    """The pictures that a page shows, decoded from its data."""
    images = [stored.decoded(b64decode(image)) for image in told["images"]]
    assert {len(image) for image in images} == {y4m.Size(told["width"], told["height"]).bytes}
    return [images[number] for number in told["which"]]


class Marks(html.parser.HTMLParser):
    """The elements of a page; each must be ended in its order."""

    def __init__(self, text: str) -> None:
        super().__init__()
        self.open: list[str] = []
        self.names: Counter[str] = Counter()
        self.ids: Counter[str] = Counter()
        self.attributes: set[str] = set()
        self.faults: list[str] = []
        self.feed(text)
        self.close()

    def handle_starttag(self, tag: str, attrs: list[tuple[str, Optional[str]]]) -> None:
        self.names[tag] += 1
        self.attributes.update(name for name, _ in attrs)
        self.ids.update(value or "" for name, value in attrs if name == "id")
        if tag not in WITHOUT_END:
            self.open.append(tag)

    def handle_startendtag(self, tag: str, attrs: list[tuple[str, Optional[str]]]) -> None:
        self.names[tag] += 1

    def handle_endtag(self, tag: str) -> None:
        if not self.open or self.open.pop() != tag:
            self.faults.append(tag)


class Room(unittest.TestCase):
    """Tests with a folder of their own."""

    def setUp(self) -> None:
        room = tempfile.TemporaryDirectory()
        self.addCleanup(room.cleanup)
        self.room = Path(room.name)

    def file(self, name: str, content: bytes) -> Path:
        path = self.room / name
        path.write_bytes(content)
        return path

    def page(self, *words: object, name: str = "page.html") -> Path:
        """What the tool makes."""
        if not stored:
            self.skipTest(NO_PILLOW)
        page = self.room / name
        with contextlib.redirect_stderr(io.StringIO()) as told:
            tool("page_of_call").main([str(words[0]), str(page), *map(str, words[1:])])
        self.said = told.getvalue()
        return page

    def burst_page(self, *words: object) -> Path:
        """The page of the example with a burst of losses."""
        pictures = as_shown(frames(), burst_marks())
        shown = write_video(self.room / "shown.y4m", SMALL, pictures)
        return self.page(BURST, "--captured", VIDEO, "--shown", shown, "--trace", TRACE, *words)

    def assert_refused(self, told: str, *words: object) -> None:
        with self.assertRaises(errors.BadInput) as caught:
            self.page(*words)
        self.assertEqual(str(caught.exception), told)


def packet(sequence: int, picture: int, has_marker: bool = False) -> bytes:
    """RTP, the payload header of RFC 4629 and the start of a picture header in sub-QCIF."""
    head = bytes([0x80, 96 | has_marker << 7]) + (sequence % 65536).to_bytes(2, "big")
    bits = 0b100000 << 58 | (picture & 255) << 50 | 0b10 << 48 | 0b111 << 42 | 1 << 39 | 1 << 36
    time = (3003 * picture).to_bytes(4, "big")
    return head + time + b"H263" + b"\4\0" + bits.to_bytes(8, "big")


def message(is_ack: bool, picture: int) -> bytes:
    bits = (3 if is_ack else 2) << 22 | picture % 256 << 11 | 1 << 10 | picture % 256
    return bits.to_bytes(3, "big")


class Folder:
    """A recorded folder, written as `live_call --record` does."""

    FIRST, SOURCE = 65_530, 7

    def __init__(self, path: Path, clock: float = 0.0) -> None:
        path.mkdir()
        self.path, self.clock = path, clock
        network: dict[str, Any] = {"loss": 0.05, "burst": 2.0, "delay": 0.03, "outage": [2.0, 0.5]}
        settings = {"version": 1, "format": "sub-qcif", "rate": "30000/1001", "network": network}
        self.call: dict[str, Any] = {**settings, "send": [], "recv": [], "counts": {}}

    def log(self, name: str, rows: list[tuple[str, bytes, float]]) -> None:
        with open(self.path / f"{name}.log", "wb") as file:
            for letter, body, _ in rows:
                logs.write_entry(file, logs.Entry(letter, body))
        times = [f"{time + self.clock:.6f}\n" for _, _, time in rows]
        (self.path / f"{name}.times").write_text("".join(times))

    def run(self, command: str, video: str, wire: str, **more: object) -> None:
        run: dict[str, object] = {"video": video, "wire": wire, "source": self.SOURCE}
        run.update(log=f"{command}.log", report=f"{command}.txt", **more)
        self.call[command].append(run)

    def sent(self, pictures: list[bytes], heard: list[tuple[bytes, float]]) -> "Folder":
        """Each picture in two packets, and messages that came back."""
        write_video(self.path / "captured.y4m", SMALL, pictures)
        rows = [("S", b"", number * PERIOD) for number in range(len(pictures))]
        rows += [("B", body, time) for body, time in heard]
        self.log("send", sorted(rows, key=lambda row: row[2]))
        places = range(2 * len(pictures))
        self.log("packets", [("K", packet(k, k // 2), k // 2 * PERIOD + 0.001) for k in places])
        lines = ["0 intra", *(f"{number} from {number - 1}" for number in range(1, len(pictures)))]
        (self.path / "send.txt").write_text("\n".join(lines) + "\n")
        self.run("send", "captured.y4m", "packets.log", first_sequence=self.FIRST, first_time=0)
        return self

    def came(self, rows: list[tuple[str, int, float]], said: list[tuple[bytes, float]]) -> "Folder":
        """Plays `P`, and packets `K` by their places at the sender; what was said."""
        entries = []
        for letter, k, time in rows:
            body = packet(self.FIRST + k, k // 2, k % 2 == 1) if letter == "K" else b""
            entries.append((letter, body, time))
        self.log("recv", entries)
        self.log("messages", [("B", text, time) for text, time in said])
        return self

    def shown(self, marks: list[str], pictures: list[bytes], joined: int = 0, **more: int) -> "Folder":
        """What was shown, from the picture on at which it joined."""
        write_video(self.path / "shown.y4m", SMALL, pictures)
        lines = [f"{number} {mark}\n" for number, mark in enumerate(marks, joined)]
        (self.path / "recv.txt").write_text("".join(lines))
        self.run("recv", "shown.y4m", "messages.log", joined=joined, options=["--lead=1"], **more)
        return self

    def done(self) -> Path:
        (self.path / "call.json").write_text(json.dumps(self.call))
        return self.path


# Of four pictures: 0 whole and one of its packets twice, 1 half, 2 too late, 3 too early and again.
ROWS = [("K", 0, 0.031), ("K", 1, 0.032), ("K", 1, 0.033), ("K", 2, 0.065), ("K", 6, 0.131)]
ROWS += [("P", 0, 0.14), ("P", 0, 0.18), ("P", 0, 0.2), ("K", 4, 0.21), ("K", 6, 0.22)]
ROWS += [("K", 7, 0.22), ("P", 0, 0.25)]
SAID = [(message(True, 0), 0.032), (message(False, 1), 0.18)]
SAID += [(message(False, 2), 0.2), (message(True, 3), 0.22)]
HEARD = [(message(True, 0), 0.062), (message(False, 2), 0.23), (message(True, 3), 0.25)]
MARKS = ["exact", "patched", "held", "exact"]


def whole_folder(path: Path) -> Folder:
    shown = as_shown(frames()[:4], MARKS)
    return Folder(path).sent(frames()[:5], HEARD).came(ROWS, SAID).shown(MARKS, shown)


class PageTest(Room):
    def test_the_tool_has_help(self) -> None:
        words = [str(TOOLS / "page_of_call"), "--help"]
        run = subprocess.run(words, capture_output=True, text=True)
        self.assertEqual((run.returncode, run.stderr), (0, ""))
        self.assertIn("usage: page_of_call", run.stdout)

    def test_the_page_is_whole_and_alone(self) -> None:
        """Each element is ended, each id is one, and nothing is named that lies outside."""
        text = self.burst_page("--title", "A <b>call</b> & more</script>").read_text()
        marks = Marks(text)
        self.assertEqual((marks.open, marks.faults), ([], []))
        self.assertEqual([name for name, count in marks.ids.items() if count > 1], [])
        self.assertEqual((marks.names["title"], marks.names["b"], marks.names["script"]), (1, 0, 2))
        self.assertIn("<h1>A &lt;b&gt;call&lt;/b&gt; &amp; more&lt;/script&gt;</h1>", text)
        self.assertEqual(marks.attributes & {"src", "href", "style", "onclick", "onload"}, set())
        without_data = re.sub(r'"images":\[.*?\]|sha256-[^\']*', "", text)
        self.assertNotRegex(without_data, OUTSIDE)
        self.assertIn("default-src 'none'", text)
        self.assertNotIn("{{", text)
        self.assertEqual(set(re.findall(r'byId\("(\w+)"\)', text)) - set(marks.ids), set())
        acts = set(re.findall(r'data-act="(\w+)"', text))
        self.assertEqual(acts - set(re.findall(r"^ {6}(\w+): \(\) =>", text, re.M)), set())

    def test_a_small_call_is_stored_exactly(self) -> None:
        page = self.burst_page()
        told = call_of(page)["ways"][0]
        self.assertEqual(told["marks"], burst_marks())
        self.assertEqual(told["references"][:4], [-1, -1, 1, 2])
        self.assertEqual(samples_of(told["captured_video"]), frames())
        self.assertEqual(samples_of(told["shown_video"]), as_shown(frames(), burst_marks()))
        self.assertEqual(told["psnr"][1], 99.0)
        self.assertLess(page.stat().st_size, 120_000)

    def test_a_page_that_cannot_fit_is_told(self) -> None:
        """It has the coarsest steps then, and the tool says how long it is."""
        pictures = [random.Random(n).randbytes(SMALL.bytes) for n in range(260)]
        lines = "".join(f"{number} exact intra\n" for number in range(len(pictures)))
        video = write_video(self.room / "noise.y4m", SMALL, pictures)
        report_of = self.file("report", lines.encode())
        page = self.page(report_of, "--shown", video, "--megabytes", 1)
        size = page.stat().st_size
        self.assertEqual(self.said, f"the page has {size:,} bytes: fewer --pictures make it shorter\n")

    def test_without_the_library_it_is_said_how_to_get_it(self) -> None:
        """No page is left then; and input that is refused is so without it."""
        (self.room / "PIL.py").write_text("raise ImportError(name='PIL')\n")
        path = {**os.environ, "PYTHONPATH": str(self.room)}
        page = self.room / "page.html"
        how = "PIL: the library isn't there: apt install python3-pil, for /usr/bin/python3"
        for call, told in (
            (BURST, f"page_of_call: {how}"),
            (VIDEO, f"{VIDEO}: line 3: it is longer than 8,192 letters"),
        ):
            words = [TOOLS / "page_of_call", call, page, "--shown", VIDEO]
            run = subprocess.run(words, capture_output=True, text=True, env=path)
            self.assertEqual((run.returncode, run.stdout, run.stderr), (1, "", f"{told}\n"))
            self.assertFalse(page.exists())

    def test_a_section(self) -> None:
        told = call_of(self.burst_page("--from", 5, "--pictures", 4))["ways"][0]
        self.assertEqual((told["first"], told["marks"]), (5, ["held", "held", "exact", "exact"]))
        self.assertEqual(samples_of(told["captured_video"]), frames()[5:9])
        said = "the page has 4 of 16 pictures; --from and --pictures choose others\n"
        self.assertEqual(self.said, said)

    def test_a_trace_is_told(self) -> None:
        """What comes in time, late, early and again, what is lost, and the messages in order."""
        text = "S,D 0.0,D 0.0,D 2.*,S,D 1.*,S,S,D 3.*,P,B 1,P,P,D 2.1,P".split(",")
        lines = ["0 patched intra", "1 exact intra", "2 held from 1", "3 exact from 1"]
        told = picture_lines.read_report(lines, "report")
        found = traced_way.way_of_report(told, SMALL, traced_way.Trace("trace", text, lead=2))
        fates = [(packet.picture, packet.fate, packet.is_all) for packet in found.packets]
        wanted = [(0, "taken", False), (0, "again", False), (0, "lost", False), (1, "taken", True)]
        self.assertEqual(fates, wanted + [(2, "late", False), (3, "early", True)])
        said = [(message.picture, message.is_ack, message.fate) for message in found.messages]
        self.assertEqual(said[:2], [(1, True, "lost"), (0, False, "taken")])
        sizes = {0: [90, 80], 1: [70], 2: [60, 50], 3: [40]}
        found = traced_way.way_of_report(told, SMALL, traced_way.Trace("trace", text, 2, sizes))
        by_size = [(packet.picture, packet.fate, packet.size) for packet in found.packets]
        first = [(0, "taken", 90), (0, "again", 90), (0, "lost", 80), (1, "taken", 70)]
        self.assertEqual(by_size, first + [(2, "late", 50), (2, "lost", 60), (3, "early", 40)])

    def test_colours_can_be_read(self) -> None:
        """Words and marks have a contrast of 4.5 at least in both schemes."""
        style = (TOOLS / "calltools" / "page" / "web" / "page.css").read_text()
        for scheme in style.split("prefers-color-scheme: dark"):
            found = dict(re.findall(r"--(\w+): (#\w{6})", scheme))
            words = ("ink", "quiet", "exact", "patched", "held", "late", "message", "none")
            pairs = [(word, ground) for word in words for ground in ("paper", "panel")]
            for word, ground in [*pairs, ("on", "exact")]:
                self.assertGreaterEqual(contrast(found[word], found[ground]), 4.5, (word, ground))


def contrast(one: str, other: str) -> float:
    """Of two colours, after WCAG 2."""

    def linear(part: float) -> float:
        return part / 12.92 if part <= 0.04045 else ((part + 0.055) / 1.055) ** 2.4

    def light(colour: str) -> float:
        red, green, blue = (linear(int(colour[at : at + 2], 16) / 255) for at in (1, 3, 5))
        return 0.2126 * red + 0.7152 * green + 0.0722 * blue + 0.05

    return max(light(one), light(other)) / min(light(one), light(other))


@unittest.skipUnless(stored, NO_PILLOW)
class StoredTest(unittest.TestCase):
    """How pictures are stored."""

    def test_what_is_exact_is_exact(self) -> None:
        """Whatever the samples are, in each of the three formats."""
        draws = random.Random(3)
        for width, height in y4m.FORMATS.values():
            size = y4m.Size(width, height)
            for values in (range(256), (0, 255), (16, 128, 235)):
                samples = bytes(draws.choices(values, k=size.bytes))
                self.assertEqual(stored.decoded(stored.encoded(size, samples, None)), samples)

    def test_what_is_coarse_is_near(self) -> None:
        pictures = noisy(1)
        for quality, least in ((95, 41), (80, 37), (0, 31)):
            kept = stored.film(SMALL, pictures).stored(quality)
            (found,) = samples_of(kept.told())
            errors_found = stored.errors_between(SMALL, pictures[0], found)
            self.assertEqual(kept.errors, errors_found)
            self.assertGreater(kept.errors.psnr()[0], least, quality)

    def test_the_same_picture_is_stored_once(self) -> None:
        one, two, three = noisy(3)
        pictures = [one, two, two, one, three, two]
        for quality in (None, 80):
            told = stored.film(SMALL, pictures).stored(quality).told()
            self.assertEqual((told["which"], len(told["images"])), ([0, 1, 1, 0, 2, 1], 3))
        self.assertEqual(samples_of(stored.film(SMALL, pictures).stored(None).told()), pictures)

    def test_long_calls_fit(self) -> None:
        """With noise, which can't be foretold, they are as fine as the room allows."""
        pictures = noisy(40)
        for most in (600_000, 180_000, 70_000):
            videos = stored.fitting([(SMALL, pictures), (SMALL, pictures[::-1])], most)
            length = sum(video.length for video in videos)
            self.assertLessEqual(length, most)
            self.assertGreater(length, most // 3)
            self.assertEqual(videos[0].quality, videos[1].quality)

    def test_where_nothing_differs_is_a_number(self) -> None:
        """JSON has no infinite one."""
        video = stored.Video(SMALL, 80, [], [], stored.Errors((0, 0, 0), (1, 1, 1)))
        self.assertEqual(video.told()["psnr"], 99.0)


class RecordedTest(Room):
    """Pages of recorded folders."""

    def test_a_record_is_told(self) -> None:
        shown = as_shown(frames()[:4], MARKS)
        folder = whole_folder(self.room / "call").done()
        (found,) = recorded_ways.ways_of(recorded.read_record(folder))
        self.assertEqual([picture.mark for picture in found.pictures], MARKS)
        self.assertEqual([picture.reference for picture in found.pictures], [None, 0, 1, 2])
        self.assertEqual((list(found.captured), list(found.shown)), (frames()[:4], shown))
        played = [round(picture.played or 0, 3) for picture in found.pictures]
        self.assertEqual(played, [0.14, 0.18, 0.2, 0.25])
        fates = Counter((packet.picture, packet.fate) for packet in found.packets)
        twos = {(0, "taken"): 2, (3, "taken"): 2, (4, "lost"): 2}
        ones = ((0, "again"), (1, "taken"), (1, "lost"), (2, "late"), (2, "lost"), (3, "early"))
        self.assertEqual(fates, {**twos, **{one: 1 for one in ones}})
        said = [(message.picture, message.is_ack, message.fate) for message in found.messages]
        wanted = [(0, True, "taken"), (1, False, "lost"), (2, False, "taken"), (3, True, "taken")]
        self.assertEqual(said, wanted)
        page = self.page(folder)
        network = "5 % lost in bursts of 2, 30 ms of delay, nothing for 0.5 s from 2 s on"
        self.assertIn(network, page.read_text())
        self.assertEqual(samples_of(call_of(page)["ways"][0]["shown_video"]), shown)

    @unittest.skipUnless(LIVE_CALL.exists() and LIBRARY.exists(), "no live call here")
    def test_a_live_call_is_told(self) -> None:
        """What became of its packets is what `recv` counted."""
        folder = self.room / "call"
        words = ["--camera", VIDEO, "--screen", "none", "--record", folder]
        network = ["--loss", 0.2, "--burst", 2, "--delay", 20, "--duplicate", 0.2, "--quiet"]
        asked = [str(word) for word in (LIVE_CALL, *words, *network, "--port", free_port())]
        subprocess.run(asked, check=True, capture_output=True, timeout=60)
        (found,) = recorded_ways.ways_of(recorded.read_record(folder))
        lines = (folder / "recv.txt").read_text().splitlines()
        self.assertEqual([f"{p.number} {p.mark}" for p in found.pictures], lines[:-1])
        counts = dict(re.findall(r"(\w+) (\d+)", lines[-1]))
        fates = Counter(packet.fate for packet in found.packets)
        for fate, word in (("taken",) * 2, ("late",) * 2, ("early",) * 2, ("again", "repeat")):
            self.assertEqual(fates[fate], int(counts[word]), fate)
        sent = len({(packet.picture, packet.sent) for packet in found.packets})
        self.assertEqual(fates["lost"] + fates["taken"] + fates["late"] + fates["early"], sent)
        self.assertIn("20 % lost in bursts of 2, 20 % twice", self.page(folder).read_text())

    def test_clocks_of_two_machines_are_put_together(self) -> None:
        """So that the quickest packet takes as long as the quickest message."""
        here = Folder(self.room / "here", clock=3.0).came(ROWS, SAID)
        here.shown(MARKS, as_shown(frames()[:4], MARKS)).done()
        there = Folder(self.room / "there", clock=-2.0).sent(frames()[:5], HEARD).done()
        record, other = recorded.read_record(here.path), recorded.read_record(there)
        (found,) = recorded_ways.ways_of(record, other)
        self.assertAlmostEqual(self.least_way(found), 0.03, places=3)
        back = [message.heard - (message.said or 0) for message in found.messages if message.heard]
        self.assertAlmostEqual(min(back), 0.03, places=3)

    def least_way(self, found: way.Way) -> float:
        return min(packet.came - (packet.sent or 0) for packet in found.packets if packet.came)

    def test_one_of_two_machines(self) -> None:
        """The side that shows knows what came, by its own clock; the side that sends, what went."""
        here = Folder(self.room / "here").came(ROWS, SAID)
        here.shown(MARKS, as_shown(frames()[:4], MARKS)).done()
        (found,) = recorded_ways.ways_of(recorded.read_record(here.path))
        self.assertEqual([picture.mark for picture in found.pictures], MARKS)
        fates = Counter(packet.fate for packet in found.packets)
        self.assertEqual(fates, {"taken": 5, "again": 1, "lost": 2, "late": 1, "early": 1})
        self.assertAlmostEqual(self.least_way(found), 0)
        there = Folder(self.room / "there").sent(frames()[:5], HEARD).done()
        (found,) = recorded_ways.ways_of(recorded.read_record(there))
        self.assertEqual({packet.fate for packet in found.packets}, {"passed"})
        self.assertEqual(len(call_of(self.page(there))["ways"][0]["marks"]), 5)

    def test_a_call_that_was_cut_off(self) -> None:
        """What was written before the cut is told; in a call that ended, a cut is a fault."""
        folder = whole_folder(self.room / "call")
        folder.done()
        for name in ("recv.log", "packets.log", "messages.log", "captured.y4m", "recv.times"):
            path = folder.path / name
            path.write_bytes(path.read_bytes()[:-2])
        with self.assertRaisesRegex(errors.BadInput, "ends within"):
            self.page(folder.path)
        del folder.call["counts"]
        (found,) = recorded_ways.ways_of(recorded.read_record(folder.done()))
        self.assertEqual([picture.mark for picture in found.pictures], MARKS)
        self.assertIsNone(found.pictures[3].played)
        self.assertEqual(len(found.captured), 4)

    def test_a_joined_call_begins_where_it_joined(self) -> None:
        """So it does where the recording of an older release has the plays before, too."""
        rows = [("K", 4, 0.11), ("K", 5, 0.12), ("P", 0, 0.13), ("K", 6, 0.14), ("K", 7, 0.14), ("P", 0, 0.15)]
        said = [(message(True, 2), 0.12), (message(True, 3), 0.14)]
        unseen = [("P", 0, 0.1), ("P", 0, 0.1)], [(message(False, 0), 0.1), (message(False, 1), 0.1)]
        shown, marks, grey = frames()[2:4], ["exact", "exact"], [bytes([128]) * SMALL.bytes] * 2
        for name, is_old in (("new", False), ("old", True)):
            for has_sender in (True, False):
                folder = Folder(self.room / f"{name}{has_sender}")
                if has_sender:
                    folder.sent(frames()[:5], said)
                if is_old:
                    folder.came(unseen[0] + rows, unseen[1] + said).shown(["held"] * 2 + marks, grey + shown, skipped=2)
                else:
                    folder.came(rows, said).shown(marks, shown, joined=2)
                (found,) = recorded_ways.ways_of(recorded.read_record(folder.done()))
                self.assertEqual([picture.mark for picture in found.pictures], marks)
                self.assertEqual([picture.played for picture in found.pictures], [0.13, 0.15])
                self.assertEqual((found.first, list(found.shown)), (2, frames()[2:4]))
                self.assertEqual([message.picture for message in found.messages], [2, 3])
                self.assertEqual([packet.fate for packet in found.packets if packet.fate == "taken"], 4 * ["taken"])


class BadPageTest(Room):
    def test_bad_videos_and_traces(self) -> None:
        short = write_video(self.room / "short.y4m", SMALL, frames()[:3])
        other = write_video(self.room / "other.y4m", y4m.Size(176, 144), [bytes(38016)] * 16)
        odd = self.file("odd.y4m", b"YUV4MPEG2 W32 H16\n")
        trace, few = self.file("bad.trace", b"S\nD x\n"), self.file("few.trace", b"S\nP\n")
        log = EXAMPLES / "send.log"
        shown, traced_by = ("--shown", VIDEO), ("--shown", VIDEO, "--trace")
        cases: list[tuple[str, tuple]] = [
            (f"{BURST}: alone: a report needs --shown or --captured beside it", ()),
            (f"{BURST}: picture 16: the call has 16 pictures", (*shown, "--from", 16)),
            (f"{short}: picture 3: the report has 16 pictures", ("--shown", short)),
            (f"{other}: the head: its size is not that of {VIDEO}", (*shown, "--captured", other)),
            (f"{odd}: the head: 32 x 16 is none of the three formats", ("--shown", odd)),
            (f"{trace}: line 2: it says no event", (*traced_by, trace)),
            (f"{few}: its end: it sends 1 of the report's 16 pictures", (*traced_by, few)),
            (f"{log}: entry 0: this is no RTP packet", (*traced_by, TRACE, "--packets", log)),
        ]
        for told, words in cases:
            self.assert_refused(told, BURST, *words)

    def test_words_of_the_other_kind_of_call(self) -> None:
        """A folder has its videos, and a report has no other folder."""
        of_report, of_folder = "go with a report", "--other goes with a folder"
        cases: list[tuple[str, tuple]] = [
            (of_report, (self.room, "--shown", VIDEO)),
            (of_report, (self.room, "--trace", TRACE)),
            (of_folder, (BURST, "--shown", VIDEO, "--other", self.room)),
            ("--packets goes with --trace", (BURST, "--shown", VIDEO, "--packets", TRACE)),
        ]
        for told, (call, *words) in cases:
            run = subprocess.run(
                [TOOLS / "page_of_call", call, self.room / "page.html", *words],
                capture_output=True,
                text=True,
            )
            self.assertEqual((run.returncode, run.stdout), (2, ""), words)
            self.assertIn(told, run.stderr)

    def test_bad_settings_of_records(self) -> None:
        """Each fault is told with its place, and no name leads out of the folder."""
        folder = whole_folder(self.room / "call")
        path = folder.done() / "call.json"
        no_rate = "rate: pictures a second are wanted, as in 30000/1001"
        cases = [
            ('"version": 1', '"version": 2', "version: 1 is wanted"),
            ('"sub-qcif"', "[]", "format: it is none of sub-qcif, qcif, cif"),
            ("30000/1001", "1/0", no_rate),
            ("30000/1001", "1e999", no_rate),
            ("captured.y4m", "../x", "send, run 1: video names no file of the folder"),
            ('"recv.log"', "3", "recv, run 1: log names no file of the folder"),
            ('"source": 7', '"source": -1', "send, run 1: source is no number of 32 bits"),
            ('["--lead=1"]', '"--lead=1"', "recv, run 1: its options are no list of words"),
            ('"--lead=1"', '"--lead=x"', "recv, run 1: its lead is no number"),
        ]
        for before, after, told in cases:
            path.write_text(json.dumps(folder.call).replace(before, after))
            self.assert_refused(f"{path}: {told}", folder.path)
        path.write_text("{")
        with self.assertRaisesRegex(errors.BadInput, "call.json: its text: this is no JSON"):
            self.page(folder.path)
        path.write_text(json.dumps({**folder.call, "send": [], "recv": []}))
        self.assert_refused(f"{folder.path}: its runs: no picture was sent or played", folder.path)

    def test_bad_files_of_records(self) -> None:
        folder = whole_folder(self.room / "call")
        folder.call["format"] = "cif"
        video = folder.done() / "captured.y4m"
        self.assert_refused(f"{video}: the head: its size is not the call's format", folder.path)
        folder.call["format"] = "sub-qcif"
        folder.done()
        times = folder.path / "recv.times"
        times.write_text("0.1\nnan\n")
        self.assert_refused(f"{times}: line 2: a time in seconds is wanted", folder.path)
        times.unlink()
        self.page(folder.path)
        for name, fault in (("messages.log", "message"), ("packets.log", "RTP packet")):
            path = folder.path / name
            path.write_bytes(b"K\0\1x" if fault == "RTP packet" else b"B\0\1x")
            self.assert_refused(f"{path}: entry 0: this is no {fault}", folder.path)


if __name__ == "__main__":
    unittest.main()
