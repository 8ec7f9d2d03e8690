"""Tests of captures, folders and reports that were made to do harm: each is refused in words, or done, within a second
of the processor's time and little memory."""

import functools
import json
import os
import resource
import struct
import subprocess
import unittest
import xml.etree.ElementTree
from pathlib import Path
from typing import Any

from calltools.recording import logs, recorded, recorded_ways
from page_tests import MARKS, Folder, Room, as_shown, frames, message, needs_pillow, packet, whole_folder
from tool_modules import TOOLS

MOST_MEMORY = 1 << 30
LONG = int("9" * 400)


def limited() -> None:
    resource.setrlimit(resource.RLIMIT_AS, (MOST_MEMORY, MOST_MEMORY))
    resource.setrlimit(resource.RLIMIT_CPU, (20, 20))


def frame(body: bytes) -> bytes:
    """UDP to port 5004 over IPv4."""
    udp = struct.pack(">HHHH", 5004, 5004, 8 + len(body), 0) + body
    return struct.pack(">BBHHHBBH4s4s", 0x45, 0, 20 + len(udp), 0, 0, 64, 17, 0, b"\x7f\0\0\1", b"\x7f\0\0\1") + udp


def pcap_of(rows: list[tuple[float, bytes]]) -> bytes:
    """A capture of raw IP."""
    parts = [struct.pack("<IHHiIII", 0xA1B2C3D4, 2, 4, 0, 0, 65_535, 101)]
    for when, body in rows:
        data = frame(body)
        parts.append(struct.pack("<IIII", int(when), int(when % 1 * 1e6), len(data), len(data)) + data)
    return b"".join(parts)


def rtp_of(sequence: int, stamp: int) -> bytes:
    return struct.pack(">BBHI4s", 0x80, 96, sequence & 0xFFFF, stamp & 0xFFFFFFFF, b"H263") + b"\4\0" + bytes(8)


def block(kind: int, body: bytes) -> bytes:
    size = struct.pack("<I", 12 + len(body))
    return struct.pack("<I", kind) + size + body + size


PCAPNG = block(0x0A0D0D0A, b"\x4d\x3c\x2b\x1a\1\0\0\0" + b"\xff" * 8)


class HostileTest(Room):
    def run_tool(self, name: str, *words: object) -> "subprocess.CompletedProcess[str]":
        """The run of a tool, which ends soon, takes little memory, and ends in words if it doesn't end well."""
        before = resource.getrusage(resource.RUSAGE_CHILDREN)
        run = subprocess.run(
            [TOOLS / name, *map(str, words)], capture_output=True, text=True, preexec_fn=limited, timeout=300
        )
        after = resource.getrusage(resource.RUSAGE_CHILDREN)
        took = after.ru_utime + after.ru_stime - before.ru_utime - before.ru_stime
        self.assertLess(took, 1.0 + self.start(name), (name, words))
        self.assertNotIn("Traceback", run.stderr, (name, words))
        self.assertIn(run.returncode, (0, 1), (name, words, run.stderr))
        return run

    @staticmethod
    @functools.lru_cache(maxsize=None)
    def start(name: str) -> float:
        """What a start of Python and the tool's modules takes."""
        before = resource.getrusage(resource.RUSAGE_CHILDREN)
        subprocess.run([TOOLS / name, "--version"], capture_output=True, check=True)
        after = resource.getrusage(resource.RUSAGE_CHILDREN)
        return after.ru_utime + after.ru_stime - before.ru_utime - before.ru_stime

    def refused(self, told: str, name: str, *words: object) -> None:
        run = self.run_tool(name, *words)
        self.assertEqual(run.returncode, 1, (name, words))
        self.assertIn(told, run.stderr, (name, words))

    def test_captures(self) -> None:
        """Each by the three tools that read one."""
        options = block(1, struct.pack("<HHI", 101, 0, 0) + struct.pack("<HH", 1, 0) * 1_000_000)
        claimed = struct.pack("<IHHiIII", 0xA1B2C3D4, 2, 4, 0, 0, 65_535, 101)
        cases = [
            ("a million options", PCAPNG + options, "no RTP packet was captured"),
            ("a block of 4 GB", PCAPNG + struct.pack("<II", 6, 0xFFFFFFF0) + b"abcd", "the capture ends within a part"),
            ("a frame of 4 GB", claimed + struct.pack("<IIII", 0, 0, 0xFFFFFFFF, 0xFFFFFFFF), "ends within a part"),
            ("an empty one", claimed, "no RTP packet was captured"),
            ("a block of no size", PCAPNG + struct.pack("<II", 1, 0), "a block has a wrong size"),
        ]
        for name, content, told in cases:
            path = self.file("hostile.pcap", content)
            for tool_name in ("log_of_pcap", "trace_of_pcap", "audit_log"):
                with self.subTest(name, tool=tool_name):
                    self.refused(told, tool_name, path, self.room / "out")

    def test_timestamps_that_run_ahead_of_the_capture(self) -> None:
        """A few packets make no more plays than their capture lasted, and ten seconds."""
        rows = [(n * 0.03, rtp_of(n, n * 3_003)) for n in range(37)] + [(1.2, rtp_of(37, (1 << 31) - 1))]
        path, out = self.file("ahead.pcap", pcap_of(rows)), self.room / "out.log"
        self.assertLess(path.stat().st_size, 2_753)
        run = self.run_tool("log_of_pcap", path, out)
        self.assertEqual(run.returncode, 0)
        self.assertIn("timestamps go on for 715,113 pictures, and the capture for 35", run.stderr)
        with open(out, "rb") as file:
            plays = sum(entry.letter == logs.PLAY for entry in logs.read_log(file, "out.log"))
        self.assertEqual(plays, 35 + 300 + 1)
        self.refused("away from the capture's clock", "trace_of_pcap", path, self.room / "trace")

    def test_gaps_of_a_capture(self) -> None:
        """Of a stream nearly all of whose packets are missing no trace is made."""
        rows = [(n * 0.5, rtp_of(n * 3_000, n * 45_000)) for n in range(600)]
        self.refused("packets are missing", "trace_of_pcap", self.file("gaps.pcap", pcap_of(rows)), self.room / "trace")

    def one_end(self, sequences: list[int], apart: int) -> Path:
        """A folder of `recv` alone, which was given packets with these sequence numbers, by turns of two pictures."""
        folder = Folder(self.room / f"end{len(sequences)}")
        rows = [("K", 2 * number, 0.03 * number) for number in range(4)] + [("P", 0, 0.2)] * 4
        folder.came(rows, [])
        with open(folder.path / "recv.log", "wb") as file:
            for place, number in enumerate(sequences):
                logs.write_entry(file, logs.Entry("K", packet(number, place % 2 * apart)))
            for _ in range(4):
                logs.write_entry(file, logs.Entry("P"))
        return folder.shown(MARKS, as_shown(frames()[:4], MARKS)).done()

    @needs_pillow
    def test_gaps_of_a_recording(self) -> None:
        """A gap is a few rows that say how many packets they stand for."""
        folder = self.one_end([n * 32_000 for n in range(200)], 100)
        (found,) = recorded_ways.ways_of(recorded.read_record(folder))
        lost = [row for row in found.packets if row.fate == "lost"]
        self.assertLessEqual(len(lost), 8 * 199)
        self.assertEqual(sum(row.count for row in lost), 199 * 31_999)
        self.assertEqual(self.run_tool("page_of_call", folder, self.room / "page").returncode, 0)
        small = self.one_end([0, 5, 6], 3)
        (found,) = recorded_ways.ways_of(recorded.read_record(small))
        lost = [(row.picture, row.count) for row in found.packets if row.fate == "lost"]
        self.assertEqual(lost, [(0, 1), (1, 1), (2, 1), (3, 1)])

    def test_equal_messages(self) -> None:
        """Ten thousand that say the same, and come back."""
        folder = whole_folder(self.room / "call")
        said = [(message(True, 0), 0.03 + n / 1e5) for n in range(10_000)]
        folder.log("messages", [("B", body, time) for body, time in said])
        rows = [("S", b"", n * 1001 / 30000) for n in range(5)]
        rows += [("B", body, time + 0.03) for body, time in said]
        folder.log("send", sorted(rows, key=lambda row: row[2]))
        path = folder.done()
        self.assertEqual(self.run_tool("times_of_call", path).returncode, 0)
        (found,) = recorded_ways.ways_of(recorded.read_record(path))
        self.assertEqual(sum(one.fate == "taken" for one in found.messages), 10_000)

    def test_folders(self) -> None:
        """What call.json may not say, by the three tools that read it."""

        def run(place: str, **more: Any) -> dict[str, Any]:
            facts = json.loads((self.room / "call" / "call.json").read_text())
            facts[place][0].update(more)
            return facts

        whole_folder(self.room / "call").done()
        os.mkfifo(self.room / "call" / "pipe")
        (self.room / "call" / "long").write_text("9" * 5_000 + " 1\n")
        odd = run("send", targets="long")
        twice = run("send")
        twice["send"] *= 2
        cases: list[tuple[object, str]] = [
            (run("send", log="/etc/passwd"), "log names no file of the folder"),
            (run("recv", video="../call/shown.y4m"), "video names no file of the folder"),
            (run("recv", report="pipe"), "it is no file"),
            (run("recv", wire=["messages.log"]), "wire names no file of the folder"),
            (run("send", source=LONG), "source is no number of 32 bits"),
            (run("recv", skipped=-1), "skipped is no number of 32 bits"),
            (run("recv", joined=1 << 32), "joined is no number of 32 bits"),
            (run("recv", options="--lead=1"), "its options are no list of words"),
            (run("send", targets="/dev/zero"), "targets names no file of the folder"),
            (run("send", targets=None), "targets names no file of the folder"),
            (run("send", targets="pipe"), "it is no file"),
            (run("send", targets="send.log"), "targets is a file of another run, too"),
            (twice, "is a file of another run, too"),
            ({**run("send"), "rate": "1e999999999"}, "pictures a second are wanted"),
            ({**run("send"), "rate": "9" * 400}, "pictures a second are wanted"),
            ({**run("send"), "rate": "1/0"}, "pictures a second are wanted"),
            ({**run("send"), "format": {}}, "it is none of"),
            ({**run("send"), "send": {"log": 1}}, "a list of runs is wanted"),
            ({**run("send"), "recv": [None]}, "this is no run"),
            ([], "1 is wanted"),
        ]
        outputs = {"page_of_call": [self.room / "page"], "times_of_call": [], "audit_log": [self.room / "log"]}
        for facts, told in cases:
            (self.room / "call" / "call.json").write_text(json.dumps(facts))
            for name, output in outputs.items():
                with self.subTest(told, tool=name):
                    self.refused(told, name, self.room / "call", *output)
        (self.room / "call" / "call.json").write_text(json.dumps(odd))
        for name in ("page_of_call", "times_of_call"):
            self.refused("line 1: a target and a rate are wanted", name, self.room / "call", *outputs[name])
        for text in ("[" * 100_000, "{", "\0", f'{{"version": {"9" * 5_000}}}'):
            (self.room / "call" / "call.json").write_text(text)
            for name, output in outputs.items():
                self.refused("this is no JSON", name, self.room / "call", *output)
        (self.room / "call" / "call.json").unlink()
        os.mkfifo(self.room / "call" / "call.json")
        for name, output in outputs.items():
            self.refused("it is no file", name, self.room / "call", *output)

    def test_names_that_a_terminal_would_obey(self) -> None:
        """Of files, folders, words and runs: what isn't printed is an escape, halves of pairs and bytes, too."""
        odd = "\x1b]0;x\x07\u202e\udcff"
        told = "\\x1b]0;x\\x07\\u202e\\udcff"
        noise = self.file(odd, b"noise")
        out = self.room / "out"
        tried = {
            "psnr": [noise, noise],
            "log_of_pcap": [noise, out],
            "trace_of_pcap": [noise, out],
            "audit_log": [noise, out],
            "pcap_of_log": [noise, out],
            "chart_of_report": [noise, out],
            "report_json": [noise],
            "page_of_call": [noise, out],
            "times_of_call": [self.room / "none" / odd],
            "record_of_elements": [self.room / "none" / odd],
        }
        for name, words in tried.items():
            self.refused(told, name, *words)
        folder = whole_folder(self.room / f"{odd}.call").done()
        self.refused(told, "times_of_call", folder, "--other", self.room / odd / "none")
        run = subprocess.run([TOOLS / "psnr", "a", "b", odd], capture_output=True, text=True)
        self.assertIn(f"unrecognized arguments: {told}", run.stderr)
        whole_folder(self.room / "call").done()
        path = self.room / "call" / "call.json"
        facts = json.loads(path.read_text())
        for name in ("\x1b]0;x\x07", "\ud800", "\udcff", "a\u202eb"):
            facts["send"][0]["log"] = name
            path.write_text(json.dumps(facts))
            for tool_name, output in {"page_of_call": [out], "times_of_call": [], "audit_log": [out]}.items():
                self.refused("send, run 1: log names no file of the folder", tool_name, self.room / "call", *output)

    def test_sparse_files(self) -> None:
        """Reports, times, traces and a call.json of eight gigabytes."""

        def sparse(path: Path) -> Path:
            path.unlink(missing_ok=True)
            with open(path, "wb") as file:
                file.truncate(8 << 30)
            return path

        empty, out = sparse(self.room / "empty"), self.room / "out"
        log, video = self.file("one.log", b"S\0\0"), self.file(
            "one.y4m", b"YUV4MPEG2 W128 H96\nFRAME\n" + bytes(18_432)
        )
        told = "line 1: it is longer than 8,192 letters"
        self.refused(told, "report_json", empty)
        self.refused(told, "chart_of_report", empty, out)
        self.refused(told, "page_of_call", empty, out, "--shown", video)
        self.refused(told, "psnr", video, video, "--report", empty)
        self.refused(told, "pcap_of_log", log, out, "--times", empty)
        report = self.file("report", b"0 exact intra\n")
        self.refused(told, "page_of_call", report, out, "--shown", video, "--trace", empty)
        for name in ("send.txt", "recv.txt", "recv.times"):
            folder = whole_folder(self.room / name.replace(".", "-")).done()
            sparse(folder / name)
            self.refused(told, "times_of_call", folder)
        folder = whole_folder(self.room / "call").done()
        sparse(folder / "call.json")
        self.refused("this is no JSON", "times_of_call", folder)
        sparse(folder / "send.runs")
        self.refused("this is no JSON", "record_of_elements", folder)
        for data, place in ((b"x" * 9_000, "line 2"), (b"x\n" * 2_000_000, "line 100002")):
            self.refused(f"{place}: ", "chart_of_report", self.file("long", b"0 exact intra\n" + data), out)

    @needs_pillow
    def test_settings_that_no_call_has(self) -> None:
        """Numbers of 400 digits, none, or a date with control characters: the page leaves them out."""
        folder = whole_folder(self.room / "call")
        network = {"loss": LONG, "burst": float("nan"), "delay": -LONG, "outage": [LONG, 1], "kbits": True}
        folder.call.update(network=network, wait=LONG, target=float("inf"), began="2026-11-29T\x1b[31m 17:00")
        folder.call["counts"] = {"processor_seconds": LONG, "seconds": LONG}
        page = self.room / "page"
        self.assertEqual(self.run_tool("page_of_call", folder.done(), page).returncode, 0)
        self.assertIn("network: nothing lost", page.read_text())
        self.assertNotIn("\x1b", page.read_text())
        self.assertEqual(self.run_tool("times_of_call", folder.path).returncode, 0)
        folder.call["counts"] = {"processor_seconds": "1", "seconds": 0}
        self.assertEqual(self.run_tool("times_of_call", folder.done()).returncode, 0)
        folder.call["recv"][0]["options"] = ["--lead=" + "9" * 400]
        self.refused("its lead is no number", "times_of_call", folder.done())

    def test_numbers_of_400_digits(self) -> None:
        folder = whole_folder(self.room / "call").done()
        long = "9" * 400
        (folder / "recv.times").write_text(f"{long}\n")
        self.refused("a time in seconds is wanted", "times_of_call", folder)
        times = self.file("long.times", f"{long}\n".encode())
        log = self.file("one.log", b"S\0\0")
        self.refused("a time in seconds is wanted", "pcap_of_log", log, self.room / "out", "--times", times)
        report = self.file("long.txt", f"{long} exact\n".encode())
        video = self.file("long.y4m", f"YUV4MPEG2 W{long[:200]} H2\n".encode())
        out = self.room / "out"
        self.refused("the report has no picture", "chart_of_report", report, out)
        self.refused("this is no line of a report", "report_json", report)
        self.refused("a side of more than 16,384 samples", "psnr", video, video)
        self.refused("the report has no picture", "page_of_call", report, out, "--shown", video)

    def test_control_characters_in_a_drawing(self) -> None:
        """Whatever stands in a report, the drawing is XML, and no greater than its pictures ask."""
        odd = bytes(range(1, 32)) + b"\x7f<&>\xff\xfe\xef\xbf\xbf"
        rest = b"".join(odd.replace(b"\n", b"") + b"\n" for _ in range(50_000))
        report = self.file("odd.txt", b"0 exact intra\n1 held from 0\n" + rest)
        out = self.room / "chart.svg"
        self.assertEqual(self.run_tool("chart_of_report", report, out).returncode, 0)
        xml.etree.ElementTree.parse(out)
        self.assertLess(out.stat().st_size, 20_000)
        self.assertNotRegex(out.read_text(), "[\x01-\x08\x0b-\x1f]")


if __name__ == "__main__":
    unittest.main()
