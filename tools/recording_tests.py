"""Tests of recorded calls that were cut off, and of those of two machines."""

import contextlib
import io
import json
import resource
import signal
import subprocess
import time
import unittest
from pathlib import Path
from unittest import mock

from calltools import errors
from calltools.recording import logs, recorded, recorded_ways, recorder as recording
from live_tests import Calls, free_port, needs_library
from page_tests import HEARD, MARKS, ROWS, SAID, Folder, Room, as_shown, frames, is_pillow_here, whole_folder
from tool_modules import TOOLS, tool

CUT = ": the recording was cut off: what is whole of it is taken\n"


class CutTest(Room):
    """A recording whose writer ended anywhere."""

    def opened(self, name: str, *words: object) -> tuple[str, str]:
        """What a tool says on both streams, and a refusal in its place; anything else it raises fails the test."""
        told, said = io.StringIO(), io.StringIO()
        with contextlib.redirect_stdout(told), contextlib.redirect_stderr(said):
            try:
                tool(name).main([str(word) for word in words])
            except errors.BadInput as fault:
                return "", f"{said.getvalue()}refused: {fault}"
        return told.getvalue(), said.getvalue()

    def opened_by_all(self, folder: Path) -> list[tuple[str, str]]:
        page, log = self.room / "page.html", self.room / "audit.log"
        return [
            self.opened("page_of_call", folder, page),
            self.opened("times_of_call", folder),
            self.opened("audit_log", folder, log),
        ]

    def cut_folder(self) -> Path:
        """A folder as a call leaves it that nobody ends."""
        folder = whole_folder(self.room / "call")
        # `send` marks the last packet of a picture.
        with open(folder.path / "packets.log", "rb") as file:
            packets = [entry.body for entry in logs.read_log(file, "packets.log")]
        with open(folder.path / "packets.log", "wb") as file:
            for number, body in enumerate(packets):
                marked = body[:1] + bytes([body[1] | number % 2 << 7]) + body[2:]
                logs.write_entry(file, logs.Entry(logs.PACKET, marked))
        del folder.call["counts"]
        return folder.done()

    def test_a_recording_is_cut_at_twenty_places(self) -> None:
        """All files at once, and then each alone: each of the three tools takes what is whole and says so, or refuses
        it in words, and the longer the recording the more is told."""
        folder = self.cut_folder()
        files = {path.name: path.read_bytes() for path in folder.iterdir() if path.name != "call.json"}
        told_pictures = []
        for place in range(1, 21):
            for name, content in files.items():
                (folder / name).write_bytes(content[: len(content) * place // 20])
            for told, said in self.opened_by_all(folder):
                self.assertIn(str(folder) + CUT, said, place)
                self.assertTrue(told or "refused: " in said or "page.html" not in said, (place, said))
            (way_of,) = recorded_ways.ways_of(recorded.read_record(folder)) or [None]
            told_pictures.append(len(way_of.pictures) if way_of else 0)
        self.assertEqual(told_pictures, sorted(told_pictures))
        self.assertEqual((told_pictures[0], told_pictures[-1]), (0, 4))
        for name, content in files.items():
            for place in range(20):
                (folder / name).write_bytes(content[: len(content) * place // 20])
                for _, said in self.opened_by_all(folder):
                    self.assertIn(str(folder) + CUT, said, (name, place))
            (folder / name).unlink()
            for _, said in self.opened_by_all(folder):
                self.assertIn(str(folder) + CUT, said, name)
            (folder / name).write_bytes(content)

    def test_what_is_whole_is_taken(self) -> None:
        """Of the last file's bytes half of a picture is no picture, half of a line no line, zeros are no times."""
        folder = self.cut_folder()
        (folder / "recv.txt").write_text("0 exact\n1 patched\n2 held\n3 exac")
        (folder / "send.txt").write_text("0 intra\n1 from 0\n2 from 1\n3 from 2\n4 from")
        (folder / "recv.times").write_bytes((folder / "recv.times").read_bytes() + bytes(40) + b"\n0.3\n")
        with open(folder / "packets.log", "ab") as file:
            file.write(b"K\0\x20abc")
        (way_of,) = recorded_ways.ways_of(recorded.read_record(folder))
        self.assertEqual([picture.mark for picture in way_of.pictures], MARKS[:3])
        told, said = self.opened("times_of_call", folder)
        self.assertIn("shown 3 exact 1 patched 1 held 1", told)
        # Without its last packet picture 4 isn't whole, and the audit doesn't hear of it.
        with open(folder / "packets.log", "rb") as file:
            packets = file.read()
        (folder / "packets.log").write_bytes(packets[: -6 - 25])
        self.opened("audit_log", folder, self.room / "audit.log")
        with open(self.room / "audit.log", "rb") as file:
            entries = list(logs.read_log(file, "audit.log"))
        self.assertEqual(sum(entry.letter == logs.PACKET for entry in entries), 8)

    def test_a_whole_recording_is_read_as_strictly_as_before(self) -> None:
        folder = whole_folder(self.room / "call").done()
        self.assertNotIn("cut off", "".join(said for _, said in self.opened_by_all(folder)))
        (folder / "recv.txt").write_text("0 exact\n1 patched\n3 exact\n")
        self.assertIn("picture 2 is wanted here", self.opened("times_of_call", folder)[1])

    def test_times_between_two_machines(self) -> None:
        """Both ways, by clocks that are put together; without the other folder no time is made up."""
        here = Folder(self.room / "here", clock=3.0).came(ROWS, SAID)
        here.shown(MARKS, as_shown(frames()[:4], MARKS)).done()
        there = Folder(self.room / "there", clock=-2.0).sent(frames()[:5], HEARD).done()
        (here.path / "shown.times").write_text("".join(f"{3.15 + n / 30:.6f}\n" for n in range(4)))
        told, said = self.opened("times_of_call", here.path, "--other", there)
        lines = told.splitlines()
        self.assertEqual((lines[0], said), ("there to here:", ""))
        self.assertIn("shown 4 exact 2 patched 1 held 1, exact 50.0 %", lines)
        self.assertIn("capture to first packet: median 1.0 95 % 1.0 99 % 1.0 most 1.0 ms", lines)
        # By its own clock the receiver showed picture 0 at 0.15 s, and the way is made as long as the one back.
        self.assertRegex(told, r"capture to shown, of exact pictures: median 15\d\.\d ")
        self.assertIn("two clocks: put together so that the quickest packet and message take as long", lines)
        for folder in (here.path, there):
            self.assertIn("--other names the other machine's folder", self.opened("times_of_call", folder)[1])

    def test_the_times_of_a_call_are_those_of_its_files(self) -> None:
        folder = whole_folder(self.room / "call").done()
        (folder / "shown.times").write_text("".join(f"{0.14 + n * 1001 / 30000:.6f}\n" for n in range(4)))
        told = self.opened("times_of_call", folder)[0].splitlines()
        wanted = [
            "captured 4 in 0.1 s, 17 kbit/s",
            "shown 4 exact 2 patched 1 held 1, exact 50.0 %",
            "capture to first packet: median 1.0 95 % 1.0 99 % 1.0 most 1.0 ms",
            "capture to shown, of exact pictures: median 140.0 95 % 140.0 99 % 140.0 most 140.0 ms",
            "references: intra 1 1 back 3",
            "runs of wrong pictures: 2 long 1",
        ]
        self.assertEqual(told[1:], wanted[1:])
        self.assertRegex(told[0], r"^captured 4 in 0\.1 s, \d+ kbit/s$")


@needs_library
class RecorderTest(Calls):
    """How a call is recorded."""

    def test_a_folder_that_holds_something_is_refused(self) -> None:
        folder = self.room / "call"
        folder.mkdir()
        (folder / "mine").write_text("kept")
        ends = ("--format", "sub-qcif", "--camera", self.video(2), "--screen", "none", "--record", folder)
        call = self.run_call(*ends)
        self.assertEqual((call.status, call.told), (1, f"{folder}: --record: the folder isn't empty\n"))
        self.assertEqual([path.name for path in folder.iterdir()], ["mine"])
        (folder / "mine").unlink()
        self.assertEqual(self.run_call(*ends).status, 0)

    def test_a_call_that_is_killed_can_be_read(self) -> None:
        """Small files are on the disk to the last second or so, and all three tools take them."""
        folder = self.room / "call"
        ends = ("--format", "sub-qcif", "--camera", self.video(900), "--screen", "none", "--record", folder)
        call = self.start("--port", free_port(), *ends)
        until = time.monotonic() + 30
        while time.monotonic() < until and not (folder / "recv.txt").exists():
            time.sleep(0.1)
        time.sleep(4)
        call.process.send_signal(signal.SIGKILL)
        call.process.communicate()
        self.assertNotIn("counts", json.loads((folder / "call.json").read_text()))
        for name in ("send.log", "send.times", "packets.log", "recv.log", "recv.times", "recv.txt", "messages.log"):
            self.assertGreater((folder / name).stat().st_size, 0, name)
        outputs = {"times_of_call": [], "audit_log": [self.room / "log"]}
        if is_pillow_here():
            outputs["page_of_call"] = [self.room / "page"]
        for name, output in outputs.items():
            run = subprocess.run([TOOLS / name, folder, *output], capture_output=True, text=True)
            self.assertEqual(run.returncode, 0, run.stderr)
            self.assertIn(str(folder) + CUT, run.stderr)

    def test_a_full_disk_leaves_what_was_written(self) -> None:
        """The first write that fails ends the recording, call.json is whole, and nothing more is written."""
        faults = []
        folder = self.room / "call"
        recorder = recording.Recorder(folder, 0.0, {"format": "sub-qcif"})
        recorder.on_fault = faults.append
        run = recorder.run("send", {})
        run.write("log", b"S\0\0")
        recorder.flush()
        self.assertEqual((folder / "send.log").read_bytes(), b"S\0\0")
        with open("/dev/full", "wb") as full:
            run._files["log"].close()
            run._files["log"] = full
            run.write("log", b"S\0\0")
            recorder.flush()
            run.write("wire", b"K\0\0")
            recorder.finish({"captured": 1})
            self.assertEqual(len(faults), 1)
            with contextlib.suppress(OSError):
                full.close()
        self.assertNotIn("counts", json.loads((folder / "call.json").read_text()))
        self.assertEqual(sorted(path.suffix for path in folder.iterdir() if path.suffix == ".new"), [])

    def test_a_folder_is_tried_before_a_call_is_touched(self) -> None:
        """A file in its place, one that isn't empty, no permission, no room: each is told, and nothing is left there."""
        (self.room / "file").write_text("x")
        (self.room / "full").mkdir()
        soft, hard = resource.getrlimit(resource.RLIMIT_FSIZE)
        for name, told in (
            ("file", "nothing can be recorded there: File exists"),
            ("file/call", "nothing can be recorded there: Not a directory"),
            (".", "--record: the folder isn't empty"),
            ("/proc/call", "nothing can be recorded there: No such file or directory"),
            ("full", "nothing can be recorded there: File too large"),
        ):
            with self.assertRaises(errors.BadInput) as caught, contextlib.ExitStack() as stack:
                resource.setrlimit(resource.RLIMIT_FSIZE, (1_000 if name == "full" else soft, hard))
                stack.callback(resource.setrlimit, resource.RLIMIT_FSIZE, (soft, hard))
                recording.make_folder(self.room / name)
            self.assertEqual(str(caught.exception), f"{self.room / name}: {told}")
        self.assertEqual(list((self.room / "full").iterdir()), [])
        recording.make_folder(self.room / "full")
        self.assertEqual(list((self.room / "full").iterdir()), [])

    def test_a_disk_that_is_full_from_the_start(self) -> None:
        """The first write fails: that is the recorder's fault, and the call goes on without it."""
        with mock.patch.object(recording, "_replace", side_effect=OSError(28, "No space left on device")):
            recorder = recording.Recorder(self.room / "call", 0.0, {})
        self.assertFalse(recorder.is_on)
        self.assertEqual(recorder.fault and recorder.fault.strerror, "No space left on device")
        recorder.run("send", {}).write("log", b"S\0\0")
        recorder.finish({})

    def test_a_call_that_begins_anew_without_end_fills_no_disk(self) -> None:
        """After so many runs of an end, kept at once or once tried, nothing more is recorded of that end."""
        folder = self.room / "call"
        recorder = recording.Recorder(folder, 0.0, {"format": "sub-qcif"})
        with mock.patch.object(recording, "MOST_RUNS", 3):
            for number in range(8):
                run = recorder.run("recv", {}, number % 2 == 0)
                run.write("log", b"P\0\0")
                if number % 2:
                    run.keep()
                run.write("log", b"P\0\0")
                self.assertEqual(run.held, 0)
                run.close()
            recorder.run("send", {}).close()
        recorder.finish({})
        told = json.loads((folder / "call.json").read_text())
        self.assertEqual([len(told[end]) for end in ("recv", "send")], [3, 1])
        logs = sorted(path.name for path in folder.iterdir() if path.name.startswith("recv") and path.suffix == ".log")
        self.assertEqual(logs, ["recv-2.log", "recv-3.log", "recv.log"])


if __name__ == "__main__":
    unittest.main()
