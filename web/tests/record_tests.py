#!/usr/bin/env python3
"""What the page keeps of a call, read by the tools and, where the gate left it, by the program: the same pictures, marks
and messages again, byte for byte."""

import os
import subprocess
import sys
import tarfile
import tempfile
import time
import unittest
from pathlib import Path

from browsers import Page

TOP = Path(__file__).resolve().parents[2]
PROGRAM = Path(os.environ.get("H263RPS_PROGRAM", TOP / "crates" / "h263rps" / "out" / "h263rps"))
sys.path.insert(0, str(TOP / "tools"))
from calltools.recording import logs, recorded, recorded_ways  # noqa: E402


def recorded_call(page: Page, room: Path, seconds: float, act=lambda: None) -> Path:
    """A call with oneself that the page keeps, as a folder; `act` is done in its middle."""
    page.driver.execute_cdp_cmd("Browser.setDownloadBehavior", {"behavior": "allow", "downloadPath": str(room)})
    page.until(lambda: page.text("state") == "Ready")
    page.run("document.getElementById('keep').checked = true")
    page.call_yourself()
    time.sleep(seconds / 2)
    act()
    time.sleep(seconds / 2)
    page.press("hang_up")
    page.until(lambda: page.text("save").startswith("Save the call’s record (tar, "))
    page.press("save")
    page.until(lambda: list(room.glob("call-*.tar")))
    (packed,) = room.glob("call-*.tar")
    with tarfile.open(packed) as file:
        file.extractall(room)
    return packed.with_suffix("")


class RecordTest(unittest.TestCase):
    def setUp(self) -> None:
        self.room = Path(self.enterContext(tempfile.TemporaryDirectory()))

    def test_a_record_is_read_again(self) -> None:
        with Page() as page:
            folder = recorded_call(page, self.room, 8)
            page.picture("saved")
            self.assertEqual(page.complaints(), [])
        record = recorded.read_record(folder)
        self.assertFalse(record.is_cut)
        (way_of,) = recorded_ways.ways_of(record)
        marks = [picture.mark for picture in way_of.pictures]
        fates = [packet.fate for packet in way_of.packets]
        print(
            f"{len(marks)} pictures, {marks.count('exact')} exact; {len(fates)} packets, {fates.count('lost')} lost; "
            f"{len(way_of.messages)} messages; {sum(it.stat().st_size for it in folder.iterdir()):,} bytes"
        )
        self.assertGreater(len(marks), 20)
        self.assertGreater(marks.count("exact"), len(marks) // 2)
        self.assertGreater(fates.count("taken"), fates.count("lost"))
        self.assertTrue(
            all(picture.captured is not None and picture.played > picture.captured for picture in way_of.pictures)
        )
        self.read_again(record)

    def test_another_wait_is_another_run(self) -> None:
        with Page() as page:
            record = recorded.read_record(recorded_call(page, self.room, 8, lambda: page.slide("wait", 200)))
            self.assertEqual(page.complaints(), [])
        self.assertEqual([run["log"] for run in record.runs("recv")], ["recv.log", "recv-2.log"])
        self.read_again(record)

    def read_again(self, record: recorded.Record) -> None:
        folder = record.folder
        tools = [
            ["times_of_call", folder],
            ["page_of_call", folder, self.room / "page.html"],
            ["audit_log", folder, self.room / "audit.log"],
        ]
        for name, *words in tools:
            run = subprocess.run([sys.executable, TOP / "tools" / name, *words], capture_output=True, text=True)
            self.assertEqual(run.returncode, 0, (name, run.stderr))
        for run in record.runs("recv"):
            if PROGRAM.exists():
                self.read_by_the_program(record, run)
            else:
                print(f"the program isn't there: {PROGRAM}")

    def read_by_the_program(self, record: recorded.Record, run: dict) -> None:
        """`recv` over the log of a run says the marks and the messages of the call, and makes its pictures."""
        log, messages, video = (self.room / name for name in ("recv.log", "messages.log", "shown.y4m"))
        before = run["joined"] * logs.entry_bytes(logs.PLAY)
        log.write_bytes(before + record.path(run["log"]).read_bytes())
        words = [word for option in run["options"] for word in option.split("=")]
        told = subprocess.run([PROGRAM, "recv", log, video, messages, *words], capture_output=True, text=True)
        self.assertEqual(told.returncode, 0, told.stdout[-200:] + told.stderr)
        lines = told.stdout.splitlines()[run["joined"] : -1]
        self.assertEqual(lines, record.path(run["report"]).read_text().splitlines())
        own, again = (list(self.entries(path)) for path in (record.path(run["wire"]), messages))
        self.assertEqual(again[len(again) - len(own) :], own)
        print(f"recv: {told.stdout.splitlines()[-1]}; {video.stat().st_size:,} bytes of pictures")

    @staticmethod
    def entries(path: Path) -> list[logs.Entry]:
        with open(path, "rb") as file:
            return list(logs.read_log(file, str(path)))


if __name__ == "__main__":
    unittest.main()
