"""Tests of `campaign` and of what it draws from: plans, tables, workers that die, advice, captures and loss models."""

import contextlib
import csv
import functools
import io
import os
import random
import shutil
import signal
import socket
import sqlite3
import struct
import subprocess
import sys
import tempfile
import time
import unittest
import unittest.mock
import xml.etree.ElementTree
from collections import Counter
from pathlib import Path
from typing import Any, Optional

from calltools import errors
from calltools.network import captured, loss, pcap, rtp
from calltools.recording import logs
from calltools.report import quality
from calltools.campaign import (
    advice,
    calling,
    content,
    curves,
    engines,
    intervals,
    jitter,
    jobs,
    measures,
    places,
    plan,
    progress,
    table,
)
from stub_program import STUB
from tool_modules import TOOLS, tool

EXAMPLES = TOOLS.parent / "examples"
VIDEO = EXAMPLES / "video.y4m"
# What isn't the same in two runs of one call.
SPENT = ("seconds", "megabytes", "wall", "worker")
TWELVE = f"""# twelve calls
pictures = 16
draws = 2
measures = ["exact", "patched", "held", "longest", "recovery", "spoilt", "intra", "reference", "bytes", "seconds"]

[[video]]
name = "example"
file = "{VIDEO}"

[[network]]
name = "drawn"
loss = "gilbert"
rate = 0.3
burst = 2
back = [4, 6, 8]

[options]
slots = [10, 16]
"""


def python_with(module: str) -> Optional[str]:
    """A Python that has a module: this one, or the system's."""
    for python in (sys.executable, "/usr/bin/python3"):
        if (
            Path(python).exists()
            and not subprocess.run([python, "-c", f"import {module}"], capture_output=True).returncode
        ):
            return python
    return None


class Room(unittest.TestCase):
    def setUp(self) -> None:
        room = tempfile.TemporaryDirectory()
        self.addCleanup(room.cleanup)
        self.room = Path(room.name)

    def file(self, name: str, data: bytes) -> Path:
        path = self.room / name
        path.write_bytes(data)
        return path

    def run_tool(self, name: str, *words: object) -> str:
        told = io.StringIO()
        with contextlib.redirect_stdout(told), contextlib.redirect_stderr(io.StringIO()):
            tool(name).main([str(word) for word in words])
        return told.getvalue()

    def assert_bad(self, told: str, call: Any, *given: object) -> None:
        with self.assertRaises(errors.BadInput) as caught:
            call(*given)
        self.assertEqual(str(caught.exception), told)


class CampaignTest(Room):
    def setUp(self) -> None:
        super().setUp()
        self.program = self.file("program", STUB.encode())
        self.program.chmod(0o755)
        self.plan = self.file("plan.toml", TWELVE.encode())

    def words(self, name: str, *more: object, python: str = sys.executable) -> list[str]:
        own = [python, TOOLS / "campaign", self.plan, self.room / name, "--program", self.program]
        return [str(word) for word in (*own, *more)]

    def run_it(self, name: str, *more: object, python: str = sys.executable) -> subprocess.CompletedProcess:
        return subprocess.run(self.words(name, *more, python=python), capture_output=True, text=True)

    def rows(self, name: str) -> list[dict]:
        found = table.opened(self.room / name)
        self.addCleanup(found.close)
        return list(found.rows())

    def told(self, name: str) -> list[dict]:
        """The rows in the order of their keys, without what differs from run to run."""
        rows = sorted(self.rows(name), key=lambda row: row["key"])
        return [{key: value for key, value in row.items() if key not in SPENT} for row in rows]

    def wait_for_rows(self, name: str, count: int) -> None:
        end = time.monotonic() + 60
        while time.monotonic() < end:
            with contextlib.suppress(sqlite3.Error), contextlib.closing(sqlite3.connect(self.room / name)) as base:
                if base.execute("SELECT count(*) FROM calls").fetchone()[0] >= count:
                    return
            time.sleep(0.02)
        self.fail(f"{name} has no {count} rows")

    def killed(self, name: str, how: int) -> subprocess.Popen:
        """A run that is ended by a signal when some of its rows are there."""
        quiet = {"stdout": subprocess.PIPE, "stderr": subprocess.PIPE, "text": True}
        # A test that runs in the background ignores SIGINT, and so would what it starts.
        usual = functools.partial(signal.signal, signal.SIGINT, signal.SIG_DFL)
        run = subprocess.Popen(self.words(name, "--processes", 2), start_new_session=True, preexec_fn=usual, **quiet)
        self.wait_for_rows(name, 3)
        os.killpg(run.pid, how)
        run.communicate(timeout=60)
        return run

    def test_twelve_calls_on_two_workers_resumed_after_a_kill_are_those_of_one(self) -> None:
        whole = self.run_it("one.csv", "--processes", 1)
        self.assertEqual(whole.returncode, 0, whole.stderr)
        self.assertRegex(whole.stdout, "^done 12 failed 0 in ")
        self.killed("two.sqlite", signal.SIGKILL)
        before = {row["key"] for row in self.rows("two.sqlite")}
        self.assertTrue(3 <= len(before) < 12, len(before))
        rest = self.run_it("two.sqlite", "--processes", 2)
        self.assertIn(f"calls 12 there {len(before)} to run {12 - len(before)}\n", rest.stderr)
        self.assertEqual(self.told("two.sqlite"), self.told("one.csv"))
        self.assertEqual(len(self.told("one.csv")), 12)
        again = self.run_it("two.sqlite", "--processes", 2)
        self.assertEqual((again.returncode, again.stdout), (0, "done 0 failed 0\n"))

    def test_ctrl_c_keeps_what_is_done(self) -> None:
        run = self.killed("calls.sqlite", signal.SIGINT)
        self.assertEqual(run.returncode, 130)
        rows = self.rows("calls.sqlite")
        self.assertTrue(3 <= len(rows) < 12)
        self.assertEqual({row["status"] for row in rows}, {"done"})

    def test_a_process_that_is_killed_loses_nothing(self) -> None:
        run = subprocess.Popen(
            self.words("calls.sqlite", "--processes", 2),
            stdout=subprocess.PIPE,
            stderr=subprocess.DEVNULL,
            text=True,
        )
        self.wait_for_rows("calls.sqlite", 2)
        os.kill(int(self.rows("calls.sqlite")[0]["worker"].split(":")[1]), signal.SIGKILL)
        told, _ = run.communicate(timeout=120)
        self.assertRegex(told, "^done 12 failed 0 in ")
        rows = self.rows("calls.sqlite")
        self.assertEqual((len(rows), len({row["key"] for row in rows})), (12, 12))

    def test_a_dask_worker_that_is_killed_loses_nothing(self) -> None:
        python = python_with("distributed")
        if python is None:
            self.skipTest("Dask's distributed isn't there")
        with socket.socket() as probe:
            probe.bind(("127.0.0.1", 0))
            address = f"tcp://127.0.0.1:{probe.getsockname()[1]}"
        self.start(
            python,
            "scheduler",
            "--host",
            "127.0.0.1",
            "--port",
            address.split(":")[2],
            "--no-dashboard",
        )
        one = ["--nthreads", "1", "--no-nanny", "--no-dashboard", "--local-directory"]
        workers = [self.start(python, "worker", address, *one, self.room / f"worker{n}") for n in range(2)]
        words = self.words("dask.sqlite", "--scheduler", address, python=python)
        run = subprocess.Popen(words, stdout=subprocess.PIPE, stderr=subprocess.PIPE, text=True)
        self.wait_for_rows("dask.sqlite", 3)
        workers[0].kill()
        told, said = run.communicate(timeout=120)
        self.assertRegex(told, "^done 12 failed 0 in ", said)
        self.run_it("one.csv", "--processes", 2)
        self.assertEqual(self.told("dask.sqlite"), self.told("one.csv"))

    def start(self, python: str, kind: str, *words: object) -> subprocess.Popen:
        asked = [python, "-m", f"distributed.cli.dask_{kind}", *map(str, words)]
        process = subprocess.Popen(asked, cwd=self.room, stdout=subprocess.DEVNULL, stderr=subprocess.DEVNULL)
        self.addCleanup(process.wait)
        self.addCleanup(process.kill)
        return process

    def test_without_dask_it_says_what_is_missing(self) -> None:
        if engines.lacking(["distributed"]) is None:
            self.skipTest("Dask's distributed is there")
        run = self.run_it("calls.csv", "--scheduler", "tcp://127.0.0.1:1")
        self.assertEqual(run.returncode, 1)
        self.assertRegex(run.stderr, f"^--scheduler: distributed is missing in {sys.executable}: .*python3.*\n$")
        self.assertFalse((self.room / "calls.csv").exists())

    def test_a_call_that_fails_is_a_row_with_its_words(self) -> None:
        self.program.write_text('#!/bin/sh\necho "video refused: size at byte 3"\nexit 5\n')
        run = self.run_it("calls.csv", "--processes", 1)
        self.assertRegex(run.stdout, "^done 0 failed 12 in ")
        found = {(row["status"], row["words"], row["exact"]) for row in self.rows("calls.csv")}
        self.assertEqual(found, {("failed", "BadInput: send: status 5: video refused: size at byte 3", None)})
        self.assertEqual(self.run_it("calls.csv").stdout, "done 0 failed 0\n")
        self.assertRegex(self.run_it("calls.csv", "--retry").stdout, "^done 0 failed 12 in ")
        self.assertEqual(len(self.rows("calls.csv")), 12)

    def test_another_program_is_another_call(self) -> None:
        """Calls are told apart by what the program is, not by where it lies."""
        there = plan.read_plan(self.plan)
        store = content.Store(self.room / "store")
        keys = {job.key for job in jobs.Jobs(there, self.program, store).all()}
        other = self.file("other", self.program.read_bytes())
        self.assertEqual({job.key for job in jobs.Jobs(there, other, store).all()}, keys)
        other.write_bytes(self.program.read_bytes() + b"# changed\n")
        self.assertFalse(keys & {job.key for job in jobs.Jobs(there, other, store).all()})
        name = store.put(b"program")
        store.path(name).write_bytes(b"another")
        with self.assertRaisesRegex(errors.BadInput, "it isn't what its name says$"):
            store.get(name)

    def test_no_other_file_is_written_over(self) -> None:
        found = {
            "video.csv": VIDEO.read_bytes(),
            "video.sqlite": VIDEO.read_bytes(),
            "words.csv": b"a,b\n1,2\n",
        }
        for name, data in found.items():
            self.file(name, data)
            run = self.run_it(name)
            self.assertEqual((run.returncode, run.stdout), (1, ""), name)
            self.assertRegex(run.stderr, f"^{self.room / name}: [^\n]*\n$")
            self.assertEqual((self.room / name).read_bytes(), data)
        for name, told in (
            ("calls.txt", "its name: a table ends in"),
            ("none/calls.csv", "its folder: there is no such folder"),
        ):
            self.assertIn(told, self.run_it(name).stderr)
        self.assertIn(
            "no table: it is no file",
            self.run_it("folder.csv").stderr if (self.room / "folder.csv").mkdir() is None else "",
        )

    def test_rows_of_another_plan_are_refused(self) -> None:
        self.run_it("calls.csv", "--processes", 2)
        self.plan.write_text(TWELVE.replace("draws = 2", "draws = 3"))
        run = self.run_it("calls.csv", "--processes", 2)
        self.assertIn("calls.csv: its rows: it has rows of another plan", run.stderr)
        run = self.run_it("calls.csv", "--processes", 2, "--add")
        self.assertIn("calls 18 there 12 to run 6\n", run.stderr)
        self.assertEqual(len(self.rows("calls.csv")), 18)

    def test_a_row_that_was_cut_is_taken_off(self) -> None:
        self.run_it("calls.csv", "--processes", 2)
        path = self.room / "calls.csv"
        data = path.read_bytes()
        path.write_bytes(data[:-20])
        self.assertIn("calls 12 there 11 to run 1\n", self.run_it("calls.csv", "--processes", 1).stderr)
        with open(path, newline="") as file:
            self.assertEqual(len({row["key"] for row in csv.DictReader(file)}), 12)

    def test_figures(self) -> None:
        python = python_with("matplotlib")
        if python is None:
            self.skipTest("matplotlib isn't there")
        self.run_it("calls.csv", "--processes", 2)
        for words in (
            ["--draw", self.room / "a.svg", "--by", "back", "--lines", "slots"],
            ["--advise", "--exact", "0.5", "--figure", self.room / "a.svg"],
        ):
            asked = [python, TOOLS / "campaign", self.room / "calls.csv", *words]
            run = subprocess.run([str(word) for word in asked], capture_output=True, text=True)
            self.assertEqual((run.returncode, run.stderr), (0, ""), words)
            xml.etree.ElementTree.parse(self.room / "a.svg")

    @unittest.skipUnless(shutil.which("ffmpeg"), "ffmpeg isn't there")
    def test_a_plain_sender_keeps_its_losses(self) -> None:
        """With nothing lost all is exact; a lost picture spoils those after it up to the next intra one."""
        text = TWELVE.replace("rate = 0.3", "rate = [0, 0.3]").replace("back = [4, 6, 8]", "").replace("[10, 16]", "16")
        self.plan.write_text(text + '\n[[sender]]\nkind = "plain"\nevery = 8\n')
        self.assertRegex(self.run_it("calls.csv", "--processes", 1).stdout, "^done 3 failed 0 in ")
        clean, *lossy = self.rows("calls.csv")
        self.assertEqual((clean["exact"], clean["longest"], clean["intra"]), (1.0, 0, 0.125))
        for row in lossy:
            self.assertGreater(row["spoilt"], 0)
            self.assertAlmostEqual(row["exact"] + row["patched"] + row["held"], 1)

    def test_psnr_is_the_same_with_numpy(self) -> None:
        python = python_with("numpy")
        if python is None:
            self.skipTest("numpy isn't there")
        video = VIDEO.read_bytes()
        other = self.file(
            "other.y4m",
            video[:3_000] + bytes(255 - it for it in video[3_000:9_000]) + video[9_000:],
        )
        asked = [python, TOOLS / "psnr", VIDEO, other]
        run = subprocess.run([str(word) for word in asked], capture_output=True, text=True)
        with unittest.mock.patch.object(quality, "numpy", None):
            self.assertEqual(run.stdout, self.run_tool("psnr", VIDEO, other))

    def test_measures_of_marks(self) -> None:
        marks = ["held", "exact", "patched", "held", "exact", "exact", "held"]
        self.assertEqual(measures.runs_not_exact(marks), [1, 2, 1])
        shown = [measures.Shown(mark, mark in ("exact", "patched")) for mark in marks]
        found = measures.marks_measured(shown)
        self.assertEqual((found["longest"], found["losses"]), (2, 3))
        self.assertAlmostEqual(found["recovery"], 4 / 3)
        self.assertAlmostEqual(found["spoilt"], 1 / 7)

    def test_what_came_in_time(self) -> None:
        """Late packets don't count, nor those that are too early."""
        lines = "S,S,S,S,D 3.0,D 0.*,P,D 0.1,D 1.0,D 1.2,P".split(",")
        found = calling.in_time(lines, 2)
        self.assertEqual([it.is_all for it in found], [True, False, False, False])
        self.assertEqual([it.places for it in found], [set(), {0, 2}, set(), set()])
        self.assertEqual(calling.in_time(lines, 3)[3].places, {0})

    def test_the_bar_tells_the_time_left(self) -> None:
        bar = progress.Progress(10, io.StringIO(), done=4, failed=1)
        self.assertEqual(
            bar.line(2.0),
            "[############..................] 4 of 10, 1 failed, 2.0 a second, 3 s left",
        )
        self.assertEqual([progress.duration(it) for it in (59.4, 61, 7_260)], ["59 s", "1 min 1 s", "2 h 1 min"])


class PlanTest(Room):
    def assert_refused(self, old: str, new: str, told: str) -> None:
        """The plan of twelve calls with a part replaced is refused by its line."""
        self.assertIn(old, TWELVE)
        path = self.file("plan.toml", TWELVE.replace(old, new, 1).encode())
        self.assert_bad(f"{path}: {told}", plan.read_plan, path)

    def test_wrong_plans_are_refused_by_their_line(self) -> None:
        models = "gilbert, independent, elliott, pattern"
        for old, new, told in (
            ("draws = 2", "draws = 0", "line 3: draws: 0 is not from 1 to 1,000"),
            ("draws = 2", "draws = 2.5", "line 3: draws: 2.5 is no whole number"),
            ("draws = 2", "draws = true", "line 3: draws: True is no whole number"),
            (
                "draws = 2",
                "draw = 2",
                "line 3: draw is not known here: draws, measures, network, options, pictures, sender, video are",
            ),
            ("draws = 2", "draws = ", "line 3: Invalid value"),
            (
                '"exact",',
                '"exactly",',
                "line 4: measures: 'exactly' is none of " + ", ".join(measures.MEASURES),
            ),
            ("pictures = 16", "pictures = 1", "line 2: pictures: 1 is not from 2 to 10,000"),
            (f'file = "{VIDEO}"', 'file = "none.y4m"', "line 8: none.y4m: there is no such file"),
            (f'file = "{VIDEO}"', f'file = "{EXAMPLES}"', f"line 8: {EXAMPLES}: it is no file"),
            (f'file = "{VIDEO}"', "", "line 6: video example has either file or made"),
            (f'file = "{VIDEO}"', "made = { step = 65 }", "line 8: step: 65 is not from 0 to 64"),
            ('name = "example"', 'name = ""', "line 7: has no name"),
            ('loss = "gilbert"', 'loss = "bursts"', f"line 12: loss: 'bursts' is none of {models}"),
            (
                'loss = "gilbert"',
                'trace = "a.trace"\nloss = "gilbert"',
                "line 10: a network has just one of loss, capture and trace",
            ),
            ("rate = 0.3", "", "line 10: losses by gilbert want rate"),
            ("rate = 0.3", "rate = 1.5", "line 13: rate: 1.5 is not from 0 to 1"),
            ("rate = 0.3", "rate = nan", "line 13: rate: nan is not from 0 to 1"),
            ("rate = 0.3", "rate = []", "line 13: rate has no value"),
            ("rate = 0.3", "rate = [0.1, 0.1]", "line 13: rate has a value twice"),
            ("rate = 0.3", "rate = 0.9", "line 14: bursts of 2 are too short for a rate of 0.9"),
            (
                "back = [4, 6, 8]",
                "back = { from = 4, to = 2 }",
                "line 15: back: the range ends before it begins",
            ),
            ("back = [4, 6, 8]", "back = { from = 0 }", "line 15: back: a range has from and to"),
            (
                "back = [4, 6, 8]",
                "back = { from = 0, to = 21 }",
                "line 15: back: to: 21 is not from 0 to 20",
            ),
            (
                "back = [4, 6, 8]",
                "hold = 4",
                "line 10: hold 4 is more than lead 3, so packets would be early",
            ),
            ("slots = [10, 16]", "slots = [10, 65]", "line 18: slots: 65 is not from 2 to 64"),
            ("slots = [10, 16]", "slots = 4", "line 17: lead 3 is more than slots 4 less 2"),
            (
                "slots = [10, 16]",
                "slot = 16",
                "line 18: slot is not known here: " + ", ".join(sorted(plan.OPTIONS)) + " are",
            ),
            (
                "slots = [10, 16]",
                '[[sender]]\nkind = "plain"',
                "line 18: a plain sender wants every: an intra picture so often",
            ),
            (
                "slots = [10, 16]",
                "target = { from = 1, to = 999999 }\nlimit = { from = 1200, to = 9000 }",
                "line 17: more than 1,000,000 choices",
            ),
        ):
            with self.subTest(new):
                self.assert_refused(old, new, told)

    def test_what_is_no_plan_is_refused(self) -> None:
        for data, told in (
            (b"", "the plan: it has no [[video]]"),
            (b"\xff", "byte 0: this is no UTF-8"),
            (b"SQLite format 3\0" + bytes(90), "its head: this is a table: --advise and --draw take it"),
            (b"a = [", "line 1: Invalid value"),
            (b"video = 3", "line 1: video is a table of an array: [[video]]"),
            (b"a" * (plan.MOST_PLAN + 1), f"byte {plan.MOST_PLAN}: a plan is shorter"),
        ):
            path = self.file("plan.toml", data)
            self.assert_bad(f"{path}: {told}", plan.read_plan, path)

    def test_a_plan_is_each_choice(self) -> None:
        text = TWELVE.replace("slots = [10, 16]", "slots = { from = 10, to = 16, step = 3 }\nlead = [0, 3]")
        found = plan.read_plan(self.file("plan.toml", text.encode()))
        self.assertEqual([it.values["back"] for it in found.networks], [4, 6, 8])
        self.assertEqual(
            [(it["slots"], it["lead"]) for it in found.options],
            [(a, b) for a in (10, 13, 16) for b in (0, 3)],
        )

    def test_places_of_keys(self) -> None:
        text = 'a = 1\nb = [\n  1,\n  2 ] # [[c]]\nc = """\nd = 1\n"""\n[[t]]\n"x" = { y = "]" }\n[[t]]\nx.y = 2\n[s]\nx = \'[\'\n'
        wanted = {
            ("a",): 1,
            ("b",): 2,
            ("c",): 5,
            ("t", 0): 8,
            ("t", 0, "x"): 9,
            ("t", 1): 10,
            ("t", 1, "x"): 11,
            ("s",): 12,
            ("s", "x"): 13,
        }
        self.assertEqual(places.places_of(text), wanted)


class AdviceTest(Room):
    def row(self, exact: float, longest: int, size: float, **more: Any) -> dict:
        row = {
            **dict.fromkeys(calling.COLUMNS),
            "status": "done",
            "sender": "acknowledged",
            "network": "home",
        }
        row |= {
            "video": "v",
            "lead": 3,
            "slots": 16,
            "limit": 1400,
            "target": 1000,
            "hold": 3,
            "delay": 1,
            "draw": 1,
        }
        return row | {"exact": exact, "longest": longest, "bytes": size, "psnr": 35.0, **more}

    def of(self, rows: list[dict], *asked: Any, by_bytes: bool = False) -> list[str]:
        return advice.words_of(advice.advised(advice.found_in(rows), advice.Asked(*asked), by_bytes))

    def test_the_cheapest_and_the_runner_up(self) -> None:
        """By a table made by hand: the least delay counts first, then bytes; what misses anything is out."""
        rows = [
            self.row(0.99, 2, 900, lead=3, hold=3, target=1000),
            self.row(0.97, 4, 700, lead=3, hold=3, target=800),
            self.row(0.96, 6, 500, lead=1, hold=1, target=600),
            self.row(0.96, 5, 1900, lead=2, hold=2, target=2000),
            self.row(0.90, 1, 300, lead=0, hold=0, target=400),
            self.row(0.99, 1, 100, sender="plain"),
        ]
        told = self.of(rows, 0.95, 5, 2000)
        self.assertEqual(told[0], "asked: exact 0.95, longest 5, bytes 2000; 5 choices, 5 calls")
        best = "--lead 2 --slots 16 --limit 1400 --target 2000: delay 3 pictures, 96.0 % exact, at most 5 in a row not, 1,900 bytes a picture, 35.0 dB"
        second = "--lead 3 --slots 16 --limit 1400 --target 800: delay 4 pictures, 97.0 % exact, at most 4 in a row not, 700 bytes a picture, 35.0 dB"
        self.assertEqual(told[1:], [f"take       {best}", f"runner-up  {second}"])
        told = self.of(rows, 0.95, 5, 2000, by_bytes=True)
        self.assertEqual(told[1], f"take       {second}")
        self.assertRegex(told[2], "^runner-up  --lead 3 --slots 16 --limit 1400 --target 1000: ")

    def test_nothing_meets_it(self) -> None:
        rows = [self.row(0.9, 7, 900), self.row(0.8, 2, 500, target=600)]
        told = self.of(rows, 0.85, 5, 600)
        self.assertEqual(told[1], "nothing meets it")
        self.assertRegex(told[2], "^nearest    --lead 3 .* --target 600: ")
        self.assertEqual(told[3], "misses     80.0 % exact")
        self.assertEqual(self.of([], 0.5)[1], "nothing to advise: no call with acknowledgements is done")
        only = self.of([self.row(0.9, 1, 10)], 0.5)
        self.assertEqual(only[2], "runner-up  none: nothing else meets it")

    def test_the_worst_network_and_the_interval_count(self) -> None:
        rows = [self.row(exact, 1, 900, draw=draw) for draw, exact in enumerate((0.96, 0.97, 0.98))]
        self.assertRegex(self.of(rows, 0.94)[1], r"^take .* 97.0 ± 2.5 % exact")
        told = self.of(rows, 0.96)
        self.assertEqual(told[3], "misses     97.0 % exact, but by 3 draws perhaps 94.5 %: more would tell")
        rows.append(self.row(0.5, 9, 900, network="train"))
        self.assertRegex(self.of(rows, 0.6)[3], "^misses     50.0 % exact$")
        rows = [
            self.row(0.99, 1, 900),
            {**self.row(0, 0, 0, draw=2), "status": "failed", "exact": None},
        ]
        self.assertEqual(self.of(rows, 0.9)[3], "misses     1 of its calls failed")

    def test_advice_from_a_table(self) -> None:
        path = self.room / "calls.sqlite"
        kept = table.opened(path)
        for number, row in enumerate([self.row(0.99, 2, 900), self.row(0.9, 2, 500, target=600)]):
            kept.add({**row, "key": str(number), "plan": "p"})
            kept.add({**row, "key": str(number), "plan": "p"})
        kept.close()
        told = self.run_tool(
            "campaign", "--advise", path, "--exact", "0.95", "--longest", "5", "--bytes", "2000"
        ).splitlines()
        self.assertRegex(told[0], "; 2 choices, 2 calls$")
        self.assertRegex(told[1], "^take       --lead 3 .* --target 1000: ")
        self.assertEqual(told[2], "runner-up  none: nothing else meets it")
        self.assert_bad(
            f"{self.room}/none.csv: no table: there is no such file",
            self.run_tool,
            "campaign",
            "--advise",
            self.room / "none.csv",
        )

    def test_means_by_a_column(self) -> None:
        """A plain sender is a line of its own; one value has no interval, and a failed call none."""
        rows = [self.row(exact, 1, 900, rate=0.1) for exact in (0.8, 0.9, 1.0)] + [self.row(1.0, 0, 900, rate=0)]
        rows += [
            self.row(0.5, 1, 900, rate=0.1, sender="plain", every=10),
            {**self.row(0, 0, 0, rate=0), "status": "failed"},
        ]
        wanted = curves.Curves("exact", "rate", ("sender", "every"))
        self.assertEqual(
            curves.table_of(curves.points_of(rows, wanted), wanted)[2:],
            [
                "|  | acknowledged references | 100.0 % | 90.0 ± 24.8 % |",
                "|  | ffmpeg, an intra picture in 10 |  | 50.0 % |",
            ],
        )
        kept = curves.chosen(rows, {"sender": "plain,intra"})
        self.assertEqual([row["sender"] for row in kept], ["plain"])
        known = ", ".join(jobs.LABELS)
        self.assert_bad(f"--where: ratio: none of {known}", curves.chosen, rows, {"ratio": "1"})
        with self.assertRaisesRegex(errors.BadInput, "^the figure: ratio: none of "):
            curves.points_of(rows, curves.Curves("exact", "ratio", ()))

    def test_intervals(self) -> None:
        found = intervals.interval_of([1, 2, 3])
        self.assertAlmostEqual(found.half, 4.303 / 3**0.5, places=3)
        self.assertEqual(intervals.interval_of([5]).low, 5)
        self.assertAlmostEqual(intervals.interval_of([0, 1] * 50).half, 1.96 * 0.50252 / 10, places=4)


class LossModelsTest(Room):
    def test_elliott_has_its_shares(self) -> None:
        model = loss.Elliott(0.1, 0.3, 0.02, 0.6, random.Random(3))
        lost = sum(model.is_lost() for _ in range(200_000)) / 200_000
        self.assertAlmostEqual(lost, 0.25 * 0.6 + 0.75 * 0.02, delta=0.005)
        quiet = loss.Elliott(0, 0, 0, 1, random.Random(1))
        self.assertFalse(any(quiet.is_lost() for _ in range(100)))

    def test_independent_losses_follow_no_other(self) -> None:
        model = loss.Independent(0.2, random.Random(5))
        lost = [model.is_lost() for _ in range(100_000)]
        pairs = sum(one and other for one, other in zip(lost, lost[1:]))
        self.assertAlmostEqual(sum(lost) / len(lost), 0.2, delta=0.01)
        self.assertAlmostEqual(pairs / len(lost), 0.04, delta=0.005)

    def test_patterns(self) -> None:
        """Digits, and the words of G.192 in both byte orders."""
        wanted = [False, True, True]
        for data in (b"0 1\n1\n", b"\x21\x6b\x20\x6b\x20\x6b", b"\x6b\x21\x6b\x20\x6b\x20"):
            self.assertEqual(loss.read_pattern(self.file("pattern", data)), wanted)
        model = loss.Pattern(wanted, random.Random(1))
        drawn = [model.is_lost() for _ in range(30)]
        self.assertEqual(drawn[:27], drawn[3:])
        self.assertEqual(sum(drawn), 20)
        for data, told in (
            (b"", "its end: the pattern tells of no packet"),
            (b"01x", "byte 2: a pattern has the digits 0 and 1 alone"),
            (b"\x21\x6b\x00\x6b", "byte 2: this is no word of G.192"),
        ):
            path = self.file("pattern", data)
            self.assert_bad(f"{path}: {told}", loss.read_pattern, path)

    def test_bounded_jitter_reorders_nothing(self) -> None:
        """RFC 8868, 4.5: at most three deviations late, and none passes another."""
        path = jitter.BoundedJitter(loss.Independent(0), 1.5, 0.5, random.Random(2))
        late = [path.lateness(picture, 0) for picture in range(5_000)]
        self.assertEqual(set(late), {1, 2, 3} & set(late))
        self.assertEqual(Counter(late).most_common(1)[0][0], 1)
        arrivals = [picture + it for picture, it in enumerate(late)]
        self.assertEqual(arrivals, sorted(arrivals))


class TraceOfPcapTest(Room):
    def packet(self, sequence: int, ticks: int, milliseconds: float, kind: int = 96) -> pcap.Datagram:
        head = bytes([0x80, kind]) + struct.pack(">HII", sequence & 0xFFFF, ticks & 0xFFFFFFFF, 7)
        return pcap.Datagram(round(milliseconds * 10**6), ("192.0.2.1", 5004), ("192.0.2.2", 5004), head)

    def capture(self, packets: list[pcap.Datagram]) -> Path:
        path = self.room / "call.pcap"
        with open(path, "wb") as file:
            pcap.write_head(file)
            for packet in packets:
                pcap.write_datagram(file, packet)
        return path

    def pictures(self, late: dict[int, float], lost: set[int], count: int) -> list[pcap.Datagram]:
        """A packet a picture, over the ends of the sequence numbers and timestamps."""
        period = 1001 / 30
        numbers = [number for number in range(count) if number not in lost]
        numbers.sort(key=lambda number: number * period + late.get(number, 0))
        return [
            self.packet(
                65_530 + it,
                2**32 - 9_009 + it * rtp.TICKS_A_PICTURE,
                500 + it * period + late.get(it, 0),
            )
            for it in numbers
        ]

    def test_losses_and_delays_are_those_of_the_stream(self) -> None:
        path = self.capture(self.pictures({3: 40, 8: 70}, {5, 6}, 12))
        told = self.run_tool("trace_of_pcap", path, "--no-back-loss", "--hold", 2).splitlines()
        ticks: list[list[str]] = []
        for line in told:
            if line == "S" or len(ticks) >= 12 and line == "P":
                ticks.append([])
            ticks[-1].append(line)
        came = {line: number for number, tick in enumerate(ticks) for line in tick if line.startswith("D")}
        wanted = {f"D {n}.*": n + {3: 1, 8: 2}.get(n, 0) for n in range(12) if n not in (5, 6)}
        self.assertEqual(came, wanted)
        self.assertEqual(Counter(line[0] for line in told), Counter(S=12, P=12, D=10, B=12))

    def test_a_stream_of_sound_has_its_own_clock(self) -> None:
        """PCMU: a packet each 20 ms at 8,000 ticks; a burst of five is three pictures."""
        sound = [self.packet(it, 160 * it, 20 * it, 0) for it in range(100) if not 50 <= it < 55]
        told = self.run_tool("trace_of_pcap", self.capture(sound), "--no-back-loss").splitlines()
        self.assertEqual(sum(line == "S" for line in told), 60)
        missing = [number for number in range(60) if f"D {number}.*" not in told]
        self.assertEqual(missing, [30, 31, 32])

    def test_lost_messages_are_of_the_other_half(self) -> None:
        path = self.capture(self.pictures({}, {2, 3}, 12))
        told = self.run_tool("trace_of_pcap", path).splitlines()
        self.assertEqual([n for n in range(12) if f"B {n}" not in told], [8, 9])

    def test_a_recorded_call_is_captured_at_its_times(self) -> None:
        log, times, capture = (
            EXAMPLES / "recv.log",
            self.room / "recv.times",
            self.room / "recv.pcap",
        )
        with open(log, "rb") as file:
            entries = list(logs.read_log(file, str(log)))
        times.write_text("".join(f"{0.01 * number:.6f}\n" for number in range(len(entries))))
        self.run_tool("pcap_of_log", log, capture, "--times", times)
        with open(capture, "rb") as file:
            found = [it.time // 10**6 for it in pcap.read_capture(file, "recv.pcap") if it]
        self.assertEqual(found, [10 * number for number, it in enumerate(entries) if it.letter == logs.PACKET])
        times.write_text("0.5\n")
        told = f"{times}: its end: 1 times of {len(entries)} entries"
        self.assert_bad(told, self.run_tool, "pcap_of_log", log, capture, "--times", times)

    def test_hostile_captures_are_bounded(self) -> None:
        """What a trace has follows from the capture's own time, whatever numbers and timestamps say."""
        one = self.packet(0, 0, 0)
        year = 400 * 86_400 * 1_000
        leaps = [self.packet(2_999 * it, 0, it / 1_000) for it in range(100)]
        for packets, told in (
            (
                [one, self.packet(4_000, 0, 1)],
                "RTP packet 1: its sequence number leaps by 4,000, more than 3,000",
            ),
            (
                [one, self.packet(1, 2**31 - 1, 1)],
                "RTP packet 0: its timestamp is 23,861 s away from the capture's clock, at 90,000 ticks a second",
            ),
            (
                [one, self.packet(1, 3_003, year)],
                "its clock: 34,560,000 s is longer than a call can be",
            ),
            (
                leaps,
                "its sequence numbers: 296,802 packets are missing, more than 0 s can have had",
            ),
            ([], "port 5004: no RTP packet was captured"),
        ):
            path = self.capture(packets)
            self.assert_bad(f"{path}: {told}", self.run_tool, "trace_of_pcap", path)
        path = self.file("noise", bytes(range(256)))
        self.assert_bad(f"{path}: byte 0: this is neither pcap nor pcapng", self.run_tool, "trace_of_pcap", path)

    def test_packets_that_come_twice_or_late_count_once(self) -> None:
        packets = self.pictures({}, set(), 6)
        heard = captured.heard_in(self.capture(packets + [packets[2]]), 5004, None, None)
        self.assertEqual([it.late is None for it in heard], [False] * 6)
        late = [
            self.packet(0, 0, 0),
            self.packet(1, 3_003, 33.4),
            self.packet(2, 6_006, 66.7 + 3_000),
        ]
        fates = captured.Recorded(captured.heard_in(self.capture(late), 5004, None, None), 0)
        self.assertEqual([fates.lateness(it, 0) for it in range(4)], [0, 0, None, 0])
