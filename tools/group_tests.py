"""A test of `group`: what it writes for each receiver is a run of `recv` over what reached that receiver, and a group
of one is `call`."""

import os
import random
import subprocess
import tempfile
import unittest
from dataclasses import dataclass, field
from pathlib import Path

from calltools import formula_videos, library, program, y4m
from calltools.recording import logs
from live_tests import needs_library

PROGRAM = Path(os.environ.get("H263RPS_PROGRAM", program.OWN))
# Calls, the pictures of each, and its events.
CALLS, PICTURES, EVENTS = 12, 8, 90
FORMAT = "sub-qcif"


@dataclass
class Viewer:
    """A receiver, the log of what reached it, and what it said."""

    receiver: object
    log: bytearray = field(default_factory=bytearray)
    said: list[bytes] = field(default_factory=list)
    played: int = 0

    def hears(self, packet: bytes) -> None:
        self.log += logs.entry_bytes(logs.PACKET, packet)
        self.says(self.receiver.packet(packet).message)

    def plays(self) -> None:
        self.log += logs.entry_bytes(logs.PLAY)
        self.played += 1
        self.says(self.receiver.play().message)

    def says(self, message: bytes | None) -> None:
        if message:
            self.said.append(message)


class Made:
    """A random call of a group: its trace, and the same lines without their numbers."""

    def __init__(self, seed: int, frames: list[bytes]) -> None:
        lib, self.chance, self.frames = library.loaded(), random.Random(seed), frames
        params = lib.Params.of(FORMAT)
        self.group = lib.Group(params)
        self.viewers = [Viewer(lib.Receiver(params)) for _ in range(1 + seed % 3)]
        self.pictures: list[list[bytes]] = []
        self.trace, self.alone = "", ""
        for place in range(len(self.viewers)):
            self.group.join(place)
        for _ in range(EVENTS):
            self.step()

    def say(self, line: str, place: int) -> None:
        self.trace += f"{place + 1} {line}\n"
        self.alone += line + "\n"

    def step(self) -> None:
        place, kind = self.chance.randrange(len(self.viewers)), self.chance.random()
        if kind < 0.2:
            self.capture()
        elif kind < 0.6:
            self.deliver(place)
        elif kind < 0.75:
            self.play(place)
        else:
            self.back(place)

    def capture(self) -> None:
        if len(self.pictures) < len(self.frames):
            coded = self.group.code(self.frames[len(self.pictures)])
            self.pictures.append([bytes(packet) for packet in self.group.packets(coded)])
            self.trace += "S\n"
            self.alone += "S\n"

    def deliver(self, place: int) -> None:
        if not self.pictures:
            return
        number = max(0, len(self.pictures) - 1 - self.chance.randrange(3))
        packets = self.pictures[number]
        if self.chance.random() < 0.3:
            at = self.chance.randrange(len(packets) + 1)
            self.say(f"D {number}.{at}", place)
            packets = packets[at : at + 1]
        else:
            self.say(f"D {number}.*", place)
        for packet in packets:
            self.viewers[place].hears(packet)

    def play(self, place: int) -> None:
        if self.viewers[place].played < len(self.pictures):
            self.viewers[place].plays()
            self.say("P", place)

    def back(self, place: int) -> None:
        if said := self.viewers[place].said:
            number = max(0, len(said) - 1 - self.chance.randrange(3))
            self.group.feedback(place, said[number])
            self.say(f"B {number}", place)


@needs_library
@unittest.skipUnless(os.access(PROGRAM, os.X_OK), "the program isn't built: rt ci does it")
class GroupTest(unittest.TestCase):
    def setUp(self) -> None:
        room = tempfile.TemporaryDirectory()
        self.addCleanup(room.cleanup)
        self.room = Path(room.name)
        size = y4m.Size(*y4m.FORMATS[FORMAT])
        content = next(it for it in formula_videos.CONTENTS if it.name == "textures")
        self.frames = list(content.frames(size, PICTURES))
        with open(self.room / "video", "wb") as file:
            y4m.write_head(file, size)
            for frame in self.frames:
                y4m.write_frame(file, frame)

    def run_program(self, *words: object) -> bytes:
        ran = subprocess.run([PROGRAM, *map(str, words)], stdin=subprocess.DEVNULL, capture_output=True, timeout=120)
        self.assertEqual((ran.returncode, ran.stderr), (0, b""))
        return ran.stdout

    def test_each_receiver_is_a_run_of_recv(self) -> None:
        for seed in range(CALLS):
            made = Made(seed, self.frames)
            (self.room / "trace").write_text(made.trace)
            outputs = [self.room / f"out{place + 1}" for place in range(len(made.viewers))]
            words = ["group", self.room / "video", outputs[0], "--trace", self.room / "trace"]
            for place, output in enumerate(outputs[1:], 2):
                words += [f"--out{place}", output]
            told = self.run_program(*words)
            for viewer, output in zip(made.viewers, outputs, strict=True):
                (self.room / "log").write_bytes(viewer.log)
                self.run_program("recv", self.room / "log", self.room / "alone", self.room / "wire", "--format", FORMAT)
                self.assertEqual(output.read_bytes(), (self.room / "alone").read_bytes(), seed)
            if len(made.viewers) == 1:
                (self.room / "trace").write_text(made.alone)
                words = ["call", self.room / "video", self.room / "alone", "--trace", self.room / "trace"]
                report = self.run_program(*words)
                self.assertEqual(outputs[0].read_bytes(), (self.room / "alone").read_bytes(), seed)
                self.assertEqual(told, b"".join(b"1 " + line for line in report.splitlines(True)), seed)


if __name__ == "__main__":
    unittest.main()
