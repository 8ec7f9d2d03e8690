"""A test of `send --fit`: it writes what the library's sender and pace make of the same video and messages."""

import os
import subprocess
import tempfile
import unittest
from collections import deque
from pathlib import Path

from calltools import formula_videos, library, program, y4m
from calltools.recording import logs
from live_tests import needs_library

PROGRAM = Path(os.environ.get("H263RPS_PROGRAM", program.OWN))
# Bytes a picture, pictures, the pictures after which messages come back, and the room of the command in targets.
TARGETS, PICTURES, TRIP, ROOM = (300, 700, 1_500), 30, 2, 30
# Of these pictures no packet arrives, so that the ones after them refer further back.
LOST = range(12, 16)


@needs_library
@unittest.skipUnless(os.access(PROGRAM, os.X_OK), "the program isn't built: rt ci does it")
class FitTest(unittest.TestCase):
    def setUp(self) -> None:
        room = tempfile.TemporaryDirectory()
        self.addCleanup(room.cleanup)
        self.room = Path(room.name)

    def call(self, frames: list[bytes], target: int) -> tuple[bytes, list[int]]:
        """Writes the sender's log of a call in which the pace is asked, and returns the packets' log and the
        quantisers."""
        lib = library.loaded()
        back: deque[list[bytes]] = deque([[] for _ in range(TRIP)])
        wire: list[bytes] = []
        quants: list[int] = []
        params, pace = lib.Params.of("qcif"), lib.Pace("qcif", target=target, room=ROOM * target)
        with lib.Sender(params) as sender, lib.Receiver(params) as receiver, open(self.room / "log", "wb") as log:
            for number, frame in enumerate(frames):
                for message in back.popleft():
                    logs.write_entry(log, logs.Entry(logs.MESSAGE, message))
                    sender.feedback(message)
                logs.write_entry(log, logs.Entry(logs.CAPTURE, b""))
                quants.append(pace.next(sender))
                coded = sender.code(frame)
                packets = sender.packets(coded)
                pace.coded(coded, quants[-1], sum(map(len, packets)))
                wire += [logs.entry_bytes(logs.PACKET, packet) for packet in packets]
                came = [] if number in LOST else packets
                heard = [receiver.packet(packet).message for packet in came] + [receiver.play().message]
                back.append([message for message in heard if message])
        return b"".join(wire), quants

    def test_the_command_writes_what_the_library_sends(self) -> None:
        size = y4m.Size(*y4m.FORMATS["qcif"])
        content = next(it for it in formula_videos.CONTENTS if it.name == "textures")
        frames, video = list(content.frames(size, PICTURES)), self.room / "video"
        with open(video, "wb") as file:
            y4m.write_head(file, size)
            for frame in frames:
                y4m.write_frame(file, frame)
        for target in TARGETS:
            wire, quants = self.call(frames, target)
            self.assertGreater(len(set(quants)), 3)
            words = [PROGRAM, "send", video, self.room / "log", self.room / "wire", "--fit", str(target)]
            ran = subprocess.run(words, stdin=subprocess.DEVNULL, capture_output=True, timeout=120)
            self.assertEqual((ran.returncode, ran.stderr), (0, b""))
            self.assertEqual((self.room / "wire").read_bytes(), wire)


if __name__ == "__main__":
    unittest.main()
