"""Tests of `audit_log`: by the two ends' files, by captures, and by a recorded folder."""

import contextlib
import io
import json
import shutil
import struct
import subprocess
import tempfile
import unittest
from pathlib import Path

from calltools import errors
from calltools.network import pcap, rtcp, rtp
from calltools.recording import logs
from tool_modules import TOOLS, tool

# Calls of an independent program: the sender's log, and the packets that it writes.
CALLS = TOOLS.parent / "crates" / "test_commands" / "data" / "calls"
SENDER, RECEIVER = "192.0.2.1", "192.0.2.2"


def entries_of(path: Path) -> list[logs.Entry]:
    with open(path, "rb") as file:
        return list(logs.read_log(file, path.name))


class AuditLogTest(unittest.TestCase):
    def setUp(self) -> None:
        room = tempfile.TemporaryDirectory()
        self.addCleanup(room.cleanup)
        self.room = Path(room.name)
        self.log = self.room / "audit.log"

    def made(self, *words: object) -> str:
        """What `audit_log` prints; its log is `self.log`."""
        told = io.StringIO()
        with contextlib.redirect_stdout(told), contextlib.redirect_stderr(io.StringIO()):
            tool("audit_log").main([str(word) for word in words] + [str(self.log)])
        return told.getvalue().rstrip("\n")

    def assert_refused(self, told: str, *words: object) -> None:
        with self.assertRaises(errors.BadInput) as caught:
            self.made(*words)
        self.assertEqual(str(caught.exception), told)

    def write(self, name: str, entries: list[logs.Entry]) -> Path:
        path = self.room / name
        path.write_bytes(b"".join(logs.entry_bytes(it.letter, it.body) for it in entries))
        return path

    def capture(self, datagrams: list[pcap.Datagram]) -> Path:
        path = self.room / "call.pcap"
        with open(path, "wb") as file:
            pcap.write_head(file)
            for datagram in datagrams:
                pcap.write_datagram(file, datagram)
        return path

    def test_packets_stand_at_their_captures(self) -> None:
        """Each letter of the calls, by hand; what is in the entries is what the ends had."""
        calls = {
            "object": ("KKBKBK", "--format=sub-qcif --clock=standard"),
            "pan": ("KKKKKKKBKKK", "--format=qcif --clock=standard"),
            "marks": ("KKKKKKBKBKBBKKBK", "--format=sub-qcif --clock=standard"),
            "levels": ("KBKBKBKBKBKB", "--format=sub-qcif --clock=custom"),
        }
        for name, (letters, options) in calls.items():
            sent, wire = CALLS / f"{name}.send.log", CALLS / f"{name}.wire"
            self.assertEqual(self.made(sent, wire), f"audit {self.log} {options}")
            found = entries_of(self.log)
            self.assertEqual("".join(entry.letter for entry in found), letters, name)
            self.assertEqual([it for it in found if it.letter == "K"], entries_of(wire))
            said = [it for it in entries_of(sent) if it.letter == "B"]
            self.assertEqual([it for it in found if it.letter == "B"], said)

    def test_a_capture_gives_the_same_log(self) -> None:
        self.made(CALLS / "lossy.send.log", CALLS / "lossy.wire")
        wanted = self.log.read_bytes()
        tool("pcap_of_log").main([str(self.log), str(self.room / "call.pcap")])
        self.assertEqual(self.made(self.room / "call.pcap"), f"audit {self.log} --format=qcif --clock=standard")
        self.assertEqual(self.log.read_bytes(), wanted)

    def test_one_stream_of_a_live_call_is_taken(self) -> None:
        """Both ways at once, with SSRCs of their own and RTCP: packets of the one stream, and the
        messages about it, in their order; the end of a stream and strangers' datagrams count."""
        packets = [entry.body for entry in entries_of(CALLS / "object.wire")]
        message = bytes.fromhex("c00400")
        here, there = (SENDER, 5004), (RECEIVER, 5004)
        control, far_control = (SENDER, 5005), (RECEIVER, 5005)

        def said(about: int) -> bytes:
            return rtcp.feedback_bytes(rtcp.Feedback(77, about, message))

        found = [
            pcap.Datagram(1, here, there, rtp.with_source(packets[0], 5)),
            pcap.Datagram(2, there, here, rtp.with_source(packets[0], 6)),
            pcap.Datagram(3, here, there, rtp.with_source(packets[1], 5)),
            pcap.Datagram(4, far_control, control, said(6)),
            pcap.Datagram(5, far_control, control, said(5)),
            pcap.Datagram(6, control, far_control, said(5)),
            pcap.Datagram(7, here, there, b"no RTP"),
            pcap.Datagram(8, here, there, rtp.with_source(packets[2], 5)),
            pcap.Datagram(9, control, far_control, rtcp.bye_bytes(5)),
        ]
        path = self.capture(found)
        self.assert_refused(
            f"{path}: port 5004: it has the streams 0x5 of {SENDER}, 0x6 of {RECEIVER}: " "--ssrc chooses one",
            path,
        )
        self.assert_refused(
            f"{path}: port 5004: no RTP packet with SSRC 0x9 was captured, "
            "but 3 of SSRC 0x5, 1 of SSRC 0x6: --ssrc chooses",
            "--ssrc",
            "0x9",
            path,
        )
        self.assert_refused(
            f"{path}: port 5014: no RTP packet was captured, but 4 to port 5004: --port chooses", "--port", 5014, path
        )
        self.made("--ssrc", "5", path)
        kept = [("K", packets[0]), ("K", packets[1]), ("B", message), ("K", packets[2])]
        self.assertEqual([(it.letter, it.body) for it in entries_of(self.log)], kept)

    def test_a_recorded_folder_tells_its_options(self) -> None:
        runs = [{"video": "v", "log": "send.log", "wire": "packets.log", "report": "r"}]
        runs[0]["options"] = ["--quant=8", "--slots=6", "--lead=2"]
        told = {"version": 1, "format": "sub-qcif", "rate": "30", "send": runs}
        for name, file in (("send.log", "object.send.log"), ("packets.log", "object.wire")):
            (self.room / name).write_bytes((CALLS / file).read_bytes())
        call = self.room / "call.json"
        call.write_text(json.dumps(told))
        wanted = f"audit {self.log} --format=sub-qcif --clock=standard --slots=6 --lead=2"
        self.assertEqual(self.made(self.room), wanted)
        names = {"video": "v-2", "log": "send-2.log", "wire": "packets-2.log", "report": "r-2"}
        for name in ("log", "wire"):
            shutil.copy(self.room / str(runs[0][name]), self.room / names[name])
        call.write_text(json.dumps({**told, "send": [*runs, {**runs[0], **names}]}))
        self.assert_refused(f"{self.room}: send: it ran 2 times: --run chooses one", self.room)
        self.assertEqual(self.made("--run", 2, self.room), wanted)
        self.assert_refused(f"{self.room}: send: it ran 2 times", "--run", 3, self.room)

    def test_a_folder_of_elements_tells_its_options(self) -> None:
        """The line of GSTREAMER, over what the elements record; options that are no numbers are left out."""
        for name, file in (("send.log", "object.send.log"), ("packets.log", "object.wire")):
            (self.room / name).write_bytes((CALLS / file).read_bytes())
        (self.room / "send.steps").write_bytes(b"")
        run = {"log": "send.log", "wire": "packets.log", "video": "v.y4m", "report": "r.txt", "steps": "send.steps"}
        run |= {"slots": 39, "lead": 6, "clock": "standard", "target": 900, "quant": 8, "radius": 15, "limit": 1400}
        run |= {"format": "sub-qcif", "rate": "30/1"}
        (self.room / "send.runs").write_text(json.dumps(run) + "\n")
        tool("record_of_elements").main([str(self.room)])
        wanted = f"audit {self.log} --format=sub-qcif --clock=standard --slots=39 --lead=6"
        self.assertEqual(self.made(self.room), wanted)
        self.assertIn("--radius=15", json.loads((self.room / "call.json").read_text())["send"][0]["options"])
        # Of an element of 2.0.
        (self.room / "send.runs").write_text(json.dumps({name: run[name] for name in run if name != "radius"}) + "\n")
        tool("record_of_elements").main([str(self.room)])
        self.assertIn("--radius=7", json.loads((self.room / "call.json").read_text())["send"][0]["options"])
        (self.room / "send.runs").write_text(json.dumps({**run, "slots": "3 --format=cif", "lead": "\033]0;"}) + "\n")
        tool("record_of_elements").main([str(self.room)])
        self.assertEqual(self.made(self.room), f"audit {self.log} --format=sub-qcif --clock=standard")
        guide = (TOOLS.parent / "docs" / "GSTREAMER.md").read_text()
        self.assertIn("\n    ./h263rps $(tools/audit_log call audit.log)\n", guide)
        self.assertEqual(guide.count("audit_log"), 1)

    def test_what_fails_within_a_line_makes_it_short(self) -> None:
        """For `./h263rps $(tools/audit_log ..)`, which would print the whole help."""
        for words in (["none", self.log], [], ["none", self.log, "--port", "x"]):
            run = subprocess.run([TOOLS / "audit_log", *map(str, words)], capture_output=True, text=True)
            self.assertEqual((run.returncode != 0, run.stdout), (True, "audit\n"))
            self.assertTrue(run.stderr)
        run = subprocess.run([TOOLS / "audit_log", "--help"], capture_output=True, text=True)
        self.assertEqual((run.returncode, run.stdout[:6]), (0, "usage:"))

    def test_ends_that_do_not_fit_are_refused(self) -> None:
        packet = logs.Entry("K", bytes.fromhex("80600000 00000000 48323633"))
        capture, message = logs.Entry("S"), logs.Entry("B", bytes(3))
        wire = self.write("wire", [packet])
        played = self.write("played", [capture, logs.Entry("P")])
        self.assert_refused(f"{played}: entry 1: P is of no sender's log", played, wire)
        none = self.write("none", [message])
        why = f"it is of 1 pictures, and {none} has 0 captures"
        self.assert_refused(f"{wire}: its packets: {why}", none, wire)
        spoken = self.write("spoken", [packet, message])
        sent = self.write("sent", [capture, message, capture])
        self.assert_refused(f"{spoken}: entry 1: B is no packet", sent, spoken)
        # A capture of which nothing was sent has no packets, and bytes that are no RTP stay.
        strange = self.write("strange", [packet, logs.Entry("K", b"?")])
        self.assertEqual(self.made(sent, strange), f"audit {self.log}")
        kept = [(entry.letter, len(entry.body)) for entry in entries_of(self.log)]
        self.assertEqual(kept, [("K", 12), ("K", 1), ("B", 3)])

    def test_an_empty_log_of_no_call(self) -> None:
        nothing = self.write("nothing", [])
        self.assertEqual(self.made(nothing, nothing), f"audit {self.log}")
        self.assertEqual(self.log.read_bytes(), b"")

    def test_binary_files_are_refused(self) -> None:
        noise = self.room / "noise"
        noise.write_bytes(struct.pack(">I", 0x89504E47) + bytes(range(256)))
        self.assert_refused(f"{noise}: byte 0: this is neither pcap nor pcapng", noise)
        self.assert_refused(f"{noise}: byte 0: the log ends within an entry", noise, noise)


if __name__ == "__main__":
    unittest.main()
