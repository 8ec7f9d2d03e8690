"""Tests of the dissector for Wireshark, h263rps.lua: what tshark says by it is what the bits say."""

import random
import re
import shutil
import subprocess
import tempfile
import unittest
from pathlib import Path
from typing import Iterator, Optional

from calltools.network import pcap, rtcp
from calltools.recording import logs
from tool_modules import TOOLS

EXAMPLES = TOOLS.parent / "examples"
PROGRAM = TOOLS.parent / "crates" / "h263rps" / "out" / "h263rps"
SENDER, RECEIVER = ("192.0.2.1", 5004), ("192.0.2.2", 5004)
FIELDS = ("plen", "format", "clock", "kind", "tr", "trp", "pquant", "mba", "squant", "slice.trp")
SAID = ("message.kind", "message.tr", "message.rtr", "message.complete")
MBA_BITS = {1: 6, 2: 7, 3: 9}
ACK, NACK = "11", "10"


def bits_of(data: bytes) -> str:
    return "".join(f"{byte:08b}" for byte in data)


def bytes_of(bits: str) -> bytes:
    bits += "0" * (-len(bits) % 8)
    return int(bits, 2).to_bytes(len(bits) // 8, "big")


def message(kind: str, tr: int, rtr: int, complete: str = "") -> str:
    """A message's bits (docs/FORMATS.md, "Back-channel message"), with 14 flags or none."""
    flags = f"1{complete[:7]}1{complete[7:]}" if complete else ""
    return f"{kind}{int(bool(complete))}{tr:010b}1{rtr:010b}{flags}"


def header_of(bits: str) -> tuple[dict[str, int], int]:
    """The fields of a picture header by their places in it, and where its BCI begins."""
    custom = int(bits[28])
    told = {"format": int(bits[25:28], 2), "clock": custom, "kind": int(bits[43:46], 2), "tr": int(bits[6:14], 2)}
    if custom:
        told["tr"] += 256 * int(bits[61:63], 2)
    at = 58 + 10 * custom
    if bits[at] == "1":
        told["trp"] = int(bits[at + 1 : at + 11], 2)
    return told, at + 1 + 10 * int(bits[at])


def fields_of(packet: bytes) -> dict[str, int]:
    """What FORMATS' tables say of a packet without messages in its header."""
    body = bits_of(packet[12:])
    plen = int(body[7:13], 2)
    told, bci = header_of(body[16:])
    told["plen"] = plen
    told["pquant"] = int(body[16 + bci + 2 :][:5], 2)
    if plen:
        at = 16 + 8 * plen + 2
        told["squant"] = int(body[at + MBA_BITS[told["format"]] :][:5], 2)
        after = at + MBA_BITS[told["format"]] + 5 + 1 + 2 + 1
        if body[after] == "1":
            told["slice.trp"] = int(body[after + 1 : after + 11], 2)
    else:
        at = 16 + bci + 2 + 5 + 1 + 1
    told["mba"] = int(body[at : at + MBA_BITS[told["format"]]], 2)
    return told


def with_messages(packet: bytes, said: list[str]) -> bytes:
    """A picture's first packet whose header carries these messages, too."""
    body = bits_of(packet[12:])
    _, bci = header_of(body[16:])
    at = 16 + bci
    return packet[:12] + bytes_of(body[:at] + "".join("1" + it for it in said) + body[at:])


@unittest.skipUnless(shutil.which("tshark"), "Wireshark isn't there")
class DissectorTest(unittest.TestCase):
    def setUp(self) -> None:
        room = tempfile.TemporaryDirectory()
        self.addCleanup(room.cleanup)
        self.room = Path(room.name)

    def tshark(self, capture: Path, *words: str) -> str:
        script = f"lua_script:{TOOLS / 'h263rps.lua'}"
        run = subprocess.run(
            ["tshark", "-X", script, "-r", str(capture), *words], capture_output=True, text=True, check=True
        )
        fault = re.search("Lua.*", run.stdout + run.stderr)
        self.assertIsNone(fault, fault)
        return run.stdout

    def rows(self, capture: Path, fields: tuple[str, ...]) -> Iterator[list[str]]:
        words = [word for name in fields for word in ("-e", f"h263rps.{name}")]
        words += ["-e", "_ws.expert.message"]
        for line in self.tshark(capture, "-T", "fields", *words).splitlines():
            yield line.split("\t")

    def captured(self, packets: list[bytes], port: Optional[int] = None) -> Path:
        path = self.room / "made.pcap"
        start, to = ((it[0], port or it[1]) for it in (SENDER, RECEIVER))
        with path.open("wb") as file:
            pcap.write_head(file)
            for packet in packets:
                pcap.write_datagram(file, pcap.Datagram(0, start, to, packet))
        return path

    def made(self, log: Path) -> tuple[Path, list[bytes]]:
        """The capture that pcap_of_log makes of a log, and the packets in it."""
        path = self.room / "log.pcap"
        subprocess.run([TOOLS / "pcap_of_log", log, path], check=True)
        with log.open("rb") as file:
            return path, [it.body for it in logs.read_log(file, str(log)) if it.letter == logs.PACKET]

    def compare(self, capture: Path, packets: list[bytes]) -> None:
        rows = list(self.rows(capture, FIELDS))
        self.assertEqual(len(rows), len(packets))
        for row, packet in zip(rows, packets):
            told = fields_of(packet)
            self.assertEqual(row, [*(str(told.get(name, "")) for name in FIELDS), ""])

    def test_each_field_of_an_example(self) -> None:
        self.compare(*self.made(EXAMPLES / "recv.log"))

    @unittest.skipUnless(PROGRAM.exists(), "the gate left no program")
    def test_each_field_of_slices_and_clocks(self) -> None:
        """Pictures of several packets, in each format and clock: the extra header, SQUANT, ETR."""
        for format, clock in (("sub-qcif", "custom"), ("qcif", "standard"), ("cif", "custom")):
            video, log, wire = self.room / "a.y4m", self.room / "a.log", self.room / "wire.log"
            words = [video, "--format", format, "--frames", "4", "--seed", "3", "--noise", "9"]
            subprocess.run([TOOLS / "make_video", *words], check=True)
            # The second picture is acknowledged before the third.
            body = bytes_of(message(ACK, 1, 1))
            said = b"B" + len(body).to_bytes(2, "big") + body
            log.write_bytes(b"S\0\0S\0\0" + said + b"S\0\0S\0\0")
            run = [PROGRAM, "send", video, log, wire, "--limit", "1200", "--quant", "2", "--clock", clock]
            subprocess.run(run, check=True, capture_output=True)
            capture, packets = self.made(wire)
            self.compare(capture, packets)
            told = [fields_of(packet) for packet in packets]
            self.assertTrue(any("slice.trp" in it for it in told) and any("trp" in it for it in told))

    def test_messages_in_headers(self) -> None:
        _, packets = self.made(EXAMPLES / "recv.log")
        first = next(it for it in packets if not fields_of(it)["plen"])
        flags = "10110000000001"
        for said in (
            [message(ACK, 7, 7)],
            [message(NACK, 9, 3), message(ACK, 255, 255)],
            [message(ACK, 1, 1, flags), message(NACK, 2, 1), message(NACK, 200, 198, flags), message(ACK, 0, 0)],
        ):
            row = next(self.rows(self.captured([with_messages(first, said)]), (*FIELDS, *SAID)))
            plain = [str(fields_of(first).get(name, "")) for name in FIELDS]
            parts = [(int(it[:2], 2), int(it[3:13], 2), int(it[14:24], 2)) for it in said]
            wanted = [",".join(str(part[n]) for part in parts) for n in range(3)]
            complete = ",".join(flags for it in said if it[2] == "1")
            self.assertEqual(row, [*plain, *wanted, complete, ""])

    def test_messages_by_themselves_and_in_rtcp(self) -> None:
        said = [message(ACK, 7, 7), message(NACK, 9, 3), message(ACK, 1, 1, "11111110000000")]
        report = bytes.fromhex("80c9000100000000")
        for text in said:
            body = bytes_of(text)
            feedback = rtcp.feedback_bytes(rtcp.Feedback(1, 2, body))
            for datagram in (body, feedback, report + feedback):
                row = next(self.rows(self.captured([datagram], 5005), SAID))
                wanted = [str(int(text[a:b], 2)) for a, b in ((0, 2), (3, 13), (14, 24))]
                flags = text[25:32] + text[33:40]
                self.assertEqual(row, [*wanted, flags, ""])

    def test_what_is_wrong_is_said(self) -> None:
        _, packets = self.made(EXAMPLES / "recv.log")
        body = bits_of(packets[0][12:])
        turned = body[:16] + "0" + body[17:]  # the start code's 17th bit
        row = next(self.rows(self.captured([packets[0][:12] + bytes_of(turned)]), ("tr",)))
        self.assertIn("start code", row[1])
        row = next(self.rows(self.captured([bytes_of(message("01", 1, 1))], 5005), SAID))
        self.assertIn("neither ACK nor NACK", row[-1])

    def test_bytes_of_any_kind(self) -> None:
        """Cut, turned and random packets: no error of the script, whatever they say."""
        rng = random.Random(5)
        _, packets = self.made(EXAMPLES / "recv.log")
        some = [packets[0][:size] for size in range(12, 40)]
        for packet in packets[:40]:
            at = rng.randrange(12, min(len(packet), 40))
            some.append(packet[:at] + rng.randbytes(3) + packet[at + 3 :])
        some += [packets[0][:12] + rng.randbytes(rng.randrange(30)) for _ in range(200)]
        self.assertTrue(self.tshark(self.captured(some), "-V"))
        some = [rng.randbytes(rng.randrange(1, 8)) for _ in range(50)]
        some += [bytes.fromhex("83ce") + rng.randbytes(rng.randrange(14, 30)) for _ in range(100)]
        self.assertTrue(self.tshark(self.captured(some, 5005), "-V"))
