"""A call over a trace by the commands `send` and `recv` alone: each end has a log, and no other program joins them."""

import subprocess
from dataclasses import dataclass, replace
from pathlib import Path
from typing import Optional

from . import lines
from .recording import logs
from .errors import BadInput
from .report.picture_lines import Picture, Report, read_report
from .report.trace import LINE
from .recording.wire import packets_of_pictures

# The options that each of the two commands takes; the receiver's format is that of the video.
SEND_OPTIONS = ("quant", "keep", "radius", "limit", "slots", "lead", "clock", "target")
RECV_OPTIONS = ("format", "slots", "lead", "messages", "clock")


@dataclass(frozen=True)
class Call:
    """Which program is run on which video, with options by their names, and where its files are written."""

    program: Path
    video: Path
    options: dict[str, str]
    room: Path

    def file(self, name: str) -> Path:
        return self.room / name

    def run(self, command: str, words: list[Path], names: tuple[str, ...]) -> list[str]:
        """A command's report."""
        options = [f"--{name}={value}" for name, value in self.options.items() if name in names]
        return self.printed(command, [str(self.program), command, *map(str, words), *options])

    def printed(self, command: str, asked: list[str]) -> list[str]:
        """What a run of the program prints."""
        done = subprocess.run(asked, capture_output=True, text=True)
        if done.returncode:
            raise BadInput(" ".join(asked), f"status {done.returncode}", done.stdout + done.stderr)
        return done.stdout.splitlines()


def read_trace(path: Path) -> list[str]:
    """The lines of a trace, each in the grammar, and each of a picture that was sent by then."""
    with open(path, "rb") as file:
        events = [line.rstrip("\n") for line in lines.lines_in(file, str(path), lines.MOST_OF_TIMES)]
    sent = played = 0
    for number, line in enumerate(events, 1):
        if not LINE.fullmatch(line):
            raise BadInput(str(path), f"line {number}", "it says no event")
        sent += line == "S"
        played += line == "P"
        picture = int(line[2:].split(".")[0]) if line.startswith("D") else played - 1
        if picture >= sent:
            raise BadInput(str(path), f"line {number}", f"picture {picture} isn't sent yet")
    return events


def joined_call(call: Call, trace: list[str]) -> Report:
    """Runs both ends over the events, again and again, until the sender was given what the receiver says.

    What an end writes depends on what it was given before that alone. So the first message is right after the first
    run, and each run makes at least one more right; a guess makes most of them right at once.
    """
    messages = _guessed_messages(trace)
    for _ in range(len(trace) + 2):
        sent, shown = _send(call, trace, messages), _receive(call, trace)
        said = _said(call)
        if said == messages:
            _check_messages(call, trace, len(said))
            return _joined_report(sent, shown)
        messages = said
    raise BadInput("the trace", "its messages", "some come back before they are said")


def _guessed_messages(trace: list[str]) -> list[bytes]:
    """The messages of version 1 in the standard clock, if what arrives whole is what is delivered by `D n.*`."""
    full: set[int] = set()
    said: list[bytes] = []
    played = 0
    for line in trace:
        if line.startswith("D") and line.endswith("*"):
            picture = int(line[2:-2])
            if picture >= played and picture not in full:
                full.add(picture)
                said.append(_message_bytes(True, picture, picture))
        elif line == "P":
            if played not in full:
                said.append(_message_bytes(False, played, max(full, default=played)))
            played += 1
    return said


def _message_bytes(is_ack: bool, picture: int, reference: int) -> bytes:
    # BT, URF 0, TR, a marker, RTR (docs/FORMATS.md, "Back-channel message").
    bits = (3 if is_ack else 2) << 22 | picture % 256 << 11 | 1 << 10 | reference % 256
    return bits.to_bytes(3, "big")


def _said(call: Call) -> list[bytes]:
    with open(call.file("messages.log"), "rb") as file:
        return [entry.body for entry in logs.read_log(file, "messages.log")]


def _check_messages(call: Call, trace: list[str], count: int) -> None:
    # One message is said of each picture, by its play at the latest; where a trace is quicker, the receiver is asked.
    front = replace(call, room=call.file("front"))
    plays = 0
    for at, line in enumerate(trace):
        plays += line == "P"
        number, said = _message(line), plays
        if plays <= number < count:
            _receive(front, trace[:at], call.file("packets.log"))
            said = len(_said(front))
        if number >= said:
            raise BadInput("the trace", f"line {at + 1}", "this message isn't said yet")


def bytes_of_packets(call: Call) -> int:
    """How many bytes the packets of the last call have, RTP header included."""
    with open(call.file("packets.log"), "rb") as file:
        return sum(len(entry.body) for entry in logs.read_log(file, "packets.log"))


def _message(line: str) -> int:
    return int(line[2:]) if line.startswith("B") else -1


def _send(call: Call, trace: list[str], messages: list[bytes]) -> list[str]:
    entries = [
        logs.Entry(logs.CAPTURE) if line == "S" else logs.Entry(logs.MESSAGE, messages[_message(line)])
        for line in trace
        if line == "S" or 0 <= _message(line) < len(messages)
    ]
    _write_log(call.file("send.log"), entries)
    words = [call.video, call.file("send.log"), call.file("packets.log")]
    return call.run("send", words, SEND_OPTIONS)


def _receive(call: Call, trace: list[str], sent: Optional[Path] = None) -> list[str]:
    call.room.mkdir(parents=True, exist_ok=True)
    packets = _packets_of_pictures(sent or call.file("packets.log"))
    entries: list[logs.Entry] = []
    for line in trace:
        if line == "P":
            entries.append(logs.Entry(logs.PLAY))
        elif line.startswith("D"):
            number, place = line[2:].split(".")
            here = packets[int(number)]
            chosen = here if place == "*" else here[int(place) : int(place) + 1]
            entries += [logs.Entry(logs.PACKET, packet) for packet in chosen]
    _write_log(call.file("recv.log"), entries)
    words = [call.file("recv.log"), call.file("shown.y4m"), call.file("messages.log")]
    return call.run("recv", words, RECV_OPTIONS)


def _packets_of_pictures(path: Path) -> list[list[bytes]]:
    with open(path, "rb") as file:
        return packets_of_pictures(logs.read_log(file, str(path)), str(path))


def _write_log(path: Path, entries: list[logs.Entry]) -> None:
    with open(path, "wb") as file:
        for entry in entries:
            logs.write_entry(file, entry)


def _joined_report(sent: list[str], shown: list[str]) -> Report:
    # The references from the one report, the marks from the other.
    by_sender = read_report(sent, "the report of send").pictures
    by_receiver = read_report(shown, "the report of recv").pictures
    pictures = [
        Picture(played.number, played.mark, coded.is_intra, coded.reference)
        for played, coded in zip(by_receiver, by_sender)
    ]
    marks = [picture.mark for picture in pictures]
    counts = " ".join(f"{mark} {marks.count(mark)}" for mark in ("exact", "patched", "held"))
    return Report(pictures, [f"played {len(pictures)} sent {len(by_sender)} {counts}"])
