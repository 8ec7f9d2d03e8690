#!/usr/bin/env python3
"""A call of two parties over the library, as `h263rps duplex` plays it:

    duplex.py A.y4m B.y4m A_SHOWN.y4m B_SHOWN.y4m TRACE [NAME=VALUE ..]

Each party has a sender and a receiver. What its receiver says waits for the header of its next
picture, which takes the last four messages; each packet of that picture brings them to the other
party's sender, by `packet_start`. The names are those of `Params`, for both parties. Prints the
report, and writes what is shown of each party's pictures.
"""

from __future__ import annotations

import sys
from collections import Counter
from pathlib import Path

sys.path[:0] = [str(Path(__file__).resolve().parent.parent)]
from h263rps import (  # noqa: E402
    MARKS,
    Clock,
    Coded,
    Format,
    Params,
    Receiver,
    Sender,
    Start,
    packet_start,
    picture_size,
)

FORMATS: dict[bytes, Format] = {b"W128": "sub-qcif", b"W176": "qcif", b"W352": "cif"}
SIZES = {"sub-qcif": "W128 H96", "qcif": "W176 H144", "cif": "W352 H288"}


def read_video(path: str) -> tuple[Format, list[bytes]]:
    """The format and the frames of a Y4M file."""
    head, rest = Path(path).read_bytes().split(b"\n", 1)
    format, pictures = FORMATS[head.split()[1]], []
    size = picture_size(format)
    while rest:
        line, rest = rest.split(b"\n", 1)
        if not line.startswith(b"FRAME"):
            sys.exit(f"{path}: no frame begins with {line!r}")
        pictures.append(rest[:size])
        rest = rest[size:]
    return format, pictures


class Party:
    """A party's sender, the other party's receiver of its pictures, and what lies between."""

    def __init__(self, letter: str, video: str, shown: str, options: dict[str, int]) -> None:
        self.letter = letter
        self.format, self.frames = read_video(video)
        params = Params.of(self.format, **options)
        self.clock: Clock = "custom" if params.clock else "standard"
        self.sender, self.receiver = Sender(params), Receiver(params)
        self.coded: list[Coded] = []
        self.packets: list[list[bytes]] = []
        # What this party's own receiver has said since the party's last picture.
        self.waiting: list[bytes] = []
        self.marks: Counter[str] = Counter()
        self.shown = open(shown, "wb")
        head = f"YUV4MPEG2 {SIZES[self.format]} F30000:1001 Ip C420jpeg\n"
        self.shown.write(head.encode())

    def send(self) -> None:
        """The next picture takes the last four messages that wait."""
        messages, self.waiting = self.waiting[-4:], []
        coded = self.sender.code(self.frames[len(self.coded)], messages)
        self.coded.append(coded)
        self.packets.append(self.sender.packets(coded))
        period = {"standard": 256, "custom": 1024}[self.clock]
        reference = None if coded.reference is None else coded.reference % period
        wanted = Start(self.format, self.clock, coded.number % period, reference, tuple(messages))
        for packet in self.packets[-1]:
            if packet_start(packet) != wanted:
                sys.exit(f"{self.letter} {coded.number}: {packet_start(packet)}, not {wanted}")

    def deliver(self, packet: bytes, other: "Party") -> None:
        """A packet brings the other party's sender the messages of its header, and is then heard;
        what is said of it waits with the other party."""
        for message in packet_start(packet).messages:
            other.sender.feedback(message)
        other.wait(self.receiver.packet(packet).message)

    def play(self, other: "Party") -> None:
        played = self.receiver.play()
        other.wait(played.message)
        coded = self.coded[sum(self.marks.values())]
        self.marks[played.mark] += 1
        self.shown.write(f"FRAME X{played.mark.upper()}\n".encode() + played.picture)
        by = "intra" if coded.reference is None else f"from {coded.reference}"
        print(self.letter, coded.number, played.mark, by)

    def wait(self, message: bytes) -> None:
        if message:
            self.waiting.append(message)

    def finish(self) -> None:
        played, counts = sum(self.marks.values()), [f"{it} {self.marks[it]}" for it in MARKS]
        print(f"{self.letter} played {played} sent {len(self.coded)}", *counts)
        self.sender.close()
        self.receiver.close()
        self.shown.close()


def main() -> None:
    first, second, first_shown, second_shown, trace, *words = sys.argv[1:]
    options = {name: int(value) for name, value in (word.split("=") for word in words)}
    a, b = Party("a", first, first_shown, options), Party("b", second, second_shown, options)
    for line in Path(trace).read_text().splitlines():
        if not line:
            continue
        letter, event, *place = line.split()
        own, other = (a, b) if letter == "a" else (b, a)
        if event == "S":
            own.send()
        elif event == "P":
            own.play(other)
        else:
            number, dot, packet = place[0].partition(".")
            packets = own.packets[int(number)]
            chosen = packets if packet == "*" else packets[int(packet) :][:1]
            for it in chosen:
                own.deliver(it, other)
    a.finish()
    b.finish()


if __name__ == "__main__":
    main()
