#!/usr/bin/env python3
"""run.py SCRIPT: carries out a script of scripts.py on the native library, and prints each answer."""

import hashlib
import json
import re
import sys
from pathlib import Path

sys.path[:0] = [str(Path(__file__).resolve().parents[2])]
from h263rps import RUNS, Params, Receiver, Refused, Sender, Session, label, packet_start  # noqa: E402


def sum_of(*parts: bytes) -> str:
    """Of parts whose lengths count, too."""
    sum = hashlib.sha256()
    for part in parts:
        sum.update(len(part).to_bytes(4, "big") + part)
    return sum.hexdigest()[:16]


def frames_of(path: str) -> list[bytes]:
    data = Path(path).read_bytes()
    head, _, rest = data.partition(b"\n")
    width, height = (int(re.search(rb" %c(\d+)" % letter, head)[1]) for letter in b"WH")
    size = width * height * 3 // 2
    return [rest[at + 6 : at + 6 + size] for at in range(0, len(rest), size + 6)]


def edited(packet: bytes, edits: list[str]) -> bytes:
    made = bytearray(packet)
    for edit in edits:
        kind, word = edit.split(":")
        if kind == "a":
            made += bytes.fromhex(word)
        elif kind == "c":
            del made[int(word) % (len(made) + 1) :]
        elif made:
            bit = int(word) % (8 * (min(len(made), 16) if kind == "h" else len(made)))
            made[bit // 8] ^= 128 >> bit % 8
    return bytes(made)


def or_none(number: object) -> object:
    return "none" if number is None else number


def of_stream(packet: bytes, source: str, ticks: str) -> bytes:
    """The packet with another SSRC and another time."""
    named = label(packet, int(source), 96)
    return named[:4] + int(ticks).to_bytes(4, "big") + named[8:]


class Run:
    def __init__(self) -> None:
        self.ends: list[Sender | Receiver | Session] = []
        self.frames: list[bytes] = []
        self.coded = 0
        self.packets: list[list[bytes]] = []
        self.said: list[bytes] = []
        self.source: int | None = None

    def step(self, line: str) -> None:
        name, _, rest = line.partition(" ")
        getattr(self, f"do_{name}")(rest)

    def do_sender(self, rest: str) -> None:
        params = json.loads(rest)
        self.sender = Sender(Params.of(params.pop("format"), **params))
        self.ends.append(self.sender)

    def do_receiver(self, rest: str) -> None:
        params = json.loads(rest)
        number = params.pop("number", 0)
        self.receiver = Receiver(Params.of(params.pop("format"), **params), number)
        self.ends.append(self.receiver)

    def do_session(self, rest: str) -> None:
        params = json.loads(rest)
        timing = {name: params.pop(name) for name in ("rate", "second", "wait")}
        self.session = Session(Params.of(params.pop("format"), **params), **timing)
        self.ends.append(self.session)

    def do_video(self, path: str) -> None:
        self.frames = frames_of(path)

    def do_code(self, rest: str) -> None:
        back = [self.said[int(word) % len(self.said)] for word in rest.split() if self.said]
        coded = self.sender.code(self.frames[self.coded % len(self.frames)], back)
        self.coded += 1
        self.packets.append(self.sender.packets(coded))
        print("coded", coded.number, coded.packets, or_none(coded.reference), sum_of(*self.packets[-1]))

    def hear(self, packet: bytes) -> None:
        try:
            start = packet_start(packet)
            back = ",".join(message.hex() for message in start.messages)
            print("start", start.format, start.clock, start.temporal_reference, or_none(start.reference), back)
        except Refused as fault:
            print(fault)
        heard = self.receiver.packet(packet)
        print("heard", heard.kind, int(heard.fault), heard.at, heard.number, heard.message.hex())
        self.keep(heard.message)

    def keep(self, message: bytes) -> None:
        if message:
            self.said.append(message)

    def do_hear(self, rest: str) -> None:
        picture, place = rest.split(".")
        packets = self.packets[int(picture) % len(self.packets)]
        for packet in packets if place == "*" else packets[int(place) : int(place) + 1]:
            self.hear(packet)

    def do_changed(self, rest: str) -> None:
        draw, *edits = rest.split()
        packets = self.packets[-1]
        self.hear(edited(packets[int(draw) % len(packets)], edits))

    def do_bytes(self, rest: str) -> None:
        self.hear(bytes.fromhex(rest))

    def do_play(self, _: str) -> None:
        played = self.receiver.play()
        print(
            "played",
            played.mark,
            played.number,
            or_none(played.reference),
            played.message.hex(),
            sum_of(played.picture),
        )
        self.keep(played.message)

    def come(self, datagram: bytes, now: int) -> None:
        verdict = "ahead"
        while verdict == "ahead":
            arrived = self.session.arrival(datagram, now, self.source)
            verdict, heard = arrived.verdict, (
                or_none(arrived.kind),
                int(arrived.fault),
                arrived.at,
                arrived.message.hex(),
            )
            taken = map(or_none, (arrived.cause, arrived.run, arrived.source, arrived.ahead))
            print("arrived", verdict, *taken, int(arrived.is_rival), *heard)
            self.keep(arrived.message)
            self.play_due(now)

    def play_due(self, now: int) -> None:
        while turn := self.session.play(now):
            told = (turn.run, turn.source, turn.mark, turn.number, or_none(turn.reference), turn.message.hex())
            print("turn", *told, sum_of(bytes(self.session.shown())))
            self.keep(turn.message)
        print("due", *map(or_none, (self.session.due(), *map(self.session.source, RUNS))))

    def do_arrive(self, rest: str) -> None:
        which, source, ticks, now = rest.split()
        picture, place = which.split(".")
        packets = self.packets[int(picture) % len(self.packets)]
        for packet in packets if place == "*" else packets[int(place) : int(place) + 1]:
            self.come(of_stream(packet, source, ticks), int(now))

    def do_garble(self, rest: str) -> None:
        draw, source, ticks, now, *edits = rest.split()
        packets = self.packets[-1]
        self.come(edited(of_stream(packets[int(draw) % len(packets)], source, ticks), edits), int(now))

    def do_datagram(self, rest: str) -> None:
        now, text = rest.split(" ")
        self.come(bytes.fromhex(text), int(now))

    def do_only(self, rest: str) -> None:
        self.source = int(rest) or None

    def do_turn(self, rest: str) -> None:
        self.play_due(int(rest))

    def do_ask(self, rest: str) -> None:
        print("asked", *(number for field in self.session.missing(*map(int, rest.split())) for number in field))

    def do_bye(self, rest: str) -> None:
        source, now = map(int, rest.split())
        self.session.bye(source, now)
        self.play_due(now)

    def do_anew(self, rest: str) -> None:
        self.session.reset(int(rest))
        self.play_due(int(rest))
        print("shown", sum_of(bytes(self.session.shown())))

    def do_back(self, rest: str) -> None:
        self.reply(self.said[int(rest)])

    def do_last(self, rest: str) -> None:
        if self.said:
            self.reply(self.said[-1 - int(rest) % len(self.said)])

    def do_reply(self, rest: str) -> None:
        self.reply(bytes.fromhex(rest))

    def reply(self, message: bytes) -> None:
        reply = self.sender.feedback(message)
        print("noted", reply.kind, int(reply.fault), self.sender.known())

    def do_target(self, rest: str) -> None:
        self.sender.target(int(rest))

    def do_forget(self, _: str) -> None:
        self.sender.forget()

    def do_reset(self, rest: str) -> None:
        self.counts()
        self.sender.reset(int(rest))
        self.receiver.reset()
        self.packets.clear()

    def counts(self) -> None:
        for end in self.ends:
            counts = [value if isinstance(value, dict) else {"": value} for value in end.statistics()]
            print("counted", *(number for count in counts for number in count.values()))


if __name__ == "__main__":
    run = Run()
    with open(sys.argv[1]) as script:
        for step in script:
            run.step(step.rstrip("\n"))
    run.counts()
