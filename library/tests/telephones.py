#!/usr/bin/env python3
"""Two telephones of library/examples over loopback, each of which leaves out every tenth packet:
telephones.py ONE OTHER, each a program. What one shows is what the other sent."""

import re
import socket
import subprocess
import sys
import threading
import time

WIDTH, HEIGHT, FRAMES = 176, 144, 90
SIZE = WIDTH * HEIGHT * 3 // 2
PERIOD = 1001 / 30000


def frame(n: int) -> bytes:
    """Stripes that move, with a border that doesn't."""
    row = bytes(60 + (x + 2 * n) % 64 * 2 for x in range(WIDTH))
    luma = b"".join(bytes([16 + y]) * 16 + row[16:] for y in range(HEIGHT))
    return luma + bytes([100 + n % 50]) * (SIZE - len(luma))


def free_port() -> int:
    with socket.socket(socket.AF_INET, socket.SOCK_DGRAM) as it:
        it.bind(("127.0.0.1", 0))
        return it.getsockname()[1]


class Side:
    """A telephone that runs, its camera and its screen."""

    def __init__(self, program: str, own: int, other: int) -> None:
        words = [program, str(own), "127.0.0.1", str(other), "10"]
        self.process = subprocess.Popen(words, stdin=subprocess.PIPE, stdout=subprocess.PIPE, stderr=subprocess.PIPE)
        self.shown = b""
        self.camera = threading.Thread(target=self.feed)
        self.screen = threading.Thread(target=self.watch)
        self.camera.start()
        self.screen.start()

    def feed(self) -> None:
        begun = time.monotonic()
        with self.process.stdin as pipe:
            for n in range(FRAMES):
                pipe.write(frame(n))
                pipe.flush()
                time.sleep(max(0, begun + (n + 1) * PERIOD - time.monotonic()))

    def watch(self) -> None:
        self.shown = self.process.stdout.read()

    def ended(self) -> "list[int]":
        """Pictures that were sent, and shown exact, patched and held."""
        self.camera.join()
        self.screen.join()
        said = self.process.stderr.read().decode()
        assert self.process.wait(20) == 0, said
        return [int(it) for it in re.findall(r"\d+", said)]


def is_near(shown: bytes, sent: bytes) -> bool:
    """Whether the luma differs by less than 8 on average; a stripe that is one picture old differs by more."""
    luma = WIDTH * HEIGHT
    return sum(abs(a - b) for a, b in zip(shown[:luma:7], sent[:luma:7])) < 8 * (luma // 7)


def check(name: str, it: Side, sent: int, marks: "list[int]") -> None:
    exact, patched, held = marks
    pictures = [it.shown[at : at + SIZE] for at in range(0, len(it.shown), SIZE)]
    assert len(pictures) == exact + patched + held and len(pictures[-1]) == SIZE, name
    # The other side's first frames came before the two had heard each other.
    first = FRAMES - sent
    near = sum(is_near(picture, frame(first + n)) for n, picture in enumerate(pictures[:sent]))
    print(f"{name}: sent to it {sent}, near {near}, exact {exact}, patched {patched}, held {held}")
    assert sent > FRAMES // 2 and exact > sent // 2 and near >= exact
    assert exact < sent, "no packet was lost"


def main(one: str, other: str) -> None:
    ports = free_port(), free_port()
    sides = [Side(one, *ports), Side(other, *reversed(ports))]
    told = [side.ended() for side in sides]
    for name, side, own, others in zip((one, other), sides, told, reversed(told)):
        check(name.rsplit("/", 1)[-1], side, others[0], own[1:])


main(*sys.argv[1:])
