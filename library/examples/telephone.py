#!/usr/bin/env python3
"""The telephone of telephone.c in Python: the two understand each other.

    telephone.py PORT HOST PORT [DROP]

Pictures of QCIF come from the standard input (Y, Cb, Cr) and go to the standard output, 30 a second.
"""

import os
import select
import socket
import sys
import time

from h263rps import Params, Receiver, Sender, picture_size

PERIOD = 1001 / 30000  # seconds of a picture
WAIT = 0.1  # from the first packet to the first picture that is shown
HELLO = b"?"  # until the other side has been heard


class Telephone:
    """Both ends of a call, its socket and its clock."""

    def __init__(self, line: socket.socket, drop: int) -> None:
        # 1,800 bytes a picture: 430 kbit/s.
        params = Params.of("qcif", target=1800)
        self.line, self.drop = line, drop
        self.sender, self.receiver = Sender(params), Receiver(params)
        self.frame = bytearray()  # what has been read of the next picture
        self.sent = self.packets = self.plays = 0
        self.began = 0.0  # when the first picture is due; 0 before the first packet
        self.heard = False
        self.marks = {"exact": 0, "patched": 0, "held": 0}

    def put(self, datagram: bytes) -> None:
        try:
            self.line.send(datagram)
        except OSError:
            pass  # lost, also by a full buffer: what the other end is made for

    def due(self) -> float:
        return self.began + self.plays * PERIOD

    def read_picture(self) -> bool:
        """Reads what there is of the next picture, and sends it once it is whole."""
        size = picture_size("qcif")
        data = os.read(sys.stdin.fileno(), size - len(self.frame))
        self.frame += data
        if len(self.frame) == size:
            if self.heard:
                self.send_picture(bytes(self.frame))
            self.frame.clear()
        return bool(data)

    def send_picture(self, picture: bytes) -> None:
        self.sent += 1
        for packet in self.sender.packets(self.sender.code(picture)):
            self.packets += 1
            if not self.drop or self.packets % self.drop:
                self.put(packet)

    def play(self) -> None:
        """Shows the picture that is due."""
        played = self.receiver.play()
        if played.message:
            self.put(played.message)
        self.marks[played.mark] += 1
        sys.stdout.buffer.write(played.picture)
        sys.stdout.buffer.flush()

    def take_packet(self, packet: bytes) -> None:
        heard = self.receiver.packet(packet)
        # A packet that is too early shows that pictures are played too late: one more is.
        if heard.kind == "early" and self.began:
            self.play()
            heard = self.receiver.packet(packet)
        if heard.message:
            self.put(heard.message)
        if not self.began and heard.kind in ("taken", "completed"):
            self.began = time.monotonic() + WAIT

    def take_datagram(self) -> None:
        try:
            datagram = self.line.recv(65536)
        except OSError:
            return
        self.heard = True
        if len(datagram) in (3, 5):
            self.sender.feedback(datagram)
        elif len(datagram) > 5:
            self.take_packet(datagram)

    def turn(self, reads: bool) -> bool:
        """Waits for a picture, a datagram or the next play, and does what came."""
        left = self.due() - time.monotonic() if self.began else 0.1
        inputs = [self.line, sys.stdin] if reads else [self.line]
        ready, _, _ = select.select(inputs, [], [], min(max(left, 0), 0.1))
        if self.line in ready:
            self.take_datagram()
        if sys.stdin in ready:
            reads = self.read_picture()
        if self.began and self.due() <= time.monotonic():
            self.plays += 1
            self.play()
        return reads


def connected(own: str, host: str, port: str) -> socket.socket:
    family, kind, _, _, there = socket.getaddrinfo(host, port, type=socket.SOCK_DGRAM)[0]
    line = socket.socket(family, kind)
    line.bind(("", int(own)))
    line.connect(there)
    return line


def main(own: str, host: str, port: str, drop: str = "0") -> None:
    it = Telephone(connected(own, host, port), int(drop))
    reads, said, quiet = True, 0.0, time.monotonic()
    # It ends two seconds after the input, so that the other side's last pictures are shown.
    while reads or time.monotonic() - quiet < 2:
        reads = it.turn(reads)
        now = time.monotonic()
        if reads:
            quiet = now
        if not (it.heard and it.sent) and now - said > 0.2:
            it.put(HELLO)
            said = now
    shown = ", ".join(f"{mark} {count}" for mark, count in it.marks.items())
    print(f"sent {it.sent}, shown {shown}", file=sys.stderr)


if __name__ == "__main__":
    if len(sys.argv) not in (4, 5):
        sys.exit(__doc__)
    main(*sys.argv[1:])
