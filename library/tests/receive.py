#!/usr/bin/env python3
"""Plays a receiver's log through the library: receive.py LOG FORMAT OUT_YUV OUT_WIRE."""

import sys
from pathlib import Path

sys.path[:0] = [str(Path(__file__).resolve().parent.parent)]
from h263rps import Params, Receiver  # noqa: E402

log, format, out, wire = sys.argv[1:]
data = Path(log).read_bytes()
pictures, messages, at = [], [], 0
with Receiver(Params.of(format)) as receiver:
    while at < len(data):
        size = int.from_bytes(data[at + 1 : at + 3], "big")
        letter, body = data[at : at + 1], data[at + 3 : at + 3 + size]
        at += 3 + size
        if letter == b"K":
            message = receiver.packet(body).message
        else:
            played = receiver.play()
            message = played.message
            pictures.append(played.picture)
        if message:
            messages.append(b"B" + len(message).to_bytes(2, "big") + message)
Path(out).write_bytes(b"".join(pictures))
Path(wire).write_bytes(b"".join(messages))
