#!/usr/bin/env python3
"""Inputs of fuzz.c that are calls as they should be, for libFuzzer to begin with: seeds.py FOLDER."""

import random
import sys
from pathlib import Path

CODE, HEAR, HEAR_CHANGED, PLAY, FEEDBACK, STEER = 0, 2, 6, 9, 11, 14
PACKETS = 6  # the most that a picture has here


def place(n: int) -> bytes:
    """Of a packet or a message, by how many came after it."""
    return n.to_bytes(2, "big")


def call(seed: int) -> bytes:
    """A call of 20 pictures: each coded, most of its packets heard, played, acknowledged."""
    draws = random.Random(seed)
    quant, clock, slots = draws.randrange(31), draws.randrange(2), draws.randrange(8)
    # At number 0; the parameters; a limit of 1,200 to 9,000; no target.
    data = bytes([1, quant, draws.randrange(2), clock, slots, draws.randrange(9)])
    data += draws.randrange(65536).to_bytes(2, "big") + bytes([1])
    for _ in range(20):
        # Its count of messages, its samples: a seed and how much noise.
        data += bytes([CODE, 0, draws.randrange(256), draws.choice([0, 0, 1, 1, 3])])
        for i in reversed(range(PACKETS)):
            if draws.random() > 0.1:
                data += bytes([HEAR]) + place(i)
            elif draws.random() > 0.5:
                data += bytes([HEAR_CHANGED]) + place(i) + draws.randbytes(4)
        data += bytes([PLAY, draws.randrange(2)])
        if draws.random() > 0.2:
            data += bytes([FEEDBACK]) + place(draws.randrange(3))
        if draws.random() > 0.9:
            data += bytes([STEER]) + draws.randbytes(4)
    return data


folder = Path(sys.argv[1])
folder.mkdir(parents=True, exist_ok=True)
for seed in range(40):
    (folder / f"seed{seed}").write_bytes(call(seed))
