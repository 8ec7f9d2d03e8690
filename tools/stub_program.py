"""What tests run in the place of the program."""

import sys

from tool_modules import TOOLS

# A packet a picture, and an ACK for each that comes, but no NACK.
STUB = f"""#!{sys.executable}
import sys
sys.path.insert(0, {str(TOOLS)!r})
from calltools.network import rtp
from calltools.recording import logs
log, wire = (sys.argv[3], sys.argv[4]) if sys.argv[1] == "send" else (sys.argv[2], sys.argv[4])
count, newest, came = 0, None, set()
with open(log, "rb") as read, open(wire, "wb") as write:
    for entry in logs.read_log(read, log):
        if entry.letter == "B":
            bits = int.from_bytes(entry.body, "big")
            newest = bits >> 11 & 255 if bits >> 22 == 3 else newest
        elif entry.letter == "K":
            number = rtp.rtp_header(entry.body).timestamp // rtp.TICKS_A_PICTURE
            came.add(number)
            logs.write_entry(write, logs.Entry("B", (3 << 22 | number << 11 | 1 << 10 | number).to_bytes(3, "big")))
        else:
            if entry.letter == "S":
                header = bytes([0x80, 96, 0, count]) + (rtp.TICKS_A_PICTURE * count).to_bytes(4, "big") + b"H263"
                logs.write_entry(write, logs.Entry("K", header))
                print(count, "intra" if newest is None else f"from {{newest}}")
            else:
                print(count, "exact" if count in came else "held")
            count += 1
"""
