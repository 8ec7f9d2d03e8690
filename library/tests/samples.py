#!/usr/bin/env python3
"""Writes the samples of a Y4M file in sub-QCIF without its lines: samples.py VIDEO."""

import sys
from pathlib import Path

SIZE = 18432
# A video that ends after its head has no frame.
_, _, data = Path(sys.argv[1]).read_bytes().partition(b"\nFRAME")
while data:
    at = data.index(b"\n") + 1
    sys.stdout.buffer.write(data[at : at + SIZE])
    data = data[at + SIZE :]
