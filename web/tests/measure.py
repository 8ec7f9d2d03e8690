#!/usr/bin/env python3
"""Figures of the page, which nothing checks: in a call with itself over a clean network, how long a picture takes from
camera to screen, and how much of a processor the browser takes, and of it the page's worker (both ends, planes, canvases),
in QCIF and CIF, with and without VP8 beside it, which the browser codes in threads of its own.

Without a camera the page makes its picture, so that all there is to code is a moving picture with gradients."""

import os
import re
import time
from pathlib import Path

from browsers import Page

SECONDS = 15
TICK = os.sysconf("SC_CLK_TCK")


def children_of(process: int) -> list[int]:
    """A process and all that it started."""
    found = [process]
    for task in Path(f"/proc/{process}/task").glob("*/children"):
        for child in task.read_text().split():
            found += children_of(int(child))
    return found


def spent(process: int) -> tuple[float, float]:
    """Seconds of a processor that they have taken, and those of the page's worker."""
    total = worker = 0
    for one in children_of(process):
        for stat in Path(f"/proc/{one}/task").glob("*/stat"):
            name, _, rest = stat.read_text().partition("(")[2].rpartition(")")
            ticks = sum(map(int, rest.split()[11:13]))
            total += ticks
            worker += ticks if name.startswith("Dedicated") else 0
    return total / TICK, worker / TICK


def measured(size: str, is_beside: bool) -> str:
    with Page(camera=False) as page:
        page.until(lambda: page.text("state") == "Ready")
        page.run("document.getElementById('size').value = arguments[0]", size)
        for name in ("loss", "delay", "jitter"):
            page.slide(name, 0)
        page.call_yourself()
        page.run("document.getElementById('numbers').open = true")
        if is_beside:
            page.press("beside")
        time.sleep(4)
        process = page.driver.service.process.pid
        counted = lambda: int(re.findall(r"(\d+) pictures sent", page.text("figures"))[0])
        before, pictures, begin = spent(process), counted(), time.monotonic()
        time.sleep(SECONDS)
        took = time.monotonic() - begin
        shares = [round(100 * (now - then) / took) for now, then in zip(spent(process), before)]
        rate = (counted() - pictures) / took
        told = "VP8 beside" if is_beside else "alone"
        return f"{size}, {told}: {shares[0]} % of a processor, the worker {shares[1]} %, at {rate:.1f} pictures a second; {page.text('figures')}"


if __name__ == "__main__":
    for size in ("qcif", "cif"):
        for is_beside in (False, True):
            print(measured(size, is_beside), flush=True)
