"""How far long work is: a line on the standard error, where that is a terminal."""

import contextlib
import sys
import threading
import time
from typing import Callable, Iterable, Iterator, Optional, TypeVar

from .errors import shown

Step = TypeVar("Step")

# Nothing is said before this many seconds, and then once in so many.
_FIRST, _EVERY = 2.0, 0.5
_CLEAR = "\r\033[K"


class Working:
    """The line of one piece of work, of `whole` steps where that is known."""

    def __init__(self, what: str, whole: Optional[int] = None, unit: str = "") -> None:
        self._what, self._whole, self._unit = what, whole, unit
        self._began = time.monotonic()
        self._next = self._began + _FIRST
        self._is_shown = False

    def at(self, done: int) -> None:
        """So many steps are done."""
        now = time.monotonic()
        if now < self._next or not sys.stderr.isatty():
            return
        self._next, self._is_shown = now + _EVERY, True
        print(f"{_CLEAR}{shown(self._what)} {self._told(done, now)}", end="", file=sys.stderr, flush=True)

    def _told(self, done: int, now: float) -> str:
        if not self._whole or not done:
            return f"{done:,}{self._unit}"
        share = min(done / self._whole, 1.0)
        left = (now - self._began) * (1 - share) / share
        return f"{100 * share:.0f} %, {left:.0f} s left"

    def end(self) -> None:
        """The line goes."""
        if self._is_shown:
            print(_CLEAR, end="", file=sys.stderr, flush=True)
            self._is_shown = False


def through(
    steps: Iterable[Step],
    what: str,
    whole: Optional[int] = None,
    done: Optional[Callable[[], int]] = None,
) -> Iterator[Step]:
    """The steps one by one; how many are done is counted, or told by `done`."""
    working = Working(what, whole)
    try:
        for number, step in enumerate(steps):
            working.at(done() if done else number)
            yield step
    finally:
        working.end()


@contextlib.contextmanager
def meanwhile(what: str) -> Iterator[None]:
    """Tells for how long work has gone on whose steps nobody counts."""
    working, over, began = Working(what, unit=" s"), threading.Event(), time.monotonic()

    def tell() -> None:
        while not over.wait(_EVERY):
            working.at(round(time.monotonic() - began))

    teller = threading.Thread(target=tell, daemon=True)
    teller.start()
    try:
        yield
    finally:
        over.set()
        teller.join()
        working.end()
