"""How far a campaign is: a bar on a terminal, else a line now and then."""

import sys
import time
from dataclasses import dataclass, field
from typing import TextIO

_WIDTH = 30
# Between two lines where there is no terminal, in seconds.
_EVERY = 30.0


@dataclass
class Progress:
    """Counts calls as they end."""

    whole: int
    out: TextIO = field(default_factory=lambda: sys.stderr)
    done: int = 0
    failed: int = 0
    began: float = field(default_factory=time.monotonic)
    told: float = field(default_factory=time.monotonic)

    def count(self, is_failed: bool) -> None:
        """One call has ended."""
        self.done += 1
        self.failed += is_failed
        now = time.monotonic()
        is_terminal = self.out.isatty()
        if is_terminal:
            self.out.write("\r" + self.line(now - self.began) + " ")
        elif now - self.told >= _EVERY or self.done == self.whole:
            self.told = now
            self.out.write(self.line(now - self.began) + "\n")
        self.out.flush()

    def line(self, seconds: float) -> str:
        """Where it stands after so long."""
        full = _WIDTH * self.done // max(self.whole, 1)
        bar = "#" * full + "." * (_WIDTH - full)
        rate = self.done / seconds if seconds else 0.0
        left = (self.whole - self.done) / rate if rate else 0.0
        failed = f", {self.failed} failed" if self.failed else ""
        return f"[{bar}] {self.done} of {self.whole}{failed}, {rate:.1f} a second, {duration(left)} left"

    def end(self) -> None:
        """The bar's line ends."""
        if self.out.isatty() and self.done:
            self.out.write("\n")


def duration(seconds: float) -> str:
    """Hours, minutes and seconds in words."""
    whole = round(seconds)
    hours, minutes = whole // 3_600, whole // 60 % 60
    if hours:
        return f"{hours} h {minutes} min"
    return f"{minutes} min {whole % 60} s" if minutes else f"{whole} s"
