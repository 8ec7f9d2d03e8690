"""What a call tells its user: lines, and on a terminal a status that is rewritten in place."""

import os
from collections import deque
from dataclasses import dataclass
from typing import Optional, TextIO

from .tally import Tally

_CLEAR = "\r\033[K"
# The seconds of which a status tells losses and exact pictures.
_SECONDS = 10


class Told:
    """The standard error of a call."""

    def __init__(self, file: TextIO) -> None:
        self._file = file
        self.is_terminal = file.isatty()
        self._is_shown = False

    def say(self, words: str) -> None:
        """A line that stays; the status goes, and comes again with the next second."""
        print(f"{_CLEAR if self._is_shown else ''}{words}", file=self._file, flush=True)
        self._is_shown = False

    def status(self, words: str) -> None:
        """The status of a second. On no terminal it is a line as any other."""
        if not self.is_terminal:
            self.say(words)
            return
        self._is_shown = True
        print(f"{_CLEAR}{words[: self._width()]}", end="", file=self._file, flush=True)

    def end(self) -> None:
        """The status goes."""
        if self._is_shown:
            print(_CLEAR, end="", file=self._file, flush=True)
        self._is_shown = False

    def _width(self) -> Optional[int]:
        # A line that wraps couldn't be rewritten. The last column is left free, for the cursor.
        try:
            return max(os.get_terminal_size(self._file.fileno()).columns - 1, 0) or None
        except OSError:
            return None


@dataclass(frozen=True)
class Heard:
    """What is known of the network: the round trip in seconds and the share that is lost of what
    goes out, by the other party's reports; how many packets of what comes in there should be, and
    how many there are; and its jitter in seconds."""

    round_trip: Optional[float] = None
    loss: Optional[float] = None
    expected: int = 0
    came: int = 0
    jitter: Optional[float] = None


class TerminalStatus:
    """The status of a second on a terminal: of the last second the rates, and of the last ten the
    losses and the exact pictures."""

    def __init__(self, has_camera: bool, has_screen: bool, wait: float) -> None:
        self._has_camera, self._has_screen, self._wait = has_camera, has_screen, wait
        self._rows: deque[tuple[float, Tally, Heard]] = deque(maxlen=_SECONDS + 1)
        self._rows.append((0.0, Tally(), Heard()))

    def line(self, second: float, tally: Tally, heard: Heard) -> str:
        """The status at this second of the call."""
        last, before, _ = self._rows[-1]
        seconds = max(second - last, 0.001)
        out, came = tally.bytes_out - before.bytes_out, tally.bytes_in - before.bytes_in
        self._rows.append((second, _copy(tally), heard))
        parts = [f"{second:.0f} s", f"{_kbits(out, seconds)} kbit/s out {_kbits(came, seconds)} in"]
        parts.append(f"lost {' '.join(self._losses(heard))}")
        if self._has_camera:
            trip = heard.round_trip
            parts.append(f"round trip {'-' if trip is None else f'{1000 * trip:.0f} ms'}")
        if self._has_screen:
            parts.append(f"wait {1000 * self._wait:.0f} ms")
            parts.append(self._exact(tally))
        return " | ".join(parts)

    def _losses(self, heard: Heard) -> list[str]:
        parts = []
        if self._has_camera:
            parts.append(f"{'-' if heard.loss is None else f'{100 * heard.loss:.1f} %'} out")
        if self._has_screen:
            first = self._rows[0][2]
            expected, came = heard.expected - first.expected, heard.came - first.came
            # A stream that began anew counts anew; a repeated packet makes up for no lost one.
            share = f"{100 * max(1 - came / expected, 0.0):.1f} %" if expected > 0 else "-"
            parts.append(f"{share} in")
        return parts

    def _exact(self, tally: Tally) -> str:
        first = self._rows[0][1]
        exact = tally.marks["exact"] - first.marks["exact"]
        return f"exact {exact} of {tally.shown - first.shown}"


def _copy(tally: Tally) -> Tally:
    # What a status looks back on.
    return Tally(bytes_out=tally.bytes_out, bytes_in=tally.bytes_in, marks=tally.marks.copy())


def _kbits(count: int, seconds: float) -> str:
    return f"{8 * count / seconds / 1_000:.0f}"
