"""What a live call is asked for, and what follows from it."""

import math
from dataclasses import dataclass
from fractions import Fraction
from typing import Optional

from ..errors import BadInput
from ..y4m import FORMATS, RATE, Size

# The most pictures of a run of `send` (docs/FORMATS.md, "Y4M").
MOST_PICTURES = 1 << 20
MOST_SLOTS = 64
# Pictures that may come back acknowledged and still be referred to, where the slots allow it.
WINDOW = 32
# Pictures that may come before their play beyond those of the wait: jitter, and a late start.
_AHEAD, _LEAST_AHEAD = 3, 1
# Bytes a picture: 430 kbit/s for QCIF at 30 a second.
TARGETS = {"sub-qcif": 900, "qcif": 1_800, "cif": 6_000}
# The most bytes a picture that a target may have, and which part of the default is the least that
# one which follows the line comes to: as much a second as one picture of the default.
MOST_TARGET, FLOOR = 999_999, 30


@dataclass(frozen=True)
class Settings:
    """A call's pictures and times. `wait` is in seconds."""

    format: str = "qcif"
    rate: Fraction = RATE
    clock: str = "standard"
    messages: int = 1
    wait: float = 0.1
    lead: int = 6
    slots: int = 39
    target: int = 1_800
    quant: int = 8
    radius: int = 15
    limit: int = 1_400
    most_pictures: int = MOST_PICTURES
    # Whether the target follows the line; it is the first one then.
    adapts: bool = False
    # Whether what is lost is asked for again.
    repairs: bool = True

    @property
    def least_target(self) -> int:
        """What a target that follows the line comes to at the least."""
        return TARGETS[self.format] // FLOOR

    @property
    def size(self) -> Size:
        return Size(*FORMATS[self.format])

    @property
    def period(self) -> float:
        """The seconds of a picture."""
        return float(1 / self.rate)

    @property
    def repaired(self) -> float:
        """So many seconds after the last picture that came, or is known to be complete, what is missing is repaired:
        later a queue delays what comes, or the way was cut, and most would come too late."""
        return self.wait + 2 * self.period

    def _shared(self) -> list[str]:
        return [f"--slots={self.slots}", f"--lead={self.lead}", f"--clock={self.clock}"]

    def send_options(self) -> list[str]:
        """The words of `send`. It always has a target: a line that is too narrow for intra
        pictures would else never carry one whole, and each next one would be intra again."""
        own = [f"--target={self.target}", f"--quant={self.quant}", f"--radius={self.radius}"]
        return own + [f"--limit={self.limit}"] + self._shared()

    def recv_options(self) -> list[str]:
        """The words of `recv`."""
        return [f"--format={self.format}", f"--messages={self.messages}"] + self._shared()


def lead_for(wait: float, rate: Fraction, asked: Optional[int]) -> int:
    """How many pictures may come before their play; one that was asked for must hold the wait.

    A packet waits up to `wait` before its picture is played. Had it come before more plays than
    the lead, `recv` would take it for early, and show none.
    """
    pictures = math.ceil(wait * rate)
    if asked is None:
        if pictures + 2 > MOST_SLOTS - 2:
            most = int(1000 * (MOST_SLOTS - 4) / rate)
            raise BadInput("--wait", f"{1000 * wait:g} ms", f"{most} is the most")
        return min(pictures + _AHEAD, MOST_SLOTS - 2)
    least = pictures + _LEAST_AHEAD
    if asked < least:
        told = f"it can't hold --wait {1000 * wait:g}, for which {least} is the least"
        raise BadInput("--lead", str(asked), told)
    return asked


def slots_for(lead: int, asked: Optional[int]) -> int:
    """How many pictures each end keeps; a number that was asked for must hold the lead."""
    if asked is None:
        return min(lead + 1 + WINDOW, MOST_SLOTS)
    if asked < lead + 2:
        told = f"they can't hold a lead of {lead}, for which {lead + 2} is the least"
        raise BadInput("--slots", str(asked), told)
    return asked
