"""The delays that RFC 8868 recommends: bounded, and without reordering."""

import random
from typing import Optional

from ..network.loss import Losses

# Deviations at which the distribution is cut (RFC 8868, 4.5.3).
CUT = 3


class BoundedJitter:
    """Each packet is later than the path's delay by a truncated Gaussian, and none passes another
    (RFC 8868, 4.5.2 and 4.5.3; the time that a packet takes on the bottleneck counts as none).

    The delay and the deviation are in pictures.
    """

    def __init__(self, losses: Losses, delay: float, deviation: float, draws: random.Random) -> None:
        self._losses, self._draws = losses, draws
        self._delay, self._deviation = delay, deviation
        self._newest = 0.0

    def lateness(self, picture: int, place: int) -> Optional[int]:
        """As drawn, in whole pictures; a lost packet takes no time."""
        if self._losses.is_lost():
            return None
        most = CUT * self._deviation
        extra = abs(max(min(self._draws.gauss(0, self._deviation), most), -most))
        self._newest = max(self._newest, picture + self._delay + extra)
        return int(self._newest) - picture
