"""Means of repeats, with the 95 % interval of Student's t."""

import math
import statistics
from dataclasses import dataclass
from typing import Sequence

# The 97.5 % point by degrees of freedom, and beyond them that of the normal distribution.
_T = (
    12.706,
    4.303,
    3.182,
    2.776,
    2.571,
    2.447,
    2.365,
    2.306,
    2.262,
    2.228,
    2.201,
    2.179,
    2.160,
    2.145,
    2.131,
    2.120,
    2.110,
    2.101,
    2.093,
    2.086,
    2.080,
    2.074,
    2.069,
    2.064,
    2.060,
    2.056,
    2.052,
    2.048,
    2.045,
    2.042,
)
_NORMAL = 1.96


@dataclass(frozen=True)
class Interval:
    """A mean of so many values; the interval reaches `half` to either side, infinitely far for one
    value."""

    mean: float
    half: float
    count: int

    @property
    def low(self) -> float:
        """Its lower end; of a single value that value, since nothing tells how far others lie."""
        return self.mean - self.half if self.count > 1 else self.mean


def interval_of(values: Sequence[float]) -> Interval:
    """The interval of at least one value."""
    count = len(values)
    mean = statistics.fmean(values)
    if count < 2:
        return Interval(mean, math.inf, count)
    t = _T[count - 2] if count - 2 < len(_T) else _NORMAL
    return Interval(mean, t * statistics.stdev(values) / math.sqrt(count), count)
