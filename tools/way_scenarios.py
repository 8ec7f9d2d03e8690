"""Streams whose way to the receiver changes, in discrete time: what rules about the times of plays have to bear."""

from dataclasses import dataclass
from typing import Callable, Iterator

CLOCK = 90_000
# After a disturbance pictures are exact again within so many seconds, and at few a second from so many pictures on.
SOON, FEW = 2.0, 2
# When the disturbance comes.
STEP = 10.0


@dataclass(frozen=True)
class Scenario:
    """A stream of `rate` pictures in `second` seconds, each of so many packets, `apart` seconds apart. Its way takes
    `delay` of the time; the sender's clock is faster by `drift`. Of the picture that is captured at STEP the first
    packet says that it was captured `ahead` seconds later."""

    name: str
    rate: int
    second: int = 1
    seconds: float = 20.0
    wait: float = 0.1
    packets: int = 1
    apart: float = 0.001
    delay: Callable[[float], float] = lambda _: 0.03
    loss: float = 0.0
    drift: float = 0.0
    ahead: float = 0.0

    @property
    def period(self) -> float:
        return self.second / self.rate

    @property
    def settled(self) -> int:
        """From this picture on all are exact again."""
        first = round(STEP / self.period)
        return first + max(FEW, round(SOON / self.period))


def longer_by(more: float) -> Callable[[float], float]:
    """A way that takes so much longer from STEP on."""
    return lambda when: 0.03 + (more if when >= STEP else 0.0)


def _steps() -> Iterator[Scenario]:
    for rate in (1, 2, 5, 7, 10):
        for more in (0.17, 0.22, 0.25, 1.0):
            for packets in (1, 4):
                name = f"{rate} a second, {packets} packets each, {more:g} s longer"
                yield Scenario(name, rate, packets=packets, delay=longer_by(more))


def scenarios() -> list[Scenario]:
    """What no call may freeze in."""
    many: dict[str, int] = {"rate": 30_000, "second": 1_001}
    found = [*_steps()]
    for packets in (1, 3):
        each = f", {packets} packets each"
        found += [
            Scenario("30 % lost, 0.22 s longer" + each, **many, packets=packets, loss=0.3, delay=longer_by(0.22)),
            Scenario("one time 1.9 s ahead" + each, **many, packets=packets, ahead=1.9),
            Scenario("one time 1.9 s ahead, 5 a second" + each, 5, packets=packets, ahead=1.9),
            Scenario("one time 1.9 s ahead, a wait of 1 s" + each, **many, packets=packets, ahead=1.9, wait=1.0),
        ]
    for drift in (2e-4, -2e-4):
        for rate, packets, seconds in ((1, 3, 600.0), (5, 3, 600.0), (30, 1, 120.0)):
            name = f"{drift:+g} of drift, {rate} a second"
            found.append(Scenario(name, rate, seconds=seconds, packets=packets, drift=drift))
    for more in (0.0, 0.25):
        none: dict[str, float] = {"wait": 0.0, "apart": 0.0}
        for rate, second in ((2, 1), (30_000, 1_001)):
            name = f"no wait, {rate / second:.4g} a second, {more:g} s longer"
            found.append(Scenario(name, rate, second, packets=3, delay=longer_by(more), **none))
    return found


def lead_of(scenario: Scenario) -> int:
    """Pictures that may come before their play."""
    return min(62, int(scenario.wait / scenario.period) + 4)
