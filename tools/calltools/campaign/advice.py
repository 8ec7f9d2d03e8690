"""Which options are the cheapest that meet what a user asks, by the table of a campaign."""

from collections import defaultdict
from dataclasses import dataclass
from typing import Any, Iterable, Optional, Sequence

from .calling import Row
from .intervals import Interval, interval_of

CHOSEN = ("lead", "slots", "limit", "target")
# What else makes a choice another one.
_ALSO = ("quant", "keep", "radius", "messages", "clock")
_PLACE = (
    "network",
    "video",
    "pictures",
    "rate",
    "burst",
    "to_bad",
    "to_good",
    "lost_in_good",
    "lost_in_bad",
    "packets",
    "delay",
    "jitter",
    "delay_ms",
    "deviation_ms",
    "back",
)


@dataclass(frozen=True)
class Asked:
    """What must hold on each network for each video; None is anything."""

    exact: Optional[float] = None
    longest: Optional[int] = None
    bytes: Optional[float] = None
    delay: Optional[int] = None
    psnr: Optional[float] = None

    def words(self) -> str:
        told = [f"{name} {value:g}" for name, value in vars(self).items() if value is not None]
        return ", ".join(told) or "anything"


@dataclass(frozen=True)
class Found:
    """A choice of options, by the worst of the networks and videos that it was tried on."""

    options: dict[str, Any]
    delay: int
    exact: Interval
    longest: int
    bytes: float
    psnr: Optional[float]
    calls: int
    places: int
    failed: int = 0

    def misses(self, asked: Asked) -> list[str]:
        """What of the asked it doesn't meet, in words. Shares count by the lower end of their
        interval."""
        told = []
        if self.failed:
            told.append(f"{self.failed} of its calls failed")
        if asked.exact is not None and self.exact.low < asked.exact:
            told.append(self._exact_words(asked.exact))
        if asked.longest is not None and self.longest > asked.longest:
            told.append(f"{self.longest} pictures in a row weren't exact")
        if asked.bytes is not None and self.bytes > asked.bytes:
            told.append(f"{self.bytes:,.0f} bytes a picture")
        if asked.delay is not None and self.delay > asked.delay:
            told.append(f"shown {self.delay} pictures after the capture")
        if asked.psnr is not None and (self.psnr is None or self.psnr < asked.psnr):
            told.append("no PSNR" if self.psnr is None else f"{self.psnr:.1f} dB")
        return told

    def _exact_words(self, asked: float) -> str:
        words = f"{100 * self.exact.mean:.1f} % exact"
        if self.exact.mean >= asked:
            words += f", but by {self.exact.count} draws perhaps {100 * self.exact.low:.1f} %: more would tell"
        return words

    def line(self) -> str:
        """The choice and what it came to."""
        chosen = " ".join(f"--{name} {value}" for name, value in self.options.items() if value is not None)
        half = f" ± {100 * self.exact.half:.1f}" if self.exact.count > 1 else ""
        psnr = "" if self.psnr is None else f", {self.psnr:.1f} dB"
        exact = f"{100 * self.exact.mean:.1f}{half} % exact"
        longest = f"at most {self.longest} in a row not"
        pictures = "picture" if self.delay == 1 else "pictures"
        return f"{chosen}: delay {self.delay} {pictures}, {exact}, {longest}, {self.bytes:,.0f} bytes a picture{psnr}"


@dataclass(frozen=True)
class Advice:
    """The cheapest choice that meets what is asked, the one after it, and all others."""

    asked: Asked
    best: Optional[Found]
    second: Optional[Found]
    found: Sequence[Found]


def found_in(rows: Iterable[Row]) -> list[Found]:
    """Each choice of options that was tried with acknowledgements."""
    choices: dict[tuple[object, ...], list[Row]] = defaultdict(list)
    for row in rows:
        if row["sender"] == "acknowledged":
            choices[(*(row[name] for name in CHOSEN + _ALSO), row["hold"], row["delay"])].append(row)
    found = [_found(many) for many in choices.values() if any(_counts(row) for row in many)]
    return found


def _counts(row: Row) -> bool:
    return row["status"] == "done" and None not in (row["exact"], row["longest"], row["bytes"])


def _found(rows: Sequence[Row]) -> Found:
    places: dict[tuple[object, ...], list[Row]] = defaultdict(list)
    for row in rows:
        if _counts(row):
            places[tuple(row[name] for name in _PLACE)].append(row)
    done = [row for many in places.values() for row in many]
    exact = [interval_of([row["exact"] for row in many]) for many in places.values()]
    quality = [row["psnr"] for row in done if row["psnr"] is not None]
    one = rows[0]
    told = CHOSEN + tuple(name for name in _ALSO if one[name] is not None and _is_told(name, one))
    return Found(
        {name: one[name] for name in told},
        (one["delay"] or 0) + (one["hold"] or 0),
        min(exact, key=lambda it: it.low),
        max(row["longest"] for row in done),
        max(interval_of([row["bytes"] for row in many]).mean for many in places.values()),
        min(quality, default=None),
        len(rows),
        len(places),
        len(rows) - len(done),
    )


def _is_told(name: str, row: Row) -> bool:
    # With a target the quantiser only begins somewhere.
    return name != "quant" or row["target"] is None


def advised(found: Sequence[Found], asked: Asked, by_bytes: bool = False) -> Advice:
    """The cheapest: the least delay and then bytes, or the other way round, and then the fewest
    slots."""

    def cost(one: Found) -> tuple[float, ...]:
        delay, size = one.delay, round(one.bytes)
        slots = one.options["slots"] or 0
        return ((size, delay) if by_bytes else (delay, size)) + (slots, -one.exact.mean)

    meeting = sorted((one for one in found if not one.misses(asked)), key=cost)
    best, second = (meeting + [None, None])[:2]
    return Advice(asked, best, second, found)


def words_of(advice: Advice) -> list[str]:
    """The advice in lines."""
    most = max((one.places for one in advice.found), default=0)
    calls = sum(one.calls for one in advice.found)
    lines = [f"asked: {advice.asked.words()}; {len(advice.found)} choices, {calls} calls"]
    if any(one.places < most for one in advice.found):
        lines.append("not every choice was tried on each network and video: the campaign isn't at its end")
    if not advice.found:
        return lines + ["nothing to advise: no call with acknowledgements is done"]
    if advice.best:
        lines.append(f"take       {advice.best.line()}")
        second = advice.second.line() if advice.second else "none: nothing else meets it"
        return lines + [f"runner-up  {second}"]
    nearest = min(advice.found, key=lambda one: (len(one.misses(advice.asked)), -one.exact.low, one.bytes))
    lines.append("nothing meets it")
    lines.append(f"nearest    {nearest.line()}")
    return lines + [f"misses     {'; '.join(nearest.misses(advice.asked))}"]
