"""A plan: which calls a campaign has. It is TOML, read strictly: what isn't known or is out of its
range is refused."""

import itertools
import re
from dataclasses import dataclass, field
from pathlib import Path
from typing import Any, Callable, Iterator, Mapping, Optional, Union

from .. import y4m
from ..errors import BadInput
from . import places
from .measures import MEASURES

try:
    import tomllib
except ImportError:  # before Python 3.11
    tomllib = None  # type: ignore[assignment]

MOST_CALLS = 1_000_000
MOST_PICTURES = 10_000
MOST_PLAN = 1_000_000
_NAME = re.compile(r"[A-Za-z0-9][A-Za-z0-9 ._+-]{0,63}")

Value = Union[int, float, str]


@dataclass(frozen=True)
class Numbers:
    """The numbers that a key takes. Where `is_whole`, a range `{ from, to, step }` is a list, too."""

    least: float
    most: float
    is_whole: bool = True

    def fault(self, value: Any) -> Optional[str]:
        """Why a value isn't one of them."""
        kinds: tuple[type, ...] = (int,) if self.is_whole else (int, float)
        if isinstance(value, bool) or not isinstance(value, kinds):
            return f"{value!r} is no {'whole ' if self.is_whole else ''}number"
        if not self.least <= value <= self.most:
            return f"{value} is not from {self.least:,} to {self.most:,}"
        return None


@dataclass(frozen=True)
class Words:
    """The words that a key takes; none are any."""

    words: tuple[str, ...] = ()

    def fault(self, value: Any) -> Optional[str]:
        """Why a value isn't one of them."""
        if not isinstance(value, str):
            return f"{value!r} is no text"
        if self.words and value not in self.words:
            return f"{value!r} is none of {', '.join(self.words)}"
        return None


Kind = Union[Numbers, Words]
_SHARE = Numbers(0, 1, is_whole=False)
_SOME = Numbers(0, 20)

# The options of the program's commands (docs/COMMANDS.md, "Options").
OPTIONS: dict[str, Kind] = {
    "quant": Numbers(1, 31),
    "keep": Numbers(1, 64),
    "radius": Numbers(0, 15),
    "limit": Numbers(1_200, 9_000),
    "slots": Numbers(2, 64),
    "lead": Numbers(0, 62),
    "messages": Numbers(1, 2),
    "clock": Words(("standard", "custom")),
    "target": Numbers(1, 999_999),
}
DEFAULTS: dict[str, Value] = {"slots": 16, "lead": 3, "limit": 1_400, "quant": 8}

# What each model of losses wants (calltools/network/loss.py).
MODELS: dict[str, dict[str, Kind]] = {
    "gilbert": {"rate": _SHARE, "burst": Numbers(1, 1_000, is_whole=False)},
    "independent": {"rate": _SHARE},
    "elliott": {"to_bad": _SHARE, "to_good": _SHARE, "lost_in_good": _SHARE, "lost_in_bad": _SHARE},
    "pattern": {"pattern": Words()},
}
_COMMON: dict[str, Kind] = {"packets": Numbers(1, 400), "delay": _SOME, "back": _SOME}
_HOLD: dict[str, Kind] = {"hold": _SOME}
# Of a path in milliseconds (RFC 8868, 4.1 and 4.5): its delay, and the deviation of its jitter.
_IN_TIME: dict[str, Kind] = {
    "delay_ms": Numbers(0, 600, is_whole=False),
    "deviation_ms": Numbers(0, 200, is_whole=False),
}
_CAPTURE: dict[str, Kind] = {
    "port": Numbers(1, 65_535),
    "ssrc": Numbers(0, 2**32 - 1),
    "clock": Numbers(1, 1_000_000),
}
_MADE: dict[str, Kind] = {
    "format": Words(tuple(y4m.FORMATS)),
    "noise": Numbers(0, 255),
    "step": Numbers(0, 64),
    "seed": Numbers(0, 999_999_999),
}
SENDERS: dict[str, dict[str, Kind]] = {
    "acknowledged": {},
    "intra": {},
    "plain": {"every": Numbers(1, 600)},
}


@dataclass(frozen=True, eq=False)
class Video:
    """A video file, or one that is made by the formula with these numbers."""

    name: str
    file: Optional[Path]
    made: dict[str, Any] = field(default_factory=dict)


@dataclass(frozen=True, eq=False)
class Network:
    """One network: a model of losses with its numbers, a capture or a trace; `line` is of the plan."""

    name: str
    line: int
    kind: str  # a model's name, `capture` or `trace`
    values: dict[str, Any]
    file: Optional[Path] = None

    def is_drawn(self) -> bool:
        """Whether another draw may be another network."""
        if self.kind == "trace":
            return False
        chance = {"rate", "to_bad", "lost_in_good", "jitter", "deviation_ms"}
        return self.kind in ("pattern", "capture") or any(self.values.get(it) for it in chance)


@dataclass(frozen=True)
class Sender:
    """Who sends: ours with its messages or without, or ffmpeg's coder with an intra picture so
    often."""

    kind: str
    every: Optional[int] = None


@dataclass(frozen=True)
class Plan:
    """A whole plan: each network, video, sender, set of options and draw is a call."""

    path: str
    text: str
    pictures: Optional[int]
    draws: int
    measures: tuple[str, ...]
    videos: list[Video]
    networks: list[Network]
    senders: list[Sender]
    options: list[dict[str, Any]]


class _Reader:
    """Takes keys out of the document, and refuses by their lines."""

    def __init__(self, path: Path, text: str) -> None:
        self.path, self._places = path, places.places_of(text)

    def fault(self, at: places.Path, why: str) -> BadInput:
        """A refusal of the line where this stands, or its table does."""
        while at and at not in self._places:
            at = at[:-1]
        where = f"line {self._places[at]}" if at else "the plan"
        return BadInput(str(self.path), where, why)

    def line(self, at: places.Path) -> int:
        return self._places.get(at, 1)

    def known(self, at: places.Path, table: Any, names: set[str]) -> dict[str, Any]:
        """The table, which has no other key."""
        if not isinstance(table, dict):
            raise self.fault(at, f"{at[-1]} is no table")
        for name in table:
            if name not in names:
                told = f"{name} is not known here: {', '.join(sorted(names))} are"
                raise self.fault((*at, name), told)
        return table

    def values(self, at: places.Path, kind: Kind, given: Any) -> list[Value]:
        """The values of a key: one, a list, or a range."""
        if isinstance(given, dict) and isinstance(kind, Numbers) and kind.is_whole:
            given = self._range(at, kind, given)
        many = given if isinstance(given, list) else [given]
        if not many:
            raise self.fault(at, f"{at[-1]} has no value")
        for value in many:
            if why := kind.fault(value):
                raise self.fault(at, f"{at[-1]}: {why}")
        if len(set(many)) < len(many):
            raise self.fault(at, f"{at[-1]} has a value twice")
        return many

    def one(self, at: places.Path, kind: Kind, given: Any) -> Any:
        """The only value of a key."""
        if why := kind.fault(given):
            raise self.fault(at, f"{at[-1]}: {why}")
        return given

    def _range(self, at: places.Path, kind: Numbers, given: dict[str, Any]) -> list[int]:
        self.known(at, given, {"from", "to", "step"})
        if not {"from", "to"} <= set(given):
            raise self.fault(at, f"{at[-1]}: a range has from and to")
        for name in ("from", "to"):
            if why := kind.fault(given[name]):
                raise self.fault(at, f"{at[-1]}: {name}: {why}")
        step = given.get("step", 1)
        if why := Numbers(1, MOST_CALLS).fault(step):
            raise self.fault(at, f"{at[-1]}: step: {why}")
        if given["from"] > given["to"]:
            raise self.fault(at, f"{at[-1]}: the range ends before it begins")
        if (given["to"] - given["from"]) // step >= MOST_CALLS:
            raise self.fault(at, f"{at[-1]}: the range has more than {MOST_CALLS:,} values")
        return list(range(given["from"], given["to"] + 1, step))

    def product(self, at: places.Path, table: dict[str, Any], kinds: Mapping[str, Kind]) -> list[dict[str, Any]]:
        """Each choice of a value for every key that the table has."""
        names = [name for name in kinds if name in table]
        lists = [self.values((*at, name), kinds[name], table[name]) for name in names]
        count = 1
        for values in lists:
            count *= len(values)
        if count > MOST_CALLS:
            raise self.fault(at, f"more than {MOST_CALLS:,} choices")
        return [dict(zip(names, chosen)) for chosen in itertools.product(*lists)]

    def file(self, at: places.Path, given: Any) -> Path:
        """A file that is named; a relative name counts from the plan's folder."""
        path: Path = self.path.parent / self.one(at, Words(), given)
        if not path.exists():
            raise self.fault(at, f"{given}: there is no such file")
        if not path.is_file():
            raise self.fault(at, f"{given}: it is no file")
        return path

    def name(self, at: places.Path, table: dict[str, Any], used: set[str]) -> str:
        """The name of a table, which no other one has."""
        name: str = self.one((*at, "name"), Words(), table.get("name", ""))
        if not _NAME.fullmatch(name):
            told = "has no name" if not name else f"{name!r} is no name: letters, digits, spaces and ._+-"
            raise self.fault((*at, "name"), told)
        if name in used:
            raise self.fault((*at, "name"), f"the name {name} is there twice")
        used.add(name)
        return name


def read_plan(path: Path) -> Plan:
    """Reads a plan."""
    if tomllib is None:
        raise BadInput("campaign", "Python", "plans need 3.11 or later, which reads TOML")
    with open(path, "rb") as file:
        data = file.read(MOST_PLAN + 1)
    if len(data) > MOST_PLAN:
        raise BadInput(str(path), f"byte {MOST_PLAN}", "a plan is shorter")
    if data.startswith(b"SQLite format 3\0"):
        raise BadInput(str(path), "its head", "this is a table: --advise and --draw take it")
    try:
        text = data.decode()
        document = tomllib.loads(text)
    except UnicodeDecodeError as fault:
        raise BadInput(str(path), f"byte {fault.start}", "this is no UTF-8") from None
    except tomllib.TOMLDecodeError as fault:
        raise BadInput(str(path), *_of_toml(str(fault), text)) from None
    except RecursionError:
        raise BadInput(str(path), "the plan", "it is nested too deeply") from None
    return _plan(_Reader(path, text), document, text)


def _of_toml(told: str, text: str) -> tuple[str, str]:
    # tomllib's own words end with the place.
    found = re.search(r" \(at (?:line (\d+), column \d+|end of document)\)$", told)
    if not found:
        return "the plan", told
    line = found[1] or max(1, len(text.splitlines()))
    return f"line {line}", told[: found.start()]


def _plan(reader: _Reader, document: dict[str, Any], text: str) -> Plan:
    names = {"pictures", "draws", "measures", "video", "network", "sender", "options"}
    reader.known((), document, names)
    pictures = draws = None
    if "pictures" in document:
        pictures = reader.one(("pictures",), Numbers(2, MOST_PICTURES), document["pictures"])
    if "draws" in document:
        draws = reader.one(("draws",), Numbers(1, 1_000), document["draws"])
    measures = document.get("measures", list(MEASURES))
    reader.values(("measures",), Words(tuple(MEASURES)), measures)
    plan = Plan(
        str(reader.path),
        text,
        pictures,
        draws or 1,
        tuple(measures) if isinstance(measures, list) else (measures,),
        list(_named(reader, document, "video", _video)),
        [it for many in _named(reader, document, "network", _networks) for it in many],
        _senders(reader, document),
        _options(reader, document),
    )
    _check(reader, plan)
    return plan


def _tables(reader: _Reader, document: dict[str, Any], name: str) -> Iterator[tuple[places.Path, Any]]:
    tables = document.get(name, [])
    if not isinstance(tables, list):
        raise reader.fault((name,), f"{name} is a table of an array: [[{name}]]")
    for number, table in enumerate(tables):
        yield (name, number), table


def _named(reader: _Reader, document: dict[str, Any], name: str, read: Callable[..., Any]) -> Iterator[Any]:
    used: set[str] = set()
    for at, table in _tables(reader, document, name):
        yield read(reader, at, table, used)
    if not used:
        raise reader.fault((), f"it has no [[{name}]]")


def _video(reader: _Reader, at: places.Path, table: Any, used: set[str]) -> Video:
    reader.known(at, table, {"name", "file", "made"})
    name = reader.name(at, table, used)
    if ("file" in table) == ("made" in table):
        raise reader.fault(at, f"video {name} has either file or made")
    if "file" in table:
        return Video(name, reader.file((*at, "file"), table["file"]))
    made = reader.known((*at, "made"), table["made"], set(_MADE))
    chosen = {"format": "qcif", "noise": 0, "step": 1, "seed": 1}
    chosen |= {key: reader.one((*at, "made", key), _MADE[key], made[key]) for key in made}
    return Video(name, None, chosen)


def _networks(reader: _Reader, at: places.Path, table: Any, used: set[str]) -> list[Network]:
    kinds = {"loss", "capture", "trace"} & set(table if isinstance(table, dict) else ())
    if len(kinds) != 1:
        raise reader.fault(at, "a network has just one of loss, capture and trace")
    (kind,) = kinds
    name = reader.name(at, table, used)
    line = reader.line(at)
    if kind == "trace":
        reader.known(at, table, {"name", "trace"})
        return [Network(name, line, kind, {}, reader.file((*at, "trace"), table["trace"]))]
    if kind == "capture":
        own: dict[str, Kind] = {**_COMMON, **_HOLD, **_CAPTURE}
        reader.known(at, table, {"name", "capture", *own})
        file = reader.file((*at, "capture"), table["capture"])
        return [Network(name, line, kind, values, file) for values in reader.product(at, table, own)]
    return _models(reader, at, table, name)


def _models(reader: _Reader, at: places.Path, table: Any, name: str) -> list[Network]:
    model = reader.one((*at, "loss"), Words(tuple(MODELS)), table["loss"])
    own: dict[str, Kind] = {**MODELS[model], **_COMMON, "jitter": _SOME, **_IN_TIME, **_HOLD}
    reader.known(at, table, {"name", "loss", *own})
    for wanted in MODELS[model]:
        if wanted not in table:
            raise reader.fault(at, f"losses by {model} want {wanted}")
    in_time = set(_IN_TIME) & set(table)
    if in_time and {"delay", "jitter"} & set(table):
        raise reader.fault(at, "delay and jitter are in pictures, or both in milliseconds")
    file = reader.file((*at, "pattern"), table["pattern"]) if model == "pattern" else None
    numbers = {key: kind for key, kind in own.items() if key != "pattern"}
    found = reader.product(at, table, numbers)
    for values in found:
        rate, burst = values.get("rate", 0), values.get("burst", 1)
        if model == "gilbert" and (rate == 1 or rate / (1 - rate) / burst > 1):
            told = f"bursts of {burst:g} are too short for a rate of {rate:g}"
            raise reader.fault((*at, "burst"), told)
    return [Network(name, reader.line(at), model, values, file) for values in found]


def _senders(reader: _Reader, document: dict[str, Any]) -> list[Sender]:
    found: list[Sender] = []
    for at, table in _tables(reader, document, "sender"):
        if not isinstance(table, dict) or "kind" not in table:
            raise reader.fault(at, "a sender has a kind")
        kind = reader.one((*at, "kind"), Words(tuple(SENDERS)), table["kind"])
        reader.known(at, table, {"kind", *SENDERS[kind]})
        if kind == "plain" and "every" not in table:
            raise reader.fault(at, "a plain sender wants every: an intra picture so often")
        every = reader.product(at, table, SENDERS[kind])
        found += [Sender(kind, chosen.get("every")) for chosen in every]
    return list(dict.fromkeys(found)) or [Sender("acknowledged")]


def _options(reader: _Reader, document: dict[str, Any]) -> list[dict[str, Any]]:
    given = document.get("options", {})
    many = given if isinstance(given, list) else [given]
    found: list[dict[str, Any]] = []
    for number, table in enumerate(many):
        at: places.Path = ("options",)
        if isinstance(given, list):
            at = ("options", number)
        reader.known(at, table, set(OPTIONS))
        for chosen in reader.product(at, table, OPTIONS):
            options: dict[str, Any] = {**DEFAULTS, **chosen}
            if options["lead"] > options["slots"] - 2:
                told = f"lead {options['lead']} is more than slots {options['slots']} less 2"
                raise reader.fault((*at, "lead"), told)
            if options not in found:
                found.append(options)
    return found


def _check(reader: _Reader, plan: Plan) -> None:
    calls = len(plan.videos) * len(plan.networks) * len(plan.senders) * len(plan.options) * plan.draws
    if calls > MOST_CALLS:
        raise reader.fault((), f"it has {calls:,} calls, more than {MOST_CALLS:,}")
    for network in plan.networks:
        hold = network.values.get("hold")
        for options in plan.options:
            if hold is not None and hold > options["lead"]:
                why = f"hold {hold} is more than lead {options['lead']}, so packets would be early"
                raise BadInput(plan.path, f"line {network.line}", why)
