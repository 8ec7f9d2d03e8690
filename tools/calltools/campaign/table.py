"""The table of a campaign: a row a call, in SQLite or CSV by the file's name. A row is there whole
or not at all."""

import csv
import io
import os
import sqlite3
from pathlib import Path
from typing import Iterator, Optional, Protocol

from ..errors import BadInput
from .calling import COLUMNS, Row
from .plan import OPTIONS

_SQLITE = (".sqlite", ".sqlite3", ".db")
_TEXT = {
    "key",
    "plan",
    "status",
    "words",
    "video",
    "network",
    "sender",
    "loss",
    "clock",
    "worker",
    "program",
    "video_hash",
    "trace_hash",
}
_WHOLE = {
    "draw",
    "every",
    "pictures",
    "packets",
    "delay",
    "jitter",
    "hold",
    "back",
    "round_trip",
    *OPTIONS,
    "longest",
    "losses",
    "farthest",
} - _TEXT


class Table(Protocol):
    """A table that grows by rows."""

    def rows(self) -> Iterator[Row]:
        """All rows, as they were added."""

    def add(self, row: Row) -> None:
        """Adds a row whose key isn't there; one that is there stays."""

    def drop(self, keys: list[str]) -> None:
        """Takes rows out."""

    def close(self) -> None:
        """Writes no more."""


def is_sqlite(path: Path) -> bool:
    return path.suffix in _SQLITE


def opened(path: Path, is_new_allowed: bool = True) -> Table:
    """The table of this file, which is made where there is none. A file that is no such table is
    refused."""
    if not is_sqlite(path) and path.suffix != ".csv":
        raise BadInput(str(path), "its name", f"a table ends in .csv or {', '.join(_SQLITE)}")
    if path.exists() and not path.is_file():
        raise BadInput(str(path), "no table", "it is no file")
    if not path.exists() and not is_new_allowed:
        raise BadInput(str(path), "no table", "there is no such file")
    if not path.absolute().parent.is_dir():
        raise BadInput(str(path), "its folder", "there is no such folder")
    if is_sqlite(path):
        return _SqliteTable(path)
    return _CsvTable(path)


class _SqliteTable:
    def __init__(self, path: Path) -> None:
        self._path = path
        is_new = not path.exists() or not path.stat().st_size
        self._base = sqlite3.connect(path)
        try:
            if is_new:
                columns = ", ".join(f'"{name}" {_kind(name)}' for name in COLUMNS)
                self._base.execute(f"CREATE TABLE calls ({columns}, PRIMARY KEY (key))")
                self._base.commit()
            found = [row[1] for row in self._base.execute("PRAGMA table_info(calls)")]
        except sqlite3.DatabaseError as fault:
            raise BadInput(str(path), "no table", str(fault)) from None
        if found != list(COLUMNS):
            raise BadInput(str(path), "its columns", "they aren't those of a campaign of this edition")

    def rows(self) -> Iterator[Row]:
        try:
            for row in self._base.execute("SELECT * FROM calls ORDER BY rowid"):
                yield dict(zip(COLUMNS, row))
        except sqlite3.DatabaseError as fault:
            raise BadInput(str(self._path), "no table", str(fault)) from None

    def add(self, row: Row) -> None:
        marks = ", ".join("?" * len(COLUMNS))
        with self._base:
            self._base.execute(f"INSERT OR IGNORE INTO calls VALUES ({marks})", [row[it] for it in COLUMNS])

    def drop(self, keys: list[str]) -> None:
        with self._base:
            self._base.executemany("DELETE FROM calls WHERE key = ?", [(key,) for key in keys])

    def close(self) -> None:
        self._base.close()


class _CsvTable:
    def __init__(self, path: Path) -> None:
        self._path = path
        self._keys: set[str] = set()
        if path.exists() and path.stat().st_size:
            self._mend()
            self._keys = {row["key"] for row in self.rows()}
        else:
            path.write_text(_line(list(COLUMNS)), encoding="utf-8")
        self._file = open(path, "ab", buffering=0)

    def _mend(self) -> None:
        """Takes off a last row that was cut. A file that is no table is left as it is."""
        head = _line(list(COLUMNS)).encode()
        with open(self._path, "r+b") as file:
            if file.read(len(head)) != head:
                raise BadInput(
                    str(self._path),
                    "line 1",
                    "the columns aren't those of a campaign of this edition",
                )
            data = head + file.read()
            file.truncate(data.rindex(b"\n") + 1)

    def rows(self) -> Iterator[Row]:
        with open(self._path, encoding="utf-8", errors="replace", newline="") as file:
            reader = csv.reader(file)
            next(reader, None)
            for number, row in enumerate(reader, 2):
                if len(row) != len(COLUMNS):
                    raise BadInput(
                        str(self._path),
                        f"line {number}",
                        f"{len(row)} values, and not {len(COLUMNS)}",
                    )
                yield {name: self._value(name, text, number) for name, text in zip(COLUMNS, row)}

    def _value(self, name: str, text: str, number: int) -> object:
        kind = _kind(name)
        if kind == "TEXT" or not text:
            return text if kind == "TEXT" and (text or name == "words") else None
        try:
            return int(text) if kind == "INTEGER" else float(text)
        except ValueError:
            raise BadInput(str(self._path), f"line {number}", f"{name}: {text!r} is no number") from None

    def add(self, row: Row) -> None:
        if row["key"] in self._keys:
            return
        self._keys.add(row["key"])
        self._file.write(_line(["" if row[it] is None else row[it] for it in COLUMNS]).encode())

    def drop(self, keys: list[str]) -> None:
        kept = [row for row in self.rows() if row["key"] not in set(keys)]
        self._file.close()
        room = self._path.with_name(self._path.name + ".part")
        lines = [["" if row[it] is None else row[it] for it in COLUMNS] for row in kept]
        room.write_text("".join(map(_line, [list(COLUMNS), *lines])), encoding="utf-8")
        os.replace(room, self._path)
        self._keys = {row["key"] for row in kept}
        self._file = open(self._path, "ab", buffering=0)

    def close(self) -> None:
        self._file.close()


def _kind(name: str) -> str:
    return "TEXT" if name in _TEXT else "INTEGER" if name in _WHOLE else "REAL"


def _line(values: list[object]) -> str:
    # A row is one line, whatever its words are.
    flat = [value.replace("\n", " ").replace("\r", " ") if isinstance(value, str) else value for value in values]
    out = io.StringIO()
    csv.writer(out, lineterminator="\n").writerow(flat)
    return out.getvalue()


def checked(table: Table, path: Path, plan: str, is_added: bool) -> dict[str, Optional[str]]:
    """The keys that are there, with their statuses. Rows of another plan are refused, unless more
    may be added."""
    found: dict[str, Optional[str]] = {}
    for row in table.rows():
        if row["plan"] != plan and not is_added:
            told = (
                "it has rows of another plan, or of this one before it was changed: --add keeps them and adds to them"
            )
            raise BadInput(str(path), "its rows", told)
        found[row["key"]] = row["status"]
    return found
