"""The table of all calls: CSV, a row for each."""

from __future__ import annotations

import csv
from dataclasses import asdict, astuple, fields
from pathlib import Path
from typing import Iterable, TextIO

from ..errors import BadInput
from .grid import Row

_TYPES = {
    field.name: {"str": str, "int": int, "float": float}[str(getattr(field.type, "__name__", field.type))]
    for field in fields(Row)
}


def write(path: Path, found: Iterable[Row]) -> None:
    """Writes the rows as they come, and at the end in an order that doesn't depend on which came first."""
    kept = []
    with open(path, "w", encoding="utf-8", newline="") as file:
        writer = _begun(file)
        for row in found:
            kept.append(row)
            writer.writerow(_words_of(row))
            file.flush()
    with open(path, "w", encoding="utf-8", newline="") as file:
        _begun(file).writerows(map(_words_of, sorted(kept, key=astuple)))


def _begun(file: TextIO) -> csv.DictWriter[str]:
    writer = csv.DictWriter(file, list(_TYPES), lineterminator="\n")
    writer.writeheader()
    return writer


def _words_of(row: Row) -> dict[str, object]:
    return {name: f"{value:.6g}" if isinstance(value, float) else value for name, value in asdict(row).items()}


def read(path: Path) -> list[Row]:
    """The rows of a file."""
    with open(path, encoding="utf-8", newline="") as file:
        reader = csv.DictReader(file)
        if reader.fieldnames != list(_TYPES):
            raise BadInput(str(path), "line 1", "it has other columns")
        return [Row(**{name: _TYPES[name](value) for name, value in row.items()}) for row in reader]
