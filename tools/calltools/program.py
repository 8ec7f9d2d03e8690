"""The program that a tool runs."""

import argparse
import os
from pathlib import Path

from .errors import BadInput

_TOP = Path(__file__).resolve().parent.parent.parent
_RELEASED = _TOP / "bin" / "h263rps"
OWN = _RELEASED if _RELEASED.exists() else _TOP / "crates" / "h263rps" / "out" / "h263rps"


def add_option(parser: argparse.ArgumentParser) -> None:
    parser.add_argument("--program", type=Path, default=OWN, help="else the one that rt ci left")


def named(asked: argparse.Namespace) -> Path:
    """The program that is named, or the gate's. The launcher may compile at each run."""
    if not (asked.program.is_file() and os.access(asked.program, os.X_OK)):
        raise BadInput(str(asked.program), "no program", "rt ci proves and builds it")
    # A name without a folder would be looked for in PATH alone.
    path: Path = asked.program
    return path.absolute()
