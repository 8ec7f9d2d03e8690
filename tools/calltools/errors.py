"""Bad input, and how a tool ends on it."""

import argparse
import re
import signal
import sys
from pathlib import Path
from typing import Callable, NoReturn, Union

_CHANGES = Path(__file__).resolve().parent.parent.parent / "CHANGELOG.md"


def shown(text: str) -> str:
    """A name, or what a file says, for a terminal: all that isn't printed there as a letter stands as an escape (control
    characters, marks of direction, bytes that are no text)."""
    return "".join(one if one.isprintable() else one.encode("unicode_escape").decode() for one in text)


class BadInput(Exception):
    """Input that a tool refuses: which file, where in it, and why. The words of another program have lines."""

    def __init__(self, path: str, place: str, why: str) -> None:
        super().__init__("\n".join(map(shown, f"{shown(path)}: {shown(place)}: {why}".split("\n"))))


class Parser(argparse.ArgumentParser):
    """One that shows words as a terminal may have them."""

    def error(self, message: str) -> NoReturn:
        super().error(shown(message))


def number_from(least: int, most: int) -> Callable[[str], int]:
    """A type for argparse: a whole number from `least` to `most`."""

    def number(text: str) -> int:
        value = int(text)
        if not least <= value <= most:
            raise argparse.ArgumentTypeError(f"{value} is not from {least} to {most}")
        return value

    return number


def release() -> str:
    """The newest release of the repository."""
    found = re.search(r"^## (\d.*)", _CHANGES.read_text(encoding="utf-8"), re.M)
    return found[1] if found else "of no release"


def run(main: Callable[[list[str]], None], instead: str = "") -> None:
    """Runs a tool on the words of the command line. Bad input and failing files end it with status 1, an interrupt as a
    shell tells one. Then `instead` is printed, for a command that was to have its words.

    With --version alone it says the release.
    """
    status: Union[int, str, None] = None
    if signal.getsignal(signal.SIGINT) is signal.SIG_DFL:
        signal.signal(signal.SIGINT, signal.default_int_handler)
    try:
        if sys.argv[1:] == ["--version"]:
            print(Path(sys.argv[0]).name, release())
            return
        main(sys.argv[1:])
    except KeyboardInterrupt:
        status = 128 + signal.SIGINT
    except BadInput as fault:
        status = str(fault)
    except OSError as fault:
        status = f"{shown(str(fault.filename or 'the output'))}: {fault.strerror}"
    except SystemExit as end:
        status = end.code
    if status and instead:
        print(instead)
    sys.exit(status)
