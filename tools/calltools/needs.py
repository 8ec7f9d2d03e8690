"""Modules that a tool needs beside the standard library, and what helps where this Python lacks them."""

import subprocess
import sys

from .errors import BadInput

# Debian's own Python, for which its packages are.
SYSTEM = "/usr/bin/python3"


def help_for(module: str, package: str) -> str:
    """What to type where this Python lacks a module that a package of Debian has."""
    if sys.executable != SYSTEM and _has(module):
        return f"{SYSTEM} has it: begin the line with {SYSTEM}"
    return f"apt install {package}, for {SYSTEM}"


def refusal(what: str, fault: ImportError, module: str, package: str) -> BadInput:
    """What is told of a tool, or of its option, that asks for a library which isn't there."""
    return BadInput(what, fault.name or "", f"the library isn't there: {help_for(module, package)}")


def _has(module: str) -> bool:
    try:
        return not subprocess.run([SYSTEM, "-c", f"import {module}"], capture_output=True).returncode
    except OSError:
        return False
