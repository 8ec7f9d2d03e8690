"""The library, by its own module for Python (docs/LIBRARY.md, "In Python")."""

import importlib
import sys
from pathlib import Path
from types import ModuleType

from .errors import BadInput

_PACKAGES = Path(__file__).resolve().parent.parent.parent / "library"


def loaded() -> ModuleType:
    """The module. Without the library itself, or with an older one, which lacks functions, there is none."""
    if str(_PACKAGES) not in sys.path:
        sys.path.insert(0, str(_PACKAGES))
    try:
        module = importlib.import_module("h263rps")
        module.picture_size("qcif")
    except (AttributeError, ImportError, OSError) as fault:
        how = "make -C library makes it, five minutes after rt ci, longer without it"
        raise BadInput(
            "the library", "it isn't there", f"{how}; releases have it, for Debian python3-h263rps"
        ) from fault
    return module
