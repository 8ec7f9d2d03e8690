"""The wheel: the package, and in it the library that `make -C library` leaves in build/, or in the folder that
H263RPS_BUILD names. From a source distribution, which has no library, the wheel is of Python alone, for every processor,
and loads the library that the system has."""

import os
import re
import shutil
from pathlib import Path

from setuptools import setup
from setuptools.command.build_py import build_py
from wheel.bdist_wheel import bdist_wheel

HERE = Path(__file__).resolve().parent
CHANGELOG = HERE.parent / "CHANGELOG.md"
LIBRARY = Path(os.environ.get("H263RPS_BUILD", HERE / "build")) / "libh263rps.so.3"
UNPACKED = (HERE / "PKG-INFO").exists()


def version() -> str:
    """That of the newest heading with a number in CHANGELOG.md, with three numbers; in a source distribution its own."""
    if UNPACKED:
        return re.search(r"^Version: (\S+)", (HERE / "PKG-INFO").read_text(), re.M)[1]
    found = re.search(r"^## (\d[\d.]*)", CHANGELOG.read_text(), re.M)
    if not found:
        raise SystemExit("CHANGELOG.md names no version")
    return found[1] + (".0" if found[1].count(".") == 1 else "")


class WithLibrary(build_py):
    """Puts the library beside the module."""

    def run(self) -> None:
        super().run()
        if LIBRARY.exists():
            shutil.copy2(LIBRARY, Path(self.build_lib) / "h263rps")
        elif not UNPACKED:
            raise SystemExit(f"there is no {LIBRARY}: make -C library makes it")


class AnyPython(bdist_wheel):
    """For each Python, since the library isn't an extension of it; with the library for one system and processor."""

    def finalize_options(self) -> None:
        super().finalize_options()
        self.root_is_pure = not LIBRARY.exists()

    def get_tag(self) -> "tuple[str, str, str]":
        return "py3", "none", super().get_tag()[2]


setup(
    version=version(),
    license="MIT OR Apache-2.0",
    cmdclass={"build_py": WithLibrary, "bdist_wheel": AnyPython},
)
