"""Files by the hash of what they hold, so that two machines can't mean different ones by one name.
"""

import hashlib
import os
import tempfile
from pathlib import Path

from ..errors import BadInput


def hash_of(data: bytes) -> str:
    """SHA-256 in hexadecimal."""
    return hashlib.sha256(data).hexdigest()


class Store:
    """A folder whose files are named by their hashes. Several processes may use it at once."""

    def __init__(self, folder: Path) -> None:
        self.folder = folder
        folder.mkdir(parents=True, exist_ok=True)
        self._checked: set[str] = set()

    def path(self, name: str) -> Path:
        return self.folder / name

    def put(self, data: bytes) -> str:
        """Keeps the bytes, and tells their hash."""
        name = hash_of(data)
        if not self.path(name).exists():
            handle, room = tempfile.mkstemp(dir=self.folder)
            with os.fdopen(handle, "wb") as file:
                file.write(data)
            os.chmod(room, 0o700)  # one of them is the program
            os.replace(room, self.path(name))
        return name

    def has(self, name: str) -> bool:
        return self.path(name).exists()

    def get(self, name: str) -> Path:
        """The file with this hash, which is checked once in each process."""
        path = self.path(name)
        if name not in self._checked:
            if hash_of(path.read_bytes()) != name:
                raise BadInput(str(path), "its content", "it isn't what its name says")
            self._checked.add(name)
        return path
