"""What the parts of a live call have in common."""

from dataclasses import dataclass
from types import ModuleType
from typing import Callable

from .settings import Settings
from ..network.loop import Loop
from ..recording.recorder import Recorder
from .tally import Tally


@dataclass(frozen=True)
class CallContext:
    """What is around both ends. `say` tells the user a line; `library` has the ends."""

    loop: Loop
    settings: Settings
    recorder: Recorder
    tally: Tally
    say: Callable[[str], None]
    library: ModuleType
