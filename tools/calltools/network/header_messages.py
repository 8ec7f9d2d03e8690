"""Messages in the headers of a party's own pictures (docs/LIBRARY.md, "Messages in pictures"), where both sides send."""

from collections import deque
from typing import Callable, Optional, Sequence

from .loop import Loop, Timer

# A header takes so many.
_MOST = 4
# A message that could go in the header of a picture within so many seconds goes there alone.
_SOON = 0.02
# A message of a header that is among so many latest ones came before: each packet of a picture has them.
_LATEST = 16


class Outgoing:
    """Messages on their way to the other side: each goes into the next picture's header, and at once by itself, too,
    where that picture isn't near or the other side isn't known to read headers."""

    def __init__(self, loop: Loop, send: Callable[[bytes], None], next_capture: Callable[[], float]) -> None:
        self._loop, self._send, self._next_capture = loop, send, next_capture
        # Each with what sends it by itself where no picture comes.
        self._waiting: deque[tuple[bytes, Optional[Timer]]] = deque(maxlen=_MOST)
        self.is_read = False

    def say(self, message: bytes) -> None:
        """A message is to go."""
        now, timer = self._loop.now(), None
        if self.is_read and now <= self._next_capture() <= now + _SOON:
            timer = self._loop.at(now + _SOON, lambda: self._send(message))
        else:
            self._send(message)
        self._waiting.append((message, timer))

    def take(self) -> list[bytes]:
        """Those for the header of the picture that goes out now. One that had no place among them goes by itself."""
        waiting = list(self._waiting)
        self._waiting.clear()
        for _, timer in waiting:
            if timer:
                timer.cancel()
        return [message for message, _ in waiting]


class Incoming:
    """Messages that come back, of which those in headers come again and again."""

    def __init__(self) -> None:
        self._latest: deque[bytes] = deque(maxlen=_LATEST)

    def note(self, message: bytes) -> None:
        """One came by itself."""
        self._latest.append(message)

    def new(self, messages: Sequence[bytes]) -> list[bytes]:
        """Of those in a header the ones that didn't come before."""
        found = [message for message in messages if message not in self._latest]
        self._latest.extend(found)
        return found
