"""A call's loop over asyncio's, for a library that wants that one: still one loop, no threads."""

import asyncio
import selectors
from typing import Any, Callable, Coroutine, Optional, TypeVar

from .loop import Call, Loop, Timer

Result = TypeVar("Result")


class AsyncLoop(Loop):
    """What `Loop` is; its calls and the library's tasks take turns."""

    def __init__(self) -> None:
        # As that of `Loop`: its waits end to the microsecond. Both have the same clock.
        self.asyncio = asyncio.SelectorEventLoop(selectors.SelectSelector())
        asyncio.set_event_loop(self.asyncio)
        # What the library's callbacks raise over a stranger's datagram ends nothing.
        self.asyncio.set_exception_handler(self._note)
        self.odd = 0
        self._is_over: Optional[Callable[[], bool]] = None  # while it runs
        self._fault: Optional[BaseException] = None

    def on_readable(self, file: int, call: Optional[Call]) -> None:
        if call:
            self.asyncio.add_reader(file, self.call, call)
        else:
            self.asyncio.remove_reader(file)

    def on_writable(self, file: int, call: Optional[Call]) -> None:
        if call:
            self.asyncio.add_writer(file, self.call, call)
        else:
            self.asyncio.remove_writer(file)

    def at(self, when: float, call: Call) -> Timer:
        timer = Timer(call)

        def come() -> None:
            if timer.call:
                self.call(timer.call)

        self.asyncio.call_at(when, come)
        return timer

    def call(self, call: Call) -> None:
        """Calls, and looks whether all is over then. A fault ends the loop, which raises it."""
        try:
            call()
        except Exception as fault:
            self._fault = self._fault or fault
        if self._is_over and (self._fault or self._is_over()):
            self.asyncio.stop()

    def run(self, is_over: Callable[[], bool]) -> None:
        self._is_over = is_over
        if not self._fault and not is_over():
            self.asyncio.run_forever()
        self._is_over = None
        if self._fault:
            raise self._fault

    def complete(self, work: Coroutine[Any, Any, Result]) -> Result:
        """Goes on until the work is done."""
        return self.asyncio.run_until_complete(work)

    def begin(self, work: Coroutine[Any, Any, None]) -> None:
        """Work that is done beside the rest."""
        self.asyncio.create_task(work)

    def _note(self, *_: object) -> None:
        self.odd += 1
