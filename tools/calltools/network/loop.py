"""One loop for pipes, sockets and times: what a call waits for, without threads."""

import heapq
import selectors
import signal
import socket
import time
from typing import Callable, Optional

Call = Callable[[], None]


class Timer:
    """A call that is due at a time, until it is cancelled."""

    def __init__(self, call: Call) -> None:
        self.call: Optional[Call] = call

    def cancel(self) -> None:
        self.call = None


class Loop:
    """Calls back when a file can be read or written, and when a time has come."""

    def __init__(self) -> None:
        # Its waits end to the microsecond; those of others only to the millisecond.
        self._selector = selectors.SelectSelector()
        self._calls: dict[int, dict[int, Call]] = {}
        self._timers: list[tuple[float, int, Timer]] = []
        self._count = 0

    @staticmethod
    def now() -> float:
        return time.monotonic()

    def on_readable(self, file: int, call: Optional[Call]) -> None:
        """From now on `call` is called when the file can be read; with None nothing is."""
        self._change(file, selectors.EVENT_READ, call)

    def on_writable(self, file: int, call: Optional[Call]) -> None:
        """From now on `call` is called when the file can be written; with None nothing is."""
        self._change(file, selectors.EVENT_WRITE, call)

    def _change(self, file: int, event: int, call: Optional[Call]) -> None:
        calls = self._calls.setdefault(file, {})
        before = sum(calls)
        if call:
            calls[event] = call
        else:
            calls.pop(event, None)
        events = sum(calls)
        if events and not before:
            self._selector.register(file, events)
        elif events and events != before:
            self._selector.modify(file, events)
        elif before and not events:
            self._selector.unregister(file)
        if not events:
            del self._calls[file]

    def at(self, when: float, call: Call) -> Timer:
        """Calls once at this time of the clock."""
        timer = Timer(call)
        self._count += 1
        heapq.heappush(self._timers, (when, self._count, timer))
        return timer

    def run(self, is_over: Callable[[], bool]) -> None:
        """Goes on until `is_over` says so; it is asked after each round of calls."""
        while not is_over():
            left = None
            if self._timers:
                left = max(0.0, self._timers[0][0] - self.now())
            for key, events in self._selector.select(left):
                for event in (selectors.EVENT_WRITE, selectors.EVENT_READ):
                    call = self._calls.get(key.fd, {}).get(event) if events & event else None
                    if call:
                        call()
            self._call_due()

    def _call_due(self) -> None:
        # Those that are set meanwhile wait for the next round, after a look at the files.
        now, until = self.now(), self._count
        while self._timers and self._timers[0][0] <= now and self._timers[0][1] <= until:
            _, _, timer = heapq.heappop(self._timers)
            if timer.call:
                timer.call()

    def on_signals(self, call: Call) -> None:
        """Calls back at an interrupt, a request to end, or a terminal that closes."""
        theirs, ours = socket.socketpair()
        for end in (theirs, ours):
            end.setblocking(False)
        signal.set_wakeup_fd(theirs.fileno(), warn_on_full_buffer=False)
        for number in (signal.SIGINT, signal.SIGTERM, signal.SIGHUP):
            signal.signal(number, lambda *_: None)
        self._signals = (theirs, ours)

        def came() -> None:
            ours.recv(64)
            call()

        self.on_readable(ours.fileno(), came)
