"""A live call from its start to its counts."""

import resource
import sys
from dataclasses import dataclass
from pathlib import Path
from types import ModuleType
from typing import Any, Callable, Optional

from ..network.bad_network import BadNetwork
from .call_context import CallContext
from ..network.call_network import CallNetwork, Lines
from .cameras import camera_of
from ..errors import BadInput
from .settings import Settings
from ..network.loop import Loop
from .metrics import Metrics, MetricsServer
from .parties import Party
from ..recording.recorder import Recorder, call_facts
from .screens import screen_of
from .tally import Recent, StatusLine, Tally, counts
from .status_line import Heard, TerminalStatus, Told
from ..network.udp import Address

# What is on its way when a camera ends is waited for this much longer than it takes, in seconds.
_MORE = 0.2
# How long the ends may take to finish.
_PATIENCE = 10.0
# How often what is recorded is handed on to the system, in seconds.
_FLUSH = 1.0
# When nothing came by then, that is told.
_ALONE = 2.0


@dataclass(frozen=True)
class Asked:
    """What a call is between: `other` is the other party's host and port, or None where the call
    is with itself over `network`. `camera` or `screen` is None where there is none."""

    library: ModuleType
    settings: Settings
    at: Address
    other: Optional[Address]
    network: BadNetwork
    camera: Optional[str]
    screen: Optional[str]
    seconds: Optional[float] = None
    record: Optional[Path] = None
    is_quiet: bool = False
    secure: Optional["Secure"] = None
    metrics: Optional[int] = None  # a port on loopback


@dataclass(frozen=True)
class Secure:
    """What an encrypted call has in place of plain sockets."""

    loop: Callable[[], Loop]
    network: Callable[[Loop], Lines]


class LiveCall:
    """The call. It ends with its camera, its screen, its time, the other party or an interrupt."""

    def __init__(self, asked: Asked) -> None:
        self._asked, self._settings = asked, asked.settings
        secure = asked.secure
        self.loop = secure.loop() if secure else Loop()
        self._told = Told(sys.stderr)
        self.tally = Tally()
        self._began = self.loop.now()
        self._recorder = Recorder(asked.record, self._began, self._facts())
        self._recorder.on_fault = self._recording_failed
        if self._recorder.fault:
            self._recording_failed(self._recorder.fault)
        self._network: Lines
        if secure:
            self._network = secure.network(self.loop)
        else:
            self._network = CallNetwork(self.loop, asked.at, asked.other, asked.network)
        self._network.on_closed(self._closed)
        ends = bool(asked.camera), bool(asked.screen)
        self._line = StatusLine(*ends)
        self._status = TerminalStatus(*ends, asked.settings.wait)
        self._metrics = Metrics(asked.settings.wait)
        self._server = MetricsServer(asked.metrics) if asked.metrics else None
        self.fault: Optional[BadInput] = None
        self._is_ending = self._is_over = False
        context = CallContext(self.loop, self._settings, self._recorder, self.tally, self.say, asked.library)
        self.parties = [Party(context, line) for line in self._network.lines]
        for party in self.parties:
            party.on_end, party.on_fault = self.end, self._failed
        camera, screen = asked.camera, asked.screen
        self._camera = camera_of(self.loop, self._settings, camera) if camera else None
        self._screen = screen_of(self.loop, self._settings, screen, "h263rps") if screen else None

    def _facts(self) -> dict[str, Any]:
        asked = self._asked
        if asked.other is None:
            return call_facts(self._settings, "alone", asked.network)
        party = "both" if asked.camera and asked.screen else "camera" if asked.camera else "screen"
        return call_facts(self._settings, party, None)

    def _open(self) -> None:
        # The other party is found, and then the cameras and screens start.
        try:
            self._network.open(self.say)
        except BadInput:
            self._network.close()
            raise
        if self._camera:
            self.parties[0].add_camera(self._camera)
        if self._screen:
            self.parties[-1].add_screen(self._screen)

    def say(self, words: str) -> None:
        """A line for the user."""
        self._told.say(words)

    def run(self) -> None:
        """The whole call. A fault ends it, and is raised when both ends have finished."""
        self._open()
        self._began = self.loop.now()
        self.loop.on_signals(self._interrupted)
        for party in self.parties:
            if party.camera:
                party.camera.start()
        if self._asked.seconds is not None:
            self.loop.at(self._began + self._asked.seconds, self.end)
        if not self._asked.is_quiet:
            self.say(self._first_line())
            self.loop.at(self._began + 1, self._tell)
        if self._asked.record:
            self.loop.at(self._began + _FLUSH, self._flush)
        if self._server:
            self._measure()
        self.loop.at(self._began + _ALONE, self._tell_if_nobody_is_there)
        self.loop.run(lambda: self._is_over)
        self._finish()
        if self.fault:
            raise self.fault

    def _closed(self) -> None:
        # A way that has to be held open closes when the other side ends.
        leaves = any(party.receiving and party.receiving.is_leaving for party in self.parties)
        self.end("the other side has hung up" if leaves else "the way to the other side has closed")

    def _interrupted(self) -> None:
        # The second one doesn't wait for the ends.
        self._is_over = self._is_ending
        self.end()

    def _first_line(self) -> str:
        settings, (host, port) = self._settings, self._asked.at
        other = "itself" if self._asked.other is None else ":".join(map(str, self._asked.other))
        follows = " at first" if settings.adapts else ""
        parties = f"{host}:{port} calls {other}, not encrypted"
        if self._asked.secure:
            other = self._asked.other[0] if self._asked.other else "itself"
            parties = f"a call with {other}, encrypted"
        return (
            f"{parties}: {settings.format} {settings.rate} a second, "
            f"{settings.target:,} bytes a picture{follows}, wait {1000 * settings.wait:g} ms"
        )

    def _tell_if_nobody_is_there(self) -> None:
        line = self._network.lines[-1]
        if self._asked.other and not line.bytes_in:
            what = "nobody is there yet" if line.unreached else "nothing has come from there yet"
            self.say(f"{self._asked.other[0]}: {what}")

    def end(self, why: str = "") -> None:
        """The camera stops; what is on its way is still shown."""
        if self._is_ending:
            return
        self._is_ending = True
        if self.loop.now() < self._began + _ALONE:
            self._tell_if_nobody_is_there()
        if why and not self._asked.is_quiet:
            self.say(why)
        for party in self.parties:
            party.stop_camera()
        network = self._asked.network
        way = network.delay + network.jitter if self._asked.other is None else 0.0
        self.loop.at(self.loop.now() + way + self._settings.wait + _MORE, self._stop)

    def _stop(self) -> None:
        for party in self.parties:
            party.stop()
        self._watch(self.loop.now() + _PATIENCE)

    def _watch(self, until: float) -> None:
        now = self.loop.now()
        self._is_over |= now > until or all(party.is_over for party in self.parties)
        if not self._is_over:
            self.loop.at(now + 0.01, lambda: self._watch(until))

    def _failed(self, fault: BadInput) -> None:
        self.fault = self.fault or fault
        self.end()

    def _flush(self) -> None:
        self._recorder.flush()
        if not self._recorder.fault:
            self.loop.at(self.loop.now() + _FLUSH, self._flush)

    def _recording_failed(self, fault: OSError) -> None:
        self.say(f"the recording ends here: {fault.strerror}; the call goes on")

    def _count_datagrams(self) -> None:
        dropped = self.tally.dropped
        dropped["of strangers"] = self._network.strangers
        dropped["too long"] = self._network.long
        # Alone, those of the party with the camera: out are the packets, in the messages.
        line = self._network.lines[0]
        self.tally.bytes_out, self.tally.bytes_in = line.bytes_out, line.bytes_in

    def _tell(self) -> None:
        self._count_datagrams()
        now = self.loop.now()
        second = now - self._began
        if self._told.is_terminal:
            self._told.status(self._status.line(second, self.tally, self._heard()))
        else:
            self._told.status(self._second(second))
        if not self._is_ending:
            self.loop.at(self._began + round(second) + 1, self._tell)

    def _measure(self) -> None:
        assert self._server
        self._count_datagrams()
        second = self.loop.now() - self._began
        self._server.tell(self._metrics.text(second, self.tally, self._heard()))
        self.loop.at(self._began + round(second) + 1, self._measure)

    def _second(self, second: float) -> str:
        sending, receiving = self.parties[0].sending, self.parties[-1].receiving
        recent = sending.recent if sending else Recent()
        last = max(receiving.last, self._began) if receiving else 0.0
        silent = self.loop.now() - last if receiving else 0.0
        return self._line.line(second, self.tally, recent, silent)

    def _heard(self) -> Heard:
        out, reception = self.parties[0].reporting, self.parties[-1].reporting.reception
        if not reception:
            return Heard(out.round_trip, out.loss)
        return Heard(out.round_trip, out.loss, reception.expected, reception.came, reception.jitter)

    def _finish(self) -> None:
        self._told.end()
        for party in self.parties:
            if party.camera:
                self.tally.left_out += party.camera.left_out
            if party.screen:
                party.screen.finish()
                self.tally.unshown += party.screen.left_out
        self._count_datagrams()
        seconds = round(self.loop.now() - self._began, 3)
        used = resource.getrusage(resource.RUSAGE_SELF)
        processor = round(used.ru_utime + used.ru_stime, 3)
        facts = {"seconds": seconds, "processor_seconds": processor, **self.tally.facts()}
        self._recorder.finish(facts)
        self._network.close()
        if self._server:
            self._server.close()
        for line in counts(self.tally, bool(self._asked.camera), bool(self._asked.screen)):
            self.say(line)
        if self._recorder.fault and not self.fault:
            folder = str(self._asked.record)
            why = str(self._recorder.fault.strerror)
            self.fault = BadInput(folder, "the recording is not whole", why)
