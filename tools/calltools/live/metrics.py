"""What a call tells a monitor: Prometheus' text (version 0.0.4) of the last second, on loopback alone."""

import http.server
import socketserver
import threading
from collections import deque
from dataclasses import dataclass
from typing import Optional

from ..errors import BadInput
from .tally import Tally
from .status_line import Heard
from ..network.udp import LOOPBACK

KIND = "text/plain; version=0.0.4; charset=utf-8"
# A reader that says nothing has this long, in seconds; meanwhile another one waits.
_PATIENCE = 2.0
# The seconds of which the exact share is told.
_SECONDS = 10


@dataclass(frozen=True)
class Sample:
    """A number of a metric, with its labels."""

    value: float
    labels: str = ""


def _lines(name: str, kind: str, help: str, samples: list[Sample]) -> list[str]:
    # A number that isn't known yet isn't told.
    if not samples:
        return []
    rows = [f"h263rps_{name}{it.labels} {it.value:.10g}" for it in samples]
    return [f"# HELP h263rps_{name} {help}", f"# TYPE h263rps_{name} {kind}", *rows]


def _known(value: Optional[float], labels: str = "") -> list[Sample]:
    return [] if value is None else [Sample(value, labels)]


class Metrics:
    """The text by second: counts since the start, and what is known of the network."""

    def __init__(self, wait: float) -> None:
        self._wait = wait
        self._rows: deque[tuple[float, int, int, int, int]] = deque(maxlen=_SECONDS + 1)
        self._rows.append((0.0, 0, 0, 0, 0))

    def text(self, second: float, tally: Tally, heard: Heard) -> str:
        """Of this second of the call."""
        self._rows.append((second, tally.marks["exact"], tally.shown, tally.bytes_out, tally.bytes_in))
        return "\n".join([*self._counts(tally), *self._gauges(second, heard), ""])

    def _counts(self, tally: Tally) -> list[str]:
        marks = [Sample(tally.marks[mark], f'{{mark="{mark}"}}') for mark in ("exact", "patched", "held")]
        dropped = [Sample(number, f'{{cause="{cause}"}}') for cause, number in sorted(tally.dropped.items())]
        return [
            *_lines("pictures_shown_total", "counter", "Pictures that were shown, by their marks.", marks),
            *_lines("pictures_sent_total", "counter", "Pictures that were coded and sent.", [Sample(tally.coded)]),
            *_lines(
                "frames_left_out_total", "counter", "Frames for which the line had no room.", [Sample(tally.thinned)]
            ),
            *_ways("packets_total", "counter", "Packets of RTP.", tally.packets_out, tally.packets_in),
            *_ways("messages_total", "counter", "Messages of the back channel.", tally.messages_out, tally.messages_in),
            *_ways("bytes_total", "counter", "Bytes of datagrams.", tally.bytes_out, tally.bytes_in),
            *_lines("datagrams_dropped_total", "counter", "Datagrams that didn't count, by the cause.", dropped),
            *_lines("ends_begun_anew_total", "counter", "Ends that were begun anew.", [Sample(tally.begun_anew)]),
        ]

    def _gauges(self, second: float, heard: Heard) -> list[str]:
        (_, exact, shown, _, _), (at, _, _, out, came), now = self._rows[0], self._rows[-2], self._rows[-1]
        seconds = max(second - at, 0.001)
        rates = 8 * (now[3] - out) / seconds, 8 * (now[4] - came) / seconds
        share = (now[1] - exact) / (now[2] - shown) if now[2] > shown else None
        return [
            *_lines("call_seconds", "gauge", "Since the call began.", [Sample(second)]),
            *_lines(
                "wait_seconds", "gauge", "From the earliest arrival of a picture to its play.", [Sample(self._wait)]
            ),
            *_lines("exact_ratio", "gauge", "Exact pictures of those of the last ten seconds.", _known(share)),
            *_ways("bits_per_second", "gauge", "Bits of datagrams in the last second.", *rates),
            *_lines("round_trip_seconds", "gauge", "By the other party's reports.", _known(heard.round_trip)),
            *_lines("jitter_seconds", "gauge", "Of what comes in (RFC 3550, A.8).", _known(heard.jitter)),
            *_lines(
                "lost_ratio",
                "gauge",
                "Packets lost of what goes out, by the other party's last report.",
                _known(heard.loss),
            ),
        ]


def _ways(name: str, kind: str, help: str, out: float, came: float) -> list[str]:
    return _lines(name, kind, help, [Sample(out, '{way="out"}'), Sample(came, '{way="in"}')])


class _Handler(http.server.BaseHTTPRequestHandler):
    timeout = _PATIENCE
    server: "_Server"

    def do_GET(self) -> None:
        # A page of the browser that has another name lead here is none of this machine's readers.
        host = self.headers.get("Host", LOOPBACK).rpartition(":")[0] or self.headers.get("Host", LOOPBACK)
        if host not in (LOOPBACK, "localhost"):
            self.send_error(403)
        elif self.path != "/metrics":
            self.send_error(404)
        else:
            body = self.server.told.encode()
            self.send_response(200)
            self.send_header("Content-Type", KIND)
            self.send_header("Content-Length", str(len(body)))
            self.end_headers()
            self.wfile.write(body)

    def log_message(self, format: str, *args: object) -> None:
        """Nothing is printed into the call's lines."""


class _Server(socketserver.TCPServer):
    # Not http.server's own, which asks for the machine's name, perhaps for seconds.
    allow_reuse_address = True
    told = ""

    def handle_error(self, request: object, client_address: object) -> None:
        """A reader that breaks off costs nothing."""


class MetricsServer:
    """Answers GET /metrics, one reader after the other, beside the call's loop."""

    def __init__(self, port: int) -> None:
        try:
            self._server = _Server((LOOPBACK, port), _Handler)
        except OSError as fault:
            raise BadInput("--metrics", str(port), fault.strerror or "it can't be used") from None
        threading.Thread(target=self._server.serve_forever, daemon=True).start()

    def tell(self, text: str) -> None:
        """From now on this is told."""
        self._server.told = text

    def close(self) -> None:
        self._server.shutdown()
        self._server.server_close()
