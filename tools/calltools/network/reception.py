"""What came of one source: losses and jitter, as receiver reports tell them (RFC 3550, A)."""

from .reports import ReportBlock
from .rtp import CLOCK, RtpHeader

# A sequence number this far ahead, or further back than this, is of another numbering (A.1).
_DROPOUT, _MISORDER = 3_000, 100
_NUMBERS = 1 << 16


class Jitter:
    """The interarrival jitter of A.8, in sixteenths of a tick of the RTP clock."""

    def __init__(self) -> None:
        self._transit = 0
        self._is_begun = False
        self._sixteenths = 0

    def packet(self, timestamp: int, arrival: int) -> None:
        """A packet of this RTP time came, by this machine's clock in the same units."""
        transit = arrival - timestamp
        if self._is_begun:
            # Both go modulo 2^32, and the difference is the one that is nearer to 0.
            step = (transit - self._transit) & 0xFFFFFFFF
            step = min(step, (1 << 32) - step)
            self._sixteenths += step - ((self._sixteenths + 8) >> 4)
        self._transit, self._is_begun = transit, True

    @property
    def ticks(self) -> int:
        return self._sixteenths >> 4


class Reception:
    """The packets of one source, from the first one that counts on."""

    def __init__(self, header: RtpHeader) -> None:
        self.source = header.source
        self._jitter = Jitter()
        self._begin(header.sequence)

    def _begin(self, sequence: int) -> None:
        self._first = self._highest = sequence
        self._other = -1  # what would follow on a number of another numbering
        self.came = self._came_before = self._expected_before = 0

    def packet(self, header: RtpHeader, now: float) -> None:
        """A packet came, now in seconds."""
        ahead = (header.sequence - self._highest) % _NUMBERS
        if _DROPOUT <= ahead <= _NUMBERS - _MISORDER:
            # Two that follow on one another are believed: the source has begun anew.
            if header.sequence != self._other:
                self._other = (header.sequence + 1) % _NUMBERS
                return
            self._begin(header.sequence)
        elif ahead < _DROPOUT:
            self._highest += ahead
        self.came += 1
        self._jitter.packet(header.timestamp, int(now * CLOCK))

    @property
    def jitter(self) -> float:
        """In seconds."""
        return self._jitter.ticks / CLOCK

    @property
    def expected(self) -> int:
        """How many there should be by now, by their numbers."""
        return self._highest - self._first + 1

    def block(self, last: int, delay: int) -> ReportBlock:
        """The block of a report that goes out now; the next one's share begins here (A.3)."""
        expected, came = self.expected - self._expected_before, self.came - self._came_before
        self._expected_before, self._came_before = self.expected, self.came
        lost = expected - came
        fraction = min(255, (lost << 8) // expected) if expected > 0 and lost > 0 else 0
        return ReportBlock(
            self.source,
            fraction,
            self.expected - self.came,
            self._highest & 0xFFFFFFFF,
            min(self._jitter.ticks, 0xFFFFFFFF),
            last,
            delay,
        )
