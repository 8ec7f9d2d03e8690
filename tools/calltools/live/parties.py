"""A party of a live call: its camera and its screen, and the ends between them and the network."""

from dataclasses import replace
from typing import Callable, Optional, Sequence

from .call_context import CallContext
from ..network.call_network import Line
from .cameras import Camera
from ..errors import BadInput
from ..network.header_messages import Outgoing
from .receiving import Receiving
from .reporting import Reporting
from ..network.reports import Report, is_description, rate_in, read_report
from ..network.rtcp import Bye, Feedback, Missing, bye_bytes, feedback_bytes, missing_bytes, packets_of, read_rtcp
from .screens import Screen
from .sending import Sending
from ..y4m import Frame

# How often the end of a stream is said, since a datagram may be lost.
_BYES = 3


class Party:
    """What goes over a line to the other party, and what comes from there."""

    def __init__(self, context: CallContext, line: Line) -> None:
        self._context, self._line = context, line
        line.media.on_datagram, line.control.on_datagram = self._packet, self._rtcp
        rate = context.settings.rate
        session = context.settings.target * float(rate)
        self.reporting = Reporting(context.loop, session, line.control.send, rate)
        self._is_rate_told = False
        self.camera: Optional[Camera] = None
        self.screen: Optional[Screen] = None
        self.sending: Optional[Sending] = None
        self.receiving: Optional[Receiving] = None
        self._outgoing: Optional[Outgoing] = None
        self.on_end: Callable[[str], None] = lambda _: None
        self.on_fault: Callable[[BadInput], None] = lambda _: None
        self._left = 0

    def add_camera(self, camera: Camera) -> None:
        """What the party sends."""
        sending = Sending(self._context)
        sending.on_packet = self._send
        sending.on_repeat = self._line.media.send
        sending.on_over = self._over
        camera.on_frame, camera.on_end, camera.on_fault = sending.frame, self._end, self._fault
        self.camera, self.sending = camera, sending
        self._join_ways()

    def add_screen(self, screen: Screen) -> None:
        """What shows what the other party sends."""
        receiving = Receiving(self._context)
        receiving.on_frame = self._show
        receiving.on_feedback = self._feedback
        receiving.on_missing = self._missing
        receiving.reported = lambda: self.reporting.round_trip
        receiving.on_over = self._over
        receiving.on_hung_up = self._hung_up
        screen.on_gone, screen.on_fault = self._gone, self._fault
        self.screen, self.receiving = screen, receiving
        self._join_ways()

    def _join_ways(self) -> None:
        # Where both sides send, messages go in the headers of pictures.
        sending, receiving = self.sending, self.receiving
        if not sending or not receiving:
            return
        own: Sending = sending
        self._outgoing = Outgoing(self._context.loop, self._say, lambda: own.next_capture)
        own.waiting, receiving.on_messages = self._outgoing.take, self._headed

    def stop_camera(self) -> None:
        """No more pictures, and the other party is told."""
        if self.camera and self.sending:
            self.camera.stop()
            for _ in range(_BYES):
                self._line.control.send(bye_bytes(self.sending.source))

    def stop(self) -> None:
        """Both ends finish; the receiving one plays what it has."""
        ends = [end for end in (self.sending, self.receiving) if end]
        self._left += len(ends)
        for end in ends:
            end.end()

    @property
    def is_over(self) -> bool:
        """Whether the ends that were stopped have finished."""
        return not self._left

    def _over(self) -> None:
        self._left -= 1

    def _end(self) -> None:
        self.on_end("the camera has ended")

    def _fault(self, fault: BadInput) -> None:
        self.on_fault(fault)

    def _hung_up(self) -> None:
        self.on_end("the other side has hung up")

    def _gone(self) -> None:
        self.on_end("the screen was closed")

    def _show(self, frame: Frame) -> None:
        assert self.screen
        self.screen.show(frame, self._context.loop.now())

    def _send(self, packet: bytes) -> None:
        self.reporting.sent(packet)
        self._line.media.send(packet)

    def _packet(self, data: bytes) -> None:
        if not self.receiving:
            self._drop("not asked for")
            return
        header = self.receiving.packet(data)
        if header and header.source == self.receiving.source:
            self.reporting.came(header)

    def _feedback(self, feedback: Feedback) -> None:
        # A header says nothing of the stream that a message is about: it is the one that is followed.
        if self._outgoing and self.receiving and feedback.about == self.receiving.source:
            self._outgoing.say(feedback.message)
        else:
            self._send_feedback(feedback)

    def _say(self, message: bytes) -> None:
        if self.receiving and self.receiving.source is not None:
            self._send_feedback(Feedback(0, self.receiving.source, message))

    def _send_feedback(self, feedback: Feedback) -> None:
        # Reports and messages of a party are of one speaker.
        own = replace(feedback, speaker=self.reporting.source)
        self._line.control.send(feedback_bytes(own))

    def _missing(self, missing: Missing) -> None:
        self._line.control.send(missing_bytes(replace(missing, speaker=self.reporting.source)))

    def _headed(self, messages: Sequence[bytes]) -> None:
        # A packet of the other side's had messages in its header, so it reads them there.
        if messages and self._outgoing and self.sending:
            self._outgoing.is_read = True
            self.sending.headed(messages)

    def _rtcp(self, data: bytes) -> None:
        packets = packets_of(data)
        for packet in packets:
            self._take(packet)
        if not packets:
            self._drop("malformed")

    def _take(self, packet: bytes) -> None:
        known = read_report(packet) or read_rtcp(packet)
        if isinstance(known, Report):
            self.reporting.size(len(packet))
            self.reporting.heard(known, self.receiving.source if self.receiving else None)
        elif isinstance(known, Feedback) and self.sending:
            self.sending.feedback(known)
        elif isinstance(known, Missing) and self.sending:
            self.sending.missing(known)
        elif isinstance(known, Bye) and self.receiving:
            self.receiving.bye(known)
        elif known:
            self._drop("not asked for")
        elif is_description(packet):
            self._tell_rate(packet)
        else:
            self._drop("of another kind")

    def _tell_rate(self, packet: bytes) -> None:
        # By what the other side says: its pictures tell less, since it may leave frames out.
        theirs, own = rate_in(packet), self._context.settings.rate
        if theirs and theirs != own and not self._is_rate_told:
            self._is_rate_told = True
            told = f"the other side's --rate is {float(theirs):.4g}, and here it is {float(own):.4g}"
            self._context.say(told + ": give both the same")

    def _drop(self, cause: str) -> None:
        self._context.tally.dropped[cause] += 1
