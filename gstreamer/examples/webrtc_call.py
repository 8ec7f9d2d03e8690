#!/usr/bin/env python3
"""A call both ways between two webrtcbin in this process: ICE, DTLS-SRTP and one port, and messages by their sessions.

What an application adds is the way of the two descriptions and of ICE's candidates to the other machine; here they are
handed over in memory. Needs Debian's python3-gi, gir1.2-gst-plugins-bad-1.0 and gstreamer1.0-nice."""

import argparse
import re
import sys
from typing import Any, Callable, Optional

import gi

gi.require_version("Gst", "1.0")
gi.require_version("GstSdp", "1.0")
gi.require_version("GstWebRTC", "1.0")
from gi.repository import GLib, GObject, Gst, GstSdp, GstWebRTC  # noqa: E402

CAPS = "video/x-raw,width=176,height=144,framerate=30/1"
# A session delays feedback by its bandwidth (RFC 4585, 3.5): ten times the stream's is enough.
BANDWIDTH = 4_300_000.0
MARKS = ("exact", "patched", "held")
# What both ends do by RTCP (RFC 4585, 4.2). webrtcbin writes only the third of these lines itself.
FEEDBACK = ("ack rpsi", "nack rpsi", "nack pli")
# Keys are made at the start, which may take seconds.
PATIENCE = 60


def with_feedback(text: str) -> str:
    """A description in which the stream of H263-2000 says that reference pictures are selected."""
    lines = text.splitlines()
    for line in list(lines):
        if line.startswith("a=rtpmap:") and " H263-2000/" in line:
            kind = line[len("a=rtpmap:") :].split()[0]
            added = [f"a=rtcp-fb:{kind} {what}" for what in FEEDBACK]
            at = lines.index(line) + 1
            lines[at:at] = [it for it in added if it not in lines]
    return "".join(f"{line}\r\n" for line in lines)


def knows_feedback(text: str) -> bool:
    """Whether a description says so."""
    return all(re.search(rf"^a=rtcp-fb:(\d+|\*) {what}\s*$", text, re.MULTILINE) for what in FEEDBACK[:2])


class Party:
    """A camera, a screen, and a webrtcbin between them and the network."""

    def __init__(self, pipeline: Gst.Pipeline, name: str, sink: str) -> None:
        self.name, self._pipeline, self._sink = name, pipeline, sink
        self.send, self.rtc = pipeline.get_by_name(f"send-{name}"), pipeline.get_by_name(f"rtc-{name}")
        self.recv: Optional[Gst.Element] = None
        self._kept: list[Any] = []
        self._buffer: Optional[Gst.Element] = None
        self.rtc.connect("pad-added", self._on_pad)
        self.rtc.get_by_name("rtpbin").connect("new-jitterbuffer", self._on_buffer)

    @staticmethod
    def text(name: str, loss: float) -> str:
        """The sending part of the pipeline. The receiving one is added when the other side's stream comes."""
        camera = f"videotestsrc is-live=true pattern=ball ! {CAPS} ! h263rpssend name=send-{name} repair=false"
        packets = "application/x-rtp,media=video,encoding-name=H263-2000,payload=96"
        return (
            f"{camera} ! {packets} ! netsim drop-probability={loss} ! "
            f"webrtcbin name=rtc-{name} bundle-policy=max-bundle latency=0 "
        )

    def session(self) -> Any:
        """The inner session of this party's one stream."""
        inner = self.rtc.get_by_name("rtpbin").emit("get-internal-session", 0)
        inner.set_property("bandwidth", BANDWIDTH)
        inner.set_property("rtcp-reduced-size", True)
        return inner

    def described(self, kind: str, then: Callable[[Any], None]) -> None:
        """Makes an offer or an answer, takes it as this side's, and hands it on."""

        def made(promise: Gst.Promise, _: Any) -> None:
            reply = promise.get_reply()
            own = reply.get_value(kind)
            _, sdp = GstSdp.SDPMessage.new_from_text(with_feedback(own.sdp.as_text()))
            description = GstWebRTC.WebRTCSessionDescription.new(own.type, sdp)
            # pygobject frees what isn't kept.
            self._kept += [promise, reply, own, sdp, description]
            self.rtc.emit("set-local-description", description, Gst.Promise.new())
            self.send.set_property("session", self.session())
            then(description)

        self.rtc.emit(f"create-{kind}", None, Gst.Promise.new_with_change_func(made, None))

    def take(self, description: Any) -> None:
        """The other side's description. One that doesn't select reference pictures is sent intra ones alone."""
        if not knows_feedback(description.sdp.as_text()):
            print(
                f"{self.name}: the other side doesn't say ack rpsi, nack rpsi: each picture is intra", file=sys.stderr
            )
        self.rtc.emit("set-remote-description", description, Gst.Promise.new())

    def _on_pad(self, _: Gst.Element, pad: Gst.Pad) -> None:
        if pad.get_direction() != Gst.PadDirection.SRC:
            return
        self.recv = Gst.ElementFactory.make("h263rpsrecv", f"recv-{self.name}")
        self.recv.set_property("session", self.session())
        # Both sides send: messages go in the pictures' headers, too.
        self.recv.set_property("sender", self.send)
        # webrtcbin's rtpjitterbuffer drops what comes late, so nothing is asked for again.
        self.recv.set_property("repair", False)
        self._sync()
        screen = Gst.parse_bin_from_description(self._sink, True)
        # It waits for its first picture by itself, and the pipeline, which plays, doesn't for it.
        screen.set_property("async-handling", True)
        for element in (self.recv, screen):
            self._pipeline.add(element)
        self.recv.link(screen)
        for element in (self.recv, screen):
            element.sync_state_with_parent()
        pad.link(self.recv.get_static_pad("sink"))

    def _on_buffer(self, _: Gst.Element, buffer: Gst.Element, session: int, source: int) -> None:
        self._buffer = buffer

    def _sync(self) -> None:
        """The offset by which a session plays one party's streams at the same time is that of the element, too."""
        if self._buffer:
            self._kept.append(
                self._buffer.bind_property("ts-offset", self.recv, "ts-offset", GObject.BindingFlags.SYNC_CREATE)
            )

    def count(self, name: str) -> int:
        """A count of what this party shows."""
        return self.recv.get_property("stats").get_value(name) if self.recv else 0

    @property
    def round_trip(self) -> str:
        """In milliseconds, by the other side's reports; - as long as none came."""
        trip = self.send.get_property("stats").get_value("round-trip")
        return "-" if trip == Gst.CLOCK_TIME_NONE else f"{trip / Gst.MSECOND:.0f} ms"

    @property
    def shown(self) -> int:
        """How many pictures this party has shown."""
        return sum(map(self.count, MARKS))


def connect(a: Party, b: Party) -> None:
    """What a server to meet at would do: each side's description and candidates go to the other."""
    a.rtc.connect("on-ice-candidate", lambda _, line, text: b.rtc.emit("add-ice-candidate", line, text))
    b.rtc.connect("on-ice-candidate", lambda _, line, text: a.rtc.emit("add-ice-candidate", line, text))

    def offered(offer: Any) -> None:
        b.take(offer)
        b.described("answer", a.take)

    a.rtc.connect("on-negotiation-needed", lambda _: a.described("offer", offered))


def main(words: list[str]) -> int:
    parser = argparse.ArgumentParser(description=__doc__)
    parser.add_argument("--pictures", type=int, default=300, help="that each side shows (300)")
    parser.add_argument("--loss", type=float, default=0.0, help="the share of packets that is lost, each way (0)")
    parser.add_argument("--sink", default="videoconvert ! autovideosink", help="what shows the pictures")
    parser.add_argument("--sdp", action="store_true", help="print the offer")
    asked = parser.parse_args(words)
    Gst.init(None)
    pipeline = Gst.parse_launch(" ".join(Party.text(name, asked.loss) for name in "ab"))
    a, b = (Party(pipeline, name, asked.sink) for name in "ab")
    connect(a, b)
    loop = GLib.MainLoop()
    faults: list[str] = []

    def on_message(_: Gst.Bus, message: Gst.Message) -> None:
        if message.type == Gst.MessageType.ERROR:
            faults.append(f"{message.src.get_name()}: {message.parse_error()[0].message}")
            loop.quit()
        elif message.type == Gst.MessageType.LATENCY:
            pipeline.recalculate_latency()

    bus = pipeline.get_bus()
    bus.add_signal_watch()
    bus.connect("message", on_message)
    pipeline.set_state(Gst.State.PLAYING)
    GLib.timeout_add_seconds(PATIENCE + asked.pictures // 30, loop.quit)
    GLib.timeout_add(100, lambda: loop.quit() if min(a.shown, b.shown) >= asked.pictures else True)
    loop.run()
    if asked.sdp:
        print(a.rtc.get_property("local-description").sdp.as_text(), end="")
    for party in (a, b):
        state = party.rtc.get_property("ice-connection-state").value_nick
        marks = " ".join(f"{name} {party.count(name)}" for name in MARKS)
        print(f"{party.name}: ice {state}, {marks}, round trip {party.round_trip}")
    pipeline.set_state(Gst.State.NULL)
    for fault in faults:
        print(fault, file=sys.stderr)
    return 1 if faults or min(a.shown, b.shown) < asked.pictures else 0


if __name__ == "__main__":
    sys.exit(main(sys.argv[1:]))
