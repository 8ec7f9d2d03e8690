#!/usr/bin/env python3
"""Sound and pictures of one sender, by an rtpbin at each end, of which the pictures take a longer way: whether both are
shown at the same time after their capture.

    tests/sync.py [MILLISECONDS]        how much longer the way of the pictures is (200)

The sender's elements are in one pipeline and the receiver's in another. At the receiver each buffer has the sender's
time (timestamp/x-ntp), the pictures' by h263rpsrecv and the sound's by its rtpjitterbuffer; at a screen that
synchronises each is shown when its time has come. The rtpbin tells each rtpjitterbuffer its ts-offset, and the one of
the pictures is bound to h263rpsrecv. With `own` for MILLISECONDS the sender has no rtpbin: its reports are those of the
pads rtcp_src, with the cname of the sound's."""

import statistics
import sys
from typing import Any

import gi

gi.require_version("Gst", "1.0")
from gi.repository import GLib, GObject, Gst  # noqa: E402

SECONDS = 14
# What both streams are heard on, and what comes back.
PORTS = {"video": 29400, "video-rtcp": 29401, "audio": 29402, "audio-rtcp": 29403, "back": 29404}
VIDEO = "application/x-rtp,media=video,clock-rate=90000,encoding-name=H263-2000,payload=96,a-framerate=(string)30"
AUDIO = "application/x-rtp,media=audio,clock-rate=48000,encoding-name=OPUS,payload=97"
# Pictures come every 33 ms and sound every 20; a busy machine adds some.
MOST_APART = 60.0


def sender(way: int, is_own: bool) -> str:
    """Sound by rtpbin, and pictures by it or by the element's own pads, `way` later."""
    camera = (
        "videotestsrc is-live=true pattern=ball ! video/x-raw,width=176,height=144,framerate=30/1 ! h263rpssend name=s"
    )
    later = f"netsim delay-probability=1 min-delay={way} max-delay={way + 1} ! udpsink host=127.0.0.1 port={PORTS['video']} sync=false async=false"
    reports = f"udpsink host=127.0.0.1 port={PORTS['video-rtcp']} sync=false async=false"
    sound = (
        f"audiotestsrc is-live=true samplesperbuffer=960 ! audio/x-raw,rate=48000,channels=1 ! opusenc ! rtpopuspay pt=97 ! b.send_rtp_sink_1 "
        f"b.send_rtp_src_1 ! udpsink host=127.0.0.1 port={PORTS['audio']} sync=false async=false "
        f"b.send_rtcp_src_1 ! udpsink host=127.0.0.1 port={PORTS['audio-rtcp']} sync=false async=false"
    )
    bin = 'rtpbin name=b rtp-profile=avpf sdes="application/x-rtp-source-sdes,cname=(string)one"'
    back = f"udpsrc port={PORTS['back']} caps=application/x-rtcp ! s.rtcp_sink"
    if is_own:
        return f"{camera} cname=one ! {later} s.rtcp_src ! {reports} {back} {bin} {sound}"
    return f"{camera} ! b.send_rtp_sink_0 b.send_rtp_src_0 ! {later} b.send_rtcp_src_0 ! {reports} {back} {bin} {sound}"


def receiver() -> str:
    """Both streams by one rtpbin; the pictures' messages go by the element's own pad."""
    video = f"udpsrc port={PORTS['video']} caps=\"{VIDEO}\" ! r.recv_rtp_sink_0 udpsrc port={PORTS['video-rtcp']} caps=application/x-rtcp ! r.recv_rtcp_sink_0"
    audio = f"udpsrc port={PORTS['audio']} caps={AUDIO} ! r.recv_rtp_sink_1 udpsrc port={PORTS['audio-rtcp']} caps=application/x-rtcp ! r.recv_rtcp_sink_1"
    return f"rtpbin name=r latency=0 add-reference-timestamp-meta=true {video} {audio}"


class Screens:
    """What is shown of each kind: milliseconds from the sender's time to the show."""

    def __init__(self, pipeline: Gst.Pipeline) -> None:
        self._pipeline = pipeline
        self._kept: list[Any] = []
        self.late: dict[str, list[float]] = {"video": [], "audio": []}
        self._buffers: dict[int, Any] = {}
        rtpbin = pipeline.get_by_name("r")
        rtpbin.connect("new-jitterbuffer", self._on_buffer)
        rtpbin.connect("pad-added", self._on_pad)

    def _on_buffer(self, _: Gst.Element, buffer: Gst.Element, session: int, source: int) -> None:
        self._buffers[session] = buffer

    def _on_pad(self, _: Gst.Element, pad: Gst.Pad) -> None:
        session = int(pad.get_name().split("_")[3]) if pad.get_name().startswith("recv_rtp_src_") else -1
        if session == 0:
            text = (
                f"h263rpsrecv name=v latency=100 ! fakesink name=video async=false sync=true signal-handoffs=true v.rtcp_src ! "
                f"udpsink host=127.0.0.1 port={PORTS['back']} sync=false async=false"
            )
        elif session == 1:
            text = "rtpopusdepay name=d ! opusdec ! fakesink name=audio async=false sync=true signal-handoffs=true"
        else:
            return
        screen = Gst.parse_bin_from_description(text, False)
        first = screen.get_by_name("v" if session == 0 else "d")
        screen.add_pad(Gst.GhostPad.new("sink", first.get_static_pad("sink")))
        if session == 0:
            self._kept.append(
                self._buffers[0].bind_property("ts-offset", first, "ts-offset", GObject.BindingFlags.SYNC_CREATE)
            )
        name = "video" if session == 0 else "audio"
        screen.get_by_name(name).connect("handoff", self._shown, name)
        self._kept.append(screen)
        self._pipeline.add(screen)
        screen.sync_state_with_parent()
        pad.link(screen.get_static_pad("sink"))

    def _shown(self, _: Gst.Element, buffer: Gst.Buffer, pad: Gst.Pad, name: str) -> None:
        meta = buffer.get_reference_timestamp_meta(Gst.Caps.from_string("timestamp/x-ntp"))
        if meta:
            now = GLib.get_real_time() * 1000 + 2_208_988_800 * Gst.SECOND
            self.late[name].append((now - meta.timestamp) / 1e6)


def main(words: list[str]) -> int:
    is_own = words == ["own"]
    way = 200 if is_own or not words else int(words[0])
    Gst.init(None)
    there, here = (Gst.parse_launch(text) for text in (sender(way, is_own), receiver()))
    screens = Screens(here)
    loop = GLib.MainLoop()
    here.get_bus().add_signal_watch()
    here.get_bus().connect("message::latency", lambda *_: here.recalculate_latency())
    for pipeline in (here, there):
        pipeline.set_state(Gst.State.PLAYING)
    GLib.timeout_add_seconds(SECONDS, loop.quit)
    loop.run()
    for pipeline in (there, here):
        pipeline.set_state(Gst.State.NULL)
    # Of the end, when the reports of both were heard.
    last = {name: late[-60:] for name, late in screens.late.items()}
    if min(map(len, last.values())) < 30:
        print(f"too little was shown: {({name: len(late) for name, late in screens.late.items()})}")
        return 1
    middle = {name: statistics.median(late) for name, late in last.items()}
    print(f"way {way} ms longer, shown after {middle['video']:.0f} ms (pictures) and {middle['audio']:.0f} ms (sound)")
    return 0 if abs(middle["video"] - middle["audio"]) < MOST_APART else 1


if __name__ == "__main__":
    sys.exit(main(sys.argv[1:]))
