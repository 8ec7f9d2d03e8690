#!/usr/bin/env python3
"""described.py FILE: what GStreamer reads in the description of a stream is what h263rpssend's packets have."""

import sys

import gi

gi.require_version("Gst", "1.0")
gi.require_version("GstSdp", "1.0")
from gi.repository import Gst, GstSdp  # noqa: E402

WANTED = {
    "encoding-name": "H263-2000",
    "k": "1",
    "n": "4",
    "qcif": "1",
    "x-slots": "39",
    "x-lead": "6",
    "a-framerate": "29.97",
}


def main(path: str) -> int:
    Gst.init(None)
    with open(path, "rb") as file:
        result, message = GstSdp.SDPMessage.new_from_text(file.read().decode())
    media = message.get_media(0)
    caps = media.get_caps_from_media(96)
    # webrtcbin and sdpdemux add what stands on the lines of the media.
    media.attributes_to_caps(caps)
    structure = caps.get_structure(0)
    wrong = 0
    for name, value in WANTED.items():
        told = structure.get_string(name)
        if told != value:
            print(f"{name} is {told}, and not {value}: {structure.to_string()}")
            wrong = 1
    element = Gst.ElementFactory.make("h263rpsrecv")
    # The name of caps from SDP is left to whoever reads it.
    named = Gst.Caps.from_string(caps.to_string().replace("application/x-unknown", "application/x-rtp"))
    if not element.get_static_pad("sink").query_accept_caps(named):
        print("h263rpsrecv takes no such stream:", named.to_string())
        wrong = 1
    return wrong


if __name__ == "__main__":
    sys.exit(main(sys.argv[1]))
