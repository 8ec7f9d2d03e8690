"""The RTP streams of a capture."""

from collections import Counter
from dataclasses import dataclass
from typing import Optional, Sequence

from . import rtcp, rtp
from ..errors import BadInput
from .pcap import Datagram

# Ports, or sources, that are named.
_MOST_TOLD = 5


@dataclass(frozen=True)
class Stream:
    """The packets that one host sends to a port with one SSRC."""

    host: str
    port: int
    source: int


def stream_of(datagram: Optional[Datagram], port: int) -> Optional[Stream]:
    """The stream of a packet to this port."""
    header = rtp.rtp_header(datagram.body) if datagram else None
    if not datagram or not header or datagram.target[1] != port:
        return None
    return Stream(datagram.source[0], port, header.source)


def stream_in(found: Sequence[Optional[Datagram]], port: int, source: Optional[int], path: str) -> Stream:
    """The only stream of a capture to this port, or the one with this SSRC."""
    streams = {stream for datagram in found if (stream := stream_of(datagram, port))}
    streams = {stream for stream in streams if source in (None, stream.source)}
    if not streams:
        which = "" if source is None else f" with SSRC {source:#x}"
        raise BadInput(path, f"port {port}", f"no RTP packet{which} was captured{_others(found, port)}")
    if len(streams) > 1:
        told = ", ".join(sorted(f"{it.source:#x} of {it.host}" for it in streams)[:_MOST_TOLD])
        told += f" and {len(streams) - _MOST_TOLD:,} more" if len(streams) > _MOST_TOLD else ""
        raise BadInput(path, f"port {port}", f"it has the streams {told}: --ssrc chooses one")
    return streams.pop()


def _others(found: Sequence[Optional[Datagram]], port: int) -> str:
    """What of RTP was captured instead: to this port, by SSRC, else to others."""
    heads = [(it.target[1], header.source) for it in found if it and (header := _header(it))]
    told, option = [f"of SSRC {source:#x}" for to, source in heads if to == port], "--ssrc"
    if not told:
        told, option = [f"to port {to}" for to, _ in heads], "--port"
    counts = Counter(told)
    rows = [f"{count:,} {which}" for which, count in counts.most_common(_MOST_TOLD)]
    rows += ["others"] if len(counts) > _MOST_TOLD else []
    return f", but {', '.join(rows)}: {option} chooses" if rows else ""


def _header(datagram: Datagram) -> Optional[rtp.RtpHeader]:
    return None if rtcp.is_rtcp(datagram.body) else rtp.rtp_header(datagram.body)


def ssrc(text: str) -> int:
    """A type for argparse: an SSRC, in decimal or hexadecimal."""
    return int(text, 0)
