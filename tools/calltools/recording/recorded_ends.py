"""The two ends of a recorded call: what a run of `send` sent and heard, and what a run of `recv`
was given and said."""

import re
from dataclasses import dataclass
from typing import Any, Optional, Sequence

from ..network import rtp
from . import logs
from ..report import picture_lines
from ..errors import BadInput
from ..network.messages import read_message
from ..network.numbers import nearest
from ..network.picture_start import picture_start
from .recorded import Record, Timed, entries_of, pictures_of, rates_of, video_of, video_times

_SEQUENCES, _STAMPS = 1 << 16, 1 << 32
# `recv` without --lead.
_LEAD = 3


@dataclass(frozen=True)
class SentPacket:
    """A packet as `send` wrote it."""

    picture: int
    size: int
    time: Optional[float]


@dataclass(frozen=True)
class Heard:
    """A message that came back to `send`."""

    body: bytes
    time: Optional[float]


@dataclass(frozen=True)
class Sender:
    """A run of `send`. Packet k has sequence number first_sequence + k on the network."""

    number: int
    source: Optional[int]
    first_sequence: int
    first_time: int
    pictures: list[picture_lines.Picture]
    captured: list[Optional[float]]
    packets: list[SentPacket]
    heard: list[Heard]
    rates: list[int]
    frames: Sequence[bytes]


def sender_of(record: Record, place: int) -> Sender:
    """Reads the run of `send` at this place of call.json."""
    run = record.runs("send")[place]
    entries = entries_of(record, run["log"])
    packets = []
    for number, timed in enumerate(entries_of(record, run["wire"])):
        header = rtp.rtp_header(timed.entry.body)
        if header is None:
            raise BadInput(str(record.path(run["wire"])), f"entry {number}", "this is no RTP packet")
        picture = header.timestamp // rtp.TICKS_A_PICTURE
        packets.append(SentPacket(picture, len(timed.entry.body), timed.time))
    return Sender(
        number=place + 1,
        source=run.get("source"),
        first_sequence=run.get("first_sequence") or 0,
        first_time=run.get("first_time") or 0,
        pictures=pictures_of(record, run["report"]),
        captured=[timed.time for timed in entries if timed.entry.letter == logs.CAPTURE],
        packets=packets,
        heard=[Heard(timed.entry.body, timed.time) for timed in entries if timed.entry.letter == logs.MESSAGE],
        rates=rates_of(record, run),
        frames=video_of(record, run["video"]),
    )


@dataclass(frozen=True)
class CamePacket:
    """A packet that came to `recv` after `played` plays. Its sequence number and its timestamp are
    counted on from the first packet's without end."""

    sequence: int
    stamp: int
    reference: Optional[int]
    has_marker: bool
    size: int
    played: int
    time: Optional[float]


@dataclass(frozen=True)
class Said:
    """A message of `recv`, and the picture that it is about, by the receiver's count."""

    body: bytes
    picture: int
    time: Optional[float]

    @property
    def is_ack(self) -> bool:
        return read_message(self.body).is_ack


@dataclass(frozen=True)
class Receiver:
    """A run of `recv`. Its pictures, plays, frames and times begin with the picture `first`, at which it joined."""

    number: int
    source: Optional[int]
    lead: int
    first: int
    pictures: list[picture_lines.Picture]
    played: list[Optional[float]]
    shown: list[float]
    packets: list[CamePacket]
    said: list[Said]
    frames: Sequence[bytes]


def receiver_of(record: Record, place: int) -> Receiver:
    """Reads the run of `recv` at this place of call.json."""
    run = record.runs("recv")[place]
    entries = entries_of(record, run["log"])
    played = [timed.time for timed in entries if timed.entry.letter == logs.PLAY]
    # A call of release 1.0 has the plays before the first picture that anybody saw, too: so many.
    joined, unseen = run.get("joined") or 0, run.get("skipped") or 0
    return Receiver(
        number=place + 1,
        source=run.get("source"),
        lead=_lead_of(record, place),
        first=joined + unseen,
        pictures=pictures_of(record, run["report"], joined)[unseen:],
        played=played[unseen:],
        shown=video_times(record, run["video"])[unseen:],
        packets=_came(entries, joined),
        said=_said(record, run, played, joined)[unseen:],
        frames=video_of(record, run["video"])[unseen:],
    )


def _lead_of(record: Record, place: int) -> int:
    words = [word for word in record.runs("recv")[place].get("options", []) if word.startswith("--lead=")]
    lead = words[-1][len("--lead=") :] if words else str(_LEAD)
    if not re.fullmatch("[0-9]{1,6}", lead):
        raise BadInput(str(record.path("call.json")), f"recv, run {place + 1}", "its lead is no number")
    return int(lead)


def _came(entries: list[Timed], joined: int) -> list[CamePacket]:
    found: list[CamePacket] = []
    played = joined
    for timed in entries:
        body = timed.entry.body
        played += timed.entry.letter == logs.PLAY
        header = rtp.rtp_header(body) if timed.entry.letter == logs.PACKET else None
        if header is None:
            continue
        last, start = found[-1] if found else None, picture_start(body)
        packet = CamePacket(
            sequence=nearest(last.sequence if last else 0, header.sequence, _SEQUENCES),
            stamp=nearest(last.stamp if last else 0, header.timestamp, _STAMPS),
            reference=start.reference if start else None,
            has_marker=bool(body[1] >> 7),
            size=len(body),
            played=played,
            time=timed.time,
        )
        found.append(packet)
    return found


def _said(record: Record, run: dict[str, Any], played: list[Optional[float]], joined: int) -> list[Said]:
    # A message is about the picture of the last play, or an open one: the nearest with its TR.
    found, plays = [], 0
    for number, timed in enumerate(entries_of(record, run["wire"])):
        body = timed.entry.body
        if len(body) < 3:
            raise BadInput(str(record.path(run["wire"])), f"entry {number}", "this is no message")
        if timed.time is None:
            plays = number
        while timed.time is not None and plays < len(played) and (played[plays] or 0) <= timed.time:
            plays += 1
        number_of = nearest(joined + plays, read_message(body).reference, record.numbers)
        found.append(Said(body, number_of, timed.time))
    return found
