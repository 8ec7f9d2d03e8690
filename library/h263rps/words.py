"""The words and numbers of include/h263rps.h, each with its text."""

from __future__ import annotations

import enum
from typing import Literal

Format = Literal["sub-qcif", "qcif", "cif"]
Clock = Literal["standard", "custom"]
Pacing = Literal["fits", "follows"]
Kind = Literal["taken", "completed", "late", "early", "repeat", "refused"]
Mark = Literal["exact", "patched", "held"]
Note = Literal["noted", "old", "no message"]
Verdict = Literal["dropped", "no place", "ahead", "heard"]
Cause = Literal["long", "malformed", "other pictures", "too fast", "other stream"]
Run = Literal["followed", "former", "tried"]

FORMATS: dict[Format, int] = {"sub-qcif": 1, "qcif": 2, "cif": 3}
CLOCKS: dict[Clock, int] = {"standard": 0, "custom": 1}
PACES: dict[Pacing, int] = {"follows": 0, "fits": 1}
HEARD: tuple[Kind, ...] = ("taken", "completed", "late", "early", "repeat", "refused")
MARKS: tuple[Mark, ...] = ("exact", "patched", "held")
GROUPS = ("bytes", "other clock", "header differs", "missing reference", "overlap")
DISTANCES = ("intra", "1", "2", "3", "4 to 7", "8 or more")
NOTED: tuple[Note, ...] = ("noted", "old", "no message")
# Of a session.
VERDICTS: tuple[Verdict, ...] = ("dropped", "no place", "ahead", "heard")
CAUSES: tuple[Cause, ...] = ("long", "malformed", "other pictures", "too fast", "other stream")
RUNS: tuple[Run, ...] = ("followed", "former", "tried")
# The parameters, the first ten in the order of their numbers in `enum h263rps_param`.
PARAMS = (
    "quant",
    "keep",
    "radius",
    "limit",
    "slots",
    "lead",
    "messages",
    "format",
    "clock",
    "target",
    "pace",
)
# What a start names: a parameter, the number at which a receiver begins, the struct's size, or a
# setting of a session.
FAULTS = (*PARAMS[:10], "number", "size", "rate", "wait", "pace")


class Status(str, enum.Enum):
    """Why a call was refused: a word, that of the header in small letters."""

    OK = "ok"
    NOT_STARTED = "not started"
    STARTED = "started"
    OTHER_END = "other end"
    BAD_PARAMS = "bad params"
    NO_MEMORY = "no memory"
    ENDED = "ended"
    WRONG_LENGTH = "wrong length"
    BAD_MESSAGES = "bad messages"
    NO_PACKET = "no packet"
    SHORT_ROOM = "short room"
    NULL = "null"
    TOO_LONG = "too long"
    NO_START = "no start"
    NO_STREAM = "no stream"
    NO_RECEIVER = "no receiver"
    OTHER = "other"  # a newer library's

    def __str__(self) -> str:
        return str(self.value)

    @property
    def text(self) -> str:
        """What it means, in a few words."""
        return _STATUS_TEXTS.get(self.name, str(self.value))


# Of those whose word doesn't say it.
_STATUS_TEXTS = {
    "STARTED": "started already",
    "OTHER_END": "the other end's function",
    "BAD_PARAMS": "a parameter is out of its range",
    "NO_MEMORY": "out of memory",
    "ENDED": "1,048,576 pictures, the most of a run",
    "WRONG_LENGTH": "not the length of a picture",
    "BAD_MESSAGES": "no messages, or too many",
    "NO_PACKET": "no packet of this number",
    "SHORT_ROOM": "too short a room",
    "NULL": "a null pointer",
    "TOO_LONG": "too great a length",
    "NO_START": "no start of a packet",
    "NO_STREAM": "no stream has this run",
    "NO_RECEIVER": "nobody is at this place of the group",
    "OTHER": "no status",
}
STATUS = tuple(Status)


def status_of(number: int) -> Status:
    """The refusal of this number. A newer library may have more of them."""
    return STATUS[number] if number < len(STATUS) else Status.OTHER


class _Number(enum.IntEnum):
    """A number with a text. A number of a newer library has none."""

    text: str  # what it means, in a few words

    def __new__(cls, number: int, text: str = "no fault") -> "_Number":
        it = int.__new__(cls, number)
        it._value_, it.text = number, text
        return it

    @classmethod
    def _missing_(cls, value: object) -> "_Number | None":
        if not isinstance(value, int):
            return None
        it = int.__new__(cls, value)
        it._name_, it._value_, it.text = f"NUMBER_{value}", value, "no fault"
        return it


class Fault(_Number):
    """Why a packet is refused (`enum h263rps_fault`). NONE is no fault, and false."""

    NONE = 0, "no fault"
    OTHER_CLOCK = 1, "the other picture clock"
    HEADER_DIFFERS = 2, "another header than its picture's packets so far"
    MISSING_REFERENCE = 3, "the picture that it refers to isn't complete here"
    OVERLAP = 4, "a part of it was taken before"
    BYTES_ENDED = 100, "the bits end inside a field or a word"
    BYTES_BAD_CODE = 101, "no word of the table"
    BYTES_BAD_DC = 102, "INTRADC of 0 or 128"
    BYTES_BAD_LEVEL = 103, "an escape whose LEVEL is 0 or -128"
    BYTES_PAST_END = 104, "an event after the last coefficient of its block"
    BYTES_FOUR_VECTORS = 105, "a macroblock with four vectors"
    BYTES_BAD_VECTOR = 106, "a vector that points out of its reach"
    BYTES_MARKER = 107, "a bit against start code emulation is wrong"
    BYTES_ADDRESS = 108, "a slice's macroblock address"
    BYTES_QUANT = 109, "a quantiser of 0"
    BYTES_SLICE_REFERENCE = 110, "a slice names another reference than its picture"
    BYTES_BCI = 111, "a back-channel indication that is neither 1 nor 01"
    BYTES_EMPTY = 112, "a slice with no macroblock"
    BYTES_TRAILING = 113, "more than padding after the last macroblock"
    BYTES_NO_START = 114, "not the rest of a start code"
    BYTES_PICTURE_TYPE = 115, "PTYPE isn't the extended one"
    BYTES_UFEP = 116, "UFEP isn't 001"
    BYTES_SOURCE_FORMAT = 117, "another source format than the three"
    BYTES_OTHER_FORMAT = 118, "not the expected source format"
    BYTES_MODES = 119, "the optional modes aren't Annexes K and N alone"
    BYTES_PICTURE_KIND = 120, "a picture that is neither I nor P"
    BYTES_RESAMPLING = 121, "resampling"
    BYTES_CPM = 122, "continuous presence multipoint"
    BYTES_DIVISOR = 123, "a custom picture clock whose divisor is 0"
    BYTES_SLICE_MODE = 124, "slices that are rectangular or in any order"
    BYTES_RPSMF = 125, "another mode of the back channel than the four"
    BYTES_INTRA_REFERENCE = 126, "an I picture that names a reference"
    BYTES_NO_REFERENCE = 127, "a P picture that names none"
    BYTES_HIGH_BITS = 128, "a temporal reference of more than eight bits"
    BYTES_MESSAGES = 129, "a back-channel message with a fault"
    BYTES_MANY_MESSAGES = 130, "a fifth message"
    BYTES_FOLLOW_ON = 131, "a packet that begins neither a picture nor a slice"
    BYTES_EXTRA_HEADER = 132, "an extra picture header that isn't as it must be"
    BYTES_NO_EXTRA_HEADER = 133, "no extra picture header before a later slice"
    BYTES_LONG = 134, "more than 65,535 bytes"
    BYTES_SHORT = 135, "it ends inside its RTP header"
    BYTES_VERSION = 136, "another version of RTP than 2"
    BYTES_PADDING = 137, "RTP padding whose count doesn't fit"
    BYTES_PAYLOAD_TYPE = 138, "another payload type"
    BYTES_SOURCE = 139, "another source"


class MessageFault(_Number):
    """Why bytes aren't a message (`enum h263rps_message_fault`). NONE is no fault, and false."""

    NONE = 0, "no fault"
    LENGTH = 1, "neither three bytes nor five, as it says itself"
    KIND = 2, "neither an acknowledgement nor its opposite"
    HIGH = 3, "a picture number that the clock doesn't have"
    MARKER = 4, "a marker bit is 0"
    PAIR = 5, "an acknowledgement of two pictures"
