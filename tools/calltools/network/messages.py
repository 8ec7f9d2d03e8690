"""What a back-channel message says (docs/FORMATS.md, "Back-channel message")."""

from dataclasses import dataclass


@dataclass(frozen=True)
class Message:
    """Whether the picture of this temporal reference is complete."""

    is_ack: bool
    reference: int


def read_message(body: bytes) -> Message:
    """The kind and the picture of a message of three bytes or five; the program judges the rest."""
    bits = int.from_bytes(body[:3], "big")
    return Message(bits >> 22 == 3, bits >> 11 & 1_023)
