#!/usr/bin/env python3
"""A group of the module for Python: three receivers that lose packets, a group of one beside a sender, and wrong calls."""

from __future__ import annotations

import random
import sys
from pathlib import Path
from typing import Callable

sys.path[:0] = [str(Path(__file__).resolve().parent.parent)]
from h263rps import PACES, Format, Group, Pace, Params  # noqa: E402
from h263rps import Receiver, Refused, Sender, picture_size  # noqa: E402

FORMAT: Format = "sub-qcif"
TRIP = 3
SIZE = picture_size(FORMAT)


def picture(number: int) -> bytes:
    draws = random.Random(number)
    return bytes(64 + (at + 3 * number) % 64 + draws.randrange(32) for at in range(SIZE))


class Member:
    """A receiver that loses this share of its packets, and what it says about each picture."""

    def __init__(self, place: int, loss: float, number: int) -> None:
        self.receiver, self.loss = Receiver(Params.of(FORMAT), number), loss
        self.draws = random.Random(place)
        self.said: dict[int, list[bytes]] = {}
        self.exact = 0

    def hears(self, number: int, packets: list[bytes], own: bytes) -> None:
        came = [packet for packet in packets if self.draws.random() >= self.loss]
        messages = [self.receiver.packet(packet).message for packet in came]
        played = self.receiver.play()
        self.said[number] = [message for message in (*messages, played.message) if message]
        is_exact = played.mark == "exact"
        assert is_exact == (len(came) == len(packets)), (number, played.mark)
        assert not is_exact or played.picture == own, number
        self.exact += is_exact


def three() -> list[int]:
    """What each shows exactly is what one shows that loses nothing; the last one joins late, and leaves."""
    losses = (0.02, 0.05, 0.15)
    members: dict[int, Member] = {}
    with Group(Params.of(FORMAT, radius=3)) as group, Receiver(Params.of(FORMAT)) as own:
        for number in range(100):
            for place, loss in enumerate(losses):
                if number == (30 if place == 2 else 0):
                    group.join(place)
                    members[place] = Member(place, loss, group.sent())
            for place, member in members.items():
                for message in member.said.pop(number - TRIP, []):
                    assert group.feedback(place, message).kind == "noted"
            waits, reference = group.waiting_for(), group.reference()
            assert number != 30 or waits == 2
            coded = group.code(picture(number))
            assert coded.number == number and coded.reference in (None, reference)
            assert waits is None or coded.reference is None
            packets = group.packets(coded)
            for packet in packets:
                own.packet(packet)
            shown = own.play()
            assert shown.mark == "exact"
            for member in members.values():
                member.hears(number, packets, shown.picture)
        counts = group.statistics()
        assert counts.coded["intra"] < 25 and counts.packets == own.statistics().packets, counts
        group.leave(2)
        assert group.waiting_for() is None
        found = [member.exact for member in members.values()]
        assert found[2] < 70 and found[1] < 100, found
        return found


def one() -> None:
    """A group of one codes what a sender codes, with a target, quantisers and a pace."""
    params, draws = Params.of(FORMAT, radius=3, target=1500, pace=PACES["follows"]), random.Random(5)
    said: dict[int, list[bytes]] = {}
    with Group(params) as group, Sender(params) as sender, Receiver(params) as receiver:
        paces = [Pace(FORMAT, target=900, room=9000) for _ in range(2)]
        group.join(9)
        for number in range(90):
            for message in said.pop(number - TRIP, []):
                assert group.feedback(9, message) == sender.feedback(message)
            if number == 30:
                group.quant(20)
                sender.quant(20)
            if number >= 60:
                assert paces[0].next(group) == paces[1].next(sender)
            coded, other = group.code(picture(number)), sender.code(picture(number))
            assert coded == other, (coded, other)
            packets = group.packets(coded)
            assert packets == sender.packets(other)
            if number >= 60:
                for pace in paces:
                    pace.coded(coded, 20, sum(map(len, packets)))
            messages = [receiver.packet(packet).message for packet in packets if draws.random() >= 0.1]
            said[number] = [message for message in (*messages, receiver.play().message) if message]
        assert group.statistics() == sender.statistics()


def fits() -> None:
    """A sender with a target fits it as one does that asks a pace, with a room of 30 targets; by the
    sizes of its pictures it doesn't."""
    made: list[list[list[bytes]]] = []
    ways: list[dict[str, int]] = [{"target": 900}, {}, {"target": 900, "pace": PACES["follows"]}]
    for words in ways:
        with Sender(Params.of(FORMAT, radius=3, **words)) as sender:
            pace, all_packets = Pace(FORMAT, target=900, room=27_000), []
            for number in range(20):
                quant = pace.next(sender) if not words else 0
                coded = sender.code(picture(number))
                all_packets.append(sender.packets(coded))
                if not words:
                    pace.coded(coded, quant, sum(map(len, all_packets[-1])))
            made.append(all_packets)
    assert made[0] == made[1] != made[2]
    wanted("Refused: start: bad params: pace", lambda: Sender(Params.of(FORMAT, pace=2)))


def wanted(error: str, call: Callable[[], object]) -> None:
    try:
        told = repr(call())
    except (Refused, TypeError, ValueError) as fault:
        told = f"{type(fault).__name__}: {fault}"
    assert told == error, f"{told}, and not {error}"


def wrong() -> None:
    wanted("Refused: start: bad params: slots", lambda: Group(Params.of(FORMAT, slots=65)))
    with Group(Params.of(FORMAT)) as group:
        wanted("Refused: join: bad params", lambda: group.join(16))
        wanted("Refused: leave: bad params", lambda: group.leave(16))
        wanted("ValueError: receiver: -1 is out of its range", lambda: group.join(-1))
        wanted("Refused: feedback: bad params", lambda: group.feedback(16, b""))
        wanted("Refused: feedback: no receiver", lambda: group.feedback(15, b""))
        wanted("Refused: packet: no packet", lambda: group.packet(0))
        wanted("Refused: code: wrong length", lambda: group.code(b"abc"))
        wanted("Refused: code: bad messages", lambda: group.code(bytes(SIZE), [bytes(6)]))
        wanted("Refused: target: bad params", lambda: group.target(1000000))
        wanted("Refused: quant: bad params", lambda: group.quant(32))
        wanted("(None, None, 0)", lambda: (group.waiting_for(), group.reference(), group.sent()))
        group.join(15)
        wanted("(15, None)", lambda: (group.waiting_for(), group.reference()))
        wanted("'no message'", lambda: group.feedback(15, b"").kind)
        wanted("TypeError: a group can't be copied or pickled", lambda: group.__reduce_ex__(2))
    wanted("Refused: join: not started", lambda: group.join(0))
    wanted("Refused: waiting_for: not started", group.waiting_for)
    try:
        group.feedback(0, b"")
    except Refused as refused:
        assert refused.status.text == "not started"


if __name__ == "__main__":
    exact = three()
    one()
    fits()
    wrong()
    print(
        f"of 100 pictures {exact} are exact at three receivers, the last of which joins late; a group of one is a sender"
    )
