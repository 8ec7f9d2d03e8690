"""What a checker of types sees of the module for Python: `mypy --strict` accepts this file, where
each line with `type: ignore` has the fault that it names, or is itself one. It isn't run."""

from __future__ import annotations

import array

from h263rps import (
    Arrived,
    Fault,
    Group,
    Heard,
    Line,
    MessageFault,
    Pace,
    Params,
    Played,
    PlayedLent,
    Receiver,
    Refused,
    Repeats,
    Sender,
    Session,
    Start,
    Status,
    Turn,
    datagram_start,
    packet_start,
    picture_size,
)


def right(picture: bytes) -> None:
    params = Params.of("qcif", target=1800, slots=39, lead=6)
    params.quant = 3
    with Sender(params) as sender, Receiver(params, 7) as receiver:
        for packet in sender.packets(sender.code(bytearray(picture), [b"", bytes(3)])):
            heard: Heard = receiver.packet(memoryview(packet))
            fault: Fault = heard.fault
            why: str = fault.text
            if heard.kind == "refused" and fault is Fault.OVERLAP:
                print(why, heard.at + 1)
            note: MessageFault = sender.feedback(array.array("B", heard.message)).fault
            start: Start = packet_start(packet)
            print(note.text, start.format == "cif", start.reference is None)
        lent: PlayedLent = receiver.play_lent()
        played: Played = receiver.play()
        size: int = picture_size("qcif") + len(lent.picture) + len(played.picture)
        print(size, played.mark == "exact", receiver.statistics().heard["late"])
        try:
            sender.target(10**9)
        except Refused as refused:
            status: Status = refused.status
            print(status is Status.BAD_PARAMS, status.text)


def beside(packet: bytes, now: int) -> None:
    with Repeats(512, 1500) as repeats:
        repeats.keep(packet)
        again: bytes | None = repeats.find(7)
        print(again or b"", datagram_start(packet).messages)
    with Line(first=900, least=300, most=3600, finest=4, period=33_366_667, now=now) as line:
        line.sent(0, len(packet), 1, now)
        line.told(0, True, now)
        room: bool = line.has_room(now)
        sum_of: int = line.rate + line.wanted + line.target + line.quant
        print(room, sum_of)


def group(picture: bytes, message: bytes) -> None:
    with Group(Params.of("cif")) as it:
        it.join(3)
        pace = Pace("cif", target=4000, room=80_000)
        quant: int = pace.next(it)
        packets: list[bytes] = it.packets(it.code(picture))
        note: str = it.feedback(3, message).kind
        late: int | None = it.waiting_for()
        print(quant, len(packets), note, late is None, it.reference() or 0, it.statistics().coded)
        it.leave(3)


def session(datagram: bytes) -> None:
    with Session(Params.of("cif"), rate=25, wait=100_000_000) as it:
        arrived: Arrived = it.arrival(datagram, 10**9)
        if arrived.verdict == "dropped" and arrived.cause == "too fast":
            print(arrived.fault.text, arrived.message)
        due: int | None = it.due()
        turn: Turn | None = it.play(due or 0)
        if turn and turn.run == "followed":
            print(turn.mark == "held", len(it.shown()), it.source("former"))
        print(it.statistics().dropped["long"], it.statistics().played["exact"])
        asked: list[tuple[int, int]] = it.missing(50_000_000, 10**9)
        for packet, following in asked:
            print(packet + following)
        it.bye(7, 10**9)
        it.reset(10**9)
        print(it.arrival(datagram, 10**9, source=it.source()).run)


def wrong(sender: Sender, receiver: Receiver, params: Params) -> None:
    Params.of("vga")  # type: ignore[arg-type]
    Params.of("qcif", qant=3)  # type: ignore[call-arg]
    Params.of("qcif", quant="3")  # type: ignore[arg-type]
    Session(params, wait=0)  # type: ignore[call-arg]
    with Session(params, rate=30, wait=0) as it:
        it.arrival(b"", 0.5)  # type: ignore[arg-type]
        it.source("best")  # type: ignore[arg-type]
        it.play(0).mark  # type: ignore[union-attr]
        it.missing(0.05, 0)  # type: ignore[arg-type]
        it.arrival(b"", 0, source="7")  # type: ignore[arg-type]
        it.bye(7)  # type: ignore[call-arg]
    with Group(params) as many:
        many.feedback(0)  # type: ignore[call-arg]
        many.join("3")  # type: ignore[arg-type]
        many.forget()  # type: ignore[attr-defined]
        many.waiting_for() + 1  # type: ignore[operator]
    params.qant = 3  # type: ignore[attr-defined]
    params.quant = 3.5  # type: ignore[assignment]
    sender.code("text")  # type: ignore[arg-type]
    sender.cod(b"")  # type: ignore[attr-defined]
    with sender as same:
        same.play()  # type: ignore[attr-defined]
    if receiver.play().mark == "exakt":  # type: ignore[comparison-overlap]
        pass
    if receiver.packet(b"").kind == "complete":  # type: ignore[comparison-overlap]
        pass
    receiver.packet(b"").faults  # type: ignore[attr-defined]
    receiver.play().picture[0] = 1  # type: ignore[index]
