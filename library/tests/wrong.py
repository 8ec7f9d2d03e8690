#!/usr/bin/env python3
"""Wrong calls of the module for Python: each is an error that names what is wrong."""

import ctypes
import sys
import threading
from pathlib import Path
from typing import Callable

sys.path[:0] = [str(Path(__file__).resolve().parent.parent)]
from h263rps import (  # noqa: E402
    PAYLOAD_TYPE,
    SSRC,
    Line,
    Params,
    Receiver,
    Refused,
    Repeats,
    Sender,
    Session,
    datagram_start,
    label,
    packet_start,
)


def wanted(error: str, call: Callable[[], object]) -> None:
    try:
        told = repr(call())
    except (BufferError, Refused, TypeError, ValueError) as fault:
        told = f"{type(fault).__name__}: {fault}"
    if told != error:
        sys.exit(f"{told}, and not {error}")


# The acknowledgement of picture 0.
ACK = bytes((0xC0, 0x04, 0x00))


def counts(receiver: Receiver) -> tuple[int, int, int]:
    told = receiver.statistics()
    return told.heard["refused"], told.faults["bytes"], told.played["held"]


def misspelt(name: str) -> bool:
    """Whether a start refuses this parameter by its name."""
    try:
        Params.of("qcif", **{name: 9})
    except TypeError as fault:
        return f"unexpected keyword argument '{name}'" in str(fault)
    return False


wanted("Refused: start: bad params: slots", lambda: Sender(Params.of("qcif", slots=65)))
wanted("ValueError: quant: 264 is out of its range", lambda: Params.of("qcif", quant=264))
wanted("ValueError: lead: -1 is out of its range", lambda: Params.of("qcif", lead=-1))
wanted("ValueError: there is no format vga", lambda: Params.of("vga"))
wanted("True", lambda: misspelt("slot"))
wanted("TypeError: there is no parameter slot", lambda: setattr(Params.of("qcif"), "slot", 9))
wanted("Refused: start: bad params: number", lambda: Receiver(Params.of("qcif"), 1048577))
wanted("ValueError: number: -1 is out of its range", lambda: Receiver(Params.of("qcif"), -1))
wanted("Refused: packet start: no start", lambda: packet_start(b"abc"))
with Sender(Params.of("qcif")) as sender, Receiver(Params.of("qcif")) as receiver:
    wanted("Refused: code: wrong length", lambda: sender.code(bytes(3)))
    wanted("Refused: code: bad messages", lambda: sender.code(bytes(38016), [bytes(6)]))
    for length in (1, 2, 4, 5):
        back = [b"", (ACK + bytes(2))[:length]]
        wanted("Refused: code: bad messages", lambda: sender.code(bytes(38016), back))
    wanted("Refused: code: bad messages", lambda: sender.code(bytes(38016), 5 * [b""]))
    wanted("Refused: packet: no packet", lambda: sender.packet(0))
    wanted("Refused: target: bad params", lambda: sender.target(1000000))
    wanted("ValueError: target: 4294967296 is out of its range", lambda: sender.target(1 << 32))
    wanted("Refused: reset: bad params", lambda: sender.reset(1000000))
    wanted("Refused: reset: bad params", lambda: receiver.reset(1048577))
    wanted("ValueError: number: -1 is out of its range", lambda: receiver.reset(-1))
    wanted("None", lambda: (sender.target(999999), sender.forget())[1])
    wanted("Refused: quant: bad params", lambda: sender.quant(0))
    wanted("Refused: quant: bad params", lambda: sender.quant(288))
    wanted("ValueError: quant: -1 is out of its range", lambda: sender.quant(-1))
    wanted("None", lambda: sender.quant(31))
    wanted("(0, 0, 0)", lambda: (sender.sent(), sender.known(), receiver.played()))
    wanted("0", lambda: sum(sender.statistics().coded.values()))
    told = "Reply(kind='no message', fault=<MessageFault.LENGTH: 1>)"
    wanted(told, lambda: sender.feedback(b""))
    wanted("1", lambda: sender.statistics().noted["no message"])
    wanted("'refused'", lambda: receiver.packet(b"").kind)
    wanted("(1, 1)", lambda: counts(receiver)[:2])
    lent = receiver.play_lent()
    wanted("('held', 0, None)", lambda: (lent.mark, lent.number, lent.reference))
    wanted("(38016, 128, 128)", lambda: (len(lent.picture), lent.picture[0], lent.picture[-1]))
    wanted("TypeError: cannot modify read-only memory", lambda: lent.picture.__setitem__(0, 1))
    wanted("True", lambda: bytes(receiver.shown()) == receiver.play().picture)
    wanted("ValueError: operation forbidden on released memoryview object", lambda: lent.picture[0])
    lent = receiver.shown()
wanted("ValueError: operation forbidden on released memoryview object", lambda: lent[0])
wanted("Refused: shown: not started", receiver.shown)
wanted("Refused: play: not started", receiver.play_lent)
with Receiver(Params.of("qcif"), 1048576) as receiver:
    wanted("1048576", receiver.played)
    wanted("Refused: play: ended", receiver.play)
sender.close()


def session(**more: int) -> Session:
    return Session(Params.of("qcif"), **{"rate": 30000, "second": 1001, "wait": 60_000_000, **more})


for name, value in (("rate", 0), ("rate", 65537), ("second", 0), ("second", 4097)):
    wanted("Refused: start: bad params: rate", lambda: session(**{name: value}))
wanted("Refused: start: bad params: wait", lambda: session(wait=101_000_000))
wanted("Refused: start: bad params: slots", lambda: Session(Params.of("qcif", slots=65), rate=1, wait=0))
wanted("ValueError: rate: -1 is out of its range", lambda: session(rate=-1))
wanted("ValueError: wait: 18446744073709551616 is out of its range", lambda: session(wait=1 << 64))
with session() as it:
    wanted("(None, None, None)", lambda: (it.due(), it.play(5), it.source()))
    wanted("('dropped', 'malformed')", lambda: it.arrival(b"", 0)[:2])
    wanted("('dropped', 'long')", lambda: it.arrival(bytes(9001), 0)[:2])
    wanted("(0, 1, 1)", lambda: (it.statistics().taken, *list(it.statistics().dropped.values())[:2]))
    wanted("ValueError: now: -1 is out of its range", lambda: it.arrival(b"", -1))
    wanted("ValueError: there is no run best", lambda: it.source("best"))
    wanted("('dropped', 'malformed')", lambda: it.arrival(b"", 0, 7)[:2])
    wanted("ValueError: source: -1 is out of its range", lambda: it.arrival(b"", 0, -1))
    wanted("([], None, None)", lambda: (it.missing(0, 0), it.bye(7, 0), it.reset(0)))
    wanted("ValueError: round_trip: 18446744073709551616 is out of its range", lambda: it.missing(1 << 64, 0))
    wanted("ValueError: now: -1 is out of its range", lambda: it.missing(0, -1))
    wanted("ValueError: source: 4294967296 is out of its range", lambda: it.bye(1 << 32, 0))
    wanted("ValueError: now: -1 is out of its range", lambda: it.reset(-1))
    wanted("TypeError: a session can't be copied or pickled", lambda: it.__reduce_ex__(2))
    lent = it.shown()
    wanted("(38016, 128, 128)", lambda: (len(lent), lent[0], lent[-1]))
    wanted("None", it.due)
    wanted("ValueError: operation forbidden on released memoryview object", lambda: lent[0])
wanted("Refused: due: not started", it.due)
wanted("Refused: arrival: not started", lambda: it.arrival(b"", 0))
wanted("Refused: arrival: not started", lambda: it.arrival(b"", 0, 7))
wanted("Refused: missing: not started", lambda: it.missing(0, 0))
wanted("Refused: bye: not started", lambda: it.bye(7, 0))
wanted("Refused: reset: not started", lambda: it.reset(0))
wanted("Refused: forget: not started", sender.forget)
wanted("Refused: sent: not started", sender.sent)
wanted("Refused: packet: not started", lambda: sender.packet(0))

# Packets that were sent.
for words in ({"count": 0}, {"count": 65537}, {"longest": 11}, {"longest": 65508}):
    wanted("Refused: start: bad params", lambda: Repeats(**words))
wanted("ValueError: count: -1 is out of its range", lambda: Repeats(-1))
with Repeats(4, 20) as repeats:
    wanted("None", lambda: repeats.find(7))
    for n in (65534, 65535, 0, 1, 2):
        repeats.keep(bytes((128, 96, n >> 8, n & 255)) + bytes(9))
    numbers = (65534, 65535, 0, 1, 2)
    wanted("[0, 13, 13, 13, 13]", lambda: [len(repeats.find(n) or b"") for n in numbers])
    repeats.keep(bytearray((128, 96, 0, 2)) + bytes(17))
    repeats.keep(bytes((128, 96, 0, 2)) + bytes(7))
    wanted("True", lambda: repeats.find(2) == bytes((128, 96, 0, 2)) + bytes(9))
    wanted("ValueError: sequence: 65536 is out of its range", lambda: repeats.find(65536))
    wanted("TypeError: a repeats can't be copied or pickled", lambda: repeats.__reduce_ex__(2))
wanted("Refused: find: not started", lambda: repeats.find(1))
wanted("Refused: keep: not started", lambda: repeats.keep(bytes(12)))


# A line: of eight pictures one is whole, so that three eighths of its rate are left.
def line(**more: int) -> Line:
    asked = {"first": 1800, "least": 60, "most": 999999, "finest": 8, "period": 100_000_000}
    return Line(**{**asked, "now": 0, **more})


for name, value in (
    *(("least", 0), ("first", 59), ("most", 1799), ("most", 1000000)),
    *(("finest", 0), ("finest", 32), ("period", 0)),
):
    wanted("Refused: start: bad params", lambda: line(**{name: value}))
wanted("ValueError: now: -1 is out of its range", lambda: line(now=-1))
with line() as followed:
    told = (followed.rate, followed.wanted, followed.target, followed.quant)
    wanted("(18000, 1800, 1800, 8)", lambda: told)
    for n in range(9):
        followed.sent(n, 1800, 2, n * 100_000_000)
        followed.told(n, n < 2, n * 100_000_000 + 20_000_000)
    wanted("6750", lambda: followed.rate)
    wanted("[False, True]", lambda: [followed.has_room(n * 1_000_000) for n in (1019, 1020)])
    wanted("ValueError: packets: 65536 is out of its range", lambda: followed.sent(9, 1, 65536, 0))
    wanted("ValueError: number: -1 is out of its range", lambda: followed.told(-1, True, 0))
wanted("Refused: rate: not started", lambda: followed.rate)
wanted("Refused: has_room: not started", lambda: followed.has_room(0))

# The messages of a packet with any SSRC.
with Sender(Params.of("qcif")) as sender:
    packet = label(sender.packets(sender.code(bytes(38016), [ACK]))[0], 7, PAYLOAD_TYPE)
    wanted("Refused: packet start: no start", lambda: packet_start(packet))
    wanted("True", lambda: datagram_start(packet).messages == (ACK,))
    wanted("Refused: datagram start: no start", lambda: datagram_start(label(packet, 7, 97)))
    wanted("Refused: datagram start: no start", lambda: datagram_start(bytes(9001)))
    wanted("Refused: datagram start: no start", lambda: datagram_start(b""))

# A header has the messages of the places that aren't empty.
with Sender(Params.of("qcif")) as sender:
    plain, empty, one = (sender.packets(sender.code(bytes(38016), back))[0] for back in ([], [b""], [b"", ACK, b""]))
    wanted("(True, True)", lambda: (len(plain) == len(empty), len(empty) < len(one)))

# Another SSRC and payload type, and back.
with Sender(Params.of("qcif")) as sender, Receiver(Params.of("qcif")) as receiver:
    packet = sender.packets(sender.code(bytes(38016)))[0]
    other = label(packet, 1, 127)
    wanted("(True, 'refused')", lambda: (other[1] & 127 == 127, receiver.packet(other).kind))
    wanted("True", lambda: label(other, SSRC, PAYLOAD_TYPE) == packet)
    wanted("'completed'", lambda: receiver.packet(label(other, SSRC, PAYLOAD_TYPE)).kind)
    wanted("Refused: label: wrong length", lambda: label(packet[:11], 1, 127))
    wanted("ValueError: payload_type: 128 is out of its range", lambda: label(packet, 1, 128))

# A picture that was coded before the last one has no packets any more.
with Sender(Params.of("qcif")) as sender:
    first, second = sender.code(bytes(38016)), sender.code(bytes(38016))
    told = "Refused: packets: no packet: picture 0 isn't the last one"
    wanted(told, lambda: sender.packets(first))
    wanted("True", lambda: len(sender.packets(second)) == second.packets)

# A call that begins anew: the same packets, no picture of before, and counts from 0.
with Sender(Params.of("qcif")) as sender, Receiver(Params.of("qcif")) as receiver:
    first = sender.code(bytes(38016))
    before = sender.packets(first)
    receiver.packet(before[0])
    receiver.play()
    sender.reset(0)
    receiver.reset()
    wanted("Refused: packets: no packet: picture 0 isn't the last one", lambda: sender.packets(first))
    wanted("(0, 0, 0)", lambda: (sender.sent(), receiver.played(), receiver.statistics().packets))
    wanted("True", lambda: sender.packets(sender.code(bytes(38016))) == before)
    wanted("Refused: packets: no packet: picture 0 isn't the last one", lambda: sender.packets(first))
    receiver.reset(700)
    wanted("700", receiver.played)

# While a part of a loan is held, no call is made; once it is let go, the same call is.
HELD = "BufferError: the picture that was lent is still held, by a slice or an array"
HOLDERS: dict[str, Callable[[memoryview], object]] = {
    "a plane": lambda view: view[:25344],
    "every other sample": lambda view: view[::2],
    "rows": lambda view: view.cast("B", [216, 176]),
    "a view of the view": memoryview,
    "a list of slices": lambda view: [view[n * 176 : (n + 1) * 176] for n in range(144)],
    "a generator that has begun": lambda view: begun(view),
    "an object over it": lambda view: ctypes.py_object(view[1:]),
}


def begun(view: memoryview) -> object:
    def rows():
        for n in range(144):
            part = view[n * 176 : (n + 1) * 176]
            yield part[0]

    found = rows()
    next(found)
    return found


for name, holder in HOLDERS.items():
    receiver = Receiver(Params.of("qcif"))
    held = [holder(receiver.play_lent().picture)]
    for call in (receiver.play, receiver.shown, lambda: receiver.packet(b""), receiver.close):
        wanted(HELD, call)
    held.clear()
    wanted("'held'", lambda: receiver.play().mark)
    receiver.close()
try:
    import numpy
except ImportError:
    print("without numpy: arrays over a loan weren't tried")
else:
    receiver = Receiver(Params.of("qcif"))
    array = numpy.frombuffer(receiver.play_lent().picture, numpy.uint8)
    wanted(HELD, receiver.play)
    array = array[:25344].reshape(144, 176)
    wanted(HELD, receiver.close)
    del array
    receiver.close()
# An end that is let go while its picture is held keeps that memory: nothing reads what is gone.
receiver = Receiver(Params.of("qcif"))
plane = receiver.play_lent().picture[:25344]
del receiver
wanted("128", lambda: plane[-1])

# Threads that share ends: each picture is coded once, and no call meets another.
with Sender(Params.of("sub-qcif")) as sender, Receiver(Params.of("sub-qcif")) as receiver:
    numbers: list[int] = []
    kinds: list[str] = []

    def work() -> None:
        for n in range(50):
            numbers.append(sender.code(bytes([n]) * 18432).number)
            kinds.append(receiver.play().mark)

    workers = [threading.Thread(target=work) for _ in range(4)]
    for worker in workers:
        worker.start()
    for worker in workers:
        worker.join()
    wanted("True", lambda: sorted(numbers) == list(range(200)))
    wanted("True", lambda: kinds == 200 * ["held"])
