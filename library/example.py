#!/usr/bin/env python3
"""A call in memory: the packets of one picture are lost, and the next is exact again.

    make -C library && library/example.py
"""

from h263rps import Params, Receiver, Sender, picture_size

LOST = 2


def captured(n: int) -> bytes:
    """A picture whose rows get lighter, by one more in each."""
    luma = b"".join(bytes([60 + y + n]) * 176 for y in range(144))
    return luma + bytes([128]) * (picture_size("qcif") - len(luma))


params = Params.of("qcif", quant=6)
with Sender(params) as sender, Receiver(params) as receiver:
    for n in range(6):
        coded = sender.code(captured(n))
        for packet in sender.packets(coded):
            heard = None if n == LOST else receiver.packet(packet)
            if heard and heard.message:
                sender.feedback(heard.message)
        played = receiver.play()
        if played.message:
            sender.feedback(played.message)
        source = "intra" if coded.reference is None else f"from picture {coded.reference}"
        print(f"picture {coded.number}: {coded.packets} packets, {source}, shown {played.mark}")
