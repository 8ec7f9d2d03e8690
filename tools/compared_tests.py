"""Tests of compare_coders and compare_groups: their network, ends and tables, with no coder."""

import unittest
import unittest.mock
from typing import Optional

from calltools.compared import call, group_grid, group_told, groups, network, rivals, told
from calltools.compared.grid import Row
from calltools.compared.network import MILLISECOND, Message, Network, Packet
from calltools.y4m import Size

SIZE = Size(16, 16)
CLEAN = Network(0, 0, 100 * MILLISECOND, 100 * MILLISECOND)


def squares(one: bytes, other: bytes, count: int) -> int:
    return sum((a - b) ** 2 for a, b in zip(one[:count], other[:count]))


class Lossy(Network):
    """One that loses the packets of these places, there alone."""

    lost: tuple[int, ...] = ()

    def losses(self, draw: int, direction: int) -> "Places":
        return Places(self.lost if direction == 1 else ())


class Places:
    def __init__(self, lost: tuple[int, ...]) -> None:
        self._lost, self._at = lost, -1

    def is_lost(self) -> bool:
        self._at += 1
        return self._at in self._lost


class Coder:
    """A picture's bytes are what it shows: one sample, and whether it is a key picture."""

    def __init__(self) -> None:
        self.keys: list[int] = []
        self._number = -1

    def code(self, picture: bytes, is_key: bool, flags: int = 0) -> rivals.Coded:
        self._number += 1
        if is_key:
            self.keys.append(self._number)
        return rivals.Coded(picture[:1], is_key, picture)


class Decoder:
    def __init__(self, name: str, size: Size) -> None:
        self._length = size.bytes

    def decode(self, data: bytes) -> bytes:
        return data * self._length


class NetworkTest(unittest.TestCase):
    def packets(self, count: int) -> list[Packet]:
        return [Packet(number, 0, 1, b"", 100 + number, sequence=number) for number in range(count)]

    def test_parity_brings_one_back(self) -> None:
        cover, recovery = network.Cover(4), network.Recovery()
        sent = self.packets(4)
        parity = [cover.after(packet) for packet in sent][-1]
        assert parity
        self.assertEqual(parity.size, 28 + 12 + 14 + 103 - 28 - 12)
        for packet in (sent[0], sent[1], sent[3]):
            self.assertEqual(recovery.with_packet(packet), [packet])
        self.assertEqual(recovery.with_parity(parity), [sent[2]])
        self.assertEqual(recovery.with_packet(sent[2]), [])

    def test_of_two_it_waits_for_one(self) -> None:
        cover, recovery = network.Cover(2), network.Recovery()
        sent = self.packets(2)
        parity = [cover.after(packet) for packet in sent][-1]
        assert parity
        self.assertEqual(recovery.with_parity(parity), [])
        self.assertEqual(recovery.with_packet(sent[1]), [sent[1], sent[0]])

    def test_nack_has_a_field_for_seventeen_numbers(self) -> None:
        self.assertEqual(network.not_there([5]).length, 16)
        self.assertEqual(network.not_there([5, 21]).length, 16)
        self.assertEqual(network.not_there([5, 22]).length, 20)


class CallTest(unittest.TestCase):
    """VP8's ends over a coder whose pictures are one sample."""

    def setUp(self) -> None:
        for place in (
            unittest.mock.patch.object(rivals, "Decoder", Decoder),
            unittest.mock.patch.object(call, "squares", squares),
        ):
            place.start()
            self.addCleanup(place.stop)

    def outcome(self, lost: tuple[int, ...], repairs: bool, every: Optional[int] = None) -> tuple[call.Outcome, Coder]:
        way = Lossy(0, 0, CLEAN.round_trip, CLEAN.wait)
        object.__setattr__(way, "lost", lost)
        coder = Coder()
        pictures = [bytes([number]) * SIZE.bytes for number in range(60 + call.AFTER)]
        sender = rivals.RivalSender(coder, rivals.VP8, way)
        receiver = rivals.ChainReceiver(rivals.VP8, SIZE, way, repairs, every)
        return call.Call(sender, receiver, call.Video(SIZE, pictures), call.Line(way, 1, every)).outcome(), coder

    def test_what_misses_nothing_is_good(self) -> None:
        came, coder = self.outcome((), False)
        self.assertEqual((came.good, came.longest, coder.keys), (1.0, 0, [0]))
        # A packet has 28 bytes below, 12 of RTP, one of VP8's descriptor, and one.
        self.assertAlmostEqual(came.packets, 8 * 42 * 30 / 1.001 / 1000, places=6)
        self.assertEqual(came.messages, 0)

    def test_a_key_picture_ends_a_loss(self) -> None:
        came, coder = self.outcome((20,), False)
        # Known at 21, heard a round trip later, so the key picture is the fifth after the loss.
        self.assertEqual((coder.keys, came.longest), ([0, 25], 5))
        self.assertEqual(came.good, 55 / 60)

    def test_a_repeat_ends_a_loss_sooner(self) -> None:
        came, coder = self.outcome((20,), True)
        # Asked for when the next packet comes, it is there a round trip later: when the next picture is due.
        self.assertEqual((coder.keys, came.longest, came.good), ([0], 1, 59 / 60))

    def test_parity_ends_it_in_time(self) -> None:
        came, _ = self.outcome((20,), True, 2)
        self.assertEqual((came.good, came.messages), (1.0, 0))

    def test_two_of_a_group_are_asked_for(self) -> None:
        # Packets and parity: 0, 1, P, 2, 3, P ..: of the group of 20 and 21 both are lost.
        came, _ = self.outcome((30, 31), True, 2)
        self.assertGreater(came.messages, 0)
        self.assertLess(came.good, 1)


class LossyWays(groups.Ways):
    """Ways on which each receiver loses the packets of its own places."""

    lost: tuple[tuple[int, ...], ...] = ()

    def losses(self, direction: int, receiver: int) -> "Places":
        return Places(self.lost[receiver] if direction == 1 else ())


class GroupCallTest(unittest.TestCase):
    """The same of several receivers: who asks for a key picture gets it for all."""

    def setUp(self) -> None:
        for place in (
            unittest.mock.patch.object(rivals, "Decoder", Decoder),
            unittest.mock.patch.object(groups, "squares", squares),
        ):
            place.start()
            self.addCleanup(place.stop)

    def outcome(self, is_common: bool, *lost: tuple[int, ...]) -> tuple[groups.ManyOutcome, Coder]:
        ways = LossyWays(CLEAN, is_common, 1)
        object.__setattr__(ways, "lost", lost)
        coder = Coder()
        pictures = [bytes([number]) * SIZE.bytes for number in range(60 + call.AFTER)]
        sender = group_grid.ForAll(coder, rivals.VP8, CLEAN)
        receivers = [rivals.ChainReceiver(rivals.VP8, SIZE, CLEAN, False) for _ in range(3)]
        return groups.GroupCall(sender, receivers, call.Video(SIZE, pictures), ways).outcome(), coder

    def test_what_misses_nothing_is_good(self) -> None:
        came, coder = self.outcome(False, (), (), ())
        self.assertEqual((came.good, came.least, came.longest, coder.keys), (1.0, 1.0, 0, [0]))
        # What goes to all counts once.
        self.assertAlmostEqual(came.packets, 8 * 42 * 30 / 1.001 / 1000, places=6)

    def test_a_loss_is_of_one_alone(self) -> None:
        came, coder = self.outcome(False, (20,), (), ())
        self.assertEqual((coder.keys, came.longest, came.least), ([0, 25], 5, 55 / 60))
        self.assertAlmostEqual(came.good, (55 + 60 + 60) / 180)
        self.assertAlmostEqual(came.keys, 2 / 60)

    def test_or_of_all_alike(self) -> None:
        came, coder = self.outcome(True, (20,), (), ())
        self.assertEqual((coder.keys, came.good, came.least), ([0, 25], 55 / 60, 55 / 60))

    def test_two_that_ask_at_once_get_one(self) -> None:
        came, coder = self.outcome(False, (20,), (21,), ())
        self.assertEqual(coder.keys, [0, 25])


class GroupTableTest(unittest.TestCase):
    def row(self, scheme: str, members: int, good: float, common: int = 0) -> group_grid.ManyRow:
        return group_grid.ManyRow("test", scheme, members, 100, 0.05, common, 1, 99, good, good / 2, 3, 30, 0.1, 120, 8)

    def test_one_for_each_stands_beside_each_number(self) -> None:
        rows = [self.row("each", 1, 0.9), self.row("group", 8, 0.8), self.row("group", 2, 0.7, 1)]
        table = group_told.table_of(rows)
        cell = "90.0 (45.0), 3.0, 30.0, 10, 128k"
        self.assertIn(f"| 100 ms | 5 % | 8 | 80.0 (40.0), 3.0, 30.0, 10, 128k | {cell} |  |  |", table)
        self.assertIn(f"| 100 ms | 5 % | 4 |  | {cell} |  |  |", table)
        self.assertIn("| 100 ms | 5 % | 8 | 80/30.0/10 | 90/30.0/10 |  |  |", group_told.short_of(rows))


class UnitsTest(unittest.TestCase):
    def test_units_of_h264(self) -> None:
        sets, unit = b"\0\0\0\1\x67ab\0\0\1\x68c", b"\x65" + bytes(range(1, 256)) * 10
        cut = rivals.cut_of_h264(b"\0\0\1\x06info" + sets + b"\0\0\1" + unit)
        self.assertEqual(b"".join(data for data, _ in cut), b"\0\0\0\1\x67ab\0\0\0\1\x68c\0\0\0\1" + unit)
        # A packet of both sets, with a length of two bytes before each, and two fragments.
        self.assertEqual([size for _, size in cut], [40 + 1 + 2 + 3 + 2 + 2, 40 + 2 + 1275, 40 + 2 + 1275])

    def test_no_packet_is_longer(self) -> None:
        for length in (1, 1_387, 1_388, 5_000):
            sizes = [size for _, size in rivals.cut_of_vp8(bytes(length), 1)]
            self.assertEqual(sum(sizes), length + 41 * len(sizes))
            self.assertLessEqual(max(sizes), 28 + network.LIMIT)


class ToldTest(unittest.TestCase):
    def row(self, scheme: str, parity: int, good: float, packets: float = 128, content: str = "test") -> Row:
        return Row("qcif", content, scheme, parity, 0.05, 0, 100, 100, 1, 100_000, good, 2, 30, packets, 0)

    def test_the_best_parity_stands(self) -> None:
        rows = [self.row("vp8+fec+rtx", parity, good) for parity, good in ((2, 0.9), (4, 0.97), (8, 0.8))]
        self.assertIn("| 97.0, 2.0, 30.0 (4) |", told.table_of(rows))

    def test_contents_count_alike(self) -> None:
        rows = [self.row("ours", 0, 1.0), self.row("ours", 0, 1.0), self.row("ours", 0, 0.5, content="pan")]
        self.assertIn("| 75.0, 2.0, 30.0 |", told.table_of(rows))

    def test_another_rate_is_said(self) -> None:
        self.assertIn("| 90.0, 2.0, 30.0 at 150k |", told.table_of([self.row("ours", 0, 0.9, 150)]))

    def test_a_message_has_what_is_below_it(self) -> None:
        self.assertEqual(Message("pli", None, 12).size, 40)


if __name__ == "__main__":
    unittest.main()
