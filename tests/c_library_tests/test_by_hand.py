"""Answers that were worked by hand from TS 38.212; worked_rows.txt has those that are a line each."""

from __future__ import annotations

import unittest

import clib

TABLE = clib.table(clib.PRACTICE.read_bytes())

# The codeword of octet 01 under the practice table, from the third column on, with each column's four bits. The
# information columns are 0 1 1 0 2 1 with the CRC, and the last four stand here. Four columns of fillers and the parity
# columns 0 3 3 0 follow. From row 4 on a parity column is the information column of the row's number modulo 10, rotated
# to the left by that number.
FILLER = None
COLUMNS = [
    *[1, 0, 2, 1, FILLER, FILLER, FILLER, FILLER, 0, 3, 3, 0],
    *[2, 2, 0, 0, 0, 0, 0, 8, 1, 0, 8, 8, 0, 0, 0, 0, 0, 2, 4],
    *[0, 2, 2, 0, 0, 0, 0, 0, 8, 1, 0, 8, 8, 0, 0, 0, 0, 0, 2],
]


def octets_of(column: int | None) -> list[int]:
    """What a codeword has for a column."""
    return [2] * 4 if column is FILLER else [column >> bit & 1 for bit in (3, 2, 1, 0)]


class ByHand(unittest.TestCase):
    """One call a test."""

    def test_lengths(self) -> None:
        """At the rate 0.25, 3832 bits have two code blocks and 7632 bits three. Of two the second has the longer length,
        of three the third; those that are scheduled share all (5.4.2.1)."""
        for a, tx, wanted in [
            (3832, clib.tx(28, qm=4), [12, 16]),
            (3832, clib.tx(4, qm=4), [0, 4]),
            (3832, clib.tx(28, qm=2, nl=2), [12, 16]),
            (7632, clib.tx(28, qm=4), [8, 8, 12]),
            (7632, clib.tx(28, qm=4, blocks=[0, 2]), [12, 0, 16]),
        ]:
            self.assertEqual(clib.written(clib.Room(len(wanted), item=4), "nr_lengths", 512, a, tx).numbers(), wanted)

    def test_refused_lengths(self) -> None:
        """Two code blocks, and then three, of which a fourth one alone is scheduled."""
        for status, a, tx in [
            (51, 3832, clib.tx(28, qm=3)),
            (52, 3832, clib.tx(28, qm=4, nl=5)),
            (53, 3832, clib.tx(0, qm=4)),
            (53, 3832, clib.tx(4_194_308, qm=4)),
            (54, 3832, clib.tx(30, qm=4)),
            (55, 7632, clib.tx(28, qm=4, blocks=[3])),
            (54, 7632, clib.tx(30, qm=4, blocks=[3])),
        ]:
            room = clib.Room(3 if a == 7632 else 2, item=4)
            self.assertEqual(clib.call("nr_lengths", 512, a, tx, room), status)
            self.assertTrue(room.is_unwritten())

    def test_codeword(self) -> None:
        """The 24 bits are octet 01 and its CRC, 1021 in hexadecimal."""
        bits = bytes(place in (7, 11, 18, 23) for place in range(24))
        found = list(clib.made(200, "nr_codeword", TABLE, 2048, 8, bits))
        self.assertEqual(found, [octet for column in COLUMNS for octet in octets_of(column)])

    def test_received(self) -> None:
        """The codeword of zeros is zeros. At first nothing is sent. The first transmission is erased, by octets of every
        kind; the second one is heard whole; and the third one's ones contradict it."""
        txs = [clib.tx(8), clib.tx(184), clib.tx(8)]
        heard = bytes([2, 3, 255, 2, 2, 2, 2, 2]) + bytes(184) + b"\1" * 8
        for count, places, outcomes, left, block in [
            (0, 0, [], 24, b"\xa5"),
            (1, 8, [0], 24, b"\xa5"),
            (2, 192, [0, 1], 0, b"\0"),
            (3, 200, [0, 1, 2], 0, b"\xa5"),
        ]:
            found, open_places, room = clib.Room(count, item=4), clib.Room(1, item=4), clib.Room(1)
            given = clib.settings(2048), 8, txs[:count], heard[:places]
            self.assertEqual(clib.call("nr_receive", TABLE, *given, found, open_places, room), 0)
            self.assertEqual((found.numbers(), open_places.numbers(), room.octets()), (outcomes, [left], block))

    def test_received_of_code_blocks(self) -> None:
        """Zeros of three code blocks and of ten at the rate 0.25, where K' is 2,704 and 3,840 and 2 Zc 576 and 768. At first each
        code block has 1,920 bits, from position 2 Zc on. So 784 of K' are left, or 1,920. No row fixes one of them, since each row
        that has one has a parity position too that is not known. Of 13,600 bits rows 10 and 11 are enough to fix the two columns
        that are never sent."""
        for a, c, few, left, many in [(8016, 3, 5760, 784, 40_800), (38_136, 10, 19_200, 1920, 136_000)]:
            for g, wanted in [(few, (0, [left] * c, b"\xa5" * (a // 8))), (many, (1, [0] * c, bytes(a // 8)))]:
                found, open_places, room = clib.Room(1, item=4), clib.Room(c, item=4), clib.Room(a // 8)
                given = clib.settings(512), a, [clib.tx(g)], bytes(g)
                self.assertEqual(clib.call("nr_receive", TABLE, *given, found, open_places, room), 0)
                self.assertEqual((found.numbers()[0], open_places.numbers(), room.octets()), wanted)
