"""Joining the decided bits of code blocks, and which CRCs pass: nr_join, against the model."""

from __future__ import annotations

import random
import typing
import unittest

import clib
from clib import made
from model import coding, encoder

# What nr_join writes: whether each code block's CRC passes, whether the transport block's does, and the octets.
Joined = typing.Tuple[typing.List[int], int, bytes]


def joined(rate2048: int, a: int, rows: list[list[int]]) -> Joined:
    """What nr_join writes of these rows."""
    passed, whole, block = clib.Room(len(rows)), clib.struct(), clib.Room(a // 8)
    status = clib.call("nr_join", rate2048, a, bytes(bit for row in rows for bit in row), passed, whole, block)
    assert status == 0, f"status {status}"
    return list(passed.octets()), whole.numbers()[0], block.octets()


def expected(a: int, numbers: dict[str, int], rows: list[list[int]]) -> Joined:
    """The same by the clauses (5.1, 5.2.2, 6.2.1, 7.2.1)."""
    share = numbers["kdash"] - numbers["l"]
    bits = [bit for row in rows for bit in row[:share]]
    whole = encoder.attached(bits[:a]) == bits
    each = [encoder.with_crc(row[:share], encoder.CRC_24B) == row for row in rows] if numbers["l"] else [whole]
    return list(map(int, each)), int(whole), encoder.octets_of(bits[:a])


class Join(unittest.TestCase):
    """The transport block of its code blocks."""

    SIZES = [(1, 2048), (9, 2048), (37, 512), (478, 2048), (479, 2048), (480, 512), (1053, 2048), (1056, 1024), (3138, 1365)]

    def test_by_hand(self) -> None:
        """The CRC16 of one octet 01 is 1021, gCRC16 itself, and that of 00 is 0 (5.1)."""
        one, zero = encoder.bits_of(bytes([1, 0x10, 0x21])), [0] * 24
        self.assertEqual(joined(2048, 8, [one]), ([1], 1, b"\1"))
        self.assertEqual(joined(2048, 8, [zero]), ([1], 1, b"\0"))
        self.assertEqual(joined(2048, 8, [one[:23] + [0]]), ([0], 0, b"\1"))

    def test_is_the_inverse_of_cutting(self) -> None:
        """Also of the most code blocks of each base graph: 156, and 344 with 1,310,616 bits."""
        for octets, rate2048 in [*self.SIZES, (479, 512), (954, 512), (163_836, 2048), (163_827, 512)]:
            block, numbers = random.Random(octets).randbytes(octets), coding.plan(8 * octets, rate2048)
            rows = [list(made(numbers["kdash"], "nr_cut", rate2048, block, r)) for r in range(numbers["c"])]
            with self.subTest(octets=octets, rate2048=rate2048):
                self.assertEqual(joined(rate2048, 8 * octets, rows), ([1] * numbers["c"], 1, block))

    def test_flipped_bits(self) -> None:
        """One bit to four of the rows are wrong: in a share, in the transport block's CRC, and in CRC24B alone."""
        draw = random.Random(9)
        for octets, rate2048 in self.SIZES:
            a, numbers = 8 * octets, coding.plan(8 * octets, rate2048)
            for count in (1, 1, 1, 2, 4):
                rows = coding.code_blocks(draw.randbytes(octets), numbers)
                for _ in range(count):
                    draw.choice(rows)[draw.randrange(numbers["kdash"])] ^= 1
                with self.subTest(octets=octets, rate2048=rate2048):
                    self.assertEqual(joined(rate2048, a, rows), expected(a, numbers, rows))

    def test_only_the_block_fails(self) -> None:
        """A code block with another transport block's bits and its own CRC24B: it passes, and the transport block does not."""
        numbers = coding.plan(8448, 1024)
        rows = coding.code_blocks(bytes(1056), numbers)
        rows[0] = coding.code_blocks(bytes([1] * 1056), numbers)[0]
        self.assertEqual(joined(1024, 8448, rows)[:2], ([1] * numbers["c"], 0))

    def test_only_a_code_block_fails(self) -> None:
        """A CRC24B that is wrong leaves the transport block right."""
        numbers = coding.plan(8448, 1024)
        block = random.Random(3).randbytes(1056)
        rows = coding.code_blocks(block, numbers)
        rows[-1][-1] ^= 1
        self.assertEqual(joined(1024, 8448, rows), ([1] * (numbers["c"] - 1) + [0], 1, block))


class Rejected(unittest.TestCase):
    """The errors in their order; nothing is written then."""

    def refused(self, status: int, rate2048: int, a: int, bits: bytes, rooms: tuple[int, int] = (0, 0)) -> None:
        passed, whole, block = clib.Room(rooms[0]), clib.struct(), clib.Room(rooms[1])
        self.assertEqual(clib.call("nr_join", rate2048, a, bits, passed, whole, block), status)
        self.assertTrue(passed.is_unwritten() and whole.is_unwritten() and block.is_unwritten())

    def test_in_order(self) -> None:
        for status, rate2048, a in [(40, 0, 7), (40, 0, 0), (40, 0, 1310728), (41, 0, 7640), (41, 2049, 8), (45, 512, 7640)]:
            self.refused(status, rate2048, a, b"\2")
        for bits in (b"", b"\2" * 23, b"\2" * 25):
            self.refused(56, 2048, 8, bits)
        for wrong in (2, 255):
            for place in (0, 23):
                self.refused(5, 2048, 8, bytes(place) + bytes([wrong]) + bytes(23 - place))
        for rooms in [(0, 1), (2, 1), (1, 0), (1, 2)]:
            self.refused(2, 2048, 8, bytes(24), rooms)
