"""Eight bits an octet: nr_send_packed and nr_receive_packed do what nr_send and nr_receive do."""

from __future__ import annotations

import random
import typing
import unittest

import clib
from clib import made
from model import coding, encoder

TABLE = clib.table(clib.PRACTICE.read_bytes() + clib.DRAWN.read_bytes())
SETTINGS = clib.settings(2048)
# Octets of a transport block, and a code rate.
SIZES = [(1, 2048), (9, 2048), (478, 2048), (479, 512), (1065, 2048), (1533, 1024)]


def packed(octets: bytes) -> bytes:
    """Bits of an octet each, eight to an octet, the first highest and the last octet filled with zeros."""
    return encoder.octets_of(list(octets))


def rooms(transmissions: int, c: int, octets: int) -> tuple[clib.Room, clib.Room, clib.Room]:
    """Rooms for what is found."""
    return clib.Room(transmissions, item=4), clib.Room(c, item=4), clib.Room(octets)


class Packed(unittest.TestCase):
    """The same as without packing."""

    def test_sent(self) -> None:
        """G of every remainder by 8, with whole words of 64 bits and without."""
        draw = random.Random(1)
        for octets, rate2048 in SIZES:
            block = draw.randbytes(octets)
            for g in [*range(1, 18), 63, 64, 65, 127, 128, 511, 512, 1000, draw.randrange(2000, 9000)]:
                settings, tx = clib.settings(rate2048, draw.choice([0, 16 * octets + 8])), clib.tx(g, draw.randrange(4))
                sent = made(g, "nr_send", TABLE, settings, block, tx)
                self.assertEqual(made((g + 7) // 8, "nr_send_packed", TABLE, settings, block, tx), packed(sent), (octets, g))

    def test_by_hand(self) -> None:
        """A = 8 at rate 1: of the block 01 the first nine bits d are those of its CRC, 0000 0010 0001 from place 8 on."""
        bits = made(200, "nr_codeword", TABLE, 2048, 8, made(24, "nr_cut", 2048, b"\1", 0))
        self.assertEqual(bits[:16], bytes(encoder.bits_of(b"\x10\x21")))
        self.assertEqual(made(2, "nr_send_packed", TABLE, SETTINGS, b"\1", clib.tx(16)), b"\x10\x21")
        self.assertEqual(made(2, "nr_send_packed", TABLE, SETTINGS, b"\1", clib.tx(11)), b"\x10\x20")

    def check_received(self, rate2048: int, a: int, txs: list[clib.Tx], heard: list[bytes], draw: random.Random) -> int:
        """The same outcomes, bits left and block. What is not known may be any bit, and so may the padding."""
        bits = known = b""
        for part in heard:
            fill = [draw.getrandbits(1) for _ in range(-len(part) % 8)]
            bits += packed(bytes([it if it < 2 else draw.getrandbits(1) for it in part] + fill))
            known += packed(bytes([int(it < 2) for it in part] + fill[::-1]))
        numbers = coding.plan(a, rate2048)
        wanted, found = rooms(len(txs), numbers["c"], a // 8), rooms(len(txs), numbers["c"], a // 8)
        settings = clib.settings(rate2048)
        self.assertEqual(clib.call("nr_receive", TABLE, settings, a, txs, b"".join(heard), *wanted), 0)
        self.assertEqual(clib.call("nr_receive_packed", TABLE, settings, a, txs, bits, known, *found), 0)
        self.assertEqual([room.octets() for room in found], [room.octets() for room in wanted])
        return found[0].numbers()[-1]

    def test_received(self) -> None:
        draw, outcomes = random.Random(2), set()
        for octets, rate2048 in SIZES:
            block, a = draw.randbytes(octets), 8 * octets
            for lost in (0, 0.2, 0.5, 1):
                txs = [clib.tx(draw.randrange(8 * octets + 24, 24 * octets + 99), rv) for rv in (0, 2, 3)]
                sent = [made(tx.g, "nr_send", TABLE, clib.settings(rate2048), block, tx) for tx in txs]
                heard = [bytes(2 if draw.random() < lost else bit for bit in part) for part in sent]
                outcomes.add(self.check_received(rate2048, a, txs, heard, draw))
                flipped = bytes([heard[0][0] ^ 1 if heard[0][0] < 2 else 1]) + heard[0][1:]
                outcomes.add(self.check_received(rate2048, a, txs, [flipped, *heard[1:], ], draw))
        self.assertEqual(outcomes, {0, 1, 2})

    def test_no_transmission(self) -> None:
        outcomes, left, block = rooms(0, 1, 1)
        self.assertEqual(clib.call("nr_receive_packed", TABLE, SETTINGS, 8, [], b"", b"", outcomes, left, block), 0)
        self.assertEqual(left.numbers(), [24])


class Rejected(unittest.TestCase):
    """The errors in their order; nothing is written then."""

    def test_sending(self) -> None:
        for status, settings, block, tx in [
            (40, clib.settings(0, 1), b"", clib.tx(0)), (41, clib.settings(0, 1), bytes(955), clib.tx(0)),
            (45, clib.settings(512, 1), bytes(955), clib.tx(0)), (47, clib.settings(512, 1), bytes(479), clib.tx(0)),
            *((status, SETTINGS, b"\1", tx) for status, tx in clib.WRONG),
        ]:
            self.refused(status, "nr_send_packed", settings, block, tx, clib.Room(7))
        for g, room in [(16, 1), (16, 3), (17, 2), (17, 17), (1, 0)]:
            self.refused(2, "nr_send_packed", SETTINGS, b"\1", clib.tx(g), clib.Room(room))

    def refused(self, status: int, name: str, *given: typing.Any) -> None:
        self.assertEqual(clib.call(name, TABLE, *given), status)
        self.assertTrue(all(it.is_unwritten() for it in given if isinstance(it, clib.Room)))

    def test_receiving(self) -> None:
        """LENGTH has its place between ROOM, NO_BUFFER and the transmissions: octets that lack and octets that are left over."""
        one, name = [clib.tx(17)], "nr_receive_packed"
        for bits, known in [(2, 3), (3, 2), (4, 3), (3, 4), (0, 0), (4, 4), (17, 17)]:
            self.refused(56, name, SETTINGS, 8, one, bytes(bits), bytes(known), *rooms(1, 1, 1))
        for status, tx in clib.WRONG:
            if tx.g <= 4_194_304:
                octets = bytes((tx.g + 7) // 8)
                self.refused(status, name, SETTINGS, 8, [tx], octets, octets, *rooms(1, 1, 1))
        self.refused(56, name, SETTINGS, 8, [clib.tx(0xFFFFFFFF)], bytes(9), bytes(9), *rooms(1, 1, 1))
        for wanted in [(0, 1, 1), (1, 2, 1), (1, 1, 0)]:
            self.refused(2, name, clib.settings(2048), 8, one, b"", b"", *rooms(*wanted))
        self.refused(47, name, clib.settings(512, 1), 8 * 479, one, b"", b"", *rooms(1, 2, 479))
        self.refused(45, name, clib.settings(512, 1), 7640, one, b"", b"", *rooms(0, 0, 0))
