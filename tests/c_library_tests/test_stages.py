"""The stages of a code block between d and what is sent, and the places that a generator erases."""

from __future__ import annotations

import ctypes
import random
import typing
import unittest

import clib
from clib import made
from model import clauses, coding, encoder, pcg

BOTH = clib.PRACTICE.read_bytes() + clib.DRAWN.read_bytes()
TABLE = clib.table(BOTH)

# The first words of the generator in PCG's own demonstration, for seed 42 and stream 54.
WORDS = [0xA15C02B7, 0x7B47F409, 0xBA1D3330, 0x83D2F293, 0xBFA4784B, 0xCBED606E]


class Stages(unittest.TestCase):
    """e_r and f_r."""

    def check_joined(self, octets: int, rate2048: int, tx: clib.Tx, lbrm: int) -> None:
        """Cut, coded, selected and interleaved one by one, the code blocks are the bits that are sent (5.5). So they are matched by
        their own numbers alone."""
        block, a, settings = random.Random(octets).randbytes(octets), 8 * octets, clib.settings(rate2048, lbrm)
        numbers = coding.plan(a, rate2048)
        lengths, sent = clib.written(clib.Room(numbers["c"], item=4), "nr_lengths", rate2048, a, tx).numbers(), b""
        for r, length in enumerate(lengths):
            bits = made(numbers["kdash"], "nr_cut", rate2048, block, r)
            d = made(numbers["n"], "nr_codeword", TABLE, rate2048, a, bits)
            e = made(length, "nr_select", settings, a, tx.rv, d)
            f = made(length, "nr_interleave", tx.qm, e)
            self.assertEqual(self.matched(numbers, bits, length, tx, lbrm), f)
            sent += f
        self.assertEqual(sent, coding.sent(BOTH, block, tx, rate2048, lbrm))

    def matched(self, plan: dict[str, int], bits: bytes, length: int, tx: clib.Tx, lbrm: int) -> bytes:
        """What is sent of a code block, which is coded and matched without its transport block."""
        fillers, ncb = plan["k"] - plan["kdash"], clauses.buffer_length(plan, lbrm or None)
        d = made(plan["n"], "nr_encode", TABLE, plan["graph"], plan["z"], bits + bytes([2]) * fillers)
        return made(length, "nr_match", clib.matching(plan["graph"], plan["z"], fillers, ncb, tx.rv, tx.qm), d)

    def test_joined(self) -> None:
        draw = random.Random(11)
        for octets, rate2048 in [(1, 2048), (9, 2048), (37, 512), (478, 2048), (479, 512), (1065, 2048), (1533, 1024)]:
            for rv in range(4):
                qm, nl = draw.choice([1, 2, 4, 6, 8]), draw.randrange(1, 5)
                tx = clib.tx(qm * nl * draw.randrange(4, 500), rv, qm, nl)
                with self.subTest(octets=octets, rate2048=rate2048, rv=rv, qm=qm, nl=nl):
                    self.check_joined(octets, rate2048, tx, draw.choice([0, 16 * octets, 40 * octets]))

    def test_not_scheduled(self) -> None:
        """Nothing is selected from a code block that is not scheduled."""
        self.check_joined(479, 512, clib.tx(2400, 2, 4, 2, [1]), 0)
        self.assertEqual(made(0, "nr_interleave", 8, b""), b"")

    def test_selected_by_hand(self) -> None:
        """A = 8 at rate 1: Zc is 4, K' 24, K 40, N 200; d has fillers at 16 to 31. From d_0 on 16 bits come before them."""
        d = bytes([1, 0, 0, 1] * 4 + [2] * 16 + [0] * 167 + [1])
        self.assertEqual(made(20, "nr_select", clib.settings(2048), 8, 0, d), bytes([1, 0, 0, 1] * 4 + [0] * 4))
        # Once round the buffer are 184 bits, of which the last is d_199.
        self.assertEqual(made(186, "nr_select", clib.settings(2048), 8, 0, d)[183:], bytes([1, 1, 0]))

    def test_interleaved_by_hand(self) -> None:
        """Two rows of three, read by columns."""
        self.assertEqual(made(6, "nr_interleave", 2, bytes([1, 1, 0, 0, 0, 1])), bytes([1, 0, 1, 0, 0, 1]))
        self.assertEqual(made(3, "nr_interleave", 1, bytes([1, 0, 1])), bytes([1, 0, 1]))


class Matched(unittest.TestCase):
    """f of a code block by its own numbers."""

    def test_by_hand(self) -> None:
        """Base graph 2 with Zc 4 and 16 fillers: d has them at 16 to 31. So a buffer of 40 places has 24 bits. 13, 25 and 43 times 40,
        by 200, are 2, 5 and 8 in whole. So the versions begin at 0, 8, 20 and 32 (Table 5.4.2.1-2)."""
        d = bytes([1, 0, 0, 1, 1, 1, 0, 0, 0, 1, 0, 1, 1, 0, 1, 1, *[2] * 16, 1, 1, 1, 0, 0, 0, 0, 1]) + bytes(160)
        head, middle, tail = d[:8], d[8:16], d[32:40]
        for rv, wanted in enumerate([head + middle + tail, middle + tail + head, tail + head + middle, tail + head + middle]):
            for e in [1, 7, 24, 30, 77]:
                found = made(e, "nr_match", clib.matching(2, 4, 16, 40, rv, 1), d)
                self.assertEqual(found, (4 * wanted)[:e], f"rv {rv}, e {e}")
        # Two rows of three, read by columns; six rows of two; a buffer that ends within the fillers, and one of a bit.
        self.assertEqual(made(6, "nr_match", clib.matching(2, 4, 16, 40, 0, 2), d), bytes([1, 1, 0, 1, 0, 1]))
        self.assertEqual(made(12, "nr_match", clib.matching(2, 4, 16, 40, 0, 6), d), bytes([1, 0, 1, 0, 0, 0, 0, 1, 1, 0, 1, 1]))
        self.assertEqual(made(20, "nr_match", clib.matching(2, 4, 16, 20, 0, 1), d), head + middle + head[:4])
        self.assertEqual(made(3, "nr_match", clib.matching(2, 4, 16, 1, 3, 1), d), bytes([1, 1, 1]))

    def test_base_graph_1_by_hand(self) -> None:
        """Zc 2 without fillers: N is 132, and the versions begin at 0, 34, 66 and 112, 17, 33 and 56 columns."""
        for rv, begin in enumerate([0, 34, 66, 112]):
            for place in range(132):
                d = bytes(place) + b"\1" + bytes(131 - place)
                found = made(132, "nr_match", clib.matching(1, 2, 0, 132, rv, 1), d)
                self.assertEqual(found.index(1), (place - begin) % 132)

    def test_as_the_model(self) -> None:
        """Any numbers, by another model of the clauses."""
        draw = random.Random(21)
        for z in [2, 4, 5, 7, 30, 36, 208, 384]:
            for graph, columns, numerators in [(1, (22, 66), (0, 17, 33, 56)), (2, (10, 50), (0, 13, 25, 43))]:
                if (graph, z) == (2, 2):
                    continue
                information, n = (columns[0] - 2) * z, columns[1] * z
                for fillers in {0, 1, draw.randrange(information), information - 1}:
                    ncb, rv = draw.choice([1, 2 * z, information, draw.randrange(1, n), n]), draw.randrange(4)
                    qm = draw.choice([1, 2, 4, 6, 8])
                    e = qm * draw.randrange(1, 200)
                    bits = [draw.randrange(2) for _ in range(n)]
                    bits[information - fillers : information] = [2] * fillers
                    given: list[int | None] = [None if it == 2 else it for it in bits]
                    selected = encoder.selected(given, numerators[rv] * ncb // n * z, ncb, e)
                    found = made(e, "nr_match", clib.matching(graph, z, fillers, ncb, rv, qm), bytes(bits))
                    self.assertEqual(list(found), encoder.interleaved(selected, qm), (graph, z, fillers, ncb, rv, qm, e))


class Erasing(unittest.TestCase):
    """`nr_erase`."""

    def erased(self, seed: int, threshold: int, octets: bytes) -> list[int]:
        """The places of these octets that become 2; an assertion fails if another octet changes."""
        room = clib.Room(len(octets))
        room.memory[room.AROUND : room.AROUND + len(octets)] = list(octets)
        self.assertEqual(clib.call("nr_erase", ctypes.c_uint64(seed), threshold, room), 0)
        found = [place for place, octet in enumerate(room.octets()) if octet != octets[place]]
        self.assertEqual({room.octets()[place] for place in found} - {2}, set())
        return found

    def test_words(self) -> None:
        for word in WORDS:
            for threshold in (word, word + 1):
                wanted = [place for place, it in enumerate(WORDS) if it < threshold]
                self.assertEqual(self.erased(42, threshold, bytes([1, 0, 1, 0, 1, 0])), wanted)

    def test_as_the_program_draws(self) -> None:
        draw = random.Random(12)
        for count in [0, 1, 63, 64, 65, 127, 128, 129, 5000]:
            seed, threshold = draw.getrandbits(64), draw.choice([0, 1 << 31, draw.getrandbits(32), 2**32 - 1])
            self.assertEqual(self.erased(seed, threshold, bytes(count)), pcg.places(seed, threshold, count))


SETTINGS = clib.settings(2048)
D = bytes(16) + bytes([2]) * 16 + bytes(168)


class Refused(unittest.TestCase):
    """The statuses of both stages, by their causes in order."""

    def refused(self, status: int, name: str, *given: typing.Any, room: int) -> None:
        out = clib.Room(room)
        self.assertEqual(clib.call(name, *given, out), status)
        self.assertTrue(out.is_unwritten())

    def test_selection(self) -> None:
        for status, settings, a, rv, d in [
            (40, clib.settings(0), 7, 4, b""),
            (41, clib.settings(0), 8, 4, b""),
            (45, clib.settings(512, 1), 7640, 4, b""),
            (47, clib.settings(512, 1), 8 * 479, 4, b""),
            (50, SETTINGS, 8, 4, b""),
            (56, SETTINGS, 8, 3, D[1:]),
            (56, SETTINGS, 8, 3, D + b"\3"),
        ]:
            self.refused(status, "nr_select", settings, a, rv, d, room=4_194_305)
        for place in [0, 15, 16, 31, 32, 199]:
            for wrong in [0, 1] if D[place] else [2, 3, 255]:
                d = D[:place] + bytes([wrong]) + D[place + 1 :]
                self.refused(5, "nr_select", SETTINGS, 8, 0, d, room=4_194_305)
        self.refused(3, "nr_select", SETTINGS, 8, 0, D, room=4_194_305)
        self.assertEqual(made(4_194_304, "nr_select", SETTINGS, 8, 0, D), bytes(4_194_304))

    def test_matching(self) -> None:
        """By each cause in its order: Zc 4 in base graph 2 has K = 40 and N = 200."""
        for status, numbers, d in [
            (46, (0, 17, 99, 0, 4, 3), b""),
            (46, (3, 4, 99, 0, 4, 3), b""),
            (6, (2, 17, 99, 0, 4, 3), b""),
            (6, (2, 3, 99, 0, 4, 3), b""),
            (6, (1, 385, 99, 0, 4, 3), b""),
            (6, (1, 0xFFFFFFFF, 99, 0, 4, 3), b""),
            (7, (2, 4, 32, 0, 4, 3), b""),
            (7, (2, 4, 0xFFFFFFFF, 0, 4, 3), b""),
            (47, (2, 4, 31, 0, 4, 3), b""),
            (47, (2, 4, 16, 201, 4, 3), b""),
            (47, (2, 4, 16, 0xFFFFFFFF, 4, 3), b""),
            (50, (2, 4, 16, 1, 4, 3), b""),
            (51, (2, 4, 16, 200, 3, 3), b""),
            (51, (2, 4, 16, 200, 3, 0), b""),
            (56, (2, 4, 16, 200, 3, 2), D[1:]),
            (56, (2, 4, 16, 200, 3, 2), D + b"\3"),
            (5, (2, 4, 15, 200, 3, 2), D),
            (5, (2, 4, 17, 200, 3, 2), D),
            (5, (2, 4, 16, 200, 3, 2), D[:199] + b"\2"),
            (3, (2, 4, 16, 200, 3, 2), D),
        ]:
            self.refused(status, "nr_match", clib.matching(*numbers), d, room=4_194_305)
        for qm in [2, 4, 6, 8]:
            self.refused(54, "nr_match", clib.matching(2, 4, 16, 200, 3, qm), D, room=4_194_303)
        self.assertEqual(made(0, "nr_match", clib.matching(2, 4, 16, 200, 3, 8), D), b"")

    def test_interleaving(self) -> None:
        for qm in [0, 3, 5, 7, 9, 0xFFFFFFFF]:
            self.refused(51, "nr_interleave", qm, bytes(4_194_305), room=0)
        self.refused(3, "nr_interleave", 2, bytes(4_194_305), room=0)
        for qm in [2, 4, 6, 8]:
            self.refused(54, "nr_interleave", qm, b"\2" * 25, room=0)
        for wrong in [b"\2", b"\xff"]:
            self.refused(5, "nr_interleave", 2, bytes(5) + wrong, room=0)
        for room in [0, 5, 7]:
            self.refused(2, "nr_interleave", 2, bytes(6), room=room)
