"""Known answers: those of another model of the clauses, of plain lists, and of README's examples."""

from __future__ import annotations

import random
import typing
import unittest

import clib
from model import clauses, coding, encoder
from model.clauses import GRAPHS

DRAWN = clib.DRAWN.read_bytes()
PRACTICE = clib.PRACTICE.read_bytes()
PRACTICE_TABLE = clib.table(PRACTICE)


def rows_with_odd(turn: int) -> list[list[int]]:
    """Tables of both base graphs with drawn values of 16 bits. Three of the rows 0 to 3 have the first parity column: that of this
    turn has other values in it than the other two."""
    draw, rows = random.Random(turn), clib.rows_of(PRACTICE + DRAWN)
    for graph, sizes in GRAPHS.items():
        first = [row for row in rows if row[0] == graph and row[1] < 4 and row[2] == sizes.information]
        same, other = ([draw.randrange(1 << 16) for _ in range(8)] for _ in range(2))
        for at, row in enumerate(first):
            row[3:] = other if at == turn else same
        for row in rows:
            if row[0] == graph and row[2] < sizes.information:
                row[3:] = [draw.randrange(1 << 16) for _ in range(8)]
    return rows


class Answers(unittest.TestCase):
    """Of each call that computes."""

    def test_crc(self) -> None:
        polynomials = [encoder.CRC_24A, encoder.CRC_24B, encoder.CRC_16]
        draw = random.Random(1)
        for length in [0, 1, 2, 3, 7, 8, 9, 64, 477, 478, 2000]:
            octets = draw.randbytes(length)
            for number, (degree, polynomial) in enumerate(polynomials):
                with self.subTest(length=length, number=number):
                    parity = encoder.with_crc(encoder.bits_of(octets), (degree, polynomial))[8 * length :]
                    found = clib.written(clib.struct(), "nr_crc", number, octets).numbers()
                    self.assertEqual(found, [int("".join(map(str, parity)), 2)])

    def test_plan(self) -> None:
        for a in [8, 176, 184, 192, 288, 296, 544, 552, 624, 632, 3816, 3824, 3832, 8424, 8432, 12264, 100_008, 1_310_688]:
            for rate2048 in [1, 511, 512, 513, 1372, 1373, 2048]:
                with self.subTest(a=a, rate2048=rate2048):
                    room, wanted = clib.struct(12), coding.plan(a, rate2048)
                    self.assertEqual(clib.call("nr_plan", rate2048, a, room), 0 if wanted else 45)
                    if wanted:
                        self.assertEqual(room.numbers(), [*wanted.values(), 0, 0])
                    else:
                        self.assertTrue(room.is_unwritten())

    def test_the_plan_of_readme(self) -> None:
        found = clib.written(clib.struct(12), "nr_plan", 2048, 8).numbers()
        self.assertEqual(found, [2, 24, 0, 1, 24, 6, 4, 0, 40, 200, 0, 0])

    def test_tables(self) -> None:
        for text, counts in [(PRACTICE, [0, 105]), (DRAWN, [316, 0]), (PRACTICE + DRAWN, [316, 105])]:
            self.assertEqual(clib.written(clib.struct(4), "nr_table_check", text).numbers(), [*counts, 0, 0])

    def test_entries(self) -> None:
        """The entries of a text, in the order of their places whatever the order of its records."""
        lines = (PRACTICE + DRAWN).splitlines(keepends=True)
        random.Random(7).shuffle(lines)
        for text in [PRACTICE, DRAWN, PRACTICE + DRAWN, b"".join(lines), b"graph,row,col,0,1,2,3,4,5,6,7\n" + PRACTICE]:
            rows = clib.rows_of(text.replace(b"graph,row,col,0,1,2,3,4,5,6,7\n", b""))
            room, count = clib.Room(len(rows), item=22), clib.counter()
            self.assertEqual(clib.call("nr_table_entries", text, room, count), 0)
            self.assertEqual(room.octets(), clib.Table(rows).octets())
            self.assertEqual(int.from_bytes(count.octets(), "little"), len(rows))

    def check_sent(self, text: bytes, octets: bytes, tx: typing.Any, rate2048: int, lbrm: int = 0) -> None:
        with self.subTest(a=8 * len(octets), rv=tx.rv, g=tx.g, qm=tx.qm, nl=tx.nl, lbrm=lbrm):
            found = clib.made(tx.g, "nr_send", clib.table(text), clib.settings(rate2048, lbrm), octets, tx)
            self.assertEqual(found, coding.sent(text, octets, tx, rate2048, lbrm))

    def test_sent(self) -> None:
        both = PRACTICE + DRAWN
        draw = random.Random(2)
        for octets, rate2048 in [(1, 2048), (9, 2048), (37, 2048), (478, 2048), (479, 512), (1065, 2048), (1533, 1024)]:
            block = draw.randbytes(octets)
            for rv in range(4):
                qm, nl = draw.choice([1, 2, 4, 6, 8]), draw.randrange(1, 5)
                g = qm * nl * draw.randrange(4, 400)
                lbrm = draw.choice([0, 16 * octets, 40 * octets])
                self.check_sent(both, block, clib.tx(g, rv, qm, nl), rate2048, lbrm)

    def test_sent_in_part(self) -> None:
        block = random.Random(3).randbytes(479)
        for blocks in [[0], [1], [0, 1], [1, 7, 300]]:
            self.check_sent(PRACTICE, block, clib.tx(2400, 2, 4, 2, blocks), 512)

    def test_the_bits_of_readme(self) -> None:
        for tx, wanted in [
            (clib.tx(184), "1021033022000008108800000240220000081088000002"),
            (clib.tx(24, qm=4), "000a51"),
            (clib.tx(40, rv=3), "8000002102"),
        ]:
            bits = clib.made(tx.g, "nr_send", PRACTICE_TABLE, clib.settings(2048), b"\1", tx)
            self.assertEqual(encoder.octets_of(list(bits)).hex(), wanted)

    def test_coded(self) -> None:
        """The code blocks and their codewords, with fillers and without, and the buffer, by which the model sends."""
        both, draw = PRACTICE + DRAWN, random.Random(5)
        table = clib.table(both)
        for octets, rate2048 in [(1, 2048), (37, 2048), (37, 512), (479, 512), (1065, 2048)]:
            a = 8 * octets
            plan = coding.plan(a, rate2048)
            block, fillers = draw.randbytes(octets), bytes([2]) * (plan["k"] - plan["kdash"])
            for r, bits in enumerate(coding.code_blocks(block, plan)):
                cut = clib.made(plan["kdash"], "nr_cut", rate2048, block, r)
                self.assertEqual(list(cut), bits)
                wanted = coding.coded(coding.tables(both)[plan["graph"]], plan, bits)
                for call in [
                    ("nr_codeword", table, rate2048, a, cut),
                    ("nr_encode", table, plan["graph"], plan["z"], cut + fillers),
                ]:
                    self.assertEqual(list(clib.made(plan["n"], *call)), [2 if it is None else it for it in wanted])
            for rv in range(4):
                for lbrm in [0, a, 3 * a]:
                    found = clib.written(clib.struct(4), "nr_buffer", clib.settings(rate2048, lbrm), a, rv).numbers()
                    ncb = clauses.buffer_length(plan, lbrm or None)
                    self.assertEqual(found, [ncb, clauses.start(plan, ncb, rv), 0, 0])

    def test_encoded(self) -> None:
        """Bits and fillers at any place, by each base graph and lifting size that a code block has."""
        for rows in [clib.rows_of(PRACTICE + DRAWN), *map(rows_with_odd, range(3))]:
            self.check_encoded(rows)

    def check_encoded(self, rows: list[list[int]]) -> None:
        """By these entries, against the model."""
        table, draw = clib.Table(rows), random.Random(8)
        for graph, sizes in GRAPHS.items():
            entries = {(row, col): values for it, row, col, *values in rows if it == graph}
            for z, index in sorted(coding.SETS.items()):
                with self.subTest(graph=graph, z=z):
                    octets, room = bytes(draw.choices([0, 1, 2], [4, 4, 1], k=sizes.information * z)), clib.Room(sizes.sent * z)
                    small = graph == 2 and z < 4
                    self.assertEqual(clib.call("nr_encode", table, graph, z, octets, room), 6 if small else 0)
                    if small:
                        self.assertTrue(room.is_unwritten())
                        continue
                    word = encoder.codeword(entries, sizes.information, index, z, [octet % 2 for octet in octets])
                    word[: len(octets)] = octets
                    self.assertEqual(list(room.octets()), word[2 * z :])

    def test_cut(self) -> None:
        """Each of the 344 code blocks of the longest transport block of base graph 2."""
        block = random.Random(9).randbytes(163_827)
        plan = coding.plan(8 * len(block), 512)
        for r, bits in enumerate(coding.code_blocks(block, plan)):
            self.assertEqual(list(clib.made(plan["kdash"], "nr_cut", 512, block, r)), bits)

    def test_lengths(self) -> None:
        draw = random.Random(6)
        for a, rate2048 in [(8, 2048), (3832, 512), (100_008, 2048), (1_310_616, 512)]:
            plan = coding.plan(a, rate2048)
            for _ in range(20):
                qm, nl = draw.choice([1, 2, 4, 6, 8]), draw.randrange(1, 5)
                some = sorted(draw.sample(range(plan["c"]), draw.randrange(1, plan["c"] + 1)))
                for blocks in [None, some, [*some, 383]]:
                    tx = clib.tx(qm * nl * draw.randrange(1, 4_194_304 // (qm * nl) + 1), draw.randrange(4), qm, nl, blocks)
                    shares = clauses.lengths(tx.g, qm, nl, range(plan["c"]) if blocks is None else some)
                    found = clib.written(clib.Room(plan["c"], item=4), "nr_lengths", rate2048, a, tx).numbers()
                    self.assertEqual(found, [shares.get(r, 0) for r in range(plan["c"])])

    def test_received(self) -> None:
        """Of 8,592 bits in two code blocks 6,000 places leave some open, and all places none; what was heard with both bits
        no block explains."""
        block = random.Random(4).randbytes(1065)
        first, second = clib.tx(6000, 0, 2), clib.tx(30000, 2, 2)
        bits = [coding.sent(DRAWN, block, tx, 2048) for tx in (first, second)]
        flipped = bytes([bits[0][0] ^ 1]) + bits[0][1:]
        received: list[tuple[list[clib.Tx], bytes, int]] = [
            ([], b"", 0),
            ([first], bits[0], 0),
            ([second], bits[1], 1),
            ([first, second], bits[0] + bits[1], 1),
            ([second, first], bits[1] + bits[0], 1),
            ([first, second], flipped + bits[1], 2),
            ([second, first], bits[1] + flipped, 2),
            ([first, second], bits[0] + b"\2" * 30000, 0),
            ([second], bits[1][:6000] + bytes(range(2, 256)) * 94 + b"\2" * 124, 0),
        ]
        for txs, heard, outcome in received:
            with self.subTest(transmissions=len(txs), outcome=outcome):
                found, left, room = clib.Room(len(txs), item=4), clib.Room(2, item=4), clib.Room(len(block))
                given = clib.settings(2048), 8 * len(block), txs, heard
                self.assertEqual(clib.call("nr_receive", clib.table(DRAWN), *given, found, left, room), 0)
                self.assertEqual(found.numbers()[-1:], [outcome] * bool(txs))
                self.assertEqual(any(left.numbers()), outcome == 0)
                self.assertEqual(room.octets(), block if outcome == 1 else b"\xa5" * len(block))

    def test_received_of_many_code_blocks(self) -> None:
        """Transport blocks of base graph 1 with 66 and with 156 code blocks, the latter in the most bits of a
        transmission. One more has limited buffers of five code blocks. Each is sent once, and then received whole."""
        text = PRACTICE + DRAWN
        for octets, rate2048, lbrm, code_blocks, tx in [
            (69_462, 2048, 0, 66, clib.tx(66 * 25_344, 0, 8, 4)),
            (163_836, 2048, 0, 156, clib.tx(4_194_304, 2)),
            (1907, 512, 25_000, 5, clib.tx(5 * 7500, 0, 2)),
        ]:
            with self.subTest(code_blocks=code_blocks):
                block = bytes((37 * place + 11) % 251 for place in range(octets))
                given: tuple[typing.Any, ...] = clib.table(text), clib.settings(rate2048, lbrm)
                sent = clib.made(tx.g, "nr_send", *given, block, tx)
                self.assertEqual(sent, coding.sent(text, block, tx, rate2048, lbrm))
                found, left, room = clib.Room(1, item=4), clib.Room(code_blocks, item=4), clib.Room(octets)
                given += 8 * octets, [tx], sent
                self.assertEqual(clib.call("nr_receive", *given, found, left, room), 0)
                self.assertEqual((found.numbers(), left.numbers()), ([1], [0] * code_blocks))
                self.assertEqual(room.octets(), block)
