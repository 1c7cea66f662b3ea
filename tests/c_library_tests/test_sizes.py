"""Sizes as users have them: ten code blocks of base graph 1 over a whole table, the largest tables, lists and rooms."""

from __future__ import annotations

import array
import ctypes
import random
import typing
import unittest

import clib
from clib import made
from model import coding
from model.clauses import GRAPHS
import shared
from rooms import Kept

# In ten code blocks K' is 8,448, the most of base graph 1. The buffer is limited to 20,000 of N = 25,344 positions.
A, RATE, C, KDASH, N = 84216, 1365, 10, 8448, 25344
SETTINGS = clib.settings(RATE, 133334)
SHARE = 15000
OPEN, DELIVERED, CONTRADICTION = 0, 1, 2
# A count of items.
SIZE = ctypes.c_size_t


def rows_of(entries: dict[int, dict[tuple[int, int], list[int]]]) -> list[list[int]]:
    """Entries by base graph and place as the records of a table."""
    return [[graph, *place, *values] for graph in sorted(entries) for place, values in sorted(entries[graph].items())]


def full_text() -> bytes:
    """A table with every entry that any table may have."""
    draw, entries = random.Random(6), {graph: shared.drawn_entries(graph) for graph in GRAPHS}
    for graph, numbers in GRAPHS.items():
        for row in range(numbers.rows):
            for col in range(numbers.information + (4 if row > 3 else 0)):
                entries[graph].setdefault((row, col), [draw.randrange(384) for _ in range(8)])
    return "".join(",".join(map(str, row)) + "\n" for row in rows_of(entries)).encode()


TABLE = clib.Table(rows_of({graph: shared.drawn_entries(graph) for graph in GRAPHS}))
# Entries that are out of order, and those of the other base graph.
UNPLACED, OF_GRAPH_2 = clib.Table(TABLE.rows[::-1]), clib.Table([row for row in TABLE.rows if row[0] == 2])
BLOCK = random.Random(1).randbytes(A // 8)
# Two transmissions, each of every other code block.
TXS = [clib.tx(5 * SHARE, 0, 6, 1, list(range(first, C, 2))) for first in (0, 1)]


def taken(kept: Kept, tx: clib.Tx, heard: bytes) -> tuple[int, list[int], bytes]:
    """The outcome, what is left and the block's room after one transmission more."""
    status, (outcome, left, block) = kept.take(tx, heard)
    assert (kept.status, status) == (0, 0), f"status {kept.status}, {status}"
    return outcome.numbers()[0], left.numbers(), block.octets()


class TenCodeBlocks(unittest.TestCase):
    """A transport block of 84,216 bits over 316 and 197 entries."""

    def sent(self, tx: clib.Tx) -> bytes:
        return made(tx.g, "nr_send", TABLE, SETTINGS, BLOCK, tx)

    def test_table(self) -> None:
        self.assertEqual(len(TABLE.rows), 513)
        self.assertEqual(coding.plan(A, RATE), {
            "graph": 1, "b": A + 24, "l": 24, "c": C, "kdash": KDASH, "kb": 22, "z": 384, "set": 1, "k": KDASH, "n": N,
        })

    def test_stages(self) -> None:
        """Cut, coded, selected, interleaved and joined, the code blocks are what nr_send sends."""
        bits, tx = coding.code_blocks(BLOCK, coding.plan(A, RATE)), clib.tx(C * SHARE, 3, 6)
        sent = b""
        for r in range(C):
            self.assertEqual(made(KDASH, "nr_cut", RATE, BLOCK, r), bytes(bits[r]))
            d = made(N, "nr_codeword", TABLE, RATE, A, bytes(bits[r]))
            sent += made(SHARE, "nr_interleave", tx.qm, made(SHARE, "nr_select", SETTINGS, A, tx.rv, d))
        self.assertEqual(sent, self.sent(tx))
        entries = {(row, col): values for graph, row, col, *values in TABLE.rows if graph == 1}
        self.assertEqual(d, bytes(typing.cast(typing.List[int], coding.coded(entries, coding.plan(A, RATE), bits[r]))))

    def test_received_in_parts(self) -> None:
        """The code blocks that were sent are fixed; with the others the block is delivered."""
        kept = Kept(TABLE, SETTINGS, A)
        self.assertEqual(taken(kept, TXS[0], self.sent(TXS[0]))[:2], (OPEN, [0, KDASH] * (C // 2)))
        self.assertEqual(taken(kept, TXS[1], self.sent(TXS[1])), (DELIVERED, [0] * C, BLOCK))
        self.assertEqual(kept.take(TXS[0], bytes(2**24 + 5))[0], 56)

    def test_simulated(self) -> None:
        """Five transmissions: all of the first is erased, then each half of the code blocks comes whole."""
        whole, rounds = clib.tx(C * SHARE, 0, 6), 65
        txs = [whole, *TXS, whole, whole]
        thresholds, seeds = array.array("I", [2**32 - 1, 0, 0, 0, 0]), array.array("Q", range(5 * rounds))
        rooms = clib.Room(rounds, item=4), clib.Room(5 * C * rounds, item=4), clib.Room(5 * C * rounds, item=4)
        self.assertEqual(clib.call("nr_simulate", TABLE, SETTINGS, A, txs, thresholds, seeds, *rooms), 0)
        delivered, left, erased = (room.numbers() for room in rooms)
        self.assertEqual(delivered, [3] * rounds)
        self.assertEqual(left, ([KDASH] * C + [0, KDASH] * (C // 2) + [0] * (3 * C)) * rounds)
        self.assertEqual(erased, ([SHARE] * C + [0] * (4 * C)) * rounds)


class ManyBlocks(unittest.TestCase):
    """64 such transport blocks at a call: each has what the calls for one answer, and nothing is written by a refusal."""

    COUNT = 64

    def test_each_row(self) -> None:
        """Of row k a burst of 100 k places is lost. In each eighth row the last place is flipped, which nothing explains."""
        blocks, heard, width = random.Random(5).randbytes(self.COUNT * A // 8), b"", sum(tx.g for tx in TXS)
        sent = made(self.COUNT * width, "nr_send_many", TABLE, SETTINGS, A, TXS, SIZE(self.COUNT), blocks)
        each = clib.Room(2, item=4), clib.Room(C, item=4), clib.Room(A // 8)
        wanted, said = [b"", b"", b""], []
        for k in range(self.COUNT):
            block = blocks[k * A // 8 : (k + 1) * A // 8]
            row = sent[k * width : (k + 1) * width]
            self.assertEqual(row, b"".join(made(tx.g, "nr_send", TABLE, SETTINGS, block, tx) for tx in TXS))
            row = b"\2" * (100 * k) + row[100 * k : -1] + bytes([row[-1] ^ (k % 8 == 7)])
            each[2].whole[:] = bytes([clib.Room.FILL]) * len(each[2].whole)
            self.assertEqual(clib.call("nr_receive", TABLE, SETTINGS, A, TXS, row, *each), 0)
            wanted, heard = [octets + room.octets() for octets, room in zip(wanted, each)], heard + row
            said.append(each[0].numbers()[1])
            self.assertIn((said[-1], each[2].octets() == block), [(OPEN, False), (DELIVERED, True), (CONTRADICTION, False)])
        self.assertEqual({*said}, {OPEN, DELIVERED, CONTRADICTION})
        self.assertEqual((said[0], said[7], said[-2]), (DELIVERED, CONTRADICTION, OPEN))
        rooms = clib.Room(2 * self.COUNT, item=4), clib.Room(C * self.COUNT, item=4), clib.Room(self.COUNT * A // 8)
        self.assertEqual(clib.call("nr_receive_many", TABLE, SETTINGS, A, TXS, SIZE(self.COUNT), heard, *rooms), 0)
        self.assertEqual([room.octets() for room in rooms], wanted)

    def refused_in_turn(self, call: typing.Callable[..., int], steps: list[tuple[int, dict[str, typing.Any]]]) -> None:
        """Each status is told as long as what it speaks of is not mended, whatever else is wrong."""
        given: dict[str, typing.Any] = {}
        for status, mends in steps:
            given.update(mends)
            with self.subTest(status=status):
                self.assertEqual(call(**given), status)

    def test_refused_sends(self) -> None:
        def call(table: clib.Table, settings: typing.Any, a: int, txs: list[clib.Tx], blocks: bytes, out: int) -> int:
            room = clib.Room(out)
            status = clib.call("nr_send_many", table, settings, a, txs, SIZE(2), blocks, room)
            self.assertTrue(room.is_unwritten())
            return status

        txs = [clib.tx(6), clib.tx(6, 4)]
        wrong = {"table": UNPLACED, "settings": clib.settings(0, 1), "a": A + 1, "blocks": bytes(A // 4 - 1),
                 "txs": txs * 501, "out": 11}
        self.refused_in_turn(call, [
            (31, wrong), (3, {"table": OF_GRAPH_2}), (40, {"txs": txs}), (40, {"a": A}), (41, {"blocks": bytes(A // 4)}),
            (46, {"settings": clib.settings(RATE, 1)}), (47, {"table": TABLE}), (50, {"settings": SETTINGS}),
            (2, {"txs": txs[:1]}),
        ])

    def test_refused_receptions(self) -> None:
        def call(
            table: clib.Table, settings: typing.Any, a: int, txs: list[clib.Tx], heard: bytes, counts: tuple[int, int, int],
        ) -> int:
            rooms = clib.Room(counts[0], item=4), clib.Room(counts[1], item=4), clib.Room(counts[2])
            status = clib.call("nr_receive_many", table, settings, a, txs, SIZE(2), heard, *rooms)
            self.assertTrue(all(room.is_unwritten() for room in rooms))
            return status

        right, txs = (4, 2 * C, A // 4), [clib.tx(6), clib.tx(6, 4)]
        wrong = {"table": UNPLACED, "settings": clib.settings(0, 1), "a": A + 1, "txs": txs[1:] * 1001, "heard": bytes(23),
                 "counts": (3, 2 * C, A // 4)}
        self.refused_in_turn(call, [
            (31, wrong), (3, {"table": OF_GRAPH_2}), (40, {"txs": txs}), (41, {"a": A}),
            *((2, {"settings": clib.settings(RATE, 1), "counts": it}) for it in [(4, 2 * C - 1, A // 4), (4, 2 * C, A // 8)]),
            (56, {"counts": right}), (46, {"heard": bytes(24)}), (47, {"table": TABLE}), (50, {"settings": SETTINGS}),
        ])

    def test_no_blocks(self) -> None:
        """Rows of no block are NULL, 0, and the first block has no fault. Others are judged as ever."""
        none = array.array("B")
        self.assertEqual(none.buffer_info(), (0, 0))
        for table, tx, status in [(TABLE, TXS[0], 0), (UNPLACED, TXS[0], 31)]:
            self.assertEqual(clib.call("nr_send_many", table, SETTINGS, A, [tx], SIZE(0), none, none), status)
            self.assertEqual(clib.call("nr_receive_many", table, SETTINGS, A, [tx], SIZE(0), none, none, none, none), status)
        self.assertEqual(clib.call("nr_receive_many", TABLE, SETTINGS, A, TXS, SIZE(0), b"\0", none, none, none), 56)
        self.assertEqual(clib.call("nr_send_many", TABLE, SETTINGS, A, TXS, SIZE(0), none, clib.Room(1)), 2)


class Largest(unittest.TestCase):
    """The most that a call takes."""

    def test_interleaved(self) -> None:
        """Bit i of symbol j is the j-th one of the i-th of Qm equal parts (5.4.2.2). They are any bits, or d round and round."""
        count, qm = 4_194_304, 8
        bits = bytes(random.Random(3).choices((0, 1), k=count))
        d = bits[:25_344]
        longest = clib.matching(1, 384, 0, len(d), 0, qm)
        for given, sent in [(bits, made(count, "nr_interleave", qm, bits)), (166 * d, made(count, "nr_match", longest, d))]:
            self.assertTrue(all(sent[at::qm] == given[at * count // qm :][: count // qm] for at in range(qm)))

    def test_selected(self) -> None:
        """Of the longest code block, which has no fillers, more bits than its buffer: d round and round."""
        d = bytes(random.Random(2).choices((0, 1), k=25_344))
        self.assertEqual(made(60_000, "nr_select", clib.settings(2048), 8424, 0, d), (3 * d)[:60_000])

    def test_table(self) -> None:
        """Each entry that any table may have: 1,850, read from a text and coded by."""
        text = full_text()
        table, report, room, counter = clib.table(text), clib.struct(4), clib.Room(1850, item=22), clib.counter()
        self.assertEqual(len(table.rows), 1850)
        self.assertEqual(clib.call("nr_table_check", text, report), 0)
        self.assertEqual(report.numbers(), [1231, 619, 0, 0])
        self.assertEqual(clib.call("nr_table_entries", text, room, counter), 0)
        self.assertEqual(room.octets(), table.octets())
        for octets in (9, 479):
            block, tx = random.Random(octets).randbytes(octets), clib.tx(12 * octets)
            self.assertEqual(made(tx.g, "nr_send", table, clib.settings(2048), block, tx), coding.sent(text, block, tx, 2048))

    def test_started(self) -> None:
        """The most code blocks of each base graph: 156 of base graph 1 and 344 of base graph 2. Then one is heard, but for the two
        columns that are never sent: each row has both, so that none fixes them."""
        table = clib.table(full_text())
        for a, rate2048, c, positions in [(1_310_688, 1365, 156, 68 * 384), (1_310_616, 400, 344, 52 * 384)]:
            numbers = coding.plan(a, rate2048)
            self.assertEqual(numbers["c"], c)
            kept = Kept(table, clib.settings(rate2048), a)
            self.assertEqual(kept.room.octets()[32:], (b"\0" + b"\2" * positions) * c)
            tx = clib.tx(numbers["n"], 0, 1, 1, [c - 1])
            heard = made(tx.g, "nr_send", table, clib.settings(rate2048), bytes(a // 8), tx)
            self.assertEqual(taken(kept, tx, heard)[:2], (OPEN, [numbers["kdash"]] * (c - 1) + [2 * numbers["z"]]))
