"""Sizes at which no other test calls the library: circulant columns of one to four words, more rows, rounds and transmissions, and
more places. No contract can reject a body that reports "out of memory" too early, so these tests do. What each call returns is
compared with what other calls return of the parts, or worked out by the clause."""

from __future__ import annotations

import array
import ctypes
import random
import typing
import unittest

import clib
from clib import made
from rooms import Kept
from model import coding

BOTH = clib.table(clib.PRACTICE.read_bytes() + clib.DRAWN.read_bytes())
SIZE = ctypes.c_size_t


def drawn(draw: random.Random, count: int) -> bytes:
    """Random octets."""
    return bytes(draw.choices(range(256), k=count))


def received(a: int, settings: typing.Any, txs: list[clib.Tx], row: bytes) -> list[bytes]:
    """What nr_receive writes of one block."""
    c = coding.plan(a, settings[0])["c"]
    rooms = clib.Room(len(txs), item=4), clib.Room(c, item=4), clib.Room(a // 8)
    status = clib.call("nr_receive", BOTH, settings, a, txs, row, *rooms)
    assert status == 0, f"nr_receive: {status}"
    return [it.octets() for it in rooms]


def received_many(a: int, settings: typing.Any, txs: list[clib.Tx], count: int, rows: bytes) -> list[bytes]:
    """What nr_receive_many writes of rows."""
    c = coding.plan(a, settings[0])["c"]
    rooms = clib.Room(len(txs) * count, item=4), clib.Room(c * count, item=4), clib.Room(count * a // 8)
    status = clib.call("nr_receive_many", BOTH, settings, a, txs, SIZE(count), rows, *rooms)
    assert status == 0, f"nr_receive_many: {status}"
    return [it.octets() for it in rooms]


class Words(unittest.TestCase):
    """nr_receive_many uses one receiver for all rows: at each number of words that a circulant column takes."""

    def test_words(self) -> None:
        seen = set()
        # (rate, octets): Zc of both base graphs
        sizes = {2048: (36, 100, 200, 300, 400, 500, 700), 512: (60, 100, 150, 200, 260, 300, 470)}
        for rate2048, octets in [(rate, octets) for rate, those in sizes.items() for octets in those]:
            a, settings, draw = 8 * octets, clib.settings(rate2048), random.Random(octets)
            plan = coding.plan(a, rate2048)
            seen.add((plan["graph"], -(-plan["z"] // 64)))
            tx = clib.tx(plan["c"] * plan["n"] * 3 // 4 // 2 * 2, 0, 2)
            blocks = [drawn(draw, octets) for _ in range(4)]
            sent = [made(tx.g, "nr_send", BOTH, settings, block, tx) for block in blocks]
            rows = [bytes(2 if draw.random() < 0.2 * k else bit for bit in row) for k, row in enumerate(sent)]
            rows[1] = bytes([rows[1][0] ^ 1]) + rows[1][1:]
            with self.subTest(z=plan["z"], graph=plan["graph"]):
                each = [received(a, settings, [tx], row) for row in rows]
                self.assertEqual(received_many(a, settings, [tx], 4, b"".join(rows)), [b"".join(it) for it in zip(*each)])
        self.assertTrue({(g, w) for g in (1, 2) for w in (1, 2, 3, 4)} <= seen, seen)


class Sizes(unittest.TestCase):
    """More rows, rounds, transmissions and places."""

    def test_rows(self) -> None:
        """2,000 rows, and 20 transmissions of a block."""
        a, settings, draw = 72, clib.settings(2048), random.Random(2)
        for count, txs in [(2000, [clib.tx(120, 0, 2)]), (2, [clib.tx(20, k % 4, 2) for k in range(20)])]:
            width = sum(tx.g for tx in txs)
            blocks = drawn(draw, 9 * count)
            sent = made(count * width, "nr_send_many", BOTH, settings, a, txs, SIZE(count), blocks)
            heard = bytes(2 if draw.random() < 0.2 else bit for bit in sent)
            found = received_many(a, settings, txs, count, heard)
            for k in random.Random(1).sample(range(count), min(count, 20)) + [count - 1]:
                one = received(a, settings, txs, heard[k * width : (k + 1) * width])
                sizes = 4 * len(txs), 4, 9
                self.assertEqual([it[k * n : (k + 1) * n] for it, n in zip(found, sizes)], one)

    def test_rounds(self) -> None:
        """1,500 rounds, and 20 transmissions a round: each round alone is the same."""
        settings = clib.settings(2048)
        for rounds, txs in [(1500, [clib.tx(120, 0, 2)]), (3, [clib.tx(8, k % 4, 2) for k in range(20)])]:
            t = len(txs)
            thresholds, seeds = array.array("I", [1 << 30] * t), array.array("Q", range(7, 7 + rounds * t))

            def simulated(own: array.array[int], n: int) -> list[bytes]:
                rooms = clib.Room(n, item=4), clib.Room(n * t, item=4), clib.Room(n * t, item=4)
                self.assertEqual(clib.call("nr_simulate", BOTH, settings, 72, txs, thresholds, own, *rooms), 0)
                return [it.octets() for it in rooms]

            found = simulated(seeds, rounds)
            for i in [0, 63, 64, rounds - 1] if rounds > 64 else range(rounds):
                one = simulated(seeds[i * t : (i + 1) * t], 1)
                self.assertEqual([it[i * 4 * n : (i + 1) * 4 * n] for it, n in zip(found, (1, t, t))], one)

    def test_places(self) -> None:
        """12 code blocks of base graph 2 in 480,000 places, whole: by nr_send, nr_receive, nr_receive_many and a room."""
        a, rate2048 = 8 * 5721, 512
        settings, plan = clib.settings(rate2048), coding.plan(a, rate2048)
        self.assertEqual((plan["c"], plan["z"]), (12, 384))
        block, tx = drawn(random.Random(9), a // 8), clib.tx(480_000, 0, 8)
        sent = made(tx.g, "nr_send", BOTH, settings, block, tx)
        one = received(a, settings, [tx], sent)
        self.assertEqual(one[2], block)
        self.assertEqual(received_many(a, settings, [tx], 1, sent), one)
        kept = Kept(BOTH, settings, a)
        status, (outcome, _, octets) = kept.take(tx, sent)
        self.assertEqual((kept.status, status, outcome.numbers()[0], octets.octets()), (0, 0, 1, block))

    def test_matched(self) -> None:
        """nr_match of a limited buffer of Zc 384, once round and on: d round and round from k0 (5.4.2.1)."""
        z, ncb, rv, e = 384, 20_000, 2, 40_000
        d = bytes(random.Random(4).choices((0, 1), k=66 * z))
        k0 = 33 * ncb // (66 * z) * z
        self.assertEqual(made(e, "nr_match", clib.matching(1, z, 0, ncb, rv, 1), d), bytes(d[(k0 + j) % ncb] for j in range(e)))


if __name__ == "__main__":
    unittest.main()
