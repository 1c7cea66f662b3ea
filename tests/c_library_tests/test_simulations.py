"""Rounds over drawn erasures, against the program linksim: what is left after each transmission, and where a round ends."""

from __future__ import annotations

import array
import pathlib
import random
import typing
import unittest

import clib
from model import clauses, coding, pcg

PRACTICE = clib.PRACTICE.read_bytes()
DRAWN = clib.DRAWN.read_bytes()
BOTH = clib.table(PRACTICE + DRAWN)
HEADER = "block,rv,g,qm,nl,erase,flip,mask,process,fresh\n"
SETTINGS = clib.settings(2048)
SCHEDULES = 40


class Case:
    """A drawn block, its transmissions with their thresholds, and the seeds of some rounds."""

    def __init__(self, seed: int, rounds: int = 0) -> None:
        draw = random.Random(seed)
        self.rate2048, octets = draw.choice([(2048, 1), (2048, 36), (2048, 37), (1372, 60), (1024, 300), (512, 479), (512, 600)])
        self.block = draw.randbytes(octets)
        self.plan = coding.plan(8 * octets, self.rate2048)
        self.lbrm = draw.choice([0, 0, 0, 9 * octets, 16 * octets])
        self.txs = [self.drawn(draw) for _ in range(draw.randrange(1, 5))]
        self.thresholds = array.array("I", [draw.choice([0, 1 << 30, 1 << 31, 3 << 30, draw.getrandbits(32)]) for _ in self.txs])
        self.rounds = rounds or draw.randrange(1, 5)
        self.seeds = array.array("Q", [draw.getrandbits(64) for _ in range(self.rounds * len(self.txs))])

    def drawn(self, draw: random.Random) -> clib.Tx:
        """A transmission, of all code blocks or of some."""
        qm, nl, c = draw.choice([1, 2, 4, 6, 8]), draw.choice([1, 1, 2, 3]), self.plan["c"]
        g = qm * nl * (draw.randrange(4 * len(self.block), 24 * len(self.block) + 40) // (qm * nl) + 1)
        blocks = sorted(draw.sample(range(c), draw.randrange(1, c + 1))) if draw.random() < 0.3 else None
        return clib.tx(g, draw.choice([0, 0, 1, 2, 3]), qm, nl, blocks)

    def simulated(self) -> tuple[list[int], list[list[int]], list[list[int]]]:
        """By the library: after how many transmissions each round is delivered, and rows of what is left and of what is erased."""
        count, c = len(self.seeds), self.plan["c"]
        rooms = clib.Room(self.rounds, item=4), clib.Room(count * c, item=4), clib.Room(count * c, item=4)
        given = BOTH, clib.settings(self.rate2048, self.lbrm), 8 * len(self.block), self.txs, self.thresholds, self.seeds
        status = clib.call("nr_simulate", *given, *rooms)
        assert status == 0, f"status {status}"
        delivered, left, erased = (room.numbers() for room in rooms)
        return delivered, rows_of(left, c), rows_of(erased, c)

    def schedule(self) -> str:
        """The same rounds as the program is given them."""
        lines = [HEADER]
        for at, seed in enumerate(self.seeds):
            k = at % len(self.txs)
            tx = self.txs[k]
            blocks = [r for r in range(384) if tx.blocks[r // 64] >> r % 64 & 1]
            mask = " ".join(map(str, blocks)) if tx.some else "all"
            fields = 1, tx.rv, tx.g, tx.qm, tx.nl, f"pcg:{seed}:{self.thresholds[k]}", "-", mask, 0, int(k == 0)
            lines.append(",".join(map(str, fields)) + "\n")
        return "".join(lines)

    def run(self, folder: pathlib.Path) -> tuple[list[list[int]], list[str]]:
        """By the program: rows of what is left after each transmission, and how each round ends."""
        files = clib.link_words(folder, PRACTICE + DRAWN, (self.rate2048, self.lbrm), [self.block], self.schedule())
        lines = clib.done([clib.program(), "run", *files]).decode()
        words = [line.split() for line in lines.splitlines()]
        left = [int(it[4]) for it in words if it[0] == "left"]
        return rows_of(left, self.plan["c"]), [it[4] for it in words if it[0] == "process"]

    def erased(self, at: int) -> list[int]:
        """How many places of each code block a transmission of a round erases."""
        tx, found = self.txs[at % len(self.txs)], [0] * self.plan["c"]
        scheduled = [r for r in range(len(found)) if not tx.some or tx.blocks[r // 64] >> r % 64 & 1]
        lengths = clauses.lengths(tx.g, tx.qm, tx.nl, scheduled)
        places, end = pcg.places(self.seeds[at], self.thresholds[at % len(self.txs)], tx.g), 0
        for r, length in lengths.items():
            found[r] = sum(end <= place < end + length for place in places)
            end += length
        return found


def rows_of(numbers: list[int], count: int) -> list[list[int]]:
    """Numbers in rows of so many."""
    return [numbers[at : at + count] for at in range(0, len(numbers), count)]


class Simulations(clib.InFolder):
    """`nr_simulate`."""

    def check(self, case: Case) -> None:
        delivered, left, erased = case.simulated()
        wanted, ends = case.run(self.folder)
        self.assertEqual(len(left), len(wanted))
        # What is left after the delivery is nothing, whether a transmission was heard or not.
        self.assertEqual(left, wanted)
        for i, after in enumerate(delivered):
            rows = left[i * len(case.txs) : (i + 1) * len(case.txs)]
            first = next((k + 1 for k, row in enumerate(rows) if not any(row)), 0)
            self.assertEqual((after, ends[i]), (first, "delivered" if first else "open"))
            for k, row in enumerate(erased[i * len(case.txs) : (i + 1) * len(case.txs)]):
                sent = not after or k < after
                self.assertEqual(row, case.erased(i * len(case.txs) + k) if sent else [0] * case.plan["c"])

    def test_as_the_program_runs(self) -> None:
        clib.program()
        for seed in range(SCHEDULES):
            with self.subTest(seed=seed):
                self.check(Case(seed))

    def test_in_parts(self) -> None:
        """Rounds are apart from one another: each alone comes to what it comes to among the others."""
        for seed, rounds in enumerate([1, 2, 63, 64, 65, 129]):
            case = Case(seed, rounds)
            whole, count, seeds, case.rounds = case.simulated(), len(case.txs), case.seeds, 1
            for i, delivered in enumerate(whole[0]):
                case.seeds = seeds[i * count : (i + 1) * count]
                rows = slice(i * count, (i + 1) * count)
                self.assertEqual(case.simulated(), ([delivered], whole[1][rows], whole[2][rows]))

    def test_by_hand(self) -> None:
        """A = 8 at rate 1: all of d fixes the 24 bits, and nothing leaves them; then one transmission is not sent."""
        txs, seeds = [clib.tx(184), clib.tx(184)], array.array("Q", [1, 2])
        for thresholds, wanted in [
            ([0, 0], ([1], [0, 0], [0, 0])),
            ([2**32 - 1, 0], ([2], [24, 0], [184, 0])),
            ([2**32 - 1, 2**32 - 1], ([0], [24, 24], [184, 184])),
        ]:
            rooms = [clib.Room(count, item=4) for count in (1, 2, 2)]
            given = BOTH, SETTINGS, 8, txs, array.array("I", thresholds), seeds
            self.assertEqual(clib.call("nr_simulate", *given, *rooms), 0)
            self.assertEqual(tuple(room.numbers() for room in rooms), wanted)

    def test_nothing(self) -> None:
        """No rounds, and rounds of no transmission."""
        none: list[clib.Tx] = []
        for txs, rounds in [([clib.tx(24)], 0), (none, 3), (none, 0)]:
            rooms = [clib.Room(rounds, item=4), clib.Room(0, item=4), clib.Room(0, item=4)]
            given = BOTH, SETTINGS, 8, txs, array.array("I", [0] * len(txs)), array.array("Q")
            self.assertEqual(clib.call("nr_simulate", *given, *rooms), 0)
            self.assertEqual(rooms[0].numbers(), [0] * rounds)


class Refused(unittest.TestCase):
    """The statuses, by their causes in order."""

    def refused(
        self, status: int, table: typing.Any = BOTH, settings: typing.Any = SETTINGS, a: int = 8, txs: typing.Any = (clib.tx(24),),
        thresholds: int = 1, seeds: int = 2, rooms: tuple[int, int, int] = (2, 2, 2),
    ) -> None:
        """The rooms are those for the rounds, for what is left, and for what is erased."""
        places = [clib.Room(count, item=4) for count in rooms]
        given = table, settings, a, list(txs), array.array("I", [0] * thresholds), array.array("Q", [0] * seeds)
        self.assertEqual(clib.call("nr_simulate", *given, *places), status)
        for place in places:
            self.assertTrue(place.is_unwritten())

    def test_lists(self) -> None:
        self.refused(31, clib.Table([*BOTH.rows, BOTH.rows[0]]), clib.settings(0), 7, [clib.tx(0, 4)] * 1001)
        self.refused(29, clib.Table([]), clib.settings(0), 7)
        self.refused(40, settings=clib.settings(0), a=7, txs=[clib.tx(0, 4)] * 1001)
        self.refused(41, settings=clib.settings(0), txs=[clib.tx(0, 4)] * 1001)
        self.refused(3, txs=[clib.tx(0, 4)] * 1001, thresholds=0)
        for thresholds, seeds in [(0, 2), (2, 2), (1, 1), (1, 3), (1, 0)]:
            self.refused(56, txs=[clib.tx(0, 4)], thresholds=thresholds, seeds=seeds, rooms=(2, 0, 0))
        for rooms in [(2, 1, 2), (2, 3, 2), (2, 2, 1), (2, 2, 3), (2, 0, 0)]:
            self.refused(2, clib.table(DRAWN), txs=[clib.tx(0, 4)], rooms=rooms)

    def test_links(self) -> None:
        self.refused(46, clib.table(DRAWN), txs=[clib.tx(0, 4)])
        self.refused(47, settings=clib.settings(512, 1), a=8 * 479, txs=[clib.tx(0, 4)], rooms=(2, 4, 4))

    def test_transmissions(self) -> None:
        for status, tx in clib.WRONG:
            self.refused(status, txs=[tx])
            self.refused(status, txs=[clib.tx(24), tx, clib.tx(0, 4)], thresholds=3, seeds=6, rooms=(2, 6, 6))
