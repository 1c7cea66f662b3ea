"""A receiver in its caller's room. What the room has is compared octet by octet with a model of what was heard, and the
outcomes with those of one nr_receive. What is refused is tested too."""

from __future__ import annotations

import ctypes
import random
import struct
import typing
import unittest

import clib
from model import clauses, coding
from rooms import Kept, receiver_size

PRACTICE = clib.PRACTICE.read_bytes()
DRAWN = clib.DRAWN.read_bytes()
TABLE = clib.table(PRACTICE)
SCHEDULES = 400
HEADER = 32
COLUMNS = {1: 68, 2: 52}
NOTHING = 2


def digest(table: clib.Table) -> int:
    """The digest of a table's entries, by the eleven numbers of each, four at a step: the higher half of 64 bits."""
    found = 14695981039346656037
    for row in table.rows:
        for four in (row[:4], row[4:8], row[8:]):
            number = sum(value << 16 * place for place, value in enumerate(four))
            product = (found ^ number) * 1099511628211 % 2**64
            found = product ^ product >> 32
    return found >> 32


def header(table: clib.Table, settings: typing.Any, a: int) -> bytes:
    """The octets that a room begins with."""
    numbers = coding.plan(a, settings[0])
    ncb = clauses.buffer_length(numbers, settings[1] or None)
    said = 2, a, numbers["graph"], numbers["z"], numbers["kdash"], numbers["c"], ncb, digest(table)
    return struct.pack("<8I", *said)


class Record:
    """What was heard of a transport block: the bit heard first at each position, and whether one was heard with both."""

    def __init__(self, a: int, rate2048: int, lbrm: int = 0) -> None:
        self.numbers = coding.plan(a, rate2048)
        self.ncb = clauses.buffer_length(self.numbers, lbrm or None)
        positions = COLUMNS[self.numbers["graph"]] * self.numbers["z"]
        self.first = [[NOTHING] * positions for _ in range(self.numbers["c"])]
        self.clash = [0] * self.numbers["c"]

    def selected(self, rv: int, count: int) -> list[int]:
        """The positions of the selected bits in turn (5.4.2.1)."""
        at = clauses.start(self.numbers, self.ncb, rv)
        found: list[int] = []
        while len(found) < count:
            position = at % self.ncb + 2 * self.numbers["z"]
            if not self.numbers["kdash"] <= position < self.numbers["k"]:
                found.append(position)
            at += 1
        return found

    def hear(self, tx: clib.Tx, heard: bytes) -> None:
        """A transmission, place by place."""
        scheduled = [r for r in range(self.numbers["c"]) if not tx.some or tx.blocks[r // 64] >> r % 64 & 1]
        at = 0
        for r, count in clauses.lengths(tx.g, tx.qm, tx.nl, scheduled).items():
            positions, each = self.selected(tx.rv, count), count // tx.qm
            for place in range(count):
                position = positions[place % tx.qm * each + place // tx.qm]
                bit, before = heard[at + place], self.first[r][position]
                if bit < NOTHING and before == NOTHING:
                    self.first[r][position] = bit
                elif bit < NOTHING:
                    self.clash[r] |= bit != before
            at += count

    def octets(self) -> bytes:
        return b"".join(bytes([clash, *first]) for clash, first in zip(self.clash, self.first))


def received(
    table: clib.Table, settings: typing.Any, a: int, txs: list[clib.Tx], heard: bytes
) -> tuple[int, list[int], bytes]:
    """What nr_receive writes of all transmissions so far: the last outcome, what is left, and the block."""
    rooms = clib.Room(len(txs), item=4), clib.Room(coding.plan(a, settings[0])["c"], item=4), clib.Room(a // 8)
    assert clib.call("nr_receive", table, settings, a, txs, heard, *rooms) == 0
    return rooms[0].numbers()[-1], rooms[1].numbers(), rooms[2].octets()


class Case:
    """A drawn table, settings, a size, and transmissions of a block with what is heard of each."""

    def __init__(self, seed: int) -> None:
        draw = random.Random(seed)
        self.text = draw.choice([PRACTICE, DRAWN, PRACTICE + DRAWN])
        a = 8 * draw.choice([1, 2, 9, 20, 37, 60, 300, 479])
        rate2048 = {PRACTICE: 512, DRAWN: 2048}.get(self.text, draw.choice([2048, 512]))
        if self.text == DRAWN:
            a = max(a, 8 * 480)
        self.settings = clib.settings(rate2048, draw.choice([0, 0, 0, a + 200]))
        self.a, self.table = a, clib.table(self.text)
        block, self.turns = bytes(draw.choices(range(256), k=a // 8)), []
        blocks = coding.plan(a, rate2048)["c"]
        for _ in range(draw.randrange(1, 6)):
            qm = draw.choice([1, 2, 4, 6, 8])
            mask = None if draw.random() < 0.8 else [draw.randrange(blocks)]
            tx = clib.tx(qm * max(blocks, (a + 24) * draw.randrange(5, 30) // 10 // qm), draw.randrange(4), qm, 1, mask)
            heard = bytearray(clib.made(tx.g, "nr_send", self.table, self.settings, block, tx))
            erased, turned = draw.choice([0, 0.2, 0.5, 0.8]), draw.choice([0, 0, 0, 3])
            for place in range(tx.g):
                if draw.random() < erased:
                    heard[place] = draw.choice([2, 3, 255])
            for place in draw.sample(range(tx.g), min(tx.g, turned)):
                heard[place] ^= heard[place] < 2
            self.turns.append((tx, bytes(heard)))


# Transmissions of octet 01 over the practice table, and the last outcome with what is left then: of each G, the places that
# are received, and the flipped ones of them. The first 24 bits leave 4 of 24 information bits, which the next four fix. A place
# that is heard with both bits contradicts once all are fixed.
FIRST = (24, range(24), ())
RECEPTIONS: list[tuple[list[tuple[int, typing.Sequence[int], typing.Sequence[int]]], int, int]] = [
    ([FIRST], 0, 4),
    ([FIRST, (28, (), ())], 0, 4),
    ([FIRST, (28, range(24, 28), ())], 1, 0),
    ([FIRST, (28, range(4), (0,))], 0, 4),
    ([FIRST, (28, range(28), (0,))], 2, 0),
    ([FIRST, (24, range(24), (23,)), (28, range(24, 28), ())], 2, 0),
]


class Receivers(unittest.TestCase):
    """Rooms, of new receivers and of those that have received."""

    def test_octet_01(self) -> None:
        """A call of all transmissions, for one block and for two rows of it, and a room that goes on from each to the next."""
        for receptions, outcome, left in RECEPTIONS:
            txs, row, kept = [clib.tx(g) for g, *_ in receptions], b"", Kept(TABLE, clib.settings(2048), 8)
            for tx, (g, heard, flipped) in zip(txs, receptions):
                sent = clib.made(g, "nr_send", TABLE, clib.settings(2048), b"\1", tx)
                places = bytes(bit ^ (m in flipped) if m in heard else 2 for m, bit in enumerate(sent))
                row, (status, written) = row + places, kept.take(tx, places)
            block = b"\1" if outcome == 1 else b"\xa5"
            self.assertEqual((status, written[0].numbers()[0]), (0, outcome))
            self.assertEqual((written[1].numbers(), written[2].octets()), ([left], block))
            self.assertEqual(received(TABLE, clib.settings(2048), 8, txs, row), (outcome, [left], block))
            rooms = clib.Room(2 * len(txs), item=4), clib.Room(2, item=4), clib.Room(2)
            given = TABLE, clib.settings(2048), 8, txs, ctypes.c_size_t(2), 2 * row
            self.assertEqual(clib.call("nr_receive_many", *given, *rooms), 0)
            self.assertEqual((rooms[0].numbers()[len(txs) - 1 :: len(txs)], rooms[1].numbers()), ([outcome] * 2, [left] * 2))

    def test_by_hand(self) -> None:
        """Octet 01 over the practice table: Zc is 4, so that a codeword has 52 * 4 positions, and K' is 24. The room of a new
        receiver has 2 at each position. G = 4 are positions 8 to 11; the second bit of a position is not kept."""
        kept = Kept(TABLE, clib.settings(2048), 8)
        begin = struct.pack("<8I", 2, 8, 2, 4, 24, 1, 200, digest(TABLE))
        self.assertEqual(kept.status, 0)
        self.assertEqual(kept.room.octets(), begin + b"\0" + b"\2" * 208)
        status, rooms = kept.take(clib.tx(4), bytes([1, 9, 0, 1]))
        self.assertEqual((status, rooms[0].numbers(), rooms[1].numbers()), (0, [0], [21]))
        self.assertTrue(rooms[2].is_unwritten())
        self.assertEqual(kept.room.octets(), begin + b"\0" + b"\2" * 8 + bytes([1, 2, 0, 1]) + b"\2" * 196)
        kept.take(clib.tx(4), bytes([0, 0, 2, 2]))
        self.assertEqual(kept.room.octets(), begin + b"\1" + b"\2" * 8 + bytes([1, 0, 0, 1]) + b"\2" * 196)

    def test_sizes(self) -> None:
        """One code block with Zc = 4, two of base graph 1 with Zc = 208, and 344 of base graph 2 with Zc = 384."""
        wanted = {(8, 2048): 32 + 209, (8448, 1024): 32 + 2 * (68 * 208 + 1), (1_310_616, 512): 32 + 344 * (52 * 384 + 1)}
        for (a, rate2048), octets in wanted.items():
            self.assertEqual(receiver_size(rate2048, a), octets)

    def test_random(self) -> None:
        """The room after each transmission, and what is written besides, against the model and nr_receive of all so
        far. A room that is copied goes on as the first would."""
        outcomes = set()
        for seed in range(SCHEDULES):
            with self.subTest(seed=seed):
                case = Case(seed)
                given = case.table, case.settings, case.a
                kept, record = Kept(*given), Record(case.a, case.settings[0], case.settings[1])
                heard, begin = b"", header(*given)
                txs: list[clib.Tx] = []
                for tx, places in case.turns:
                    copy = Kept(*given)
                    copy.put(kept.room.octets())
                    kept = copy
                    record.hear(tx, places)
                    txs, heard = [*txs, tx], heard + places
                    status, (outcome, left, block) = kept.take(tx, places)
                    self.assertEqual((status, kept.room.octets()), (0, begin + record.octets()))
                    self.assertEqual((outcome.numbers()[0], left.numbers(), block.octets()), received(*given, txs, heard))
                    outcomes.add(outcome.numbers()[0])
        self.assertEqual(outcomes, {0, 1, 2})


class Refusals(unittest.TestCase):
    """Every status by its cause. A call that is refused writes nothing."""

    def refused(
        self, status: int, kept: Kept, tx: clib.Tx | None = None, heard: bytes = bytes(24), **rooms: int
    ) -> None:
        before = kept.room.octets()
        found, written = kept.take(tx or clib.tx(24), heard, **rooms)
        self.assertEqual(found, status)
        self.assertEqual(kept.room.octets(), before)
        self.assertTrue(all(room.is_unwritten() for room in written))

    def of(self, table: clib.Table = TABLE, settings: typing.Any = None, a: int = 8) -> Kept:
        """A receiver of octets that stays as it was put."""
        return Kept(table, settings or clib.settings(2048), a)

    def test_blocks(self) -> None:
        for status, settings, a in [(40, (0, 0), 7), (40, (2048, 0), 1_310_728), (41, (0, 0), 8), (45, (512, 0), 7640)]:
            size, room = clib.counter(), clib.Room(0)
            self.assertEqual(clib.call("nr_receiver_size", settings[0], a, size), status)
            self.assertTrue(size.is_unwritten())
            self.assertEqual(clib.call("nr_receiver_start", TABLE, clib.settings(*settings), a, room), status)
        for status, settings, a in [(46, (2048, 0), 3832), (47, (512, 1), 8 * 479)]:
            room = clib.Room(receiver_size(settings[0], a))
            self.assertEqual(clib.call("nr_receiver_start", TABLE, clib.settings(*settings), a, room), status)
            self.assertTrue(room.is_unwritten())
            more = clib.Room(room.count + 1)
            self.assertEqual(clib.call("nr_receiver_start", TABLE, clib.settings(*settings), a, more), 2)
            self.assertTrue(more.is_unwritten())

    def test_rooms(self) -> None:
        kept = self.of()
        for left, block in [(0, 1), (2, 1), (1, 0), (1, 2)]:
            self.refused(2, kept, clib.tx(24, rv=4), b"", left=left, block=block)
        kept.room.count -= 1
        self.refused(2, kept)

    def test_states(self) -> None:
        """Each octet of the header, any octet that is none of 0, 1 and 2, and a clash that is neither 0 nor 1. Each is
        refused before what is wrong with a transmission."""
        kept = self.of()
        new = kept.room.octets()
        for place in [*range(HEADER + 1), HEADER + 1, len(new) // 2, len(new) - 1]:
            for octet in (new[place] ^ 1, 3, 255):
                if place > HEADER and octet < 3 or place == HEADER and octet < 2:
                    continue
                kept.put(new[:place] + bytes([octet]) + new[place + 1 :])
                self.refused(8, kept, clib.tx(24, rv=4), b"")
        kept.put(new)
        self.refused(50, kept, clib.tx(24, rv=4), b"")

    def test_of_others(self) -> None:
        """The room of another table, of another buffer, and of another size with as many positions (Zc is 20 for 96 bits and
        for 104)."""
        text = PRACTICE.replace(b"2,0,0,0", b"2,0,0,1", 1)
        self.assertNotEqual(text, PRACTICE)
        smaller = clib.settings(2048, 300)
        for other in [self.of(clib.table(text), a=104), self.of(settings=smaller, a=104), self.of(a=96)]:
            kept = self.of(a=104)
            self.assertEqual((other.status, other.room.count), (0, kept.room.count))
            kept.put(other.room.octets())
            self.refused(8, kept)

    def test_digests(self) -> None:
        """Two changes of a table's values do not cancel in the digest: 10,000 pairs of tables. Half are by 256 in sets 0 and 4.
        The first pair had one digest when higher bits were not brought down."""
        draw, table = random.Random(1), clib.table(PRACTICE + DRAWN)
        at = {tuple(row[:3]): place for place, row in enumerate(table.rows)}
        free = [place for place, row in enumerate(table.rows) if row[2] < 10]
        before, changes = self.of(table).room.octets()[28:HEADER], [(at[1, 12, 4], 4, 256), (at[1, 38, 9], 0, 256)]
        for _ in range(10_000):
            for place, number, bit in changes:
                table.rows[place][3 + number] ^= bit
                table.array[place].values[number] ^= bit
            kept = self.of(table)
            self.assertEqual(kept.status, 0)
            self.assertNotEqual(kept.room.octets()[28:HEADER], before, changes)
            before, high = kept.room.octets()[28:HEADER], draw.random() < 0.5
            changes = [
                (place, draw.choice([0, 4]), 256) if high else (place, draw.randrange(8), 1 << draw.randrange(16))
                for place in draw.sample(free, 2)
            ]
        self.assertEqual(before, struct.pack("<I", digest(table)))

    def test_any_content(self) -> None:
        """A room that no list of receptions comes to, with octets at the punctured columns and at the fillers, does no harm. What
        it had stays, and what is heard is added."""
        draw = random.Random(1)
        for _ in range(50):
            kept, record = self.of(a=24), Record(24, 2048)
            record.clash, record.first = [draw.randrange(2)], [draw.choices(range(3), k=kept.room.count - HEADER - 1)]
            begin, tx, heard = kept.room.octets()[:HEADER], clib.tx(24), bytes(draw.choices(range(3), k=24))
            kept.put(begin + record.octets())
            status, rooms = kept.take(tx, heard)
            record.hear(tx, heard)
            self.assertEqual((status, kept.room.octets()), (0, begin + record.octets()))
            self.assertIn(rooms[0].numbers()[0], (0, 1, 2))

    def test_transmissions(self) -> None:
        kept = self.of()
        kept.take(clib.tx(4), bytes(4))
        for status, tx in clib.WRONG:
            self.refused(status, kept, tx, b"")
        for count in (0, 23, 25):
            self.refused(56, kept, clib.tx(24), bytes(count))

    def test_not_heard(self) -> None:
        """The block of 24 zeros is delivered, and again after an erased transmission; a one then contradicts. What is refused
        between them is not received: for G = 2 three places and a single one, and redundancy version 4."""
        kept = self.of(a=24)
        for tx, heard, wanted in [
            (clib.tx(320), bytes(320), (0, 1)),
            (clib.tx(2), b"\1" * 3, 56),
            (clib.tx(2), b"\1", 56),
            (clib.tx(1, rv=4), b"\1", 50),
            (clib.tx(320), b"\2" * 320, (0, 1)),
            (clib.tx(1), b"\1", (0, 2)),
        ]:
            if isinstance(wanted, int):
                self.refused(wanted, kept, tx, heard)
                continue
            status, (outcome, left, block) = kept.take(tx, heard)
            self.assertEqual(((status, outcome.numbers()[0]), left.numbers()), (wanted, [0]))
            self.assertEqual(block.octets(), bytes(3) if wanted == (0, 1) else b"\xa5" * 3)

    def test_entries(self) -> None:
        rows = clib.rows_of(PRACTICE)
        for status, table in [(31, clib.Table([*rows, rows[-1]])), (29, clib.Table([])), (26, clib.Table(rows[:1]))]:
            kept = self.of()
            given, before = (table, clib.settings(0), 7, kept.room), kept.room.octets()
            rooms = clib.struct(), clib.Room(0, item=4), clib.Room(0)
            self.assertEqual(clib.call("nr_receiver_start", *given), status)
            self.assertEqual(clib.call("nr_receiver_take", *given, clib.tx(0, 4), b"", *rooms), status)
            self.assertEqual(kept.room.octets(), before)
