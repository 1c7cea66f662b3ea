"""Every status by its cause. A call that is refused writes nothing, and of several causes the first one is told."""

from __future__ import annotations

import typing
import unittest

import clib
from model import coding

PRACTICE = clib.PRACTICE.read_bytes()
LINES = PRACTICE.splitlines(keepends=True)
ONE = b"2,0,0" + b",0" * 8 + b"\n"
SETTINGS = clib.settings(2048)
TABLE = clib.table(PRACTICE)
TX = clib.tx(24)


def without(row: bytes) -> typing.Any:
    """The practice table without the records of a row."""
    return b"".join(line for line in LINES if line.split(b",")[1] != row)


# The texts that are no shift tables: the status, the place of the fault, and the text.
TABLES = [
    (21, 2, ONE + b"1,2\n"),
    (22, 0, b"1,2\n"),
    (23, 1, b"x" + ONE[1:]),
    (23, 3, LINES[0] + LINES[1] + LINES[2].replace(b"2,", b"2x,", 1)),
    (24, 1, b"3" + ONE[1:]),
    (24, 2, ONE + b"2,42,0" + b",0" * 8 + b"\n"),
    (24, 1, b"2,0,0" + b",0" * 7 + b",65536\n"),
    (25, 2, ONE + ONE),
    (26, 2, ONE),
    (27, 2, PRACTICE + b"2,4,15" + b",0" * 8 + b"\n"),
    (28, 2, without(b"41")),
    (29, 0, b""),
    (29, 0, b"graph,row,column,0,1,2,3,4,5,6,7\n"),
    (30, 0, b"\n" * 4_194_305),
]

ROWS = clib.rows_of(PRACTICE)
ZEROS = [0] * 8

# The entries that are no shift table: the status, and the entries.
ENTRIES: list[tuple[int, list[list[int]]]] = [
    (31, [ROWS[1], ROWS[0], *ROWS[2:]]),
    (31, [ROWS[0], *ROWS]),
    (31, [*ROWS, ROWS[-1]]),
    (31, [*ROWS, [1, 0, 0, *ZEROS]]),
    (31, [[0, 0, 0, *ZEROS], *ROWS]),
    (31, [*ROWS, [3, 0, 0, *ZEROS]]),
    (31, [*ROWS, [2, 42, 0, *ZEROS]]),
    (31, [*ROWS[:-1], [2, 41, 52, *ZEROS]]),
    (31, [[1, 46, 0, *ZEROS], *ROWS]),
    (31, [[1, 45, 68, *ZEROS], *ROWS]),
    (31, [[2, 65535, 65535, *[65535] * 8]]),
    (29, []),
    (26, [[1, 45, 67, *ZEROS], *ROWS]),
    (26, [ROWS[0]]),
    (27, sorted([*ROWS, [2, 4, 15, *ZEROS]])),
    (28, [row for row in ROWS if row[1] != 41]),
]

# Two places that are in order have no parity columns; a range comes before an order, and each before what is after it.
PLACES = [
    (26, (2, 3, 5), (2, 3, 6)),
    (26, (2, 3, 5), (2, 4, 0)),
    (26, (1, 45, 67), (2, 0, 0)),
    (31, (2, 3, 5), (2, 3, 4)),
    (31, (2, 3, 5), (2, 2, 6)),
    (31, (1, 1, 0), (1, 0, 67)),
    (31, (2, 41, 51), (1, 45, 67)),
    (31, (2, 0, 52), (2, 1, 0)),
    (31, (1, 45, 67), (1, 45, 68)),
    (31, (1, 45, 67), (2, 0, 65535)),
    (31, (2, 3, 5), (2, 2, 52)),
]
ENTRIES += [(status, [[*first, *ZEROS], [*second, *ZEROS]]) for status, first, second in PLACES]
# The practice table cut off after so many entries, of the core and of the further rows.
ENTRIES += [(status, ROWS[:count]) for status, count in [(26, 28), (28, 29), (28, 103), (27, 104)]]



def beginning(text: bytes) -> tuple[int, int]:
    """The status of a beginning of the practice table, and the place of the fault: a last line without its eleven numbers, no
    record, too few for the core, and a last row that lacks its own column or an entry."""
    *lines, last = text.split(b"\n")
    fields, record = last.split(b","), len(lines) + 1
    if last and len(fields) < 11:
        return (21, record) if lines else (22, 0)
    if last and not fields[10]:
        return 23, record
    records = len(lines) + bool(last)
    if records in (0, 105):
        return (0, 0) if records else (29, 0)
    return (26 if records < 29 else 27 if records % 2 == 0 else 28), 2


# The blocks that a link is refused for: the status, the settings, and the number of bits.
BLOCKS = [
    (40, SETTINGS, 0),
    (40, clib.settings(0), 1_310_728),
    (41, clib.settings(0), 8),
    (41, clib.settings(2049), 9600),
    (45, clib.settings(512), 7640),
    (46, SETTINGS, 3832),
    (47, clib.settings(512, 1), 8 * 479),
]


def code_blocks(a: int, rate2048: int) -> typing.Any:
    """How many code blocks a transport block has; 1 if there is no plan."""
    numbers = coding.plan(a, rate2048) if a else None
    return numbers["c"] if numbers else 1


class Statuses(unittest.TestCase):
    """Of each call, with the rooms that it may write."""

    def refused(self, status: int, name: str, *given: typing.Any) -> None:
        rooms = [it for it in given if isinstance(it, clib.Room)]
        self.assertEqual(clib.call(name, *given), status)
        for room in rooms:
            self.assertTrue(room.is_unwritten())

    def refused_send(
        self, status: int, table: typing.Any = TABLE, settings: typing.Any = SETTINGS, block: bytes = b"\1",
        tx: typing.Any = TX, room: int = 24,
    ) -> None:
        self.refused(status, "nr_send", table, settings, block, tx, clib.Room(room))

    def refused_receive(
        self, status: int, table: typing.Any = TABLE, settings: typing.Any = SETTINGS, a: int = 8,
        txs: typing.Sequence[typing.Any] = (TX,), heard: bytes = bytes(24), rooms: typing.Any = None,
    ) -> None:
        """The rooms are those for the outcomes, for what is left of each code block, and for the transport block."""
        outcomes, left, room = rooms or (len(txs), code_blocks(a, settings[0]), a // 8)
        places = clib.Room(outcomes, item=4), clib.Room(left, item=4), clib.Room(room)
        self.refused(status, "nr_receive", table, settings, a, list(txs), heard, *places)

    def refused_cut(
        self, status: int, rate2048: int = 2048, block: bytes = b"\1", r: int = 0, room: int = 24
    ) -> None:
        self.refused(status, "nr_cut", rate2048, block, r, clib.Room(room))

    def refused_encode(
        self, status: int, table: typing.Any = TABLE, graph: int = 2, z: int = 4, bits: bytes = bytes(40), room: int = 200
    ) -> None:
        self.refused(status, "nr_encode", table, graph, z, bits, clib.Room(room))

    def refused_codeword(
        self, status: int, table: typing.Any = TABLE, rate2048: int = 2048, a: int = 8, bits: bytes = bytes(24),
        room: int = 200,
    ) -> None:
        self.refused(status, "nr_codeword", table, rate2048, a, bits, clib.Room(room))

    def test_tables(self) -> None:
        for status, place, text in TABLES:
            with self.subTest(status=status, text=text[:40]):
                report = clib.struct(4)
                self.assertEqual(clib.call("nr_table_check", text, report), status)
                self.assertEqual(report.numbers(), [0, 0, place, 0])
                for room in [0, 1, 105]:
                    self.refused(status, "nr_table_entries", text, clib.Room(room, item=22), clib.counter())

    def test_beginnings(self) -> None:
        """The practice table cut off before each of its octets."""
        for at in range(len(PRACTICE)):
            (status, place), report = beginning(PRACTICE[:at]), clib.struct(4)
            self.assertEqual(clib.call("nr_table_check", PRACTICE[:at], report), status, at)
            self.assertEqual(report.numbers(), [0, 0 if status else 105, place, 0], at)

    def test_entries(self) -> None:
        for status, rows in ENTRIES:
            with self.subTest(status=status, first=rows[:1], last=rows[-1:]):
                # The first cause of all.
                table = clib.Table(rows)
                self.refused_send(status, table, clib.settings(0), b"", clib.tx(0, 4), 1)
                self.refused_receive(status, table, clib.settings(0), 7, [clib.tx(0, 4)], b"", (0, 0, 0))
                self.refused_receive(status, table, txs=[TX] * 257)
                self.refused_codeword(status, table, 0, 0, b"\2", 1)
                self.refused_encode(status, table, 3, 0, b"\3", 1)

    def test_rooms_for_entries(self) -> None:
        for room in [0, 1, 104, 106, 1000]:
            entries, count = clib.Room(room, item=22), clib.counter()
            self.assertEqual(clib.call("nr_table_entries", PRACTICE, entries, count), 2)
            self.assertTrue(entries.is_unwritten())
            self.assertEqual(int.from_bytes(count.octets(), "little"), 105)

    def test_blocks(self) -> None:
        for status, settings, a in BLOCKS:
            with self.subTest(status=status, a=a):
                rate2048 = settings[0]
                if status < 46:
                    self.refused(status, "nr_plan", rate2048, a, clib.struct(12))
                    self.refused(status, "nr_lengths", rate2048, a, clib.tx(0, 4), clib.Room(0, item=4))
                    self.refused_cut(status, rate2048, bytes(a // 8), 1000, 0)
                if status < 47:
                    self.refused_codeword(status, rate2048=rate2048, a=a, bits=b"\2", room=1)
                if status != 46:
                    self.refused(status, "nr_buffer", settings, a, 4, clib.struct(4))
                self.refused_send(status, settings=settings, block=bytes(a // 8), tx=clib.tx(0, 4), room=1)
                self.refused_receive(status, settings=settings, a=a, txs=[clib.tx(0, 4)], heard=b"")
                wrong = code_blocks(a, rate2048) + 1
                self.refused_receive(status if status < 46 else 2, settings=settings, a=a, heard=b"", rooms=(0, wrong, 0))
        for a in [1, 7, 9, 1_310_721, 0xFFFFFFFF]:
            self.refused(40, "nr_plan", 0, a, clib.struct(12))
            self.refused_receive(40, settings=clib.settings(0), a=a)

    def test_transmissions(self) -> None:
        for status, tx in clib.WRONG:
            with self.subTest(status=status, g=tx.g):
                self.refused_send(status, tx=tx, room=tx.g + 1 if tx.g < 100 else 1)
                self.refused(status, "nr_lengths", 2048, 8, tx, clib.Room(2, item=4))
                self.refused_receive(status, txs=[tx], heard=bytes(tx.g))
                self.refused_receive(status, txs=[TX, tx], heard=bytes(24 + tx.g))
                # Fewer places than G come before what else is wrong with a transmission.
                if tx.g:
                    self.refused_receive(56, txs=[tx], heard=bytes(tx.g - 1))
        self.refused(50, "nr_buffer", SETTINGS, 8, 4, clib.struct(4))
        self.refused_receive(56, txs=[], heard=b"\0")
        self.refused_receive(56, heard=bytes(25))
        self.refused_receive(56, txs=[TX, TX], heard=bytes(47))

    def test_rooms(self) -> None:
        for room in [0, 1, 23, 25, 1000]:
            self.refused_send(2, room=room)
        # All zeros are the code word of the block of zeros, and G = 32 are enough to fix it; G = 24 leave it open.
        for tx in [clib.tx(32), TX]:
            for rooms in [(1, 1, 0), (1, 1, 2), (1, 1, 100), (0, 1, 1), (2, 1, 1), (1, 0, 1), (1, 2, 1)]:
                self.refused_receive(2, txs=[tx], heard=bytes(tx.g), rooms=rooms)
        # They are judged before the first transmission is heard, and also if there is none.
        self.refused_receive(2, txs=[clib.tx(0, 4)], heard=b"", rooms=(1, 1, 0))
        self.refused_receive(2, txs=[], heard=b"", rooms=(0, 1, 0))
        for room in [0, 2, 344]:
            self.refused(2, "nr_lengths", 2048, 8, TX, clib.Room(room, item=4))

    def test_codewords(self) -> None:
        for room in [0, 199, 201]:
            self.refused_codeword(2, room=room)
        for place in [0, 23]:
            self.refused_codeword(5, bits=bytes(place) + b"\2" + bytes(23 - place), room=0)
            self.refused_codeword(5, bits=bytes(place) + b"\xff" + bytes(23 - place))
        for bits in [b"", bytes(23), b"\2" * 25]:
            self.refused_codeword(56, bits=bits, room=0)

    def test_cuts(self) -> None:
        for room in [0, 23, 25]:
            self.refused_cut(2, room=room)
        for r in [1, 344, 0xFFFFFFFF]:
            self.refused_cut(7, r=r, room=0)
        # Two code blocks of 1,952 bits.
        self.refused_cut(7, 512, bytes(479), 2, 0)
        self.refused_cut(2, 512, bytes(479), 1, 1951)
        self.refused_cut(40, 0, b"", 1, 0)
        self.refused_cut(40, 0, bytes(163_841), 344, 0)

    def test_encoding(self) -> None:
        for room in [0, 199, 201]:
            self.refused_encode(2, room=room)
        for place in [0, 39]:
            for wrong in [b"\3", b"\xff"]:
                self.refused_encode(5, bits=bytes(place) + wrong + bytes(39 - place), room=0)
        for bits in [b"", bytes(39), b"\3" * 41]:
            self.refused_encode(56, bits=bits, room=0)
        for z in [0, 1, 2, 3, 17, 31, 33, 383, 385, 388, 1 << 31, 0xFFFFFFFF]:
            self.refused_encode(6, z=z, bits=b"\3", room=0)
        for graph in [0, 1, 3, 258, 0xFFFFFFFF]:
            self.refused_encode(46, graph=graph, z=17, bits=b"\3", room=0)
        for z in [0, 1, 17, 22, 385]:
            known = {22: 56}.get(z, 6)
            self.refused_encode(known, clib.table(clib.DRAWN.read_bytes()), 1, z, b"\3", 0)

    def test_parities(self) -> None:
        for poly in [3, 4, 0xFFFFFFFF]:
            self.refused(4, "nr_crc", poly, bytes(2_097_153), clib.struct())
        self.refused(3, "nr_crc", 0, bytes(2_097_153), clib.struct())
        self.assertEqual(clib.call("nr_crc", 0, bytes(2_097_152), clib.struct()), 0)
