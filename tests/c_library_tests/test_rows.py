"""Many blocks by one reading of the table, row by row against the calls for one; and the statuses in their order."""

from __future__ import annotations

import ctypes
import random
import typing
import unittest

import clib
from model import coding

PRACTICE = clib.PRACTICE.read_bytes()
TABLE = clib.table(PRACTICE)
BROKEN = clib.Table([*TABLE.rows, TABLE.rows[0]])
NONE = clib.Table([])
ONLY_ONE = clib.table(clib.DRAWN.read_bytes())
SETTINGS = clib.settings(2048)
COUNT, A = 3, 72
TXS = [clib.tx(120, 0, 2), clib.tx(90, 2, 2)]
WIDTH = 210
WRONG = clib.settings(0)


def call_of(count: int) -> typing.Any:
    """A count of rows as a call takes it."""
    return ctypes.c_size_t(count)


class Rows(unittest.TestCase):
    """`nr_send_many` and `nr_receive_many`."""

    def setUp(self) -> None:
        draw = random.Random(4)
        self.blocks = [draw.randbytes(A // 8) for _ in range(COUNT)]
        rows = [b"".join(coding.sent(PRACTICE, block, tx, 2048) for tx in TXS) for block in self.blocks]
        # (the first row is heard whole, and each one less than the one before it; the last one has a wrong bit too)
        self.rows = [bytes(2 if draw.random() < 0.3 * at else bit for bit in row) for at, row in enumerate(rows)]
        self.rows[-1] = bytes([1 - rows[-1][0]]) + self.rows[-1][1:]

    def sent(
        self, status: int, table: typing.Any = TABLE, settings: typing.Any = SETTINGS, a: int = A, blocks: bytes | None = None,
        txs: typing.Any = TXS, room: int = COUNT * WIDTH,
    ) -> bytes:
        out, given = clib.Room(room), b"".join(self.blocks) if blocks is None else blocks
        self.assertEqual(clib.call("nr_send_many", table, settings, a, list(txs), call_of(COUNT), given, out), status)
        self.assertEqual(out.is_unwritten(), status != 0 or not room)
        return out.octets()

    def test_sent(self) -> None:
        """Each row has the bits of all transmissions, one after the other; of none it is empty."""
        lists: list[list[clib.Tx]] = [TXS, TXS[:1], TXS[1:], TXS[::-1], []]
        for txs in lists:
            wanted = b"".join(coding.sent(PRACTICE, block, tx, 2048) for block in self.blocks for tx in txs)
            self.assertEqual(self.sent(0, txs=txs, room=len(wanted)), wanted)

    def test_not_sent(self) -> None:
        bad = [TXS[0], clib.tx(0, 4)]
        cases: list[tuple[int, dict[str, typing.Any]]] = [
            (31, {"table": BROKEN, "a": 7}), (29, {"table": NONE, "a": 7}), (3, {"a": 7, "txs": TXS * 501}),
            (40, {"settings": WRONG, "a": 7}), (40, {"settings": WRONG, "blocks": bytes(COUNT * 9 - 1)}),
            (41, {"settings": WRONG, "txs": bad}), (46, {"table": ONLY_ONE, "txs": bad}), (50, {"txs": bad, "room": 0}),
            (54, {"txs": [clib.tx(121, 0, 2), *bad], "room": 363}), (2, {"room": COUNT * WIDTH - 1}),
            (2, {"room": COUNT * WIDTH + 1}), (2, {"room": COUNT * 120}),
        ]
        for status, more in cases:
            with self.subTest(status=status, **{name: str(it) for name, it in more.items()}):
                self.sent(status, **more)

    def received(
        self, status: int, table: typing.Any = TABLE, settings: typing.Any = SETTINGS, a: int = A, heard: bytes | None = None,
        txs: typing.Any = TXS, rooms: tuple[int, int, int] = (2 * COUNT, COUNT, 9 * COUNT),
    ) -> tuple[list[int], list[int], bytes]:
        places = [clib.Room(rooms[0], item=4), clib.Room(rooms[1], item=4), clib.Room(rooms[2])]
        given = b"".join(self.rows) if heard is None else heard
        found = clib.call("nr_receive_many", table, settings, a, list(txs), call_of(COUNT), given, *places)
        self.assertEqual(found, status)
        if status:
            self.assertTrue(all(place.is_unwritten() for place in places))
        return places[0].numbers(), places[1].numbers(), places[2].octets()

    def test_received(self) -> None:
        """Each row says what nr_receive says of it alone, and no block stands where none is delivered."""
        outcomes, left, blocks = self.received(0)
        for at, row in enumerate(self.rows):
            rooms = clib.Room(2, item=4), clib.Room(1, item=4), clib.Room(9)
            self.assertEqual(clib.call("nr_receive", TABLE, SETTINGS, A, TXS, row, *rooms), 0)
            self.assertEqual(outcomes[2 * at : 2 * at + 2], rooms[0].numbers())
            self.assertEqual(left[at], rooms[1].numbers()[0])
            if outcomes[2 * at + 1] == 1:
                self.assertEqual(blocks[9 * at : 9 * at + 9], self.blocks[at])
        self.assertEqual(outcomes[:2], [1, 1])
        self.assertNotEqual(outcomes[-1], 1)

    def test_not_received(self) -> None:
        bad = [clib.tx(0, 4)]
        cases: list[tuple[int, dict[str, typing.Any]]] = [
            (31, {"table": BROKEN, "a": 7}), (29, {"table": NONE, "a": 7}), (3, {"a": 7, "txs": TXS * 501}),
            (40, {"settings": WRONG, "a": 7, "rooms": (0, 0, 0)}), (41, {"settings": WRONG, "rooms": (0, 0, 0)}),
            (2, {"heard": b"", "rooms": (2 * COUNT - 1, COUNT, 9 * COUNT)}),
            (2, {"heard": b"", "rooms": (2 * COUNT, COUNT + 1, 9 * COUNT)}),
            (2, {"heard": b"", "rooms": (2 * COUNT, COUNT, 9)}), (56, {"table": ONLY_ONE, "heard": bytes(COUNT * WIDTH - 1)}),
            (46, {"table": ONLY_ONE}), (50, {"txs": bad, "heard": b"", "rooms": (COUNT, COUNT, 9 * COUNT)}),
        ]
        for status, more in cases:
            with self.subTest(status=status, **{name: str(it)[:40] for name, it in more.items()}):
                self.received(status, **more)
