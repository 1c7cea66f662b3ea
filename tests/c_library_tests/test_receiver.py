"""The Python module's Receiver, which takes up one transmission at a call, against one call for all of them."""

from __future__ import annotations

import copy
import pickle
import random
import typing

import clib

RATE = {"rate2048": 2048}
BLOCK = b"123456789"


class Taking(clib.OfModule):
    def receiver(self, **more: typing.Any) -> typing.Any:
        """A receiver of a block of nine octets."""
        return self.nr.Receiver(self.table, 72, **RATE, **more)

    def heard(self, tx: typing.Any, draw: random.Random, lost: float, wrong: float, **more: typing.Any) -> bytes:
        """What is heard of a transmission, if so many places are lost, and so many bits wrong."""
        sent = self.nr.send(self.table, BLOCK, tx, **RATE, **more)
        return bytes(2 if draw.random() < lost else bit ^ (draw.random() < wrong) for bit in sent)

    def test_as_one_call(self) -> None:
        """After each transmission it answers what receive() answers of all so far, also with a short buffer and after a
        contradiction."""
        draw, seen = random.Random(67), set()
        for turn in range(60):
            more = {"lbrm": 100} if turn % 3 == 0 else {}
            receiver, receptions = self.receiver(**more), []
            for rv in (0, 2, 3, 1, 0):
                tx = self.nr.Tx(g=draw.choice([40, 120, 240]), rv=rv, qm=draw.choice([1, 2, 4]))
                receptions.append((tx, self.heard(tx, draw, 0.3, 0.02 if turn % 4 == 0 else 0, **more)))
                taken = receiver.take(*receptions[-1])
                wanted = self.nr.receive(self.table, 72, receptions, **RATE, **more)
                self.assertEqual(taken, (wanted.outcome, wanted.left, wanted.block))
                seen.add(taken.outcome)
        self.assertEqual(seen, set(self.nr.Outcome))

    def test_copies(self) -> None:
        """A copy, a pickle or the room goes on by itself, and the first one stays as it was."""
        tx, draw = self.nr.Tx(g=104, qm=2), random.Random(1)
        receiver, whole = self.receiver(), self.nr.send(self.table, BLOCK, self.nr.Tx(g=104, qm=2), **RATE)
        receiver.take(tx, self.heard(tx, draw, 0.5, 0))
        room = receiver.room
        self.assertEqual(len(room), 32 + 750 + 2 * 15 + 1)
        again = [copy.copy(receiver), copy.deepcopy(receiver)]
        again += [pickle.loads(pickle.dumps(receiver, protocol)) for protocol in range(2, pickle.HIGHEST_PROTOCOL + 1)]
        again += [self.receiver(room=given) for given in (room, bytearray(room), list(room))]
        for other in again:
            self.assertEqual(other.room, room)
            self.assertEqual(other.take(tx, whole).block, BLOCK)
            self.assertNotEqual(other.room, room)
        self.assertEqual(receiver.room, room)

    def test_refused(self) -> None:
        """With a fault it is as it was; a room of something else is refused."""
        tx, receiver = self.nr.Tx(g=104, qm=2), self.receiver()
        whole, room = self.nr.send(self.table, BLOCK, tx, **RATE), receiver.room
        other = self.nr.Receiver(self.table, 80, **RATE)
        cases: list[tuple[typing.Callable[[], typing.Any], str]] = [
            (lambda: receiver.take(tx, whole[1:]), "Length"),
            (lambda: receiver.take(tx._replace(rv=4), whole), "Rv"),
            (lambda: self.receiver(room=bytes(len(room))).take(tx, whole), "State"),
            (lambda: self.receiver(room=room, lbrm=50).take(tx, whole), "State"),
            (lambda: self.receiver(room=other.room[:32] + room[32:]).take(tx, whole), "State"),
            (lambda: self.receiver(room=room[1:]).take(tx, whole), "Room"),
            (lambda: self.nr.Receiver(self.table, 12, **RATE), "Size"),
            (lambda: self.nr.Receiver(self.table, 8000, **RATE), "Graph"),
        ]
        for call, name in cases:
            with self.subTest(name):
                self.assertEqual(clib.fault_of(call).name, name)
        with self.assertRaisesRegex(self.nr.Fault, "^Length: heard has the length 103, and not 104"):
            receiver.take(tx, whole[1:])
        self.assertEqual(receiver.room, room)
        self.assertEqual(receiver.take(tx, whole).outcome, self.nr.Outcome.DELIVERED)
