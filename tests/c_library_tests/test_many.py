"""Many blocks by one call of the Python module, against one call each: with numpy, if it is there, and without."""

from __future__ import annotations

import array
import ctypes
import mmap
import pickle
import random
import typing
import unittest
import unittest.mock

import clib

RATE = {"rate2048": 2048}
COUNT, OCTETS, G = 20, 30, 400


def rows(octets: typing.Any, count: int) -> typing.Any:
    """Octets as an array of so many rows."""
    return memoryview(octets).cast("B", shape=[count, len(octets) // count])


def plain(found: typing.Any) -> tuple[typing.Any, ...]:
    """What a call gave, as lists."""
    return tuple(it.tolist() for it in found)


class Many(clib.OfModule):
    """Blocks in an array, and what was heard of them; what is given back is numpy's if it is there."""

    def setUp(self) -> None:
        super().setUp()
        self.tx = self.nr.Tx(g=G, qm=2)
        draw = random.Random(8)
        self.blocks = [draw.randbytes(OCTETS) for _ in range(COUNT)]
        self.sent = b"".join(self.nr.send(self.table, block, self.tx, **RATE) for block in self.blocks)
        # (the first block is heard whole, and each one less than the one before it)
        self.heard = bytes(2 if draw.random() < at // G * 0.02 else bit for at, bit in enumerate(self.sent))

    def each(self, txs: typing.Any, heard: typing.Any, size: int) -> typing.Any:
        """What the call for one block answers of each row, as the call for many has it."""
        found = []
        for at in range(0, len(heard), size):
            places, receptions = heard[at : at + size], []
            for tx in txs:
                receptions.append((tx, places[: tx.g]))
                places = places[tx.g :]
            found.append(self.nr.receive(self.table, 8 * OCTETS, receptions, **RATE))
        after = [next((n for n, it in enumerate(one.outcomes, 1) if it == self.nr.Outcome.DELIVERED), 0) for one in found]
        blocks = [list(one.block or bytes(OCTETS)) for one in found]
        return [one.outcomes for one in found], [one.left for one in found], blocks, after

    def test_sent(self) -> None:
        joined = b"".join(self.blocks)
        for blocks in [self.blocks, tuple([*it] for it in self.blocks), rows(joined, COUNT), rows(bytearray(joined), COUNT),
                       rows(array.array("B", joined), COUNT), ((ctypes.c_ubyte * OCTETS) * COUNT).from_buffer_copy(joined)]:
            sent = self.nr.send_many(self.table, blocks, self.tx, **RATE)
            self.assertEqual((sent.shape, bytes(sent)), ((COUNT, G), self.sent))
        self.assertEqual(self.nr.send_many(self.table, [], self.tx, **RATE).shape, (0, G))
        # No row is judged as any other, where it is known how long it would be.
        none = ((ctypes.c_ubyte * OCTETS) * 0)()
        self.assertEqual(self.nr.send_many(self.table, none, self.tx, **RATE).shape, (0, G))
        for words, name in [({"tx": self.nr.Tx(G, rv=4)}, "Rv"), ({"rate2048": 0}, "RateRange"), ({"tx": self.nr.Tx(G + 1, qm=2)}, "Ragged")]:
            words = {"tx": self.tx, **RATE, **words}
            self.assertEqual(clib.fault_of(self.nr.send_many, self.table, none, **words).name, name)

    def test_sent_into_a_room(self) -> None:
        for room in [bytearray(COUNT * G), rows(bytearray(COUNT * G), COUNT), ((ctypes.c_ubyte * G) * COUNT)()]:
            self.assertIs(self.nr.send_many(self.table, self.blocks, self.tx, out=room, **RATE), room)
            self.assertEqual(bytes(room), self.sent)
        for room in [bytearray(COUNT * G - 1), bytearray(G), rows(bytearray(COUNT * G), G), bytearray()]:
            fault = clib.fault_of(self.nr.send_many, self.table, self.blocks, self.tx, out=room, **RATE)
            self.assertEqual((fault.name, any(bytes(room))), ("Room", False))
        for room in [bytes(COUNT * G), rows(bytes(COUNT * G), COUNT), memoryview(bytearray(2 * COUNT * G))[::2]]:
            self.assertRaises((TypeError, ValueError), self.nr.send_many, self.table, self.blocks, self.tx, out=room, **RATE)

    def test_a_room_that_shrinks(self) -> None:
        """A room cannot be resized during a call, here by what says the rate."""
        room = bytearray(COUNT * G)

        class Shrinking:
            def __float__(self) -> float:
                room.clear()
                return 1.0

        self.assertRaises(BufferError, self.nr.send_many, self.table, self.blocks, self.tx, out=room, rate=Shrinking())

    def test_a_room_over_the_blocks(self) -> None:
        size = COUNT * OCTETS
        memory = bytearray(size + COUNT * G)
        memory[:size] = b"".join(self.blocks)
        whole = memoryview(memory)
        blocks = whole[:size].cast("B", shape=[COUNT, OCTETS])
        for at in [0, 1, size - 1]:
            with self.assertRaisesRegex(ValueError, "overlaps"):
                self.nr.send_many(self.table, blocks, self.tx, out=whole[at : at + COUNT * G], **RATE)
        self.nr.send_many(self.table, blocks, self.tx, out=whole[size:], **RATE)
        self.assertEqual(memory[size:], self.sent)

    def test_bits(self) -> None:
        bits = bytes(octet >> place & 1 for block in self.blocks for octet in block for place in range(7, -1, -1))
        wide = array.array("q", list(bits))
        for given in [rows(bits, COUNT), [bits[8 * OCTETS * at :][: 8 * OCTETS] for at in range(COUNT)],
                      memoryview(wide).cast("B").cast("q", shape=[COUNT, 8 * OCTETS])]:
            self.assertEqual(bytes(self.nr.send_many(self.table, tx=self.tx, bits=given, **RATE)), self.sent)
        with self.assertWarnsRegex(UserWarning, "bits=") as warned:
            self.nr.send_many(self.table, rows(bytearray([0, 1] * 4), 1), self.tx, **RATE)
        self.assertEqual(warned.filename, __file__)
        fault = clib.fault_of(self.nr.send_many, self.table, tx=self.tx, bits=rows(bytes(7) + b"\2", 1), **RATE)
        self.assertEqual(fault.name, "Bit")

    def test_received(self) -> None:
        wanted = self.each([self.tx], self.heard, G)
        self.assertGreater(len({*map(tuple, wanted[0])}), 1)
        listed = [self.heard[at : at + G] for at in range(0, COUNT * G, G)]
        for heard in [rows(self.heard, COUNT), rows(bytearray(self.heard), COUNT), listed]:
            for txs in [self.tx, [self.tx], iter([self.tx])]:
                found = self.nr.receive_many(self.table, 8 * OCTETS, txs, heard, **RATE)
                self.assertEqual(plain(found), wanted)
        again = pickle.loads(pickle.dumps(found))
        self.assertEqual((type(again), plain(again)), (type(found), wanted))
        late = sum(not it for it in wanted[3])
        self.assertEqual((found.rates, repr(found)), ([late / COUNT], f"ReceivedMany(blocks={COUNT}, rates=[{late / COUNT}])"))

    def test_received_of_two(self) -> None:
        """Each row has the places of two transmissions."""
        txs = [self.nr.Tx(g=G - 100, qm=2), self.nr.Tx(g=100, rv=2)]
        joined = bytes(self.nr.send_many(self.table, self.blocks[: COUNT // 2], iter(txs), **RATE))
        wanted = [self.nr.send(self.table, block, tx, **RATE) for block in self.blocks[: COUNT // 2] for tx in txs]
        self.assertEqual(joined, b"".join(wanted))
        found = self.nr.receive_many(self.table, 8 * OCTETS, txs, rows(joined, COUNT // 2), **RATE)
        self.assertEqual(plain(found), self.each(txs, joined, G))
        self.assertEqual(bytes(found.blocks[0]), self.blocks[0])

    def test_received_of_several_arrays(self) -> None:
        """An array for each transmission says what one array of both says, and after how many each block is delivered."""
        txs = [self.nr.Tx(g=G, qm=2), self.nr.Tx(g=300, rv=2), self.nr.Tx(g=G, qm=4, rv=3)]
        draw, sent = random.Random(9), [bytes(self.nr.send_many(self.table, self.blocks, tx, **RATE)) for tx in txs]
        heard = [
            bytes(2 if draw.random() < at // tx.g * 0.04 else bit for at, bit in enumerate(bits)) for tx, bits in zip(txs, sent)
        ]
        parts = [[bits[tx.g * at :][: tx.g] for at in range(COUNT)] for tx, bits in zip(txs, heard)]
        joined = b"".join(part for row in zip(*parts) for part in row)
        wanted = self.each(txs, joined, G + 300 + G)
        self.assertEqual(set(wanted[3]), {0, 1, 2, 3})
        for given in [[rows(bits, COUNT) for bits in heard], tuple(rows(bytearray(bits), COUNT) for bits in heard), parts,
                      [[[*it] for it in part] for part in parts], rows(joined, COUNT)]:
            found = self.nr.receive_many(self.table, 8 * OCTETS, txs, given, **RATE)
            self.assertEqual(plain(found), wanted)
        self.assertEqual(found.rates, [sum(not 0 < it <= n for it in wanted[3]) / COUNT for n in (1, 2, 3)])
        one = self.nr.receive_many(self.table, 8 * OCTETS, txs[:1], [rows(heard[0], COUNT)], **RATE)
        self.assertEqual(plain(one), self.each(txs[:1], heard[0], G))
        for given in [parts[:2], [parts[0], parts[2], parts[1]], [parts[0], parts[1][:1], parts[2]]]:
            with self.assertRaises((self.nr.Fault, ValueError)):
                self.nr.receive_many(self.table, 8 * OCTETS, txs, given, **RATE)

    def test_received_of_three_dimensions(self) -> None:
        """Blocks, transmissions and places in one array; a fault says what is too long or too short."""
        txs = [self.nr.Tx(g=G, qm=2), self.nr.Tx(g=G, rv=2)]
        sent = [bytes(self.nr.send_many(self.table, self.blocks, tx, **RATE)) for tx in txs]
        heard = [bytes(2 if at % 3 else bit for at, bit in enumerate(bits)) for bits in sent]
        joined = b"".join(bits[G * at :][:G] for at in range(COUNT) for bits in heard)
        for memory in (joined, bytearray(joined)):
            given = memoryview(memory).cast("B", shape=[COUNT, 2, G])
            found = self.nr.receive_many(self.table, 8 * OCTETS, txs, given, **RATE)
            self.assertEqual(plain(found), self.each(txs, joined, 2 * G))
        flat, blocks = memoryview(joined), memoryview(joined).cast("B", shape=[COUNT, 2, G])
        for listed, given, said in [
            (txs, flat.cast("B", shape=[COUNT, 4, G // 2]), "the list of what was heard has the length 4, and not 2"),
            (txs, flat[: COUNT * 2 * (G - 1)].cast("B", shape=[COUNT, 2, G - 1]), f"transmission 1 has the length {G - 1}, and not {G}"),
            (txs[:1], blocks, "the list of what was heard has the length 2, and not 1"),
            (txs[:1], rows(joined, COUNT), f"a row of heard has the length {2 * G}, and not {G}"),
            (txs, [rows(heard[0], COUNT), rows(heard[1][: COUNT * 8], COUNT)], f"transmission 2 has the length 8, and not {G}"),
        ]:
            with self.assertRaisesRegex(self.nr.Fault, f"^Length: .*{said}"):
                self.nr.receive_many(self.table, 8 * OCTETS, listed, given, **RATE)
        self.assertRaises(TypeError, self.nr.send_many, self.table, blocks, self.tx, **RATE)

    def test_threads(self) -> None:
        """While one thread receives, another one of Python runs."""
        a, tx = 8 * 1600, self.nr.Tx(g=16000)
        bits = self.nr.send(self.table, bytes(a // 8), tx, rate2048=512)
        places = bytes(2 if at * 7919 % 100 < 40 else bit for at, bit in enumerate(bits))
        call = self.nr.receive_many
        self.assertTrue(clib.others_run(lambda: call(self.table, a, [tx] * 200, [places * 200], rate2048=512)))

    def test_edges(self) -> None:
        for txs, heard, shapes in [
            (self.tx, [], ((0, 1), (0, 1), (0, OCTETS), (0,))), ([], [b"", b""], ((2, 0), (2, 1), (2, OCTETS), (2,))),
            ([], [], ((0, 0), (0, 1), (0, OCTETS), (0,))),
        ]:
            found = self.nr.receive_many(self.table, 8 * OCTETS, txs, heard, **RATE)
            self.assertEqual(tuple(it.shape for it in found), shapes)
        wrong: list[tuple[typing.Callable[[], typing.Any], type[Exception]]] = [
            (lambda: self.nr.send_many(self.table, bytearray(OCTETS), self.tx, **RATE), TypeError),
            (lambda: self.nr.send_many(self.table, [b"1", b"12"], self.tx, **RATE), ValueError),
            (lambda: self.nr.send_many(self.table, tx=self.tx, **RATE), TypeError),
            (lambda: self.nr.send_many(self.table, self.blocks, **RATE), TypeError),
            (lambda: self.nr.send_many(self.table, tx=self.tx, bits=bytes(8), **RATE), TypeError),
            (lambda: self.nr.receive_many(self.table, 8, self.tx, bytes(G), **RATE), TypeError),
        ]
        for call, kind in wrong:
            self.assertRaises(kind, call)
        wide = memoryview(mmap.mmap(-1, 1 << 31)).cast("B", shape=[1, 1 << 31])
        calls: list[tuple[typing.Callable[[], typing.Any], str]] = [
            (lambda: self.nr.send_many(self.table, self.blocks, self.nr.Tx(5_000_000), **RATE), "Total"),
            (lambda: self.nr.send_many(self.table, [b""], self.tx, **RATE), "Size"),
            (lambda: self.nr.receive_many(self.table, 7, self.tx, [bytes(G)], **RATE), "Size"),
            (lambda: self.nr.receive_many(self.table, 7, [self.nr.Tx(1 << 22)] * 512, wide, **RATE), "Size"),
            (lambda: self.nr.receive_many(self.table, 8, self.tx, [bytes(G - 1)], **RATE), "Length"),
        ]
        for call, name in calls:
            self.assertEqual(clib.fault_of(call).name, name)

    def test_numpy(self) -> None:
        numpy = clib.numpy()
        blocks = numpy.frombuffer(b"".join(self.blocks), numpy.uint8).reshape(COUNT, OCTETS)
        bits = numpy.unpackbits(blocks, axis=1)
        for given in [blocks, blocks.copy(), numpy.repeat(blocks, 2, 0)[::2], numpy.asfortranarray(blocks)]:
            self.assertEqual(bytes(self.nr.send_many(self.table, given, self.tx, **RATE)), self.sent)
        for given in [bits, bits.astype(bool), bits.astype(int)]:
            self.assertEqual(bytes(self.nr.send_many(self.table, tx=self.tx, bits=given, **RATE)), self.sent)
        room = numpy.zeros((COUNT, G), numpy.uint8)
        self.assertIs(self.nr.send_many(self.table, blocks, self.tx, out=room, **RATE), room)
        self.assertEqual(room.tobytes(), self.sent)
        turned = numpy.asfortranarray(room)
        self.assertRaises((TypeError, ValueError), self.nr.send_many, self.table, blocks, self.tx, out=turned, **RATE)
        # As everybody writes it: arrays of their shape, whose items are compared one by one.
        heard = self.nr.send_many(self.table, blocks, self.tx, **RATE)
        heard[::2] = self.nr.ERASED
        for given in [[[*heard]], heard]:
            found = self.nr.receive_many(self.table, 8 * OCTETS, self.tx, given, **RATE)
            self.assertEqual((numpy.mean(found.after == 0), numpy.mean(found.outcomes != self.nr.Outcome.DELIVERED)), (0.5, 0.5))
        self.assertTrue((found.blocks[1::2] == blocks[1::2]).all())
        # As it was written for earlier versions.
        self.assertEqual(numpy.frombuffer(found.outcomes, numpy.uint32).tolist(), [0, 1] * (COUNT // 2))


class WithoutNumpy(Many):
    """The same if numpy cannot be imported: plain arrays, which say so where they would be compared as a whole."""

    def setUp(self) -> None:
        super().setUp()
        from nr import _arrays

        patch = unittest.mock.patch.object(_arrays, "numpy_or_none", lambda: None)
        patch.start()
        self.addCleanup(patch.stop)

    def test_numpy(self) -> None:
        """Of arrays that are none of numpy's."""
        found = self.nr.receive_many(self.table, 8 * OCTETS, self.tx, rows(self.heard, COUNT), **RATE)
        for call in (lambda: found.after == 0, lambda: found.outcomes != 1, lambda: found.left[0] < 3):
            self.assertRaisesRegex(TypeError, "compare its items, or install numpy", call)
        self.assertEqual((repr(found.left), len(found.left.tobytes())), (f"<array of {COUNT} x 1>", 4 * COUNT))
        sent = self.nr.send_many(self.table, self.blocks, self.tx, **RATE)
        self.assertEqual(self.nr.receive_many(self.table, 8 * OCTETS, self.tx, sent, **RATE).rates, [0.0])
