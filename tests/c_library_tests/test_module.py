"""The Python module nr: what it takes, what it gives back, how it refuses, and the examples of the documents."""

from __future__ import annotations

import array
import ctypes
import inspect
import re
import sys
import typing
import unittest

import clib
from model import encoder

PRACTICE = clib.PRACTICE.read_bytes()
RATE = {"rate2048": 2048}
BLOCK = b"123456789"
PAGES = ["README.md", "docs/c-library.md", "docs/curves.md", "docs/soft-receiver.md"]
SCRIPTS = re.compile(r"```python\n(.*?)```\n+```\n(.*?)```", re.DOTALL)


class Module(clib.OfModule):
    """The calls over buffers of several kinds."""

    def setUp(self) -> None:
        super().setUp()
        self.tx = self.nr.Tx(g=104, qm=2)
        self.bits = self.nr.send(self.table, BLOCK, self.tx, **RATE)

    def delivered(self, heard: typing.Any) -> typing.Any:
        answer = self.nr.receive(self.table, 72, [(self.tx, heard)], **RATE)
        self.assertEqual((answer.outcome, answer.block), (self.nr.Outcome.DELIVERED, BLOCK))

    def test_answers(self) -> None:
        self.assertEqual(self.nr.check_table(PRACTICE), (0, 105))
        self.assertEqual(self.nr.plan(8, **RATE), (2, 24, 0, 1, 24, 6, 4, 0, 40, 200))
        self.assertEqual(self.nr.plan(8, **RATE).kdash, 24)
        self.assertEqual(self.nr.crc(BLOCK, self.nr.CRC16), 0x31C3)
        self.assertEqual(encoder.octets_of(list(self.nr.send(self.table, b"\1", self.nr.Tx(24, qm=4), **RATE))).hex(), "000a51")
        self.assertEqual(self.nr.receive(self.table, 72, [], **RATE), ([], [88], None))
        self.assertEqual(self.nr.receive(self.table, 72, [], **RATE).outcome, self.nr.Outcome.OPEN)
        self.assertEqual(self.nr.lengths(3832, self.nr.Tx(104, qm=4, nl=2), rate2048=512), [48, 56])
        self.assertEqual(self.nr.buffer(8, 3, **RATE), (200, 172))
        self.assertEqual(self.nr.buffer(8, 3, lbrm=100, **RATE).ncb, 150)
        coded = self.nr.codeword(self.table, encoder.with_crc([0] * 7 + [1], encoder.CRC_16), 8, **RATE)
        self.assertEqual((len(coded), list(coded[14:18])), (200, [0, 1, self.nr.FILLER, self.nr.FILLER]))
        matched = self.nr.match(coded, 24, graph=2, z=4, fillers=16, ncb=200, qm=4)
        self.assertEqual(encoder.octets_of(list(matched)).hex(), "000a51")

    def test_buffers(self) -> None:
        self.assertIsInstance(self.bits, bytearray)
        kinds: list[typing.Callable[[bytes], typing.Any]] = [
            bytes, bytearray, memoryview, list, tuple, lambda it: array.array("B", it), lambda it: array.array("b", it),
            lambda it: (ctypes.c_ubyte * len(it))(*it),
        ]
        for kind in kinds:
            self.delivered(kind(self.bits))
            self.assertEqual(self.nr.send(self.nr.Table(kind(PRACTICE)), kind(BLOCK), self.tx, **RATE), self.bits)
        self.delivered(memoryview(bytes(bit for pair in zip(self.bits, self.bits) for bit in pair))[::2])
        self.delivered(memoryview(bytes(self.bits)).cast("?"))
        self.tx = self.nr.Tx(g=300, qm=2)
        with self.assertWarns(UserWarning):
            self.delivered(array.array("b", [-1] * 30 + list(self.nr.send(self.table, BLOCK, self.tx, **RATE))[30:]))

    def test_table(self) -> None:
        """A table is read once; a text in place of one, and a text that is refused."""
        drawn = clib.DRAWN.read_bytes()
        for text, counts in [(PRACTICE, (0, 105)), (drawn, (316, 0)), (PRACTICE + drawn, (316, 105))]:
            table = self.nr.Table(text)
            self.assertEqual((table.one, table.two, len(table)), (*counts, sum(counts)))
            self.assertEqual(bytes(table._entries), clib.table(text).octets())
            self.assertEqual(repr(table), f"Table(one={counts[0]}, two={counts[1]})")
        self.assertRaises(TypeError, self.nr.send, PRACTICE, BLOCK, self.tx, **RATE)
        self.assertRaises(TypeError, self.nr.Table, "text")
        for text, said in [(b"", "Empty"), (PRACTICE + PRACTICE, "Twice 106"), (PRACTICE[:-1] + b"x\n", "Number 105")]:
            self.assertEqual(str(clib.fault_of(self.nr.Table, text)).partition(":")[0], said)

    def test_room(self) -> None:
        rooms: list[typing.Any] = [
            bytearray(104), array.array("B", bytes(104)), memoryview(bytearray(104)), (ctypes.c_ubyte * 104)()
        ]
        for room in rooms:
            self.assertIs(self.nr.send(self.table, BLOCK, self.tx, out=room, **RATE), room)
            self.assertEqual(bytes(room), self.bits)
        for room in [bytes(104), memoryview(bytes(104)), array.array("H", bytes(104)), memoryview(bytearray(208))[::2]]:
            self.assertRaises((TypeError, ValueError, BufferError), self.nr.send, self.table, BLOCK, self.tx, out=room, **RATE)

    def test_numpy(self) -> None:
        numpy = clib.numpy()
        bits = numpy.frombuffer(self.bits, numpy.uint8)
        for kind in [numpy.uint8, numpy.int8, numpy.bool_]:
            self.delivered(bits.astype(kind))
        self.delivered(bits.reshape(8, 13))
        self.assertRaises(TypeError, self.delivered, bits.astype(numpy.float32))
        room = numpy.zeros(104, numpy.uint8)
        self.assertIs(self.nr.send(self.table, BLOCK, self.tx, out=room, **RATE), room)
        self.assertEqual(room.tobytes(), self.bits)

    def test_faults(self) -> None:
        calls: list[tuple[typing.Callable[[], typing.Any], int, str]] = [
            (lambda: self.nr.plan(9, **RATE), 40, "Size"),
            (lambda: self.nr.crc(b"", 3), 4, "Poly"),
            (lambda: self.nr.send(self.table, BLOCK, self.nr.Tx(5_000_000), **RATE), 53, "Total"),
            (lambda: self.nr.send(self.table, BLOCK, self.nr.Tx(104, blocks=[]), **RATE), 55, "NoneScheduled"),
            (lambda: self.nr.send(self.table, BLOCK, self.tx, out=bytearray(103), **RATE), 2, "Room"),
            (lambda: self.nr.receive(self.table, 72, [(self.tx, self.bits[1:])], **RATE), 56, "Length"),
            (lambda: self.nr.crc(bytes(2_097_153)), 3, "Many"),
            (lambda: self.nr.cut(BLOCK, 1, **RATE), 7, "CodeBlock"),
            (lambda: self.nr.cut(bytes([9]) * 163_841, **RATE), 40, "Size"),
            (lambda: self.nr.encode(self.table, bytes(30), graph=2, z=3), 6, "Lifting"),
            (lambda: self.nr.encode(self.table, bytes(88), graph=1, z=4), 46, "Graph"),
            (lambda: self.nr.encode(self.table, bytes(40), graph=3, z=0xFFFFFFFF), 46, "Graph"),
            (lambda: self.nr.encode(self.table, bytes(39), graph=2, z=4), 56, "Length"),
            (lambda: self.nr.match(bytes(200), 24, graph=3, z=4, ncb=200, qm=1), 46, "Graph"),
            (lambda: self.nr.match(bytes(200), 24, graph=2, z=4, ncb=201, qm=1), 47, "NoBuffer"),
            (lambda: self.nr.match(bytes(200), 1 << 30, graph=2, z=4, ncb=200, qm=1), 3, "Many"),
            (lambda: self.nr.receive(self.table, 0xFFFFFFFF, [], **RATE), 40, "Size"),
            (lambda: self.nr.receive(self.table, 7640, [], rate2048=512), 45, "Uneven"),
            (lambda: self.nr.codeword(self.table, bytes(23), 8, **RATE), 56, "Length"),
            (lambda: self.nr.codeword(self.table, b"\2" * 24, 8, **RATE), 5, "Bit"),
            (lambda: self.nr.lengths(9, self.tx, **RATE), 40, "Size"),
            (lambda: self.nr.buffer(8, 4, **RATE), 50, "Rv"),
        ]
        for call, status, name in calls:
            fault = clib.fault_of(call)
            self.assertEqual((fault.status, fault.name), (status, name))
        fault = clib.fault_of(self.nr.check_table, PRACTICE + b"3,0,0" + b",0" * 8)
        self.assertEqual((fault.name, fault.place), ("Range", 106))

    def test_what_is_no_number_of_32_bits(self) -> None:
        for call in [
            lambda: self.nr.plan(1 << 32, **RATE),
            lambda: self.nr.plan(-8, **RATE),
            lambda: self.nr.send(self.table, BLOCK, self.nr.Tx(104, rv=-1), **RATE),
            lambda: self.nr.send(self.table, BLOCK, self.nr.Tx(104, blocks=[384]), **RATE),
            lambda: self.nr.send(self.table, [256], self.tx, **RATE),
        ]:
            self.assertRaises(ValueError, call)
        for call in [lambda: self.nr.plan(8.0, **RATE), lambda: self.nr.crc("text"), lambda: self.nr.plan(8),
                     lambda: self.nr.Tx(104.0), lambda: self.nr.send(self.table, BLOCK, (104, 0, 2, 1, None), **RATE),
                     lambda: self.nr.send(self.table, BLOCK, **RATE), lambda: self.nr.send(self.table, None, self.tx, **RATE)]:
            self.assertRaises(TypeError, call)

    def test_help(self) -> None:
        for name in self.nr.__all__:
            it = getattr(self.nr, name)
            if inspect.isfunction(it) or inspect.isclass(it):
                self.assertGreater(len(it.__doc__ or ""), 40, name)


NUMPY = re.compile(r"(?m)^import .*\bnumpy\b")


class Documents(unittest.TestCase):
    """The blocks ```python of the documents, as they stand there, from the repository's top."""

    def check(self, over_numpy: bool) -> None:
        found = [it for page in PAGES for it in SCRIPTS.findall((clib.ROOT / page).read_text())]
        chosen = [(script, said) for script, said in found if bool(NUMPY.search(script)) == over_numpy]
        self.assertTrue(chosen)
        for script, said in chosen:
            output = clib.done([sys.executable, "-c", script], clib.ROOT, clib.for_python())
            self.assertEqual(output.decode(), said)

    def test_pages(self) -> None:
        self.check(False)

    def test_pages_over_numpy(self) -> None:
        clib.numpy()
        self.check(True)
