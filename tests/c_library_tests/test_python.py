"""The Python module as people expect one: annotations, pickles, worker processes, sentences, rates and bits."""

from __future__ import annotations

import array
import ast
import copy
import ctypes
import decimal
import fractions
import functools
import os
import pickle
import shutil
import sys
import typing
import unittest
import warnings

import clib
from model import encoder

PRACTICE = clib.PRACTICE.read_bytes()
RATE = {"rate2048": 2048}
BLOCK = b"123456789"
BITS = encoder.bits_of(BLOCK)


# As users write it, over numpy's arrays and numbers.
TYPED = """
import typing
import numpy
import nr
table, array = nr.Table.practice(), numpy.zeros(9, numpy.uint8)
tx = nr.Tx(g=numpy.int64(300), qm=2, blocks=[0])
bits: bytearray = nr.send(table, array, tx, rate=numpy.float32(0.5))
taken: nr.Taken = nr.Receiver(table, numpy.int64(72), rate=0.5).take(tx, numpy.frombuffer(bits, numpy.uint8))
words: typing.List[int] = nr.beats(array, 32)
found = nr.simulate(table, 72, [tx], p=numpy.array([0.5]), rounds=numpy.int64(100), rate1024=682.5)
share: float = float(numpy.mean(found.after == 0))
sent = nr.send_many(table, numpy.zeros((4, 9), numpy.uint8), tx, rate=0.5)
sent[numpy.random.default_rng(1).random(sent.shape) < 0.05] = nr.ERASED
many = nr.receive_many(table, 72, tx, sent, rate=0.5)
delivered = many.blocks[many.outcomes[:, 0] == nr.Outcome.DELIVERED]
"""


class Typed(unittest.TestCase):
    """What a type checker finds."""

    def test_annotations(self) -> None:
        self.assertEqual((clib.C / "nr" / "py.typed").read_bytes(), b"")
        for path in sorted((clib.C / "nr").glob("*.py")):
            for it in ast.walk(ast.parse(path.read_text())):
                if isinstance(it, (ast.FunctionDef, ast.Lambda)):
                    given = it.args
                    bare = [one.arg for one in [*given.posonlyargs, *given.args, *given.kwonlyargs] if one.annotation is None]
                    assert isinstance(it, ast.FunctionDef), path.name
                    self.assertLessEqual(set(bare), {"self", "cls"}, f"{path.name}: {it.name}")
                    self.assertIsNotNone(it.returns, f"{path.name}: {it.name}")

    def test_checked(self) -> None:
        """A program over the module, and one that gives it a wrong type."""
        checker = [sys.executable, "-m", "mypy"]
        if clib.ran([*checker, "--version"])[0]:
            self.skipTest("no mypy")
        wrong = ["nr.plan('8', rate2048=1)\n", "text: str = nr.send_many(nr.Table(b''), [b'1'], nr.Tx(g=4), rate=1)\n"]
        for program, status in [(TYPED, 0), *((TYPED + it, 1) for it in wrong)]:
            if "numpy" in program:
                clib.numpy()
            words = [*checker, "--strict", "--cache-dir=/dev/null", "-c", program]
            found, said = clib.ran(words, environment={**os.environ, "MYPYPATH": str(clib.C)})
            self.assertEqual(found, status, said)


class Pickled(clib.OfModule):
    """Copies, and worker processes."""

    def setUp(self) -> None:
        super().setUp()
        self.tx = self.nr.Tx(g=104, qm=2)

    def test_copies(self) -> None:
        answer = self.nr.receive(self.table, 72, [(self.tx, self.nr.send(self.table, BLOCK, self.tx, **RATE))], **RATE)
        rounds = [self.nr.simulate(self.table, 72, [self.tx] * 2, p=0.4, rounds=count, **RATE) for count in (0, 3)]
        for protocol in range(pickle.HIGHEST_PROTOCOL + 1):
            again = pickle.loads(pickle.dumps(self.table, protocol))
            self.assertEqual((again.one, again.two, bytes(again._entries)), (0, 105, bytes(self.table._entries)))
            plain = [self.nr.plan(8, **RATE), self.nr.buffer(8, 0, **RATE)]
            for it in [self.tx, self.tx._replace(blocks=[0, 2]), answer, *plain, self.table]:
                self.assertEqual(pickle.loads(pickle.dumps(it, protocol)), it)
            for some in rounds:
                same = pickle.loads(pickle.dumps(some, protocol))
                self.assertEqual([it.tolist() for it in same], [it.tolist() for it in some])
            for fault in [self.nr.Fault(40), self.nr.Fault(25, 106)]:
                again = pickle.loads(pickle.dumps(fault, protocol))
                self.assertEqual((type(again), again.args, vars(again)), (self.nr.Fault, fault.args, vars(fault)))
        ways: list[typing.Callable[[typing.Any], typing.Any]] = [copy.copy, copy.deepcopy]
        for made in ways:
            self.assertEqual(len(made(self.table)), 105)
            self.assertEqual(made(rounds[1]).left.shape, (3, 2, 1))
            self.assertEqual(made(self.nr.Fault(40)).status, 40)

    def test_table_from_a_bad_pickle(self) -> None:
        """Entries that are no table are refused by the calls."""
        again = copy.copy(self.table)
        again.__setstate__((0, 105, bytes(22 * 105)))
        self.assertEqual(clib.fault_of(self.nr.send, again, BLOCK, self.tx, **RATE).name, "Entries")
        for octets in [b"", bytes(22 * 105 - 1), bytes(22 * 106)]:
            self.assertRaises(ValueError, again.__setstate__, (0, 105, octets))

    def test_workers(self) -> None:
        ways = ["fork", "spawn"]
        words = [sys.executable, clib.HERE / "workers.py", clib.PRACTICE, *ways]
        self.assertEqual(clib.done(words, environment=clib.for_python()).decode().count("20 delivered"), len(ways))


class Faults(unittest.TestCase):
    """What a refusal says."""

    def test_sentences(self) -> None:
        nr = clib.module()
        from nr import _faults

        known = {status for status in range(1000) if nr.fault_name(status) != "unknown"}
        self.assertEqual(set(_faults.SENTENCES), known)
        self.assertEqual(str(nr.Error(41)), "RateRange: the code rate is not 1 to 2048 in 2048ths")
        self.assertEqual(nr.Error(41).sentence, "the code rate is not 1 to 2048 in 2048ths")
        self.assertTrue(nr.Fault is nr.Error and issubclass(nr.Error, ValueError))
        self.assertRegex(str(nr.Fault(25, 106)), "^Twice 106: record 106 ")
        self.assertRegex(str(nr.Fault(28, 2)), "^MissingRow 2: base graph 2 ")
        self.assertEqual(nr.Fault(99).name, "unknown")
        table, tx = nr.Table(PRACTICE), nr.Tx(g=104, qm=2)
        calls: list[tuple[typing.Callable[[], typing.Any], str]] = [
            (lambda: nr.receive(table, 72, [(tx, bytes(104)), (tx, bytes(103))], **RATE),
             "heard of transmission 2 has the length 103, and not 104"),
            (lambda: nr.codeword(table, bytes(87), 72, **RATE), "bits has the length 87, and not 88"),
            (lambda: nr.encode(table, bytes(20), graph=2, z=4), "bits has the length 20, and not 40"),
            (lambda: nr.match(bytes(40), 8, graph=2, z=4, ncb=200, qm=2), "d has the length 40, and not 200"),
        ]
        for call, said in calls:
            with self.assertRaisesRegex(nr.Fault, f"^Length: .*{said}") as raised:
                call()
            again = pickle.loads(pickle.dumps(raised.exception))
            self.assertEqual((again.status, again.sentence), (56, raised.exception.sentence))
        self.assertIn("nr.Error: Size: ", clib.ran(
            [sys.executable, "-c", "import nr; nr.plan(9, rate2048=1)"], environment=clib.for_python())[1].decode())


class Given(clib.OfModule):
    """Transmissions, rates and bits as they are given."""

    def setUp(self) -> None:
        super().setUp()
        self.tx = self.nr.Tx(g=104, qm=2)
        self.sent = self.nr.send(self.table, BLOCK, self.tx, **RATE)

    def test_iterators_are_read_once(self) -> None:
        for blocks in [iter([0]), (it for it in [0]), {0}, range(1), [0]]:
            tx = self.nr.Tx(104, qm=2, blocks=blocks)
            self.assertEqual((tx.blocks, hash(tx)), ((0,), hash(tx)))
            for _ in range(3):
                self.assertEqual(self.nr.send(self.table, BLOCK, tx, **RATE), self.sent)
            again = self.tx._replace(blocks=iter([0, 5]))
            self.assertEqual((again.blocks, again), ((0, 5), self.nr.Tx(104, qm=2, blocks=[0, 5])))
        self.assertRaises(TypeError, self.nr.Tx, 104, blocks=["0"])
        self.assertRaises(TypeError, self.nr.Tx, 104, 2)  # (in other languages the second argument is Qm)
        self.assertEqual(self.nr.Tx._make([104, 2, 4, 1, None]), self.nr.Tx(104, rv=2, qm=4))

    def test_rates(self) -> None:
        for rate1024, rate2048 in [(1024, 2048), (120, 240), (682.5, 1365), (948.0, 1896), (fractions.Fraction(1833, 2), 1833)]:
            self.assertEqual(self.nr.plan(3000, rate1024=rate1024), self.nr.plan(3000, rate2048=rate2048))
        self.assertEqual(self.nr.send(self.table, BLOCK, self.tx, rate1024=1024), self.sent)
        wrong: list[dict[str, typing.Any]] = [{}, {"rate1024": 1, "rate2048": 2}, {"rate1024": "1"}, {"rate2048": 2.0}]
        for rates in wrong:
            self.assertRaises(TypeError, self.nr.plan, 8, **rates)
            self.assertRaises(TypeError, self.nr.send, self.table, BLOCK, self.tx, **rates)
        for rate1024 in [0.25, float("nan"), float("inf"), -1]:
            self.assertRaises(ValueError, self.nr.plan, 8, rate1024=rate1024)
        self.assertRaises(self.nr.Fault, self.nr.plan, 8, rate1024=1024.5)

    def test_rate_as_a_fraction(self) -> None:
        """A rate is the number itself; in 1024ths a fraction is refused, since 0.5 would silently be another code."""
        for rate, rate2048 in [(0.5, 1024), (1, 2048), (fractions.Fraction(1, 3) * 3, 2048), (490 / 1024, 980), (1 / 2048, 1)]:
            self.assertEqual(self.nr.plan(3000, rate=rate), self.nr.plan(3000, rate2048=rate2048))
        self.assertEqual(self.nr.plan(8448, rate=0.5), (1, 8472, 24, 2, 4260, 22, 208, 6, 4576, 13728))
        self.assertEqual(self.nr.send(self.table, BLOCK, self.tx, rate=1), self.sent)
        sentences = [
            ({"rate1024": 0.5}, "512 in 1024ths"), ({"rate": 0}, "more than 0"),
            ({"rate": 512}, "rate1024="), ({"rate": float("nan")}, ""),
        ]
        for words, said in sentences:
            with self.assertRaisesRegex(ValueError, said):
                self.nr.plan(8448, **words)
        wrong: list[dict[str, typing.Any]] = [{"rate": 0.5, "rate1024": 512}, {"rate": "half"}]
        for words in wrong:
            self.assertRaises((TypeError, ValueError), self.nr.plan, 8448, **words)

    def test_every_rate(self) -> None:
        """A rate between two 2048ths takes the base graph that 6.2.2 and 7.2.2 give this rate: 2 up to 0.25, and up to 0.67 for at
        most 3824 bits. By hand: 0.67 is 1372.16 in 2048ths."""
        third, near = fractions.Fraction(1, 3), fractions.Fraction(1, 10**30)
        limit = fractions.Fraction(67, 100)
        for rate, graph, of_long in [
            (third, 2, 1), (1 / 3, 2, 1), (2 / 3, 2, 1), (0.67, 2, 1), (decimal.Decimal("0.67"), 2, 1), (limit, 2, 1), (limit + near, 1, 1),
            (0.25, 2, 2), (0.25 + 2**-54, 2, 1), (fractions.Fraction(1, 4) + near, 2, 1), (fractions.Fraction(1, 4) - near, 2, 2),
            (near, 2, 2), (1 - near, 1, 1), (0.3, 2, 1), (0.6701, 1, 1),
        ]:
            with self.subTest(rate):
                self.assertEqual([self.nr.plan(a, rate=rate).graph for a in (3824, 3840)], [graph, of_long])
                if isinstance(rate, fractions.Fraction) and rate > near:
                    self.assertEqual(self.nr.plan(3824, rate1024=1024 * rate).graph, graph)
        self.assertEqual(self.nr.plan(3824, rate1024=682.4).graph, 2)

    def test_no_limit(self) -> None:
        """lbrm=None is no limit, and so is the greatest number of a settings file; 0, which is none there, is taken with a warning."""
        plain = self.nr.buffer(72, 1, **RATE)
        for lbrm in (None, 2**32 - 1):
            self.assertEqual(self.nr.buffer(72, 1, lbrm=lbrm, **RATE), plain)
        self.assertIsNone(self.nr.Receiver(self.table, 72, **RATE).lbrm)
        self.assertWarnsRegex(DeprecationWarning, "lbrm=0", self.nr.buffer, 72, 1, lbrm=0, rate1024=1023)

    def test_near(self) -> None:
        """The sizes next to one that cannot be segmented are the first that nr_plan takes, and the message says so."""
        nr = self.nr
        self.assertEqual(nr.near(7640, rate2048=512), (7632, 7656))
        for a in (0, 3, 8, 72, 75, 7640, 100_000, 1_310_715, 1_310_720, 2_000_000):
            below, above = nr.near(a, rate=0.5)
            fits = [it for it in range(max(8, a // 8 * 8 - 3000), min(a + 3000, 1_310_720) + 1, 8) if self.is_planned(it)]
            self.assertEqual(below, max((it for it in fits if it <= a), default=below if a > 1_400_000 else None))
            self.assertEqual(above, min((it for it in fits if it >= a), default=None))
        said = r"nr\.near\(7640, rate2048=512\) is \(7632, 7656\)"
        self.assertRaisesRegex(nr.Error, said, nr.send, self.table, bytes(955), self.tx, rate=0.25)

    def is_planned(self, a: int) -> bool:
        try:
            return bool(self.nr.plan(a, rate=0.5))
        except self.nr.Error:
            return False

    def test_graph(self) -> None:
        """The message names the base graph that the table lacks."""
        said = "no entries for base graph 1, which"
        self.assertRaisesRegex(self.nr.Error, said, self.nr.send, self.table, bytes(500), self.tx, rate=1)

    def test_what_is_wrong(self) -> None:
        """An argument of a wrong kind is named."""
        nr = self.nr
        calls: list[tuple[typing.Callable[[], typing.Any], str]] = [
            (lambda: nr.plan(8448.0, rate=0.5), "a is 8448.0, and not a whole number"),
            (lambda: nr.plan(8448, rate="1/2"), "rate is '1/2', and not a number"),
            (lambda: nr.plan(8, rate1024=[1]), "rate1024 is"),
            (lambda: nr.send(self.table, BLOCK, self.tx, rate=[0.5]), r"rate is \[0\.5\], and not a number"),
            (lambda: nr.Tx(300, qm="QPSK"), "qm is 'QPSK'"),
            (lambda: nr.buffer(8, None, **RATE), "rv is None"),
            (lambda: nr.send(self.table, BLOCK, self.tx, rate=1, lbrm=0.5), "lbrm is 0.5"),
            (lambda: nr.encode(self.table, bytes(40), graph="1", z=4), "graph is '1'"),
            (lambda: nr.beats(b"", 8.5), "width is 8.5"),
            (lambda: nr.Tx(8, blocks=0), "blocks is 0, and not the indexes"),
            (lambda: nr.receive(self.table, 72, (self.tx, self.sent), **RATE), "receptions are pairs"),
            (lambda: nr.receive(self.table, 72, [self.tx, self.sent], **RATE), "receptions are pairs"),
            (lambda: nr.receive(self.table, 72, [(self.tx, [None] * 104)], **RATE), "item 0 of heard is None"),
            (lambda: nr.send(self.table, tx=self.tx, bits=[0.0] * 72, **RATE), "item 0 of bits is 0.0"),
            (lambda: nr.send(self.table, tx=self.tx, bits=array.array("d", [0.0] * 72), **RATE), "bits is not an array of whole"),
            (lambda: nr.send(self.table, BLOCK, self.tx, out=array.array("f", [0] * 104), **RATE), "can't be written"),
            (lambda: nr.send(self.table, "123456789", self.tx, **RATE), r"is a str: .*\.encode\(\)"),
            (lambda: nr.simulate(self.table, 72, self.tx, p="0.2", rounds=1, **RATE), "p is '0.2'"),
            (lambda: nr.simulate(self.table, 72, self.tx, p=0.2, rounds=1, jobs="2", **RATE), "jobs is '2'"),
        ]
        for call, said in calls:
            with self.assertRaisesRegex(TypeError, said):
                call()

    def test_in_a_notebook(self) -> None:
        """What a line shows is short, Tab offers what is meant for users, and help is no book."""
        nr, receiver = self.nr, self.nr.Receiver(self.table, 72, rate=0.5, lbrm=300)
        self.assertEqual((repr(receiver), receiver.rate, receiver.lbrm), ("Receiver(a=72, rate2048=1024, lbrm=300)", 0.5, 300))
        tx = nr.Tx(2000)
        big = nr.receive(self.table, 800, [(tx, nr.send(self.table, bytes(100), tx, rate=0.5))], rate=0.5)
        self.assertEqual(repr(big), "Received(outcomes=[DELIVERED], left=[0], block=<100 octets>)")
        self.assertEqual(repr(receiver.take(nr.Tx(4), bytes([2] * 4))), "Taken(outcome=OPEN, left=[88], block=None)")
        self.assertEqual((dir(nr), len({self.table, nr.Table.practice()})), (sorted([*nr.__all__, *nr.RESULTS]), 2))
        self.assertEqual(nr.Table.practice(), nr.Table(clib.DRAWN.read_bytes() + PRACTICE))
        for python in filter(shutil.which, ["python3", "python3.8", "python3.13"]):
            words = [python, "-c", "import nr, pydoc; print(pydoc.plain(pydoc.render_doc(nr)))"]
            status, said = clib.ran(words, environment=clib.for_python())
            self.assertTrue(status or b"Table.practice" in said and said.count(b"\n") < 350, said)

    def test_no_row_in_each_python(self) -> None:
        """Without numpy."""
        call = "import nr; t, x = nr.Table.practice(), nr.Tx(8); nr.receive_many(t, 8, x, nr.send_many(t, [], x, rate=1), rate=1)"
        for python in filter(shutil.which, ["python3", "python3.8", "python3.13"]):
            alone, whole = (clib.ran([python, "-S", "-c", it], environment=clib.for_python()) for it in ("import nr", call))
            self.assertTrue(alone[0] or whole == (0, b""), whole)

    def test_table_of_a_file(self) -> None:
        path = clib.PRACTICE
        self.assertEqual(bytes(self.nr.Table.open(path)._entries), bytes(self.table._entries))
        self.assertEqual(bytes(self.nr.Table.open(str(path))._entries), bytes(self.table._entries))
        with self.assertRaisesRegex(TypeError, "Table.open"):
            self.nr.Table("examples/practice.csv")
        with self.assertRaisesRegex(TypeError, "no Tx was given"):
            self.nr.send(self.table, BLOCK, rate=1)

    def test_bits(self) -> None:
        kinds: list[typing.Callable[[list[int]], typing.Any]] = [
            list, tuple, bytes, bytearray, *(functools.partial(array.array, code) for code in "bBhHiIqQ"),
            lambda it: (ctypes.c_int * len(it))(*it),
        ]
        for kind in kinds:
            self.assertEqual(self.nr.send(self.table, tx=self.tx, bits=kind(BITS), **RATE), self.sent)
        self.assertEqual(self.nr.send(self.table, None, self.tx, bits=memoryview(bytes(BITS)).cast("?"), **RATE), self.sent)
        for bits, name in [(BLOCK, "Bit"), ([2] * 8, "Bit"), (BITS[1:], "Size"), ([], "Size"), (array.array("b", [-1] * 8), "Bit")]:
            self.assertEqual(clib.fault_of(self.nr.send, self.table, tx=self.tx, bits=bits, **RATE).name, name)
        self.assertRaises(TypeError, self.nr.send, self.table, BLOCK, self.tx, bits=BITS, **RATE)
        self.assertRaises(TypeError, self.nr.send, self.table, tx=self.tx, bits=array.array("d", BITS), **RATE)
        self.assertRaises(TypeError, self.nr.send, self.table, tx=self.tx, bits="text", **RATE)

    def test_bits_as_octets(self) -> None:
        """Arrays of zeros and ones alone get a warning if octets are wanted, at the line that gave them."""
        tx, rate = self.nr.Tx(200), {"rate2048": 512}
        for given in [BITS, tuple(BITS), array.array("B", BITS), memoryview(bytes(BITS)), array.array("b", BITS)]:
            for call in [self.nr.crc, lambda it: self.nr.send(self.table, it, tx, **rate)]:
                with self.assertWarnsRegex(UserWarning, "bits=") as warned:
                    call(given)
                self.assertEqual(warned.filename, __file__)
        with warnings.catch_warnings():
            warnings.simplefilter("error")
            for given in [bytes(9), bytearray(9), [1], array.array("B", [1] * 8 + [2]), [0, 1] * 3]:
                self.nr.crc(given)
                self.nr.send(self.table, given, tx, **RATE)
            self.nr.send(self.table, tx=tx, bits=array.array("B", BITS), **RATE)


class Numpy(unittest.TestCase):
    """The same over numpy's arrays; skipped if it is not there."""

    def test_bits(self) -> None:
        numpy = clib.numpy()
        nr = clib.module()
        table, tx = nr.Table(PRACTICE), nr.Tx(g=104, qm=2)
        sent = nr.send(table, BLOCK, tx, **RATE)
        bits = numpy.unpackbits(numpy.frombuffer(BLOCK, numpy.uint8))
        for kind in [bits, *map(bits.astype, [bool, int, numpy.int8, ">i4"]), numpy.repeat(bits, 2)[::2]]:
            self.assertEqual(nr.send(table, tx=tx, bits=kind, **RATE), sent)
        self.assertEqual(nr.send(table, numpy.packbits(bits), tx, **RATE), sent)
        self.assertWarnsRegex(UserWarning, "packbits", nr.send, table, bits, nr.Tx(400), rate2048=512)
        self.assertEqual(nr.Tx(numpy.int64(104), blocks=numpy.arange(3)).blocks, (0, 1, 2))
        self.assertEqual(nr.send(table, BLOCK, tx, rate=numpy.array(1.0)), sent)
        self.assertRaisesRegex(TypeError, "rate is array", nr.send, table, BLOCK, tx, rate=numpy.array([0.5, 1.0]))
