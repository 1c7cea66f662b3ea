"""The Python module's whole rounds, its erasures that are drawn, and the stages of a code block after its code."""

from __future__ import annotations

import array
import ctypes
import hashlib
import typing
import unittest.mock

import clib

RATE = {"rate2048": 2048}
BLOCK = b"123456789"


def seed_of(*numbers: int) -> int:
    """The seed of a transmission, as docs/curves.md has it."""
    return int.from_bytes(hashlib.sha256(" ".join(map(str, numbers)).encode()).digest()[:8], "big")


class Stages(clib.OfModule):
    """What is sent of a code block, by its stages."""

    def test_as_sent(self) -> None:
        """Selected, interleaved and joined code block by code block, the bits are what send() sends. There is one code
        block, or there are three, also with a short buffer."""
        for octets, rate, lbrm in [(9, 2048, 0), (9, 2048, 100), (954, 512, 0), (954, 512, 9000)]:
            block, more = bytes(range(256)) * 5, {"rate2048": rate}
            block = block[:octets]
            plan = self.nr.plan(8 * octets, **more)
            for rv, qm in [(0, 1), (1, 2), (2, 4), (3, 6)]:
                tx = self.nr.Tx(g=qm * 211, rv=rv, qm=qm)
                sent = b""
                for r, e in enumerate(self.nr.lengths(8 * octets, tx, **more)):
                    d = self.nr.codeword(self.table, self.nr.cut(block, r, **more), 8 * octets, **more)
                    bits = self.nr.select(d, e, 8 * octets, rv=rv, lbrm=lbrm, **more)
                    sent += self.nr.interleave(bits, qm)
                self.assertEqual(sent, self.nr.send(self.table, block, tx, lbrm=lbrm, **more))
        self.assertEqual(plan.c, 3)

    def test_refused(self) -> None:
        nr = self.nr
        d = nr.codeword(self.table, nr.cut(BLOCK, **RATE), 72, **RATE)
        cases: list[tuple[typing.Callable[[], typing.Any], str]] = [
            (lambda: nr.select(d, 10, 72, rv=4, **RATE), "^Rv: "),
            (lambda: nr.select(d[1:], 10, 72, **RATE), "^Length: d has the length 749, and not 750"),
            (lambda: nr.select(bytes([3]) + d[1:], 10, 72, **RATE), "^Bit: "),
            (lambda: nr.select(d, 2**32 - 1, 72, **RATE), "^Many: "),
            (lambda: nr.interleave(bytes(9), 2), "^Ragged: "),
            (lambda: nr.interleave(bytes(9), 3), "^Order: "),
        ]
        for call, said in cases:
            with self.assertRaisesRegex(nr.Fault, said):
                call()

    def test_erased(self) -> None:
        """The first words of the generator from seed 42 on stream 54, by the PCG library's own demonstration."""
        words, heard = [0xA15C02B7, 0x7B47F409, 0xBA1D3330, 0x83D2F293], bytearray(4)
        self.assertIs(self.nr.erase(heard, seed=42, p=(words[3] + 1) / 2**32), heard)
        self.assertEqual(heard, bytes([0, 2, 0, 2]))
        self.assertEqual(self.nr.erase(bytearray(b"\1" * 50), seed=2**64 - 1, p=0), b"\1" * 50)
        for seed, p in [(-1, 0.5), (2**64, 0.5), (0, -0.1), (0, 1.1), (0, float("nan"))]:
            self.assertRaises(ValueError, self.nr.erase, heard, seed=seed, p=p)
        for wrong in (bytes(4), memoryview(bytearray(4)).cast("?"), (ctypes.c_bool * 4)()):
            self.assertRaises(TypeError, self.nr.erase, wrong, seed=0, p=0.5)
        self.assertRaisesRegex(TypeError, "seed is 1.0", self.nr.erase, heard, seed=1.0, p=0.5)

    def test_hard(self) -> None:
        """Hard decisions: positive is 0, and what is near 0 or no number was not heard."""
        nan, nr = float("nan"), self.nr
        self.assertEqual(nr.hard([3, -2, 0.5, -0.5, 0, nan], 0), bytes([0, 1, 0, 1, 2, 2]))
        self.assertRaises(TypeError, nr.hard, [3, -2])
        self.assertEqual(nr.hard([3, -2, 0.5, -0.5, -float("inf")], 1), bytes([0, 1, 2, 2, 1]))
        for threshold in (-1, nan):
            self.assertRaises(ValueError, nr.hard, [1.0], threshold)
        numpy = clib.numpy()
        values = numpy.array([[3, -2, 0.5], [-0.5, 0, nan]])
        self.assertEqual((nr.hard(values, 0.5).tolist(), nr.hard(values, 0).dtype), ([[0, 1, 2], [2, 2, 2]], numpy.uint8))
        self.assertEqual(nr.hard(numpy.array([-128, 127, 0], numpy.int8), 100).tolist(), [1, 0, 2])

    def test_hard_of_what_is_not_soft(self) -> None:
        """Decisions and unsigned values would be received as a block of zeros, which is a codeword. A mask would be lost."""
        nr, bits = self.nr, self.nr.send(self.table, BLOCK, self.nr.Tx(300, qm=2), **RATE)
        for given in [[True, False], [0, 1, 1], (1.0, 0.0), bits, array.array("B", bits), array.array("b", bits), array.array("d", list(bits))]:
            with self.assertRaisesRegex((TypeError, ValueError), "decisions|unsigned"):
                nr.hard(given, 0)
        self.assertEqual(nr.hard([0.0, 0.0], 1), bytes([2, 2]))
        numpy = clib.numpy()
        sent = numpy.frombuffer(bits, numpy.uint8)
        soft = 40.0 - 80 * sent
        for given, said in [
            (sent, "decisions"), (sent.astype(bool), "decisions"), (sent.astype(int), "decisions"), (sent.astype(float), "decisions"),
            (soft.astype(numpy.uint8), "unsigned"), (numpy.ma.masked_where(sent > 0, soft), r"\.filled\(0\)"),
            (soft.astype(complex), "not real"),
        ]:
            with self.assertRaisesRegex((TypeError, ValueError), said):
                nr.hard(given, 1)
        heard = numpy.ma.masked_where(sent > 0, sent)
        with self.assertRaisesRegex(TypeError, r"\.filled\(nr\.ERASED\)"):
            nr.receive(self.table, 72, [(nr.Tx(300, qm=2), heard)], **RATE)
        with self.assertRaisesRegex(TypeError, r"\.filled\(nr\.ERASED\)"):
            nr.receive_many(self.table, 72, nr.Tx(300, qm=2), heard.reshape(1, -1), **RATE)

    def test_soft_values(self) -> None:
        """What is given as if it were soft gets a word, at the line that gave it."""
        tx, nr = self.nr.Tx(104, qm=2), self.nr
        soft = array.array("b", [-7] * 52 + [7] * 52)
        calls: list[typing.Callable[[typing.Any], typing.Any]] = [
            lambda it: nr.receive(self.table, 72, [(tx, it)], **RATE), lambda it: nr.Receiver(self.table, 72, **RATE).take(tx, it),
            lambda it: nr.receive_many(self.table, 72, tx, [it], **RATE),
            lambda it: nr.receive_many(self.table, 72, tx, [bytes(104)] * 50_000 + [it], **RATE),
        ]
        for call in calls:
            with self.assertWarnsRegex(UserWarning, r"nr\.hard") as warned:
                call(soft)
            self.assertEqual(warned.filename, __file__)
            with self.assertRaisesRegex(TypeError, r"soft values.*nr\.hard"):
                call(array.array("d", [1.0] * 104))


class Rounds(clib.OfModule):
    def by_hand(
        self, block: bytes, txs: typing.Any, chances: list[float], turn: int, **more: typing.Any
    ) -> tuple[int, list[list[int]], list[list[int]]]:
        """The same of one round, of a block that is sent, erased and received by the other calls."""
        after, left, erased, receptions = 0, [], [], []
        for at, (tx, p) in enumerate(zip(txs, chances)):
            threshold = min(2**32 - 1, round(p * 2**32))
            heard = self.nr.send(self.table, block, tx, **more)
            self.nr.erase(heard, seed=seed_of(5, threshold, 3, turn, at), p=p)
            receptions.append((tx, heard))
            found = self.nr.receive(self.table, 8 * len(block), receptions, **more)
            after = after or (at + 1 if found.outcome is self.nr.Outcome.DELIVERED else 0)
            shares, counts = self.nr.lengths(8 * len(block), tx, rate2048=more["rate2048"]), []
            for share in shares:
                counts.append(heard[:share].count(2))
                heard = heard[share:]
            late = after and after <= at
            left.append([0] * len(shares) if late else found.left)
            erased.append([0] * len(shares) if late else counts)
        return after, left, erased

    def test_as_calls_of_their_own(self) -> None:
        """Of one code block and of three, with a short buffer, with code blocks left out and with several probabilities."""
        nr = self.nr
        settings: list[tuple[int, dict[str, int], list[typing.Any], list[float]]] = [
            (9, RATE, [nr.Tx(g=200, rv=rv, qm=2) for rv in (0, 2, 3)], [0.35] * 3),
            (9, {**RATE, "lbrm": 120}, [nr.Tx(g=150, rv=rv) for rv in (0, 2, 3, 1)], [0.2, 0.3, 0.1, 0.5]),
            (954, {"rate2048": 512}, [nr.Tx(g=24000, qm=4), nr.Tx(g=9000, rv=2, blocks=[0, 2])], [0.08, 0.03]),
        ]
        for octets, more, txs, chances in settings:
            found = nr.simulate(self.table, 8 * octets, txs, p=chances, rounds=20, first=7, seed=5, chunk=3, **more)
            self.assertEqual(found.left.shape, (20, len(txs), found.left.shape[2]))
            self.assertGreater(len(set(found.after.tolist())), 1)
            for turn in range(20):
                wanted = self.by_hand(b"\x5a" * octets, txs, chances, 7 + turn, **more)
                self.assertEqual(wanted, (found.after[turn], found.left.tolist()[turn], found.erased.tolist()[turn]))

    def test_shares(self) -> None:
        """The answer is the same by any number of threads, and in parts."""
        txs = [self.nr.Tx(g=200, rv=rv, qm=2) for rv in (0, 2)]
        whole = self.nr.simulate(self.table, 72, txs, p=0.35, rounds=300, **RATE, jobs=1)
        for jobs in (None, 2, 7):
            found = self.nr.simulate(self.table, 72, txs, p=0.35, rounds=300, **RATE, jobs=jobs)
            self.assertEqual([it.tolist() for it in found], [it.tolist() for it in whole])
        parts = [self.nr.simulate(self.table, 72, txs, p=0.35, rounds=150, first=at, **RATE) for at in (0, 150)]
        self.assertEqual([it for part in parts for it in part.after.tolist()], whole.after.tolist())
        late = [sum(not 0 < it <= n for it in whole.after.tolist()) / 300 for n in (1, 2)]
        self.assertEqual((whole.rates, repr(whole)), (late, f"Simulated(rounds=300, rates={late})"))

    def test_in_steps(self) -> None:
        """The answer is the same whether all transmissions are made at once, or later ones only for the rounds that go on."""
        from nr import _simulate

        for a, g, p in ((72, 200, 0.3), (7632, 24000, 0.08)):
            txs, found = [self.nr.Tx(g=g, rv=rv, qm=4) for rv in (0, 2, 3)], []
            for few in (-1.0, 1.0):
                with unittest.mock.patch.object(_simulate, "FEW", few):
                    found.append(self.nr.simulate(self.table, a, txs, p=p, rounds=150, first=9, seed=2, rate2048=512))
            self.assertEqual(*([it.tolist() for it in one] for one in found))
            self.assertGreater(len(set(found[0].after.tolist())), 1)

    def test_edges(self) -> None:
        tx = self.nr.Tx(g=200, qm=2)
        none = self.nr.simulate(self.table, 72, [tx], p=0.5, rounds=0, **RATE)
        self.assertEqual([it.shape for it in none], [(0,), (0, 1, 1), (0, 1, 1)])
        self.assertTrue(none.rates[0] != none.rates[0])
        self.assertEqual(self.nr.simulate(self.table, 72, [], p=0.5, rounds=2, **RATE).after.tolist(), [0, 0])
        self.assertEqual(self.nr.simulate(self.table, 72, tx, p=0, rounds=2, **RATE).after.tolist(), [1, 1])
        cases: list[tuple[typing.Any, dict[str, typing.Any], type[Exception], str]] = [
            ([tx], {"p": [0.1, 0.2]}, ValueError, "p has 2 probabilities, and not 1"),
            ([tx], {"p": 1.5}, ValueError, "not a probability"),
            ([tx], {"p": 0.5, "rounds": -1}, ValueError, "rounds is -1"),
            ([tx], {"p": "0.5"}, TypeError, "p is .0\\.5."),
            ([tx], {"p": None}, TypeError, "p is None"),
            ([tx], {"p": 0.5, "seed": 0.5}, TypeError, "seed is 0.5, and not a whole number"),
            ([tx], {"p": 0.5, "chunk": "1"}, TypeError, "chunk is '1'"),
            ([tx], {"p": 0.5, "first": 1.0}, TypeError, "first is 1.0"),
            ([tx._replace(rv=4)], {"p": 0.5}, self.nr.Fault, "^Rv"),
            ([tx._replace(rv=4)], {"p": 0.5, "rounds": 0}, self.nr.Fault, "^Rv"),
        ]
        for txs, more, kind, said in cases:
            with self.assertRaisesRegex(kind, said):
                self.nr.simulate(self.table, 72, txs, **{"rounds": 1000, **RATE, **more})
        with self.assertRaisesRegex(self.nr.Fault, "^Graph"):
            self.nr.simulate(self.table, 8000, [self.nr.Tx(g=8000)], p=0.5, rounds=1, **RATE)

    def test_arrays(self) -> None:
        """numpy's, so that the share of rounds that fail is what everybody writes."""
        numpy = clib.numpy()
        tx = self.nr.Tx(g=200)
        found = self.nr.simulate(self.table, 72, tx, p=numpy.array(0.05), rounds=numpy.int64(50), seed=numpy.uint64(1), **RATE)
        same = self.nr.simulate(self.table, 72, tx, p=0.05, rounds=50, seed=1, **RATE)
        self.assertEqual((found.left.shape, found.left.dtype), ((50, 1, 1), numpy.uint32))
        self.assertTrue((same.left == found.left).all())
        self.assertTrue(0 < numpy.mean(found.after == 0) < 1)
        self.assertEqual(numpy.mean(found.after == 0), found.rates[0])
        self.assertTrue((numpy.asarray(found.after == 0) == (found.left[:, 0, 0] > 0)).all())
        self.assertEqual(self.nr.simulate(self.table, 72, tx, p=numpy.array([1.0]), rounds=3, **RATE).rates, [1.0])

    def test_threads(self) -> None:
        """While one thread simulates, another one of Python runs."""
        call, tx = self.nr.simulate, self.nr.Tx(g=4000)
        self.assertTrue(clib.others_run(lambda: call(self.table, 3000, tx, p=0.4, rounds=64, jobs=1, rate2048=1024)))
