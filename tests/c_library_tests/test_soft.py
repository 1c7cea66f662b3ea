"""The parts of a soft receiver from Python, the packed forms, and examples/soft_receiver.py."""

from __future__ import annotations

import importlib.util
import itertools
import json
import random
import subprocess
import sys
import typing
import unittest
import unittest.mock

import clib

BOTH = clib.DRAWN.read_bytes() + clib.PRACTICE.read_bytes()
# A, the code rate in 2048ths, G, rv, Qm, NL, the code blocks that are sent, and TBS_LBRM.
LINKS: list[tuple[int, int, int, int, int, int, list[int] | None, int | None]] = [
    (8, 2048, 40, 0, 2, 1, None, None), (72, 1024, 301, 3, 1, 1, None, 300), (72, 682, 1800, 1, 6, 1, None, None),
    (1000, 1536, 1336, 2, 2, 1, None, None), (3848, 1536, 6000, 0, 4, 2, None, 2600), (7656, 512, 6000, 2, 4, 1, [0, 2], None),
    (16_896, 1896, 24_000, 1, 8, 3, [1], 17_000), (8, 512, 4000, 0, 8, 4, None, 60),
]


def soft_receiver() -> typing.Any:
    """The example as a module."""
    clib.module()
    spec = importlib.util.spec_from_file_location("soft_receiver", clib.ROOT / "examples" / "soft_receiver.py")
    assert spec and spec.loader
    module = importlib.util.module_from_spec(spec)
    with unittest.mock.patch.object(sys, "argv", ["soft_receiver.py"]), unittest.mock.patch.object(sys, "stdin", []):
        spec.loader.exec_module(module)
    return module


class Soft(clib.InFolder):
    """Over both base graphs."""

    def setUp(self) -> None:
        super().setUp()
        self.nr = clib.module()
        self.table = self.nr.Table(BOTH)

    def link(self, which: int, seed: int = 1) -> tuple[typing.Any, ...]:
        """A link's block, transmission, rate and limit."""
        a, rate, g, rv, qm, nl, blocks, lbrm = LINKS[which]
        tx = self.nr.Tx(g, rv=rv, qm=qm, nl=nl, blocks=blocks)
        return random.Random(seed).randbytes(a // 8) if hasattr(random.Random, "randbytes") else bytes(a // 8), tx, rate, lbrm

    def test_places(self) -> None:
        """Each place names the bit that is sent there."""
        for which in range(len(LINKS)):
            block, tx, rate, lbrm = self.link(which)
            a, plan = 8 * len(block), self.nr.plan(8 * len(block), rate2048=rate)
            words = b"".join(
                self.nr.codeword(self.table, self.nr.cut(block, r, rate2048=rate), a, rate2048=rate) for r in range(plan.c)
            )
            sent = self.nr.send(self.table, block, tx, rate2048=rate, lbrm=lbrm)
            for numpy_or_none in (None, lambda: None):
                from nr import _arrays

                with unittest.mock.patch.object(_arrays, "numpy_or_none", numpy_or_none or _arrays.numpy_or_none):
                    places = self.nr.places(a, tx, rate2048=rate, lbrm=lbrm)
                self.assertEqual(bytes(words[at] for at in places), sent)
                self.assertEqual(places.shape, (tx.g,))
        tx = self.nr.Tx
        for given, name in [((8, tx(25, qm=2)), "Ragged"), ((7, tx(24)), "Size"), ((8, tx(1 << 23)), "Total")]:
            self.assertEqual(clib.fault_of(self.nr.places, *given, rate=1).name, name)

    def test_join(self) -> None:
        """Joining undoes cutting, and a wrong bit fails its own CRC and the block's."""
        for which in range(len(LINKS)):
            block, _, rate, _ = self.link(which)
            a, plan = 8 * len(block), self.nr.plan(8 * len(block), rate2048=rate)
            rows = [self.nr.cut(block, r, rate2048=rate) for r in range(plan.c)]
            given = [rows, b"".join(rows), memoryview(b"".join(rows)).cast("B", shape=[plan.c, plan.kdash])]
            for bits in given:
                self.assertEqual(self.nr.join(bits, a, rate2048=rate), (block, True, [True] * plan.c))
            rows[-1][0] ^= 1
            found = self.nr.join(rows, a, rate2048=rate)
            self.assertEqual((found.block_passed, found.passed), (False, [True] * (plan.c - 1) + [False]))
            self.assertEqual(sum(one != other for one, other in zip(found.block, block)), 1)
        with self.assertRaisesRegex(self.nr.Error, "^Length: bits has the length 23, and not 24"):
            self.nr.join(bytes(23), 8, rate=1)
        self.assertEqual(clib.fault_of(self.nr.join, b"\2" * 24, 8, rate=1).name, "Bit")

    def test_packed(self) -> None:
        """The packed forms are the others, eight to an octet."""
        def packed(bits: typing.Iterable[int]) -> bytes:
            digits = "".join(map(str, bits))
            return bytes(int(digits[at : at + 8].ljust(8, "0"), 2) for at in range(0, len(digits), 8))

        draw = random.Random(3)
        for which in range(len(LINKS)):
            block, tx, rate, lbrm = self.link(which)
            words = {"rate2048": rate, "lbrm": lbrm}
            sent = self.nr.send(self.table, block, tx, **words)
            octets = self.nr.send_packed(self.table, block, tx, **words)
            self.assertEqual(octets, packed(sent))
            known = [int(draw.random() < 0.9) for _ in sent]
            heard = bytes(bit if it else self.nr.ERASED for bit, it in zip(sent, known))
            wanted = self.nr.receive(self.table, 8 * len(block), [(tx, heard)] * 2, **words)
            found = self.nr.receive_packed(self.table, 8 * len(block), [(tx, octets, packed(known))] * 2, **words)
            self.assertEqual(found, wanted)
        with self.assertRaisesRegex(self.nr.Error, "^Length: known of transmission 1 has the length 2, and not 3"):
            self.nr.receive_packed(self.table, 8, [(self.nr.Tx(24), bytes(3), bytes(2))], rate=1)

    def test_example(self) -> None:
        """Over erasures the example delivers what the proved receiver does, after each transmission."""
        clib.numpy()
        receiver = soft_receiver().Receiver(self.table)
        draw, outcomes = random.Random(5), set()
        for which, p in itertools.product(range(len(LINKS)), (0.0, 0.15, 0.3)):
            block, tx, rate, lbrm = self.link(which)
            a, heard = 8 * len(block), []
            scheduled = range(self.nr.plan(a, rate2048=rate).c) if tx.blocks is None else tx.blocks
            mask = "".join(str(int(r in scheduled)) for r in range(self.nr.plan(a, rate2048=rate).c))
            for turn, rv in enumerate((tx.rv, 2, 0)):
                one = tx._replace(rv=rv)
                bits = self.nr.send(self.table, block, one, rate2048=rate, lbrm=lbrm)
                heard.append((one, bytes(self.nr.ERASED if draw.random() < p else bit for bit in bits)))
                wanted = self.nr.receive(self.table, a, heard, rate2048=rate, lbrm=lbrm)
                found = receiver.receive({
                    "id": "one", "tx": turn, "process": which, "fresh": int(turn == 0), "a": a, "rate2048": rate, "lbrm": lbrm,
                    "rv": rv, "g": tx.g, "qm": tx.qm, "nl": tx.nl, "mask": mask, "llr": [(16, -16, 0)[it] for it in heard[-1][1]],
                })
                self.assertEqual(found["delivered"], wanted.block.hex() if wanted.block is not None else None)
                outcomes.add(found["delivered"] is None)
        self.assertEqual(outcomes, {False, True})

    def test_example_with_unknown_parity_bits(self) -> None:
        """As few values as fix the block leave parity bits unknown, whose check rows say nothing."""
        clib.numpy()
        signs = "0" * 40 + "---++-++" + "0" * 14 + "++-++--+--+-++--" + "0" * 9
        case: dict[str, typing.Any]
        case = {"id": "one", "tx": 0, "process": 0, "fresh": 1, "a": 8, "rate2048": 2048, "lbrm": 63, "rv": 1, "g": 87, "qm": 1,
                "nl": 1, "mask": "all", "llr": [{"+": 16, "-": -16, "0": 0}[it] for it in signs]}
        tx = self.nr.Tx(87, rv=1)
        heard = bytes({"+": 0, "-": 1, "0": 2}[it] for it in signs)
        wanted = self.nr.receive(self.table, 8, [(tx, heard)], rate=1, lbrm=63).block
        self.assertEqual((wanted.hex(), soft_receiver().Receiver(self.table).receive(case)["delivered"]), ("b8", "b8"))

    def test_example_as_a_command(self) -> None:
        """It answers a line a transmission, and forgets at a reset."""
        clib.numpy()
        case = {"id": "one", "tx": 0, "process": 0, "fresh": 1, "a": 8, "rate2048": 2048, "lbrm": None, "rv": 0, "g": 184, "qm": 1,
                "nl": 1, "mask": "all", "llr": [4 - 8 * it for it in self.nr.send(self.table, b"\1", self.nr.Tx(184), rate=1)]}
        again = {**case, "tx": 1, "fresh": 0, "llr": [0] * 184}
        lines: list[dict[str, typing.Any]] = [case, again, {"reset": True}, {**again, "fresh": 1}]
        path = self.file("table.csv", BOTH.decode())
        words = [sys.executable, str(clib.ROOT / "examples" / "soft_receiver.py"), str(path)]
        ended = subprocess.run(words, input="".join(json.dumps(it) + "\n" for it in lines), stdout=subprocess.PIPE, text=True,
                               env=clib.for_python(), timeout=clib.SECONDS, check=True)
        answers = [json.loads(line) for line in ended.stdout.splitlines()]
        found = [(it["tx"], it["delivered"], it["passed"]) for it in answers]
        self.assertEqual(found, [(0, "01", "1"), (1, "01", "1"), (1, None, "0")])
