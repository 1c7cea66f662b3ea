"""nr.bler, against `tools/curve` over the program: the same chunks, and the same rates with the same intervals."""

from __future__ import annotations

import csv
import os
import pathlib
import shutil
import sys
import tempfile
import typing
import unittest
import unittest.mock

import clib

POINTS = [0.01, 0.1, 0.15]
CONF = """table = "practice.csv"
a = 1000
rate2048 = 683
g = 2000
qm = 2
nl = 1
rvs = [0, 2]
seed = 7
rounds = 100
points = [0.01, 0.1, 0.15]
step = 0
errors = 20
chunks = 4
"""


class Rates(unittest.TestCase):
    """What a notebook shows in one line, and what a cluster makes."""

    def setUp(self) -> None:
        clib.numpy()
        self.nr = clib.module()
        self.table, self.txs = self.nr.Table.practice(), [self.nr.Tx(g=2000, rv=rv, qm=2) for rv in (0, 2)]

    def bler(self, **more: typing.Any) -> typing.Any:
        words = {"p": POINTS, "errors": 20, "rounds": 100, "chunks": 4, "seed": 7, "rate2048": 683, **more}
        return self.nr.bler(self.table, 1000, self.txs, **words)

    def test_as_the_tool(self) -> None:
        folder = pathlib.Path(tempfile.mkdtemp(prefix="nr-bler-"))
        self.addCleanup(shutil.rmtree, folder)
        (folder / "curve.toml").write_text(CONF)
        shutil.copy(clib.PRACTICE, folder)
        curve = [sys.executable, clib.ROOT / "tools" / "curve"]
        clib.done([*curve, "run", folder / "curve.toml", "--program", clib.program(), "--jobs", "2"])
        said = clib.done([*curve, "pool", folder / "curve.toml", "--program", clib.program()]).decode()
        wanted = [[float("nan" if it == "-" else it) for it in line[:9]] for line in list(csv.reader(said.splitlines()))[1:]]
        for jobs in (1, 3):
            found = self.bler(jobs=jobs)
            rows = [[found.p[row], float(column + 1), *(float(f"{it[row, column]:.4g}") for it in found[1:6]),
                     float(f"{found.events[row, column]:.1f}"), float(f"{found.rounds_worth[row, column]:.4g}")]
                    for row in range(len(POINTS)) for column in range(2)]
            # (as text, in which what is not a number is the same)
            self.assertEqual(str(rows), str(wanted))
        self.assertGreater(len({str(row[2:]) for row in wanted}), 4)
        self.assertIn("95 % interval", repr(found))
        self.assertEqual(repr(found).count("\n"), len(wanted) + ("~" in repr(found)))

    def test_extrapolated_rates_are_marked(self) -> None:
        """Where no round can have shown a rate its text has ~, and says what was shown."""
        found = self.bler(p=[0.01, 0.1, 0.15], rounds=200, chunks=2)
        is_guess = found.rates * found.rounds_worth < 1
        self.assertTrue(is_guess.any() and not is_guess.all(), found)
        rows = [line for line in repr(found).splitlines()[1:] if not line.startswith("~")]
        self.assertEqual(["~" in line for line in rows], is_guess.ravel().tolist())
        self.assertIn("the upper end of the interval is what was shown", repr(found).splitlines()[-1])

    def test_progress(self) -> None:
        """Each chunk is told; points stop by their failures, and at the latest by their chunks."""
        told: list[tuple[int, int]] = []
        found = self.bler(progress=lambda *numbers: told.append(numbers), p=[0.15, 0.01])
        self.assertEqual([made for made, _ in told], list(range(1, len(told) + 1)))
        self.assertEqual(told[-1][0], told[-1][1])
        self.assertEqual(sum(found.rounds), 100 * len(told))
        self.assertEqual(found.p.tolist(), [0.15, 0.01])
        self.assertEqual(self.bler(p=0.6).rates.shape, (1, 2))
        same = self.bler(p=[0.1, 0.1 + 1e-13])
        self.assertAlmostEqual(same.rates[0, 1], same.rates[1, 1])

    def test_refused(self) -> None:
        nr = self.nr
        cases: list[tuple[dict[str, typing.Any], type[Exception], str]] = [
            ({"p": 1.5}, ValueError, "probability"), ({"p": []}, ValueError, "a point at least"), ({"errors": 0}, ValueError, "1 at least"),
            ({"rounds": 2.5}, TypeError, "rounds is 2.5"), ({"rate2048": 0}, nr.Fault, "RateRange"),
            ({"p": "0.2"}, TypeError, "p is '0.2'"), ({"jobs": 0}, ValueError, "jobs is 0"), ({"jobs": "2"}, TypeError, "jobs"),
        ]
        for more, kind, said in cases:
            with self.assertRaisesRegex(kind, said):
                self.bler(**more)
        for txs in ([], [self.txs[0], nr.Tx(g=2002, qm=2)], [nr.Tx(g=2000, blocks=[0])]):
            with self.assertRaisesRegex(ValueError, "differ in rv alone"):
                nr.bler(self.table, 1000, txs, p=0.5, rate2048=683)
        with unittest.mock.patch("linksim_tools.curve.bler.numpy_or_none", lambda: None):
            self.assertRaisesRegex(ImportError, "numpy", self.bler)

    def test_packed(self) -> None:
        """In a folder of its own, as the wheel has it, the module has all that it calls."""
        folder = pathlib.Path(tempfile.mkdtemp(prefix="nr-packed-"))
        self.addCleanup(shutil.rmtree, folder)
        clib.done([sys.executable, clib.C / "nr_build.py", folder])
        script = "import nr; print(nr.bler(nr.Table.practice(), 72, nr.Tx(200), p=0.3, rounds=50, chunks=1, rate=1).rates.shape)"
        environment = {**clib.for_python(), "PYTHONPATH": os.fspath(folder)}
        self.assertEqual(clib.done([sys.executable, "-c", script], folder, environment), b"(1, 1)\n")
