"""Tests of `tools/curve`: what theory says of a curve, and the picture that shows it."""

from __future__ import annotations

import math

import shared
from linksim_tools.curve import intervals, theory
from test_curve import Conf


class Theory(Conf):
    def test_density_evolution_of_codes_that_are_known(self) -> None:
        # Regular codes with j ones a column and k a row. The thresholds are those of Richardson and Urbanke, Modern
        # Coding Theory, and for (2, k) by hand: 1 / (k - 1).
        for j, k, known in [(3, 6, 0.42944), (4, 8, 0.38345), (3, 4, 0.64743), (2, 4, 1 / 3), (2, 3, 1 / 2)]:
            found = theory.evolution_threshold((tuple(range(k)),) * j, [{1: 1.0}] * k, k)
            self.assertAlmostEqual(found, known, delta=1e-3, msg=(j, k))

    def test_density_evolution_by_hand(self) -> None:
        # One parity check of two columns, the second never erased: all is found up to 1. Sent twice, the (2, 4) code's
        # threshold is that of the square. A column that is never sent and in one row is found if the rest is.
        rows = (tuple(range(4)),) * 2
        self.assertAlmostEqual(theory.evolution_threshold(((0, 1),), [{1: 1.0}, {None: 1.0}], 1), 1, delta=1e-3)
        self.assertAlmostEqual(theory.evolution_threshold(rows, [{2: 1.0}] * 4, 4), math.sqrt(1 / 3), delta=1e-3)
        more = (*rows, (0, 4))
        shares: list[dict[int | None, float]] = [{1: 1.0}, {1: 1.0}, {1: 1.0}, {1: 1.0}, {0: 1.0}]
        self.assertAlmostEqual(
            theory.evolution_threshold(more, shares, 5), 1 / 3, delta=1e-3
        )

    def test_places_are_those_of_the_clauses(self) -> None:
        code = theory.code_of(self.setting)
        # A 40, B 56: base graph 2, Kb 6, Zc 10, K' 56, K 100, N 500; k0 of rv 2 is 25 Zc.
        plan = [code.plan[name] for name in ("graph", "c", "l", "b", "kdash", "z", "k", "n")]
        self.assertEqual(plan, [2, 1, 0, 56, 56, 10, 100, 500])
        times = theory.times_sent(self.setting, code, 120, 2)
        # The fillers are positions 56 to 99, so places 36 to 79: rv 0 sends places 0 to 35 and 80 to 163.
        wanted = [*range(36), *range(80, 164), *range(250, 370)]
        self.assertEqual([place for place, count in enumerate(times) if count], wanted)
        self.assertEqual(theory.free_bits(code), 40)
        self.assertAlmostEqual(theory.erasure_limit(self.setting, 1), 2 / 3)

    def test_limits(self) -> None:
        lines = self.curve("limits", self.conf).splitlines()
        self.assertEqual(lines[0], "transmissions,erasure_limit,density_evolution")
        self.assertEqual([line.split(",")[:2] for line in lines[1:]], [["1", "0.6667"], ["2", "0.8333"]])
        lacking = self.file("one.toml", self.text.replace("a = 40", "a = 4000").replace("rate2048 = 512", "rate2048 = 2048"))
        self.assertIn("practice.csv: the table lacks base graph 1", self.refused("limits", lacking))

    def test_wilson_intervals_that_are_known(self) -> None:
        # Newcombe, Statistics in Medicine 17 (1998), Table I, method 3.
        cases = [(81, 263, 0.2553, 0.3662), (15, 148, 0.0624, 0.1605), (0, 20, 0.0, 0.1611), (1, 29, 0.0061, 0.1718)]
        for failed, rounds, low, high in cases:
            found = intervals.wilson(failed, rounds)
            self.assertAlmostEqual(found[0], low, delta=6e-5)
            self.assertAlmostEqual(found[1], high, delta=6e-5)
        self.assertEqual(intervals.wilson(20, 20)[1], 1.0)


class Picture(Conf):
    def test_the_picture_and_what_it_prints(self) -> None:
        shared.needs_matplotlib()
        self.file("c.csv", "0.2,0,40,1,40,3,40,3,900,9\n0.1,0,40,1,21,0,21,0,200,0\n0.05,0,40,1,0,0,0,0,0,0\n")
        # From a folder that the program isn't below: else its path is written as it is seen from there.
        said = self.curve("plot", self.conf, "--out", self.folder / "c.svg", folder=self.folder)
        drawn = (self.folder / "c.svg").read_text()
        self.assertRegex(drawn, r'<svg .*role="img".*>\n<title>A = 40 bits.*</title>\n<desc>Block error rates .*</desc>\n')
        # Its words are text, its lines are few, and who wants it dark gets other colours.
        for words in (">erasure probability<", ">after 2 transmissions<", "prefers-color-scheme:dark"):
            self.assertIn(words, drawn)
        # The grey line has the fingerprint of the table as tools/table has it.
        lines = shared.tool("table", "fingerprint", "--table", shared.EXAMPLES / "practice.csv")[1].splitlines()
        digest = next(line.split()[4] for line in lines if line.startswith("graph 2 set 2 "))
        traced = f"practice.csv (graph 2 set 2 {digest}), rate 512/2048, Qm 2, NL 1, G 120, 120 rounds, source unknown"
        self.assertIn(f">{traced}<", drawn)
        self.assertLess(drawn.count("\n"), 100)
        first = (self.folder / "c.svg").read_bytes()
        # The two measured points around one half, and no number between them.
        table = r"transmissions,erasure_limit,density_evolution,half_of_blocks_fail\n1,0\.6667,0\.\d{4},0\.05 to 0\.1\n"
        self.assertRegex(said, table + r"2,0\.8333,0\.\d{4},-\n")
        self.assertIn(f"tools/curve sets {self.conf} 0.1 0 --after 1\n", said)
        self.assertIn(f"{shared.program()} audit --table {shared.EXAMPLES / 'practice.csv'}", said)
        self.curve("plot", self.conf, "--out", self.folder / "c.svg")
        self.assertEqual(first, (self.folder / "c.svg").read_bytes())

    def test_results_of_another_curve(self) -> None:
        """Another table or another key is another curve; another program is not."""
        shared.needs_matplotlib()
        line, (program, table, keys) = "0.2,0,40,1,40,3,40,3,900,9", self.source().split("-")
        out = self.folder / "c.svg"
        for source, said in ((f"{program}-{table}-0000", "one of the keys a, "), (f"0000-0000-{keys}", "the table differs")):
            self.file("c.csv", f"{line},,,{source}\n")
            refused = self.refused("plot", self.conf, "--out", out)
            self.assertIn(f"tools/curve: {self.folder / 'c.csv'}: not the curve of {self.conf}: {said}", refused)
        self.file("c.csv", f"{line.replace(',40,1,', ',40,2,', 1)}\n")
        self.assertIn("the results are of 2 code blocks, and ", self.refused("plot", self.conf, "--out", out))
        self.file("c.csv", f"{line},,,0000-{table}-{keys}\n")
        self.assertFalse(out.exists())
        self.curve("plot", self.conf, "--out", out)
