"""What is made of the rates of a curve: the bound, figures of HARQ, rates near 1, and the results that are shipped."""

from __future__ import annotations

import collections
import dataclasses
import math
import pathlib
import typing
import unittest

import curve_files
import shared
from curve_files import numpy
from linksim_tools.common.program import Failed
from linksim_tools.curve import harq, making, pool, results, run, theory, trace
from linksim_tools.curve import setting as settings
from linksim_tools.curve import source as sources
from test_pool import BITS, WIDE, falling, lost


setUpModule = curve_files.needs_numpy


class Bound(unittest.TestCase):
    def test_by_hand(self) -> None:
        """With one bit too few half of all guesses are right. So a bit over one place is missed with p / 2. Two bits over two
        places are missed with 3/4 if both are erased, and with 1/2 if one is."""
        for p, heard, bits, wanted in (
            (0.01, {1: 8}, 8, 0.0393), (0.5, {1: 1}, 1, 0.25), (0.5, {2: 1}, 1, 0.125), (0.5, {1: 2}, 1, 0.125),
            (0.5, {1: 2}, 2, 0.25 * 0.75 + 0.5 * 0.5), (0.0, {1: 8}, 8, 0.0), (1.0, {1: 8}, 8, 255 / 256), (0.5, {1: 1}, 2, 0.625),
        ):
            self.assertAlmostEqual(theory.least_rate(p, heard, bits, numpy), wanted, delta=2e-5, msg=(p, heard, bits))


class NearOne(unittest.TestCase):
    """Where most rounds fail the estimate never falls, at points or between, and holds what is known there."""

    def test_estimates(self) -> None:
        shares, draw = falling(), numpy.random.default_rng(1)
        setting = settings.Setting(
            path=pathlib.Path("c.toml"), table=pathlib.Path("t.csv"), a=3840, rate2048=1365, lbrm=None, g=WIDE, qm=2, nl=1,
            rvs=(0,), seed=1, rounds=500, points=(0.3,), step=0.0, errors=1, chunks=1,
        )
        lines = []
        for p in (0.28, 0.285, 0.29, 0.295, 0.3, 0.305, 0.31, 0.315, 0.32, 0.325):
            failed = collections.Counter(lost(shares, draw, p, 500))
            count, counts = sum(failed.values()), results.counts_text([failed])
            lines.append(results.Line(p, 0, 500, 1, (count,), (count,), (count,), (counts,), "1a2b-3c4d-5e6f"))
        taken, last = pool.Pool(setting, making.Shape(BITS, (WIDE,)), lines, numpy), 0.0
        for p in numpy.arange(0.28, 0.3249, 0.00125):
            found = taken.at(round(float(p), 6), 1)
            self.assertGreaterEqual(found.estimate, last, p)
            self.assertTrue(found.low <= found.estimate <= found.high)
            last = found.estimate
        self.assertAlmostEqual(taken.at(0.325, 1).estimate, 1.0, delta=1e-5)


class NeverFalls(unittest.TestCase):
    """Where no round was, a rate is no greater than at greater p, and no less than at lesser ones."""

    def test_gap(self) -> None:
        """Two falls far apart, and nothing between: what is known at the second one's foot holds in the whole gap."""
        draw = numpy.random.default_rng(2)
        setting = settings.Setting(
            path=pathlib.Path("c.toml"), table=pathlib.Path("t.csv"), a=3840, rate2048=1365, lbrm=None, g=WIDE, qm=2, nl=1,
            rvs=(0, 2), seed=1, rounds=2000, points=(0.3,), step=0.0, errors=1, chunks=1,
        )
        first, second = falling(), falling_again()
        lines = []
        for p in (0.25, 0.27, 0.29, 0.31, 0.33, 0.58, 0.6, 0.62, 0.64, 0.655):
            some = draw.binomial(WIDE, p, 2000)
            both = some + draw.binomial(WIDE, p, 2000)
            open_once, open_twice = draw.random(2000) < first[some], draw.random(2000) < second[both]
            counts = [collections.Counter(map(int, ks)) for ks in (some[open_once], both[open_twice])]
            failed = int(open_once.sum()), int(open_twice.sum())
            texts = results.counts_text([counts[0]]) if p < 0.5 else "", results.counts_text([counts[1]])
            lines.append(results.Line(p, 0, 2000, 1, failed, failed, failed, texts, "1a2b-3c4d-5e6f"))
        taken = pool.Pool(setting, making.Shape(BITS, (WIDE,)), lines, numpy)
        for after in (1, 2):
            found = [taken.at(round(float(p), 6), after) for p in numpy.arange(0.25, 0.655, 0.0075)]
            for one, other in zip(found, found[1:]):
                self.assertLessEqual(one.estimate, other.estimate * (1 + 1e-9), (after, other.p))
                self.assertLess(one.high, 1.5 * other.high + 1e-9, (after, other.p))
        for p in (0.2, 0.33, 0.4, 0.5, 0.57):
            self.assertLess(taken.at(p, 2).high, 8 / 2000, p)
            self.assertTrue(p < 0.33 or taken.at(p, 1).low > 0.99, p)
        self.assertLess(harq.mean_transmissions(2, taken, 0.45, 0.025)[2] - 2, 1e-9)


    def test_points_by_themselves(self) -> None:
        """Two neighbours whose shares fall by chance, as over flips, become their mean by rounds."""
        counts = {0.1: (100, 1), 0.2: (1000, 40), 0.3: (3000, 60), 0.4: (1000, 90)}
        lines = [results.Line(p, 0, rounds, 1, (some,), (some,), (some,)) for p, (rounds, some) in counts.items()]
        rates = pool.Plain(lines, numpy)
        found = [rates.at(p, 1).estimate for p in counts]
        for estimate, wanted in zip(found, (0.01, 0.025, 0.025, 0.09)):
            self.assertAlmostEqual(estimate, wanted, delta=1e-12)
        for p in counts:
            self.assertTrue(rates.at(p, 1).low <= rates.at(p, 1).estimate <= rates.at(p, 1).high)


def falling_again() -> typing.Any:
    """The share after two transmissions."""
    shares = [0.5 * (1 + math.erf((k / 2 / WIDE - 0.64) / 0.0037 / math.sqrt(2))) for k in range(2 * WIDE + 1)]
    shares[2 * WIDE - BITS + 1 :] = [1.0] * BITS
    return numpy.array(shares)


class Harq(unittest.TestCase):
    """Figures by hand, from 1,000 rounds at each of three points with two code blocks and two transmissions."""

    def test_figures(self) -> None:
        setting = settings.Setting(
            path=pathlib.Path("c.toml"), table=pathlib.Path("t.csv"), a=800, rate2048=1024, lbrm=None, g=1000, qm=4, nl=1,
            rvs=(0, 2), seed=1, rounds=1000, points=(0.1,), step=0.0, errors=1, chunks=1, link="flip",
        )
        counts = {0.1: (50, 0), 0.2: (200, 5), 0.3: (1000, 100)}
        lines = [results.Line(p, 0, 1000, 2, some, (some[0], 2 * some[1]), some) for p, some in counts.items()]
        rates = pool.Plain(lines, numpy)
        found = {(name, after): ends for name, after, *ends in harq.figures(setting, rates, 0.2)}
        for key, wanted in (
            (("block_error_rate", 1), 0.2), (("code_block_error_rate", 1), 0.1), (("code_block_error_rate", 2), 0.005),
            (("residual_error", 2), 0.005), (("mean_transmissions", 2), 1.2), (("throughput", 2), 0.8 * 0.995 / 1.2),
            (("spectral_efficiency", 2), 4 * 0.8 * 0.995 / 1.2),
        ):
            estimate, low, high = found[key]
            self.assertAlmostEqual(estimate, wanted, delta=1e-12, msg=key)
            self.assertTrue(low < wanted < high, key)
        # Wilson's interval of 200 in 1,000, for each end 2.5 percent.
        self.assertAlmostEqual(found["mean_transmissions", 2][1], 1.1764, delta=1e-3)
        by_target = {(target, after): ps for target, after, *ps in harq.targets(setting, rates)}
        # Halfway between the logarithms of 0.05 and 0.2 is 0.1; the rate is surely below it at 0.1, and above at 0.2.
        estimate, low, high = by_target[0.1, 1]
        self.assertAlmostEqual(estimate, 0.15, delta=1e-5)
        self.assertAlmostEqual(low, 0.1, delta=1e-5)
        self.assertAlmostEqual(high, 0.2, delta=1e-5)
        self.assertEqual(by_target[1e-3, 1], [None, None, None])
        # Nothing failed at 0.1, and surely more at 0.2: where between them the rate is the target nothing tells.
        self.assertEqual((by_target[1e-3, 2][:2], rates.at(0.15, 2).estimate), ([None, None], 0))
        self.assertAlmostEqual(by_target[1e-3, 2][2], 0.2, delta=1e-5)

    def test_code_blocks_that_fail_together(self) -> None:
        """Over bursts ten code blocks may tell no more than one; and nothing is told beyond the points."""
        setting = settings.read_setting(shared.EXAMPLES / "curve.toml")
        line = results.Line(0.1, 0, 100, 10, (20,), (200,), (200,))
        for burst, are_same in ((None, False), ((0.1, 0.1), True)):
            curve = dataclasses.replace(setting, link="erase" if burst else "flip", burst=burst)
            rates = trace.Curve(curve, shared.program(), [], [line]).rates()
            self.assertEqual(rates.code_blocks_at(0.1, 1) == rates.at(0.1, 1), are_same)
            self.assertRaisesRegex(Failed, "no rate is known at 0.09: the points are from 0.1", rates.at, 0.09, 1)


class Shipped(shared.InFolder):
    """examples/curve.csv, which docs/pictures/draw-curve makes."""

    def test_what_was_foreseen(self) -> None:
        """After its first waves --estimate foresees how many chunks there will be, within a factor of 1.5."""
        setting, there = settings.read_setting(shared.EXAMPLES / "curve.toml"), results.merged([shared.EXAMPLES / "curve.csv"])
        made, rule, past = {(line.p, line.chunk): line for line in there}, run.Rule(setting), list(there[:0])
        tasks, foreseen = rule.wave(past)
        while foreseen is None:
            past += [made[task] for task in tasks]
            tasks, foreseen = rule.wave(past)
        self.assertTrue(1 / 1.5 < len(there) / (len(past) + len(foreseen)) < 1.5, (len(there), len(past), len(foreseen)))

    def test_source_and_chunks(self) -> None:
        """It is of this table and these keys, some of its chunks come out the same when they are made again, nothing more is
        wanted, and the picture is its own. Its source may be of another build of the library."""
        setting, path = settings.read_setting(shared.EXAMPLES / "curve.toml"), shared.EXAMPLES / "curve.csv"
        self.assertEqual(dataclasses.replace(settings.read_setting(path), path=setting.path), setting)
        lines, now = results.merged([path]), sources.source_of(setting, shared.PROGRAM)
        self.assertEqual({line.source[5:] for line in lines}, {now.text()[5:]}, "run docs/pictures/draw-curve")
        maker = making.Maker(setting, shared.PROGRAM, now)
        for line in lines[:: len(lines) // 4]:
            self.assertEqual(maker.line((line.p, line.chunk)), dataclasses.replace(line, source=now.text()))
        self.assertEqual(run.Rule(setting).next(lines)[0], [], "run docs/pictures/draw-curve")
        picture = (shared.ROOT / "docs" / "pictures" / "curve.svg").read_text()
        self.assertIn(lines[0].source, picture, "run docs/pictures/draw-curve")
