"""The pooled estimator of curves: against a code that is counted whole, with a floor that was not seen, and how often its
intervals hold."""

from __future__ import annotations

import collections
import itertools
import math
import pathlib
import random
import statistics
import typing
import unittest

import curve_files
import shared
from curve_files import numpy
from linksim_tools.curve import chunks, failures, intervals, isotonic, making, pool, results
from linksim_tools.curve import setting as settings
from test_curve import Conf

# K' = 24 of 28 places: with more than four of them erased nothing is delivered, so 24,158 sets of places say all.
PLACES, KDASH = 28, 24
RULE = {"rounds": 4000, "points": [0.002, 0.01, 0.05], "step": 0, "errors": 100, "chunks": 1}
SMALL = curve_files.text_of(
    curve_files.PRACTICE, curve_files.SHORT, {"a": 8, "g": PLACES, "rvs": [0], "seed": 5}, RULE
)


setUpModule = curve_files.needs_numpy


class Intervals(unittest.TestCase):
    def test_gamma_quantiles_that_are_known(self) -> None:
        """Half of chi-squared quantiles with 1, 2, 20 and 100 degrees of freedom (Abramowitz and Stegun, Table 26.8)."""
        for freedom, share, known in [
            (1, 0.975, 5.02389), (2, 0.975, 7.37776), (20, 0.025, 9.59083), (100, 0.975, 129.561), (100, 0.025, 74.2219)
        ]:
            self.assertAlmostEqual(2 * intervals.gamma_quantile(freedom / 2, share), known, delta=2e-5 * known)
        # On both sides of where the normal distribution takes over.
        for share in (0.025, 0.975):
            near, far = (intervals.gamma_quantile(intervals.LARGE + step, share) for step in (-0.5, 0.5))
            self.assertAlmostEqual(near / far, (intervals.LARGE - 0.5) / (intervals.LARGE + 0.5), delta=3e-5)

    def test_equal_weights_are_the_exact_poisson_interval(self) -> None:
        """Garwood's: 0 events 0 to 3.689, 10 events 4.795 to 18.390."""
        for events, low, high in [(0, 0.0, 3.689), (1, 0.0253, 5.572), (10, 4.795, 18.390)]:
            found = intervals.fay_feuer(events / 500, events / 500**2, 1 / 500)
            self.assertAlmostEqual(500 * found[0], low, delta=1e-3)
            self.assertAlmostEqual(500 * found[1], high, delta=1e-3)


class Small(Conf):
    """A code block of 28 places."""

    text = SMALL

    def open_sets(self) -> dict[int, set[tuple[int, ...]]]:
        """By K the sets of K erased places with which the block is open, by the program, one transmission a set."""
        found: dict[int, set[tuple[int, ...]]] = {}
        for k in range(PLACES - KDASH + 1):
            sets = list(itertools.combinations(range(PLACES), k))
            found[k] = set()
            for start in range(0, len(sets), chunks.MOST_TRANSMISSIONS):
                part = sets[start : start + chunks.MOST_TRANSMISSIONS]
                records = [f"1,0,{PLACES},2,1,{' '.join(map(str, places)) or '-'},-,all,0,1\n" for places in part]
                with chunks.lines_of(shared.program(), "run", self.setting, chunks.HEADER + "".join(records)) as lines:
                    left = [int(line.split()[4]) for line in lines if line.startswith(b"left ")]
                found[k] |= {places for places, count in zip(part, left) if count}
        return found

    def test_exact_pooled_and_revealed_agree(self) -> None:
        sets = self.open_sets()
        shares = [len(sets[k]) / math.comb(PLACES, k) if k in sets else 1.0 for k in range(PLACES + 1)]
        self.assertTrue(0 == shares[0] < shares[1] < shares[2] < shares[3] < 1 == shares[4], shares)
        # What is heard more never closes less.
        for k in range(PLACES - KDASH):
            more = {tuple(sorted({*few, place})) for few in sets[k] for place in range(PLACES) if place not in few}
            self.assertLessEqual(more, sets[k + 1])
        self.assert_revealed(sets, shares)
        self.assert_pooled(shares)

    def assert_revealed(self, sets: dict[int, set[tuple[int, ...]]], shares: list[float]) -> None:
        """Places revealed one by one in a drawn order: how many are hidden when the block is delivered."""
        draw, rounds = random.Random(4), 20_000
        hidden = [0] * (PLACES + 1)
        for _ in range(rounds):
            order = draw.sample(range(PLACES), PLACES)
            most = max(k for k in range(PLACES - KDASH + 1) if tuple(sorted(order[:k])) not in sets[k])
            hidden[most] += 1
        for k in range(PLACES - KDASH + 1):
            found = sum(hidden[:k]) / rounds
            spread = math.sqrt(shares[k] * (1 - shares[k]) / rounds)
            self.assertLessEqual(abs(found - shares[k]), 4 * spread + 1e-12, k)

    def assert_pooled(self, shares: list[float]) -> None:
        """The rates at points and between them, by the chunks of all points."""
        texts = [shared.made("curve", "point", self.conf, point, 0) for point in self.setting.points]
        lines = results.merged([self.file("c.csv", "".join(texts))])
        taken = pool.Pool(self.setting, making.shape_of(self.setting), lines, numpy)
        for p in (0.002, 0.003, 0.005, 0.01, 0.03, 0.05):
            terms = [math.comb(PLACES, k) * p**k * (1 - p) ** (PLACES - k) for k in range(PLACES + 1)]
            exact = sum(term * share for term, share in zip(terms, shares))
            found = taken.at(p, 1)
            self.assertTrue(found.low <= exact <= found.high, (p, exact, found))
            self.assertAlmostEqual(found.estimate / exact, 1, delta=0.25, msg=str(p))
            # Only with all points together the rate at one of them is known as well as this.
            self.assertLess(found.half_width(), 0.35, p)

    def test_what_is_told(self) -> None:
        """`curve pool` says the same, at any points; lines of an earlier version have no counts."""
        path = self.file("old.csv", "0.05,0,4000,1,100,100,900\n")
        self.assertIn("no counts by erased bits", shared.refused("curve", "pool", self.conf, path))
        self.file("c.csv", shared.made("curve", "point", self.conf, "0.05", "0"))
        head, first, second = shared.made("curve", "pool", self.conf, "--at", "0.05,0").splitlines()
        self.assertEqual(head, "p,transmissions,estimate,low,high,low_if,high_if,events,rounds,reached")
        self.assertEqual((first.split(",")[0], second.split(",")[0]), ("0.05", "0.0"))
        failed = int(results.merged([self.folder / "c.csv"])[0].failed[0])
        self.assertAlmostEqual(float(first.split(",")[2]), failed / 4000, delta=0.05 * failed / 4000)


# The share of sets of K erased places with which a code block of 5,760 places is open. As in a code of the drawn
# table's kind, it falls within a deviation of 0.0046 around 0.2885 N.
WIDE, BITS = 5760, 3864
POINTS = [(0.29, 500), (0.285, 1000), (0.28, 2000), (0.275, 5000), (0.27, 10_000), (0.265, 30_000)]


def falling(floor: float = 0.0) -> typing.Any:
    """That share by K, no lower than a floor."""
    shares = [0.5 * (1 + math.erf((k / WIDE - 0.2885) / 0.0046 / math.sqrt(2))) for k in range(WIDE + 1)]
    shares[WIDE - BITS + 1 :] = [1.0] * BITS
    return numpy.maximum(numpy.array(shares), floor)


def lost(shares: typing.Any, draw: typing.Any, p: float, rounds: int) -> list[int]:
    """How many places were erased in each drawn round that failed."""
    erased = draw.binomial(WIDE, p, rounds)
    return [int(k) for k in erased[draw.random(rounds) < shares[erased]]]


def drawn(shares: typing.Any, draw: typing.Any, points: list[tuple[float, int]]) -> failures.Failures:
    """The failures of so many drawn rounds at points."""
    failed: collections.Counter[int] = collections.Counter()
    seen = []
    for p, rounds in points:
        some = lost(shares, draw, p, rounds)
        failed.update(some)
        seen.append(isotonic.Seen(p, rounds, float(len(some))))
    return failures.Failures(WIDE, BITS, seen, failed, numpy)


class Coverage(unittest.TestCase):
    """Drawn from shares that are known."""

    def rate(self, shares: typing.Any, p: float) -> float:
        """The rate at a probability."""
        return float((numpy.exp(failures.binomial(WIDE, p, 0, WIDE, numpy)) * shares).sum())

    def test_both_intervals_hold(self) -> None:
        """Over 600 repeats both hold the rate in 95 percent if 36 failures of equal weight were seen, at points and
        between them. The estimate is hardly biased against its deviation."""
        shares, draw, repeats = falling(), numpy.random.default_rng(7), 600
        runs = [drawn(shares, draw, POINTS) for _ in range(repeats)]
        for p in (0.27, 0.265, 0.2625, 0.26):
            rate, found = self.rate(shares, p), [run.at(p) for run in runs]
            first = sum(one.first[0] <= rate <= one.first[1] for one in found)
            second = sum(one.second is not None and one.second[0] <= rate <= one.second[1] for one in found)
            events, estimates = statistics.median(one.events for one in found), [one.estimate for one in found]
            with self.subTest(p=p, events=events, first=first / repeats, second=second / repeats):
                self.assertGreaterEqual(events, 36)
                self.assertGreaterEqual(first, 0.95 * repeats)
                self.assertGreaterEqual(second, 0.95 * repeats)
                self.assertLess(abs(statistics.mean(estimates) - rate), 0.5 * statistics.stdev(estimates))

    def test_a_floor_that_was_not_seen(self) -> None:
        """With a floor of 2e-5 that no round met, the rate is within the first interval and outside the second."""
        floor, p = 2e-5, 0.255
        shares, draw = falling(floor), numpy.random.default_rng(3)
        made = [*POINTS, (p, 2000)]
        found = drawn(falling(), draw, made).at(p)
        rate = self.rate(shares, p)
        self.assertGreaterEqual(found.first[1], 3.68 / sum(rounds for _, rounds in made))
        self.assertTrue(found.first[0] <= rate <= found.first[1])
        assert found.second
        self.assertLess(found.second[1], rate)

    def test_never_below_what_so_many_rounds_can_say(self) -> None:
        """If nothing failed, the upper end is 3.689 / rounds at the point itself, hardly more at any p below it, and more above."""
        found = failures.Failures(WIDE, BITS, [isotonic.Seen(0.25, 1000, 0.0)], {}, numpy)
        at, near = found.at(0.25), found.at(0.253)
        self.assertEqual((at.estimate, at.first[0], at.second, at.events), (0.0, 0.0, None, 0.0))
        self.assertAlmostEqual(at.first[1], 3.6889 / 1000, delta=1e-6)
        self.assertGreater(near.first[1], at.first[1])
        self.assertLess(found.at(0.2).first[1], 1.2 * at.first[1])
        self.assertGreater(found.at(0.28).first[1], 0.9)
        # With more than N - K' erased all fail, and nobody has to see it.
        self.assertAlmostEqual(found.at(0.4).estimate, 1.0, delta=1e-9)


# K' = 3704 = 21 Zc + 8 with Zc = 176: of column 21 eight positions are no fillers.
LIFTING, SENT_ALONE = 176, 8
PLANTED = curve_files.text_of(
    "planted.csv", curve_files.LONG, {"a": 3688, "rate2048": 1800, "g": 4300, "qm": 1, "seed": 2}, RULE,
    {"rounds": 100, "points": [0.085, 0.1, 0.105, 0.11, 0.115]},
)


# Each of the rows whose parity bits are sent has two of the columns 18 to 21, in a ring, with the same shifts. So the
# four positions of a lane are a stopping set, and no three of them are one.
RING = {"0": (18, 19), "4": (18, 19), "1": (19, 20), "2": (20, 21), "3": (21, 18), "5": (21, 18)}


class Planted(shared.InFolder):
    """A table with a small stopping set, of which the block has eight."""

    def setUp(self) -> None:
        super().setUp()
        rows = [line.split(",") for line in (shared.EXAMPLES / "drawn.csv").read_text().splitlines()]
        kept = [fields for fields in rows if fields[2] not in ("18", "19", "20", "21")]
        for row, columns in RING.items():
            values = [str((97 * int(row) + 31 * place) % 170) for place in range(8)]
            kept += [["1", row, str(column), *values] for column in columns]
        self.file("planted.csv", "".join(",".join(fields) + "\n" for fields in kept))
        self.setting = settings.read_setting(self.file("c.toml", PLANTED))

    def open_without(self, places: str) -> int:
        """How many positions are open if places are erased."""
        record = f"1,0,{self.setting.g},1,1,{places},-,all,0,1\n"
        with chunks.lines_of(shared.program(), "run", self.setting, chunks.HEADER + record) as lines:
            return sum(int(line.split()[4]) for line in lines if line.startswith(b"left "))

    def test_a_floor_that_was_not_seen(self) -> None:
        """At 0.085 it is within the first interval and outside the second, if no round there met it."""
        for lane in (0, SENT_ALONE - 1):
            places = [(column - 2) * LIFTING + lane for column in (18, 19, 20, 21)]
            self.assertEqual(self.open_without(" ".join(map(str, places))), 4)
            for place in places:
                self.assertEqual(self.open_without(" ".join(str(it) for it in places if it != place)), 0)
        words = "0.085:0/0.1:0-2/0.105:0-2/0.11:0-2/0.115:0-2"
        lines = results.merged([self.file("c.csv", shared.made("curve", "point", self.folder / "c.toml", words))])
        self.assertEqual([line.failed for line in lines if line.p == 0.085], [(0,)])
        shape = making.shape_of(self.setting)
        self.assertEqual((shape.kdash, shape.lengths), (21 * LIFTING + SENT_ALONE, (4300,)))
        floor = 1 - (1 - 0.085**4) ** SENT_ALONE
        found = pool.Pool(self.setting, shape, lines, numpy).at(0.085, 1)
        assert found.high_if is not None
        self.assertTrue(found.low <= floor <= found.high, (floor, found))
        self.assertLess(found.high_if, floor)


class Blocks(unittest.TestCase):
    def test_code_blocks_of_two_lengths(self) -> None:
        """Three code blocks, one of them shorter: delivered with the product of their chances."""
        setting = settings.Setting(
            path=pathlib.Path("c.toml"), table=pathlib.Path("t.csv"), a=16, rate2048=512, lbrm=None, g=40, qm=2, nl=2,
            rvs=(0,), seed=1, rounds=1000, points=(0.1,), step=0.0, errors=1, chunks=1,
        )
        line = results.line_from("0.1,0,1000,3,52,54,90,2:10/3:44,1a2b-3c4d-5e6f")
        assert line
        found = pool.Pool(setting, making.Shape(1, (8, 16, 16)), [line], numpy).at(0.1, 1)
        self.assertAlmostEqual(found.estimate, 1 - (1 - 10 / 1000) * (1 - 44 / 2000) ** 2, delta=2e-4)
        self.assertTrue(found.low < found.estimate < found.high)


class Several(shared.InFolder):
    """Two code blocks of different lengths, by the program."""

    def test_counts(self) -> None:
        conf = self.file("c.toml", SMALL.replace("a = 8", "a = 4000").replace("rate2048 = 512", "rate2048 = 400").replace(
            f"g = {PLACES}", "g = 10002").replace("rounds = 4000", "rounds = 150"))
        setting = settings.read_setting(conf)
        shape = making.shape_of(setting)
        self.assertEqual((shape.kdash, shape.lengths), (2036, (5000, 5002)))
        lines = results.merged([self.file("c.csv", shared.made("curve", "point", conf, "0.02:0/0.05:0/0.08:0"))])
        taken = pool.Pool(setting, shape, lines, numpy)
        for line in lines:
            groups = results.counts_from(line.erased[0])
            self.assertEqual(len(groups), 2)
            self.assertEqual(sum(sum(counts.values()) for counts in groups), line.failed_codeblocks[0])
            found = taken.at(line.p, 1)
            self.assertAlmostEqual(found.estimate, line.failed[0] / line.rounds, delta=0.12)
            self.assertTrue(found.low <= line.failed[0] / line.rounds <= found.high)
        self.assertTrue(any(0.1 < line.failed[0] / line.rounds < 0.9 for line in lines), [line.failed for line in lines])
