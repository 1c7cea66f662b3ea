"""One simulation for the whole curve: the chunks of all points say something about the rate at any erasure probability.

Suppose that K of the N bits of a code block's first m transmissions are erased. Then every set of K bits is equally likely,
whatever the probability p with which they were erased. Let F(K) be the fraction of these sets that leave the code block undecided.
Its error rate is then the sum over K of Binomial(N, K, p) F(K). F does not depend on p, so all points measure the same F. How the K
erased bits are shared out over the m transmissions does not depend on p either, so K alone is enough. With more than N - K' bits
erased every code block is undecided, and nothing needs to be seen. Code blocks are independent, so a transport block of C code
blocks is delivered with the product of their probabilities.

F(K) never falls as K grows (isotonic.py), and so the rate never falls as p grows."""

from __future__ import annotations

import collections
import dataclasses
import math
import typing

from linksim_tools.common.program import Failed
from linksim_tools.curve.bounds import GROWTH, NOTHING_SEEN
from linksim_tools.curve.draws import threshold_of
from linksim_tools.curve.failures import Failures, Part
from linksim_tools.curve.intervals import TAIL, normal_quantile, wilson
from linksim_tools.curve.isotonic import Seen, isotonic
from linksim_tools.curve.making import first_hope
from linksim_tools.curve.results import summed, totals

if typing.TYPE_CHECKING:
    from linksim_tools.curve.making import Shape
    from linksim_tools.curve.results import Line
    from linksim_tools.curve.setting import Setting

# An estimate is drawn as a line if this fraction of the rounds was reached, or if its interval is this narrow.
REACHED = 0.5
NARROW = 0.1

# The rates at which the share of a point's own rounds is compared with the pooled rate.
RATES_NEAR_1 = (*(0.5 + 0.02 * step for step in range(25)), 0.99, 0.995, 0.998, 0.999)


@dataclasses.dataclass(frozen=True)
class Estimate:
    """What is known of a rate: the estimate, the interval that holds without assumptions, and the one that holds if nothing fails
    with fewer erasures than were seen to fail (None if no failure was seen). `events` is how many failures of equal weight those
    that were seen are worth. `rounds` is how many rounds at this p would say as much of a failure that was not seen. `reached` is
    the fraction of rounds at this p whose number of erased bits occurred often enough at some point. Below `certain` the rate
    cannot be."""

    p: float
    after: int
    estimate: float
    low: float
    high: float
    low_if: typing.Optional[float]
    high_if: typing.Optional[float]
    events: float
    rounds: float
    reached: float
    certain: float = 0.0

    def within(self, low: float, high: float) -> Estimate:
        """The same with these ends, widened to hold the estimate; the second interval is kept inside the first."""
        low, high = min(low, self.estimate), max(high, self.estimate)
        inner = [None if end is None else min(max(end, low), high) for end in (self.low_if, self.high_if)]
        return dataclasses.replace(self, low=low, high=high, low_if=inner[0], high_if=inner[1])

    def is_known(self, scale: float) -> bool:
        """Whether it may be drawn as a line: at least half of the rounds were reached, or the interval is narrow on this scale."""
        return self.reached >= REACHED or self.high - self.low <= NARROW * scale

    def half_width(self) -> float:
        """Half of the first interval, relative to the estimate."""
        return (self.high - self.low) / 2 / self.estimate if self.estimate else math.inf


class Pool:
    """The chunks of all points of a curve, taken together."""

    def __init__(self, setting: Setting, shape: Shape, lines: list[Line], numpy: typing.Any) -> None:
        if not setting.is_pooled:
            what = "flips bits" if setting.link == "flip" else "erases units or bursts"
            raise Failed(f"{setting.path} {what}: chunks of all points are only pooled where single bits are erased")
        if any(not line.source for line in lines):
            raise Failed("lines of an earlier version have no counts by erased bits: make them again")
        self.points = totals(lines)
        self.sizes = [(length, shape.lengths.count(length)) for length in shape.sizes()]
        self.hopes = {line.p: first_hope(setting, shape, line.p) for line in self.points}
        self.known: dict[tuple[float, int, float, bool], Estimate] = {}
        self.looked: dict[tuple[float, int, float], list[Part]] = {}
        self.parts: list[list[Failures]] = []
        for after in range(1, len(setting.rvs) + 1):
            failed = summed(line.erased[after - 1] for line in self.points if self.is_counted(line.p, after))
            failed += [collections.Counter()] * (len(self.sizes) - len(failed))
            seen = zip(*(self.seen(line, after) for line in self.points))
            self.parts.append([
                Failures(after * length, shape.kdash, list(points), some, numpy)
                for (length, _), points, some in zip(self.sizes, seen, failed)
            ])

    def is_counted(self, p: float, after: int) -> bool:
        """Whether failures at a point were counted by erased bits. Where nearly all fail they were not."""
        return self.hopes[p] <= after

    def seen(self, line: Line, after: int) -> list[Seen]:
        """What was seen at a point of code blocks of each length."""
        p, made = threshold_of(line.p) / 2**32, [line.rounds * count for _, count in self.sizes]
        if not self.is_counted(line.p, after):
            share = line.failed_codeblocks[after - 1] / (line.rounds * line.c)
            return [Seen(p, count, share * count, False) for count in made]
        failed = [float(sum(counts.values())) for counts in summed([line.erased[after - 1]])]
        return [Seen(p, count, number) for count, number in zip(made, failed + [0.0] * len(made))]

    def at(self, p: float, after: int, tail: float = TAIL, of_blocks: bool = False) -> Estimate:
        """The block error rate, or the code block error rate, at an erasure probability after this many transmissions, with
        `tail` left out at each end. The estimate never falls as p grows. Rates near 1 are judged by the share of failed rounds,
        at p itself or at the next point below."""
        key = p, after, tail, of_blocks
        if key not in self.known:
            found = self.pooled(p, after, tail, of_blocks)
            low, high = found.low, found.high
            below = max((line for line in self.points if line.p <= p), key=lambda line: line.p, default=None)
            if below is not None:
                own = plain_estimate(below, after, tail, of_blocks)
                beyond = self.beyond(below, p, after, tail, 0, of_blocks)
                if low >= beyond:
                    low = max(beyond, own.low, found.certain)
                if below.p == p:
                    beyond = self.beyond(below, p, after, tail, 1, of_blocks)
                    high = own.high if own.high >= beyond else min(high, beyond)
            self.known[key] = found.within(low, high)
        return self.known[key]

    def beyond(self, point: Line, p: float, after: int, tail: float, end: int, of_blocks: bool) -> float:
        """The rate above which the share of a point's own rounds is expected to say more than the pooled rate, whatever was
        seen."""
        if not self.is_counted(point.p, after):
            return 0.0
        shifted = [part.shifted[end] for part in self.parts_at(p, after, tail) if part.shifted]
        places = after * max(size for size, _ in self.sizes)
        away = GROWTH * (p - point.p) * places / math.sqrt(max(1.0, places * p * (1 - p)))
        count = 1 if of_blocks else sum(count for _, count in self.sizes)
        for rate in RATES_NEAR_1:
            of_one = -math.expm1(math.log1p(-rate) / count)
            slope = count * (1 - of_one) ** (count - 1)
            found = [one.foreseen(of_one) for one in shifted] or [(0.0, 0.0)]
            whole, chance = (slope * max(one[seat] for one in found) for seat in range(2))
            of_own = 2 * math.sqrt(rate * (1 - rate) / point.rounds) + NOTHING_SEEN / point.rounds
            if 1 - rate < 2 * chance or (1 - rate) * rate * away + of_own < whole:
                return rate
        return 1.0

    def code_blocks_at(self, p: float, after: int, tail: float = TAIL) -> Estimate:
        """The code block error rate, over all lengths of code blocks."""
        return self.at(p, after, tail, of_blocks=True)

    def parts_at(self, p: float, after: int, tail: float) -> list[Part]:
        """The rates of code blocks of each length."""
        key = p, after, tail
        if key not in self.looked:
            self.looked[key] = [failures.at(p, tail / len(self.sizes)) for failures in self.parts[after - 1]]
        return self.looked[key]

    def pooled(self, p: float, after: int, tail: float, of_blocks: bool) -> Estimate:
        """A rate by the chunks of all points, made of the rates of code blocks of each length."""
        rate = self.mean_rate if of_blocks else self.block_rate
        parts = self.parts_at(p, after, tail)
        second = [part.second for part in parts if part.second]
        has_second = len(second) == len(parts)
        return Estimate(
            p, after, rate([part.estimate for part in parts]), rate([part.first[0] for part in parts]),
            rate([part.first[1] for part in parts]),
            rate([low for low, _ in second]) if has_second else None,
            rate([high for _, high in second]) if has_second else None,
            sum(part.events for part in parts), self.rounds_of(parts), min(part.reached for part in parts),
            rate([part.certain for part in parts]),
        )

    def mean_rate(self, rates: list[float]) -> float:
        """The rate of code blocks, from those of each length."""
        return sum(rate * count for rate, (_, count) in zip(rates, self.sizes)) / sum(count for _, count in self.sizes)

    def block_rate(self, rates: list[float]) -> float:
        """The rate of transport blocks, from those of code blocks of each length."""
        logs = 0.0
        for rate, (_, count) in zip(rates, self.sizes):
            if rate >= 1:
                return 1.0
            logs += count * math.log1p(-rate)
        return -math.expm1(logs) or 0.0

    def rounds_of(self, parts: list[Part]) -> float:
        """How many rounds at a point would say as much of a failure that was not seen."""
        rate = 1 - (1 - max(part.weight for part in parts)) ** sum(count for _, count in self.sizes)
        return 1 / rate if rate > 0 else 0.0


def plain_estimate(line: Line, after: int, tail: float = TAIL, of_blocks: bool = False, apart: bool = True) -> Estimate:
    """The share of failed rounds, or code blocks, at a point by its own chunks. If code blocks of a round do not fail `apart`
    (independently), a round may say no more about them than one does."""
    failed, rounds = float(line.failed[after - 1]), line.rounds
    if of_blocks:
        worth = line.c if apart else 1
        failed, rounds = line.failed_codeblocks[after - 1] * worth / line.c, line.rounds * worth
    low, high = wilson(failed, rounds, normal_quantile(1 - tail))
    return Estimate(line.p, after, failed / rounds, low, high, low, high, failed, float(rounds), 1.0)


class Plain:
    """Each point by its own chunks, if the link does not erase single bits. The code blocks of a round fail `apart` if none has
    to do with another one. The rate rises with p here too, so the estimates are the isotonic regression of the points' shares."""

    def __init__(self, lines: list[Line], numpy: typing.Any, apart: bool = True) -> None:
        self.points, self.apart, self.numpy = totals(lines), apart, numpy
        self.fitted: dict[tuple[int, bool], dict[float, float]] = {}

    def at_point(self, line: Line, after: int, tail: float, of_blocks: bool) -> Estimate:
        """The rate at a point."""
        if (after, of_blocks) not in self.fitted:
            shares = [plain_estimate(it, after, tail, of_blocks, self.apart).estimate for it in self.points]
            array = self.numpy.array
            rates = isotonic(array(shares), array([float(it.rounds) for it in self.points]), self.numpy).tolist()
            self.fitted[after, of_blocks] = dict(zip((it.p for it in self.points), rates))
        found = plain_estimate(line, after, tail, of_blocks, self.apart)
        estimate = self.fitted[after, of_blocks][line.p]
        return dataclasses.replace(found, estimate=estimate, low=min(found.low, estimate), high=max(found.high, estimate))

    def at(self, p: float, after: int, tail: float = TAIL, of_blocks: bool = False) -> Estimate:
        """The block error rate. Between two points it is between their rates: the estimate is on the line between their logarithms,
        and 0 if nothing failed at one of them."""
        known = {line.p: line for line in self.points}
        if p in known:
            return self.at_point(known[p], after, tail, of_blocks)
        if not min(known) < p < max(known):
            raise Failed(f"no rate is known at {p}: the points are from {min(known)} to {max(known)}")
        low, high = max(q for q in known if q < p), min(q for q in known if q > p)
        first, last = (self.at_point(known[q], after, tail, of_blocks) for q in (low, high))
        share = (p - low) / (high - low)
        between = first.estimate ** (1 - share) * last.estimate**share
        return dataclasses.replace(first, p=p, estimate=between, low=first.low, high=last.high, low_if=None, high_if=None)

    def code_blocks_at(self, p: float, after: int, tail: float = TAIL) -> Estimate:
        """The code block error rate in the same way."""
        return self.at(p, after, tail, of_blocks=True)
