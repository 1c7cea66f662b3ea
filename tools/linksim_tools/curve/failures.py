"""The failures of code blocks of one length after a number of transmissions, and what they say of the error rate at any erasure
probability: the estimate of isotonic.py, and the bounds of bounds.py."""

from __future__ import annotations

import dataclasses
import functools
import math
import typing

from linksim_tools.curve.bounds import NOTHING_SEEN, Shifted
from linksim_tools.curve.intervals import TAIL, fay_feuer
from linksim_tools.curve.isotonic import Chances, Likelihood, Seen, bridged

# Numbers of erased bits further than this many standard deviations from their mean are ignored.
DEVIATIONS = 9

# The second interval gives what was not seen this many times the greatest weight of what was. The failure with the fewest
# erasures that was seen is seldom the least one: with a factor of 1 the interval covers less than 95 percent if few failures were
# seen.
UNSEEN = 2.0

# Above this rate the share of a point's own rounds may say more than the pooled rate.
MOSTLY = 0.5

# A number of erased bits hardly occurred if fewer rounds than this are expected within a standard deviation of it.
HARDLY = 1.0


def binomial(count: int, p: float, first: int, last: int, numpy: typing.Any) -> typing.Any:
    """The logarithms of a binomial distribution's probabilities from `first` to `last`."""
    if not 0 < p < 1:
        logs = numpy.full(last - first + 1, -math.inf)
        only = int(count * p)
        if first <= only <= last:
            logs[only - first] = 0.0
        return logs
    start = min(max(int(count * p), first), last)
    odds = math.log(p) - math.log1p(-p)
    head = math.lgamma(count + 1) - math.lgamma(start + 1) - math.lgamma(count - start + 1)
    head += start * math.log(p) + (count - start) * math.log1p(-p)
    up = numpy.arange(start, last)
    down = numpy.arange(start, first, -1)
    above = numpy.cumsum(numpy.log((count - up) / (up + 1)) + odds)
    below = numpy.cumsum(numpy.log(down / (count - down + 1)) - odds)
    return head + numpy.concatenate((below[::-1], [0.0], above))


def window(count: int, p: float) -> tuple[int, int]:
    """The numbers of erased bits, of `count`, that occur."""
    reach = DEVIATIONS * math.sqrt(count * p * (1 - p)) + DEVIATIONS**2 / 3
    return max(0, int(count * p - reach)), min(count, int(count * p + reach) + 1)


@dataclasses.dataclass(frozen=True)
class Part:
    """The rate of code blocks of one length, with the fields of Estimate. `weight` is the greatest weight of a failure, and
    `certain` the probability that too many bits are erased. `shifted` is what the bounds were taken from."""

    estimate: float
    first: tuple[float, float]
    second: typing.Optional[tuple[float, float]]
    events: float
    weight: float
    reached: float
    certain: float
    shifted: typing.Optional[tuple[Shifted, Shifted]]


class Failures:
    """What was seen of code blocks of one length. They have `places` bits in all transmissions together, and K' information bits.
    Of each point `points` says how many there were and how many failed, and `failed` has the failures by erased bits K."""

    def __init__(
        self, places: int, kdash: int, points: list[Seen], failed: typing.Mapping[int, int], numpy: typing.Any
    ) -> None:
        self.places, self.certain, self.points, self.numpy = places, places - kdash, points, numpy
        self.made = [one.made * one.is_counted for one in points]
        seen = sorted((k, count) for k, count in failed.items() if count and k <= self.certain)
        self.k = numpy.array([k for k, _ in seen], dtype=numpy.int64)
        self.counts = numpy.array([count for _, count in seen], dtype=float)

    @functools.cached_property
    def chances(self) -> list[Chances]:
        """The probabilities of the numbers of erased bits at each point."""
        windows = [(one.p, *window(self.places, one.p)) for one in self.points]
        return [Chances(low, self.numpy.exp(binomial(self.places, p, low, high, self.numpy))) for p, low, high in windows]

    def expected(self, made: typing.Iterable[float]) -> typing.Any:
        """How many code blocks are expected to have each number of erased bits, if each point has this many."""
        expected = self.numpy.zeros(self.places + 1)
        for count, (first, each) in zip(made, self.chances):
            expected[first : first + len(each)] += count * each
        return expected

    @functools.cached_property
    def met(self) -> typing.Any:
        """How many code blocks whose failures are counted are expected to have each number of erased bits."""
        return self.expected(self.made)

    @functools.cached_property
    def fitted(self) -> typing.Any:
        """The likeliest F of all numbers of erased bits."""
        numpy, count = self.numpy, max(0, self.certain + 1)
        fitted = numpy.ones(self.places + 1)
        if count:
            found = Likelihood(self.certain, self.points, self.chances, self.k, self.counts, numpy).fit()
            met = self.expected(one.made for one in self.points)[:count]
            spread = numpy.maximum(1.0, numpy.sqrt(numpy.arange(count) * (1 - numpy.arange(count) / self.places)))
            fitted[:count] = bridged(found, met * spread >= HARDLY, numpy)
        return fitted

    def at(self, p: float, tail: float = TAIL) -> Part:
        """The rate at an erasure probability."""
        numpy = self.numpy
        first, last = window(self.places, p)
        whole = numpy.exp(binomial(self.places, p, first, last, numpy))
        whole /= whole.sum()
        certain = min(1.0, float(whole[max(0, self.certain + 1 - first) :].sum()))
        count = max(0, min(last, self.certain) - first + 1)
        share, expected = whole[:count], self.met[first : last + 1][:count]
        weights = numpy.divide(share, expected, out=numpy.full(count, math.inf), where=expected > 0)
        weight, missed = self.greatest_weight(share, weights)
        second, events = self.if_none_below(share, first, weights, weight, certain, tail)
        fitted = self.fitted[first : last + 1]
        estimate = float((whole * fitted).sum())
        if estimate > MOSTLY:  # more exact near 1
            estimate = 1 - float((whole * (1 - fitted)).sum())
        shifted = self.shifted(p, share, first, certain) if count else None
        ends = (shifted[0].lower(tail), shifted[1].upper(tail)) if shifted else (certain, 1.0)
        return Part(estimate, ends, second, events, weight, max(0.0, 1 - missed), certain, shifted)

    def shifted(self, p: float, share: typing.Any, first: int, certain: float) -> tuple[Shifted, Shifted]:
        """What the lower bound is taken from, and the upper one: probability is moved to fewer erased bits, and to more."""
        last, ks, deviation = first + len(share) - 1, self.k, max(1.0, math.sqrt(self.places * p * (1 - p)))
        fewer, more = ks <= last, ks >= first
        down = share[::-1], self.met[: last + 1][::-1], last - ks[fewer], self.counts[fewer]
        up = share, self.met[first : self.certain + 1], ks[more] - first, self.counts[more]
        return Shifted(*down, deviation, certain, self.numpy), Shifted(*up, deviation, certain, self.numpy)

    def if_none_below(
        self, share: typing.Any, first: int, weights: typing.Any, weight: float, certain: float, tail: float
    ) -> tuple[typing.Optional[tuple[float, float]], float]:
        """The interval that holds if nothing fails with fewer erased bits than were seen to fail, which is nothing if no failure
        was seen; and how many failures of equal weight those that were seen are worth."""
        ks = self.k[(self.k >= first) & (self.k < first + len(share))] - first
        ks = ks[weights[ks] <= weight]
        if not len(ks):
            return None, 0.0
        seen, counts = weights[ks], self.counts[self.numpy.searchsorted(self.k, ks + first)]
        total, variance = float((seen * counts).sum()), float((seen**2 * counts).sum())
        least = int(ks.min())
        reached = weights[least:] <= weight
        rest = float(share[least:][~reached].sum())
        likely = min(weight, UNSEEN * float(weights[least:][reached].max()))
        low, high = fay_feuer(total, variance, likely, tail)
        return (min(1.0, certain + low), min(1.0, certain + high + rest)), total**2 / variance if variance else 0.0

    def greatest_weight(self, share: typing.Any, weights: typing.Any) -> tuple[float, float]:
        """The weight up to which numbers of erased bits count as reached, and the probability of the others. It makes the upper end
        least if nothing fails, and depends on the number of rounds alone, never on what failed."""
        numpy = self.numpy
        if not len(share):
            return 0.0, 0.0
        order = numpy.argsort(weights)
        beyond = numpy.concatenate((numpy.cumsum(share[order][::-1])[::-1][1:], [0.0]))
        tops = NOTHING_SEEN * weights[order] + beyond
        best = int(numpy.argmin(tops))
        if not math.isfinite(float(tops[best])):
            return 0.0, float(share.sum())
        return float(weights[order][best]), float(beyond[best])
