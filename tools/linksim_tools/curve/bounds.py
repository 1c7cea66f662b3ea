"""Confidence bounds of a rate whose F never falls (isotonic.py), from failures that were seen at other erasure probabilities.

The rate at p is the sum over K of F(K) times the binomial probability of K erased bits. For an upper bound, probability may be
moved from values of K that hardly occurred to greater ones that did: that can only raise the sum. If no failure then weighs more
than a cap, the interval of Fay and Feuer holds. For a lower bound probability is moved to smaller values.

Which cap is best depends on the rate, and must not be chosen by what failed. So the interval consists of all rates that are not
rejected, each by one test whose cap follows from that rate and the number of rounds alone. The true rate is rejected by its own
test only, so the level needs no correction for the number of tests (Neyman's construction)."""

from __future__ import annotations

import functools
import math
import typing

from linksim_tools.curve.intervals import TAIL, gamma_quantile, near_quantile, normal_quantile

# The upper bound if nothing failed, in greatest weights.
NOTHING_SEEN = gamma_quantile(1.0, 1 - TAIL)

# Rates differ by this factor, down to the least one, and near 1 by their distance from 1. A rate is tested with no weight above
# this fraction of it, so that one failure alone does not decide.
CELL = 1.25
LEAST_RATE = 1e-12
NEAREST_1 = 1e-4
HEAVIEST = 6.0

# A guess on which only widths depend: F doubles within one standard deviation of K.
GROWTH = 1.0

# Values of K that do not occur at this p are taken together, this many to a standard deviation.
STEPS = 8

# A quick bound is exact to this factor, and a quick lower bound if it comes from at least this many failures.
NEAR = 1.03
SURE = 10.0


@functools.lru_cache(maxsize=None)
def grid() -> tuple[float, ...]:
    """The rates that are tested, from 1 down."""
    return tuple(CELL**-step for step in range(math.ceil(-math.log(LEAST_RATE) / math.log(CELL)) + 1))


class Shifted:
    """The weights of the failures for each of several caps. Values of K come in the order in which probability is moved."""

    def __init__(
        self, share: typing.Any, expected: typing.Any, ks: typing.Any, counts: typing.Any, deviation: float, rest: float,
        numpy: typing.Any,
    ) -> None:
        """`share` are the probabilities at p, and `expected` how many code blocks of all points have each K, which goes on beyond
        `share`. `ks` are the places of the failures in them. `rest` is the probability of failing for certain."""
        self.numpy, self.rest, count = numpy, rest, len(share)
        step, beyond = max(1, int(deviation / STEPS)), expected[count:]
        further = numpy.add.reduceat(beyond, numpy.arange(0, len(beyond), step)) if len(beyond) else beyond
        share, expected = numpy.concatenate((share, numpy.zeros(len(further)))), numpy.concatenate((expected[:count], further))
        ks = numpy.where(ks < count, ks, count + (ks - count) // step)
        lengths = numpy.where(numpy.arange(len(share)) < count, 1.0, step) / deviation
        self.rates = numpy.array(grid())
        self.caps = self.caps_of(share, expected)
        # What is carried past each K: the part of the probability up to it for which there was no room.
        over = numpy.cumsum(share) - self.caps[:, None] * numpy.cumsum(expected)
        carry = over - numpy.minimum.accumulate(numpy.minimum(over, 0.0), axis=1)
        self.left, self.work = numpy.maximum(0.0, carry[:, -1]), carry @ lengths
        before = numpy.where(ks > 0, carry[:, numpy.maximum(ks - 1, 0)], 0.0)
        used = numpy.clip(before + share[ks] - carry[:, ks], 0.0, self.caps[:, None] * expected[ks])
        weights = numpy.divide(used, expected[ks], out=numpy.zeros(used.shape), where=expected[ks] > 0)
        self.estimates, self.variances = weights @ counts, weights**2 @ counts

    def caps_of(self, share: typing.Any, expected: typing.Any) -> typing.Any:
        """The caps that make a difference."""
        numpy, met = self.numpy, float(expected.sum())
        ratio = numpy.divide(share, expected, out=numpy.where(share > 0, 1.0, 0.0), where=expected > 0)
        top, least = min(1.0, max(float(ratio.max()), LEAST_RATE)), max(1.0 / max(met, 1.0), LEAST_RATE)
        caps = self.rates / HEAVIEST
        # With the least cap there is just room for all.
        return numpy.append(numpy.minimum(caps[(caps < CELL * top) & (caps > least)], top), min(top, least))

    def costs(self, rates: typing.Any) -> typing.Any:
        """How far a bound is expected to be from each rate with each cap, whatever was seen."""
        rates = rates[:, None]
        chance = NOTHING_SEEN * self.caps + 2 * self.numpy.sqrt(rates * self.caps)
        return chance + GROWTH * rates * (1 - rates) * self.work + self.left

    def upper(self, tail: float) -> float:
        """The upper bound: rates are rejected from 1 down, each by its own cap, up to the first that is not."""
        numpy, rates, last = self.numpy, self.rates[1:], 1.0
        heavy = self.caps > rates[:, None] / HEAVIEST * (1 + 1e-9)
        useless = NOTHING_SEEN * self.caps + self.left >= rates[:, None]
        costs = self.costs(rates) + numpy.where(heavy, HEAVIEST * (1 + self.work), 0.0)
        seats = numpy.argmin(numpy.where(useless, math.inf, costs), axis=1)
        means, squares = self.estimates + self.caps, self.variances + self.caps**2
        normal = normal_quantile(1 - tail)
        for rate, seat in zip(rates.tolist(), seats.tolist()):
            rest, mean, square = float(self.left[seat]) + self.rest, float(means[seat]), float(squares[seat])
            if NEAR * square / mean * near_quantile(mean**2 / square, normal) + rest >= rate:
                found = square / mean * gamma_quantile(mean**2 / square, 1 - tail) + rest
                if found >= rate:
                    return min(found, last)
            last = rate
        return last

    def lower(self, tail: float) -> float:
        """The lower bound: rates are rejected from below on."""
        numpy, last, normal = self.numpy, self.rest, normal_quantile(tail)
        near_1 = 1 - self.rates[(self.rates <= 0.5) & (self.rates > NEAREST_1)]
        rates = numpy.concatenate((self.rates[self.rates < 0.5][::-1], near_1, [1.0]))
        rates = rates[rates > self.rest]
        for rate, seat in zip(rates.tolist(), numpy.argmin(self.costs(rates), axis=1).tolist()):
            estimate, variance = float(self.estimates[seat]), float(self.variances[seat])
            shape = estimate**2 / variance if variance > 0 else 0.0
            if shape < SURE or variance / estimate * near_quantile(shape, normal) / NEAR + self.rest < rate:
                found = self.rest + (variance / estimate * gamma_quantile(shape, tail) if shape else 0.0)
                if found < rate:
                    return min(1.0, max(found, last))
            last = rate
        return last

    def foreseen(self, rate: float) -> tuple[float, float]:
        """How far a bound is expected to be from a rate, and how far by chance alone."""
        costs = self.costs(self.numpy.array([rate]))[0]
        cap = float(self.caps[int(self.numpy.argmin(costs))])
        return float(costs.min()), NOTHING_SEEN * cap + 2 * math.sqrt(rate * cap)
