"""The likeliest F that never falls, where F(K) is the probability that a code block is undecided if K of its bits are erased.

F never falls as K grows: peeling that recovers a code block from a set of erased bits also recovers it from any subset, and a
random set of K bits is a random set of K + 1 bits without one of them. The estimate is therefore an isotonic regression (Ayer,
Brunk, Ewing, Reid and Silverman, Annals of Mathematical Statistics 26, 1955). The results do not say how many bits were erased in
the code blocks that were delivered. Those are filled in with their expectation, and the regression is repeated until it stands
still (the EM algorithm: Dempster, Laird and Rubin, Journal of the Royal Statistical Society B 39, 1977)."""

from __future__ import annotations

import dataclasses
import typing

# F is constant on at most this many ranges of K.
MOST_CELLS = 200

# The regression is repeated at most this often, or until no value changes by more than this.
MOST_TURNS = 100
STILL = 1e-5

# Where failures were not counted by erased bits, F may also rise at these quantiles of K.
QUANTILES = (0.05, 0.25, 0.5, 0.75, 0.95)


@dataclasses.dataclass(frozen=True)
class Seen:
    """The code blocks of one length at a point: how many there were, how many of them failed, and whether the failed ones were
    counted by how many of their bits were erased."""

    p: float
    made: int
    failed: float
    is_counted: bool = True


class Chances(typing.NamedTuple):
    """The probabilities of `first`, first + 1, .. erased bits at a point."""

    first: int
    each: typing.Any


def isotonic(values: typing.Any, weights: typing.Any, numpy: typing.Any) -> typing.Any:
    """The isotonic regression of values with weights above 0: neighbours that fall are merged into their mean until none does."""
    starts, sums = numpy.arange(len(values)), values * weights
    while True:
        means = numpy.add.reduceat(sums, starts) / numpy.add.reduceat(weights, starts)
        rises = numpy.concatenate(([True], means[1:] > means[:-1]))
        if rises.all():
            return numpy.repeat(means, numpy.diff(numpy.concatenate((starts, [len(values)]))))
        starts = starts[rises]


class Likelihood:
    """What was seen of code blocks of one length, for F on ranges of K around the values at which blocks failed."""

    def __init__(
        self, most: int, points: list[Seen], chances: list[Chances], ks: typing.Any, counts: typing.Any, numpy: typing.Any
    ) -> None:
        """With more than `most` bits erased every code block fails. `ks` and `counts` are the failures by erased bits."""
        self.numpy, self.points, self.most = numpy, points, most
        self.edges = self.edges_of(self.steps(chances, ks))
        starts = self.edges[:-1]
        seats = numpy.clip(numpy.searchsorted(starts, ks, side="right") - 1, 0, None)
        self.failed = numpy.bincount(seats, weights=counts, minlength=len(starts)).astype(float)
        # By point the probability of each range, and of more than `most` erased bits.
        parts, beyond = [], []
        for first, each in chances:
            sums = numpy.concatenate(([0.0], numpy.cumsum(each)))
            at = numpy.clip(self.edges - first, 0, len(each))
            parts.append(numpy.diff(sums[at]))
            beyond.append(float(sums[-1] - sums[at[-1]]))
        self.parts, self.beyond = numpy.array(parts), numpy.array(beyond)

    def steps(self, chances: list[Chances], ks: typing.Any) -> typing.Any:
        """The values of K around which F may rise."""
        blind = [part for one, part in zip(self.points, chances) if one.failed and not one.is_counted]
        more = [part.first + self.numpy.searchsorted(self.numpy.cumsum(part.each), QUANTILES) for part in blind]
        steps = self.numpy.unique(self.numpy.concatenate([ks, *more])).astype(int)
        steps = steps[steps <= self.most]
        return steps[:: max(1, -(-len(steps) // MOST_CELLS))]

    def edges_of(self, steps: typing.Any) -> typing.Any:
        """The ranges' limits: halfway between steps, and the first range as wide to the left as to the right. F is 0 below it."""
        if not len(steps):
            return self.numpy.array([self.most + 1])
        halves = (steps[1:] + steps[:-1] + 1) // 2
        first = max(0, 2 * int(steps[0]) - int(halves[0]) + 1) if len(halves) else int(steps[0])
        return self.numpy.concatenate(([first], halves, [self.most + 1]))

    def fit(self) -> typing.Any:
        """The likeliest F from 0 to `most` erased bits."""
        numpy, answer = self.numpy, self.numpy.zeros(self.most + 1)
        if len(self.edges) == 1:
            return answer
        made = numpy.array([one.made for one in self.points], dtype=float)
        failed = numpy.array([one.failed for one in self.points])
        blind = failed * [not one.is_counted for one in self.points]
        expected = numpy.maximum(made @ self.parts, 1e-12)
        share = isotonic(numpy.minimum(self.failed / expected, 1.0), expected, numpy)
        for _ in range(MOST_TURNS):
            rates = numpy.clip(self.parts @ share + self.beyond, 1e-300, 1.0)
            delivered = numpy.where(made > failed, (made - failed) / numpy.maximum(1 - rates, 1e-15), 0.0)
            undecided = self.failed + (blind / rates) @ self.parts * share
            weights = numpy.maximum(undecided + delivered @ self.parts * (1 - share), 1e-12)
            last, share = share, isotonic(numpy.minimum(undecided / weights, 1.0), weights, numpy)
            if float(numpy.abs(share - last).max()) < STILL:
                break
        answer[self.edges[0] :] = numpy.repeat(share, numpy.diff(self.edges))
        return answer


def bridged(shares: typing.Any, met: typing.Any, numpy: typing.Any) -> typing.Any:
    """F on straight lines across the values of K that hardly occurred, between those that did. Outside of these it stays."""
    known, ks = numpy.flatnonzero(met), numpy.arange(len(shares))
    if not len(known):
        return shares
    return numpy.where((ks < known[0]) | (ks > known[-1]), shares, numpy.interp(ks, known, shares[known]))
