"""Which chunks come next if `width` says when a point is done. They make the pooled intervals narrow enough at the
least cost that is foreseen."""

from __future__ import annotations

import math
import typing

from linksim_tools.curve.draws import threshold_of
from linksim_tools.curve.grid import halvings, middle
from linksim_tools.curve.failures import binomial
from linksim_tools.curve.intervals import QUANTILE, near_quantile
from linksim_tools.curve.making import first_hope
from linksim_tools.curve.pool import Pool

if typing.TYPE_CHECKING:
    from linksim_tools.curve.making import Shape, Task
    from linksim_tools.curve.failures import Failures
    from linksim_tools.curve.pool import Estimate
    from linksim_tools.curve.results import Line
    from linksim_tools.curve.setting import Setting

# Failures are put together by so many numbers of erased places to foresee an interval.
BINS = 100

# A plan aims a little further than what is wanted, because what it finds is not quite what it foresees. If that is less than a
# wave, it aims further still, step by step: a wave that is not full leaves machines idle, and further waves may follow.
AIMS = (0.96, 0.9, 0.8, 0.7, 0.6, 0.5)

# What a run takes in all is foreseen by this aim: the cheapest plan for the few failures that were seen is too cheap.
FORESEEN = 0.7

# A plan grows by a share of what a point has, in at most so many steps.
GROWTH = 0.25
MOST_STEPS = 400


def near_ends(estimate: float, variance: float, weight: float) -> tuple[float, float]:
    """The ends of an interval, nearly."""
    low = variance / estimate * near_quantile(estimate**2 / variance, -QUANTILE) if variance > 0 else 0.0
    mean, square = estimate + weight, variance + weight**2
    return low, square / mean * near_quantile(mean**2 / square, QUANTILE)


def chances_of(count: int, p: float, ks: typing.Any, numpy: typing.Any) -> typing.Any:
    """The binomial distribution's probabilities of some numbers, which are in order."""
    if not len(ks):
        return numpy.zeros(0)
    first = int(ks[0])
    return numpy.exp(binomial(count, p, first, int(ks[-1]), numpy))[ks - first]


class Wish:
    """A rate that is wanted at a point after so many transmissions. Down to `lowest` it is wanted with the half-width
    `width`. If it is below, it is only wanted that it is not above `lowest` by more than that."""

    def __init__(self, setting: Setting, found: Estimate) -> None:
        self.width, self.lowest, self.found = setting.width, setting.lowest, found

    def lack(self, low: float, high: float, estimate: float, aim: float = 1.0) -> float:
        """How far an interval is from what is wanted, or from that much of it, 0 if it is there."""
        wide = (high - low) / 2 / (aim * self.width * estimate) if estimate > 0 else math.inf
        if estimate < self.lowest:
            wide = min(wide, high / self.lowest / (1 + self.width) / aim)
        return min(50.0, math.log(wide)) if wide > 1 else 0.0

    def is_met(self) -> bool:
        """Whether it is there."""
        return self.lack(self.found.low, self.found.high, self.found.estimate) == 0


def wishes(setting: Setting, estimates: list[Estimate]) -> list[Wish]:
    """What is wanted of the points of one number of transmissions, which are in order: those down to `lowest`, and the
    greatest one below."""
    found = [Wish(setting, estimate) for estimate in estimates if estimate.estimate >= setting.lowest]
    below = [estimate for estimate in estimates if estimate.estimate < setting.lowest]
    return ([Wish(setting, below[-1])] if below else []) + found


class Outlook:
    """How wide the intervals of one number of transmissions will be with other numbers of rounds."""

    def __init__(
        self, failures: list[Failures], counts: list[int], points: list[float], wanted: list[Wish], numpy: typing.Any
    ) -> None:
        self.numpy, self.wanted = numpy, wanted
        self.seats = [points.index(wish.found.p) for wish in wanted]
        # By length of code blocks, point and bin `chances` has the chance of a number of erased places. `failures` says
        # how many failures a chance of 1 stands for, in a round's code blocks.
        self.chances, self.failures = [], []
        for some, count in zip(failures, counts):
            ks, seen = self.binned(some)
            chances = numpy.array([chances_of(some.places, threshold_of(p) / 2**32, ks, numpy) for p in points])
            chances = chances.reshape(len(points), len(ks))
            rounds = numpy.array(some.made, dtype=float)
            expected = rounds @ chances
            self.chances.append(chances)
            self.failures.append(count**2 * seen / numpy.maximum(expected, 1e-300))
        self.scale = counts

    def binned(self, failures: Failures) -> tuple[typing.Any, typing.Any]:
        """At most BINS numbers of erased places, and how many failures each of them stands for."""
        numpy = self.numpy
        step = max(1, -(-len(failures.k) // BINS))
        starts = list(range(0, len(failures.k), step))
        if not starts:
            return numpy.zeros(0, dtype=numpy.int64), numpy.zeros(0)
        return failures.k[[min(at + step // 2, len(failures.k) - 1) for at in starts]], numpy.add.reduceat(
            failures.counts, starts
        )

    def lacks(self, rounds: typing.Any, tries: typing.Any, aim: float) -> typing.Any:
        """How far all intervals together are from that much of what is wanted, for each row of `tries`. A row has
        numbers of rounds by point, and `rounds` are those that are there."""
        numpy = self.numpy
        variances = numpy.zeros((len(self.wanted), len(tries)))
        for chances, failures, count in zip(self.chances, self.failures, self.scale):
            if chances.shape[1]:
                expected = numpy.maximum(count * tries @ chances, 1e-300)
                variances += (chances[self.seats] ** 2 * failures) @ (1 / expected).T
        lacks = numpy.zeros(len(tries))
        for row, (wish, seat) in enumerate(zip(self.wanted, self.seats)):
            found = wish.found
            if found.estimate >= 1 or not found.rounds:
                continue
            for column in range(len(tries)):
                weight = rounds[seat] / tries[column][seat] / found.rounds
                variance = float(variances[row][column])
                estimate = found.estimate
                low, high = near_ends(estimate, variance, weight) if estimate else (0.0, 3.7 * weight)
                lacks[column] += wish.lack(low, high, estimate, aim)
        return lacks


class Plan:
    """What a run wants by the pooled intervals of the lines that are there."""

    def __init__(self, setting: Setting, shape: Shape, lines: list[Line], numpy: typing.Any) -> None:
        self.setting, self.shape, self.lines, self.numpy = setting, shape, lines, numpy
        self.pool = Pool(setting, shape, lines, numpy)
        self.points = [line.p for line in self.pool.points]
        transmissions = range(1, len(setting.rvs) + 1)
        self.estimates = [[self.pool.at(p, after) for p in self.points] for after in transmissions]

    def added(self) -> list[Task]:
        """The first chunks of points between those where the curve falls."""
        tasks: list[Task] = []
        for seat, (low, high) in enumerate(zip(self.points, self.points[1:])):
            pairs = [(found[seat].estimate, found[seat + 1].estimate) for found in self.estimates]
            if any(2 * one <= other and other >= self.setting.lowest for one, other in pairs):
                p = middle(self.setting, low, high)
                tasks += [(p, 0)] if p is not None else []
        return tasks

    def counts(self, least: int) -> tuple[dict[float, int], dict[float, int]]:
        """How many more chunks of each point come next, and how many will probably do. If there are any, about `least` or more come
        next in all."""
        numpy, setting = self.numpy, self.setting
        wanted = [[wish for wish in wishes(setting, found) if not wish.is_met()] for found in self.estimates]
        outlooks = [
            Outlook(parts, [count for _, count in self.pool.sizes], self.points, some, numpy)
            for parts, some in zip(self.pool.parts, wanted) if some
        ]
        made = numpy.array([line.chunk for line in self.pool.points], dtype=float)
        chunks = made.copy()
        for aim in AIMS if outlooks else ():
            chunks = self.grown(outlooks, made, chunks, aim)
            if chunks.sum() - made.sum() >= least:
                break
        found = [
            {p: int(count) for p, count in zip(self.points, some - made) if count}
            for some in (chunks, self.grown(outlooks, made, chunks, FORESEEN) if outlooks else chunks)
        ]
        more = found[0] or self.unmet(wanted, made)
        return more, found[1] or more

    def grown(self, outlooks: list[Outlook], made: typing.Any, chunks: typing.Any, aim: float) -> typing.Any:
        """Numbers of chunks by point, from `chunks` on, with which all intervals will be that much of what is wanted.
        Each step is made where it helps most for its cost."""
        numpy, setting = self.numpy, self.setting
        costs = numpy.array([first_hope(setting, self.shape, p) for p in self.points], dtype=float)
        for _ in range(MOST_STEPS):
            steps = numpy.maximum(1, numpy.floor(GROWTH * chunks))
            steps = numpy.minimum(steps, setting.chunks - chunks)
            tries = numpy.vstack([chunks, chunks + numpy.diag(steps)]) * setting.rounds
            lacks = sum(it.lacks(made * setting.rounds, tries, aim) for it in outlooks)
            if lacks[0] <= 0:
                break
            gains = numpy.where(steps > 0, (lacks[0] - lacks[1:]) / (numpy.maximum(steps, 1) * costs), -1.0)
            best = int(numpy.argmax(gains))
            if gains[best] <= 0:
                break
            chunks = chunks.copy()
            chunks[best] += steps[best]
        return chunks

    def unmet(self, wanted: list[list[Wish]], made: typing.Any) -> dict[float, int]:
        """One more chunk of each point of which something is wanted, if no plan says better."""
        seats = {self.points.index(wish.found.p) for some in wanted for wish in some}
        return {self.points[seat]: 1 for seat in sorted(seats) if made[seat] < self.setting.chunks}


def numbered(lines: list[Line], counts: typing.Mapping[float, int]) -> list[Task]:
    """So many further chunks of points, by their numbers, all points in turn."""
    there: dict[int, set[int]] = {}
    for line in lines:
        there.setdefault(threshold_of(line.p), set()).add(line.chunk)
    queues: list[tuple[float, float, int]] = []
    for p, count in counts.items():
        number, known = 0, there.get(threshold_of(p), set())
        for place in range(count):
            while number in known:
                number += 1
            queues.append(((place + 1) / count, p, number))
            number += 1
    return [(p, number) for _, p, number in sorted(queues)]


def missing_grid(setting: Setting, lines: list[Line]) -> list[Task]:
    """The first chunks of the coarse grid that are not there."""
    there = {threshold_of(line.p) for line in lines if line.chunk == 0}
    return [(p, 0) for p in setting.points if threshold_of(p) not in there]


def wave(
    setting: Setting, shape: Shape, lines: list[Line], numpy: typing.Any
) -> tuple[list[Task], list[Task] | None]:
    """The wave that follows on these lines, and all chunks that will probably be made from now on; None if that cannot be said.
    The grid comes first. If the curve falls between points, the next wave has those between, and those beside them that are
    wanted if it falls there too. The rest of it, and later waves, are chunks that narrow the intervals: as many as a wave has, or
    a multiple of that, but no more than have been made."""
    first = missing_grid(setting, lines)
    if first:
        return first, None
    plan, size = Plan(setting, shape, lines, numpy), setting.wave
    tasks = plan.added()
    if tasks:
        tasks += halvings(setting, lines, tasks, size - len(tasks))
        if len(tasks) >= size:
            return tasks, None
    rest, foreseen = (numbered(lines, counts) for counts in plan.counts(size))
    if tasks:
        return tasks + rest[: size - len(tasks)], None
    return rest[: size * max(1, min(len(lines), len(rest)) // size)], foreseen
