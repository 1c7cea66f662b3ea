"""What a curve says of HARQ: how many transmissions a block takes, what is left in the end, and how much gets through.

Rates after different numbers of transmissions are of the same rounds. If several of them go into an interval, each may leave out a
part of what it may. So the interval holds whatever they have to do with each other."""

from __future__ import annotations

import functools
import typing

from linksim_tools.curve.intervals import TAIL

if typing.TYPE_CHECKING:
    from linksim_tools.curve.pool import Estimate
    from linksim_tools.curve.setting import Setting

# For these block error rates the probability is given at which they are there.
TARGETS = (1e-1, 1e-3, 1e-5)

# How exactly such a probability is sought.
EXACT = 1e-6

# A figure: its name, after how many transmissions, its estimate and its interval.
Figure = typing.Tuple[str, int, float, float, float]
Ends = typing.Tuple[float, float, float]


class Rates(typing.Protocol):
    """The rates of a curve at any p from its least to its greatest point."""

    points: typing.List[typing.Any]

    def at(self, p: float, after: int, tail: float = TAIL) -> Estimate:
        """The block error rate after so many transmissions."""

    def code_blocks_at(self, p: float, after: int, tail: float = TAIL) -> Estimate:
        """The code block error rate."""


def figures(setting: Setting, rates: Rates, p: float) -> typing.Iterator[Figure]:
    """All figures at a probability. The last ones are of whole rounds, after the last transmission at most."""
    count = len(setting.rvs)
    for name, rate in (("block_error_rate", rates.at), ("code_block_error_rate", rates.code_blocks_at)):
        for after in range(1, count + 1):
            yield (name, after, *in_order(rate(p, after)))
    yield ("residual_error", count, *in_order(rates.at(p, count)))
    yield ("mean_transmissions", count, *mean_transmissions(count, rates, p, TAIL / max(1, count - 1)))
    got, low, high = throughput(setting, rates, p)
    yield ("throughput", count, got, low, high)
    yield ("spectral_efficiency", count, got * setting.qm, low * setting.qm, high * setting.qm)


def in_order(found: Estimate) -> Ends:
    """An estimate, and the interval that assumes nothing."""
    return found.estimate, found.low, found.high


def mean_transmissions(count: int, rates: Rates, p: float, tail: float) -> Ends:
    """The mean number of transmissions of a round, which goes on while its block is open: 1 and all rates but the last."""
    early = [in_order(rates.at(p, after, tail)) for after in range(1, count)]
    estimate, low, high = (1 + sum(ends[seat] for ends in early) for seat in range(3))
    return estimate, low, high


def throughput(setting: Setting, rates: Rates, p: float) -> Ends:
    """Information bits of delivered blocks for each bit that is sent."""
    count = len(setting.rvs)
    mean, least, most = mean_transmissions(count, rates, p, TAIL / count)
    residual, low, high = in_order(rates.at(p, count, TAIL / count))
    rate = setting.a / setting.g
    return rate * (1 - residual) / mean, rate * (1 - high) / most, rate * (1 - low) / least


def crossing(ends: typing.Callable[[float], Ends], seat: int, points: list[float], target: float) -> float | None:
    """The last probability up to which an end of a rate's interval is at most the target, if it is so somewhere and not
    everywhere. An estimate (seat 0) that is 0 there was not measured, and tells none."""
    last = next((at for at in range(len(points) - 1, -1, -1) if ends(points[at])[seat] <= target), None)
    if last is None or last + 1 == len(points) or not seat and not ends(points[last])[0]:
        return None
    low, high = points[last], points[last + 1]
    while high - low > EXACT:
        middle = (low + high) / 2
        low, high = (middle, high) if ends(middle)[seat] <= target else (low, middle)
    return low


def targets(setting: Setting, rates: Rates) -> typing.Iterator[typing.Tuple[typing.Any, ...]]:
    """For each target rate and number of transmissions the probability with that rate. Its interval is from where the upper end of
    the rate's interval passes the target to where the lower end does."""
    points = [line.p for line in rates.points]
    for after in range(1, len(setting.rvs) + 1):
        ends = functools.lru_cache(maxsize=None)(lambda p, after=after: in_order(rates.at(p, after)))
        for target in TARGETS:
            yield (target, after, *(crossing(ends, seat, points, target) for seat in (0, 2, 1)))


def lines(setting: Setting, rates: Rates, points: typing.Sequence[float]) -> typing.Iterator[str]:
    """The lines of CSV."""
    yield "p,figure,transmissions,estimate,low,high"
    for p in points:
        for name, after, *ends in figures(setting, rates, p):
            yield f"{p!r},{name},{after},{','.join(f'{end:.4g}' for end in ends)}"
    for target, after, *found in targets(setting, rates):
        yield f"-,p_for_{target:g},{after},{','.join('-' if p is None else f'{p:.5f}' for p in found)}"
