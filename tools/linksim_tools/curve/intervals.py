"""Intervals of 95 percent for rates: Wilson's for plain counts, and that of Fay and Feuer for weighted ones."""

from __future__ import annotations

import functools
import math

# The quantile of the normal distribution for intervals of 95 percent.
QUANTILE = 1.959963984540054

# What each end of an interval of 95 percent leaves out.
TAIL = 0.025

# Beyond this shape the gamma distribution's quantile is taken from the normal one.
LARGE = 2000.0


def wilson(failed: float, rounds: int, quantile: float = QUANTILE) -> tuple[float, float]:
    """Wilson's interval for a probability of which `failed` of `rounds` tries speak."""
    share, square = failed / rounds, quantile**2
    middle = (share + square / (2 * rounds)) / (1 + square / rounds)
    half = quantile / (1 + square / rounds) * math.sqrt(share * (1 - share) / rounds + square / (4 * rounds**2))
    return (0.0 if failed == 0 else middle - half), (1.0 if failed == rounds else middle + half)


def gamma_below(shape: float, value: float) -> float:
    """The probability that a gamma variable of scale 1 is at most `value`: its series, or its continued fraction."""
    if value <= 0:
        return 0.0
    ahead = math.exp(shape * math.log(value) - value - math.lgamma(shape))
    if value < shape + 1:
        term = total = 1 / shape
        step = shape
        while term > 1e-15 * total:
            step += 1
            term *= value / step
            total += term
        return ahead * total
    return 1 - ahead * continued_fraction(shape, value)


def continued_fraction(shape: float, value: float) -> float:
    """The continued fraction of the incomplete gamma function, by Lentz's method."""
    tiny = 1e-300
    below = value + 1 - shape
    ratio, product = 1 / tiny, 1 / below
    total = product
    for step in range(1, 100_000):
        factor = -step * (step - shape)
        below += 2
        product = 1 / (factor * product + below or tiny)
        ratio = below + factor / ratio or tiny
        total *= product * ratio
        if abs(product * ratio - 1) < 1e-15:
            break
    return total


def near_quantile(shape: float, normal: float) -> float:
    """The gamma distribution's quantile, nearly, from the normal one's (Wilson and Hilferty)."""
    return shape * max(0.0, 1 - 1 / (9 * shape) + normal / (3 * math.sqrt(shape))) ** 3


def gamma_quantile(shape: float, share: float) -> float:
    """The value below which a gamma variable of scale 1 is with the probability `share`."""
    near = near_quantile(shape, normal_quantile(share))
    if shape > LARGE:
        return near
    low, high = 0.0, max(2 * near, shape + 10 * math.sqrt(shape) + 10)
    while high - low > 1e-12 * high:
        middle = (low + high) / 2
        low, high = (middle, high) if gamma_below(shape, middle) < share else (low, middle)
    return high


@functools.lru_cache(maxsize=64)
def normal_quantile(share: float) -> float:
    """The normal distribution's quantile, by bisection."""
    low, high = -40.0, 40.0
    while high - low > 1e-13:
        middle = (low + high) / 2
        low, high = (middle, high) if math.erfc(-middle / math.sqrt(2)) / 2 < share else (low, middle)
    return high


def fay_feuer(estimate: float, variance: float, greatest: float, tail: float = TAIL) -> tuple[float, float]:
    """The gamma interval of Fay and Feuer (Statistics in Medicine 16, 1997, 791-801) for a sum of weighted counts. The
    sum has this estimate and variance, and a count that was not seen has at most the weight `greatest`."""
    low = 0.0
    if variance > 0:
        low = variance / estimate * gamma_quantile(estimate**2 / variance, tail)
    mean, square = estimate + greatest, variance + greatest**2
    if mean <= 0:
        return low, 0.0
    return low, square / mean * gamma_quantile(mean**2 / square, 1 - tail)
