"""The generator of drawn erasures once more: PCG-XSH-RR 64/32, as its author's paper has it, on stream 54."""

from __future__ import annotations

import typing

MULTIPLIER = 6_364_136_223_846_793_005
BELOW_64, BELOW_32 = 2**64 - 1, 2**32 - 1


def words(seed: int, count: int, stream: int = 54) -> typing.Iterator[int]:
    """The first words of a seed. The state is stepped once from zero, and once more with the seed added."""
    increment = stream << 1 | 1
    state = ((increment + seed) * MULTIPLIER + increment) & BELOW_64
    for _ in range(count):
        mixed = (state >> 18 ^ state) >> 27 & BELOW_32
        turn = state >> 59
        yield (mixed >> turn | mixed << (-turn & 31)) & BELOW_32
        state = (state * MULTIPLIER + increment) & BELOW_64


def places(seed: int, threshold: int, count: int) -> list[int]:
    """Which of so many places are erased."""
    return [place for place, word in enumerate(words(seed, count)) if word < threshold]
