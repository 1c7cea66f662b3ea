"""The places of a transmission that the link erases or flips. The library draws them, as the program draws them by
`pcg:seed:threshold` (docs/formats.md)."""

from __future__ import annotations

import itertools

import nr


def threshold_of(p: float) -> int:
    """The threshold of the program's drawn erasures for a probability."""
    return min(2**32 - 1, round(p * 2**32))


def marks(seed: int, threshold: int, count: int) -> bytearray:
    """An octet for each of the first words of a seed: 0 unless the word is below the threshold."""
    return nr.erase(bytearray(count), seed=seed, p=threshold / 2**32)


def drawn_places(seed: int, threshold: int, count: int) -> list[int]:
    """The places, of the first `count`, that are erased."""
    return list(itertools.compress(range(count), marks(seed, threshold, count)))
