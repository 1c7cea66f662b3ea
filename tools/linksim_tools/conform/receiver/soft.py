"""The soft values of a codeword as an array, and what is made of all of them at once."""

from __future__ import annotations

import array
import functools
import itertools
import operator
import sys
import typing

from linksim_tools.conform.receiver.reception import ZERO

if typing.TYPE_CHECKING:
    from linksim_tools.conform.receiver.steps import Places

    Numbers = array.array[int]
else:
    Numbers = array.array


class Soft(Numbers):
    """The soft values of a codeword. The same values made twice by the same steps are one object, which is told apart
    from others by itself. So what was computed of it is found again at once."""

    def __new__(cls, values: typing.Iterable[int]) -> Soft:
        made: typing.Any = array.array.__new__
        return typing.cast(Soft, made(cls, "i", values))

    __hash__ = object.__hash__

    def __eq__(self, other: object) -> bool:
        return self is other


# What stands for an octet: whether it is a value that arrives, whether it is not 0, whether its number is below 0.
ARRIVES = bytes(octet != ZERO for octet in range(256))
SOME, BELOW = b"0" + b"1" * 255, b"0" * 128 + b"1" * 128
# What stands for the sum of two digits.
SIGNS = bytes.maketrans(b"`ab", b"0+-")


@functools.lru_cache(64)
def empty(size: int) -> Soft:
    """A codeword of which nothing is known."""
    return Soft([0] * size)


@functools.lru_cache(64)
def lowest(size: int) -> Soft:
    """A codeword of the lowest numbers."""
    return Soft([-1 << 31] * size)


@functools.lru_cache(1024)
def gathered(places: Places, values: bytes, size: int) -> Soft:
    """The sum of the values that arrive at each place of a codeword; place -1 is none."""
    found, arrives = Soft(empty(size + 1)), values.translate(ARRIVES)
    for place, value in zip(itertools.compress(places, arrives), itertools.compress(values, arrives)):
        found[place] += value - ZERO
    found.pop()
    return found


def each(change: typing.Callable[..., int], *softs: Soft) -> Soft:
    """What is made of the values at each place. There are few different ones, each of which is changed once."""
    made = {values: change(*values) for values in set(zip(*softs))}
    return Soft(map(made.__getitem__, zip(*softs)))


def wrapped(bits: int) -> typing.Callable[[int], int]:
    """A number that wraps around in so many bits."""
    return lambda it: (it + (1 << bits - 1)) % (1 << bits) - (1 << bits - 1)


def digits(texts: typing.Iterable[bytes]) -> typing.Iterator[int]:
    """Texts as numbers, so that all octets are added or joined at once."""
    return (int.from_bytes(text, "big") for text in texts)


@functools.lru_cache(1024)
def summed(had: Soft, came: Soft) -> Soft:
    """The sum of what there was and what came. The highest bits are added apart, so that no number carries into the next."""
    if had is empty(len(had)):
        return came
    one, other, high = (int.from_bytes(it.tobytes(), sys.byteorder) for it in (had, came, lowest(len(had))))
    total = (one & ~high) + (other & ~high) ^ (one ^ other) & high
    return Soft(array.array("i", total.to_bytes(len(had) * had.itemsize, sys.byteorder)))


@functools.lru_cache(1024)
def known_and_ones(soft: Soft) -> tuple[str, str]:
    """A digit 1 for each place that is not 0; and one for each that is a one."""
    octets, size = soft.tobytes(), soft.itemsize
    known = functools.reduce(operator.or_, digits(octets[at::size].translate(SOME) for at in range(size)))
    highest = octets[size - 1 if sys.byteorder == "little" else 0 :: size]
    return known.to_bytes(len(soft), "big").decode(), highest.translate(BELOW).decode()


@functools.lru_cache(1024)
def part_of_signs(soft: Soft, first: int, length: int) -> str:
    """The signs of the soft values of d."""
    total = sum(digits(text.encode() for text in known_and_ones(soft)))
    return total.to_bytes(len(soft), "big").translate(SIGNS)[first : first + length].decode()
