"""Bits in beats, as a bus carries them."""

from __future__ import annotations

import typing

from ._faults import BIT, LENGTH, Error
from ._values import Count, Octets, number, octets_of

WIDEST = 512

# A filler of a codeword is 0 on the bus.
_DIGITS = bytes.maketrans(b"\0\1\2", b"010")


def _bus(width: Count, first: str) -> typing.Tuple[int, bool]:
    """How wide a beat is, and whether its first bit stands lowest."""
    bits = number("width", width)
    if not 1 <= bits <= WIDEST:
        raise ValueError(f"width is {bits}, and a beat has 1 to {WIDEST} bits")
    if first not in ("lsb", "msb"):
        raise ValueError(f"first is {first!r}: 'lsb', where the first bit of a beat stands lowest, or 'msb'")
    return bits, first == "lsb"


def beats(bits: Octets, width: Count, first: str = "lsb") -> typing.List[int]:
    """The beats of a bus that carries these bits, 1 to 512 of them a beat. They are numbers, in which the first bit is lowest if
    `first` is "lsb", and highest if it is "msb". Bits are octets 0 or 1; FILLER counts as 0. The last beat may have fewer: the
    places that are left over are 0."""
    count, lowest = _bus(width, first)
    given = octets_of(bits)
    if given.translate(None, b"\0\1\2"):
        raise Error(BIT)
    digits = given.translate(_DIGITS).decode()
    parts = [digits[start : start + count] for start in range(0, len(digits), count)]
    if lowest:
        return [int(part[::-1], 2) for part in parts]
    return [int(part.ljust(count, "0"), 2) for part in parts]


def bits_of_beats(
    given: typing.Iterable[Count], width: Count, first: str = "lsb", count: typing.Optional[Count] = None
) -> bytearray:
    """The bits of beats() again, an octet each: the first `count` of them, or all that the beats have room for. Raises
    Error(LENGTH) if there are not so many, ValueError if a number is wider than a beat."""
    bits, lowest = _bus(width, first)
    found = bytearray()
    for it in given:
        word = number("a beat", it, (1 << bits) - 1)
        digits = f"{word:0{bits}b}".encode().translate(bytes.maketrans(b"01", b"\0\1"))
        found += digits[::-1] if lowest else digits
    if count is None:
        return found
    wanted = number("count", count)
    if wanted > len(found):
        raise Error(LENGTH)
    return found[:wanted]
