"""Lists of bits as text, a character a bit: `0`, `1`, and `-` for a filler; packings that are read; CRC remainders."""

from __future__ import annotations

import binascii
import functools
import itertools
import re
import typing

FILLER = "-"

# Bits as the library has them, an octet each, to characters.
OF_LIBRARY = bytes.maketrans(b"\0\1\2", b"01-")

# What puts bits in another order.
Order = typing.Callable[[str], str]

# The character of each bit of a list in JSON.
CHARACTERS = {0: "0", 1: "1", None: FILLER}

# A word of one to four octets.
WORD = re.compile("0x([0-9a-fA-F]{2}){1,4}")

# The generator polynomials of 5.1: their degree, and their other terms.
POLYNOMIALS = {"CRC24A": (24, 0x864CFB), "CRC24B": (24, 0x800063), "CRC16": (16, 0x1021)}


class Unreadable(Exception):
    """A list of bits cannot be read; its text says why."""


def of_library(bits: bytearray) -> str:
    """Bits that the library wrote."""
    return bits.translate(OF_LIBRARY).decode()


def of_octets(octets: bytes) -> typing.Any:
    """The bits of octets, the highest of each first."""
    return f"{int.from_bytes(octets, 'big'):0{8 * len(octets)}b}" if octets else ""


def octets_of(bits: str) -> bytes:
    """The octets of bits, the first bit of each highest, the last octet filled with zeros."""
    filled = bits + "0" * (-len(bits) % 8)
    return int(filled, 2).to_bytes(len(filled) // 8, "big") if filled else b""


def of_digits(digits: str, count: int) -> str:
    """The first `count` bits of hexadecimal digits."""
    return f"{int(digits, 16):0{4 * len(digits)}b}"[:count] if digits else ""


def hexadecimal(bits: str) -> str:
    """Hexadecimal digits, the first bit of each highest, the last digit filled with zeros."""
    return octets_of(bits).hex()[: -(-len(bits) // 4)]


def words_of(bits: str, width: int) -> list[str]:
    """The bits in words of so many, of which the last one may be shorter."""
    return [bits[at : at + width] for at in range(0, len(bits), width)]


def in_words(width: int, order: Order, whole: bool = False) -> Order:
    """Each word of so many bits in this order; a last word that is not whole too, or not."""
    return lambda bits: "".join(word if whole and len(word) < width else order(word) for word in words_of(bits, width))


def parted(bits: str, lengths: typing.Iterable[int]) -> list[str]:
    """The bits in parts of these lengths."""
    ends = [0, *itertools.accumulate(lengths)]
    return [bits[first:last] for first, last in zip(ends, ends[1:])]


def backwards(bits: str) -> str:
    return bits[::-1]


def octets_backwards(bits: str) -> str:
    """The octets in reverse, each as it is."""
    return "".join(words_of(bits, 8)[::-1])


def each_octet_reversed(bits: str) -> str:
    """The bits with those of each octet in reverse, also those of a last octet that is not whole."""
    return "".join(map(backwards, words_of(bits, 8)))


def inverted(bits: str) -> str:
    """Ones for zeros, and zeros for ones; fillers stay."""
    return bits.translate({48: "1", 49: "0"})


def from_hex(value: str) -> str:
    """Hexadecimal digits, the first bit of each highest."""
    if not isinstance(value, str) or value.strip("0123456789abcdefABCDEF"):
        raise Unreadable("has other characters than hexadecimal digits")
    return of_digits(value, 4 * len(value))


def from_octets(value: int) -> typing.Any:
    """Octets as numbers, the first bit of each highest."""
    if not isinstance(value, list) or not all(type(it) is int and it in range(256) for it in value):
        raise Unreadable("is not a list of octets")
    return of_octets(bytes(value))


def from_words(value: int) -> typing.Any:
    """Words of up to four octets as tools/vectors writes them: the first octet lowest, two digits an octet."""
    if not isinstance(value, list) or not all(isinstance(it, str) and WORD.fullmatch(it) for it in value):
        raise Unreadable("is not a list of words such as 0x0a1b2c3d")
    return of_octets(b"".join(bytes.fromhex(it[2:])[::-1] for it in value))


def from_list(value: list[int]) -> str:
    """The bits one by one, null for a filler."""
    try:
        return "".join([CHARACTERS[it] for it in value])
    except (KeyError, TypeError):
        raise Unreadable("is not a list of 0, 1 and, for a filler, null") from None


READERS: dict[str, typing.Callable[[typing.Any], str]] = {
    "hex": from_hex, "octets": from_octets, "lsb": lambda value: each_octet_reversed(from_octets(value)), "le32": from_words,
    "bits": from_list
}


def little_endian_words(bits: str) -> list[str]:
    """Words of four octets as DPDK's vector files have them: the first octet lowest, two digits for each octet that is there."""
    whole = octets_of(bits)
    return ["0x" + whole[start : start + 4][::-1].hex() for start in range(0, len(whole), 4)]


# How a list of bits is written. docs/vectors.md says how each packing reads.
PACKINGS: dict[str, typing.Callable[[str], typing.Any]] = {
    "hex": hexadecimal, "octets": lambda bits: list(octets_of(bits)), "le32": little_endian_words,
    "lsb": lambda bits: [int(octet[::-1], 2) for octet in words_of(bits + "0" * (-len(bits) % 8), 8)],
    "bits": lambda bits: list(map(int, bits)),
}


def from_packed(value: typing.Mapping[str, object]) -> str:
    """The bits of an object such as {"count": 24, "hex": "011021"}."""
    forms = value.keys() & READERS.keys()
    count = value.get("count")
    if len(forms) != 1 or len(value) != 2 or type(count) is not int or count < 0:
        raise Unreadable('is not an object of "count" and one of ' + ", ".join(f'"{name}"' for name in READERS))
    form, = forms
    bits = READERS[form](value[form])
    if len(bits) < count:
        raise Unreadable(f"says {count} bits, and its {form} has {len(bits)}")
    return bits[:count]


def read(value: typing.Any) -> str:
    """The bits of what JSON has: a packed object, a list of 0, 1 and null, or a text of 0, 1 and -."""
    if isinstance(value, dict):
        return from_packed(value)
    if isinstance(value, str):
        if value.strip("01-"):
            raise Unreadable("has other characters than 0, 1 and, for a filler, -")
        return value
    return from_list(value)


def is_packed(value: list[typing.Any]) -> bool:
    """Whether a value is one list of bits, and no list of such lists."""
    return not isinstance(value, list) or not any(isinstance(it, (dict, list, str)) for it in value)


@functools.lru_cache(maxsize=64)
def table_of(degree: int, terms: int) -> list[int]:
    """What each octet that leaves the register adds to it."""
    table = []
    for octet in range(256):
        rest = octet << (degree - 8)
        for _ in range(8):
            rest = rest << 1 ^ (terms | 1 << degree if rest >> (degree - 1) & 1 else 0)
        table.append(rest)
    return table


def remainder_of(polynomial: tuple[int, int], number: int, count: int) -> int:
    """The remainder of a polynomial of `count` terms times D to the degree of the CRC, by its generator polynomial."""
    octets = number.to_bytes(-(-count // 8), "big")
    if polynomial == POLYNOMIALS["CRC16"]:
        return binascii.crc_hqx(octets, 0)
    degree, _ = polynomial
    table, high, most, rest = table_of(*polynomial), degree - 8, (1 << degree) - 1, 0
    for octet in octets:
        rest = (rest << 8 & most) ^ table[rest >> high ^ octet]
    return rest


def remainder(polynomial: tuple[int, int], bits: str, register: int = 0) -> int:
    """The parity bits of a list as a number, by a generator polynomial's degree and its other terms, if the register
    begins with these bits."""
    degree, _ = polynomial
    number, count = int(bits or "0", 2), len(bits)
    # What the register has is the same as if it were added to the first bits of the list. If the list is short, the
    # rest is added to what follows it.
    if count >= degree:
        return remainder_of(polynomial, number ^ register << (count - degree), count)
    whole = number << degree ^ register << count
    return remainder_of(polynomial, whole >> degree, count) ^ whole & ((1 << degree) - 1)
