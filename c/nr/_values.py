"""Python's values as the library takes them, and rooms for its results."""

from __future__ import annotations

import contextlib
import ctypes
import decimal
import fractions
import functools
import math
import os
import struct
import typing
import warnings

from ._faults import BIT, SIZE, Error
from ._library import PlanStruct, SettingsStruct, TxStruct, library
from ._records import Tx, whole

if typing.TYPE_CHECKING:
    from _typeshed import ReadableBuffer

    class HasArray(typing.Protocol):
        """An array of numpy, whose stubs do not say that it is a buffer."""

        @property
        def __array_interface__(self) -> typing.Any: ...

    Octets = typing.Union[ReadableBuffer, typing.Sequence[int], HasArray]
    # Rows of octets: an array of two dimensions, or a list of rows.
    OctetRows = typing.Union[ReadableBuffer, HasArray, typing.Sequence[Octets]]
else:
    Octets = typing.Union[bytes, bytearray, memoryview, typing.Sequence[int]]
    OctetRows = typing.Any

# The code rate in 2048ths and in 1024ths: the MCS tables of TS 38.214 have 682.5 and 916.5 among the latter.
Rate2048 = typing.Optional[typing.SupportsIndex]
Rate1024 = typing.Optional[typing.SupportsFloat]
# The code rate itself, as 0.5 or Fraction(1, 2).
Rate = typing.Optional[typing.SupportsFloat]
# A whole number, of Python or of numpy.
Count = typing.SupportsIndex
# TBS_LBRM in bits, or None if the circular buffer is not limited.
Limit = typing.Optional[typing.SupportsIndex]

MOST_BITS = 1_310_720  # of a transport block
_DIGITS = bytes.maketrans(b"\0\1", b"01")


def number(name: str, given: Count, most: int = 2**32 - 1) -> int:
    """A whole number up to `most`. ctypes would drop the high bits of a greater one."""
    found = whole(name, given)
    if not 0 <= found <= most:
        raise ValueError(f"{name} is {found}, and not 0 to {most:,}")
    return found


def _float_of(name: str, given: typing.SupportsFloat) -> float:
    """A number of any kind; else an error that names the argument."""
    if hasattr(given, "__float__"):
        with contextlib.suppress(TypeError):  # an array of several
            return float(given)
    raise TypeError(f"{name} is {given!r}, and not a number")


def _fraction(name: str, given: typing.SupportsFloat) -> fractions.Fraction:
    """A number of any kind as a fraction."""
    if isinstance(given, (int, fractions.Fraction, decimal.Decimal)) and math.isfinite(given):
        return fractions.Fraction(given)
    value = _float_of(name, given)
    if not math.isfinite(value):
        raise ValueError(f"{name} is {value:g}, and not a number")
    # By the shortest decimal that gives this float, also of 32 bits: 0.67 is the 0.67 of 6.2.2.
    with contextlib.suppress(ValueError):
        return fractions.Fraction(str(given))
    return fractions.Fraction(repr(value))


def threshold_of(p: typing.SupportsFloat) -> int:
    """The threshold by which places are erased with a probability."""
    chance = _float_of("p", p)
    if not 0 <= chance <= 1:
        raise ValueError(f"p is {chance:g}, and not a probability from 0 to 1")
    return min(2**32 - 1, round(chance * 2**32))


def rate_of(rate2048: Rate2048, rate1024: Rate1024, rate: Rate) -> int:
    """The code rate in 2048ths, of the one of the three that is given."""
    if sum(given is not None for given in (rate2048, rate1024, rate)) != 1:
        raise TypeError("one of rate, rate1024 and rate2048 is wanted: the code rate, or it in 1024ths or in 2048ths")
    if rate is not None:
        return _of_fraction(_fraction("rate", rate))
    if rate1024 is None:
        return number("rate2048", typing.cast(Count, rate2048))
    wanted = _fraction("rate1024", rate1024)
    if 0 < wanted < 1:
        raise ValueError(f"rate1024 is {rate1024}, and {float(1024 * wanted):g} in 1024ths: give that, or rate={rate1024}")
    return number("rate1024", _in_2048ths(2 * wanted))


# The code rates with which 6.2.2 and 7.2.2 compare, in 2048ths.
_COMPARED = fractions.Fraction(2048, 4), fractions.Fraction(2048 * 67, 100)


def _in_2048ths(doubled: fractions.Fraction) -> int:
    """A whole number of 2048ths that is as good as this one. A code rate only chooses the base graph, by being at most 0.25 or 0.67
    (6.2.2, 7.2.2). So the number below will do, unless it answers one of these differently, or is 0."""
    below = math.floor(doubled)
    same = all((below <= limit) == (doubled <= limit) for limit in _COMPARED)
    return below if below == doubled or below and same else below + 1


def _of_fraction(rate: fractions.Fraction) -> int:
    """A code rate of more than 0 and at most 1 in 2048ths."""
    if not 0 < rate <= 1:
        raise ValueError(f"rate is {float(rate):g}, and not more than 0 and at most 1: rate1024= has it in 1024ths")
    return _in_2048ths(2048 * rate)


@functools.lru_cache(maxsize=256, typed=True)
def _settings(rate2048: typing.Any, rate1024: typing.Any, rate: typing.Any, lbrm: typing.Any) -> SettingsStruct:
    if lbrm is not None and number("lbrm", lbrm) == 0:
        warnings.warn("lbrm=0 keeps no bit in a settings file: leave it out, or write None, for no limit", DeprecationWarning, 4)
    return SettingsStruct(rate_of(rate2048, rate1024, rate), 0 if lbrm is None else number("lbrm", lbrm))


def settings(rate2048: Rate2048, rate1024: Rate1024, rate: Rate, lbrm: Limit) -> SettingsStruct:
    """The settings of a link. No call writes them, so that calls and threads may share them."""
    try:
        return _settings(rate2048, rate1024, rate, lbrm)  # type: ignore[arg-type]
    except TypeError:
        pass  # (an array has no hash)
    return _settings.__wrapped__(rate2048, rate1024, rate, lbrm)


@functools.lru_cache(maxsize=256)
def _tx_struct(tx: Tx) -> TxStruct:
    given = TxStruct(**{name: number(name, getattr(tx, name)) for name in ("rv", "g", "qm", "nl")})
    given.some = tx.blocks is not None
    for block in tx.blocks or ():
        if not 0 <= block < 384:
            raise ValueError(f"code block {block} is not 0 to 383")
        given.blocks[block // 64] |= 1 << block % 64
    return given


def tx_struct(tx: typing.Optional[Tx]) -> TxStruct:
    """A transmission. No call writes it, so that calls and threads may share it."""
    if not isinstance(tx, Tx):
        given = "no Tx was given" if tx is None else f"{type(tx).__name__} is no Tx"
        raise TypeError(f"{given}: make one, as nr.Tx(g=300, qm=2)")
    return _tx_struct(tx)


def threads_of(jobs: typing.Optional[typing.SupportsIndex]) -> int:
    """How many threads work side by side: as many as there are cores if nothing is said."""
    if jobs is None:
        return len(os.sched_getaffinity(0))
    if whole("jobs", jobs) < 1:
        raise ValueError(f"jobs is {jobs}, and not 1 at least")
    return whole("jobs", jobs)


def plan_struct(rate2048: int, a: int) -> PlanStruct:
    """The numbers of a plan. If there is none, they are 0: the call that they are for tells then why."""
    numbers = PlanStruct()
    library.nr_plan(rate2048, a, ctypes.byref(numbers))
    return numbers


def view_of(given: typing.Any, name: str = "an argument") -> memoryview:
    """A buffer, whose items must be of one octet. Errors name it."""
    if isinstance(given, str):
        raise TypeError(f"{name} is a str: octets are wanted, as by .encode()")
    if hasattr(given, "filled") and hasattr(given, "mask"):
        raise TypeError(f"{name} is a masked array, whose mask would be lost: .filled(nr.ERASED) makes erased places of it")
    view = memoryview(given)
    if view.format[-1:] in ("e", "f", "d", "g"):
        raise TypeError(f"{name} has soft values: nr.hard(llrs, threshold) makes received and erased places of them")
    if view.itemsize > 1:  # (0 in an array of no row of ctypes, in Python 3.8)
        raise TypeError(f"{name} has items of {view.itemsize} octets: make them of one, as by .astype(numpy.uint8)")
    return view


def _listed(given: typing.Sequence[typing.Any], name: str) -> bytes:
    """The octets of a list of numbers; an error names the item."""
    try:
        return bytes(given)
    except (TypeError, ValueError):
        for at, it in enumerate(given):
            said = f"item {at} of {name} is {it!r}, and not a whole number from 0 to 255"
            if not hasattr(it, "__index__"):
                raise TypeError(said) from None
            if not 0 <= it <= 255:
                raise ValueError(said) from None
        raise


def octets_of(given: Octets, name: str = "an argument") -> bytes:
    """The octets of a buffer, or of a list of numbers."""
    if isinstance(given, bytes):
        return given
    return _listed(given, name) if isinstance(given, (list, tuple)) else view_of(given, name).tobytes()


def warn_of_soft(places: bytes) -> bool:
    """Warns who called the library of items that are none of 0, 1 and ERASED, and says whether it did."""
    if not places.translate(None, b"\0\1\2"):
        return False
    said = "items other than 0, 1 and 2 count as erased places: nr.hard(llrs, threshold) takes soft values"
    warnings.warn(said, stacklevel=3)
    return True


def whole_octets_of(given: Octets, callers: int = 1) -> bytes:
    """The octets of a buffer or a list, with a warning if they look like bits, for the caller so many calls above."""
    octets = octets_of(given)
    if not isinstance(given, (bytes, bytearray)):
        warn_of_bits(octets, callers + 1)
    return octets


def warn_of_bits(octets: bytes, callers: int) -> None:
    """Warns if each of eight octets or more is 0 or 1."""
    if len(octets) > 7 and not octets.translate(None, b"\0\1"):
        said = "octets are wanted, eight bits each, and all of these are 0 or 1: bits go to bits=, or through numpy.packbits"
        warnings.warn(said, stacklevel=callers + 2)


def items_of(view: memoryview) -> bytes:
    """The items of a buffer of whole numbers, whichever of their octets comes first, as an octet each."""
    if view.format[-1:] not in "?bBhHiIlLqQnN":
        raise TypeError("bits is not an array of whole numbers: bits are items 0 or 1, as by .astype(numpy.uint8)")
    if view.itemsize == 1:
        return view.tobytes()
    return bytes(struct.unpack(f"{view.format[:-1]}{view.nbytes // view.itemsize}{view.format[-1]}", view.tobytes()))


def packed(given: Octets) -> bytes:
    """The octets of bits, which are items 0 or 1 of any whole type, the first bit of an octet highest."""
    if isinstance(given, (list, tuple)):
        bits = _listed(given, "bits")
    else:
        bits = bytes(given) if isinstance(given, bytes) else items_of(memoryview(given))  # type: ignore[arg-type]
    if bits.translate(None, b"\0\1"):
        raise Error(BIT)
    if len(bits) % 8:
        raise Error(SIZE)
    return int(bits.translate(_DIGITS) or b"0", 2).to_bytes(len(bits) // 8, "big")


def block_of(block: typing.Optional[Octets], bits: typing.Optional[Octets]) -> bytes:
    """The octets of a transport block, of the one of both that is given."""
    if block is not None and bits is None:
        return whole_octets_of(block, 2)
    if block is not None or bits is None:
        raise TypeError("one of block and bits is wanted: the transport block's octets or its bits")
    return packed(bits)


def room_of(given: typing.Any) -> typing.Tuple[ctypes.c_char, int]:
    """A buffer's first octet, to be written with those after it, and how many there are: one piece of memory that can be."""
    view = memoryview(given)
    if view.itemsize > 1:
        raise TypeError(f"a buffer of {view.format!r} items of {view.itemsize} octets can't be written: take one of numpy.uint8")
    if view.readonly:
        raise TypeError("a buffer that can't be written")
    if not view.c_contiguous:
        raise ValueError("a buffer in pieces can't be written: take one that is contiguous")
    return ctypes.c_char.from_buffer(given) if view.nbytes else ctypes.c_char(), view.nbytes


def fresh_room(count: int) -> typing.Tuple[bytearray, ctypes.c_char, int]:
    """So many octets, the first of them, and how many they are."""
    octets = bytearray(count)
    return octets, ctypes.c_char.from_buffer(octets) if count else ctypes.c_char(), count


class Rows(typing.NamedTuple):
    """Rows of octets, one after the other: the address of the first, how many they are, and the octets of each. `memory` is
    what they stand in, which lives as long as this."""

    address: int
    rows: int
    width: int
    memory: object

    @property
    def end(self) -> int:
        """The address after the last one."""
        return self.address + self.rows * self.width


def rows_of(given: typing.Any, dimensions: typing.Tuple[int, ...] = (2,)) -> Rows:
    """The rows of an array of so many dimensions, of which all but the first make a row. Or those of a list of equally many octets
    each. They are read where they stand, but for a list's, and for an array's that is in pieces or can't be written. Of these a
    copy is made."""
    if isinstance(given, (list, tuple)):
        rows = [octets_of(row) for row in given]
        if len(set(map(len, rows))) > 1:
            raise ValueError("rows of different lengths: each has as many octets as the others")
        return _rows_in(b"".join(rows), len(rows), len(rows[0]) if rows else 0)
    view = view_of(given)
    if view.ndim not in dimensions or view.shape is None:
        raise TypeError(f"an array of {view.ndim} dimensions: two are wanted, with a row for each block")
    count, width = view.shape[0], math.prod(view.shape[1:])
    if view.c_contiguous and not view.readonly:
        first, _ = room_of(given)
        return Rows(ctypes.addressof(first), count, width, first)
    return _rows_in(view.tobytes(), count, width)


def _rows_in(octets: bytes, count: int, width: int) -> Rows:
    address = ctypes.cast(octets, ctypes.c_void_p).value  # type: ignore[arg-type]
    return Rows(address or 0, count, width, octets)
