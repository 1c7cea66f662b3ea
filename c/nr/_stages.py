"""The stages after the code of a code block, and erasures that are drawn."""

from __future__ import annotations

import ctypes
import typing
from ctypes import byref

from ._arrays import fresh
from ._faults import judge
from ._library import MatchStruct, library
from ._records import Joined, Tx
from ._values import (MOST_BITS, Count, Limit, OctetRows, Octets, Rate, Rate1024, Rate2048, fresh_room, number, octets_of,
                      plan_struct, rate_of, room_of, rows_of, settings, threshold_of, tx_struct, view_of)

if typing.TYPE_CHECKING:
    from ._arrays import Numbers

ERASED = 2  # a place at which nothing was received; so is any number but 0 and 1

DECIDED = "llrs are decisions (0 and 1) and not log-likelihood ratios: receive() takes decisions as they are, with nr.ERASED (2)"

_Room = typing.TypeVar("_Room")


def select(
    d: Octets, e: Count, a: Count, *, rv: Count = 0, rate2048: Rate2048 = None, rate1024: Rate1024 = None, rate: Rate = None,
    lbrm: Limit = None,
) -> bytearray:
    """The `e` bits that the redundancy version selects from d of a code block (5.4.2.1), an octet 0 or 1 each. It is one of a
    transport block of `a` bits. `d` has N bits as codeword() and encode() give them; lengths() says how many a Tx sends of each
    code block."""
    given, link, a = octets_of(d, "d"), settings(rate2048, rate1024, rate, lbrm), number("a", a)
    bits, first, room = fresh_room(min(number("e", e), (1 << 22) + 1))
    status = library.nr_select(byref(link), a, number("rv", rv), given, len(given), byref(first), room)
    judge(status, ("d", len(given), plan_struct(link.rate2048, a).n), (link.rate2048, a))
    return bits


def interleave(bits: Octets, qm: Count) -> bytearray:
    """The selected bits of a code block in the order in which they are sent, `qm` to a symbol (5.4.2.2)."""
    given = octets_of(bits, "bits")
    sent, first, room = fresh_room(len(given))
    judge(library.nr_interleave(number("qm", qm), given, len(given), byref(first), room))
    return sent


def match(
    d: Octets, e: Count, *, graph: Count, z: Count, ncb: Count, qm: Count, fillers: Count = 0, rv: Count = 0
) -> bytearray:
    """The `e` bits that are sent of one code block by its own numbers (5.4.2), an octet 0 or 1 each. The redundancy version
    selects them from d, and they are interleaved, `qm` to a symbol: 1 leaves them in their order. `d` has N bits as encode()
    gives them. The last `fillers` of the K bits are FILLERs. The buffer keeps `ncb` bits, N if it is not limited."""
    given = octets_of(d, "d")
    numbers = MatchStruct(*map(number, ("graph", "z", "fillers", "ncb", "rv", "qm"), (graph, z, fillers, ncb, rv, qm)))
    bits, first, room = fresh_room(min(number("e", e), (1 << 22) + 1))
    status = library.nr_match(byref(numbers), given, len(given), byref(first), room)
    judge(status, ("d", len(given), {1: 66, 2: 50}.get(numbers.graph, 0) * numbers.z))
    return bits


def places(
    a: Count, tx: Tx, *, rate2048: Rate2048 = None, rate1024: Rate1024 = None, rate: Rate = None, lbrm: Limit = None
) -> Numbers:
    """Rate recovery: which bit of which code block each of the G places of a Tx carries, of a transport block of `a` bits (5.4.2, 5.5).
    Place m carries bit d_n of code block r if item m is r N + n, with d as codeword() returns it. So a soft receiver that keeps an
    array of C rows of N values adds what it received by numpy.add.at(rows.reshape(-1), places(..), llrs). The result is an array of
    numpy if it can be imported, else a plain one."""
    link, a, given = settings(rate2048, rate1024, rate, lbrm), number("a", a), tx_struct(tx)
    found, address = fresh((min(given.g, 1 << 22),))
    status = library.nr_places(byref(link), a, byref(given), ctypes.c_void_p(address), len(found))
    judge(status, block=(link.rate2048, a))
    return found  # type: ignore[no-any-return]


def join(
    bits: OctetRows, a: Count, *, rate2048: Rate2048 = None, rate1024: Rate1024 = None, rate: Rate = None
) -> Joined:
    """Joins code blocks into their transport block of `a` bits, and checks the CRCs (5.1, 5.2.2): the inverse of cut(). `bits` is an
    array of C rows of K' decided bits, each 0 or 1, or a list of such rows. Returns a Joined. The block is there whether the CRCs
    pass or not."""
    in2048ths, a, rows = rate_of(rate2048, rate1024, rate), number("a", a), rows_of(bits, (1, 2))
    numbers, parity = plan_struct(in2048ths, a), ctypes.c_uint32()
    passed, (block, first, room) = (ctypes.c_ubyte * numbers.c)(), fresh_room(min(a, MOST_BITS) // 8)
    given = ctypes.c_void_p(rows.address), rows.rows * rows.width
    status = library.nr_join(in2048ths, a, *given, passed, len(passed), byref(parity), byref(first), room)
    judge(status, ("bits", rows.rows * rows.width, numbers.c * numbers.kdash), (in2048ths, a))
    return Joined(block, bool(parity.value), [bool(it) for it in passed])


def erase(heard: _Room, *, seed: Count, p: typing.SupportsFloat) -> _Room:
    """Erases drawn places of a buffer that can be written, each with probability `p`: they become ERASED, the others stay. Returns
    the buffer. The generator is that of the field pcg:seed:threshold of a schedule (docs/formats.md), and the threshold
    min(2^32 - 1, round(p 2^32))."""
    if view_of(heard, "heard").format[-1:] == "?":
        raise TypeError("an array of bool has no room for ERASED: take one of uint8, as by .astype(numpy.uint8)")
    (first, room), drawn = room_of(heard), number("seed", seed, 2**64 - 1)
    judge(library.nr_erase(drawn, threshold_of(p), byref(first), room))
    return heard


def hard(llrs: typing.Any, threshold: typing.SupportsFloat) -> typing.Any:
    """Hard decisions on log-likelihood ratios, which are positive for a 0, for receive() and the other calls that receive. A place is
    ERASED if its value is at most `threshold` on either side of 0, or is NaN. Returns a bytearray, or an array of uint8 for an array
    of numpy. A wrong decision is not corrected: receive() may then deliver another block. So `threshold` has to be so high that no
    decision is wrong."""
    least = float(threshold)
    if not least >= 0:
        raise ValueError(f"threshold is {threshold}, and not a number from 0")
    if hasattr(llrs, "filled") and hasattr(llrs, "mask"):
        raise TypeError("llrs is a masked array, whose mask would be lost: .filled(0) erases the masked places")
    kind = getattr(getattr(llrs, "dtype", None), "kind", "") or _kind_of(llrs)
    if kind == "b":
        raise TypeError(DECIDED)
    if kind == "u":
        unsigned = "llrs are unsigned, so that none can stand for a 1: subtract their offset in a signed type first"
        raise TypeError(DECIDED if set(memoryview(llrs).tobytes()) <= {0, 1} else unsigned)
    if hasattr(llrs, "astype"):
        if kind not in ("i", "f"):
            raise TypeError("llrs are not real numbers")
        values = llrs.astype(float)
        if (values == 1).any() and ((values == 0) | (values == 1)).all():
            raise ValueError(DECIDED)
        return ((values < -least) + ERASED * ~(abs(values) > least)).astype("uint8")
    listed = [float(it) for it in llrs]
    if 1 in listed and not set(listed) - {0, 1}:
        raise ValueError(DECIDED)
    return bytearray(int(value < 0) if abs(value) > least else ERASED for value in listed)


def _kind_of(llrs: typing.Any) -> str:
    """The kind of number that a buffer or a list has, as numpy calls it: b for decisions, u for unsigned ones."""
    if isinstance(llrs, (list, tuple)):
        return "b" if llrs and all(isinstance(it, bool) for it in llrs) else ""
    try:
        letter = memoryview(llrs).format[-1:]
    except TypeError:
        return ""
    return "b" if letter == "?" else "u" if letter in "BHILQN" else ""
