"""Many transport blocks by one call of the library, read and written where they stand."""

from __future__ import annotations

import collections.abc
import ctypes
import typing

from ._arrays import fresh
from ._faults import ROOM, Error, judge, length_error
from ._library import TxStruct, library
from ._records import Outcome, ReceivedMany, Tx
from ._table import Table, entries_of
from ._values import (MOST_BITS, Count, Limit, OctetRows, Rate, Rate1024, Rate2048, Rows, items_of, number, packed, plan_struct, room_of,
                      rows_of, settings, tx_struct, view_of, warn_of_bits, warn_of_soft)

if typing.TYPE_CHECKING:
    from ._arrays import Places

# So many octets are looked at at a time.
PIECE = 1 << 22

_Room = typing.TypeVar("_Room")
Txs = typing.Union[Tx, typing.Iterable[Tx]]


@typing.overload
def send_many(  # type: ignore
    table: Table, blocks: typing.Optional[OctetRows] = None, tx: typing.Optional[Txs] = None, *, bits: typing.Any = None,
    rate2048: Rate2048 = None, rate1024: Rate1024 = None, rate: Rate = None, lbrm: Limit = None, out: None = None,
) -> Places: ...


@typing.overload
def send_many(
    table: Table, blocks: typing.Optional[OctetRows] = None, tx: typing.Optional[Txs] = None, *, bits: typing.Any = None,
    rate2048: Rate2048 = None, rate1024: Rate1024 = None, rate: Rate = None, lbrm: Limit = None, out: _Room,
) -> _Room: ...


def send_many(
    table: Table, blocks: typing.Optional[OctetRows] = None, tx: typing.Optional[Txs] = None, *, bits: typing.Any = None,
    rate2048: Rate2048 = None, rate1024: Rate1024 = None, rate: Rate = None, lbrm: Limit = None, out: typing.Any = None,
) -> typing.Any:
    """What send() gives of each of many transport blocks, as an array with a row for each block. It has the G octets of a Tx, or of
    each of a list of Tx one after the other, and receive_many() takes it. If `out` is given, which has as many octets, it
    is written and returned. `blocks` is an array with a row of octets for each block, or a list of blocks of equal length. In place
    of it `bits` may have a row of bits for each: send_many(table, tx=tx, bits=..). On an Error nothing is written."""
    entries, rows, structs = entries_of(table), _blocks_of(blocks, bits), _structs_of(tx)
    # A larger G is refused before the room is judged.
    g = sum(it.g for it in structs if it.g <= 1 << 22)
    made, address = fresh((rows.rows, g if out is None else 0), ctypes.c_ubyte)
    sent, place = (made, _at(address)) if out is None else (out, _place_of(out, rows, g))
    link, count, a = settings(rate2048, rate1024, rate, lbrm), rows.rows, 8 * rows.width
    if not count and not a:
        return sent  # (of an empty list nobody can say how long its blocks are)
    status = library.nr_send_many(*entries, ctypes.byref(link), a, *_listed(structs), count, _at(rows.address), count * rows.width,
                                  place, count * g)
    judge(status, block=(link.rate2048, a))
    return sent


def receive_many(
    table: Table, a: Count, txs: Txs, heard: typing.Any, *, rate2048: Rate2048 = None,
    rate1024: Rate1024 = None, rate: Rate = None, lbrm: Limit = None,
) -> ReceivedMany:
    """What receive() returns of each of many transport blocks of `a` bits, as a ReceivedMany. `txs` is the Tx of all, or a list
    of those that each block was sent by. `heard` is a list with an array for each Tx, which has a row of its G places for each
    block. Or it is one array of three dimensions: blocks, transmissions, places. Or it is one of two, or a list of rows, in which
    the places of a block's transmissions come one after the other. Several threads may call at once, each with rows of its own:
    they work side by side."""
    structs = _structs_of(txs)
    entries, a = entries_of(table), number("a", a)
    rows = _heard_of(heard, [tx.g for tx in structs])
    for at in range(0, rows.count * rows.width, PIECE):
        if warn_of_soft(ctypes.string_at(rows.place.value + at, min(rows.count * rows.width - at, PIECE))):
            break
    link = settings(rate2048, rate1024, rate, lbrm)
    sent, c = len(structs), plan_struct(link.rate2048, a).c
    counts, kinds = (sent, c, min(a, MOST_BITS) // 8), (ctypes.c_uint32, ctypes.c_uint32, ctypes.c_ubyte)
    made = [fresh((rows.count, count), kind) for count, kind in zip(counts, kinds)]
    places = [_at(address) for _, address in made]
    rooms = [it for place, count in zip(places, counts) for it in (place, count * rows.count)]
    status = library.nr_receive_many(*entries, ctypes.byref(link), a, *_listed(structs), rows.count, rows.place,
                                     rows.width * rows.count, *rooms)
    judge(status, block=(link.rate2048, a))
    outcomes, left, blocks = (array for array, _ in made)
    after, _ = fresh((rows.count,))
    after[:] = [ends.index(Outcome.DELIVERED) + 1 if Outcome.DELIVERED in ends else 0 for ends in outcomes.tolist()]
    return ReceivedMany(outcomes, left, blocks, after)


class _Heard:
    """The places of all blocks, a row for each: where they stand, or put together of several arrays."""

    def __init__(self, arrays: typing.List[Rows]) -> None:
        self.arrays, self.count, self.width = arrays, arrays[0].rows, sum(rows.width for rows in arrays)
        self.joined = (ctypes.c_char * (self.count * self.width if len(arrays) > 1 else 0))()
        self.place = _at(ctypes.addressof(self.joined) if len(arrays) > 1 else arrays[0].address)
        to = ctypes.addressof(self.joined)
        for at in range(self.count if len(arrays) > 1 else 0):
            for rows in arrays:
                ctypes.memmove(to, rows.address + at * rows.width, rows.width)
                to += rows.width


def _heard_of(heard: typing.Any, lengths: typing.List[int]) -> _Heard:
    """What was heard of each block, by transmissions of these lengths."""
    if isinstance(heard, (list, tuple)) and heard and all(map(_has_rows, heard)):
        arrays = [rows_of(rows) for rows in heard]
        if len({rows.rows for rows in arrays}) > 1:
            raise ValueError("arrays of different heights: each has a row for each block")
        _judge_widths([rows.width for rows in arrays], lengths, arrays[0].rows)
        return _Heard(arrays)
    shape = () if isinstance(heard, (list, tuple)) else memoryview(heard).shape or ()
    rows = rows_of(heard, (2, 3))
    if len(shape) == 3:
        _judge_widths([shape[2]] * shape[1], lengths, shape[0])
    elif rows.rows and rows.width != sum(lengths):
        raise length_error("a row of heard", rows.width, sum(lengths))
    return _Heard([rows])


def _judge_widths(widths: typing.List[int], lengths: typing.List[int], rows: int) -> None:
    """Raises the fault of places that are not as many as the transmissions want."""
    if len(widths) != len(lengths):
        raise length_error("the list of what was heard", len(widths), len(lengths))
    for turn, (width, length) in enumerate(zip(widths, lengths), 1):
        if rows and width != length:
            raise length_error(f"a row of what was heard of transmission {turn}", width, length)


def _has_rows(given: typing.Any) -> bool:
    """Whether this is an array of rows, or a list of them, and not a row."""
    if isinstance(given, (list, tuple)):
        return bool(given) and hasattr(given[0], "__len__")
    return not isinstance(given, (bytes, bytearray)) and memoryview(given).ndim == 2


def _structs_of(txs: typing.Any) -> typing.List[TxStruct]:
    """The transmissions of one Tx, or of several."""
    several = isinstance(txs, collections.abc.Iterable) and not isinstance(txs, Tx)
    return [tx_struct(tx) for tx in (txs if several else [txs])]


def _listed(structs: typing.List[TxStruct]) -> typing.Tuple[typing.Any, int]:
    """Transmissions, as the library takes them."""
    return (TxStruct * len(structs))(*structs), len(structs)


def _at(address: int) -> typing.Any:
    """An address, as the library takes it."""
    return ctypes.c_void_p(address)


def _blocks_of(blocks: typing.Any, bits: typing.Any) -> Rows:
    """The rows of octets of the one of both that is given."""
    if (blocks is None) == (bits is None):
        raise TypeError("one of blocks and bits is wanted: the transport blocks' octets or their bits")
    if bits is not None:
        return rows_of([packed(row) for row in (bits if isinstance(bits, (list, tuple)) else _cut(bits))])
    rows = rows_of(blocks)
    first = blocks[0] if isinstance(blocks, (list, tuple)) and blocks else blocks
    if not isinstance(first, (bytes, bytearray)):
        warn_of_bits(ctypes.string_at(rows.address, min(rows.width, MOST_BITS) if rows.rows else 0), 2)
    return rows


def _cut(bits: typing.Any) -> typing.List[bytes]:
    """The rows of an array of bits, whose items are of any whole type."""
    view = memoryview(bits)
    if view.ndim != 2:
        raise TypeError(f"an array of {view.ndim} dimensions: two are wanted, with a row for each block")
    count, width = view.shape or (0, 0)
    items = items_of(view)
    return [items[width * row : width * row + width] for row in range(count)]


def _place_of(out: typing.Any, rows: Rows, g: int) -> typing.Any:
    """Where a buffer stands that has a row of G octets for each block, apart from the blocks. While this is held its size stays."""
    first, room = room_of(out)
    view = view_of(out)
    if room != rows.rows * g or view.ndim == 2 and view.shape != (rows.rows, g):
        raise Error(ROOM)
    at = ctypes.addressof(first)
    if at < rows.end and rows.address < at + room:
        raise ValueError("out overlaps the blocks: give it memory of its own")
    return ctypes.byref(first)
