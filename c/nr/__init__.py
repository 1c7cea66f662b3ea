"""The data coding chain of 5G NR's shared channels (3GPP TS 38.212, Release 15), by the library libnr.so.3 (nr.h).

    import nr

    table = nr.Table.practice()  # or nr.Table.open("table.csv"), of a table that `python -m nr.table read` made
    tx = nr.Tx(g=300, qm=2)
    bits = nr.send(table, b"123456789", tx, rate=0.5)
    answer = nr.receive(table, 72, [(tx, bits)], rate=0.5)
    answer.outcome, answer.block

Octets may be anything that has a buffer of items of one octet each. That is bytes, bytearray, memoryview, array.array("B"), or
numpy's arrays of uint8, int8 or bool. A list of numbers from 0 to 255 will do too. What a call gives back is a bytearray; send()
also writes into a room of yours. A call that is rejected raises Error, and has written nothing. The calls let other threads run,
so a buffer must not change while one reads it.

send_many() and receive_many() take many blocks at once, in the rows of an array. A Receiver takes up one transmission at a call,
simulate() makes whole rounds, and bler() rates with intervals. These give arrays of numpy if it can be imported, else plain ones.

The published shift tables are not part of the module. The practice table has random shift values in their place.

A transport block is octets, eight bits each; its bits, an item each, go to bits=. The code rate goes to rate=, as 0.5 or
Fraction(1, 2). Or it goes to rate1024=, as the MCS tables of TS 38.214 have it, or to rate2048=, in 2048ths. Table, Tx, Receiver,
Error and what the calls return can be pickled.

The library is the one that the environment's NR_LIBRARY names, else the one beside the module or that the system's loader finds.
"""

from __future__ import annotations

import ctypes
import inspect
import typing
from ctypes import byref

from ._beats import beats, bits_of_beats
from ._faults import Error, fault_name, judge, length_error, near_sizes
from ._library import BufferStruct, PlanStruct, TxStruct, library, library_base, library_path
from ._many import receive_many, send_many
from ._packed import receive_packed, send_packed
from ._receiver import Receiver
from ._records import (Buffer as Buffer, Joined as Joined, Outcome, Plan as Plan, Received as Received, ReceivedMany as ReceivedMany,
                       Report as Report, Simulated as Simulated, Taken as Taken, Tx)
from ._simulate import simulate
from ._stages import ERASED, erase, hard, interleave, join, match, places, select
from ._table import Table, check_table, entries_of
from ._values import (MOST_BITS, Count, Limit, Octets, Rate, Rate1024, Rate2048, block_of, fresh_room, number, octets_of,
                      plan_struct, rate_of, room_of, settings, tx_struct, warn_of_soft, whole_octets_of)

__all__ = ["CRC16", "CRC24A", "CRC24B", "ERASED", "FILLER", "Error", "Outcome", "Receiver", "Table", "Tx", "beats", "bits_of_beats",
           "bler", "buffer", "check_table", "codeword", "crc", "cut", "encode", "erase", "fault_name", "hard", "interleave", "join",
           "lengths", "library_base", "library_path", "match", "near", "places", "plan", "receive", "receive_many",
           "receive_packed", "select", "send", "send_many", "send_packed", "simulate"]
# What calls return, and nobody makes.
RESULTS = ["Bler", *(it.__name__ for it in (Buffer, Joined, Plan, Received, ReceivedMany, Report, Simulated, Taken))]

__version__: str = library.nr_version().decode()
Fault = Error  # its name in earlier releases

CRC24A, CRC24B, CRC16 = 0, 1, 2
FILLER = 2  # a bit of a codeword that is never sent

_Room = typing.TypeVar("_Room")


def plan(a: Count, *, rate2048: Rate2048 = None, rate1024: Rate1024 = None, rate: Rate = None) -> Plan:
    """The plan of a transport block of `a` bits at the code rate rate2048 / 2048, as a Plan."""
    numbers = PlanStruct()
    block = rate_of(rate2048, rate1024, rate), number("a", a)
    judge(library.nr_plan(*block, byref(numbers)), block=block)
    return Plan(*(getattr(numbers, name) for name in Plan._fields))


def near(
    a: Count, *, rate2048: Rate2048 = None, rate1024: Rate1024 = None, rate: Rate = None
) -> typing.Tuple[typing.Optional[int], typing.Optional[int]]:
    """The sizes of transport blocks next to `a` bits that can be segmented, since their code blocks have one length (5.2.2): the
    greatest up to `a`, and the least from `a` on. Both are `a` if it can be; one is None if there is no such size."""
    in2048ths = rate_of(rate2048, rate1024, rate)
    judge(library.nr_plan(in2048ths, 8, byref(PlanStruct())))  # (which is refused by its rate alone)
    return near_sizes(in2048ths, number("a", a))


def crc(octets: Octets, poly: Count = CRC24A) -> int:
    """The parity bits of octets (5.1) as a number, the first parity bit highest; `poly` is CRC24A, CRC24B or CRC16."""
    given, parity = whole_octets_of(octets), ctypes.c_uint32()
    judge(library.nr_crc(number("poly", poly), given, len(given), byref(parity)))
    return parity.value


def cut(
    block: typing.Optional[Octets] = None, r: Count = 0, *, bits: typing.Optional[Octets] = None, rate2048: Rate2048 = None,
    rate1024: Rate1024 = None, rate: Rate = None,
) -> bytearray:
    """The K' bits of code block `r`, from 0, of a transport block's octets, an octet 0 or 1 each (5.2.2). They are its share of
    the block with its CRC, with the CRC24B of these if there are several code blocks, and without fillers. In place of the
    octets `bits` may have the block's bits."""
    octets, in2048ths = block_of(block, bits), rate_of(rate2048, rate1024, rate)
    shared, first, room = fresh_room(plan_struct(in2048ths, min(8 * len(octets), MOST_BITS + 8)).kdash)
    status = library.nr_cut(in2048ths, octets, len(octets), number("r", r), byref(first), room)
    judge(status, block=(in2048ths, 8 * len(octets)))
    return shared


def encode(table: Table, bits: Octets, *, graph: Count, z: Count) -> bytearray:
    """The N bits d that the K bits of a code block are coded into (5.3.2) by a Table. The base graph 1 or 2 and the lifting
    size alone decide how. They are an octet each: 0, 1 or FILLER. `bits` has 22 or 10 z of these: a FILLER is coded as 0, and
    stays one in d."""
    entries, given, lifting = entries_of(table), octets_of(bits, "bits"), number("z", z)
    columns, coded_columns = {1: (22, 66), 2: (10, 50)}.get(number("graph", graph), (0, 0))
    coded, first, room = fresh_room(coded_columns * min(lifting, 384))
    status = library.nr_encode(*entries, number("graph", graph), lifting, given, len(given), byref(first), room)
    judge(status, ("bits", len(given), columns * lifting))
    return coded


def codeword(
    table: Table, bits: Octets, a: Count, *, rate2048: Rate2048 = None, rate1024: Rate1024 = None, rate: Rate = None
) -> bytearray:
    """The N bits d that a code block is coded into (5.3.2) by a Table, an octet each: 0, 1 or FILLER. The code block is one of a
    transport block of `a` bits. `bits` has its K' bits, its CRC with them, each an octet 0 or 1."""
    entries, given, a = entries_of(table), octets_of(bits, "bits"), number("a", a)
    in2048ths = rate_of(rate2048, rate1024, rate)
    numbers = plan_struct(in2048ths, a)
    coded, first, room = fresh_room(numbers.n)
    status = library.nr_codeword(*entries, in2048ths, a, given, len(given), byref(first), room)
    judge(status, ("bits", len(given), numbers.kdash), (in2048ths, a))
    return coded


def buffer(
    a: Count, rv: Count, *, rate2048: Rate2048 = None, rate1024: Rate1024 = None, rate: Rate = None, lbrm: Limit = None
) -> Buffer:
    """The circular buffer of each code block of a transport block of `a` bits, and where the redundancy version begins in it,
    as a Buffer. `lbrm` is TBS_LBRM in bits, None for no limit."""
    link, found = settings(rate2048, rate1024, rate, lbrm), BufferStruct()
    a = number("a", a)
    judge(library.nr_buffer(byref(link), a, number("rv", rv), byref(found)), block=(link.rate2048, a))
    return Buffer(found.ncb, found.k0)


def lengths(
    a: Count, tx: Tx, *, rate2048: Rate2048 = None, rate1024: Rate1024 = None, rate: Rate = None
) -> typing.List[int]:
    """E_r, how many bits a Tx sends of each code block of a transport block of `a` bits (5.4.2.1), as a list."""
    in2048ths, a = rate_of(rate2048, rate1024, rate), number("a", a)
    shares = (ctypes.c_uint32 * plan_struct(in2048ths, a).c)()
    judge(library.nr_lengths(in2048ths, a, byref(tx_struct(tx)), shares, len(shares)), block=(in2048ths, a))
    return list(shares)


@typing.overload
def send(  # type: ignore
    table: Table, block: typing.Optional[Octets] = None, tx: typing.Optional[Tx] = None, *, bits: typing.Optional[Octets] = None,
    rate2048: Rate2048 = None, rate1024: Rate1024 = None, rate: Rate = None, lbrm: Limit = None, out: None = None,
) -> bytearray: ...


@typing.overload
def send(
    table: Table, block: typing.Optional[Octets] = None, tx: typing.Optional[Tx] = None, *, bits: typing.Optional[Octets] = None,
    rate2048: Rate2048 = None, rate1024: Rate1024 = None, rate: Rate = None, lbrm: Limit = None, out: _Room,
) -> _Room: ...


def send(
    table: Table, block: typing.Optional[Octets] = None, tx: typing.Optional[Tx] = None, *, bits: typing.Optional[Octets] = None,
    rate2048: Rate2048 = None, rate1024: Rate1024 = None, rate: Rate = None, lbrm: Limit = None, out: typing.Any = None,
) -> typing.Any:
    """The G bits that a Tx sends of a transport block's octets by a Table, each an octet 0 or 1. They are a bytearray, or `out`
    with them, which is a buffer of G octets that can be written. In place of the octets `bits` may have the block's bits, an
    item 0 or 1 each: send(table, tx=tx, bits=..). `lbrm` is TBS_LBRM in bits, None for no limit."""
    entries, given, link = entries_of(table), tx_struct(tx), settings(rate2048, rate1024, rate, lbrm)
    octets = block if type(block) is bytes and bits is None else block_of(block, bits)
    sent, first, room = fresh_room(min(given.g, 1 << 22)) if out is None else (out, *room_of(out))
    status = library.nr_send(*entries, byref(link), octets, len(octets), byref(given), byref(first), room)
    if status:
        judge(status, block=(link.rate2048, 8 * len(octets)))
    return sent


def receive(
    table: Table, a: Count, receptions: typing.Iterable[typing.Tuple[Tx, Octets]], *, rate2048: Rate2048 = None,
    rate1024: Rate1024 = None, rate: Rate = None, lbrm: Limit = None,
) -> Received:
    """What may be handed up of a transport block of `a` bits by a Table, as a Received. `receptions` are pairs: a Tx, and what
    was received at its G places. Each place is an octet 0 or 1, or another one (ERASED) if nothing was."""
    entries, pairs, a = entries_of(table), _pairs_of(receptions), number("a", a)
    for turn, (tx, octets) in enumerate(pairs, 1):
        if tx.g != len(octets):
            raise length_error(f"heard of transmission {turn}", len(octets), tx.g)
    txs, heard = (TxStruct * len(pairs))(*(tx for tx, _ in pairs)), b"".join(octets for _, octets in pairs)
    warn_of_soft(heard)
    link, (block, first, room) = settings(rate2048, rate1024, rate, lbrm), fresh_room(min(a, MOST_BITS) // 8)
    outcomes, left = (ctypes.c_uint32 * len(pairs))(), (ctypes.c_uint32 * plan_struct(link.rate2048, a).c)()
    given = byref(link), a, txs, len(pairs), heard, len(heard)
    status = library.nr_receive(*entries, *given, outcomes, len(outcomes), left, len(left), byref(first), room)
    judge(status, block=(link.rate2048, a))
    found = [Outcome(it) for it in outcomes]
    return Received(found, list(left), block if found and found[-1] == Outcome.DELIVERED else None)


def _pairs_of(receptions: typing.Iterable[typing.Tuple[Tx, Octets]]) -> typing.List[typing.Tuple[TxStruct, bytes]]:
    """The transmissions, each with its places."""
    listed: typing.List[typing.Any] = [receptions] if isinstance(receptions, Tx) else list(receptions)
    if any(isinstance(it, Tx) or not isinstance(it, (tuple, list)) or len(it) != 2 for it in listed):
        raise TypeError("receptions are pairs of a Tx and what was heard of it, in a list: [(tx, heard), ..]")
    return [(tx_struct(tx), octets_of(given, "heard")) for tx, given in listed]


def __dir__() -> typing.List[str]:
    return [*__all__, *RESULTS]


class _Head(inspect.Signature):
    """The head of a call as help() shows it: in one line, where Python from 3.13 on gives each argument its own."""

    def format(self, *, max_width: typing.Optional[int] = None, **how: typing.Any) -> str:
        said: str = getattr(super(), "format")(**how)
        return said


def _publish(name: str, it: typing.Any) -> None:
    """Makes something a public name of this module."""
    globals()[name] = it
    if hasattr(it, "__module__"):
        it.__module__ = __name__
    if callable(it) and hasattr(inspect.Signature, "format"):
        it.__signature__ = _Head.from_callable(it)


_OF_TOOLS = ("Bler", "bler")
for _name in {*__all__, *RESULTS}.difference(_OF_TOOLS):
    _publish(_name, globals()[_name])

# These two come from linksim_tools, which imports this module, so they are loaded when they are first used.
if typing.TYPE_CHECKING:
    from linksim_tools.curve import bler as _curve

    Bler = _curve.Bler
    bler = _curve.bler
else:

    def __getattr__(name: str) -> typing.Any:
        if name not in _OF_TOOLS:
            raise AttributeError(f"module {__name__!r} has no attribute {name!r}")
        from linksim_tools.curve import bler as curve

        for it in _OF_TOOLS:
            _publish(it, getattr(curve, it))
        return globals()[name]
