"""Sending and receiving with eight bits an octet, as a fronthaul, an accelerator or a testbench has them."""

from __future__ import annotations

import ctypes
import typing
from ctypes import byref

from ._faults import judge, length_error
from ._library import TxStruct, library
from ._records import Outcome, Received, Tx
from ._table import Table, entries_of
from ._values import (MOST_BITS, Count, Limit, Octets, Rate, Rate1024, Rate2048, block_of, fresh_room, number, octets_of,
                      plan_struct, settings, tx_struct)


def send_packed(
    table: Table, block: typing.Optional[Octets] = None, tx: typing.Optional[Tx] = None, *, bits: typing.Optional[Octets] = None,
    rate2048: Rate2048 = None, rate1024: Rate1024 = None, rate: Rate = None, lbrm: Limit = None,
) -> bytearray:
    """What send() returns with eight bits an octet, the first bit highest, as numpy.packbits packs them: (G + 7) // 8 octets. The
    last one is filled with zero bits."""
    entries, given, link, octets = entries_of(table), tx_struct(tx), settings(rate2048, rate1024, rate, lbrm), block_of(block, bits)
    sent, first, room = fresh_room((min(given.g, 1 << 22) + 7) // 8)
    status = library.nr_send_packed(*entries, byref(link), octets, len(octets), byref(given), byref(first), room)
    judge(status, block=(link.rate2048, 8 * len(octets)))
    return sent


def receive_packed(
    table: Table, a: Count, receptions: typing.Iterable[typing.Tuple[Tx, Octets, Octets]], *, rate2048: Rate2048 = None,
    rate1024: Rate1024 = None, rate: Rate = None, lbrm: Limit = None,
) -> Received:
    """What receive() returns, of places with eight an octet, the first one highest. `receptions` has for each transmission its Tx, its
    bits, and which of them are known: (G + 7) // 8 octets each. In the last a place that was received has a 1, an erased one a 0."""
    entries, a, link = entries_of(table), number("a", a), settings(rate2048, rate1024, rate, lbrm)
    parts = [(tx_struct(tx), octets_of(bits, "bits"), octets_of(known, "known")) for tx, bits, known in receptions]
    for turn, (tx, *pair) in enumerate(parts, 1):
        for name, octets in zip(("bits", "known"), pair):
            if len(octets) != (tx.g + 7) // 8:
                raise length_error(f"{name} of transmission {turn}", len(octets), (tx.g + 7) // 8)
    txs, (bits, known) = (TxStruct * len(parts))(*(it[0] for it in parts)), (b"".join(it[at] for it in parts) for at in (1, 2))
    outcomes, left = (ctypes.c_uint32 * len(parts))(), (ctypes.c_uint32 * plan_struct(link.rate2048, a).c)()
    block, first, room = fresh_room(min(a, MOST_BITS) // 8)
    given = byref(link), a, txs, len(parts), bits, len(bits), known, len(known)
    status = library.nr_receive_packed(*entries, *given, outcomes, len(outcomes), left, len(left), byref(first), room)
    judge(status, block=(link.rate2048, a))
    found = [Outcome(it) for it in outcomes]
    return Received(found, list(left), block if found and found[-1] == Outcome.DELIVERED else None)
