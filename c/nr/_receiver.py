"""A receiver that its caller keeps, and which takes up one transmission at a call."""

from __future__ import annotations

import ctypes
import typing

from ._faults import judge
from ._library import library
from ._records import Outcome, Short, Taken, Tx
from ._table import Table, entries_of
from ._values import (MOST_BITS, Count, Limit, Octets, Rate, Rate1024, Rate2048, fresh_room, number, octets_of, plan_struct, room_of,
                      settings, tx_struct, warn_of_soft)


class Receiver(metaclass=Short):
    """A receiver of a transport block of `a` bits, which has received nothing at first. `room` has what it received, as octets:
    Receiver(.., room=octets) goes on from there. It can be copied and pickled. One thread at a time may call take()."""

    __slots__ = "table", "a", "rate2048", "lbrm", "_room"

    def __init__(
        self, table: Table, a: Count, *, rate2048: Rate2048 = None, rate1024: Rate1024 = None, rate: Rate = None, lbrm: Limit = None,
        room: typing.Optional[Octets] = None,
    ) -> None:
        link, size = settings(rate2048, rate1024, rate, lbrm), ctypes.c_size_t()
        self.table, self.a, self.rate2048, self.lbrm = table, number("a", a), int(link.rate2048), int(link.lbrm) or None
        if room is not None:
            self._room = bytearray(octets_of(room, "room"))
            return
        block = self.rate2048, self.a
        judge(library.nr_receiver_size(*block, ctypes.byref(size)), block=block)
        self._room = bytearray(size.value)
        first, octets = room_of(self._room)
        status = library.nr_receiver_start(*entries_of(table), ctypes.byref(link), self.a, ctypes.byref(first), octets)
        judge(status, block=block)

    def __repr__(self) -> str:
        return f"Receiver(a={self.a}, rate2048={self.rate2048}, lbrm={self.lbrm})"

    @property
    def rate(self) -> float:
        """The code rate."""
        return self.rate2048 / 2048

    @property
    def room(self) -> bytes:
        """What it has received, and of which table, size and buffer it is."""
        return bytes(self._room)

    def take(self, tx: Tx, heard: Octets) -> Taken:
        """Takes up a transmission, of which `heard` has what was received at its G places, as receive() has it. Returns what may be
        handed up of all that was received so far, as a Taken. On an Error it is as it was: Room or State means that the room is that of
        another receiver."""
        entries, given, places = entries_of(self.table), tx_struct(tx), octets_of(heard, "heard")
        warn_of_soft(places)
        link, outcome = settings(self.rate2048, None, None, self.lbrm), ctypes.c_uint32()
        left, (kept, octets) = (ctypes.c_uint32 * plan_struct(self.rate2048, self.a).c)(), room_of(self._room)
        block, first, room = fresh_room(min(self.a, MOST_BITS) // 8)
        status = library.nr_receiver_take(
            *entries, ctypes.byref(link), self.a, ctypes.byref(kept), octets, ctypes.byref(given), places, len(places),
            ctypes.byref(outcome), left, len(left), ctypes.byref(first), room,
        )
        judge(status, ("heard", len(places), given.g), (self.rate2048, self.a))
        found = Outcome(outcome.value)
        return Taken(found, list(left), block if found is Outcome.DELIVERED else None)

    def __getstate__(self) -> typing.Tuple[Table, int, int, typing.Optional[int], bytes]:
        return self.table, self.a, self.rate2048, self.lbrm, self.room

    def __setstate__(self, state: typing.Tuple[Table, int, int, typing.Optional[int], bytes]) -> None:
        self.table, self.a, self.rate2048, self.lbrm, room = state
        self._room = bytearray(room)
