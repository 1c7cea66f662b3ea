"""A receiver in a room of its caller's, as C keeps it."""

from __future__ import annotations

import typing

import clib
from model import coding


def receiver_size(rate2048: int, a: int) -> int:
    """How many octets the room of a receiver has."""
    return int.from_bytes(clib.written(clib.counter(), "nr_receiver_size", rate2048, a).octets(), "little")


class Kept:
    """A receiver as C keeps it: its room, and the rooms that a call writes."""

    def __init__(self, table: clib.Table, settings: typing.Any, a: int) -> None:
        self.given = table, settings, a
        self.room = clib.Room(receiver_size(settings[0], a))
        self.status = clib.call("nr_receiver_start", *self.given, self.room)

    def put(self, octets: bytes) -> None:
        """Puts octets into the room."""
        start = clib.Room.AROUND
        self.room.whole[start : start + len(octets)] = octets

    def take(
        self, tx: clib.Tx, heard: bytes, left: int | None = None, block: int | None = None
    ) -> tuple[int, tuple[clib.Room, clib.Room, clib.Room]]:
        """The status of a call, and the rooms that it may write."""
        a, rate2048 = self.given[2], self.given[1][0]
        some = coding.plan(a, rate2048)["c"] if left is None else left
        rooms = clib.struct(), clib.Room(some, item=4), clib.Room(a // 8 if block is None else block)
        return clib.call("nr_receiver_take", *self.given, self.room, tx, heard, *rooms), rooms
