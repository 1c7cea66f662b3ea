"""Shift tables."""

from __future__ import annotations

import ctypes
import os
import pathlib
import typing

from ._faults import Error, judge
from ._library import Entry, ReportStruct, library
from ._records import Report, Short
from ._values import Octets, octets_of

# The practice table is beside these files where the module is installed, and in two of the examples in a checkout.
HERE = pathlib.Path(__file__).resolve().parent
PRACTICE = [HERE / "practice.csv"], [HERE.parent.parent / "examples" / name for name in ("drawn.csv", "practice.csv")]


class Table(metaclass=Short):
    """A shift table, read from its text (docs/formats.md) once, for as many calls as you like; any number of threads may use it.
    `one` and `two` are how many entries it has of base graph 1 and of base graph 2; len() is how many in all.

    Table(octets) takes the octets of a text, and Table.open(path) a file. A text that is refused raises an Error, as check_table()
    does. A Table is pickled by its entries, which each call judges."""

    __slots__ = "one", "two", "_entries"

    def __init__(self, text: Octets) -> None:
        if isinstance(text, str):
            raise TypeError("the octets of a table's text are wanted: of a file's path Table.open(path) makes a Table")
        octets, count = octets_of(text), ctypes.c_size_t()
        self.one, self.two = check_table(octets)
        self._entries = (Entry * (self.one + self.two))()
        judge(library.nr_table_entries(octets, len(octets), self._entries, len(self), ctypes.byref(count)))

    @classmethod
    def open(cls, path: typing.Union[str, os.PathLike[str]]) -> Table:
        """The Table of a file."""
        with open(path, "rb") as file:
            return cls(file.read())

    @classmethod
    def practice(cls) -> Table:
        """The practice table, which comes with the module: both base graphs, with random shift values in place of the published ones.
        Those are read from the text of TS 38.212 by `python -m nr.table read`."""
        return cls(b"".join(path.read_bytes() for path in PRACTICE[not PRACTICE[0][0].exists()]))

    @property
    def entries(self) -> typing.List[typing.Tuple[int, ...]]:
        """The entries, ascending: each has the base graph, the row, the column and the shift values of the sets 0 to 7."""
        return [(it.graph, it.row, it.col, *it.values) for it in self._entries]

    def __len__(self) -> int:
        return len(self._entries)

    def __eq__(self, other: object) -> bool:
        return isinstance(other, Table) and bytes(self._entries) == bytes(other._entries)

    def __hash__(self) -> int:
        return hash(bytes(self._entries))

    def __repr__(self) -> str:
        return f"Table(one={self.one}, two={self.two})"

    def __getstate__(self) -> typing.Tuple[int, int, bytes]:
        return self.one, self.two, bytes(self._entries)

    def __setstate__(self, state: typing.Tuple[int, int, bytes]) -> None:
        self.one, self.two, octets = state
        self._entries = (Entry * (self.one + self.two)).from_buffer_copy(octets)
        if len(octets) != ctypes.sizeof(self._entries):
            raise ValueError(f"{len(octets)} octets are not those of {len(self)} entries")


def check_table(text: Octets) -> Report:
    """Judges the text of a shift table, and returns how many entries it has, as a Report.

    An Error has in `place` the number of the record for Csv, Number, Range and Twice. For Core, Extension and MissingRow it has
    the base graph, else 0."""
    octets, report = octets_of(text), ReportStruct()
    status = library.nr_table_check(octets, len(octets), ctypes.byref(report))
    if status:
        raise Error(status, report.place)
    return Report(report.one, report.two)


def entries_of(table: Table) -> typing.Tuple[ctypes.Array[Entry], int]:
    """The entries of a Table, and their count."""
    if not isinstance(table, Table):
        raise TypeError(f"{type(table).__name__} is no Table: make one of the text, by nr.Table(text)")
    return table._entries, len(table)
