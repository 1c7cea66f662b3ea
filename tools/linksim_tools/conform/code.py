"""LDPC coding by a shift table (TS 38.212, 5.3.2): a column is a number of Zc bits, its first bit the highest."""

from __future__ import annotations

import csv
import dataclasses
import functools
import pathlib
import typing

from linksim_tools.common.graphs import GRAPHS, LARGEST
from linksim_tools.common.program import Failed
from linksim_tools.conform.bits import FILLER
from linksim_tools.conform.case import Plan, Row, Tables
from linksim_tools.conform.clauses import Clauses, Coding, Impossible, right

# A header may have a field of any length, as the program has it.
csv.field_size_limit(1 << 30)


def entries_of(text: str) -> Tables:
    """The entries of an accepted shift table's text, by base graph and row: lists of a column and its eight values."""
    tables: dict[int, dict[int, Row]] = {}
    for record in csv.reader(text.splitlines()):
        fields = [field.strip(" \t") for field in record]
        if fields and fields[0] != "graph":
            graph, row, column, *values = map(int, fields)
            tables.setdefault(graph, {}).setdefault(row, []).append((column, tuple(values)))
    return {graph: [sorted(rows[row]) for row in sorted(rows)] for graph, rows in sorted(tables.items())}


def records_of(tables: Tables) -> list[list[int]]:
    """The same entries as a list of records, as the head of a suite has them."""
    rows = ((graph, row, entries) for graph, lines in tables.items() for row, entries in enumerate(lines))
    return [[graph, row, column, *values] for graph, row, entries in rows for column, values in entries]


def tables_of(path: str | pathlib.Path, records: typing.Any) -> Tables:
    """The entries that the head of a suite has."""
    try:
        tables = entries_of("\n".join(",".join(map(str, record)) for record in records))
        entries = [entry for rows in tables.values() for row in rows for entry in row]
        whole = all(len(rows) == GRAPHS[graph].rows for graph, rows in tables.items())
        if tables and whole and all(len(values) == len(LARGEST) for _, values in entries):
            return tables
    except (TypeError, ValueError, KeyError):
        pass
    raise Failed(f"{path}: the head of the suite has no table")


def rotated(column: int, shift: int, z: int) -> int:
    """A column times the identity matrix that is shifted to the right."""
    return (column << shift | column >> (z - shift)) & ((1 << z) - 1)


def columns_of(bits: str, z: int) -> list[int]:
    """The columns of a list of whole columns."""
    return [int(bits[start : start + z], 2) for start in range(0, len(bits), z)]


class Encoder:
    """The rows of a base graph at one lifting size and set index, under some clauses."""

    def __init__(self, clauses: Clauses, tables: Tables, graph: int, z: int, index: int) -> None:
        if graph not in tables:
            raise Impossible("no table")
        self.clauses, self.z, self.information = clauses, z, GRAPHS[graph].information
        self.most = (1 << z) - 1
        read = clauses.read(tables[graph], graph, index)
        self.rows = clauses.rows(read, graph, index, z)
        first = self.information
        values = {row: it[index] for row in range(4) for column, it in read[row] if column == first}
        odd = clauses.odd_row({row: value % z for row, value in values.items()})
        shifts = {row: shift for row in range(4) for column, shift in self.rows[row] if column == first}
        self.back = clauses.core_rotation(shifts.get(odd, 0), z) % z

    def sum_of(self, row: int, columns: list[int], known: int, left_out: tuple[int, ...] = ()) -> int:
        """The sum of a row's entries in the first columns."""
        z, total = self.z, 0
        for column, shift in self.rows[row]:
            if column < known and column not in left_out:
                # What is shifted out above Zc bits came in again below, and goes away at the end.
                total ^= columns[column] << shift ^ columns[column] >> (z - shift)
        return total & self.most

    def columns(self, info: str) -> list[int]:
        """All columns of the codeword that begins with K bits."""
        z, information = self.z, self.information
        columns = columns_of(info, z)
        total = 0
        for row in range(4):
            total ^= self.sum_of(row, columns, information)
        columns.append((total << self.back | total >> (z - self.back)) & self.most)
        left_out = self.clauses.core_columns_left_out(information)
        for row in range(3):
            columns.append(self.sum_of(row, columns, information + 1 + row, left_out))
        known = self.clauses.columns_of_extension(information)
        for row in range(4, len(self.rows)):
            columns.append(self.sum_of(row, columns, min(known, information + row)))
        return columns

    def coded(self, bits: str, plan: Plan) -> str:
        """The N bits d of a code block of K' bits, with its fillers."""
        clauses, count = self.clauses, plan.k - len(bits)
        if count < 0:
            raise Impossible("more bits than columns")
        columns = self.columns(clauses.filled(bits, "0" * count))
        parity = "".join(f"{column:0{self.z}b}" for column in columns[self.information :])
        return clauses.sent_columns(clauses.filled(bits, FILLER * count) + parity, plan)


@functools.lru_cache(maxsize=256)
def encoder_of(clauses: Clauses, tables: TablesKey, graph: int, z: int, index: int) -> Encoder:
    """The same, made once."""
    return Encoder(clauses, tables.tables, graph, z, index)


@functools.lru_cache(maxsize=8192)
def coding_of(clauses: Clauses) -> Clauses:
    """The clauses of which only coding matters: the right ones if these replace nothing of it, so that encoders are made once."""
    kind = type(clauses)
    return right() if all(getattr(kind, name) is it for name, it in vars(Coding).items() if not name.startswith("__")) else clauses


@dataclasses.dataclass(eq=False)
class TablesKey:
    """Tables that can be a key: they are the same as themselves alone."""

    tables: Tables
