"""The check rows of a code block, and the steps of peeling: which row fixes which position, one unknown at a time."""

from __future__ import annotations

import functools
import typing

import nr

from linksim_tools.common.graphs import GRAPHS
from linksim_tools.conform.receiver.elimination import ones_of
from linksim_tools.conform.receiver.peeling import Peeler, Rows


@functools.lru_cache(maxsize=16)
def rows_of(table: nr.Table, graph: int, index: int, z: int) -> Rows:
    """The check rows of a table's base graph at a lifting size. Row i Zc + t is row t of the base graph's row i (5.3.2)."""
    rows: list[list[tuple[int, int]]] = [[] for _ in range(GRAPHS[graph].rows)]
    for of, row, column, *values in table.entries:
        if of == graph:
            rows[row].append((column, values[index] % z))
    return Rows(z, GRAPHS[graph].columns, [tuple(it) for it in rows])


def steps_of(peeler: Peeler) -> typing.Iterator[list[tuple[int, int]]]:
    """For each round of peeling, in which all rows see what was known before it: the rows, each with the position that it fixes."""
    z = peeler.rows.z
    while True:
        found = [(number, *it) for number in peeler.hopeful(range(peeler.used)) for it in peeler.singles(number)]
        steps = []
        for number, column, places, ones in found:
            shift = dict(peeler.rows.rows[number])[column]
            for bit in ones_of(peeler.fix(column, places, ones)):
                steps.append((number * z + (z - 1 - bit - shift) % z, column * z + z - 1 - bit))
        if not steps:
            return
        yield steps
