"""Rows, columns and bits of the codes that are left out or read otherwise, whatever the set."""

from __future__ import annotations

import itertools
import typing

from linksim_tools.common.graphs import GRAPHS, LARGEST
from linksim_tools.conform import bits as lists
from linksim_tools.conform.case import Plan, Row, put
from linksim_tools.conform.encoder.families import instead, mistake
from linksim_tools.conform.mistake import Method, Methods, Mistake


def table(change: typing.Callable[[int, int, int, int], int | None], known: int = 4) -> Methods:
    """Other values of the entries of information columns and of the first `known` parity columns, of a value, its set, row and
    column. None leaves an entry out."""
    def read(rows: list[Row], graph: int, index: int) -> list[Row]:
        found: list[Row] = []
        for row, entries in enumerate(rows):
            last = GRAPHS[graph].information + known * (row >= 4)
            made = ((column, values, change(values[index], index, row, column) if column < last else values[index])
                    for column, values in entries)
            found.append([(column, put(values, index, value)) for column, values, value in made if value is not None])
        return found

    return instead("read", read)


def rows_lost() -> typing.Iterator[Mistake]:
    """Rows of the extension that give zeros: all from one on, or one in both base graphs."""
    for row in range(4, 46):
        for words, last, graphs in ((f"row {row} gives zeros in both base graphs", row, (1, 2)),
                                    (f"rows from {row} on give zeros", 99, (1, 2)),
                                    *((f"rows from {row} on of base graph {graph} give zeros", 99, (graph,)) for graph in GRAPHS)):
            yield mistake("rows-lost", "ldpc", words, "all rows of the base graph", instead(
                "read", lambda rows, graph, _index, first=row, last=last, graphs=graphs: [
                    [] if graph in graphs and first <= number <= last else it for number, it in enumerate(rows)]))


def columns_lost() -> typing.Iterator[Mistake]:
    for column in range(26):
        for last in (*(column + width - 1 for width in (1, 2, 4, 8)), 99):
            said = f"s from {column} on" if last == 99 else f"s {column} to {last}" if last > column else f" {column}"
            for rows, first in (("", 0), (" of rows from 4 on", 4)):
                yield mistake("entries-lost", "ldpc", f"entries in column{said}{rows} are left out", "all entries of a row", table(
                    lambda value, _set, row, it, at=(column, last, first): (  # type: ignore[misc]
                        None if at[0] <= it <= at[1] and row >= at[2] else value)))


def values_changed() -> typing.Iterator[Mistake]:
    """Values of all rows, or of one row, that are others."""
    for by, words in ((1, "1 is added to"), (-1, "1 is taken from"), (2, "2 is added to"), (-2, "2 is taken from")):
        for only in (None, *range(46 if abs(by) == 1 else 0)):
            said = "information columns" if only is None else f"row {only}"
            yield mistake("other-values", "ldpc", f"{words} all values of {said}", "V as the table has it", table(
                lambda value, index, row, _column, by=by, only=only: (  # type: ignore[misc]
                    (value + by) % LARGEST[index] if only in (None, row) else value), 0))


# What may be wrong of the bits of a parity column.
BITS: tuple[tuple[str, typing.Callable[[str, int], str]], ...] = (
    ("its last bit is 0", lambda it, _: it[:-1] + "0"), ("its first bit is 0", lambda it, _: "0" + it[1:]),
    ("its last bit is that before it", lambda it, _: it[:-1] + it[-2:-1]), ("it is in reverse", lambda it, _: it[::-1]),
    ("it is rotated by one to the left", lambda it, _: it[1:] + it[:1]),
    ("it is rotated by one to the right", lambda it, _: it[-1:] + it[:-1]), ("it is inverted", lambda it, _: lists.inverted(it)),
    *((f"its bits after the last multiple of {n} are 0", lambda it, z, n=n: it[: z // n * n].ljust(z, "0"))
      for n in (8, 16, 32, 64, 128)),
    *((f"its bits from t = {n} on are 0", lambda it, z, n=n: it[:n].ljust(z, "0")) for n in (64, 128, 192, 255, 256, 320)),
)


def parity(change: typing.Callable[[str, int], str], skipped: int) -> Methods:
    """Other bits of the parity columns but the first ones."""
    def sent_columns(_self: object, right: Method, word: str, plan: Plan) -> typing.Any:
        first = plan.k + skipped * plan.z
        return right(word[:first] + "".join(change(column, plan.z) for column in lists.words_of(word[first:], plan.z)), plan)

    return {"sent_columns": sent_columns}


def bits_lost() -> typing.Iterator[Mistake]:
    """Bits of each parity column, or of each but the first four."""
    for words, change in BITS:
        for name, skipped in (("each parity column", 0), ("each parity column of the extension", 4)):
            yield mistake("column-bits", "ldpc", f"of {name}: {words}", "all Zc bits of a column", parity(change, skipped))


def mistakes() -> typing.Iterator[Mistake]:
    return itertools.chain(rows_lost(), columns_lost(), values_changed(), bits_lost())
