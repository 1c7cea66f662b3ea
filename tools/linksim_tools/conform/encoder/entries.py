"""Which entry of the shift table is wrong (5.3.2), by the rows that fix the columns that differ."""

from __future__ import annotations

import dataclasses
import functools
import itertools
import operator
import typing

from linksim_tools.common.graphs import GRAPHS, LARGEST
from linksim_tools.conform.case import STEPS, Row, Tables, put
from linksim_tools.conform.clauses import right
from linksim_tools.conform.code import Encoder, rotated
from linksim_tools.conform.encoder.families import instead, mistake
from linksim_tools.conform.encoder.judging import Trial
from linksim_tools.conform.encoder.observations import Seen, groups_of
from linksim_tools.conform.mistake import Mistake
from linksim_tools.conform.report import counted

# How many rows are looked at, and how many values are named of which each fits.
ROWS, VALUES = 4, 3
# What changes the rows of a base graph and a set index.
Changed = typing.Callable[[typing.List[Row], int, int], typing.List[Row]]


@dataclasses.dataclass(frozen=True)
class Change:
    """A change of an entry: of its value, or of its column; the value None takes the entry away."""

    row: int
    column: int
    value: int | None
    right: int | None
    others: tuple[int, ...] = ()
    moved: int | None = None

    @property
    def does(self) -> str:
        """What the entry does, in words."""
        if self.moved is not None:
            return f"stands at column {self.moved}"
        if self.value is None:
            return "is missing"
        values = " or ".join(map(str, (self.value, *self.others[: VALUES - 1])))
        return f"acts as {values}, and is none" if self.right is None else f"acts as {values} in place of {self.right}"

    def made(self, row: Row, index: int) -> Row:
        """A row with this change at a set index."""
        entries = dict(row)
        if self.moved is not None:
            entries[self.moved] = entries.pop(self.column)
        elif self.value is None:
            del entries[self.column]
        else:
            entries[self.column] = put(entries.get(self.column, (0,) * 8), index, self.value)
        return sorted(entries.items())


# Code blocks of a base graph and a set, and their changes.
Key = typing.Tuple[int, int]
Changes = typing.Dict[Key, typing.Tuple[Change, ...]]


def turned(seen: Seen, column: int, value: int) -> int:
    """A column as an entry with this value turns it."""
    return rotated(seen.columns[column], value % seen.plan.z, seen.plan.z)


class Group:
    """The code blocks of a base graph and a set index: those that differ, and others that agree."""

    def __init__(self, tables: Tables, graph: int, index: int, seen: list[Seen], agreeing: list[Seen]) -> None:
        self.rows, self.index, self.information = tables[graph], index, GRAPHS[graph].information
        self.seen, self.agreeing = sorted(seen, key=lambda it: it.plan.z), sorted(agreeing, key=lambda it: -it.plan.z)
        self.all = [*self.seen, *self.agreeing]
        self.encoders = {z: Encoder(right(), tables, graph, z, index) for z in {it.plan.z for it in self.all}}

    def gives(self, seen: Seen, row: int, added: int) -> bool:
        """Whether a row whose sum has this more gives the bits of a code block."""
        first, z = self.information, seen.plan.z
        if row >= 4:
            return not (added ^ seen.wrong[first + row]) & seen.known[first + row]
        encoder = self.encoders[z]
        more = {first: rotated(added, encoder.back, z)}
        if (more[first] ^ seen.wrong[first]) & seen.known[first]:
            return False
        for place in range(3):
            total = added if place == row else 0
            for column, shift in encoder.rows[place]:
                if column in more:
                    total ^= rotated(more[column], shift, z)
            column = first + 1 + place
            if (total ^ seen.wrong[column]) & seen.known[column]:
                return False
            more[column] = total
        return True

    def values(self, row: int, column: int, known: int | None) -> list[int]:
        """The values of an entry that give all code blocks; the table has this one, or none."""
        found = list(range(LARGEST[self.index]))
        for seen in self.all:
            had = 0 if known is None else turned(seen, column, known)
            allowed = {shift for shift in {value % seen.plan.z for value in found}
                       if self.gives(seen, row, turned(seen, column, shift) ^ had)}
            found = [value for value in found if value % seen.plan.z in allowed]
            if not found:
                break
        return found

    def fits_all(self, row: int, *entries: tuple[int, int]) -> bool:
        """Whether a row with these columns and values more gives all code blocks."""
        return all(self.gives(seen, row, functools.reduce(operator.xor, (turned(seen, *it) for it in entries)))
                   for seen in self.all)

    def changes(self, row: int) -> typing.Iterator[Change]:
        """The changes of one entry of a row that give all code blocks."""
        columns = range(self.information + (4 if row >= 4 else 0))
        entries = {column: values[self.index] for column, values in self.rows[row] if column in columns}
        for column in columns:
            known = entries.get(column)
            found = [it for it in self.values(row, column, known) if it != known]
            if known is not None and self.fits_all(row, (column, known)):
                yield Change(row, column, None, known)
            if found:
                yield Change(row, column, found[0], known, tuple(found[1:]))
            for other in columns:
                if known is not None and other not in entries and self.fits_all(row, (column, known), (other, known)):
                    yield Change(row, column, known, known, moved=other)

    def lost(self, row: int) -> bool:
        """Whether a row of the extension gives zeros."""
        return row >= 4 and self.fits_all(row, (self.information + row, 0))

    def is_set(self, other: int) -> bool:
        """Whether another set's values give all bits that are seen."""
        for seen in (*self.seen, *self.agreeing[: len(self.seen)]):
            plan = seen.plan
            encoder = Encoder(right(), {plan.graph: in_set(self.rows, self.index, other)}, plan.graph, plan.z, self.index)
            made = encoder.columns("".join(f"{column:0{plan.z}b}" for column in seen.columns[: self.information]))
            if any((one ^ two ^ wrong) & known for one, two, wrong, known in zip(made, seen.columns, seen.wrong, seen.known)):
                return False
        return True

    def bad_rows(self) -> list[int]:
        """The rows that fix the wrong columns; rows 0 to 3 if one of the first parity columns is wrong."""
        bad = sorted({column - self.information for seen in self.seen for column in seen.bad})
        return [] if not bad or bad[0] < 0 else [0, 1, 2, 3] if bad[0] < 4 else bad

    def found(self) -> list[tuple[Change, ...]]:
        """The changes that give all code blocks of the group: one of a row from 0 to 3, or one of each wrong row."""
        rows = self.bad_rows()
        by_row = [[*self.changes(row)] for row in rows] if len(rows) <= ROWS else []
        if rows == [0, 1, 2, 3]:
            by_row = [[*itertools.chain(*by_row)]]
        return [*zip(*(sorted(changes, key=lambda it: (len(it.others), it.right is None)) for changes in by_row))]


AGAIN = "read the table again, and compare its fingerprint with that of `tools/table fingerprint`"


def mistake_of(name: str, graphs: typing.Iterable[int], wrong: str, rows: Changed, change: str = AGAIN) -> Mistake:
    """A mistake of the table: `rows` gives its rows for a base graph and a set index."""
    made = mistake(name, "ldpc", wrong, change, instead("read", rows))
    return dataclasses.replace(made, clause=", ".join(GRAPHS[graph].table for graph in sorted(set(graphs))))


def entry_mistake(tables: Tables, changes: Changes, count: int) -> Mistake:
    """A mistake of single entries."""
    def rows(there: list[Row], graph: int, index: int) -> list[Row]:
        found = list(there)
        for change in changes.get((graph, index), ()):
            found[change.row] = change.made(found[change.row], index)
        return found

    sets_of: dict[tuple[int, int, int, str], list[int]] = {}
    rows_of: dict[tuple[int, int], str] = {}
    for (graph, index), group in sorted(changes.items()):
        for it in group:
            sets_of.setdefault((graph, it.row, it.column, it.does), []).append(index)
            entries = " ".join(f"{column}:{values[index]}" for column, values in tables[graph][it.row])
            rows_of[graph, it.row] = f"row {it.row} of base graph {graph} has, as column:V of set {index}, {entries}"
    said = []
    for (graph, row, column, does), sets in sets_of.items():
        names = "all sets" if len(sets) == 8 else f"set{'s' if len(sets) > 1 else ''} " + ", ".join(map(str, sets))
        said.append(f"table entry graph {graph}, row {row}, column {column}, {names} {does}")
    wrong = f"{'; '.join(said)} ({counted(count, 'code block')}, all others agree)"
    return mistake_of("table-entry", (graph for graph, _ in changes), wrong, rows, "; ".join(rows_of.values()))


def in_set(rows: list[Row], index: int, other: int) -> list[Row]:
    """Rows that have another set's values in a set."""
    return [[(column, put(values, index, values[other])) for column, values in row] for row in rows]


def bad_rows(groups: dict[Key, Group]) -> dict[int, list[int]]:
    """The wrong rows of each base graph, over all sets."""
    return {graph: sorted({row for (it, _), group in groups.items() if it == graph for row in group.bad_rows()})
            for graph in sorted({graph for graph, _ in groups})}


def lost_rows(groups: dict[Key, Group]) -> typing.Iterator[Mistake]:
    """The rows that give zeros in all sets of a base graph."""
    for graph, bad in bad_rows(groups).items():
        those = [group for (it, _), group in groups.items() if it == graph]
        if 0 < len(bad) <= ROWS and all(group.lost(row) for group in those for row in bad):
            names = " and ".join(f"row {row}" for row in bad)
            wrong = f"{names} of base graph {graph} {'gives' if len(bad) == 1 else 'give'} zeros"
            yield mistake_of("table-row-lost", [graph], wrong, lambda rows, it, _index, at=(graph, bad): (  # type: ignore[misc]
                [[] if it == at[0] and row in at[1] else entries for row, entries in enumerate(rows)]))


def read_sets(groups: dict[Key, Group]) -> typing.Iterator[Mistake]:
    """The sets that are read from other columns, if each that is wrong is so."""
    sets = {key: next((it for it in range(8) if it != key[1] and group.is_set(it)), -1) for key, group in groups.items()}
    if -1 not in sets.values():
        wrong = "; ".join(f"set {index} of base graph {graph} is read from another column: set {other}'s values give all bits"
                          for (graph, index), other in sets.items())
        yield mistake_of("table-set", (graph for graph, _ in groups), wrong, lambda rows, graph, index: (
            in_set(rows, index, sets[graph, index]) if (graph, index) in sets else rows))


def rows_mistake(graph: int, one: int, two: int, own_columns: int) -> Mistake:
    """Two rows that are exchanged, but for the columns from this one on, which are their own."""
    def rows(there: list[Row], it: int, _index: int) -> list[Row]:
        found = list(there)
        for to, source in ((one, two), (two, one)) if it == graph else ():
            own = [entry for entry in there[to] if entry[0] >= own_columns]
            found[to] = sorted([entry for entry in there[source] if entry[0] < own_columns] + own)
        return found

    return mistake_of("table-rows", [graph], f"rows {one} and {two} of base graph {graph} are exchanged", rows)


def joined(by_group: dict[Key, list[tuple[Change, ...]]]) -> typing.Iterator[Changes]:
    """The changes of all groups together: first those that are the same in all, then the first of each."""
    if not all(by_group.values()):
        return
    words = [{tuple((it.row, it.column, it.does) for it in changes): changes for changes in found} for found in by_group.values()]
    for what in words[0]:
        if all(what in it for it in words):
            yield {key: it[what] for key, it in zip(by_group, words)}
    for place in range(VALUES):
        yield {key: found[min(place, len(found) - 1)] for key, found in by_group.items()}


def exchanged(groups: dict[Key, Group]) -> typing.Iterator[Mistake]:
    """Two rows of a base graph that may be exchanged, with their entries of parity columns or without. They are the two
    that are wrong, or two of rows 0 to 3."""
    for graph, rows in bad_rows(groups).items():
        first = GRAPHS[graph].information
        if rows[:1] == [0]:
            for (one, two), more in itertools.product(itertools.combinations(range(4), 2), (0, 1, 4)):
                yield rows_mistake(graph, one, two, first + more)
        elif len(rows) == 2:
            yield rows_mistake(graph, rows[0], rows[1], first + 4)


def found(step: str, failing: list[Trial], passing: list[Trial]) -> typing.Iterator[Mistake]:
    """Mistakes of the table that may give a step, of which some are wrong yet."""
    if not any("ldpc" in failing[0].span(field) for field in STEPS[step][1]):
        return
    groups = groups_of(step, failing, passing)
    tables = failing[0].tables.tables
    if not groups or len({trial.right.plan.graph for trial in failing}) > len({graph for graph, _ in groups}):
        return
    by_key = {key: Group(tables, *key, *groups[key]) for key in sorted(groups)}
    count = sum(len(seen) for seen, _ in groups.values())
    yield from lost_rows(by_key)
    yield from (entry_mistake(tables, it, count) for it in joined({key: group.found() for key, group in by_key.items()}))
    yield from read_sets(by_key)
    yield from exchanged(by_key)
