"""Which values of a shift table published vectors confirm, and which they contradict. docs/tables.md has the method."""

from __future__ import annotations

import typing

from linksim_tools.common.graphs import GRAPHS, LARGEST
from linksim_tools.common.program import Failed
from linksim_tools.conform.clauses import SETS
from linksim_tools.conform.code import rotated

if typing.TYPE_CHECKING:
    from linksim_tools.conform.case import Tables
    from linksim_tools.table.words import Word

# The entries of a row at a lifting size: columns with their shifts.
Shifts = typing.List[typing.Tuple[int, int]]
# A value: its base graph, set index, row and column.
Value = typing.Tuple[int, int, int, int]

# So many bits more than its shifts have are the checks of a row that is confirmed; and so many checks mend one.
MARGIN = 20
# So many ways to mend a row are told.
MOST_MENDS = 3


def sums(word: Word, row: Shifts) -> tuple[int, int]:
    """The sums of the Zc check equations of a row, and which of them have known bits alone."""
    total, known = 0, (1 << word.z) - 1
    for column, shift in row:
        total ^= rotated(word.columns[column], shift, word.z)
        known &= rotated(word.known[column], shift, word.z)
    return total & known, known


def checks(words: list[Word], row: Shifts) -> int:
    """How many check equations of a row the words have."""
    return sum(bin(sums(word, row)[1]).count("1") for word in words)


def fits(words: list[Word], row: Shifts, at: int) -> list[int]:
    """The shifts of an entry of a row with which no word contradicts it."""
    found = list(range(words[0].z))
    for word in words:
        total, known = sums(word, row[:at] + row[at + 1 :])
        column, z = row[at][0], word.z
        columns, there = word.columns[column], word.known[column]
        found = [it for it in found if not (total ^ rotated(columns, it, z)) & known & rotated(there, it, z)]
    return found


def is_free(graph: int, row: int, column: int) -> bool:
    """Whether the published shape leaves the value of an entry open."""
    return column <= GRAPHS[graph].information or (row >= 4 and column != GRAPHS[graph].last_column(row))


def mends(words: list[Word], number: int, row: Shifts) -> typing.Iterator[tuple[int, int]]:
    """The columns and shifts each of which alone mends a row that is contradicted."""
    for at, (column, _) in enumerate(row):
        for shift in fits(words, row, at) if is_free(words[0].graph, number, column) else ():
            if checks(words, [*row[:at], (column, shift), *row[at + 1 :]]) >= MARGIN:
                yield column, shift


class Confirmed:
    """What words say of a table: the modulus to which each value is confirmed, and the lines of what is contradicted."""

    def __init__(self, tables: Tables, words: typing.Iterable[Word]) -> None:
        self.tables = tables
        self.moduli: dict[Value, int] = {}
        self.lines: list[str] = []
        self.wrong: list[str] = []
        by_code: dict[tuple[int, int, int], list[Word]] = {}
        for word in words:
            by_code.setdefault((word.graph, SETS[word.z], word.z), []).append(word)
        for (graph, _, z), some in sorted(by_code.items()):
            if graph not in tables:
                raise Failed(f"{some[0].name}: the table lacks base graph {graph}")
            self.judge(graph, z, some)

    def values(self, graph: int) -> list[tuple[int, int]]:
        """The rows and columns whose values the shape leaves open."""
        return [(row, it) for row, entries in enumerate(self.tables[graph]) for it, _ in entries if is_free(graph, row, it)]

    def judge(self, graph: int, z: int, words: list[Word]) -> None:
        """Takes up what the words of a base graph and lifting size say."""
        index, good = SETS[z], 0
        for number, entries in enumerate(self.tables[graph]):
            row = [(column, values[index] % z) for column, values in entries]
            against = next((word for word in words if sums(word, row)[0]), None)
            if against:
                written = dict((column, values[index]) for column, values in entries)
                found = [f"column {it}: {written[it]} is wrong, {shift} fits" for it, shift in mends(words, number, row)][:MOST_MENDS]
                said = " or ".join(found) or "no other value of one column fits"
                self.wrong.append(f"graph {graph} set {index} modulo {z} row {number}: contradicted by {against.name}: {said}")
            elif checks(words, row) >= len(row) * z.bit_length() + MARGIN:
                for at, (column, shift) in enumerate(row):
                    if is_free(graph, number, column) and fits(words, row, at) == [shift]:
                        good += 1
                        value = (graph, index, number, column)
                        self.moduli[value] = max(z, self.moduli.get(value, 0))
        many = f"{len(words)} code block{'s' * (len(words) > 1)}"
        self.lines.append(f"graph {graph} set {index} modulo {z}: {good} of {len(self.values(graph))} values confirmed by {many}")

    def report(self) -> typing.Iterator[str]:
        """The lines of each base graph, set index and modulus, what is contradicted, and how far all of it is."""
        yield from [*self.lines, *self.wrong]
        whole = sum(modulus == LARGEST[index] for (_, index, _, _), modulus in self.moduli.items())
        everything = sum(len(self.values(graph)) for graph in self.tables) * len(LARGEST)
        more = f"{len(self.moduli) - whole} more modulo a smaller lifting size"
        yield f"confirmed: {whole:,} of {everything:,} values, and {more}; rows contradicted: {len(self.wrong)}"
