"""Reading the published shift tables (TS 38.212, Tables 5.3.2-2 and 5.3.2-3) from texts, and judging what was read."""

from __future__ import annotations

import re
import typing

from linksim_tools.common.graphs import GRAPHS, LARGEST
from linksim_tools.common.message import shown
from linksim_tools.common.program import Failed, Wrong
from linksim_tools.table import matrices
from linksim_tools.table.rows import ENTRY, Reading, halve

if typing.TYPE_CHECKING:
    from linksim_tools.common.graphs import Graph
    from linksim_tools.table.text import Line

# The line above a table, and what ends one: another table, or the next clause of the standard.
CAPTION = re.compile(r"\W*table\s*5\.3\.2\s*-\s*([23])\b", re.IGNORECASE)
ANOTHER = re.compile(r"\W*table\s*\d+\.\d|\s*5\.3\.3(\.|\s|$)", re.IGNORECASE)

# How many numbers a record of a shift table file has.
FIELDS = 11

# A line before a table's first entry that has more words than so many is a head, and else an entry that is damaged.
DAMAGED = 2

# A text is in two halves if more than one of so many of its lines has two entries.
TWO_HALVES = 10


class Part:
    """The lines of one graph's table, without heads. It also has the numbers, in the list, of the lines that a page
    begins with or that stand after a head."""

    def __init__(self) -> None:
        self.lines: list[Line] = []
        self.page_starts: set[int] = set()
        self.head_ends: set[int] = set()
        self.page = self.head = False

    def add(self, line: Line) -> None:
        """Adds a line of the text."""
        self.page = self.page or line.page
        if line.is_head or (line.words > DAMAGED and not self.lines):
            self.head = True
            return
        if self.page:
            self.page_starts.add(len(self.lines))
        if self.head:
            self.head_ends.add(len(self.lines))
        self.page = self.head = False
        self.lines.append(line)

    def paged(self, starts: set[int]) -> list[list[Line]]:
        """The lines in pages that begin at these numbers."""
        bounds = [0, *sorted(starts - {0}), len(self.lines)]
        return [self.lines[start:end] for start, end in zip(bounds, bounds[1:])]

    def layouts(self) -> typing.Iterator[tuple[bool, bool, bool, list[list[Line]]]]:
        """How the lines may be laid out, with the pages. It says whether they are in two halves, whether the place of a
        cell tells its half, and whether a row's index may stand alone. In each page the right half goes on where the
        left one ends. Some lines with two entries are no second half: a line break is missing in each."""
        for alone in (False, True):
            yield False, False, alone, [self.lines]
        entries, double = (sum(len(line.cells) >= count for line in self.lines) for count in (ENTRY, 2 * ENTRY))
        if TWO_HALVES * double <= entries:
            return
        halve(self.paged(self.page_starts | self.head_ends))
        orders = [[self.lines], self.paged(self.page_starts), self.paged(self.head_ends)]
        # By the lengths of their pages, so that those which are the same are tried once.
        different = {tuple(map(len, pages)): pages for pages in orders}
        for placed, alone in ((True, True), (False, False), (False, True)):
            for pages in different.values():
                yield True, placed, alone, pages


def parts_of(lines: list[Line], graphs: typing.Sequence[int]) -> dict[int, Part]:
    """The lines of each graph's table. The text begins with that of the first of `graphs`; if they are several, so does each file
    with that of its own."""
    files = list(dict.fromkeys(line.file for line in lines))
    if len(graphs) > 1 and len(files) != len(graphs):
        raise Wrong(f"--graph names {len(graphs)} graphs, one for each text, and there are {len(files)} texts")
    starts = dict(zip(files, graphs))
    parts: dict[int, Part] = {}
    part: Part | None = None
    for line in lines:
        if line.file in starts:
            part = parts.setdefault(starts.pop(line.file), Part())
        caption = CAPTION.match(line.text)
        if caption:
            part = parts.setdefault(int(caption[1]) - 1, Part())
        elif ANOTHER.match(line.text):
            part = None
        elif part is not None:
            part.add(line)
    return {number: part for number, part in sorted(parts.items()) if part.lines}


def files_of(lines: list[Line]) -> str:
    """The names of the files that lines are of."""
    return ", ".join(dict.fromkeys(line.file for line in lines))


def read_part(graph: Graph, part: Part) -> list[tuple[int, ...]]:
    """The entries of one graph's table, row by row, or a failure that names the row which could not be read."""
    if all(len(line.cells) < ENTRY for line in part.lines):
        raise Failed(
            f"{part.lines[0].file}: no line of {graph.table} has an entry: lines must be complete, "
            "as in the output of pdftotext -layout"
        )
    best: tuple[tuple[bool, int], Reading] | None = None
    for two, placed, alone, pages in part.layouts():
        reading = Reading(graph, two, placed, alone, files_of(part.lines))
        entries = reading.pages(pages)
        if entries is not None:
            return entries
        stopped = reading.stopped
        reached = -1 if reading.lost else len(part.lines) if stopped is None else part.lines.index(stopped)
        # If the halves of the line are known, what is said of it is surer.
        sure = placed and (stopped is None or stopped.left is not None)
        if best is None or (sure, reached) > best[0]:
            best = (sure, reached), reading
    assert best and best[1].refusal
    _, reading = best
    refusal = best[1].refusal
    text = f"graph {graph.number}, row {refusal.row} could not be read: {refusal}"
    if reading.stopped is None:
        raise Failed(f"{files_of(part.lines)}: {text}")
    raise Failed(f"{reading.stopped.place}: {text}: {shown(' '.join(reading.stopped.text.split()))}")


def is_file(lines: list[Line]) -> bool:
    """Whether the lines are those of a shift table file: most that have numbers have those of a record."""
    numbers = [line for line in lines if len(line.numbers) > 2]
    return 2 * sum(len(line.numbers) == FIELDS and not line.words for line in numbers) > len(numbers)


def read_file(lines: list[Line]) -> dict[int, list[tuple[int, ...]]]:
    """The entries of each graph out of the records of a shift table file, whatever separates their fields."""
    tables: dict[int, dict[tuple[int, int], tuple[int, ...]]] = {}
    for place, line in enumerate(lines):
        if place == 0 and line.words and len(line.numbers) < FIELDS:
            continue
        if line.words or len(line.numbers) != FIELDS:
            raise Failed(f"{line.place}: not a record of {FIELDS} numbers: {shown(line.text.strip())}")
        number, row, column, *values = line.numbers
        graph = GRAPHS.get(number)
        if graph is None:
            raise Failed(f"{line.place}: there is no base graph {number}")
        name = f"{line.place}: graph {number}, row {row} could not be read"
        if row >= graph.rows or not graph.has_column(row, column):
            raise Failed(f"{name}: the base graph has no column {column} in this row")
        for index, (value, largest) in enumerate(zip(values, LARGEST)):
            if value >= largest:
                raise Failed(f"{name}: value {value} of set {index} is not below {largest}")
        entries = tables.setdefault(number, {})
        if (row, column) in entries:
            raise Failed(f"{name}: column {column} appears twice")
        entries[row, column] = (row, column, *values)
    return {number: [entries[place] for place in sorted(entries)] for number, entries in sorted(tables.items())}


def judge(graph: Graph, entries: list[tuple[int, ...]], named: str) -> None:
    """Fails if the entries of these files are not as many as those of the published table, or not in order, or lack a row or its
    end."""
    named = f"{named}: graph {graph.number}"
    by_row = {row: [column for it, column, *_ in entries if it == row] for row in range(graph.rows)}
    for row, columns in by_row.items():
        if columns != sorted(set(columns)):
            raise Failed(f"{named}, row {row} could not be read: its columns do not ascend: {shown(columns)}")
        if graph.last_column(row) not in columns:
            raise Failed(f"{named}, row {row} lacks its last entry, at column {graph.last_column(row)}")
    if len(entries) != graph.entries:
        counts = " ".join(str(len(columns)) for columns in by_row.values())
        raise Failed(f"{named} has {len(entries)} entries, and {graph.table} has {graph.entries}; by row it has {counts}")


def read(lines: list[Line], graphs: typing.Sequence[int] = ()) -> dict[int, list[tuple[int, ...]]]:
    """The entries of each graph's table that the lines of a text have, judged. Each is a row, a column and eight values."""
    if matrices.is_matrices(lines):
        tables = matrices.read_matrices(lines)
    elif is_file(lines):
        tables = read_file(lines)
    else:
        tables = {number: read_part(GRAPHS[number], part) for number, part in parts_of(lines, graphs).items()}
    for number, entries in tables.items():
        judge(GRAPHS[number], entries, files_of(lines))
    return tables
