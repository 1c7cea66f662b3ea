"""Shift tables as matrices, as MATLAB, AFF3CT and programs in C keep them: eight for each base graph, in the order of the set
indexes, with -1 or a name such as NO_EDGE where a row has no entry."""

from __future__ import annotations

import re
import typing

from linksim_tools.common.graphs import GRAPHS, LARGEST, SETS
from linksim_tools.common.program import Failed

if typing.TYPE_CHECKING:
    from linksim_tools.common.graphs import Graph
    from linksim_tools.table.text import Line

    Rows = typing.List[typing.List[typing.Tuple[int, Line]]]

# A number, a name that stands for no entry, any other name with the sizes of its array, or what encloses or ends a row.
TOKEN = re.compile(r"(?P<number>-?[0-9]+)|(?P<none>NO_\w+)|[^\W\d]\w*(?:\s*\[[\s\w]*\])*|[][{};]")
COMMENT = re.compile(r"//.*|/\*.*?(\*/|$)|[%#].*")
NONE = -1

# A line of so few numbers before a matrix gives its sizes.
SIZES = 3


def is_matrices(lines: list[Line]) -> bool:
    """Whether most numbers of the lines say that a row has no entry."""
    found = [it for line in lines for it in TOKEN.finditer(line.text) if it.lastgroup]
    return 2 * sum(it["none"] is not None or it[0] == str(NONE) for it in found) > len(found)


def rows_of(lines: list[Line]) -> Rows:
    """The numbers of each row, with their lines. A semicolon or a bracket ends a row. So does the end of a line, unless braces or
    nested brackets enclose the row."""
    rows: Rows = [[]]
    opened: list[str] = []
    file = ""
    for line in lines:
        if line.file != file or not (opened[-1:] == ["{"] or len(opened) > 1):
            rows.append([])
        if line.file != file:
            opened, file = [], line.file
        for it in TOKEN.finditer(COMMENT.sub(" ", line.text)):
            if it.lastgroup:
                rows[-1].append((int(it[0][:10]) if it["number"] else NONE, line))
            elif it[0] in ("[", "{"):
                opened.append(it[0])
                rows.append([])
            elif it[0] in ("]", "}", ";"):
                del opened[len(opened) - (it[0] != ";") :]
                rows.append([])
    return [row for row in rows if len(row) > SIZES]


def graph_rows(graph: Graph, rows: Rows) -> Rows:
    """The rows of a base graph; a whole matrix in one row is cut into its own."""
    size = graph.rows * graph.columns
    wide = [row for row in rows if len(row) in (graph.columns, size, len(SETS) * size)]
    return [row[at : at + graph.columns] for row in wide for at in range(0, len(row), graph.columns)]


def entries_of(graph: Graph, rows: Rows) -> list[tuple[int, ...]]:
    """The entries of a base graph, row by row, out of its eight matrices."""
    found = []
    for number, eight in enumerate(zip(*(rows[index * graph.rows : (index + 1) * graph.rows] for index in SETS))):
        for column, values in enumerate(zip(*eight)):
            for index, (value, line) in enumerate(values):
                name = f"{line.place}: graph {graph.number}, row {number}, column {column} of the matrix of set {index}"
                if not NONE <= value < LARGEST[index]:
                    raise Failed(f"{name}: {value} is neither -1 nor a value below {LARGEST[index]}")
                if (value == NONE) != (values[0][0] == NONE):
                    raise Failed(f"{name} has {'no' if value == NONE else 'an'} entry, unlike that of set 0")
            if values[0][0] != NONE:
                if not graph.has_column(number, column):
                    raise Failed(f"{values[0][1].place}: graph {graph.number}, row {number}: it has no column {column}")
                found.append((number, column, *(value for value, _ in values)))
    return found


def read_matrices(lines: list[Line]) -> dict[int, list[tuple[int, ...]]]:
    """The entries of each graph out of the matrices that the lines have."""
    rows, tables = rows_of(lines), {}
    parts = {graph.number: graph_rows(graph, rows) for graph in GRAPHS.values()}
    if sum(map(len, rows)) != sum(len(row) for part in parts.values() for row in part):
        wrong = next(row for row in rows if not any(graph_rows(graph, [row]) for graph in GRAPHS.values()))
        raise Failed(f"{wrong[0][1].place}: a row of {len(wrong)} numbers, and the base graphs have 68 and 52 columns")
    for graph in GRAPHS.values():
        part = parts[graph.number]
        if part and len(part) != len(SETS) * graph.rows:
            raise Failed(
                f"{part[0][0][1].file}: graph {graph.number} has {len(part)} rows of {graph.columns} numbers: its eight matrices, "
                f"one for each set index from 0 to 7, have {len(SETS) * graph.rows}"
            )
        if part:
            tables[graph.number] = entries_of(graph, part)
    return tables
