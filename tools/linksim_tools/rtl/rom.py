"""A shift table as the words of a ROM: 17 bits, {last of its row, column, value}, by row and column."""

from __future__ import annotations

import dataclasses
import typing

from linksim_tools.common.graphs import GRAPHS, SETS
from linksim_tools.common.message import shown
from linksim_tools.common.program import Failed, Wrong
from linksim_tools.conform.case import Row, Tables
from linksim_tools.conform.clauses import SETS as SETS_OF_SIZES

FORMS = ("mem", "coe", "mif")
BITS, LAST, COLUMN = 17, 16, 9
# What follows the last word of a section: an end of a row, so that a reader that runs on stops.
PAD = 1 << LAST
LEAST_DEPTH = 512


@dataclasses.dataclass(frozen=True)
class Section:
    """The words of a base graph: those of a set index, or of a lifting size, reduced by it."""

    title: str
    words: list[int]


def words_of(rows: list[Row], index: int, z: int | None) -> list[int]:
    """The words of a base graph's rows at a set index; with a lifting size the values are P = V mod Zc."""
    return [
        (place == len(row) - 1) << LAST | column << COLUMN | (values[index] if z is None else values[index] % z)
        for row in rows for place, (column, values) in enumerate(row)
    ]


def sections(name: str, tables: Tables, sizes: list[int]) -> list[Section]:
    """A section for each base graph and set index; or, with lifting sizes, for each base graph and one of these."""
    found = []
    most = max(value for rows in tables.values() for row in rows for _, values in row for value in values)
    if not sizes and most >> COLUMN:
        raise Failed(f"{name} has the value {shown(most)}, and a word has {COLUMN} bits for it: use --z to reduce it")
    for z in sizes:
        if z not in SETS_OF_SIZES:
            raise Wrong(f"--z: {z} is not a lifting size of Table 5.3.2-1")
    for graph in GRAPHS:
        rows = tables.get(graph, [])
        found += [Section(f"base graph {graph}, Zc = {z}", words_of(rows, SETS_OF_SIZES[z], z)) for z in sizes]
        if not sizes:
            found += [Section(f"base graph {graph}, set {index}", words_of(rows, index, None)) for index in SETS]
    return found


def depth_of(parts: list[Section]) -> int:
    """How many words a section takes: a power of two that holds the longest, so that its number is the upper address."""
    most = max(len(part.words) for part in parts)
    return max(LEAST_DEPTH, 1 << (most - 1).bit_length())


def lines(form: str, name: str, tables: Tables, sizes: list[int]) -> typing.Iterator[str]:
    """The file: sections of equal length, one after the other, of the tables of the file of this name."""
    parts = sections(name, tables, sizes)
    depth = depth_of(parts)
    words = [word for part in parts for word in part.words + [PAD] * (depth - len(part.words))]
    remark = {"mem": "//", "coe": ";", "mif": "--"}[form]
    yield f"{remark} {BITS} bits: last of its row, column[6:0], value[8:0]; {depth} words a section"
    for place, part in enumerate(parts):
        yield f"{remark} from {place * depth}: {part.title}, {len(part.words)} words"
    digits = [f"{word:05x}" for word in words]
    if form == "mem":
        yield from digits
    elif form == "coe":
        yield "memory_initialization_radix=16;"
        yield "memory_initialization_vector="
        yield from (word + "," for word in digits[:-1])
        yield digits[-1] + ";"
    else:
        yield from (f"WIDTH={BITS};", f"DEPTH={len(words)};", "ADDRESS_RADIX=HEX;", "DATA_RADIX=HEX;", "CONTENT BEGIN")
        yield from (f"{place:x} : {word};" for place, word in enumerate(digits))
        yield "END;"
