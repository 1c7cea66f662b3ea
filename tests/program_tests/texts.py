"""Texts of files that several tests have."""

from __future__ import annotations

import pathlib

EXAMPLES = pathlib.Path(__file__).resolve().parent.parent.parent / "examples"

FULL_RATE = "rate2048 = 2048\n"
QUARTER_RATE = "rate2048 = 512\n"

HEADERS = {
    6: "block,rv,g,qm,nl,erase",
    7: "block,rv,g,qm,nl,erase,flip",
    8: "block,rv,g,qm,nl,erase,flip,mask",
    10: "block,rv,g,qm,nl,erase,flip,mask,process,fresh",
}


def lines(*each: str) -> str:
    """A text of these lines."""
    return "".join(line + "\n" for line in each)


def six(*records: str) -> str:
    """A schedule of six columns."""
    return lines(HEADERS[6], *records)


def seven(*records: str) -> str:
    """A schedule of seven columns: the places that are flipped too."""
    return lines(HEADERS[7], *records)


def eight(*records: str) -> str:
    """A schedule of eight columns: the code blocks that are scheduled too."""
    return lines(HEADERS[8], *records)


def ten(*records: str) -> str:
    """A schedule of ten columns: HARQ processes with a fresh flag too."""
    return lines(HEADERS[10], *records)


# The practice table: 105 records of base graph 2, in ascending order: the four core rows, and for each further row two
# entries. Each entry has one value in all sets.
PRACTICE = (EXAMPLES / "practice.csv").read_text()
RECORDS = PRACTICE.splitlines()


def record(graph: int, row: int, column: int, *values: int) -> str:
    """A record of a table, of eight values or of one value in all sets."""
    eight_values = values if len(values) == 8 else values * 8
    return ",".join(map(str, (graph, row, column, *eight_values)))


def practice_of(graph: int) -> str:
    """The practice table's rule for a base graph. Rows 0 to 3 have the even or the odd information columns. Each row
    from 4 on has one information column, rotated by the row's number. Of base graph 2 it is the practice table."""
    rows, information = {1: (46, 22), 2: (42, 10)}[graph]
    found = []
    for row, tail in enumerate([[0, 1], [1, 2], [0, 2, 3], [0, 3]]):
        found += [(row, column, 0) for column in range(row % 2, information, 2)]
        found += [(row, information + column, int((row, column) == (2, 0))) for column in tail]
    for row in range(4, rows):
        found += [(row, row % information, row), (row, information + row, 0)]
    return lines(*(record(graph, *it) for it in found))


def practice_with(*changes: str) -> str:
    """The practice table with these records in place of those at their places, or after all others."""
    found = list(RECORDS)
    for change in changes:
        place = change.split(",")[:3]
        found = [it for it in found if it.split(",")[:3] != place] + [change]
    return lines(*found)


# The parity columns of the core rows of base graph 1, and all that its shape asks for in them.
ONE_CORE = [(0, 22), (0, 23), (1, 22), (1, 23), (1, 24), (2, 24), (2, 25), (3, 22), (3, 25)]
ONE_CORE_RECORDS = [record(1, row, column, 0) for row, column in ONE_CORE]
ONE_EXTENSION_RECORDS = [record(1, row, 22 + row, 0) for row in range(4, 46)]
# A small table of base graph 1, with one information column in the core rows: 55 records.
LEAST = lines(*(record(1, row, 0, 0) for row in range(4)), *ONE_CORE_RECORDS, *ONE_EXTENSION_RECORDS)

# The 320 bits that are ever sent of the block 000000.
ALL_OF_ZEROS = "0" * 80

# The columns of block 01 that are left if nothing was heard: all but the fillers, which are columns 6 to 9, and their rotations.
ALL_BUT_FILLERS = [column for column in range(52) if column in range(10, 14) or column % 10 < 6]


def total(
    blocks: int, delivered: int = 0, still_open: int = 0, contradiction: int = 0, codeblocks: int = 1, failed: int = 0
) -> str:
    """The last line of `run`."""
    counts = f"delivered {delivered} open {still_open} contradiction {contradiction}"
    return f"total blocks {blocks} {counts} codeblocks {codeblocks} failed {failed}"


def ending(
    outcome: str, count: int = 1, block: str = "01", code_blocks: int = 1, failed: int | None = None
) -> list[str]:
    """The lines of `run` after those of so many transmissions of one block. If it is open all its code blocks fail, or so many."""
    failed = failed or code_blocks if outcome == "open" else 0
    octets = f" {block}" if outcome == "delivered" else ""
    kind = {"open": "still_open"}.get(outcome, outcome)
    last = total(1, codeblocks=code_blocks, failed=failed, **{kind: 1})
    return [f"block 1 {outcome} tx {count} failed {failed} of {code_blocks}{octets}", last]


def settings_of(rate2048: int, lbrm: int | None = None) -> str:
    """The settings of a link."""
    return lines(f"rate2048 = {rate2048}", *([f"lbrm = {lbrm}"] if lbrm else []))


def counted(count: int) -> str:
    """So many octets 1, 2, .. 250, 0, 1, .. as hexadecimal."""
    return bytes((place + 1) % 251 for place in range(count)).hex()
