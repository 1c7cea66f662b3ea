"""What `check` says of table files: how many entries they have, or the first fault."""

from __future__ import annotations

import typing

from programs import Program, Row
from texts import (
    LEAST, ONE_CORE_RECORDS, ONE_EXTENSION_RECORDS, PRACTICE, RECORDS, lines, practice_of, practice_with, record,
)

HEADER = "graph,row,column,0,1,2,3,4,5,6,7"
ALL = "graph 2 entries 105\n"
ZERO = record(2, 0, 0, 0)
EMPTY_FIELDS = "," * 10


def practice_as(form: typing.Callable[..., typing.Any]) -> str:
    """The practice table with each record in another form."""
    return "".join(form(line) for line in RECORDS)


def blanks_around(line: str) -> str:
    """A record with blanks at the ends of some fields."""
    graph, row, column, first, second, *values = line.split(",")
    return ",".join([f" {graph}", f"{row} ", f"\t{column}", f"{first}\t", f" \t{second} \t", *values]) + " \r\n"


def quoted(line: str) -> str:
    """A record with some of its fields in quotes, one of them with blanks."""
    graph, row, *rest = line.split(",")
    return ",".join([f'"{graph}"', f'"{row}"', *rest[:-1], f'" {rest[-1]}\t"']) + "\n"


def ten_digits(line: str) -> str:
    """A record of numbers with zeros in front."""
    return ",".join(f"{number:0>10}" for number in line.split(",")) + "\n"


def full_table() -> str:
    """Each entry that a table may have: in all rows the information columns, from row 4 on the first four parity columns too."""
    found = {tuple(it.split(",")[:3]): it for graph in (1, 2) for it in practice_of(graph).splitlines()}
    for graph, rows, information in [(1, 46, 22), (2, 42, 10)]:
        for row in range(rows):
            for column in range(information + 4 * (row > 3)):
                found.setdefault((str(graph), str(row), str(column)), record(graph, row, column, row + column))
    return lines(*found.values())


ACCEPTED = [
    # (9 parity entries in the core rows, and one more in each further row: 4 * 22 + 9 + 42 * 27, and 4 * 10 + 9 + 38 * 15)
    Row("each entry that a table may have", "graph 1 entries 1231\ngraph 2 entries 619\n", table=full_table()),
    Row("the practice table", ALL),
    Row("its records in reverse", ALL, table=lines(*reversed(RECORDS))),
    Row("no LF after the last record", ALL, table=PRACTICE[:-1]),
    Row("CRLF after each record", ALL, table=PRACTICE.replace("\n", "\r\n")),
    Row("blank lines are no records", ALL, table="\n\r\n" + PRACTICE.replace("\n", "\r\n\r\n\n")),
    Row("zeros in front, ten digits", ALL, table=practice_as(ten_digits)),
    Row("blanks around fields", ALL, table=practice_as(blanks_around)),
    Row("fields in quotes", ALL, table=practice_as(quoted)),
    Row("a header", ALL, table=f"{HEADER}\n{PRACTICE}"),
    Row("a header by its first field alone", ALL, table=f'" graph "{EMPTY_FIELDS}\r\n{PRACTICE}'),
    Row("a byte order mark", ALL, table="\ufeff" + PRACTICE),
    Row("a byte order mark before a header", ALL, table=f"\ufeffgraph{EMPTY_FIELDS}\n{PRACTICE}"),
    Row("a value up to 65535", ALL, table=practice_with(record(2, 17, 7, *range(7), 65535))),
    Row("a least table of base graph 1 too", "graph 1 entries 55\n" + ALL, table=PRACTICE + LEAST),
    Row("base graph 1 alone", "graph 1 entries 55\n", table=LEAST),
    Row(
        "base graph 1 without an information column",
        "graph 1 entries 51\n" + ALL,
        table=PRACTICE + lines(*ONE_CORE_RECORDS, *ONE_EXTENSION_RECORDS),
    ),
    Row("one entry more", "graph 2 entries 106\n", table=practice_with(record(2, 1, 0, 1))),
    Row(
        "equal values in column 10",
        "graph 2 entries 106\n",
        table=practice_with(record(2, 1, 0, 1), record(2, 2, 10, 0)),
    ),
    Row(
        "the odd value in row 0",
        "graph 2 entries 106\n",
        table=practice_with(record(2, 1, 0, 1), record(2, 2, 10, 0), record(2, 0, 10, 1)),
    ),
]

# Three values in one set of column 10, of which two are to be equal.
THREE_VALUES = practice_with(record(2, 3, 10, 1), record(2, 2, 10, 1, 1, 1, 1, 2, 1, 1, 1))

FOUR_PLACES = [(1, 0, 0), (2, 0, 0), (1, 0, 1), (1, 1, 0)]

# Table files that are refused as a whole.
REFUSED = [
    Row(name, refused=f"table {fault}", table=table)
    for name, fault, table in [
        ("nothing", "Empty", ""),
        ("blank lines", "Empty", "\n\n"),
        ("a header alone", "Empty", f"graph{EMPTY_FIELDS}"),
        ("column 14 in a core row", "Core 2", practice_with(record(2, 0, 14, 0))),
        ("a value that is not 0 in column 12", "Core 2", practice_with(record(2, 1, 12, 3))),
        ("column 10 in both of rows 1 and 2", "Core 2", practice_with(record(2, 1, 10, 0))),
        ("three values in column 10", "Core 2", THREE_VALUES),
        ("another column from 14 on", "Extension 2", practice_with(record(2, 4, 15, 0))),
        ("a value that is not 0 in its own column", "Extension 2", practice_with(record(2, 9, 19, 1))),
        ("base graph 1 without its further rows", "MissingRow 1", PRACTICE + lines(*ONE_CORE_RECORDS)),
        ("base graph 1 first", "Core 1", lines(record(2, 0, 0, 0), record(1, 0, 0, 0))),
        ("one place in both base graphs", "Core 1", lines(*(record(*it, 0) for it in FOUR_PLACES))),
        ("the first 28 records", "Core 2", lines(*RECORDS[:28])),
        ("the first 29", "MissingRow 2", lines(*RECORDS[:29])),
        ("the first 103", "MissingRow 2", lines(*RECORDS[:103])),
        ("the first 104", "Extension 2", lines(*RECORDS[:104])),
    ]
]

# Table files with a record that is refused.
REFUSED_RECORDS = [
    Row(f"{fault}: {table!r}", refused=f"table {fault}", table=table)
    for fault, table in [
        ("Fields", "2,0"),
        ("Fields", f"{ZERO},0"),
        ("Fields", "graph,row"),
        ("Csv 2", f"{ZERO}\n2,1"),
        ("Csv 2", f"{ZERO}\n\n2,0,1,0,0,0,0,0,0,0,0,0"),
        ("Number 1", "2,0,0,0,0,0,0,0,0,0,x"),
        ("Number 1", "2,0,0,0,0,0,0,0,0,0,+1"),
        ("Number 1", "2,0,0,0,0,0,0,0,0,0,-1"),
        ("Number 1", "2,0,0,0,0,0,0,0,0,0,1 1"),
        ("Number 1", "2,0,0,0,0,0,0,0,0,0,"),
        ("Number 1", "2,0,0,0,0,0,0,0,0,0, \t"),
        ("Number 1", "2,0,0,0,0,0,0,0,0,0,00000000000"),
        ("Number 1", "2,0,0,0,0,0,0,0,0,0,00000065535"),
        ("Number 1", "2,0,0,0,0,0,0,0,0,0,\"0,0\""),
        ("Number 2", f"{ZERO}\ngraph{EMPTY_FIELDS}"),
        ("Number 3", lines(*RECORDS[:2], "2,0,4,x,0,0,0,0,0,0,0")),
        ("Number 1", f"Graph{EMPTY_FIELDS}"),
        ("Number 1", "3,0,0,0,0,0,0,0,0,0,x"),
        ("Range 1", "2,0,0,0,0,0,0,0,0,0,65536"),
        ("Range 1", "2,0,0,0,0,0,0,0,0,0,9999999999"),
        ("Range 1", record(2, 42, 0, 0)),
        ("Range 1", record(2, 0, 52, 0)),
        ("Range 1", record(1, 46, 0, 0)),
        ("Range 1", record(1, 0, 68, 0)),
        ("Range 1", record(0, 0, 0, 0)),
        ("Range 1", record(3, 0, 0, 0)),
        ("Twice 2", f"{record(2, 1, 2, 0)}\n2,01,2,7,7,7,7,7,7,7,7"),
        ("Twice 3", f"graph{EMPTY_FIELDS}\n{record(2, 1, 2, 0)}\n{record(2, 1, 2, 0)}"),
        ("Range 2", f"{record(2, 1, 2, 0)}\n2,1,2,0,0,0,0,0,0,0,65536"),
        ("Range 1", "2,0,0,0,0,0,0,0,0,0,65536\n2,0"),
        ("Range 40", lines(*RECORDS[:39], record(2, 41, 52, 0))),
        ("Twice 106", PRACTICE + ZERO),
    ]
]


class Check(Program):
    """Against the rows above."""

    def test_rows(self) -> None:
        self.check("check", [*ACCEPTED, *REFUSED, *REFUSED_RECORDS])

    def test_the_values_of_another_form(self) -> None:
        """The same numbers, whatever the form they stand in: block 01 is sent as by the practice table."""
        accepted = [row for row in ACCEPTED if row.output == ALL and "65535" not in row.name]
        schedule = "block,rv,g,qm,nl,erase\n1,0,24,4,1,-\n1,3,40,1,1,-\n"
        sent = "sent 1 1 000a51\nsent 2 1 8000002102\n"
        self.check("send", [Row(row.name, sent, table=row.table, schedule=schedule) for row in accepted])
