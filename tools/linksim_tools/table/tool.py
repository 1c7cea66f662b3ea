"""linksim-table: the published shift tables, read from the text of TS 38.212, told apart, and made into ROMs."""

from __future__ import annotations

import argparse
import sys
import typing

from linksim_tools.common import files
from linksim_tools.common.command_line import Commands, add_out, add_table, numbers, table_of, write
from linksim_tools.common.graphs import GRAPHS
from linksim_tools.common.message import shown
from linksim_tools.common.program import Failed
from linksim_tools.conform import code
from linksim_tools.conform.files import entries_of, json_line
from linksim_tools.rtl import rom
from linksim_tools.table import reading
from linksim_tools.table import text as texts

ABOUT = "The published shift tables: reading them, comparing them with others and with vectors, and ROMs of them."
EXAMPLES = """
examples:
  tools/table read 38212-f20.docx --out table.csv
  tools/table confirm table.csv ldpc_enc_*.data
  tools/table fingerprint --table table.csv
  tools/table rom --table table.csv --out rom.mem
"""

READ = """
Each TEXT (-: standard input) is text, a .docx document or a PDF with Table 5.3.2-2,
Table 5.3.2-3 or both, matrices of either, or a shift table file with other separators. What
is written is the shift table file that linksim reads. If one table alone is there, and no
--graph said so, the status is 3. docs/tables.md says what is judged.

example:
  tools/table read 38212-f20.docx --out table.csv
"""

FINGERPRINT = """
Writes a line 'graph G set S DIGEST' for each base graph in the table and each set index.
Whoever has the same lines has the same table. docs/tables.md says how they are made.

example:
  tools/table fingerprint --table examples/practice.csv
"""

CONFIRM = """
Each FILE is an encoder's vector of DPDK's test-bbdev, or has lines such as 'graph 2 z 4 c BITS d BITS',
with bits or hexadecimal digits. Reports how many values of the table the vectors confirm, by base
graph, set index and modulus, and the row and column of those that they contradict. Then the exit
status is 1. docs/tables.md describes the method.

example:
  tools/table confirm table.csv ldpc_enc_*.data
"""

ROM = """
Writes words of 17 bits, an entry each: last of its row, column (7 bits), value (9 bits). A
section has those of a base graph and a set index; with --z of a base graph and a lifting
size, with P = V mod Zc for V. All sections are equally long. Whoever has the file has the table.

example:
  tools/table rom --form coe --z 384,208 --table table.csv --out rom.coe
"""


# What `read` ends with if it wrote one base graph, and the text was to have both.
PARTIAL = 3


def graphs_of(text: str) -> list[int]:
    """Base graphs with commas between."""
    found = numbers(text)
    if not set(found) <= GRAPHS.keys():
        raise argparse.ArgumentTypeError(f"{shown(text)} is not 1, 2 or a list of these")
    return found


def lines_of(tables: typing.Mapping[int, typing.Iterable[typing.Iterable[int]]]) -> typing.Iterator[str]:
    """The lines of a shift table file."""
    for number, entries in tables.items():
        for entry in entries:
            yield ",".join(map(str, (number, *entry)))


def read(given: argparse.Namespace) -> int:
    """Writes the shift table file of the texts. The status is PARTIAL if one of the tables is neither in them nor left out by
    --graph."""
    lines = [line for name in given.texts for line in texts.lines_of(name, files.octets_of(name, files.DOCUMENT))]
    tables = reading.read(lines, given.graph)
    if not tables:
        captions = "no line begins with Table 5.3.2-2 or Table 5.3.2-3; --graph says which one the text is"
        raise Failed(f"{', '.join(map(files.shown, given.texts))}: {captions}")
    write(lines_of(tables), given.out)
    for number, entries in tables.items():
        print(f"graph {number}: {GRAPHS[number].rows} rows, {len(entries)} entries", file=sys.stderr)
    for number in GRAPHS.keys() - tables.keys():
        print(f"graph {number}: {GRAPHS[number].table} is not in the text", file=sys.stderr)
    return 0 if given.graph or len(tables) == len(GRAPHS) else PARTIAL


def named(given: argparse.Namespace) -> str:
    """The table file, which is not standard input."""
    path = table_of(given)
    if path == "-":
        raise Failed("the table is read several times, so - cannot be used: name a file")
    return path


def write_fingerprint(given: argparse.Namespace) -> None:
    """Writes the fingerprint of a shift table file."""
    from linksim_tools.table import fingerprint

    write(fingerprint.fingerprint(named(given)), given.out)


def confirm(given: argparse.Namespace) -> int:
    """Writes which values of a table vectors confirm. The status is 1 if they contradict any."""
    from linksim_tools.table import words
    from linksim_tools.table.confirm import Confirmed

    found = Confirmed(entries_of(given.table), (word for name in given.files for word in words.words_of(name)))
    write(found.report(), given.out)
    return 1 if found.wrong else 0


def write_rom(given: argparse.Namespace) -> None:
    """Writes a shift table as a ROM. A suite has the table in its head, and needs no library."""
    path = named(given)
    number, first = next(files.numbered_lines(path, files.LIMITS["table"]), (1, ""))
    if first.startswith("{"):
        tables = code.tables_of(path, json_line(path, number, first).get("table"))
    else:
        tables = entries_of(path)
    write(rom.lines(given.form, path, tables, given.z), given.out)


def main() -> int | None:
    commands = Commands("table", ABOUT, EXAMPLES)
    one = commands.add("read", read, "makes a shift table file of the text of TS 38.212", READ)
    one.add_argument("texts", nargs="+", metavar="TEXT", help="a text that has one table or both, or a part of one")
    graphs = "the base graph with whose table the text begins, or as 1,2 that of each text"
    one.add_argument("--graph", type=graphs_of, default=[], metavar="LIST", help=graphs)
    two = commands.add("fingerprint", write_fingerprint, "writes sixteen lines that tell tables apart", FINGERPRINT)
    add_table(two)
    four = commands.add("confirm", confirm, "compares a shift table with published vectors", CONFIRM)
    four.add_argument("table", metavar="TABLE", help="the shift table")
    four.add_argument("files", nargs="+", metavar="FILE", help="a file of vectors")
    three = commands.add("rom", write_rom, "writes a shift table as the words of a ROM", ROM)
    three.add_argument("--form", choices=rom.FORMS, default="mem", help="as $readmemh, AMD or Intel reads it (mem)")
    three.add_argument("--z", type=numbers, default=[], metavar="LIST", help="reduced by these lifting sizes, as 384,208")
    add_table(three, "the shift table, or a suite of tools/conform, which has one")
    for command in (one, two, three, four):
        add_out(command)
    given = commands.parser.parse_args()
    status: int | None = given.does(given)
    return status
