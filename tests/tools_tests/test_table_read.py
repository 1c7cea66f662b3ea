"""`tools/table read`: a table with drawn numbers of the published shape is printed in each layout and read back. If a
text is damaged, the row is named."""

from __future__ import annotations

import itertools
import random
import re
import shutil
import sys
import typing
import unittest

import layouts
from linksim_tools.common.program import Failed
from linksim_tools.table import reading, text as texts
import shared

INDEXES = ["first", "middle", "last", "each", "alone"]


class Reading(shared.InFolder):
    """What is written is the table that was printed."""

    entries: typing.ClassVar[dict[int, shared.Entries]]

    @classmethod
    def setUpClass(cls) -> None:
        cls.entries = {graph: shared.drawn_entries(graph) for graph in (1, 2)}

    def reads(self, text: str | bytes) -> None:
        """A text is read back as both tables."""
        octets = text if isinstance(text, bytes) else text.encode()
        read = reading.read(texts.lines_of("text", octets))
        found = {graph: {(row, column): values for row, column, *values in rows} for graph, rows in read.items()}
        self.assertEqual(found, self.entries)

    def tool_reads(self, *words: object, graphs: typing.Sequence[int] = (1, 2), stdin: bytes = b"") -> str:
        """The tool writes the tables of these graphs."""
        status, output, error = shared.tool("table", "read", *words, stdin=stdin)
        self.assertEqual((status, output), (0, shared.table_text({it: self.entries[it] for it in graphs})), error)
        return error

    def both(self, print_one: typing.Callable[..., typing.Any]) -> str:
        """The text of both tables, from a function of a graph and its entries."""
        return "".join(print_one(graph, entries) for graph, entries in self.entries.items())

    def test_one_half(self) -> None:
        for index in INDEXES:
            for form in (layouts.aligned, layouts.single_spaces, layouts.tabs):
                with self.subTest(index=index, form=form.__name__):
                    self.reads(self.both(lambda it, rows: layouts.text(it, [layouts.halves(rows, index)], form)))

    def test_two_halves_side_by_side(self) -> None:
        for index in INDEXES:
            # An index that stands alone in its half cannot be told from the other half's if columns are not kept.
            forms = [layouts.aligned, layouts.tabs, *[layouts.single_spaces] * (index != "alone")]
            for form in forms:
                for count in (None, 130):
                    with self.subTest(index=index, form=form.__name__, count=count):
                        self.reads(self.both(lambda it, rows: layouts.text(
                            it, layouts.pages_of(layouts.side_by_side(layouts.halves(rows, index), count), 47), form
                        )))

    def test_pages_one_after_the_other(self) -> None:
        for index in INDEXES:
            for feed in ("\f", "\n\n"):
                with self.subTest(index=index, feed=feed):
                    self.reads(self.both(lambda it, rows: layouts.text(
                        it, layouts.page_by_page(layouts.halves(rows, index), 29), feed=feed
                    )))

    def test_page_numbers_alone(self) -> None:
        def printed(graph: int, rows: dict[tuple[int, int], list[int]]) -> str:
            cells = layouts.side_by_side(layouts.halves(rows, "middle"))
            return layouts.text(graph, layouts.pages_of(cells, 40), foot=("", "                21", ""))

        self.reads(self.both(printed))

    def test_whole_document(self) -> None:
        before = (
            "5.3.2 Low density parity check coding\n"
            "The matrix is obtained by\nTable 5.3.2-2 for LDPC base graph 1 and by\n"
            "Table 5.3.2-3 for the other, with the sizes of\n\nTable 5.3.2-1: Sets of LDPC lifting size Z\n"
            "Set index (iLS)  Set of lifting sizes (Z)\n0 {2, 4, 8, 16, 32, 64, 128, 256}\n"
            "1 {3, 6, 12, 24, 48, 96, 192, 384}\n"
        )
        after = (
            "5.3.3 Channel coding of small block lengths\nTable 5.3.3.1-1: Encoding of 1-bit information\n"
            "Qm Encoded bits d0, d1\n1 2 3 4 5 6 7 8 9 10\n"
        )
        body = self.both(lambda it, rows: layouts.text(it, [layouts.side_by_side(layouts.halves(rows))]))
        self.reads(before + body + after)

    def test_one_graph_named_by_an_option(self) -> None:
        text = "\n".join(layouts.single_spaces(cells) for cells in layouts.halves(self.entries[2]))
        path = self.file("text.txt", text)
        self.assertIn("graph 2: 42 rows, 197 entries\n", self.tool_reads("--graph", "2", path, graphs=[2]))
        said = f"{path}: no line begins with Table 5.3.2-2 or Table 5.3.2-3; --graph"
        self.assertIn(said, shared.refused("table", "read", path))

    def test_odd_characters(self) -> None:
        text = self.both(lambda it, rows: layouts.text(it, [layouts.side_by_side(layouts.halves(rows, "middle"))]))
        odd = {
            "byte order mark": "\ufeff" + text,
            "CRLF": text.replace("\n", "\r\n"),
            "CR": text.replace("\n", "\r"),
            "no-break spaces": text.replace(" ", "\u00a0"),
            "thin spaces": text.replace("  ", "\u2009\u202f"),
            "no-break hyphens": text.replace("5.3.2-", "5.3.2\u2011"),
            "full-width digits": text.replace("7", "\uff17"),
            "zero-width spaces": text.replace("1", "\u200b1"),
            "UTF-16": text.encode("utf-16"),
            "one octet a character": text.replace("Release", "\u00a7").replace(" ", "\u00a0").encode("cp1252"),
            "dashes in empty cells": self.both(lambda it, rows: layouts.text(
                it, [layouts.halves(rows)], lambda cells: "\t".join(cell or "\u2212" for cell in cells)
            )),
        }
        for name, octets in typing.cast(typing.Dict[str, typing.Any], odd).items():
            with self.subTest(name):
                self.reads(octets)

    def test_other_separators(self) -> None:
        plain = shared.table_text(self.entries)
        head = "graph,row,column,s0,s1,s2,s3,s4,s5,s6,s7\n"
        lines = plain.splitlines(keepends=True)
        shuffled = random.Random(5).sample(lines, len(lines))
        texts = {
            "semicolons": plain.replace(",", ";"),
            "tabs": plain.replace(",", "\t"),
            "spaces": plain.replace(",", "   "),
            "quotes": re.sub("([0-9]+)", r'"\1"', plain),
            "a header": head + plain,
            "a header, a byte order mark, semicolons and CRLF": "\ufeff" + (head + plain).replace(",", ";").replace(
                "\n", "\r\n"
            ),
            "another order": "".join(shuffled),
        }
        for name, text in texts.items():
            with self.subTest(name):
                self.reads(text)

    def test_documents(self) -> None:
        for index in ("first", "middle"):
            with self.subTest(index):
                parts: list[typing.Any] = ["5.3.2 Low density parity check coding"]
                for graph, entries in self.entries.items():
                    cells = layouts.side_by_side(layouts.halves(entries, index))
                    heads = [["HBG", "Vi,j"], ["i", "j", *"01234567"] * 2]
                    parts += [layouts.CAPTIONS[graph], heads + cells]
                self.reads(layouts.document([*parts, "5.3.3 Channel coding of small block lengths"]))

    def test_a_document_in_an_archive(self) -> None:
        parts: list[typing.Any] = [
            part for it, rows in self.entries.items() for part in (layouts.CAPTIONS[it], layouts.halves(rows))
        ]
        self.reads(layouts.archive({"cover.txt": "", "38212-f20.docx": layouts.document(parts)}))

    @unittest.skipUnless(shutil.which("pdftotext"), "pdftotext is not there")
    def test_pdf(self) -> None:
        for at_top in (True, False):
            with self.subTest(at_top=at_top):
                self.reads(layouts.pdf_of_tables(self.entries, at_top))

    def test_pdf_without_its_reader(self) -> None:
        path = self.file("table.pdf", layouts.pdf_of_tables(self.entries, True))
        words = [sys.executable, shared.TOOLS / "table", "read", path]
        status, output, error = shared.run(words, environment={"PATH": "/nowhere"})
        said = f"tools/table: {path} is a PDF, which pdftotext reads: apt-get install poppler-utils\n"
        self.assertEqual((status, output, error.decode()), (1, b"", said))

    def test_a_text_in_several_files(self) -> None:
        cells = layouts.side_by_side(layouts.halves(self.entries[1]))
        files = [
            self.file(f"page-{number}.txt", "\n".join(map(layouts.aligned, page)))
            for number, page in enumerate(layouts.pages_of(cells, 50))
        ]
        self.tool_reads("--graph", "1", *files, graphs=[1])

    def test_one_of_two_tables(self) -> None:
        path = self.file("text.txt", layouts.text(1, [layouts.halves(self.entries[1])]))
        status, output, error = shared.tool("table", "read", path)
        self.assertEqual((status, output), (3, shared.table_text({1: self.entries[1]})))
        self.assertIn("graph 2: Table 5.3.2-3 is not in the text\n", error)

    def test_two_texts_without_headings(self) -> None:
        files = [
            self.file(f"{it}.txt", "\n".join(map(layouts.single_spaces, layouts.halves(self.entries[it])))) for it in (2, 1)
        ]
        self.tool_reads("--graph", "2,1", *files)
        self.assertIn("names 2 graphs", shared.refused("table", "read", "--graph", "2,1", files[0], status=2))

    def test_matrices(self) -> None:
        """Eight for each base graph, as MATLAB, AFF3CT and programs in C write them, in one text or in one for each."""
        eight = {graph: layouts.matrices(graph, it) for graph, it in self.entries.items()}
        for name, written in layouts.MATRICES.items():
            with self.subTest(name):
                both = {graph: [written(graph, rows) for rows in it] for graph, it in eight.items()}
                self.reads("\n".join(both[1] + both[2]))
        files = [self.file(f"{graph}-{index}.qc", text) for graph in (1, 2) for index, text in enumerate(both[graph])]
        self.tool_reads(*files)

    def test_the_program_accepts_what_was_read(self) -> None:
        text = self.both(lambda it, rows: layouts.text(it, [layouts.side_by_side(layouts.halves(rows, "middle"))]))
        self.tool_reads("-", stdin=text.encode())
        _, output, _ = shared.tool("table", "read", self.file("text.txt", text))
        checked = shared.linksim("check", "--table", self.file("table.csv", output))
        self.assertEqual(checked, "graph 1 entries 316\ngraph 2 entries 197\n")


class Refusals(shared.InFolder):
    """A text with one damage is refused, with nothing written, in one line that names the row."""

    LAYOUTS: typing.ClassVar[dict[str, typing.Callable[[typing.Any], typing.Any]]] = {
        "one half": lambda lines: lines,
        "two halves": layouts.side_by_side,
    }

    def fails(self, text: str) -> str:
        """The line of a text that is refused."""
        with self.assertRaises(Failed) as caught:
            reading.read(texts.lines_of("text", text.encode()))
        said = str(caught.exception)
        self.assertNotIn("\n", said)
        self.assertRegex(said, "^text[,:]")
        self.assertLess(len(said), 400)
        return said

    def refused(self, text: str, row: int) -> None:
        """A text is refused, and the row named is this one."""
        self.assertRegex(self.fails(text), rf"graph 1, row {row}\b")

    def test_one_damaged_cell(self) -> None:
        """In the middle entry of some row: a value too large, a letter, a minus sign, a value lost, another row's column."""
        for cell, damage in [(5, "224"), (4, "1O2"), (4, "\u22121"), (6, ""), (1, "67")]:
            for index, name, row in itertools.product(("first", "middle"), self.LAYOUTS, (0, 5, 30, 45)[: 4 - (cell == 1)]):
                with self.subTest(damage, index=index, layout=name, row=row):
                    entries = shared.drawn_entries(1)
                    lines = layouts.halves(entries, index)
                    places = [place for place, (it, _) in enumerate(entries) if it == row]
                    lines[places[len(places) // 2]][cell] = damage
                    self.refused(layouts.text(1, [self.LAYOUTS[name](lines)]), row)

    def test_first_entry(self) -> None:
        """A damage before anything was read is told at its own line."""
        for damage in ("2l1", "\u22121", "1 x"):
            lines = [layouts.single_spaces(cells) for cells in layouts.halves(shared.drawn_entries(1))]
            lines[0] = lines[0].replace(lines[0].split()[4], damage)
            with self.subTest(damage):
                text = "\n".join([layouts.CAPTIONS[1], *layouts.HEADS, *lines])
                self.assertRegex(self.fails(text), "^text, line 5: graph 1, row 0 ")

    def test_damaged_matrices(self) -> None:
        """A number lost or added, a value too large, an entry that the other sets have not: the line is named."""
        eight = layouts.matrices(1, shared.drawn_entries(1))
        lines = "\n".join(layouts.MATRICES["C"](1, rows) for rows in eight).splitlines()
        for said, old, new in (("a row of 67 numbers", "-1, ", ""), ("a row of 69 numbers", "-1, ", "-1, -1, "),
                               ("70000 is neither", "-1, ", "70000, "), ("has an entry, unlike", "-1, ", "1, ")):
            with self.subTest(said):
                text = "\n".join([*lines[:60], lines[60].replace(old, new, 1), *lines[61:]])
                self.assertRegex(self.fails(text), f"^text, line 61: .*{said}")
        self.assertRegex(self.fails("\n".join(lines[: 7 * len(lines) // 8])), "graph 1 has 322 rows of 68 .* have 368$")

    def test_row_left_out(self) -> None:
        for row in (4, 17, 30, 44):
            for name, layout in self.LAYOUTS.items():
                with self.subTest(row=row, layout=name):
                    entries = {place: values for place, values in shared.drawn_entries(1).items() if place[0] != row}
                    self.refused(layouts.text(1, [layout(layouts.halves(entries))]), row)

    def test_row_not_named(self) -> None:
        for row in (4, 17, 30, 45):
            with self.subTest(row=row):
                lines = layouts.halves(shared.drawn_entries(1))
                for cells in lines:
                    cells[0] = "" if cells[0] == str(row) else cells[0]
                self.refused(layouts.text(1, [lines]), row)

    def test_rows_exchanged(self) -> None:
        entries = shared.drawn_entries(1)
        lines = layouts.halves(entries)
        named = [[cells for cells, (row, _) in zip(lines, entries) if row == it] for it in range(46)]
        named[20], named[21] = named[21], named[20]
        self.refused(layouts.text(1, [sum(named, [])]), 20)

    def test_cut_off(self) -> None:
        for name, layout in self.LAYOUTS.items():
            with self.subTest(name):
                entries = {place: values for place, values in shared.drawn_entries(1).items() if place <= (40, 62)}
                lines = layouts.halves(entries)[:-1]
                self.refused(layouts.text(1, [layout(lines)]), 40)

    def test_one_entry_less(self) -> None:
        entries = shared.drawn_entries(1)
        columns = [column for row, column in entries if row == 17]
        del entries[17, columns[1]]
        text = layouts.text(1, [layouts.halves(entries)])
        self.assertIn("graph 1 has 315 entries, and Table 5.3.2-2 has 316", self.fails(text))

    def test_records(self) -> None:
        lines = shared.table_text({1: shared.drawn_entries(1)}).splitlines()
        at = next(place for place, line in enumerate(lines) if line.startswith("1,17,"))
        fields = lines[at].split(",")
        damages = {
            "a value too large": [",".join([*fields[:3], "256", *fields[4:]])],
            "a column that the row has not": [",".join([*fields[:2], "40", *fields[3:]])],
            "twice": [lines[at], lines[at]],
        }
        for name, some in damages.items():
            with self.subTest(name):
                self.refused(";".join("\n".join([*lines[:at], *some, *lines[at + 1 :]]).split(",")), 17)
        for name, new in {"a field less": ",".join(fields[:-1]), "a comment": "# a note"}.items():
            with self.subTest(name):
                text = "\n".join([*lines[:at], new, *lines[at + 1 :]])
                self.assertIn(f"line {at + 1}: not a record of 11 numbers", self.fails(text))

    def test_no_table_in_it(self) -> None:
        for name, octets in {
            "nothing": b"", "words": b"some words\n", "zeros": bytes(50), "a .doc": b"\xd0\xcf\x11\xe0"
        }.items():
            with self.subTest(name):
                shared.refused("table", "read", self.file("text.txt", octets))
