"""`tools/table read`: a text that lacks line breaks is read at once all the same, or the line is named."""

from __future__ import annotations

import typing
from unittest import mock

import layouts
from linksim_tools.common.program import Failed
from linksim_tools.table import reading, rows, text as texts
import shared

# A text is read at once if so many steps are tried for each of its lines.
STEPS_OF_A_LINE = 20


class Joined(shared.InFolder):
    """A line break is missing: the table is read at once all the same, or the line is named."""

    def judged(self, entries: typing.Any, lines: list[str], at: int) -> None:
        """The lines with one joined to the next: read as these entries, or refused by its number, at once."""
        text = "\n".join([*lines[:at], f"{lines[at]}  {lines[at + 1]}", *lines[at + 2 :]])
        with mock.patch.object(rows.Reading, "steps", autospec=True, side_effect=rows.Reading.steps) as steps:
            try:
                read = reading.read(texts.lines_of("text", text.encode()))
            except Failed as failed:
                self.assertRegex(str(failed), rf"^text, line {at + 1}: ")
            else:
                self.assertEqual({(row, column): values for row, column, *values in next(iter(read.values()))}, entries)
        self.assertLess(steps.call_count, STEPS_OF_A_LINE * len(lines))

    def test_each_pair_of_lines(self) -> None:
        forms: list[tuple[int, str, typing.Callable[..., typing.Any]]] = [
            (1, "first", lambda lines: lines), (2, "alone", lambda lines: lines), (1, "middle", layouts.side_by_side),
        ]
        for seed, (graph, index, layout) in enumerate(forms):
            entries = shared.drawn_entries(graph, seed)
            lines = layouts.text(graph, [layout(layouts.halves(entries, index))], layouts.single_spaces).splitlines()
            for at in range(5, len(lines) - 2):
                with self.subTest(graph=graph, index=index, at=at):
                    self.judged(entries, lines, at)

    def test_as_a_user(self) -> None:
        """An entry a line, two of them joined; one that stands twice in its line; and all in one line."""
        entries = shared.drawn_entries(2)
        lines = [layouts.single_spaces(cells) for cells in layouts.halves(entries)]
        joined = "\n".join([*lines[:120], f"{lines[120]} {lines[121]}", *lines[122:]])
        twice = "\n".join([*lines[:27], f"{lines[27]} {lines[26]}", *lines[28:]])
        wanted = [
            (joined, 0, "^graph 2: 42 rows, 197 entries\n"), (twice, 1, "text.txt, line 28: graph 2, row "),
            (" ".join(lines) * 160, 1, "text.txt, line 1: [0-9,]* characters, and no line of a table has more than 100,000\n"),
        ]
        for text, status, said in wanted:
            with self.subTest(said):
                found = shared.tool("table", "read", "--graph", "2", self.file("text.txt", text))
                self.assertEqual((found[0], found[1]), (status, "" if status else shared.table_text({2: entries})))
                self.assertRegex(found[2], said)

    def test_too_many_ways(self) -> None:
        """Half of the lines are joined, and one value is wrong: the line of the wrong value is named."""
        lines = [layouts.single_spaces(cells) for cells in layouts.halves(shared.drawn_entries(1))]
        lines[300] += " 7"
        joined = [" ".join(lines[at : at + 2]) for at in range(0, 200, 2)] + lines[200:]
        with self.assertRaisesRegex(Failed, "^text, line 201: graph 1, row 4[0-9] could not be read: "):
            reading.read(texts.lines_of("text", "\n".join(joined).encode()), [1])
