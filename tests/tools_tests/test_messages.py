"""What users gave, as all tools show it in their messages: short, with nothing that a terminal obeys, and with the file's name."""

from __future__ import annotations

import re

import shared
from linksim_tools.common import message
from linksim_tools.common.command_line import numbers


class Messages(shared.InFolder):
    """Lines on standard error."""

    def test_shown(self) -> None:
        for given, wanted in (
            ("word", "word"), (b"\x1b[2J\xff", "\\x1b[2J\\xff"), ("a\nb\x07", "a\\nb\\x07"), (17, "17"), ("\ud800\u2028", "\\ud800\\u2028"),
            ("\xe9" * 60, "\xe9" * 60), ("x" * 61, "x" * 58 + ".."), ("\0" * 10**6, ("\\x00" * 15)[:58] + ".."),
        ):
            self.assertEqual(message.shown(given), wanted)

    def test_first_lines(self) -> None:
        lines = [str(it) for it in range(200_000)]
        self.assertEqual(message.first_lines(lines[:10], "{} more"), lines[:10])
        self.assertEqual(message.first_lines(lines, "f.csv: so are {} more"), [*lines[:9], "f.csv: so are 199991 more"])

    def test_odd_inputs(self) -> None:
        """A key, a line and a word that are long or have control characters."""
        long, odd = "k" * 60_000, "\x1b]0;title\x07"
        blocks, table = shared.INPUTS["blocks"], shared.INPUTS["table"]
        one = ["vectors", "one", "--table", table, "--blocks", blocks, "--rv=0", "--g=24"]
        cases: list[tuple[list[object], int]] = [
            ([*one, "--settings", self.file("k.toml", f"{long} = 1\n")], 1),
            ([*one, "--settings", shared.INPUTS["settings"], f"--mask={odd}{long}"], 1),
            (["table", "read", "--graph=2", self.file("t.txt", f"{odd} 1 2 3 4 5 6 7 8 9 {long}\n")], 1),
            (["vectors", "many", "--table", table, "--out=new", "--cases", self.file("c.txt", f"id {odd}{long}\n")], 1),
            (["conform", "suite", "--table", self.folder / f"{odd}{'n' * 200}"], 1), (["vectors", "near", long], 2),
            (["explain", f"{odd}{long}"], 2), (["table", "rom", "--table", table, f"--z={odd}{long}"], 2),
        ]
        for words, status in cases:
            with self.subTest(words[:2]):
                found, output, error = shared.tool(str(words[0]), *words[1:], with_program=False)
                last = error.splitlines()[-1]
                self.assertEqual((found, output), (status, ""))
                self.assertLess(len(last), 420)
                self.assertIsNone(re.search(r"[\x00-\x09\x0b-\x1f\x7f]", error))
                if status == 1:
                    self.assertEqual(error.count("\n"), 1)

    def test_lists(self) -> None:
        self.assertEqual(numbers("0-3,7"), [0, 1, 2, 3, 7])
        for text in ("", "1,", "1-2-3", "-1", "x", "1234567", "\u0661"):
            self.assertRaisesRegex(Exception, "is not a list of numbers such as 0-3,7", numbers, text)
