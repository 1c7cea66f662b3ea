"""An encoder in RTL before tools/conform: right, and with each of five planted mistakes, which the report must find."""

from __future__ import annotations

import pathlib
import shutil
import tempfile
import unittest

import clib
import conform_shared
import shared
import simulators

# The planted mistakes of code_block_chain, by their number: what the tests call it, and how long the output stalls at most.
BUGS = {"right": (0, 40), "left": (1, 0), "once": (2, 0), "past": (3, 0), "stale": (4, 0), "stall": (5, 40)}


class Dut(unittest.TestCase):
    """Over one suite, and a table of both base graphs with the shape of the published ones."""

    folder: pathlib.Path

    @classmethod
    def setUpClass(cls) -> None:
        cls.folder = pathlib.Path(tempfile.mkdtemp(dir=simulators.FOLDER))
        shutil.copy(conform_shared.table(), cls.folder / "table.csv")
        cls.write("suite.jsonl", "conform", "suite", "--table", cls.folder / "table.csv")
        cls.write("cases.txt", "conform", "plain", cls.folder / "suite.jsonl", with_program=False)
        cls.write("rom.mem", "table", "rom", "--table", cls.folder / "table.csv")

    @classmethod
    def write(cls, name: str, tool: str, *words: object, with_program: bool = True) -> None:
        """Writes what a tool says into a file."""
        status, output, error = shared.tool(tool, *words, with_program=with_program)
        assert not status, error
        (cls.folder / name).write_text(output)

    def report(self, bug: str, suite: str = "suite.jsonl", cases: str = "cases.txt") -> tuple[int, str]:
        """The status and the text of the report on the DUT with a planted mistake."""
        clib.needs("verilator")
        number, stall = BUGS[bug]
        answers = self.folder / f"{bug}.txt"
        said = simulators.run(
            "suite", "+table=table.csv", f"+cases={cases}", f"+answers={answers}", f"+bug={number}", f"+stall={stall}",
            folder=self.folder,
        )
        self.assertRegex(said, rf"nr_scoreboard: \d+ cases, {'0' if bug == 'right' else '[1-9][0-9]*'} faults\n$")
        status, output, error = shared.tool("conform", "check", "--plain", self.folder / suite, answers, with_program=False)
        self.assertEqual(error, "")
        return status, output

    def test_right(self) -> None:
        status, output = self.report("right")
        self.assertEqual((status, "difference" in output), (0, False), output)
        count = len((self.folder / "cases.txt").read_text().splitlines())
        self.assertIn(f"{count} cases, {count} answered\n", output)

    def found(self, bug: str, step: str, *said: str) -> str:
        """The report names the step, and says this."""
        status, output = self.report(bug)
        self.assertEqual(status, 1)
        self.assertRegex(output, f"first difference, step {step}, ")
        for text in said:
            self.assertRegex(output, text)
        return output

    def test_left(self) -> None:
        self.found("left", "LDPC", "shift-left gives all \\d+ cases that fail and all others")

    def test_once(self) -> None:
        """The first parity column is turned back by a value from which Zc is subtracted once too: no single mistake has both."""
        self.found("once", "LDPC", "exactly where Zc <= 96")

    def test_past(self) -> None:
        self.found("past", "selection", r"e_\d+ is d_\d+ \(k0 = \d+, Ncb = \d+", "wrapped-late")

    def test_stale(self) -> None:
        """No mistake of one case is such: what is wrong depends on the case before. The first wrong row is told."""
        self.found("stale", "LDPC", r"rows? .*\d+ fixes it", "none of the known mistakes")

    def test_stall(self) -> None:
        self.found("stall", "interleaving", r"f of code block r = 0: \d+ bits, right are \d+; the first \d+ agree")
