"""examples/rtl, as its Makefile runs it: in both simulators, right, and with a mistake planted."""

from __future__ import annotations

import shutil

import clib
import shared
import simulators

# A mistake in each unit: what is right, and what stands for it.
MISTAKES = {
    "crc": ("crc_attach.sv", "crc24 ? 2'd0", "crc24 ? 2'd1"),
    "interleaver": ("nr_interleaver.sv", "first + 4'd1", "first + 4'd2"),
}


class Examples(clib.InFolder):
    """A copy of the examples, over the library of the tests."""

    def setUp(self) -> None:
        super().setUp()
        self.copy = shutil.copytree(simulators.EXAMPLES, self.folder / "rtl", ignore=shutil.ignore_patterns("out"))

    def made(self, *targets: str) -> tuple[int, str]:
        return simulators.ran(
            ["make", "-j", "4", f"DPI={simulators.DPI}", f"NR_H={simulators.C}", f"NR_A={clib.STATIC}", f"TABLE={clib.PRACTICE}",
             *targets],
            self.copy,
        )

    def plant(self, unit: str) -> None:
        name, right, wrong = MISTAKES[unit]
        text = (self.copy / name).read_text()
        self.assertEqual(text.count(right), 1)
        (self.copy / name).write_text(text.replace(right, wrong))

    def judged(self, simulator: str, tool: str) -> None:
        clib.needs(tool)
        status, said = self.made(simulator)
        self.assertEqual(status, 0, said)
        for line in ("tb_crc: 60 blocks, 0 faults", "tb_interleaver: 60 code blocks, 0 faults"):
            self.assertIn(line, said)

    def test_verilator(self) -> None:
        self.judged("verilator", "verilator")

    def test_icarus(self) -> None:
        self.judged("icarus", "iverilog")

    def test_changes(self) -> None:
        """A model is built anew of other pins, and over another library; all is judged anew, as of another table."""
        (self.copy / "out").mkdir()
        for name in ("nr.vpi", "suite.vvp", "crc.vvp", "crc.icarus", "suite.jsonl", "cases.txt", "rom.mem"):
            (self.copy / "out" / name).touch()
        said = self.made("-n", "suite", "out/crc.icarus", "SIMULATOR=icarus")[1]
        for words in (" suite --table ", " plain ", " rom ", " out/crc.vvp "):
            self.assertIn(words, said)
        for changed in (self.copy.resolve() / "code_block_pins.svh", clib.STATIC):
            self.assertIn("iverilog -g2012", self.made("-n", "-W", str(changed), "out/suite.vvp")[1])

    def test_suite(self) -> None:
        """The encoder over the cases of a suite, in both simulators: right, and with a mistake that is named."""
        for simulator, tool in (("verilator", "verilator"), ("icarus", "iverilog")):
            clib.needs(tool)
            wanted = (0, 0, "all that was answered agrees"), (1, 2, "shift-left gives all"), (5, 2, "difference, step interleaving")
            for bug, status, found in wanted:
                with self.subTest(simulator, bug=bug):
                    words = f"TOOL={shared.TOOLS}/$(1)", f"SIMULATOR={simulator}", f"BUG={bug}", f"STALL={40 if bug == 5 else 0}"
                    ended, said = self.made("suite", *words)
                    self.assertEqual(ended, status, said)
                    self.assertRegex(said, rf"nr_scoreboard: \d+ cases, {'[1-9]' if bug else '0 faults'}")
                    self.assertIn(found, said)

    def test_planted(self) -> None:
        """A unit with a mistake fails, with the first wrong bit."""
        clib.needs("iverilog")
        for unit in MISTAKES:
            self.plant(unit)
        for unit, stage in (("crc", "attached: bit "), ("interleaver", "f of code block r = 0: bit ")):
            status, said = self.made(f"out/{unit}.icarus")
            with self.subTest(unit):
                self.assertNotEqual(status, 0)
                self.assertIn(stage, (self.copy / "out" / f"{unit}.icarus.log").read_text())
