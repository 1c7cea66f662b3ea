"""Memory files as both simulators read them. They are every stage of transmissions in beats of several widths, ROMs,
and a run of all code blocks of a suite through a DUT."""

from __future__ import annotations

import json
import pathlib
import re
import typing

import clib
import shared
import simulators

SIMULATORS = ("memory", "memory-icarus")
FORMS = (("mem", 32, "lsb"), ("mem", 1, "lsb"), ("mem", 129, "msb"), ("axis", 512, "msb"), ("axis", 20, "lsb"))


def bits_of(words: list[int], count: int, width: int, first: str) -> str:
    """The first bits of words."""
    texts = (f"{word:0{width}b}" for word in words)
    return "".join(text[::-1] if first == "lsb" else text for text in texts)[:count]


class Files(clib.InFolder):
    """A suite of two code blocks and one with fillers, exported."""

    def setUp(self) -> None:
        super().setUp()
        for tool in ("verilator", "iverilog"):
            clib.needs(tool)

    def words(self, name: str, path: pathlib.Path, count: int) -> list[int]:
        """The words of a file, as a simulator reads them."""
        said = simulators.run(name, f"+file={path}", f"+count={count}")
        return [int(line, 16) for line in said.split()]

    def suite(self) -> tuple[pathlib.Path, pathlib.Path]:
        """A table of both base graphs, and its suite."""
        table = self.file("table.csv", simulators.tables())
        return table, self.file("suite.jsonl", shared.made("conform", "suite", "--table", table))

    def exported(self, suite: pathlib.Path, name: str, *words: object) -> dict[str, typing.Any]:
        """The manifest of what `export` writes."""
        status, output, error = shared.tool("conform", "export", suite, "--out", self.folder / name, *words, with_program=False)
        self.assertEqual((status, output), (0, ""), error)
        made: dict[str, typing.Any] = json.loads((self.folder / name / "manifest.json").read_text())
        return made

    def test_stages(self) -> None:
        """Every file of some cases, read by both simulators, has the bits of the suite."""
        _, suite = self.suite()
        head, *lines = suite.read_text().splitlines()
        chosen = [line for line in lines if json.loads(line)["id"] in ("limit-8-511", "mask-hole")]
        head = json.dumps({**json.loads(head), "cases": len(chosen)})
        small = self.file("small.jsonl", "".join(line + "\n" for line in [head, *chosen]))
        cases = {it["id"]: it for it in map(json.loads, chosen)}
        for form, width, first in FORMS:
            manifest = self.exported(small, f"{form}-{width}", "--form", form, "--width", width, "--first", first)
            for case in manifest["cases"]:
                for name, told in case["files"].items():
                    self.judge(f"{form}-{width}", form, width, first, name, told, cases[case["id"]])

    def judge(
        self, folder: str, form: str, width: int, first: str, name: str, told: dict[str, typing.Any], case: dict[str, typing.Any]
    ) -> None:
        """One file, read by both simulators."""
        stage, _, r = name.partition("_")
        right = case[stage] if not r else case["codeblocks"][int(r)][stage]
        bits = [0 if it is None else it for it in right] if stage == "d" else None
        if bits is None:
            text = f"{int(right['hex'], 16):0{4 * len(right['hex'])}b}"[: right["count"]]
        else:
            text = "".join(map(str, bits))
        lanes = -(-width // 8)
        for simulator in SIMULATORS:
            with self.subTest(name, simulator=simulator, width=width):
                words = self.words(simulator, self.folder / folder / told["file"], told["beats"])
                data = [word & (1 << width) - 1 for word in words]
                self.assertEqual((told["bits"], bits_of(data, told["bits"], width, first)), (len(text), text))
                if form == "axis":
                    lasts = [word >> width + lanes for word in words]
                    self.assertEqual(lasts, [0] * (len(words) - 1) + [1])
                if "care" in told:
                    words = self.words(simulator, self.folder / folder / told["care"], told["beats"])
                    cares = bits_of(words, told["bits"], width, first)
                    self.assertEqual(cares, "".join("0" if it is None else "1" for it in right))

    def test_rom(self) -> None:
        """The ROM of a table, read by both simulators, has each entry in its section, and all sections are equally long."""
        table = self.file("table.csv", simulators.tables())
        output = shared.made("table", "rom", "--table", table)
        path = self.file("rom.mem", output)
        depth = int(re.findall(r"(\d+) words a section", output)[0])
        entries = sorted([int(field) for field in line.split(",")] for line in simulators.tables().split())
        for simulator in SIMULATORS:
            words = self.words(simulator, path, 16 * depth)
            for graph in (1, 2):
                mine = [it for it in entries if it[0] == graph]
                for index in range(8):
                    at = ((graph - 1) * 8 + index) * depth
                    found = [(word >> 9 & 127, word & 511) for word in words[at : at + len(mine)]]
                    self.assertEqual(found, [(it[2], it[3 + index]) for it in mine])
                    ends = [place for place, word in enumerate(words[at : at + len(mine)]) if word >> 16]
                    self.assertEqual(ends, [p for p, it in enumerate(mine) if p + 1 == len(mine) or mine[p + 1][1] != it[1]])

    def test_run(self) -> None:
        """All code blocks of a suite through the DUT, in both simulators, without and with a mistake."""
        table, suite = self.suite()
        manifest = self.exported(suite, "run")
        blocks = sum(part["E"] > 0 for case in manifest["cases"] for part in case["codeblocks"])
        (self.folder / "run" / "rom.mem").write_text(shared.tool("table", "rom", "--table", table)[1])
        for icarus in (False, True):
            name = f"files-{'icarus' if icarus else 'verilator'}"
            include = "-I" if icarus else f"-I{self.folder / 'run'}"
            more = (include, str(self.folder / "run")) if icarus else (include,)
            simulators.MODELS[name] = simulators.Model("tb_files", simulators.FILES, icarus=icarus, library=False, more=more)
        for icarus in (False, True):
            name = f"files-{'icarus' if icarus else 'verilator'}"
            with self.subTest(name):
                said = simulators.run(name, "+stall=20", folder=self.folder / "run")
                self.assertEqual(said, f"tb_files: {blocks} code blocks, 0 wrong, 0 beats with X\n")
        said = simulators.run("files-verilator", "+bug=1", folder=self.folder / "run")
        self.assertRegex(said, r"^case 0, code block 0: bit \d+ of f, which has \d+\n")
