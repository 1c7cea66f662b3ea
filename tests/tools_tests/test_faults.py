"""If a word or a file is wrong, a tool writes one line and ends with status 2. How it finds the program, and which
Pythons run it, is tested too."""

from __future__ import annotations

import ast
import hashlib
import os
import pathlib
import shutil
import sys
import typing

import shared
from test_curve import CONF, Conf

PYTHONS = [f"python3.{minor}" for minor in range(8, 14)]


def interpreters() -> typing.Iterator[tuple[str, str]]:
    """The Pythons that are there, of those that the tools are for."""
    for name in PYTHONS:
        found = shutil.which(name)
        if found and not shared.run([found, "--version"])[0]:
            yield name, found


class Lines(Conf):
    """What ended in a traceback once."""

    def refused(self, *words: object) -> str:
        """The one line with which the tool fails."""
        return shared.refused("curve", *words)

    def test_results_in_no_file(self) -> None:
        self.assertIn("No such file", self.refused("run", self.conf, "--out", self.folder / "none" / "x.csv"))
        for path in ("/dev/full", "/dev/null", "-", self.folder):
            self.assertIn("not a regular file", self.refused("run", self.conf, "--out", path))
        picture = self.file("c.png", b"\x89PNG\r\n\x1a\n\xff")
        self.assertIn("is not UTF-8 text", shared.refused("curve", "run", self.conf, "--out", picture))
        self.assertEqual(picture.read_bytes()[-1:], b"\xff")

    def test_failed_rounds(self) -> None:
        """In no folder; and none."""
        self.assertIn("/dev/null", self.refused("failed", self.conf, "0.4", "0", "--out=/dev/null/x"))
        self.assertIn("exists and is not empty", self.refused("failed", self.conf, "0.4", "0", "--out", self.folder))
        said = shared.refused("curve", "failed", self.conf, "0", "0", "--out", self.folder / "failed", status=0)
        self.assertEqual(said, "tools/curve: no round failed: nothing is written\n")
        self.assertFalse((self.folder / "failed").exists())

    def test_pictures(self) -> None:
        """In no folder, of no form, and in a file that is full."""
        shared.needs_matplotlib()
        self.file("c.csv", "0.2,0,40,1,40,3,40,3,900,9\n0.1,0,40,1,21,0,21,0,200,0\n")
        for name in ("x.xyz", "x", "."):
            self.assertIn(f"{self.folder / name}: ", shared.refused("curve", "plot", self.conf, "--out", self.folder / name, status=2))
        self.assertIn("No such file", self.refused("plot", self.conf, "--out", self.folder / "none" / "x.svg"))
        full = self.folder / "full.svg"
        full.symlink_to("/dev/full")
        self.assertEqual(self.refused("plot", self.conf, "--out", full), f"tools/curve: {full}: No space left on device\n")

    def test_files_that_are_full(self) -> None:
        """The file is named, and not the standard output, on a disk that takes no more."""
        command = [sys.executable, shared.TOOLS / "curve", "run", self.conf, "--program", shared.program()]
        status, output, error = shared.run(["bash", "-c", 'ulimit -f 0 && exec "$@"', "-", *command])
        self.assertEqual((status, output), (1, b""))
        self.assertEqual(error.decode(), f"tools/curve: {self.folder / 'c.csv'}: File too large\n")

    def test_output_that_is_full(self) -> None:
        point = ["curve", "point", self.conf, "0", "0", "--program", shared.program()]
        cases: list[list[typing.Any]] = [point, ["vectors", "near", "1000"]]
        for words in cases:
            script = 'exec "$@" > /dev/full'
            run = [sys.executable, shared.TOOLS / words[0], *words[1:]]
            status, _, error = shared.run(["bash", "-c", script, "-", *run])
            said = f"tools/{words[0]}: standard output: No space left on device\n"
            self.assertEqual((status, error.decode()), (1, said))

    def test_outputs_whose_reader_goes(self) -> None:
        """A reader that goes, as `head -1` does: nothing is said."""
        shared.program()
        for tool in ("examples/draw-table", "tools/explain Core", "tools/vectors near 1000"):
            self.assertEqual(shared.run(["bash", "-c", f"{tool} | true"], folder=shared.ROOT)[2], b"", tool)

    def test_blocks_of_standard_input(self) -> None:
        words, blocks = ["vectors", "one", "--rv=0", "--g=24"], shared.INPUTS["blocks"].read_bytes()
        wanted = shared.made(*words, *shared.options(shared.INPUTS))
        self.assertEqual(shared.made(*words, *shared.options({**shared.INPUTS, "blocks": "-"}), stdin=blocks), wanted)


class Program(shared.InFolder):
    """How the tools find the program."""

    def about(
        self, folder: pathlib.Path, *words: str, path: str = "/usr/bin:/bin", name: str = "explain"
    ) -> tuple[int, str]:
        """The status and the output of a tool below a folder."""
        run = [sys.executable, folder / name, "about", *words]
        status, output, error = shared.run(run, environment={**os.environ, "PATH": path, "PYTHONPATH": str(shared.ROOT / "c")})
        return status, output.decode() + error.decode()

    def test_places(self) -> None:
        digest = hashlib.sha256(shared.program().read_bytes()).hexdigest()
        tools = self.folder / "share" / "linksim" / "tools"
        shutil.copytree(shared.TOOLS, tools, ignore=shutil.ignore_patterns("__pycache__"))
        status, said = self.about(tools)
        self.assertEqual((status, said.count("\n")), (1, 1))
        self.assertIn("needs the program linksim, which is neither", said)
        (self.folder / "path").mkdir()
        in_path = f"{self.folder / 'path'}:/usr/bin:/bin"
        named: list[tuple[str, list[str]]] = [("linksim", []), ("linksim", ["--program", "linksim"])]
        for name, words in [*named, ("other", ["--program", "other"])]:
            program = self.folder / "path" / name
            program.symlink_to(shared.program())
            self.assertIn(f"program sha256 {digest}\n", self.about(tools, *words, path=in_path)[1])
            program.unlink()
        for place in (self.folder / "bin", tools.parent / "crates" / "linksim" / "out"):
            place.mkdir(parents=True)
            (place / "linksim").symlink_to(shared.program())
            self.assertIn(f"program sha256 {digest}\n", self.about(tools)[1])
            (place / "linksim").unlink()

    def test_name(self) -> None:
        """A tool that is called as it is installed names itself so."""
        for tool in ("certify", "conform", "curve", "explain", "table", "vectors", "verify"):
            link = self.folder / f"linksim-{tool}"
            link.symlink_to(shared.TOOLS / tool)
            status, output, _ = shared.run([sys.executable, link, "--help"])
            self.assertEqual(status, 0)
            self.assertIn(f"usage: linksim-{tool} ", output.decode())
            self.assertNotIn(f"tools/{tool}", output.decode())


class Pythons(shared.InFolder):
    """Python 3.8 to 3.13."""

    def test_grammar(self) -> None:
        for path in sorted(shared.TOOLS.glob("**/*")):
            text = path.read_text() if path.is_file() and path.suffix in ("", ".py") else ""
            if path.suffix or text.startswith("#!/usr/bin/env python3"):
                with self.subTest(path.name):
                    ast.parse(text, feature_version=(3, 8))

    def test_each_that_is_there(self) -> None:
        conf = self.file("c.toml", CONF)
        for name, python in interpreters():
            with self.subTest(name):
                cases: list[list[typing.Any]] = [
                    ["vectors", "near", "1000"],
                    ["curve", "point", conf, "0", "0"],
                    ["conform", "suite", "--table", shared.EXAMPLES / "drawn.csv"],
                    ["explain", "check", "--table", shared.EXAMPLES / "practice.csv"],
                    ["table", "fingerprint", "--table", shared.EXAMPLES / "practice.csv"],
                ]
                for words in cases:
                    option = ["--program", shared.program()] if words[0] in ("curve", "explain") else []
                    status, output, error = shared.run([python, shared.TOOLS / words[0], *words[1:], *option])
                    said = error.decode()
                    if status:
                        self.assertRegex(said, r"^tools/curve: .*tomli; this is Python 3\.(8|9|10)\..* without it\n$")
                    else:
                        self.assertTrue(output)
