"""Every function of the tools, of packaging, of bench and of the tests has types (pyproject.toml), and no name is idle."""

from __future__ import annotations

import shutil
import tempfile
import unittest

import shared
import test_documents

# What Python 3.8 runs: the tools, and what makes the packages.
SHIPPED = [
    "c/nr", "c/nr_build.py",
    "tools/linksim_tools", "packaging/packages", "packaging/dist", "tools/certify", "tools/conform", "tools/curve", "tools/explain",
    "tools/first-build", "tools/table", "tools/vectors", "tools/verify",
]
# Their tests and the program's, and the other scripts, which Python 3.9 runs: two lists, since some names stand in both.
SUITES = ("rtl", "engines", "c-library", "packages", "tools")
SCRIPTS = (
    "curve-coverage", "fuzz-readers", "generated", "needs", "quick", "refused-growths", "with-table",
)
GATE = ("believed-words", "dropped-clauses", "prices", "times", "wrong-bodies")
TESTS = [
    [
        *(f"tests/{name.replace('-', '_')}_tests" for name in SUITES), *(f"tests/{name}" for name in (*SUITES, *SCRIPTS)),
        *(f"gate/{name}" for name in GATE),
        "examples/draw-table", "bench/fast_bodies", "bench/inputs.py", "bench/throughput", "bench/python_calls",
    ],
    ["tests/model", "tests/program_tests", "tests/program"],
]


class Types(unittest.TestCase):
    """By mypy and pyflakes, if they are there."""

    def judged(self, *words: str) -> None:
        """mypy finds no fault."""
        if not shutil.which("mypy"):
            self.skipTest("no mypy")
        with tempfile.TemporaryDirectory() as cache:
            options = ["--config-file", "pyproject.toml", "--cache-dir", cache, "--no-error-summary"]
            status, output, error = shared.run(["mypy", *options, *words], folder=shared.ROOT)
        self.assertEqual((output.decode(), error.decode(), status), ("", "", 0))

    def test_what_is_shipped(self) -> None:
        self.judged(*SHIPPED)

    def test_tests(self) -> None:
        for paths in TESTS:
            with self.subTest(paths[0]):
                self.judged("--python-version", "3.9", *paths)

    def test_names(self) -> None:
        """pyflakes finds no import that nothing uses, and no name that stands for two things."""
        if not shutil.which("pyflakes3"):
            self.skipTest("no pyflakes3")
        status, output, error = shared.run(["pyflakes3", *test_documents.every_script()], folder=shared.ROOT)
        self.assertEqual((output.decode(), error.decode(), status), ("", "", 0))
