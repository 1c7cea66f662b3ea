"""What the tests of the tools share: the program, how it and the tools are run, and tables with drawn numbers."""

from __future__ import annotations

import os
import importlib.util
import pathlib
import random
import shutil
import subprocess
import sys
import tempfile
import typing
import unittest

import outcome
from linksim_tools.common.graphs import GRAPHS, LARGEST

ROOT = pathlib.Path(__file__).resolve().parent.parent.parent
PROGRAM = ROOT / "crates" / "linksim" / "out" / "linksim"
TOOLS = ROOT / "tools"
EXAMPLES = ROOT / "examples"
# The files of the examples, by the options that name them.
INPUTS = {"table": EXAMPLES / "practice.csv", "settings": EXAMPLES / "settings.toml", "blocks": EXAMPLES / "blocks.txt"}

# A program that hangs ends the test; a busy machine does not.
SECONDS = 600

# A table's entries: by row and column the eight values of the sets 0 to 7.
Entries = typing.Dict[typing.Tuple[int, int], typing.List[int]]

_program: pathlib.Path | None = PROGRAM


def use(path: pathlib.Path) -> None:
    """Names the program that the tests run. Without the built one, the tests that run it are skipped; if another one is named, it
    has to be there."""
    global _program
    is_built = path != PROGRAM or os.access(path, os.X_OK)
    _program = outcome.program_of("tools", path) if is_built else None


def program() -> pathlib.Path:
    """The path of the built program; a test that wants it is skipped where it isn't built."""
    if not _program:
        raise unittest.SkipTest("the program is not built: tools/first-build builds it")
    return _program


def run(
    words: typing.Sequence[object], stdin: bytes = b"", folder: pathlib.Path | None = None,
    environment: typing.Mapping[str, str] | None = None,
) -> tuple[int, bytes, bytes]:
    """A command's status, standard output and standard error, in octets."""
    ended = subprocess.run(
        [str(word) for word in words],
        input=stdin,
        capture_output=True,
        cwd=folder,
        env=environment,
        timeout=SECONDS,
    )
    return ended.returncode, ended.stdout, ended.stderr


def options(paths: typing.Mapping[str, object]) -> list[str]:
    """The options that name these paths."""
    return [f"--{name}={path}" for name, path in paths.items()]


def needs_tomllib() -> None:
    """Skips the tests of a module whose tool reads its settings with tomllib."""
    if sys.version_info < (3, 11):
        raise unittest.SkipTest("Python 3.11 is not there")


def needs_matplotlib() -> None:
    """Skips a test that draws, if this Python cannot."""
    if not all(importlib.util.find_spec(name) for name in ("matplotlib", "numpy")):
        raise unittest.SkipTest("matplotlib and numpy are not there")


def linksim(*words: object, stdin: bytes = b"", folder: pathlib.Path | None = None) -> str:
    """The program's standard output for these words, in text; a failure is a failed test."""
    status, output, error = run([program(), *words], stdin, folder)
    if status:
        raise AssertionError(f"linksim {words}: status {status}, {error.decode()}")
    return output.decode()


def tool(
    name: str, *words: object, stdin: bytes = b"", folder: pathlib.Path | None = None, with_program: bool = True
) -> tuple[int, str, str]:
    """A tool's status, standard output and standard error in text, over the program of these tests if it runs one."""
    runs_it = name in ("curve", "explain") or words[:2] == ("receiver", "suite")
    option = ["--program", program()] if with_program and runs_it else []
    status, output, error = run([sys.executable, TOOLS / name, *words, *option], stdin, folder)
    return status, output.decode(), error.decode()


def made(name: str, *words: object, **how: typing.Any) -> str:
    """What a tool writes that is done and says nothing; anything else is a failed test."""
    status, output, error = tool(name, *words, **how)
    if status or error:
        raise AssertionError(f"tools/{name} {words}: status {status}, {error}")
    return output


def refused(name: str, *words: object, status: int = 1, lines: int = 1, **how: typing.Any) -> str:
    """The one line, or so many, with which a tool is refused that writes nothing; anything else is a failed test."""
    found, output, error = tool(name, *words, **how)
    if (found, output, error.count("\n")) != (status, "", lines):
        raise AssertionError(f"tools/{name} {words}: status {found}, {output}, {error}")
    return error


def drawn_entries(graph: int, seed: int = 0) -> Entries:
    """The entries of a table with drawn numbers. It has as many as the published one of the base graph, at other
    places, and the shape that an accepted table has."""
    numbers = random.Random(f"{graph} {seed}")
    rows, first, count = GRAPHS[graph].rows, GRAPHS[graph].information, GRAPHS[graph].entries
    entries = {place: [value] * 8 for place, value in GRAPHS[graph].parity().items()}
    while len(entries) < count:
        row = numbers.randrange(rows)
        place = (row, numbers.randrange(first if row < 4 else first + 4))
        if row >= 4 or numbers.random() < 0.9:
            entries.setdefault(place, [numbers.randrange(size) for size in LARGEST])
    return dict(sorted(entries.items()))


def table_text(entries_by_graph: dict[int, Entries]) -> str:
    """The text of a table file, from the entries of each of its base graphs."""
    lines = [
        ",".join(str(number) for number in (graph, row, column, *values))
        for graph, entries in sorted(entries_by_graph.items())
        for (row, column), values in sorted(entries.items())
    ]
    return "".join(line + "\n" for line in lines)


def drawn_table(folder: pathlib.Path) -> pathlib.Path:
    """The path of a table file with drawn numbers for both base graphs."""
    path = folder / "drawn.csv"
    path.write_text(table_text({graph: drawn_entries(graph) for graph in (1, 2)}))
    return path


class InFolder(unittest.TestCase):
    """A test with a folder of its own, `self.folder`, which goes away with it."""

    def setUp(self) -> None:
        self.folder = pathlib.Path(tempfile.mkdtemp(prefix="linksim-tools-"))
        self.addCleanup(shutil.rmtree, self.folder)

    def file(self, name: str, text: str | bytes) -> pathlib.Path:
        """The path of a file of the folder with this text, or these octets."""
        path = self.folder / name
        path.write_bytes(text if isinstance(text, bytes) else text.encode())
        return path
