"""The program as the tests have it: run over texts, each in a file of its own, with its ends whole or broken."""

from __future__ import annotations

import concurrent.futures
import dataclasses
import os
import pathlib
import shutil
import subprocess
import tempfile
import typing
import unittest

import outcome
import texts

ROOT = pathlib.Path(__file__).resolve().parent.parent.parent

# A program that hangs ends the test; a busy machine does not.
SECONDS = 600
FILES = ["table", "settings", "blocks", "schedule"]
Text = typing.Union[str, bytes]

_program = pathlib.Path()
_folder = pathlib.Path(tempfile.mkdtemp(prefix="linksim-program-"))
_library: pathlib.Path | None = None
# One item a run: several runs may go on at once.
_runs: list[list[str]] = []


def use(program: pathlib.Path) -> None:
    """Names the program."""
    global _program
    _program = outcome.program_of("program", program)


def end() -> None:
    """Takes away the files, and says how often the program was run."""
    shutil.rmtree(_folder)
    print(f"{len(_runs)} runs of the program")


def folder() -> pathlib.Path:
    """Where the files of the runs lie, and where the program is run."""
    return _folder


def broken_ends() -> pathlib.Path:
    """The library tests/break.c, by which reads and writes fail; a test without a C compiler is skipped."""
    global _library
    if _library is None:
        compiler = os.environ.get("CC", "cc")
        if not shutil.which(compiler):
            raise unittest.SkipTest(f"no {compiler}")
        _library = _folder / "break.so"
        source = ROOT / "tests" / "break.c"
        subprocess.run([compiler, "-shared", "-fPIC", "-O1", "-o", _library, source, "-ldl"], check=True)
    return _library


def octets(text: Text) -> bytes:
    """A text in octets."""
    return text if isinstance(text, bytes) else text.encode()


@dataclasses.dataclass(frozen=True)
class Ended:
    """How a run ended, and all that it wrote."""

    status: int
    output: bytes
    error: bytes


def done(output: Text) -> Ended:
    """The ending of a run that is done."""
    return Ended(0, octets(output), b"")


def refused(fault: str, output: Text = b"") -> Ended:
    """The ending of a run that is refused by this fault, after a first part of its text."""
    return Ended(1, octets(output), b"linksim: refused: " + fault.encode() + b"\n")


def ran(words: list[str], stdin: Text = b"", name: str | None = None, shell: str = "", **breaks: typing.Any) -> Ended:
    """The ending of the program with these words, and by another name than its path if one is given. Or it is run by a shell,
    which has the program and the words as "$@". `breaks` are numbers for tests/break.c, by their names."""
    _runs.append(words)
    environment = dict(os.environ)
    if breaks:
        environment["LD_PRELOAD"] = str(broken_ends())
        environment.update({name: str(value) for name, value in breaks.items()})
    ended = subprocess.run(
        ["sh", "-c", shell, "sh", str(_program), *words] if shell else [name or str(_program), *words],
        executable=None if shell else _program,
        input=octets(stdin),
        capture_output=True,
        cwd=_folder,
        env=environment,
        timeout=SECONDS,
        check=False,
    )
    return Ended(ended.returncode, ended.stdout, ended.stderr)


def all_ran(runs: list[tuple[list[str], str, dict[str, int]]]) -> list[Ended]:
    """The endings of many runs, each given by its words, its standard input and its breaks, some of them at once."""
    if any(breaks for _, _, breaks in runs):
        broken_ends()
    with concurrent.futures.ThreadPoolExecutor(os.cpu_count()) as pool:
        return list(pool.map(lambda run: ran(run[0], run[1], **run[2]), runs))


@dataclasses.dataclass(frozen=True)
class Row:
    """A run of a command over files with these texts. It has what the run shows, and all that it writes, or the fault
    that it is refused by."""

    name: str
    output: Text = ""
    refused: str = ""
    table: Text = texts.PRACTICE
    settings: Text = texts.FULL_RATE
    blocks: Text = "01\n"
    schedule: Text = texts.six()
    # The rate of `cut`, as its words have it.
    rate: str = "2048"

    def wanted(self) -> Ended:
        """How the run is to end."""
        return refused(self.refused) if self.refused else done(self.output)

    def words(self, command: str) -> list[str]:
        """The words of a command, over files of the folder that this writes."""
        names = {"cut": ["blocks"], "check": ["table"]}.get(command, FILES)
        for name in names:
            (_folder / name).write_bytes(octets(getattr(self, name)))
        rate = ["--rate", self.rate] if command == "cut" else []
        return [command, *rate, *(word for name in names for word in (f"--{name}", name))]


def row(name: str, records: list[str], *output: str, **files: typing.Any) -> Row:
    """A row of these records, all of as many columns, and these lines."""
    schedule = texts.lines(texts.HEADERS[records[0].count(",") + 1], *records)
    return Row(name, texts.lines(*output), schedule=schedule, **files)


def shortened(ended: Ended) -> str:
    """An ending as a failed test shows it."""
    parts = [part if len(part) < 2000 else part[:1000] + b" .. " + part[-1000:] for part in (ended.output, ended.error)]
    return f"status {ended.status}, standard output {parts[0]!r}, standard error {parts[1]!r}"


class Program(unittest.TestCase):
    """A test that runs the program."""

    def is_ended(self, found: Ended, wanted: Ended, name: str) -> None:
        """Compares how a run ended, octet by octet, with how it is to end."""
        if found != wanted:
            self.fail(f"{name}: {shortened(found)} where {shortened(wanted)} is due")

    def check(self, commands: str, rows: list[Row]) -> None:
        """Runs each row with each of these commands."""
        names = [row.name for row in rows]
        self.assertEqual(len(set(names)), len(names), "two rows have one name")
        for command in commands.split():
            for row in rows:
                with self.subTest(command=command, row=row.name):
                    self.is_ended(ran(row.words(command)), row.wanted(), row.name)
