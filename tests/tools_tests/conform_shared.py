"""What the tests of tools/conform share: a table, a suite of the profile `quick` that is made once, and answers."""

from __future__ import annotations

import atexit
import dataclasses
import functools
import json
import pathlib
import shutil
import sys
import tempfile
import typing

import shared
from linksim_tools.common.graphs import GRAPHS
from linksim_tools.conform.encoder import suite as suites
from linksim_tools.conform.case import FIELDS, Answer
from linksim_tools.conform.chain import Chain
from linksim_tools.conform.clauses import Clauses, Impossible
from linksim_tools.conform.encoder.mistakes import MISTAKES, clauses_of


@functools.cache
def folder() -> pathlib.Path:
    """A folder that goes away with the tests."""
    path = pathlib.Path(tempfile.mkdtemp(prefix="linksim-conform-"))
    atexit.register(shutil.rmtree, path, True)
    return path


def entries(graph: int) -> dict[tuple[int, int], list[int]]:
    """A drawn table in which the value of the first parity column that has no equal is not 0 in some sets. It is
    so in the published tables too."""
    found = shared.drawn_entries(graph, 5)
    first = GRAPHS[graph].information
    sets = (6,) if graph == 1 else (0, 1, 2, 4, 5, 6)
    odd = 105 if graph == 1 else 1
    found[0, first] = found[3, first] = [int(it not in sets) for it in range(8)]
    found[1, first] = [odd if it in sets else 0 for it in range(8)]
    return found


@functools.cache
def table() -> pathlib.Path:
    """The path of a table of both base graphs."""
    path = folder() / "table.csv"
    path.write_text(shared.table_text({graph: entries(graph) for graph in (1, 2)}))
    return path


@functools.cache
def suite_path() -> pathlib.Path:
    """The path of a suite of the profile `quick`."""
    path = folder() / "suite.jsonl"
    path.write_text(shared.made("conform", "suite", "--table", table()))
    return path


@functools.cache
def suite() -> suites.Suite:
    """The same as it is read."""
    return suites.read(suite_path())


@functools.cache
def lines() -> dict[str, dict[str, typing.Any]]:
    """The cases of the suite as JSON has them, by id."""
    found = map(json.loads, suite_path().read_text().splitlines()[1:])
    return {it["id"]: it for it in found}


# Cases of every kind that a test of one answer needs; a suite of these alone is read at once.
FEW = ("limit-8-511", "kb-192", "kb-560", "kb-640", "limited-2-rv1", "limited-2-n", "fillers-2", "mask-hole",
       "shares-zero")


def some_of(whole: pathlib.Path, names: typing.Container[str], name: str) -> pathlib.Path:
    """The path of a suite of some cases of another one, for which the folder gets a file of this name."""
    head, *cases = whole.read_text().splitlines()
    kept = [line for line in cases if json.loads(line)["id"] in names]
    path = folder() / name
    path.write_text("\n".join([json.dumps({**json.loads(head), "cases": len(kept)}), *kept, ""]))
    return path


@functools.cache
def few_path() -> pathlib.Path:
    """The path of a suite of a few cases of the same."""
    return some_of(suite_path(), FEW, "few.jsonl")


@functools.cache
def few() -> suites.Suite:
    """The same as it is read."""
    return suites.read(few_path())


def answers_of(clauses: Clauses, fields: tuple[str, ...] = FIELDS) -> dict[str, Answer]:
    """The answers of an encoder by these clauses, as far as it can encode the cases."""
    found = {}
    for name, case in suite().cases.items():
        chain, answer = Chain(suite().tables, case, clauses), Answer()
        for field in fields:
            try:
                value = chain.of(field)
            except Impossible:
                break
            setattr(answer, field, dataclasses.asdict(value) if field == "plan" else value)
        if answer.names():
            found[name] = answer
    return found


def planted(*mistakes: str, fields: tuple[str, ...] = FIELDS) -> dict[str, Answer]:
    """The answers of an encoder that makes these mistakes."""
    return answers_of(clauses_of(frozenset(MISTAKES[name] for name in mistakes)), fields)


def conform(*words: object, **options: typing.Any) -> tuple[int, str, str]:
    """The status, the standard output and the standard error of the tool."""
    return shared.tool("conform", *words, with_program=False, **options)


def refused(*words: object, status: int = 1) -> str:
    """What the tool says, after its name, of words that it refuses."""
    said = shared.refused("conform", *words, status=status)
    return said[len("tools/conform: ") :].rstrip("\n")


class Commands(shared.InFolder):
    """A test that runs commands of an encoder over a suite of a few cases."""

    RUN: tuple[str, ...] = ("run",)
    # A right command in Python, with a place for a line more.
    GOOD = ""

    def few_path(self) -> pathlib.Path:
        """The path of the suite."""
        return few_path()

    def run_(
        self, *command: object, more: typing.Sequence[object] = (), suite: object = None
    ) -> tuple[int, list[str], list[str]]:
        """The status, the lines of the report after its record, and those on standard error."""
        status, output, error = conform(*self.RUN, suite or self.few_path(), *more, "--", *command)
        lines = output.splitlines()
        return status, lines[3:] if output.startswith("judged: ") else lines, error.splitlines()

    def python(self, text: str, **options: typing.Any) -> tuple[int, list[str], list[str]]:
        """The same of a command in Python."""
        return self.run_(sys.executable, self.file("command.py", text), **options)

    def good(self, extra: str = "pass", **options: typing.Any) -> tuple[int, list[str], list[str]]:
        """The same of the right one with this line."""
        return self.python(self.GOOD % extra, **options)
