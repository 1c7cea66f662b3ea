"""The words of `tools/conform`: what both kinds share of a command line, and which kind is meant."""

from __future__ import annotations

import argparse
import contextlib
import dataclasses
import json
import pathlib
import sys
import typing

from linksim_tools.common.command_line import Commands, add_out, write
from linksim_tools.common.message import shown
from linksim_tools.common.program import Failed, Wrong
from linksim_tools.conform.report import Report
from linksim_tools.conform.run import Run

PROFILES = ("quick", "full")
Does = typing.Callable[[argparse.Namespace], typing.Any]
Read = typing.TypeVar("Read", bound=typing.Any)


class Words:
    """The commands of a kind, each of which is one word after the tool's name."""

    def __init__(self, about: str, examples: str, kind: str = "") -> None:
        self.tool, self.file = f"tools/conform {kind}".strip(), f"{kind or 'suite'}.jsonl"
        self.whole = Commands("conform", about, examples, kind)
        self.parser = self.whole.parser

    def add(self, name: str, does: Does, text: str, more: str = "", *, suite: bool = True,
            out: bool = True) -> argparse.ArgumentParser:
        """Adds a command, of a suite or of none, that writes lines or a report. `more` is what its example has after the suite."""
        example = " ".join(filter(None, [self.tool, name, self.file if suite else "", more]))
        command = self.whole.add(name, does, text, example)
        if suite:
            command.add_argument("suite", metavar="SUITE", help="a file that `suite` wrote")
        if out:
            add_out(command)
        return command

    def add_suite(self, does: Does) -> tuple[argparse.ArgumentParser, typing.Any]:
        """Adds `suite`, and gives it with the group of those options of which one says which cases it has."""
        more = f"--table table.csv --out {self.file}"
        command = self.add("suite", does, "writes a suite, a case a line", more, suite=False)
        command.add_argument("--table", required=True, metavar="FILE", help="the shift table")
        which = command.add_mutually_exclusive_group()
        which.add_argument("--profile", choices=PROFILES, default="quick", help="how many cases (quick)")
        command.add_argument("--seed", type=int, default=1, metavar="N", help="draws the bits of the blocks (1)")
        return command, which

    def add_judges(self, check: Does, run: Does, kind: str) -> tuple[argparse.ArgumentParser, argparse.ArgumentParser]:
        one = self.add("check", check, "judges a file of answers", "answers.jsonl", out=False)
        one.add_argument("answers", metavar="ANSWERS", help="a file of answers, one a line")
        about = f"runs {kind}, the command after --, on a suite, and judges what it answers"
        two = self.add("run", run, about, f"-- python3 my_{kind.split()[-1]}.py", out=False)
        two.add_argument("--seconds", type=number_in(0.001, 1e6, float), default=10.0, metavar="N",
                         help="the time for an answer (10)")
        for command in (one, two):
            command.add_argument("--plain", action="store_true", help="lines of plain words in place of JSON")
            command.add_argument("--json", action="store_true", help="the report as JSON")
            command.add_argument("--html", metavar="FILE", help="the report as HTML too, in one file")
            command.add_argument("--junit", metavar="FILE", help="a file of JUnit's XML too, with a test for each case")
            command.add_argument("--only", metavar="ID", action="append", default=[],
                                 help="judges this case only (may be given several times)")
        two.add_argument("--skip", type=number_in(0, 1e6, int), default=5, metavar="N",
                         help="starts the command anew where it stops, up to N times (5)")
        return one, two


def number_in(low: float, high: float, kind: typing.Callable[[str], float]) -> typing.Callable[[str], float]:
    """Reads a number that is not out of these bounds."""

    def read(text: str) -> float:
        with contextlib.suppress(ValueError):
            if low <= kind(text) <= high:
                return kind(text)
        raise argparse.ArgumentTypeError(f"{shown(text)} is not from {low:g} to {high:g}")

    return read


def written(of: typing.Callable[..., typing.Iterable[str]], *names: str) -> Does:
    """A command that writes the lines that a function has of these options."""

    return lambda given: write(of(*(getattr(given, name) for name in names)), given.out)


def command_of(given: argparse.Namespace) -> list[str]:
    """The words of the command that `run` runs."""
    if not given.command:
        raise Wrong("no command: write it after --")
    command: list[str] = given.command
    return command


def chosen(suite: Read, names: typing.Sequence[str]) -> Read:
    """A suite of those cases only that are named, if some are."""
    lacking = next((name for name in names if name not in suite.cases), None)
    if lacking is not None:
        raise Failed(f"{suite.path} has no case {shown(lacking)}")
    return dataclasses.replace(suite, cases={name: it for name, it in suite.cases.items() if not names or name in names})


def save(path: str | None, lines: typing.Iterable[str]) -> None:
    """Writes lines to a file, if one is named."""
    try:
        if path:
            pathlib.Path(path).write_text("".join(line + "\n" for line in lines), "utf-8", "backslashreplace")
    except OSError as error:
        raise Failed(f"{path} cannot be written: {error.strerror}") from None


def reported(given: argparse.Namespace, made: Report, text: typing.Iterable[str], page: typing.Iterable[str]) -> int:
    """Writes a report as its options say, as JSON or as text and also as a page, and gives the status: 130 after an
    interruption."""
    for line in [json.dumps(made.as_object())] if given.json else text:
        print(line)
    sys.stdout.flush()
    save(given.html, page)
    save(given.junit, made.junit())
    return 130 if Run.interrupted else made.status()


def options_of(kind: str) -> argparse.ArgumentParser:
    """The parser of a kind, of which alone the modules are loaded. Without a kind it is that of encoders, and shows both
    words."""
    if kind == "receiver":
        from linksim_tools.conform.receiver import commands as receivers
        return receivers.options()
    from linksim_tools.conform.encoder import commands as encoders
    return encoders.options(not kind)


def main() -> int | None:
    """Does what the words say, and gives the status."""
    words = sys.argv[1:]
    kind = words.pop(0) if words[:1] in (["encoder"], ["receiver"]) else ""
    command = []
    if words[:1] == ["run"] and "--" in words:
        place = words.index("--")
        words, command = words[:place], words[place + 1 :]
    given = options_of(kind).parse_args(words)
    given.command = command
    status: int | None = given.does(given)
    return status
