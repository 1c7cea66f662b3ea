"""What the command lines of all tools share: commands with an example each, options that have one name everywhere, lists, and
the older forms, which still work and say what to write instead."""

from __future__ import annotations

import argparse
import contextlib
import os
import pathlib
import sys
import typing

from linksim_tools.common.message import shown
from linksim_tools.common.program import Failed, as_installed, name_of

Does = typing.Callable[[argparse.Namespace], typing.Any]
FORM = argparse.RawDescriptionHelpFormatter


class Parser(argparse.ArgumentParser):
    """A parser whose errors are short, whatever was given."""

    def error(self, message: str) -> typing.NoReturn:
        super().error(shown(message, 300))


class Commands:
    """A tool with commands, each of which has an example of its own. `kind` is a word that stands before the commands."""

    def __init__(self, tool: str, about: str, examples: str, kind: str = "") -> None:
        self.tool, prog = tool, f"{name_of(tool)} {kind}".strip()
        self.parser = Parser(prog=prog, description=about, epilog=as_installed(tool, examples), formatter_class=FORM)
        self.commands = self.parser.add_subparsers(required=True, metavar="COMMAND")

    def add(self, name: str, does: Does, about: str, example: str) -> argparse.ArgumentParser:
        """Adds a command, with what follows its options in its help: an example, and what else is said before that."""
        epilog = as_installed(self.tool, example if "example" in example else f"example:\n  {example}")
        command: argparse.ArgumentParser = self.commands.add_parser(
            name, help=about, description=f"{about[0].upper()}{about[1:]}.", epilog=epilog, formatter_class=FORM,
        )
        command.set_defaults(does=does, parser=command)
        return command


def add_out(command: argparse.ArgumentParser, what: str = "the file to write", default: str | None = "-") -> None:
    """The option --out: of a file, with - for standard output, or of a folder that must be named."""
    said = what if default is None else f"{what}; - is standard output ({default})"
    command.add_argument("--out", metavar="FILE" if default else "DIR", default=default, help=said)


def add_table(command: argparse.ArgumentParser, what: str = "the shift table") -> None:
    """The option --table, which was a word without an option in earlier releases."""
    command.add_argument("--table", metavar="FILE", help=what)
    command.add_argument("old_table", nargs="?", help=argparse.SUPPRESS)


def table_of(given: argparse.Namespace) -> str:
    """The table file that was named in one of both ways."""
    if given.old_table is not None:
        hint(given.parser.prog, "--table FILE")
    elif given.table is None:
        given.parser.error("--table is required")
    return str(given.old_table if given.table is None else given.table)


def hint(program: str, new: str) -> None:
    """Says what to write in place of an older form."""
    print(f"{program}: this form is deprecated and goes with the next release; write {new}", file=sys.stderr)


def numbers(text: str) -> list[int]:
    """Whole numbers from 0 on with commas between, as 0-3,7."""
    found: list[int] = []
    for part in text.split(","):
        ends = part.split("-")
        if len(ends) > 2 or not all(it.isdecimal() and it.isascii() and len(it) < 7 for it in ends):
            raise argparse.ArgumentTypeError(f"{shown(text)} is not a list of numbers such as 0-3,7")
        found += range(int(ends[0]), int(ends[-1]) + 1)
    return found


@contextlib.contextmanager
def output(out: str) -> typing.Iterator[None]:
    """Standard output goes to a file, which then is there whole or as it was; - leaves it where it is."""
    if out == "-":
        yield
        return
    path = pathlib.Path(out)
    new = path if path.exists() and not path.is_file() else path.with_name(f".{path.name}.new")
    try:
        with open(new, "w", encoding="utf-8") as file, contextlib.redirect_stdout(file):
            yield
        if new != path:
            os.replace(new, path)
    except OSError as error:
        if error.filename is not None and str(error.filename) not in (str(new), out):
            raise
        raise Failed(f"{out}: {error.strerror or error}") from None
    finally:
        if new != path and new.exists():
            new.unlink()


def write(lines: typing.Iterable[str], out: str) -> None:
    """Writes lines to standard output or to a file."""
    with output(out):
        for line in lines:
            print(line)
