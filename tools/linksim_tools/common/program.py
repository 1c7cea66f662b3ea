"""The program `linksim` as the tools run it, and what a tool says if it cannot go on."""

from __future__ import annotations

import argparse
import contextlib
import errno
import os
import pathlib
import re
import shutil
import signal
import subprocess
import sys
import tempfile
import typing

from linksim_tools.common.message import MOST_MESSAGE, shown

PACKAGE = pathlib.Path(__file__).resolve().parents[1]
IN_CHECKOUT = (PACKAGE.parents[1] / "crates" / "linksim").is_dir()
# Where the examples are: the top of a checkout, or share/linksim of the prefix that these tools are installed below.
SHARES = (it / "share" / "linksim" for it in PACKAGE.parents if (it / "share" / "linksim").is_dir())
ROOT = PACKAGE.parents[1] if IN_CHECKOUT else next(SHARES, PACKAGE)
DOCUMENTS = ROOT / "docs" if IN_CHECKOUT else ROOT.parent / "doc" / "linksim" / "docs"
PROGRAM = ROOT / "crates" / "linksim" / "out" / "linksim" if IN_CHECKOUT else ROOT.parent.parent / "bin" / "linksim"
BUILD = "tools/first-build builds it" if IN_CHECKOUT else "the package linksim has it"


class Failed(Exception):
    """A tool cannot go on; its text is the one line that says why, and `status` what the tool ends with."""

    status = 1


class Wrong(Failed):
    """A word of the command line is not what the tool takes."""

    status = 2


def name_of(tool: str) -> str:
    """What a tool is called here: `linksim-table` where tools are installed, `python -m nr.table` as the module, else
    `tools/table`."""
    called = pathlib.Path(sys.argv[0]).name
    if called.startswith("linksim-"):
        return f"linksim-{tool}"
    return f"python -m nr.{tool}" if called == f"{tool}.py" else f"tools/{tool}"


def as_installed(tool: str, text: str) -> str:
    """A text of a tool as it is true here: if it is installed, by its name, and with the places of examples and documents."""
    named = text.replace(f"tools/{tool}", name_of(tool))
    if name_of(tool).startswith("tools/"):
        return named
    placed = re.sub(r"(?<![\w/])examples/", f"{ROOT / 'examples'}/", named)
    return re.sub(r"(?<![\w/])docs/", f"{DOCUMENTS}/", placed) if DOCUMENTS.is_dir() else placed


def add_program(parser: argparse.ArgumentParser) -> None:
    """Gives a command line parser the option --program."""
    parser.add_argument(
        "--program", metavar="NAME",
        help="the program linksim, by its path or its name in PATH (the checkout's where it is built, else PATH's)",
    )


def is_program(path: pathlib.Path) -> bool:
    """Whether a file can be run."""
    return path.is_file() and os.access(path, os.X_OK)


def program_at(name: str | None = None) -> pathlib.Path:
    """The absolute path of the program, or a failure that says how to get it. What names itself otherwise is rejected."""
    if name is None:
        found = str(PROGRAM) if is_program(PROGRAM) else shutil.which("linksim")
        said = f"this needs the program linksim, which is neither {PROGRAM} nor in PATH: {BUILD}, or --program names it"
    else:
        path = pathlib.Path(name)
        found = str(path) if is_program(path) else shutil.which(str(name)) if path.name == str(name) else None
        said = f"no program at {path.resolve()}" + (f": {BUILD}" if path.resolve() == PROGRAM else "")
    if not found:
        raise Failed(said)
    program = pathlib.Path(found).resolve()
    version_of(program)
    return program


def version_of(program: pathlib.Path) -> str:
    """The version that the program names. What names itself otherwise is rejected."""
    said = output_of(program, ["--version"]).partition("\n")[0]
    if not said.startswith("linksim "):
        raise Failed(f"{program} is not linksim: it answers {shown(said)!r} to --version")
    return said.rpartition(" ")[2]


def output_of(
    program: pathlib.Path, words: typing.Sequence[str | os.PathLike[str]], stdin: bytes = b"", of: str = ""
) -> str:
    """What the program writes for these words, in text. A refusal is a failure with the program's own line, after the file that
    was read as standard input (`of`) or as the table."""
    ended = subprocess.run([os.fspath(program), *(os.fspath(word) for word in words)], input=stdin, capture_output=True)
    if ended.returncode:
        said = ended.stderr.decode(errors="replace").strip().splitlines()
        line = said[0] if said else f"{program} ended with status {ended.returncode}"
        if line.startswith("linksim: refused: table"):
            of = os.fspath(words[list(words).index("--table") + 1])
        raise Failed(f"{of}: {line}" if of else line)
    return ended.stdout.decode()


def plan_of(line: str) -> dict[str, int]:
    """The numbers of a line `block 1 a 8 b 24 ..` of `cut` by name."""
    words = line.split()
    return {name: int(number) for name, number in zip(words[2::2], words[3::2])}


def settings_text(rate2048: int, lbrm: int | None = None) -> str:
    """The settings file of a code rate, and maybe of a limit of the buffer."""
    return f"rate2048 = {rate2048}\n" + ("" if lbrm is None else f"lbrm = {lbrm}\n")


def answers_of(
    program: pathlib.Path, command: str, table: str | os.PathLike[str], settings: str, blocks: typing.Iterable[str],
    schedule: typing.Iterable[str],
) -> list[str]:
    """The lines that a command writes of a table's file, and of settings, blocks and a schedule that stand in no file."""
    with tempfile.TemporaryDirectory() as name:
        folder, words = pathlib.Path(name), [command, "--table", os.fspath(table)]
        texts = {"settings": settings, "blocks": "\n".join([*blocks, ""]), "schedule": "\n".join([*schedule, ""])}
        for option, text in texts.items():
            (folder / option).write_text(text, encoding="utf-8")
            words += [f"--{option}", str(folder / option)]
        return output_of(program, words).splitlines()


def ended(tool: str, status: int, said: typing.Any = None) -> None:
    """Ends a tool with a status, and with its one line if it has one. Standard output is put aside: what it could
    not take is not tried once more."""
    if said is not None:
        print(f"{name_of(tool)}: {shown(said, MOST_MESSAGE)}", file=sys.stderr)
        os.dup2(os.open(os.devnull, os.O_WRONLY), sys.stdout.fileno())
    sys.exit(status)


@contextlib.contextmanager
def named_in_faults(path: str | os.PathLike[str]) -> typing.Iterator[None]:
    """What the system refuses of a file is said with its name: it names none that is full."""
    try:
        yield
    except BrokenPipeError:
        raise
    except OSError as error:
        raise Failed(f"{os.fspath(path)}: {error.strerror or error}") from None


def main_of(tool: str, main: typing.Callable[..., typing.Any]) -> None:
    """Runs a tool's main function and ends with its status. With one line it is 1 if it failed, 2 if a word was wrong, and 130 if
    it was interrupted. It ends quietly if the reader of its output has gone."""
    signal.signal(signal.SIGINT, signal.default_int_handler)
    try:
        try:
            status = main()
        except SystemExit as asked:
            status = asked.code
        sys.stdout.flush()
        sys.exit(status)
    except Failed as failed:
        ended(tool, failed.status, failed)
    except ImportError as error:
        ended(tool, 1, error)
    except BrokenPipeError:
        os.dup2(os.open(os.devnull, os.O_WRONLY), sys.stdout.fileno())
        sys.exit(1)
    except OSError as error:
        closed = error.filename is None and error.errno == errno.EBADF
        ended(tool, 1, f"{error.filename or 'standard output'}: {'it is closed' if closed else error.strerror or error}")
    except MemoryError:
        ended(tool, 1, "the system gave no memory: what is read or made is too large for it")
    except KeyboardInterrupt:
        ended(tool, 130, "interrupted")
