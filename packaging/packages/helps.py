"""What the program and the tools say with --help, in parts: completions and man pages are made of these."""

from __future__ import annotations

import concurrent.futures
import dataclasses
import functools
import os
import pathlib
import re
import subprocess
import typing

ROOT = pathlib.Path(__file__).resolve().parents[2]
TOOLS = ("certify", "conform", "curve", "explain", "table", "vectors", "verify")
TITLE = re.compile(r"(\S.*):")
ITEM = re.compile(r"( {2,8})(\S.*?)(?: {2,}(\S.*))?")


@dataclasses.dataclass
class Item:
    """A command, an option or a file of a help text, and what is said of it."""

    term: str
    is_command: bool
    text: list[str]

    @property
    def said(self) -> str:
        return " ".join(self.text)


@dataclasses.dataclass
class Help:
    """A help text: the command and the words that it is of, its usage, what they do, the lists below titles, examples, and what
    follows."""

    name: str
    words: tuple[str, ...]
    usage: str = ""
    about: list[list[str]] = dataclasses.field(default_factory=list)
    items: list[Item] = dataclasses.field(default_factory=list)
    examples: list[str] = dataclasses.field(default_factory=list)
    rest: list[list[str]] = dataclasses.field(default_factory=list)

    @property
    def commands(self) -> dict[str, str]:
        """The commands, and what each does."""
        return {it.term: it.said for it in self.items if it.is_command}

    @property
    def options(self) -> dict[str, str]:
        """The options, and what each takes after a space, if it takes something."""
        found = [re.search(r"(--[a-z][a-z0-9-]*)(?: (\S+))?(?: \S+)*$", it.term) for it in self.items]
        return {it[1]: it[2] or "" for it in found if it}

    def of(self, option: str) -> str:
        """What is said of an option."""
        return next(it.said for it in self.items if re.search(rf"{option}\b", it.term))


def said_by(words: typing.Sequence[str]) -> list[str]:
    """The lines of a help text, wide enough that none is folded, with the tools' names as they are installed."""
    environment = {**os.environ, "COLUMNS": "1000", "LC_ALL": "C.UTF-8", "PYTHONDONTWRITEBYTECODE": "1"}
    said = subprocess.run(
        [*words, "--help"], stdout=subprocess.PIPE, stdin=subprocess.DEVNULL, text=True, env=environment, check=True,
    )
    return re.sub(rf"\btools/({'|'.join(TOOLS)})\b", r"linksim-\1", said.stdout).splitlines()


def read(name: str, words: tuple[str, ...], lines: list[str]) -> Help:
    """The parts of a help text of argparse or of clap."""
    found, title, gap = Help(name, words), "", False
    # clap sets what it says of an option ten columns in, and what is below that further.
    left = 100 if lines[0].startswith("usage") else 10
    for line, after in zip(lines, [*lines[1:], ""]):
        item = ITEM.fullmatch(line)
        if line.lower().startswith("usage: "):
            found.usage = line.partition(": ")[2]
        elif TITLE.fullmatch(line) and after.startswith("  "):
            title = line[:-1].lower()
        elif line.startswith("  ") and title.startswith("example"):
            found.examples.append(line[2:])
        elif title and item:
            # argparse sets commands further in than the word COMMAND.
            found.items.append(Item(item[2], title == "commands" or len(item[1]) == 4, [item[3]] if item[3] else []))
        elif title and line.startswith("  "):
            found.items[-1].text += [""] * gap + [line[:left].lstrip() + line[left:]]
        elif line:
            title = ""
            parts = found.rest if found.items else found.about
            parts += [[]] if gap or not parts else []
            parts[-1].append(line)
        gap = not line
    return found


@functools.lru_cache(maxsize=None)
def levels(tool: str, words: tuple[str, ...] = ()) -> list[Help]:
    """A tool's help texts, those of its commands after its own."""
    own = read(f"linksim-{tool}", words, said_by(["python3", str(ROOT / "tools" / tool), *words]))
    with concurrent.futures.ThreadPoolExecutor() as pool:
        below = list(pool.map(lambda name: levels(tool, (*words, name)), own.commands))
    return [own, *(it for part in below for it in part)]


def of_program(program: str) -> list[Help]:
    """The program's help texts, those of its commands after its own, but for `help`; none if it is not built."""
    if not os.access(program, os.X_OK):
        return []
    own = read("linksim", (), said_by([program]))
    return [own, *(read("linksim", (it,), said_by([program, it])) for it in own.commands if it != "help")]
