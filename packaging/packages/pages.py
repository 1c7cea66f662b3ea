"""The man pages of section 1, made of what the program and the tools say with --help."""

from __future__ import annotations

import os
import pathlib
import re

from packages import helps
from packages.helps import Help
from packages.manual import plain

PROGRAM = os.environ.get("PROGRAM") or str(helps.ROOT / "crates" / "linksim" / "out" / "linksim")
FILES = r""".SH FILES
.TP
.I /usr/share/linksim/examples
Examples as a package installs them; in a checkout they are in
.IR examples .
.TP
.I /usr/share/doc/linksim/docs
The documents; in a checkout they are in
.IR docs .
.SH SEE ALSO"""


def texts(lines: list[str]) -> list[str]:
    """What is said of an item or of a command: paragraphs, and lines `  NAME  text` of the lists in them."""
    found = []
    for line in lines:
        name, _, said = line.strip().partition("  ")
        is_row = line.startswith("  ") and said
        found += [".sp"] if not line else [".br", f"\\fB{plain(name)}\\fR: {plain(said.strip())}"] if is_row else [plain(line)]
    return found


def items(level: Help) -> dict[str, list[str]]:
    """The options and files of a level, each as the lines of a page."""
    named = [it for it in level.items if not it.is_command and it.term != "COMMAND"]
    return {it.term: [".TP", f"\\fB{plain(it.term)}\\fR", *texts(it.text)] for it in named}


def joined(parts: list[list[str]]) -> list[str]:
    """Paragraphs as the lines of a page, each once."""
    return [line for at, part in enumerate(parts) if part not in parts[:at] for line in [".PP", *texts(part)]]


def sections(name: str, top: Help, below: list[Help]) -> dict[str, list[str]]:
    """The sections of a page: of the program, whose commands share their options, or of a tool, which tells of each level."""
    shared = [level for level in below if name == "linksim"]
    # The first line of more is the page's name.
    said = [top.about[0][1:] or top.about[0], *top.about[1:], *top.rest, *(part for level in shared for part in level.rest)]
    status = [part for part in said if "status" in part[0][:11].lower()]
    found: dict[str, list[str]] = {"SYNOPSIS": []}
    for level in below or [top]:
        words = " ".join([name, *level.words])
        found["SYNOPSIS"] += [f"\\fB{plain(words)}\\fR{plain(level.usage[len(words):])}", ".br"]
    found["DESCRIPTION"] = joined([part for part in said if part not in status])
    found["COMMANDS"] = []
    for level in below:
        own = joined([part for part in [*level.about, *level.rest] if part not in said])
        # How to ask for help is said once, among the tool's own options.
        options = [] if shared else [line for term, lines in items(level).items() if "--help" not in term for line in lines]
        found["COMMANDS"] += [f".SS {plain(' '.join(level.words))}", *own[1:], *options]
    options_of = {term: lines for level in [top, *shared] for term, lines in items(level).items()}
    found["OPTIONS"] = [line for lines in options_of.values() for line in lines]
    found["EXIT STATUS"] = joined(status)
    shown = dict.fromkeys(line for level in [top, *shared] for line in level.examples)
    found["EXAMPLES"] = [".EX", *map(plain, shown), ".EE"]
    return found


def page(name: str, levels: list[Help], version: str, others: list[str]) -> str:
    """A whole page."""
    top, below = levels[0], [level for level in levels[1:] if not level.commands]
    about = re.split("[:;.] |\\.$", top.about[0][0])[0]
    lines = [f'.TH {plain(name.upper())} 1 "" "linksim {version}" "User commands"', ".SH NAME"]
    lines.append(f"{plain(name)} \\- {plain(about[0].lower() + about[1:])}")
    for title, part in sections(name, top, below).items():
        lines += [f".SH {title}", *part] if part else []
    more = [f".BR {plain(it)} (1)," for it in others if it != name]
    return "\n".join([*lines, FILES, *more, ".BR linksim\\-formats (5)"]) + "\n"


def write(folder: pathlib.Path, program: str, version: str) -> None:
    """Writes the pages of the program, if it is built, and of all tools into a folder."""
    of_program = helps.of_program(program)
    pages = {"linksim": of_program} if of_program else {}
    for tool in helps.TOOLS:
        # The word encoder of tools/conform changes nothing.
        pages[f"linksim-{tool}"] = [level for level in helps.levels(tool) if level.words[:1] != ("encoder",)]
    for name, levels in pages.items():
        (folder / f"{name}.1").write_text(page(name, levels, version, list(pages)))
