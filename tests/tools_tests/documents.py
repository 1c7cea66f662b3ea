"""The commands of a document, and what they answer: its blocks of the language `console`. In such a block a line that
begins with `$ ` is a command of bash, and lines that begin with `> ` go on with it. What follows is what the command
writes, on standard output and on standard error."""

from __future__ import annotations

import os
import pathlib
import re
import shutil
import subprocess
import typing

import shared


def commands(text: str) -> list[tuple[str, str]]:
    """The commands of a document in their order, each with the lines that stand after it."""
    inside = False
    found: list[tuple[str, list[str]]] = []
    for line in text.splitlines():
        if line.startswith("```"):
            inside = line == "```console"
        elif inside and line.startswith("$ "):
            found.append((line[2:], []))
        elif inside and line.startswith("> ") and not found[-1][1]:
            command, _ = found[-1]
            found[-1] = (command + "\n" + line[2:], [])
        elif inside:
            found[-1][1].append(line)
    return [(command, "".join(line + "\n" for line in lines)) for command, lines in found]


def top(folder: pathlib.Path) -> pathlib.Path:
    """A folder that looks like the repository's top, with the program of these tests as the built one."""
    for name in ("docs", "examples", "tools", "tests", "bench"):
        if (shared.ROOT / name).exists():
            shutil.copytree(shared.ROOT / name, folder / name, ignore=shutil.ignore_patterns("__pycache__"))
    shutil.copy(shared.ROOT / "VERSION", folder)
    built = folder / "crates" / "linksim" / "out"
    built.mkdir(parents=True)
    (built / "linksim").symlink_to(shared.program())
    return folder


def answers(folder: pathlib.Path, lines: list[str]) -> list[str]:
    """What each of these commands writes, one after the other in one shell in a folder."""
    mark = "-- end of a command --"
    script = "".join(f"{line}\nprintf '\\n{mark}\\n'\n" for line in lines)
    ended = subprocess.run(
        [
            "bash"
        ], input=script.encode(), stdout=subprocess.PIPE, stderr=subprocess.STDOUT, cwd=folder, timeout=shared.SECONDS,
        env={**os.environ, "LC_ALL": "C.UTF-8", "PYTHONDONTWRITEBYTECODE": "1"},
    )
    return ended.stdout.decode().split(f"\n{mark}\n")[:-1]


def settled(text: str) -> str:
    """What a command writes, with a date and versions that stay the same."""
    dated = re.sub(r"on \d{4}-\d\d-\d\d \d\d:\d\d:\d\d UTC", "on 2026-11-28 12:00:00 UTC", text)
    return re.sub(r"linksim \d+\.\d+\.\d+(-dev)?", "linksim 0.3.0", dated)


def words_missing(line: str) -> list[typing.Any]:
    """The programs that a command needs, of those that a machine may lack."""
    needed = {name: name for name in ("xxd", "parallel", "awk", "man", "cc")}
    needed.update(dict.fromkeys(("./planted", "./receiver", "./verify"), "cc"))
    return [program for name, program in needed.items() if name in line.split() and not shutil.which(program)]
