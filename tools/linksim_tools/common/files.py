"""The one reader of the files that users name: so many octets at most, as text with or without a byte order mark."""

from __future__ import annotations

import os
import sys
import typing

from linksim_tools.common.program import Failed

# What the program takes of each of its files, in octets; of a document with a table; and of what tools write for one another.
LIMITS = {"table": 1 << 22, "settings": 1 << 16, "blocks": 100_000_000, "schedule": 1 << 24}
DOCUMENT = 1 << 26
RESULTS = 1 << 28
LINE = 1 << 27

Path = typing.Union[str, "os.PathLike[str]"]


def shown(path: Path) -> str:
    """How a file is named to its user."""
    return "standard input" if str(path) == "-" else str(path)


def octets_of(path: Path, most: int, cut: bool = False) -> bytes:
    """What a file holds, or standard input if it is named -. One that is longer is refused, or `cut` off there."""
    try:
        if str(path) == "-":
            octets = sys.stdin.buffer.read(most + 1)
        else:
            with open(path, "rb") as file:
                octets = file.read(most + 1)
    except (OSError, ValueError) as error:
        raise Failed(f"{shown(path)} cannot be read: {getattr(error, 'strerror', None) or error}") from None
    if len(octets) > most and not cut:
        raise Failed(f"{shown(path)} has more than {most:,} octets: check that it is the file that you meant")
    return octets[:most]


def block_line(path: str, number: int) -> str:
    """A line of a blocks file, or of standard input if it is named -, from 1, as text."""
    lines = octets_of(path, LIMITS["blocks"]).split(b"\n")
    if number not in range(1, len(lines) + 1) or (number == len(lines) and not lines[-1]):
        raise Failed(f"{path} has no block {number}")
    line = lines[number - 1]
    return (line[:-1] if line.endswith(b"\r") else line).decode("latin-1")


def text_of(path: Path, most: int) -> str:
    """The same as text in UTF-8."""
    octets = octets_of(path, most)
    if b"\0" in octets:
        raise Failed(f"{shown(path)} is not text: octet {octets.index(0) + 1} is zero")
    try:
        return octets.decode("utf-8-sig")
    except UnicodeDecodeError as error:
        raise Failed(f"{shown(path)} is not UTF-8 text: octet {error.start + 1} does not begin a character") from None


def numbered_lines(path: Path, most: int = LINE) -> typing.Iterator[tuple[int, str]]:
    """The lines of a file with their numbers, one at a time; none has more than `most` characters."""
    try:
        with open(path, encoding="utf-8-sig", errors="replace") as file:
            for number, line in enumerate(iter(lambda: file.readline(most + 1), ""), 1):
                if len(line) > most:
                    raise Failed(f"{path} line {number}: it has more than {most:,} characters")
                yield number, line
    except (OSError, ValueError) as error:
        raise Failed(f"{path} cannot be read: {getattr(error, 'strerror', None) or error}") from None
