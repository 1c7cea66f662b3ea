"""Lines of answers, of encoders and of receivers: their objects, and those of a file with why some cannot be judged."""

from __future__ import annotations

import codecs
import json
import pathlib
import typing

from linksim_tools.common import message
from linksim_tools.common.files import RESULTS
from linksim_tools.common.program import Failed
from linksim_tools.conform.files import Object


class Wrong(Exception):
    """An answer cannot be judged; its text says why."""


class Repeated(Wrong):
    """What is answered was answered before."""


def shown(line: bytes) -> str:
    """The beginning of a line, for a message."""
    return f"'{message.shown(line.strip())}'"


def is_answer(line: bytes) -> bool:
    """Whether a line may be an answer, of JSON or of plain words: others are remarks of a command."""
    line = line.lstrip(codecs.BOM_UTF8)
    return line.lstrip().startswith(b"{") or line.split(None, 1)[:1] == [b"id"]


def left_out(lines: typing.Sequence[bytes]) -> list[str]:
    """What is said of lines that are no answers."""
    if not lines:
        return []
    many = f"{len(lines)} lines that are no answers were" if len(lines) > 1 else "1 line that is no answer was"
    return [f"{many} left out; the first begins {shown(lines[0])}"]


def object_of(line: bytes, from_words: typing.Callable[[list[str]], Object] | None) -> tuple[str, Object]:
    """The id and the object of a line: of JSON, or of plain words by a function."""
    text = line.decode("utf-8-sig", errors="replace")
    try:
        value = from_words(text.split()) if from_words else json.loads(text)
        if not isinstance(value, dict):
            raise Wrong("not a JSON object")
        if not isinstance(value.get("id"), str):
            raise Wrong("no id")
    except (ValueError, RecursionError) as error:
        said = "plain words want --plain" if text.split()[:1] == ["id"] else str(error)[:80]
        raise Wrong(f"not JSON: {said}: {shown(line)}") from None
    except Wrong as wrong:
        raise Wrong(f"{wrong}: {shown(line)}") from None
    return value["id"], value


def pairs_of(words: list[str]) -> list[tuple[str, str]]:
    """Plain words in pairs, a name and its value; no name occurs twice."""
    if len(words) % 2:
        raise Wrong("an odd number of words: each name has one value")
    names = words[::2]
    twice = next((name for place, name in enumerate(names) if name in names[:place]), None)
    if twice is not None:
        raise Wrong(f"{message.shown(twice)} occurs twice")
    return list(zip(names, words[1::2]))


def taken_from(path: str | pathlib.Path, most: int, take: typing.Callable[[bytes], None]) -> tuple[list[str], list[str]]:
    """Has each answer of a file taken that has at most so many octets. Says which lines cannot be judged, and in notes which are no
    answers."""
    troubles: list[str] = []
    others: list[bytes] = []
    number, is_whole, most = 0, True, min(most, RESULTS)
    try:
        with open(path, "rb") as file:
            while line := file.readline(most + 1):
                number, is_whole = number + 1, line.endswith(b"\n") or line.lstrip().startswith(b"{")
                try:
                    if len(line) > most:
                        raise Wrong(f"longer than {most} octets, and no answer of this suite can be")
                    if is_answer(line):
                        take(line)
                    elif line.strip():
                        others.append(line[: message.MOST])
                except Wrong as wrong:
                    troubles.append(f"{path} line {number}: {wrong}")
                # The rest of a line that is too long is read away, if it ends.
                rest = 0
                while len(line) > most and not line.endswith(b"\n"):
                    line = file.readline(most + 1)
                    rest += len(line)
                    if rest > RESULTS:
                        raise Failed(f"{path} line {number}: it has more than {RESULTS:,} octets")
    except OSError as error:
        raise Failed(f"{path} cannot be read: {error.strerror}") from None
    cut = [] if is_whole else [f"{path} line {number} has no end: see whether the file is whole"]
    return troubles, [*left_out(others), *cut]
