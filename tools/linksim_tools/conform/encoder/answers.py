"""The answers of an encoder, a JSON object or plain words a line, as values by the names of mistakes."""

from __future__ import annotations

import pathlib
import typing

from linksim_tools.common.message import shown
from linksim_tools.conform import bits as lists
from linksim_tools.conform.answer_lines import Repeated, Wrong, object_of, pairs_of, taken_from
from linksim_tools.conform.case import PLAN, Answer
from linksim_tools.conform.encoder.suite import Suite
from linksim_tools.conform.files import Object

LISTS, NUMBERS = ("bits", "d", "e", "f"), ("k0", "Ncb", "E")

# A list without a bit, in plain words.
NONE = "none"

# What a suite's own line has beside the names of an answer: a vector is an answer too.
PASSED_OVER = ("a", "covers", "rate2048", "lbrm", "transmission")


def most_octets(suite: Suite) -> int:
    """How long a line of an answer may be: longer than the longest case of the suite with every bit written out."""
    longest = 0
    for values in suite.values.values():
        listed = sum(len(part) for name in LISTS for part in getattr(values, name))
        longest = max(longest, listed + len(values.attached) + len(values.sent))
    return 65_536 + 8 * longest


def whole_number(name: str, value: int) -> int:
    if type(value) is not int:
        raise Wrong(f"{name} is not a whole number")
    return value


def bits(name: str, value: typing.Any) -> str:
    """A list of bits under a name."""
    try:
        return lists.read(value)
    except lists.Unreadable as unreadable:
        raise Wrong(f"{name} {unreadable}") from None


def bits_of_blocks(name: str, value: list[typing.Any]) -> list[str]:
    """The lists of bits of all code blocks: a list of them, or a single one."""
    if lists.is_packed(value):
        return [bits(name, value)]
    return [bits(f"{name} of code block {r}", it) for r, it in enumerate(value)]


def numbers_of_blocks(name: str, value: int | list[int]) -> list[int]:
    """The numbers of all code blocks: a list of them, or a single one."""
    return [whole_number(name, it) for it in (value if isinstance(value, list) else [value])]


def plan_of(name: str, value: dict[str, int]) -> dict[str, int] | None:
    """The numbers of a plan, as many of them as are there."""
    if not isinstance(value, dict) or not value.keys() <= set(PLAN):
        raise Wrong(f"{name} has other names than " + ", ".join(PLAN))
    return {number: whole_number(f"{name}.{number}", it) for number, it in value.items()} or None


def one_for_all(name: str, value: int | list[int]) -> int:
    """A number that is the same for all code blocks."""
    found = set(numbers_of_blocks(name, value))
    if len(found) != 1:
        raise Wrong(f"{name} is not the same in all code blocks")
    return found.pop()


def from_blocks(blocks: list[Object]) -> Object:
    """The names of `codeblocks`, each with the values of all code blocks."""
    if not isinstance(blocks, list) or not all(isinstance(it, dict) for it in blocks) or not blocks:
        raise Wrong("codeblocks is not a list of objects")
    names = {name for it in blocks for name in it}
    strange = names - {"r", *LISTS, *NUMBERS}
    if strange:
        raise Wrong(f"codeblocks has an unknown name: {shown(min(strange))}")
    if [it.get("r", r) for r, it in enumerate(blocks)] != list(range(len(blocks))):
        raise Wrong("codeblocks is not in the order r = 0, 1, ..")
    lacking = sorted(name for name in names - {"r"} for it in blocks if name not in it)
    if lacking:
        raise Wrong(f"codeblocks has {lacking[0]} for some code blocks alone")
    return {name: [it[name] for it in blocks] for name in names - {"r"}}


READ: dict[str, typing.Callable[[str, typing.Any], typing.Any]] = {
    "attached": bits, "plan": plan_of, **dict.fromkeys(LISTS, bits_of_blocks), "k0": one_for_all, "Ncb": one_for_all,
    "E": numbers_of_blocks, "sent": bits
}


def from_object(value: Object) -> Answer:
    """The values of an answer that was JSON."""
    strange = value.keys() - {"id", "codeblocks", *READ, *PASSED_OVER}
    if strange:
        raise Wrong(f"unknown name: {shown(min(strange))}")
    named = {name: it for name, it in value.items() if name in READ}
    if "codeblocks" in value:
        named.update(from_blocks(value["codeblocks"]))
    found = Answer(**{name: READ[name](name, it) for name, it in named.items()})
    found.graph = (found.plan or {}).get("graph")
    return found


def digits_of(name: str, text: str) -> list[int]:
    """The whole number of a plain word, or those of all code blocks if the name has several."""
    numbers = text.split(",") if name == "E" else [text]
    if not all(it.isdecimal() and it.isascii() and len(it) < 16 for it in numbers):
        raise Wrong(f"{name} is not a whole number: {shown(text)}")
    return list(map(int, numbers))


def from_words(words: list[str]) -> Object:
    """The object of an answer of plain words: a name and a value in turn, code blocks told apart by commas."""
    value: Object = {}
    plan: Object = {}
    for name, text in pairs_of(words):
        if name in PLAN or name in NUMBERS:
            numbers = digits_of(name, text)
            (plan if name in PLAN else value)[name] = numbers if name == "E" else numbers[0]
        else:
            parts = ["" if it == NONE else it for it in (text.split(",") if name in LISTS else [text])]
            value[name] = parts if name in LISTS else parts[0]
    return {**value, "plan": plan} if plan else value


def answer_of(line: bytes, plain: bool, suite: Suite, there: typing.Collection[str],
              wanted: str | None = None) -> tuple[str, Answer]:
    """The id and the values of a line; `there` was answered before it, and the case `wanted` was asked for."""
    name, value = object_of(line, from_words if plain else None)
    if name in there:
        raise Repeated(f"case {name} was answered before")
    if name not in suite.cases:
        raise Wrong(f"the suite has no case {shown(name)}")
    if wanted is not None and name != wanted:
        raise Wrong(f"an answer to case {name} where {wanted} was asked")
    try:
        return name, from_object(value)
    except Wrong as wrong:
        raise wrong if wanted is not None else Wrong(f"case {name}: {wrong}") from None


def read(path: str | pathlib.Path, suite: Suite, plain: bool) -> tuple[dict[str, Answer], list[str], list[str]]:
    """The answers of a file by id, lines about what could not be judged, and notes."""
    there: dict[str, Answer] = {}
    return (there, *taken_from(path, most_octets(suite), lambda line: there.update([answer_of(line, plain, suite, there)])))
