"""What a receiver with each known mistake answers to a case."""

from __future__ import annotations

import functools
import hashlib
import typing

from linksim_tools.conform.clauses import right
from linksim_tools.conform.receiver import steps
from linksim_tools.conform.receiver.chain import Receiver
from linksim_tools.conform.receiver.mistakes import STEPS, receiver_with
from linksim_tools.conform.receiver.reception import MODEL, Answer, Arrival, Case, Level, octets_of

FAULTS = (steps.Impossible, IndexError, ValueError, ZeroDivisionError)

# What an answer is at each level: the block; with it the code blocks that passed, the information bits, the soft buffer.
LEVELS = ("delivered", "passed", "info", "soft")
STEPS_OF_CHAIN = frozenset(STEPS)
NONE, MEANT = "-", "ok"
# What is answered by a receiver that cannot take a transmission.
NOTHING = Answer(None)

# What is answered to the transmissions of a case, a word a level.
Shown = typing.Tuple[typing.Tuple[str, ...], ...]


def digest(text: str) -> str:
    return hashlib.md5(text.encode()).hexdigest()[:8]


@functools.lru_cache(4096)
def digest_of(texts: tuple[str, ...], least: int | None = None) -> str:
    """What stands for the texts of all code blocks; zeros at their ends do not count after so many characters."""
    return digest(",".join(it if least is None or len(it) < least else it[:least] + it[least:].rstrip("0") for it in texts))


@functools.lru_cache(4096)
def least_soft(told: Arrival) -> int:
    """How many soft values of a code block are answered at least: as many as its buffer has."""
    sizes = steps.sizes(told.a, told.rate2048)
    return right().buffer_length(sizes, sizes.n, told.lbrm, 1)


@functools.lru_cache(4096)
def soft_of(texts: tuple[str, ...], a: int, rate2048: int) -> tuple[str, ...]:
    """The signs of d with zeros at the places of fillers: some receivers keep fillers there as sure zeros."""
    sizes = steps.sizes(a, rate2048)
    first, last = (place - 2 * sizes.z for place in (sizes.kdash, sizes.k))
    return tuple(text[:first] + "0" * len(text[first:last]) + text[last:] for text in texts)


def block(answer: Answer, meant: str) -> str:
    """The word of the block of an answer."""
    return NONE if answer.delivered is None else MEANT if answer.delivered == meant else digest(answer.delivered)


def blocks(shown: Shown) -> tuple[str, ...]:
    """The words of the blocks of these answers."""
    return tuple(it[0] for it in shown)


def shown(answer: Answer, meant: str, told: Arrival) -> tuple[str, ...]:
    """An answer as a suite keeps it, a word a level."""
    return (
        block(answer, meant), "" if answer.passed is None else answer.passed, "" if answer.info is None else digest_of(answer.info),
        "" if answer.soft is None else digest_of(soft_of(answer.soft, told.a, told.rate2048), least_soft(told))
    )


def taken(receiver: Receiver, case: Case, level: Level = MODEL) -> typing.Iterator[Answer]:
    """What a receiver answers to each transmission of a case. What it cannot take, it does not deliver."""
    for told, values in zip(case.arrivals, case.values):
        try:
            answer = receiver.take(told, octets_of(values, level))
        except FAULTS:
            answer, receiver.faulty = NOTHING, True
        yield answer


def everyone(tables: steps.Tables, names: typing.Iterable[str], case: Case) -> dict[str, tuple[Shown, bool]]:
    """The same of each of these mistakes, and of none under the empty name, and whether some row was not met."""
    found = {}
    for name in ("", *names):
        receiver = receiver_with(frozenset([name] if name else []))(tables)
        found[name] = tuple(map(shown, taken(receiver, case), case.meant, case.arrivals)), receiver.clash
    return found
