"""The answers of a receiver, a JSON object or plain words a line: of a file, or of a command. That has a line for each transmission
at its standard input, and `reset` before each case, or it is started again for each."""

from __future__ import annotations

import dataclasses
import json
import pathlib
import typing

from linksim_tools.common.message import shown
from linksim_tools.conform import bits as lists
from linksim_tools.conform import run as running
from linksim_tools.conform.answer_lines import Repeated, Wrong, object_of, pairs_of, taken_from
from linksim_tools.conform.files import Object
from linksim_tools.conform.receiver import steps
from linksim_tools.conform.receiver.reception import UNSUPPORTED, Answer, Level
from linksim_tools.conform.receiver.suite import TOLD, Suite, told_of

if typing.TYPE_CHECKING:
    from linksim_tools.conform.receiver.reception import Case

NAMES = ("id", "tx", "delivered", "passed", "info", "soft")
# What a case's own line has beside these names: a receiver may send all of it back.
PASSED_OVER = (*TOLD, "llr")
RESET = {True: "reset", False: json.dumps({"reset": True})}
# The answers by case, one a transmission, None if there is none.
Answers = typing.Dict[str, typing.List[typing.Optional[Answer]]]


def most_octets(suite: Suite) -> int:
    """How long a line of an answer may be: longer than the longest one of the suite with every soft value."""
    all_sizes = {steps.sizes(told.a, told.rate2048) for kept in suite.cases.values() for told in kept.case.arrivals}
    return 65_536 + 8 * max((it.c * (it.size + it.k) + it.a for it in all_sizes), default=0)


def block_of(value: typing.Any) -> str | None:
    """The bits of a block in hexadecimal digits; None if nothing is handed up."""
    if value in (None, "", "-"):
        return None
    try:
        return lists.from_hex(value)
    except lists.Unreadable as unreadable:
        raise Wrong(f"delivered {unreadable}") from None


def passed_of(value: typing.Any) -> str:
    """A digit for each code block."""
    if isinstance(value, list) and all(it in (0, 1) for it in value):
        return "".join(str(int(it)) for it in value)
    if not isinstance(value, str) or not value or value.strip("01"):
        raise Wrong("passed is not a digit 0 or 1 for each code block")
    return value


def texts_of(name: str, value: typing.Any, characters: str) -> tuple[str, ...]:
    """A text for each code block."""
    texts = [value] if isinstance(value, str) else value
    if not isinstance(texts, list) or not texts or not all(isinstance(it, str) for it in texts):
        raise Wrong(f"{name} is not a list of texts, one for each code block")
    if any(it.strip(characters) for it in texts):
        raise Wrong(f"{name} has other characters than {' '.join(characters)}")
    return tuple(texts)


def from_object(value: Object) -> Answer:
    """The answer of an object; without one of the names a case is not supported."""
    strange = value.keys() - set(NAMES) - set(PASSED_OVER)
    if strange:
        raise Wrong(f"unknown name: {shown(min(strange))}")
    if not value.keys() & set(NAMES[2:]):
        return UNSUPPORTED
    if "delivered" not in value:
        raise Wrong("delivered is not answered")
    return Answer(block_of(value["delivered"]), None if value.get("passed") is None else passed_of(value["passed"]),
                  None if value.get("info") is None else texts_of("info", value["info"], "01?"),
                  None if value.get("soft") is None else texts_of("soft", value["soft"], "0+-"))


def from_words(words: list[str]) -> Object:
    """The object of plain words: a name and a value in turn, code blocks told apart by commas."""
    value: Object = {}
    for name, text in pairs_of(words):
        value[name] = text.split(",") if name in ("info", "soft") else text
    if value.get("tx", "").isdecimal() and len(value["tx"]) < 9:
        value["tx"] = int(value["tx"])
    return value


def take(line: bytes, plain: bool, suite: Suite, there: Answers, wanted: tuple[str, int] | None = None) -> None:
    """Takes a line as an answer; the transmission `wanted` was asked for."""
    name, value = object_of(line, from_words if plain else None)
    tx = value.get("tx")
    if name not in suite.cases:
        raise Wrong(f"the suite has no case {shown(name)}")
    if type(tx) is not int:
        raise Wrong(f"no tx that is a whole number, for case {name}")
    count = len(suite.cases[name].case.arrivals)
    if not 0 <= tx < count:
        raise Wrong(f"case {name} has no transmission {tx}: it has {count}, from 0 on")
    if there.get(name, [None] * count)[tx] is not None:
        raise Repeated(f"transmission {tx} of case {name} was answered before")
    if wanted is not None and (name, tx) != wanted:
        raise Wrong(f"an answer to transmission {tx} of case {name}, where {wanted[1]} of {wanted[0]} was asked")
    try:
        answer = from_object(value)
    except Wrong as wrong:
        raise wrong if wanted is not None else Wrong(f"transmission {tx} of case {name}: {wrong}") from None
    there.setdefault(name, [None] * count)[tx] = answer


def read(path: str | pathlib.Path, suite: Suite, plain: bool) -> tuple[Answers, list[str], list[str]]:
    """The answers of a file, lines about those that cannot be judged, and notes about lines that are none."""
    there: Answers = {}
    return (there, *taken_from(path, most_octets(suite), lambda line: take(line, plain, suite, there)))


@dataclasses.dataclass(frozen=True)
class Manner:
    """How a receiver is asked. It is started anew so often if it stops, or for each case."""

    level: Level = Level()
    plain: bool = False
    seconds: float = 10.0
    restart: bool = False
    skip: int = 0


def lines_of(case: Case, manner: Manner) -> list[str]:
    """The lines of a case, one of each transmission; the first one has `reset` before it."""
    found = []
    for tx, (told, values) in enumerate(zip(case.arrivals, case.values)):
        asked = {"id": case.id, "tx": tx, **told_of(told)}
        if manner.plain:
            llr = ",".join(map(str, manner.level.listed(values)))
            words = {**asked, "lbrm": "-" if told.lbrm is None else told.lbrm, "llr": llr}
            found.append(" ".join(f"{name} {value}" for name, value in words.items()))
        else:
            found.append(json.dumps({**asked, "llr": manner.level.listed(values)}))
    return found if manner.restart else [f"{RESET[manner.plain]}\n{found[0]}", *found[1:]]


class Run(running.Run[typing.Tuple[str, int]]):
    """A run of a receiver on a suite: what it answered by case."""

    def __init__(self, command: list[str], suite: Suite, manner: Manner) -> None:
        super().__init__(command, most_octets(suite), manner.seconds, manner.skip)
        self.suite, self.manner = suite, manner
        self.there: Answers = {}

    def judge(self, line: bytes, wanted: tuple[str, int]) -> None:
        take(line, self.manner.plain, self.suite, self.there, wanted)

    def place(self, wanted: tuple[str, int]) -> str:
        return f"case {wanted[0]}, transmission {wanted[1]}"

    def case(self, number: int, case: Case) -> bool:
        """Asks all transmissions of a case; says whether another case may follow."""
        for tx, line in enumerate(lines_of(case, self.manner)):
            try:
                self.ask((case.id, tx), line)
            except running.Stopped as stopped:
                place = f"{self.place((case.id, tx))}, number {number} of {len(self.suite.cases)}"
                return self.stopped(place, stopped, self.manner.restart)
        if self.manner.restart:
            self.end()
        return True

    def go(self) -> None:
        with self.going_on():
            for number, kept in enumerate(self.suite.cases.values(), 1):
                if self.manner.level.asks(kept.case) and not self.case(number, kept.case):
                    return


def asked(command: list[str], suite: Suite, manner: Manner) -> tuple[Answers, list[str], list[str]]:
    """The answers of a command, lines about what could not be judged, and notes."""
    run = Run(command, suite, manner)
    run.go()
    left_out = sum(not manner.level.asks(kept.case) for kept in suite.cases.values())
    said = [f"{left_out} cases with values of several strengths are not asked at this level"] * (left_out > 0)
    return run.there, run.troubles, [*run.notes(), *said]
