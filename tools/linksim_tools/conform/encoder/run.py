"""Runs an encoder on a suite: a line for each case to its standard input, and an answer from its standard output. Failing cases may
be asked again: whether the command gives one answer to a case, and whether what was asked before matters."""

from __future__ import annotations

import dataclasses
import json

from linksim_tools.conform import run as running
from linksim_tools.conform.case import Answer, Case
from linksim_tools.conform.encoder import suite as suites
from linksim_tools.conform.encoder.answers import answer_of, most_octets
from linksim_tools.conform.encoder.judging import same

# How many failing cases are asked again, and after how many of those before it each is asked.
AGAIN, BEFORE = 12, 8

LEFT = "the state of an earlier case is left"


@dataclasses.dataclass(frozen=True)
class Form:
    """How an encoder is asked: its words, whether in plain words, how bits are packed, and how long it may take. It is
    started anew so often if it stops."""

    words: list[str]
    plain: bool
    pack: str
    seconds: float
    skip: int = 0

    def question(self, case: Case, suite: suites.Suite) -> str:
        """The line that an encoder is given of a case."""
        if self.plain:
            return suites.words_of(case, suite.values[case.id].plan.c)
        return json.dumps(suites.given(case, self.pack))


class Run(running.Run[str]):
    """A run of an encoder on a suite: what it answered by id."""

    def __init__(self, form: Form, suite: suites.Suite) -> None:
        super().__init__(form.words, most_octets(suite), form.seconds, form.skip)
        self.suite, self.form = suite, form
        self.there: dict[str, Answer] = {}

    def judge(self, line: bytes, wanted: str) -> None:
        name, values = answer_of(line, self.form.plain, self.suite, self.there, wanted)
        self.there[name] = values

    def place(self, wanted: str) -> str:
        return f"case {wanted}"

    def ask_case(self, name: str) -> None:
        self.ask(name, self.form.question(self.suite.cases[name], self.suite))

    def go(self) -> None:
        """Asks all cases, until the command answers no more."""
        with self.going_on():
            for number, name in enumerate(self.suite.cases, 1):
                try:
                    self.ask_case(name)
                except running.Stopped as stopped:
                    if not self.stopped(f"case {name}, number {number} of {len(self.suite.cases)}", stopped):
                        return


def answers(form: Form, suite: suites.Suite) -> tuple[dict[str, Answer], list[str], list[str]]:
    """The answers of a command by id, lines about what could not be judged, and notes."""
    run = Run(form, suite)
    run.go()
    return run.there, run.troubles, run.notes()


@dataclasses.dataclass
class Again:
    """A suite with what was answered to it, and how the command is asked once more."""

    form: Form
    suite: suites.Suite
    answered: dict[str, Answer]

    def last(self, *names: str) -> Answer | None:
        """The answer of a command of its own to the last of these cases; None if it gives none."""
        run = Run(dataclasses.replace(self.form, skip=0), self.suite)
        try:
            for name in names:
                run.there.clear()
                run.ask_case(name)
        except running.Stopped:
            return None
        finally:
            run.end()
        return run.there.get(names[-1])

    def before(self, name: str, alone: Answer | None) -> str | None:
        """The case before this one after which another answer comes than alone; the nearest is tried first."""
        names = [it for it in self.suite.cases if it in self.answered]
        place = names.index(name)
        near = names[max(place - BEFORE, 0) : place][::-1]
        return next((it for it in near if self.last(it, name) != alone), None)

    def line(self, name: str) -> str | None:
        """What is said of a case whose answer is not always the same."""
        alone, right = self.last(name), self.suite.values[name]
        if self.last(name) != alone:
            return f"case {name} asked alone twice: two answers: the command is not deterministic"
        is_right = alone and all(same(it, getattr(alone, it), getattr(right, it)) for it in alone.names())
        said = "missing" if alone is None else "right" if is_right else "wrong"
        if alone != self.answered[name]:
            before = self.before(name, alone)
            after = f"after case {before} it is another" if before else "after the cases before it it was another"
            return f"case {name} asked alone: its answer is {said}, {after}: {LEFT}"
        if self.last(name, name) != alone:
            return f"case {name} asked alone: its answer is {said}, after itself it is another: {LEFT}"
        return None


def again(form: Form, suite: suites.Suite, answered: dict[str, Answer], failing: list[str]) -> list[str]:
    """Lines about failing cases that were asked again."""
    of = Again(form, suite, answered)
    lines = [line for line in map(of.line, failing[:AGAIN]) if line]
    if lines or not failing:
        return lines
    count = f"{min(len(failing), AGAIN)} failing cases" if len(failing) > 1 else "the failing case"
    return [f"{count} asked again, alone and after themselves: the answers are the same"]
