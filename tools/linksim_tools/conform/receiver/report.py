"""The report on a receiver: as text for a terminal, and as an object for JSON and HTML."""

from __future__ import annotations

import dataclasses
import itertools
import typing

from linksim_tools.common.program import name_of
from linksim_tools.conform import bits as lists
from linksim_tools.conform import report as shared
from linksim_tools.conform.case import about
from linksim_tools.conform.files import Object
from linksim_tools.conform.receiver import conditions, doubts, known_answers, steps, verdicts
from linksim_tools.conform.receiver.chain import Receiver
from linksim_tools.conform.receiver.diagnosis import Diagnosis, iterations
from linksim_tools.conform.receiver.mistakes import STEPS
from linksim_tools.conform.receiver.reception import UNSUPPORTED

if typing.TYPE_CHECKING:
    from linksim_tools.conform.report import Record
    from linksim_tools.conform.receiver.answers import Answers
    from linksim_tools.conform.receiver.suite import Kept, Suite
    from linksim_tools.conform.receiver.reception import Answer


@dataclasses.dataclass(frozen=True)
class First(shared.First):
    """The first difference of the smallest case that fails. It says in which of how many transmissions it is, what a
    receiver is told of it, and which command shows its lines."""

    what: str
    transmission: int
    transmissions: int
    told: str
    show: str


@dataclasses.dataclass
class Report(shared.Report):
    """A report on a receiver: the cases that fail, small ones first, and lines about what is in doubt."""

    failing: list[str] = dataclasses.field(default_factory=list)
    first: First | None = None
    diagnosis: verdicts.Verdict | None = None
    iterations: Object | None = None
    doubts: list[str] = dataclasses.field(default_factory=list)
    levels: list[str] = dataclasses.field(default_factory=list)

    def as_object(self) -> Object:
        return {**super().as_object(), "failing": self.failing, "first": dataclasses.asdict(self.first) if self.first else None,
                "diagnosis": self.diagnosis.as_object() if self.diagnosis else None,
                "iterations": self.iterations, "doubts": self.doubts, "levels": self.levels}


def block_words(block: str | None) -> str:
    """What is handed up, in words."""
    if block is None:
        return "nothing"
    digits = lists.hexadecimal(block)
    return digits if len(digits) <= 40 else f"{digits[:32]}.. ({len(block)} bits)"


def first_place(one: str, other: str) -> int | None:
    """The first place at which two texts differ; zeros at their ends do not count."""
    pairs = itertools.zip_longest(one, other, fillvalue="0")
    return next((place for place, (x, y) in enumerate(pairs) if x != y), None)


def value_lines(name: str, found: tuple[str, ...], right: tuple[str, ...], least: int,
                said: typing.Callable[[int, int], str]) -> typing.Iterator[str]:
    """What is wrong first of the values under a name; a code block has at least so many, and `said` names a place."""
    if len(found) != len(right):
        yield f"{name}: {len(found)} code blocks, right is {len(right)}"
        return
    for r, (one, other) in enumerate(zip(found, right)):
        if not least <= len(one) <= len(other):
            yield f"{name}: code block {r} has {len(one)} values, right is {len(other)}"
            return
    for r, (one, other) in enumerate(zip(found, right)):
        place = first_place(one, other)
        if place is not None:
            values = [text[place : place + 1] or "0" for text in (one, other)]
            yield f"{name}: {said(r, place)} is {values[0]}, right is {values[1]}"
            return


def differences(kept: Kept, tx: int, answer: Answer, right: Answer) -> typing.Iterator[str]:
    """What of an answer is not right."""
    told = kept.case.arrivals[tx]
    z = steps.sizes(told.a, told.rate2048).z

    def place_of_d(r: int, place: int) -> str:
        column, bit = divmod(place + 2 * z, z)
        return f"place {place} of d of code block {r} (column j = {column}, bit t = {bit} of Zc = {z})"

    if answer.delivered != right.delivered:
        yield f"it delivers {block_words(answer.delivered)}, right is {block_words(right.delivered)}"
        yield f"the program proves: {kept.proved[tx]}"
    if answer.passed is not None and answer.passed != right.passed and not kept.clash:
        yield f"code blocks that passed: {answer.passed}, right is {right.passed}"
    if answer.soft is not None and right.soft is not None:
        found, wanted = (known_answers.soft_of(it, told.a, told.rate2048) for it in (answer.soft, right.soft))
        yield from value_lines("soft", found, wanted, known_answers.least_soft(told), place_of_d)
    if answer.info is not None and right.info is not None and not kept.clash:
        yield from value_lines("info", answer.info, right.info, len(right.info[0]), lambda r, bit: f"bit {bit} of code block {r}")


def first_of(of: Diagnosis, answers: Answers, name: str) -> First:
    kept = of.suite.cases[name]
    case, tx = kept.case, of.fits(name).index(False)
    told = case.arrivals[tx]
    answer, right = answers[name][tx], [*Receiver(of.suite.tables).answers(case)][tx]
    lines = [] if answer is None else [*differences(kept, tx, answer, right)]
    shows = f"{name_of('conform')} receiver show {of.suite.path} {name}"
    said = f"process {told.process}, {'new data' if told.fresh else 'not new data'}, {about(conditions.facts_of(told).case)}"
    return First(case.step, name, lines, case.what, tx, len(case.arrivals), said, shows)


def steps_of(suite: Suite, of: Diagnosis, failing: list[str]) -> dict[str, shared.Step]:
    """How many cases pass, fail and were not answered, by the step that they are for."""
    found: dict[str, shared.Step] = {}
    for step, title in STEPS.items():
        names = [name for name, kept in suite.cases.items() if kept.case.step == step]
        wrong = [name for name in failing if name in set(names)]
        passed = [name for name in names if name not in set(wrong) and None not in of.words.get(name, [None])]
        found[step] = shared.Step(title, len(passed), wrong, len(names) - len(wrong) - len(passed))
    return found


def report(suite: Suite, answers: Answers, troubles: typing.Sequence[str] = (), notes: typing.Sequence[str] = (),
           record: Record | None = None) -> Report:
    lacking = [name for name, found in answers.items() if UNSUPPORTED in found]
    answers = {name: found for name, found in answers.items() if name not in set(lacking)}
    of = Diagnosis(suite, answers)
    names = sorted(of.words, key=lambda name: (suite.cases[name].case.size, name))
    failing = [name for name in names if not of.is_doubt(name) and of.fails(name)]
    by_step = steps_of(suite, of, failing)
    made = Report(suite, len(of.words), by_step, list(troubles), list(notes), record, of.words, failing, iterations=iterations(of))
    if lacking:
        found = conditions.common_of(suite, [*answers, *lacking]).condition(lacking, list(answers))
        said = f"exactly where {found.words} ({shared.counted(len(lacking), 'case')})" if found else shared.listed(lacking)
        made.notes.append(f"not supported: {said}")
    if of.more:
        made.notes.append(f"decodes more than peeling in {shared.counted(len(of.more), 'case')}, where nothing else is consistent "
                          f"with what was received: {shared.listed(of.more)}")
    if not failing:
        made.doubts = doubts.of_cases(of)
        return made
    made.first = first_of(of, answers, failing[0])
    made.diagnosis = verdicts.verdict(of, answers)
    common = doubts.of_failing(of, failing)
    if common:
        made.doubts.append(f"doubt (it may be arithmetic, and no mistake of the chain): {common}")
    return made


def iteration_lines(found: Object) -> typing.Iterator[str]:
    """How many iterations are made, by the patterns that are known to need so many."""
    (flood, layers), up_to = found["delivered"], found["all_up_to"]
    of = f"of {found['known']} patterns with a known depth"
    if not found["is_limited"]:
        yield f"iterations: {of} it delivers the deepest, which takes {flood} rounds of flooding ({layers} of layers)"
    else:
        least = f"all of up to {up_to[0]} rounds ({up_to[1]} of layers) and " if up_to else ""
        yield f"iterations: {of} it delivers {least}none of more than {flood} rounds of flooding ({layers} of layers)"


def text(made: Report) -> typing.Iterator[str]:
    yield from made.head_lines()
    if made.first:
        first = made.first
        yield f"the smallest case that fails: {first.id}: {first.what}"
        yield f"  transmission {first.transmission} of {first.transmissions}: {first.told}"
        yield from (f"  {line}" for line in (*first.difference, f"its lines: {first.show}"))
        yield f"  cases that fail: {shared.listed(made.failing)}"
    if made.diagnosis:
        yield from made.diagnosis.says()
    yield from iteration_lines(made.iterations) if made.iterations else ()
    yield from made.doubts
    yield from made.levels
    if not made.first and not made.troubles:
        yield made.end_line()
