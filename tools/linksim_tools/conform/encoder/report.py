"""The report of a check: as an object for JSON, as text for a terminal, and as an HTML file."""

from __future__ import annotations

import dataclasses
import itertools
import typing
from html import escape

from linksim_tools.common.program import name_of
from linksim_tools.conform import page, report as shared
from linksim_tools.conform.case import STEPS, Answer, Values, about, size
from linksim_tools.conform.conditions import Common
from linksim_tools.conform.encoder.difference import Difference, Spot
from linksim_tools.conform.encoder.judging import Trial, Trials
from linksim_tools.conform.encoder.points import Facts
from linksim_tools.conform.encoder.search import Fitting, Found, diagnosis
from linksim_tools.conform.encoder.suite import Suite
from linksim_tools.conform.files import Object
from linksim_tools.conform.mistake import in_order
from linksim_tools.conform.report import counted

# How many alternatives are named.
PAIRS = 4

# What the other cases are of which a condition is told.
PASS, CHANGED = "others that pass and whose blocks are drawn bits", "others that it would change"
TITLE = "Conformance of an encoder with TS 38.212"
# A picture is so wide; parts of it that are narrower have no name in them.
STRIP, NARROW = 372, 46
LATER = "  all later steps of these cases are right: look first at what is answered of this step"


@dataclasses.dataclass(frozen=True)
class First(shared.First):
    """The first difference of a step, with the case in words; `spot` is its place in a codeword, if it has one."""

    case: str
    spot: Spot | None = None


@dataclasses.dataclass
class Report(shared.Report):
    """A report on an encoder: `twice` has lines about cases that were asked again, and `lacking` about names that are required."""

    firsts: list[First] = dataclasses.field(default_factory=list)
    diagnosis: list[Found] = dataclasses.field(default_factory=list)
    twice: list[str] = dataclasses.field(default_factory=list)
    lacking: list[str] = dataclasses.field(default_factory=list)

    def status(self) -> int:
        return 1 if self.lacking else super().status()

    def as_object(self) -> Object:
        firsts = [dataclasses.asdict(it) for it in self.firsts]
        return {**super().as_object(), "twice": self.twice, "lacking": self.lacking, "first": firsts[0] if firsts else None,
                "firsts": firsts, "diagnosis": [finding(self.suite, it) for it in self.diagnosis]}


def finding(suite: Suite, found: Found) -> Object:
    """What was found in a step, as JSON has it."""
    smallest = suite.cases[found.failing[0]]
    first = found.fitting[0] if found.fitting else None
    condition, keys = first.condition if first else found.condition, ("name", "clause", "wrong", "change")
    mistakes = [[{key: getattr(it, key) for key in keys} for it in in_order(fitting.mistakes)] for fitting in found.fitting]
    return {"step": found.step, "behind": found.behind, "failing": len(found.failing),
            "mistakes": mistakes, "gives_other_cases": found.is_sure,
            "case_not_given": first.broken[0] if first and first.broken else None,
            "not_given": [len(it.broken) for it in found.fitting],
            "conditions": [dataclasses.asdict(it.condition) if it.condition else None for it in found.fitting],
            "condition": {**dataclasses.asdict(condition), "exact": True} if condition else None, "told": found.told,
            "told_apart_by": found.apart, "same_bits": found.alike, "later_steps_right": found.alone, "cut": found.cut,
            "out_of": found.out_of or None, "smallest": {"id": smallest.id, "case": about(smallest)},
            "show": f"{name_of('conform')} show {suite.path} {smallest.id}"}


def steps_of(suite: Suite, states: dict[str, dict[str, str]]) -> dict[str, shared.Step]:
    """How the cases do, by step."""
    found = {}
    for step, cases in states.items():
        states_of = list(cases.values())
        failing = sorted((name for name, it in cases.items() if it == "fail"), key=lambda name: size(suite.cases[name]))
        numbers = (states_of.count("pass"), failing, states_of.count("none"), states_of.count("unjudged"))
        found[step] = shared.Step(STEPS[step][0], *numbers)
    return found


def required(suite: Suite, answers: dict[str, Answer], names: typing.Iterable[str]) -> typing.Iterator[str]:
    """Those of these names that some case lacks, in words."""
    for name in names:
        count = sum(getattr(answers.get(it), name, None) is None for it in suite.cases)
        if count:
            yield f"{name} is required, and {count} of {counted(len(suite.cases), 'case')} lack it"


def notes_of(trials: Trials, steps: dict[str, shared.Step], answers: dict[str, Answer]) -> typing.Iterator[str]:
    """What is said and left out of account. Of cases that were answered by nothing but their id it is what they have in common, or
    their names."""
    if trials.zeros:
        yield f"zeros stand at the fillers of d in {counted(len(trials.zeros), 'case')}: they are taken for fillers"
    if trials.from_d:
        yield f"code block CRC of {counted(len(trials.from_d), 'case')} is judged from d"
    for step in steps.values():
        if step.unjudged:
            said = "what was answered before cannot be its input, or what was not fails in other cases"
            yield f"{step.name} of {step.unjudged} cases is not judged: {said}"
    lacking = [name for name in answers if name not in trials.by_name]
    if lacking and trials.by_name:
        condition = Common({name: [Facts(trials.suite.cases[name])] for name in answers}).condition(lacking, list(trials.by_name))
        where = f"exactly where {condition.words} ({counted(len(lacking), 'case')})" if condition else shared.listed(lacking)
        yield f"not answered: {where}"


def judged(suite: Suite, answers: dict[str, Answer], troubles: typing.Sequence[str] = (),
           notes: typing.Sequence[str] = ()) -> tuple[Report, Trials]:
    """The report without a diagnosis. `troubles` are lines about answers that could not be judged."""
    trials = Trials(suite, answers)
    steps = steps_of(suite, trials.states)
    said = [*notes, *notes_of(trials, steps, answers)]
    made = Report(suite, len(trials.by_name), steps, list(troubles), said, names=trials.by_name)
    made.firsts = [first_of(trials, step, it.failing) for step, it in steps.items() if it.failing]
    return made, trials


def first_of(trials: Trials, step: str, failing: list[str]) -> First:
    """The first difference of a step, and which code blocks differ in all cases."""
    case, difference = trials.suite.cases[failing[0]], Difference(trials.by_name[failing[0]], step)
    lines = [*difference.lines(), *blocks_of(step, [trials.by_name[it] for it in failing])]
    return First(step, case.id, lines, about(case), difference.spot())


def blocks_of(step: str, failing: list[Trial]) -> list[str]:
    """Which code blocks differ in the cases that have several, if they are not all."""
    field = STEPS[step][1][-1]
    both = [(getattr(trial.answer, field), getattr(trial.right, field)) for trial in failing]
    wrong = [[one != two for one, two in zip(found, right)] for found, right in both
             if isinstance(found, list) and len(found) == len(right) > 1 and found != right]
    for said, test in (
        ("r = 0 is right, all others are wrong", lambda it: it == [False] + [True] * (len(it) - 1)),
        ("only r = 0 is wrong", lambda it: it == [True] + [False] * (len(it) - 1)),
        ("only the last is wrong", lambda it: it == [False] * (len(it) - 1) + [True]),
        ("r = 0 is right", lambda it: not it[0]), ("the last is right", lambda it: not it[-1]),
    ):
        if wrong and all(map(test, wrong)):
            return [f"code blocks: {said}, in each of the {counted(len(wrong), 'case')} that fail and have several"]
    return []


def report(suite: Suite, answers: dict[str, Answer], troubles: typing.Sequence[str] = (),
           notes: typing.Sequence[str] = ()) -> Report:
    made, trials = judged(suite, answers, troubles, notes)
    if made.firsts:
        made.diagnosis = diagnosis(suite, trials)
    return made


def alternatives(found: Found) -> str:
    """What is said of several mistakes of which each fits."""
    same = "these give the same bits in every case of this suite"
    if found.apart is None:
        return f"{same}, so it cannot tell them apart:" if found.alike else "each of these gives all that was answered:"
    if found.alike:
        return f"{same}; {found.apart} tells them apart, if it is answered:"
    return f"each of these gives all that was answered; answer {found.apart} too, and they are told apart:"


def head_lines(suite: Suite, found: Found) -> typing.Iterator[str]:
    """What is said of a step before its mistakes, or if there are none: then what is exact comes first."""
    behind = f" (with {', '.join(found.behind)} made right)" if found.behind else ""
    title = f"diagnosis, step {STEPS[found.step][0]}{behind}"
    if not found.fitting:
        smallest = suite.cases[found.failing[0]]
        exact = filter(None, (found.cut, found.condition and found.condition.line(PASS)))
        yield f"{title}: none of the known mistakes, and no pair of them, gives these bits"
        yield from (f"  {line}" for line in (*exact, *found.told))
        if found.alone:
            yield LATER
        yield f"  the smallest case that fails: {smallest.id}: {about(smallest)}"
        yield f"  its vector: {name_of('conform')} show {suite.path} {smallest.id}"
        return
    all_cases = "1 case that fails" if len(found.failing) == 1 else f"all {len(found.failing)} cases that fail"
    others = " and all others" if found.is_sure else ""
    if found.out_of:
        all_cases, others = f"{len(found.failing)} of the {found.out_of} cases that fail", ", and all that pass"
    yield f"{title}: {shared.what_gives([it.names() for it in found.fitting])} {all_cases}{others}"
    if len(found.fitting) == 1:
        yield from condition_lines(found.fitting[0], "  ")
    if found.alone:
        yield LATER
    if len(found.fitting) > 1:
        yield "  " + alternatives(found)


def condition_lines(fitting: Fitting, margin: str) -> typing.Iterator[str]:
    """When mistakes are made that do not give all cases."""
    if fitting.condition:
        yield margin + fitting.condition.line(CHANGED)
    elif fitting.broken:
        yield f"{margin}but not case {fitting.broken[0]}, which is right: look for a condition under which it is made"


def finding_lines(suite: Suite, found: Found) -> typing.Iterator[str]:
    """The lines of what was found in a step."""
    yield from head_lines(suite, found)
    for fitting in found.fitting[:PAIRS]:
        for mistake in in_order(fitting.mistakes):
            yield f"  {mistake.name} ({mistake.clause}): {mistake.wrong}"
            yield f"    change: {mistake.change}"
        if len(fitting.mistakes) > 1:
            yield "    both together"
        if len(found.fitting) > 1:
            yield from condition_lines(fitting, "    ")
    if len(found.fitting) > PAIRS:
        yield f"  and {len(found.fitting) - PAIRS} more"


def next_lines(made: Report) -> typing.Iterator[str]:
    """What to do next if a step has no name, and which steps may fail by one fault."""
    for before, step in itertools.combinations((it for it in made.steps.values() if it.failing), 2):
        if set(step.failing) <= set(before.failing):
            yield f"all cases that fail in {step.name} fail in {before.name} too: it may be one fault"
            break
    if all(it.fitting for it in made.diagnosis):
        return
    most = {it.step for it in made.diagnosis if not it.fitting and 2 * len(it.failing) > made.answered}
    is_coding = "ldpc" in most or "concatenation" in most and made.steps["ldpc"].kind == "none"
    table = ["compare the fingerprint of your table with the suite's"] if is_coding else []
    lacking = [STEPS[name][1][-1] for name, step in made.steps.items() if step.kind == "none" and name != "graph"]
    answer = [f"answer {', '.join(lacking)} too"] if lacking else []
    full = ["take a suite of --profile full"] if made.suite.profile == "quick" else []
    twice = [] if made.twice else ["run --twice shows whether the state of an earlier case is left"]
    yield "next: " + "; ".join([*table, *answer, *twice, *full, "ask the smallest case alone, by a suite of --cases"])


def text(made: Report) -> typing.Iterator[str]:
    """The lines of the report for a terminal."""
    yield from (*made.head_lines(), *made.lacking)
    for first in made.firsts:
        yield f"first difference, step {STEPS[first.step][0]}, in the smallest case that fails: {first.id}"
        yield from (f"  {line}" for line in (first.case, *first.difference))
        yield f"  cases that fail in this step: {shared.listed(made.steps[first.step].failing)}"
    for found in made.diagnosis:
        yield from finding_lines(made.suite, found)
    if made.firsts:
        yield from next_lines(made)
    elif not made.troubles:
        yield made.end_line()
    yield from made.twice


def label(x: float, y: int, words: str, width: int = STRIP) -> str:
    """Words in a picture, to the side where there is room."""
    return f'<text x="{x:.1f}" y="{y}" text-anchor="{"end" if x > width / 2 else "start"}" font-size="11">{escape(words)}</text>'


def codeword(values: Values, spot: Spot, step: str) -> typing.Iterator[str]:
    """d of a code block: its columns, the buffer, and the place of the first difference."""
    plan = values.plan
    bits, core = max(plan.kdash - 2 * plan.z, 0), 4 * plan.z
    parts = {"bits": bits, "fillers": plan.k - 2 * plan.z - bits, "core parity": core,
             "extension parity": plan.n - (plan.k - 2 * plan.z) - core}
    ends = [*itertools.accumulate(parts.values())]
    said = [f"{name} {last - parts[name]} to {last - 1}" for name, last in zip(parts, ends) if parts[name] > 0]
    about = (f"d of code block r = {spot.r}: {plan.n} bits in columns of Zc = {plan.z}; the first difference is at place "
             f"{spot.place}, in column {spot.place // plan.z + 2}. From left to right: {', '.join(said)}.")
    yield f'<p>{escape(about)}</p>\n<svg role="img" aria-label="{escape(about)}" viewBox="0 0 {STRIP + 8} 98" width="{STRIP + 8}" '
    yield 'height="98">'
    for (name, length), last, colour in zip(parts.items(), ends, ("#dafbe1", "#d0d7de", "#ddf4ff", "#fbefff")):
        x, width = 4 + STRIP * (last - length) / plan.n, STRIP * max(length, 0) / plan.n
        yield f'<rect x="{x:.1f}" y="26" width="{width:.1f}" height="30" fill="{colour}" stroke="#57606a" stroke-width="0.5"/>'
        yield label(x + 4, 46, name, 9999) if width > NARROW else ""
    for level, (name, at) in enumerate([] if step == "ldpc" else [("k0", values.k0), ("Ncb", values.Ncb)]):
        across = 4 + STRIP * at / plan.n
        yield f'<path d="M{across:.1f} 56 v{10 + 14 * level}" stroke="#57606a"/>' + label(across, 78 + 14 * level, f"{name} = {at}")
    across = 4 + STRIP * (spot.place + 0.5) / plan.n
    yield f'<path d="M{across:.1f} 18 l-5 -8 h10 z M{across:.1f} 18 v38" fill="#cf222e" stroke="#cf222e"/>'
    yield label(across + (-8 if across > STRIP / 2 else 8), 16, "first difference") + "</svg>"


def page_lines(made: Report) -> typing.Iterator[str]:
    """The report as one HTML file, with a picture of the codeword that differs first in each step."""
    pictures = (codeword(made.suite.values[it.id], it.spot, it.step) for it in made.firsts if it.spot)
    return page.document(TITLE, page.of_report(made, text(made), itertools.chain.from_iterable(pictures)))
