"""What an encoder answers of a case, judged step by step: what it answers of a step is the input of the next."""

from __future__ import annotations

import dataclasses
import functools
import typing

from linksim_tools.conform.case import STEPS, STEP_OF, Answer, size
from linksim_tools.conform.chain import INPUTS, Chain
from linksim_tools.conform.clauses import Impossible
from linksim_tools.conform.encoder.mistakes import clauses_of
from linksim_tools.conform.encoder.suite import Suite
from linksim_tools.conform.mistake import Mistake

# Some mistakes together.
Mistakes = typing.FrozenSet[Mistake]
NOTHING: Mistakes = frozenset()

# With these numbers of a plan nothing else of segmentation matters to later steps.
ENOUGH = {"graph", "c", "l", "kdash", "z", "set", "k", "n"}

# A value of more characters is made again if it is wanted again.
KEPT = 1 << 20


def same(field: str, found: typing.Any, value: typing.Any) -> bool:
    """Whether an answered value is this one; of a plan as many numbers as are there."""
    if field == "plan":
        return all(getattr(value, name) == it for name, it in found.items())
    return bool(found == value)


def length_of(value: typing.Any) -> int:
    """About how much room a value takes."""
    if isinstance(value, str):
        return len(value)
    return sum(map(length_of, value)) if isinstance(value, list) else 1


class Trial:
    """A case with what was answered of it."""

    def __init__(self, suite: Suite, name: str, answer: Answer) -> None:
        self.tables, self.case, self.right, self.answer = suite.tables, suite.cases[name], suite.values[name], answer
        self.before = suite.before.get(name)
        self.kept: dict[tuple[str, Mistakes], typing.Any] = {}
        self.spans: dict[str, frozenset[str]] = {}
        self.sound: dict[str, bool] = {}

    def answered(self, fields: typing.Iterable[str]) -> list[str]:
        """Those of these names that were answered."""
        return [field for field in fields if getattr(self.answer, field) is not None]

    def is_answered(self, field: str) -> bool:
        """Whether all that later steps take of a name was answered."""
        if field == "plan":
            return ENOUGH <= (self.answer.plan or {}).keys()
        return getattr(self.answer, field) is not None

    def span(self, field: str) -> frozenset[str]:
        """The steps in which a mistake can show under a name: its own, and those before it that were not answered."""
        if field not in self.spans:
            found = {STEP_OF[field]}
            for it in INPUTS[field]:
                if not self.is_answered(it):
                    found |= self.span(it)
            self.spans[field] = frozenset(found)
        return self.spans[field]

    def has_right_inputs(self, field: str) -> bool:
        """Whether all that was answered before a name is right."""
        if field not in self.sound:
            self.sound[field] = all(
                (getattr(self.answer, it) is None or same(it, getattr(self.answer, it), getattr(self.right, it)))
                and (self.is_answered(it) or self.has_right_inputs(it)) for it in INPUTS[field])
        return self.sound[field]

    def made(self, field: str, wrong: Mistakes) -> typing.Any:
        """What stands under a name with these mistakes, if the answers before it are its input."""
        used = frozenset(it for it in wrong if not self.span(field).isdisjoint(it.steps)) if wrong else NOTHING
        if not used and self.has_right_inputs(field):
            return getattr(self.right, field)
        key = field, used
        found = self.kept[key] if key in self.kept else Made(self, used).attempt(field)
        if length_of(found) <= KEPT:
            self.kept[key] = found
        if isinstance(found, Impossible):
            raise found
        return found

    def gives(self, fields: typing.Iterable[str], wrong: Mistakes) -> bool:
        """Whether these mistakes give all that was answered under these names."""
        try:
            if all(self.agrees(field, getattr(self.answer, field), self.made(field, wrong)) for field in self.answered(fields)):
                return True
        except Impossible:
            pass
        return self.is_open(wrong)

    def is_open(self, wrong: Mistakes) -> bool:
        """Whether the clauses say nothing: with a wrong base graph the code blocks would not have one length. Such a case speaks
        against no mistake."""
        if self.right.plan.c == 1 and self.answer.graph is None and all(it.step != "graph" for it in wrong):
            return False
        try:
            plan = self.made("plan", wrong)
        except Impossible:
            return False
        return bool(plan.graph != self.right.plan.graph and (plan.b + plan.c * plan.l) % plan.c > 0)

    def agrees(self, field: str, found: typing.Any, value: typing.Any) -> bool:
        """Whether an answered value is the one that mistakes make. A k0 that is not the right one may be taken modulo Ncb."""
        if field == "k0" and found != self.right.k0 and (self.answer.Ncb or self.right.Ncb):
            return bool((found - value) % (self.answer.Ncb or self.right.Ncb) == 0)
        return same(field, found, value)

    def forget(self) -> None:
        self.kept.clear()

    def state(self, step: str, base: Mistakes = NOTHING) -> str:
        """How the case does in a step, these mistakes known: `pass` or `fail`. It is `none` if the step was not
        answered, and `unjudged` if what was answered before cannot be its input."""
        fields = self.answered(STEPS[step][1])
        if not fields:
            return "none"
        if all(same(field, getattr(self.answer, field), getattr(self.right, field)) for field in fields):
            return "pass"
        try:
            for field in fields:
                if not same(field, getattr(self.answer, field), self.made(field, base)):
                    return "unjudged" if step == "segmentation" and self.is_open(base) else "fail"
        except Impossible:
            return "unjudged"
        return "pass"


class Made(Chain):
    """The chain of a trial under some mistakes, whose values are kept with the trial."""

    def __init__(self, trial: Trial, wrong: Mistakes) -> None:
        super().__init__(trial.tables, trial.case, clauses_of(wrong), trial.answer, trial.before)
        self.trial, self.wrong = trial, wrong

    def made(self, name: str) -> typing.Any:
        return self.trial.made(name, self.wrong)


def with_fillers(trial: Trial) -> Answer | None:
    """The answer with the fillers of d, if zeros stand at the places of all of them; None if it has none such."""
    plan, words = trial.right.plan, trial.answer.d
    first, last = plan.kdash - 2 * plan.z, plan.k - 2 * plan.z
    if words is None or len(words) != plan.c or first >= last or any(len(d) != plan.n or d[first:last].strip("0") for d in words):
        return None
    return dataclasses.replace(trial.answer, d=[d[:first] + "-" * (last - first) + d[last:] for d in words])


def with_bits(trial: Trial) -> Answer | None:
    """The answer with the bits of several code blocks as d has them. That is if they were not answered, and d has at most their
    parity bits wrong. The first 2 Zc bits are not in d, and are taken as right."""
    words, plan, right = trial.answer.d, trial.right.plan, trial.right.bits
    if words is None or trial.answer.bits is not None or not plan.l or len(words) != plan.c:
        return None
    first, part = 2 * plan.z, plan.kdash - plan.l
    bits = [block[:first] + d[: plan.kdash - first] for block, d in zip(right, words)]
    seen = first <= part and all(len(d) == plan.n for d in words) and not "".join(bits).strip("01")
    if not seen or any(one[:part] != two[:part] for one, two in zip(bits, right)):
        return None
    return dataclasses.replace(trial.answer, bits=bits)


class Trials:
    """All cases that were answered, small ones first."""

    def __init__(self, suite: Suite, answers: dict[str, Answer]) -> None:
        named = {name: Trial(suite, name, answer) for name, answer in answers.items() if answer.names()}
        self.suite = suite
        self.by_name = {name: named[name] for name in sorted(named, key=lambda it: size(suite.cases[it]))}
        # Zeros in d are fillers if no later answer says that they are sent, and bits that were not answered stand in d.
        self.zeros = self.take(with_fillers, self.are_sent)
        self.from_d = self.take(with_bits, lambda *_: False)

    def take(self, change: typing.Callable[[Trial], Answer | None], is_against: typing.Callable[[str, Trial], bool]) -> list[str]:
        """Takes other answers, if none of them speaks against it; the cases in which it does."""
        changed = {name: change(trial) for name, trial in self.by_name.items()}
        found = {name: Trial(self.suite, name, answer) for name, answer in changed.items() if answer is not None}
        if any(is_against(name, trial) for name, trial in found.items()):
            return []
        self.by_name.update(found)
        return list(found)

    def are_sent(self, name: str, fillers: Trial) -> bool:
        """Whether the next answer after d is made of the zeros, and not of fillers."""
        fields = fillers.answered(("e", "f", "sent"))[:1]
        return bool(fields) and not fillers.gives(fields, NOTHING) and self.by_name[name].gives(fields, NOTHING)

    def failing(self, step: str, base: Mistakes) -> list[str]:
        """The cases that fail in a step."""
        found = [name for name, trial in self.by_name.items()
                 if trial.state(step, base) == "fail" and not self.is_hidden(trial, step, base)]
        for name in found:
            self.by_name[name].forget()
        return found

    def passing(self, step: str, failing: typing.Collection[str]) -> list[str]:
        """The other cases that were answered in a step, and judged."""
        out, states = set(failing), self.states[step]
        return [name for name in self.by_name if name not in out and states[name] not in ("none", "unjudged")]

    def is_hidden(self, trial: Trial, step: str, base: Mistakes) -> bool:
        """Whether an earlier step that a case does not answer fails in others by an unknown fault: this may be the same."""
        earlier = frozenset().union(*map(trial.span, trial.answered(STEPS[step][1]))) - {step}
        return any("fail" in self.states[it].values() and not any(it in known.steps for known in base) for it in earlier)

    @functools.cached_property
    def states(self) -> dict[str, dict[str, str]]:
        """By step and case how it does."""
        self.states = {step: {name: "none" for name in self.suite.cases} for step in STEPS}
        for name, trial in self.by_name.items():
            for step, found in self.states.items():
                found[name] = trial.state(step)
            trial.forget()
        for step, found in self.states.items():
            found.update({name: "unjudged" for name, trial in self.by_name.items()
                          if found[name] == "fail" and self.is_hidden(trial, step, NOTHING)})
        return self.states
