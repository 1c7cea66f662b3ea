"""The search for the mistake that gives the answers of a step. It is a known one, a pair of them, an entry of the table, a
generator polynomial, or one of a kind. A known one may also be made under a condition."""

from __future__ import annotations

import contextlib
import dataclasses
import functools
import itertools
import typing

from linksim_tools.conform.case import BITS, FIELDS, STEPS, Answer
from linksim_tools.conform.clauses import Impossible
from linksim_tools.conform.conditions import Common, Condition
from linksim_tools.conform.encoder import entries, hints, observations, polynomials
from linksim_tools.conform.encoder.families import crcs, limits, numbers, orders, rows, state
from linksim_tools.conform.encoder.judging import NOTHING, Mistakes, Trial, Trials, length_of
from linksim_tools.conform.encoder.mistakes import MISTAKES
from linksim_tools.conform.encoder.points import Facts
from linksim_tools.conform.encoder.suite import Suite
from linksim_tools.conform.mistake import Mistake

# How many mistakes of a step are told one behind the other.
TOGETHER = 3

# How many failing cases are told of, and how many bits of a case are enough for a search.
NEAR, INFORMATIVE = 24, 48

# How many characters are made in a search at most: for single mistakes, and for pairs of them.
WORK, WORK_OF_PAIRS = 400_000_000, 150_000_000

# A mistake that gives only some failing cases is looked for from so many cases on. So many of those that give the first are
# tried, and it must give at least so many cases.
STARTS, ABLE, PART = 3, 24, 4

# A name is given under no condition that can be said only if it breaks fewer right cases than these of a hundred.
BROKEN = 10


class CutShort(Exception):
    """The search has made as much as it may."""


@dataclasses.dataclass
class Fitting:
    """Mistakes together that give all failing cases of a step, and the passing cases that they do not give. If there
    are such cases, `condition` says when the mistakes are made."""

    mistakes: Mistakes
    broken: list[str] = dataclasses.field(default_factory=list)
    condition: Condition | None = None

    def names(self) -> list[str]:
        return sorted(it.name for it in self.mistakes)


@dataclasses.dataclass
class Found:
    """What was found of a step that fails.

    If one mistake gives some of the failing cases and no other, `failing` has only these, of so many (`out_of`). The rest
    is found behind it. `fitting` has the mistakes of which each gives all failing cases. `apart` is the name of an answer
    that would tell them apart, or None if no case of the suite does. `alike` is whether the bits of all cases are the same,
    and `alone` whether all later answers of the failing cases are right. `condition` is what the failing cases have in
    common, and `told` has lines about numbers, bits and rows. `cut` says where the search was cut short."""

    step: str
    failing: list[str]
    behind: list[str]
    fitting: list[Fitting] = dataclasses.field(default_factory=list)
    apart: str | None = None
    alike: bool = False
    alone: bool = False
    condition: Condition | None = None
    told: list[str] = dataclasses.field(default_factory=list)
    cut: str | None = None
    out_of: int = 0

    @property
    def is_sure(self) -> bool:
        """Whether what is named gives all other cases too."""
        return bool(self.fitting) and not self.fitting[0].broken


@functools.lru_cache(maxsize=1)
def of_every_suite() -> tuple[Mistake, ...]:
    """The mistakes of the families that need no suite."""
    return (*crcs.mistakes(), *numbers.mistakes(), *orders.mistakes(), *rows.mistakes())


def outcome(trial: Trial, field: str, wrong: Mistakes) -> typing.Any:
    """What the model gives under a name; None if it cannot be made."""
    try:
        return trial.made(field, wrong)
    except Impossible:
        return None


def differ(trial: Trial, fields: typing.Iterable[str], one: Mistakes, other: Mistakes) -> bool:
    """Whether two candidates make different things of a case."""
    return any(outcome(trial, field, one) != outcome(trial, field, other) for field in fields)


class Search:
    """The search in the answers to a suite."""

    def __init__(self, suite: Suite, trials: Trials) -> None:
        self.suite, self.trials, self.by_name = suite, trials, trials.by_name
        places = {name: place for place, name in enumerate(suite.cases)}
        self.common = Common({name: [Facts(suite.cases[name])] for name in self.by_name}, {
            name: ["it is the first case"] * (not places[name]) + [
                f"its place in the suite, from 0 on, is {places[name] % n} modulo {n}" for n in (2, 3, 4, 8, 16)]
            for name in self.by_name}, places)
        self.work = 0

    def left(self, candidates: list[Mistakes], names: typing.Iterable[str], fields: tuple[str, ...]) -> list[Mistakes]:
        """The candidates that give all these cases."""
        self.work = 0
        for name in names:
            if not candidates:
                break
            trial = self.by_name[name]
            candidates = [it for it in candidates if self.gives(trial, fields, it)]
            trial.forget()
        return candidates

    def gives(self, trial: Trial, fields: tuple[str, ...], wrong: Mistakes, most: int = WORK) -> bool:
        """Whether these mistakes give what was answered under these names."""
        self.work += sum(length_of(getattr(trial.right, field)) for field in fields) + len(trial.case.a)
        if self.work > most:
            trial.forget()
            raise CutShort
        return trial.gives(fields, wrong)

    def informative(self, names: list[str], fields: tuple[str, ...]) -> list[str]:
        """The same cases, those with few bits last."""
        few = {it for it in names if length_of([getattr(self.by_name[it].right, field) for field in fields]) < INFORMATIVE}
        return sorted(names, key=lambda it: it in few) if fields[0] in BITS else names

    def spans(self, names: list[str], fields: tuple[str, ...]) -> frozenset[str]:
        """The steps in which a mistake can show under some names of these cases."""
        return frozenset().union(*(self.by_name[it].span(field) for it in names for field in fields))

    def found(self, step: str, base: Mistakes, failing: list[str]) -> Found:
        """What is found of a step, beside `base`."""
        fields, passing = STEPS[step][1], self.trials.passing(step, failing)
        made = Found(step, failing, sorted(it.name for it in base))
        ordered, spans = self.informative(failing, fields), self.spans(failing, fields)
        singles = [base | {it} for it in MISTAKES.values() if it not in base and not spans.isdisjoint(it.steps)]
        with self.within(made):
            candidates = self.fit(made, base, singles, ordered, passing)
        if not made.fitting:
            telling = [it for it in passing if self.common.tells(it)] if fields[0] in BITS else passing
            made.condition = self.common.condition(failing, telling, sorted(spans))
        if not made.fitting and not made.condition and not made.cut:
            with self.within(made):
                self.take_part(made, base, candidates, ordered, passing)
        if not made.fitting:
            self.tell(made, ordered, passing)
        elif len(made.fitting) > 1:
            self.tell_apart(made, base)
        made.alone = self.later_are_right(step, failing)
        return made

    @contextlib.contextmanager
    def within(self, made: Found) -> typing.Iterator[None]:
        """Says of what is found that a search was cut short, if it would make too much."""
        self.work = 0
        try:
            yield
        except CutShort:
            made.cut = "the search was cut short: the cases that fail are too long for it"

    def fit(self, made: Found, base: Mistakes, singles: list[Mistakes], failing: list[str], passing: list[str]) -> list[Mistakes]:
        """Finds the mistakes that give all failing cases, and gives all that were tried one by one."""
        fields = STEPS[made.step][1]
        fitting = self.left(singles, failing, fields)
        sure = self.elsewhere_too(self.left(fitting, passing, fields), base)
        sure = sure or self.special(made.step, base, failing, passing)
        named = [] if sure else self.of_families(base, failing, fields)
        more = self.left(named, failing, fields)
        sure = sure or self.elsewhere_too(self.left(more, passing, fields), base)
        if not sure and not fitting and not more:
            pairs = self.left(self.pairs(base, singles, failing, fields), failing, fields)
            sure = self.elsewhere_too(self.left(pairs, passing, fields), base)
        made.fitting = [Fitting(it - base) for it in sure]
        for some in (fitting, more):
            made.fitting = made.fitting or self.conditional(base, some, made.failing, passing, fields)
        return [*singles, *named]

    def tell(self, made: Found, failing: list[str], passing: list[str]) -> None:
        """Tells of numbers, bits and rows of failing cases that no mistake gives."""
        made.told = hints.lines(made.step, [self.by_name[it] for it in failing[:NEAR]], self.trials)
        made.told += observations.lines(made.step, *([self.by_name[it] for it in names] for names in (failing, passing)))

    def elsewhere_too(self, candidates: list[Mistakes], base: Mistakes) -> list[Mistakes]:
        """The candidates that give all answers of the other steps in which they show, too."""
        kept = []
        for wrong in candidates:
            steps = {step for it in wrong - base if it.also for step in it.steps}
            fields = tuple(field for step in steps for field in STEPS[step][1])
            kept += self.left([wrong], self.by_name if fields else [], fields)
        return kept

    def special(self, step: str, base: Mistakes, failing: list[str], passing: list[str]) -> list[Mistakes]:
        """Mistakes that no list has: of the table, and of a generator polynomial."""
        fields, (bad, good) = STEPS[step][1], ([self.by_name[it] for it in names] for names in (failing, passing))
        for mistake in itertools.chain(entries.found(step, bad, good), polynomials.found(step, bad, good)):
            if self.left(self.left([base | {mistake}], failing, fields), passing, fields):
                return [base | {mistake}]
        return []

    def of_families(self, base: Mistakes, failing: list[str], fields: tuple[str, ...]) -> list[Mistakes]:
        """Mistakes that no list has, by their kind, that change something of their own steps in the first failing case."""
        spans, trial = self.spans(failing, fields), self.by_name[failing[0]]
        named = (*limits.mistakes([*self.by_name.values()]), *of_every_suite(), *state.mistakes_of(self.suite))
        return [base | {it} for it in named if not spans.isdisjoint(it.steps)
                and differ(trial, (field for step in it.steps for field in STEPS[step][1]), base | {it}, base)]

    def take_part(self, made: Found, base: Mistakes, candidates: list[Mistakes], failing: list[str], passing: list[str]) -> None:
        """Takes a mistake that gives some of the failing cases and all that pass: the others have one more."""
        fields = STEPS[made.step][1]
        for start in failing[:STARTS]:
            best: list[str] = []
            for it in self.left(candidates, [start], fields)[:ABLE]:
                given = [name for name in failing[:NEAR] if self.gives(self.by_name[name], fields, it)]
                if len(given) >= max(PART, len(failing[:NEAR]) // PART, len(best) + 1) and self.left([it], passing, fields):
                    best, wrong = given, it
            if best:
                there = [name for name in made.failing if self.gives(self.by_name[name], fields, wrong)]
                made.fitting, made.out_of, made.failing = [Fitting(wrong - base)], len(failing), there
                return

    def pairs(self, base: Mistakes, singles: list[Mistakes], names: list[str], fields: tuple[str, ...]) -> list[Mistakes]:
        """The pairs of candidates that give the first of these cases."""
        self.work = 0
        trial = self.by_name[names[0]]
        moving = [it for it in singles if differ(trial, fields, it, base)]
        giving = [it for it in moving if self.gives(trial, fields, it, WORK_OF_PAIRS)]
        found = [one | other for one, other in itertools.product(giving, [it for it in singles if it not in moving])]
        for one, other in itertools.combinations(moving, 2):
            if self.gives(trial, fields, one | other, WORK_OF_PAIRS):
                found.append(one | other)
        trial.forget()
        return found

    def conditional(self, base: Mistakes, fitting: list[Mistakes], failing: list[str], passing: list[str],
                    fields: tuple[str, ...]) -> list[Fitting]:
        """Candidates that give all failing cases, and not all others: those alone whose condition can be said, or that
        break few."""
        found = []
        for wrong in fitting if fields[0] != "graph" else []:
            broken = [it for it in passing if not self.gives(self.by_name[it], fields, wrong)]
            condition = self.common.condition(failing, broken, sorted(it.step for it in wrong - base)) if broken else None
            if condition or 0 < 100 * len(broken) <= BROKEN * len(failing):
                found.append(Fitting(wrong - base, broken, condition))
            for it in passing:
                self.by_name[it].forget()
        return sorted(found, key=lambda it: (it.condition is None, len(it.broken), len(it.mistakes)))

    def tell_apart(self, made: Found, base: Mistakes) -> None:
        """Says which further name of an answer would tell several apart."""
        kept = [base | it.mistakes for it in made.fitting]
        answered = {field for it in self.by_name.values() for field in it.answer.names()}
        differing: set[str] = set()
        for name in self.suite.cases:
            trial = Trial(self.suite, name, Answer())
            for field in (field for field in FIELDS if field not in differing):
                if len({repr(outcome(trial, field, wrong)) for wrong in kept}) > 1:
                    differing.add(field)
        made.apart = next((it for it in FIELDS if it in differing and it not in answered), None)
        made.alike = not differing & set(BITS)

    def later_are_right(self, step: str, names: list[str]) -> bool:
        """Whether later steps of these cases were answered, and all of them are right."""
        later = [field for it in [*STEPS][[*STEPS].index(step) + 1 :] for field in STEPS[it][1]]
        found = [(getattr(trial.answer, field), getattr(trial.right, field)) for trial in map(self.by_name.__getitem__, names)
                 for field in later]
        told = [one == two for one, two in found if one is not None]
        return bool(told) and all(told)

    def behind(self, step: str, base: Mistakes, failing: list[str], left: int) -> tuple[list[Found], Mistakes]:
        """What was found of a step, one mistake behind the other, and `base` with what was named there. A mistake that gives some
        cases alone is named only if the others are explained beside it."""
        first = self.found(step, base, failing)
        named = base | first.fitting[0].mistakes if first.is_sure and not first.alone else base
        if not first.out_of:
            return [first], named
        rest = self.trials.failing(step, named) if left else []
        more, all_named = self.behind(step, named, rest, left - 1) if rest else ([], named)
        if more and (more[-1].fitting or more[-1].condition):
            return [first, *more], all_named
        made = dataclasses.replace(first, failing=failing, fitting=[], out_of=0)
        self.tell(made, self.informative(failing, STEPS[step][1]), self.trials.passing(step, failing))
        return [made], base


def diagnosis(suite: Suite, trials: Trials) -> list[Found]:
    """What was found, for each step that fails, in the order of the chain."""
    search, base, found = Search(suite, trials), NOTHING, []
    for step in STEPS:
        failing = trials.failing(step, base)
        if failing:
            more, base = search.behind(step, base, failing, TOGETHER - 1)
            found += more
    return found
