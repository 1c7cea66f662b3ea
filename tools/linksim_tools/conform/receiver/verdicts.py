"""What may be the reason of what fails, a class each: when it holds (`of`), how soon it is asked for (`rank`), whether its mistakes
explain all blocks (`fits`), and what it says."""

from __future__ import annotations

import dataclasses
import typing

from linksim_tools.conform import report as shared
from linksim_tools.conform.receiver import conditions, doubts, known_answers
from linksim_tools.conform.receiver.evidence import Seen
from linksim_tools.conform.receiver.mistakes import MISTAKES, STEPS

if typing.TYPE_CHECKING:
    from linksim_tools.conform.files import Object
    from linksim_tools.conform.mistake import Mistake
    from linksim_tools.conform.receiver.answers import Answers
    from linksim_tools.conform.receiver.diagnosis import Diagnosis

# How many mistakes that fit are named.
NAMED = 4
NONE = "none of the listed mistakes"
# A condition of a mistake that a mirror proves is told from so many others.
PROVED = 3


@dataclasses.dataclass
class Verdict:
    """What is said first, mistakes, the cases whose blocks they do not give, and further lines."""

    kind: typing.ClassVar[str] = ""
    rank: typing.ClassVar[int] = 0
    fits: typing.ClassVar[bool] = False

    said: str
    names: list[str] = dataclasses.field(default_factory=list)
    against: list[str] = dataclasses.field(default_factory=list)
    notes: typing.Sequence[str] = ()
    kinds: typing.Sequence[Mistake] = ()
    apart: str | None = None
    next: str = ""
    cut_short: bool = False

    @classmethod
    def of(cls, seen: Seen) -> Verdict | None:
        """The verdict, if it holds of what is seen."""
        raise NotImplementedError

    def says(self) -> typing.Iterator[str]:
        yield f"diagnosis: {self.said}"
        yield from (f"  {line}" for line in self.notes)
        for kind in self.kinds:
            yield f"  a mistake of this kind gives the same ({kind.clause}), {STEPS[kind.step]}: {kind.wrong}"
            yield f"    change: {kind.change}"
        if self.cut_short:
            yield "  the search was cut short: the cases are too long for it"
        if len(self.names) > 1:
            said = f"answer {self.apart} too, and they may be told apart" if self.apart else "no case tells them apart"
            yield f"  {'each of these fits' if self.fits else 'these are equal'}; {said}:"
        for it in map(MISTAKES.__getitem__, self.names[:NAMED]):
            yield f"  {it.name} ({it.clause}), {STEPS[it.step]}: {it.wrong}"
            yield f"    change: {it.change}"
        if len(self.names) > NAMED:
            yield f"  and {len(self.names) - NAMED} more"
        if self.fits:
            yield "  one mistake can hide another: correct it, and run the suite again"
        elif self.next:
            yield f"  next: {self.next}"

    def as_object(self) -> Object:
        keys = ("name", "step", "clause", "wrong", "change")
        mistakes = [[{key: getattr(MISTAKES[name], key) for key in keys}] for name in self.names]
        kinds = [{key: getattr(it, key) for key in keys[1:]} for it in self.kinds]
        return {"kind": self.kind, "said": self.said, "fits": self.fits, "mistakes": mistakes, "of_a_kind": kinds,
                "cases_not_given": self.against, "notes": list(self.notes), "told_apart_by": self.apart,
                "cut_short": self.cut_short}


class Long(Verdict):
    kind, rank = "long", 0

    @classmethod
    def of(cls, seen: Seen) -> Verdict | None:
        return None if seen.failing else cls(
            "only the longest cases fail, for which no mistake was computed: look for a number of too few bits, such as r")


class Changed(Verdict):
    kind, rank = "changed", 1

    @classmethod
    def of(cls, seen: Seen) -> Verdict | None:
        change = conditions.change(seen.of.suite, seen.answers)
        return cls(f"each block that is delivered wrongly is the right one, but {change}") if change else None


class Gives(Verdict):
    """Mistakes give the blocks of all cases, and something beside losses shows them."""

    kind, rank, fits = "gives", 2, True

    @classmethod
    def of(cls, seen: Seen) -> Verdict | None:
        names, against = seen.giving, seen.against
        if not names:
            return None
        if len(seen.failing) == 1:
            said, notes = "what the one case that fails shows, which is little to go by", [""] * 0
        else:
            but = f" but {len(against)}: {shared.listed(against)}" if against else ""
            said, notes = f"the blocks of all cases{but}", seen.clash_note
        return cls(f"{shared.what_gives([[it] for it in names])} {said}", names, against, notes, apart=seen.of.apart(names))


class Right(Verdict):
    kind, rank = "right", 3

    @classmethod
    def of(cls, seen: Seen) -> Verdict | None:
        return None if seen.is_block_wrong else cls(
            "all blocks are right, and no listed mistake gives what else was answered", notes=seen.lines, next=seen.next)


class Depth(Verdict):
    kind, rank = "depth", 4

    @classmethod
    def of(cls, seen: Seen) -> Verdict | None:
        lost = doubts.of_depth(seen.of, seen.failing)
        return cls(f"{lost}: too few iterations, or messages that die out since they are scaled and rounded down; "
                   "round to the nearest, or try a larger --level") if lost else None


class Kinds(Verdict):
    kind, rank = "kinds", 5

    @classmethod
    def of(cls, seen: Seen) -> Verdict | None:
        return cls(f"{NONE}, but:", notes=seen.lines, kinds=seen.kinds) if seen.kinds else None


class Proved(Verdict):
    """A mirror is delivered, which proves its mistake under a condition, or one like it. Of all such mistakes those are told that
    explain most of these mirrors, then most cases, and are spared least: they would change few cases that are right."""

    kind, rank = "proved", 6

    @classmethod
    def of(cls, seen: Seen) -> Verdict | None:
        of, cases = seen.of, seen.of.suite.cases
        mirrors = {name for name in seen.failing if cases[name].case.mirror and of.delivers(name)}
        given = {it: [name for name in seen.failing if of.agrees(cases[name].answers(it)[0], name)]
                 for it in {it for name in mirrors for it in cases[name].wrong}}
        given = {it: names for it, names in given.items() if mirrors.intersection(names)}
        if not given:
            return None
        spared = {it: [name for name in of.judged if name not in seen.failing and it in cases[name].wrong
                       and not cases[name].answers(it)[1] and not of.agrees(cases[name].answers(it)[0], name)] for it in given}
        keys = {it: (len(mirrors.intersection(names)), len(names), -len(spared[it])) for it, names in given.items()}
        names = [it for it in MISTAKES if it in given and keys[it] == max(keys.values())]
        first, apart, steps = names[0], of.apart(names), sorted({MISTAKES[it].step for it in names})
        condition = conditions.common_of(of.suite, of.judged).condition(given[first], spared[first], steps, PROVED)
        delivered = shared.listed([it for it in given[first] if it in mirrors])
        others = [it for it in seen.failing if it not in given[first]]
        if condition and not others:
            said = f"{shared.what_gives([[it] for it in names])} all that fails, {condition.line('others that it would change')}"
            return cls(said, names, notes=[f"it is proved by what is delivered: {delivered}"], apart=apart)
        notes = [f"{shared.counted(len(some), 'case')} {words}: {shared.listed(some)}" for some, words in (
            (spared[first], "that it would change are right"), (others, "that fail are not explained by it")) if some]
        said = f"a mistake like {first}, or {first} under a condition, since this is delivered: {delivered}"
        return cls(said, names, others, [*notes, *seen.lines], apart=apart, next=seen.next)


class Few(Verdict):
    kind, rank = "nothing", 7

    @classmethod
    def of(cls, seen: Seen) -> Verdict | None:
        due = seen.of.due()
        delivered = len(due) - due.count(known_answers.NONE)
        if 10 * delivered >= len(due):
            return None
        lose = [f"{' and '.join(seen.losing[:NAMED])} would lose the same blocks:"] if seen.losing else []
        return cls(f"it delivers next to nothing: {delivered} of {len(due)} blocks that are due", seen.losing,
                   notes=[*seen.lines, *lose],
                   next="look at one small case: the sign of its values (--positive), the shift table that it reads, its CRC")


class Loses(Verdict):
    kind, rank, fits = "loses", 8, True

    @classmethod
    def of(cls, seen: Seen) -> Verdict | None:
        names = seen.losing
        if not names or len(seen.failing) == 1 or len(seen.against) > 1:
            return None
        but = f" but {seen.against[0]}" if seen.against else ""
        notes = ["nothing else that was answered shows this mistake for sure", *seen.lines, *seen.clash_note]
        return cls(f"it loses the same blocks as a receiver with {names[0]} does, in all cases{but}", names, seen.against, notes,
                   apart=seen.of.apart(names))


class Described(Verdict):
    """A condition or a number is all that is known."""

    kind, rank = "described", 9

    @classmethod
    def of(cls, seen: Seen) -> Verdict | None:
        return cls(f"{NONE}, but:", notes=seen.lines, next=seen.next) if seen.lines else None


class Unexplained(Verdict):
    kind, rank = "none", 10

    @classmethod
    def of(cls, seen: Seen) -> Verdict | None:
        of, steps = seen.of, sorted({seen.of.suite.cases[name].case.step for name in seen.failing})
        others = [name for name in of.judged if name not in seen.failing]
        common = conditions.common_of(of.suite, of.judged).shared_by(seen.failing, others, steps)
        return cls(f"{NONE} gives these answers", notes=common, next=seen.next)


def verdict(of: Diagnosis, answers: Answers) -> Verdict:
    """The first verdict that holds, and whether what was searched before it was cut short."""
    seen = Seen(of, answers)
    ranked = sorted(Verdict.__subclasses__(), key=lambda it: it.rank)
    found = next(found for found in (kind.of(seen) for kind in ranked) if found)
    return dataclasses.replace(found, cut_short=seen.cut_short)
