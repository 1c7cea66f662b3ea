"""What the cases that fail have in common, and the others have not: one property of a case, or two. Both ends use it."""

from __future__ import annotations

import dataclasses
import itertools
import re
import typing

from linksim_tools.conform.encoder.points import Facts, Test

# Cases of a suite: a bit for each.
Cases = int

# How many conditions that cases do not tell apart are named. From how many failing cases on one property is asked for,
# two, and two of which one is a limit. Of how many other cases a condition must be told, since fewer may have it by chance.
# The last number is how many other cases each of two properties must have.
ALIKE, FOR_ONE, FOR_TWO, FOR_LIMIT, AGAINST, EACH = 4, 2, 4, 8, 8, 4

# How many bits of a code block must be sent for a case to say much.
INFORMATIVE = 48

# Properties that hold or not: words, words of the contrary, and the test.
YES_OR_NO: tuple[tuple[str, str, Test], ...] = (
    ("C > 1", "C = 1", lambda it: it.c > 1), ("C > 2", "C <= 2", lambda it: it.c > 2),
    ("A > 3824", "A <= 3824", lambda it: it.a > 3824), ("there are fillers", "there is no filler", lambda it: it.fillers > 0),
    ("TBS_LBRM is given", "no TBS_LBRM is given", lambda it: it.case.lbrm is not None),
    ("Ncb < N", "Ncb = N", lambda it: it.ncb < it.plan.n),
    ("not all code blocks are sent", "all code blocks are sent", lambda it: len(it.scheduled) < it.c),
    ("K' - L is no multiple of 8", "K' - L is a multiple of 8", lambda it: (it.plan.kdash - it.plan.l) % 8 > 0),
    ("Zc is odd", "Zc is even", lambda it: it.z % 2 > 0),
    ("Zc is a power of 2", "Zc is no power of 2", lambda it: it.z & (it.z - 1) == 0),
    ("Zc is the largest of its set", "Zc is not the largest of its set", lambda it: it.z > 192),
    *((f"some E_r is no multiple of {n}", f"each E_r is a multiple of {n}", lambda it, n=n: any(e % n for e in it.shares))
      for n in (8, 16, 32, 64)),
    ("some E_r / Qm is odd", "each E_r / Qm is even", lambda it: any(e // it.case.qm % 2 for e in it.shares)),
    ("some E_r / Qm is no multiple of 8", "each E_r / Qm is a multiple of 8",
     lambda it: any(e // it.case.qm % 8 for e in it.shares)),
    ("Ncb is no multiple of Zc", "Ncb is a multiple of Zc", lambda it: it.ncb % it.z > 0),
    ("several code blocks are sent", "one code block is sent", lambda it: sum(e > 0 for e in it.shares) > 1),
    ("parity bits are sent", "no parity bit is sent", lambda it: it.parity_sent),
    ("the E_r differ", "all E_r are the same", lambda it: it.unequal),
    ("some E_r is 0", "no E_r of a scheduled code block is 0", lambda it: 0 in it.shares),
    ("the buffer's end is read", "the buffer's end is not read", lambda it: max(it.shares) >= it.to_end),
    ("it wraps", "it does not wrap", lambda it: max(it.shares) > it.to_end),
    ("it wraps twice", "it does not wrap twice", lambda it: max(it.shares) > it.to_end + it.one_round),
    ("it wraps three times", "it does not wrap three times", lambda it: max(it.shares) > it.to_end + 2 * it.one_round),
    ("E_r is more than a round", "E_r is at most a round", lambda it: max(it.shares) > it.one_round),
    ("Qm > 1", "Qm = 1", lambda it: it.case.qm > 1), ("NL > 1", "NL = 1", lambda it: it.case.nl > 1),
    ("rv > 0", "rv = 0", lambda it: it.case.rv > 0), ("k0 > 0", "k0 = 0", lambda it: it.k0 > 0),
    ("k0 stands amid the fillers", "k0 does not stand amid the fillers", lambda it: it.is_filler(it.k0)),
    ("Kb Zc = K'", "Kb Zc > K'", lambda it: it.plan.kb * it.z == it.plan.kdash),
    ("Kb < 10 at base graph 2", "Kb is 10 or 22", lambda it: it.graph == 2 and it.plan.kb < 10),
    ("fillers are passed", "no filler is passed", lambda it: it.fillers_passed),
    ("fillers are passed after the wrap", "no filler is passed after the wrap", lambda it: it.fillers_passed_again),
    ("more than a column of fillers", "at most a column of fillers", lambda it: it.fillers > it.z),
    ("the last column of K has bits", "the last column of K has fillers alone", lambda it: it.fillers < it.z),
    ("G > 65,535", "G <= 65,535", lambda it: it.case.g > 65_535), ("K' > Ncb", "K' <= Ncb", lambda it: it.plan.kdash > it.ncb),
    ("E_r < K' - 2 Zc", "some E_r >= K' - 2 Zc", lambda it: max(it.shares) < it.systematic),
    ("the block has ones", "the block is all zeros", lambda it: it.ones > 0),
    ("the block has a single one", "the block has not a single one", lambda it: it.ones == 1),
)

NUMBERS: dict[str, typing.Callable[[Facts], int]] = {
    "base graph": lambda it: it.graph, "set": lambda it: it.plan.set, "rv": lambda it: it.case.rv, "Qm": lambda it: it.case.qm,
    "NL": lambda it: it.case.nl, "C": lambda it: it.c, "Kb": lambda it: it.plan.kb, "Zc": lambda it: it.z, "A": lambda it: it.a,
    "2048 R": lambda it: it.rate, "B": lambda it: it.b, "C'": lambda it: len(it.scheduled), "G": lambda it: it.case.g,
    "Ncb": lambda it: it.ncb, "K'": lambda it: it.plan.kdash, "the largest E_r": lambda it: max(it.shares),
    "TBS_LBRM": lambda it: it.case.lbrm or 0, "k0": lambda it: it.k0, "k0 + E_r": lambda it: it.k0 + max(it.shares),
    "N": lambda it: it.plan.n, "the number of fillers": lambda it: it.fillers, "r": lambda it: it.scheduled[-1]
}

# Those whose values are asked for one by one, before the properties above (VALUES) and after them (FURTHER). Those of
# ORDERED are asked for from a value on, and those of MULTIPLES for whether they are whole words.
VALUES = ("base graph", "set", "rv", "Qm", "NL", "C")
FURTHER = ("Kb", "Zc", "A", "2048 R", "B", "C'", "G")
ORDERED = ("Zc", "A", "B", "2048 R", "C", "G", "Ncb", "K'", "Qm", "rv", "the largest E_r", "set", "TBS_LBRM", "k0", "k0 + E_r",
           "C'", "N", "the number of fillers", "r")
MULTIPLES = ("A", "B", "K'", "Zc", "G", "Ncb")

# What each step consumes, the most telling first: conditions that cases do not tell apart stand in this order.
CONSUMED: dict[str, str] = {
    "crc": r"^A\b|^B\b|block", "graph": r"^A\b|^2048 R",
    "segmentation": r"^B\b|^C\b|^Kb|^base graph|^K'|^A\b|^Zc", "codecrc": r"^C\b|^K'|filler|^A\b|^B\b",
    "ldpc": r"^base graph|^set|^Zc|filler|^row|^K'|^C\b", "buffer": r"^TBS_LBRM|^C\b|^Ncb|^rv|^base graph|^Zc|sent|^C'",
    "lengths": r"^NL|^Qm|^C'|^C\b|E_r|sent|^G\b", "selection": r"k0|wrap|E_r|^Ncb|filler|end|^rv|parity",
    "interleaving": r"^Qm|E_r", "concatenation": r"^C\b|^C'|E_r|^G\b|sent|^r\b",
    "parting": r"^Qm|^NL|^C'|^C\b|sent|E_r|^G\b", "places": r"^rv|^base graph|Ncb|k0|filler|wrap|end|^Kb|^C\b|^B\b",
    "combining": r"transmission|rv|values", "processes": r"process|new data|again|transmission",
    "decoder": r"^row|^place|^base graph|^set|^Zc|filler", "decision": r"code block|^C\b|^A\b|^K'",
}

# What a limit of a number costs more than its value, a second property, and what no step consumes. The least is told.
LIMIT, SECOND, ELSEWHERE = 4, 6, 40

# The numbers of which a single failing case says the value, by step.
OWN = {"crc": "A", "graph": "A", "segmentation": "B", "lengths": "G"}


@dataclasses.dataclass(frozen=True)
class Condition:
    """Words for what all failing cases have in common and none of the others, and other words that these cases do not tell from
    them; how many cases fail, and how many others there are."""

    words: str
    alike: tuple[str, ...]
    failing: int
    others: int

    def line(self, others: str) -> str:
        """The same as a line; `others` says which cases it is told from."""
        alike = f" (the same cases: {'; '.join(self.alike)})" if self.alike else ""
        fail = "the one that fails" if self.failing == 1 else f"all {self.failing} that fail"
        return f"exactly where {self.words}{alike}: {fail}, none of {self.others} {others}"


@dataclasses.dataclass(frozen=True)
class Property:
    """Words, the cases that have the property, and whether it is a limit of a number."""

    words: str
    cases: Cases
    is_limit: bool = False


def name_of(name: str, value: int) -> str:
    return f"{name} {value}" if name in ("base graph", "set") else f"{name} = {value:,}"


def mask_of(flags: typing.Iterable[bool]) -> Cases:
    """The cases for which a flag is set, in their order."""
    return int("".join("1" if flag else "0" for flag in flags)[::-1] or "0", 2)


def gap(name: str, right: int, wrong: int) -> str:
    """Words for the gap of a limit, between a value that is right and one that is wrong. A power of two is told if a case stands
    at it, since it may be the width of a counter."""
    two = f" = 2^{wrong.bit_length() - 1}" if wrong >= 128 and wrong > right and not wrong & (wrong - 1) else ""
    return f"{name} {'>=' if wrong > right else '<='} {wrong:,}{two} ({right:,} is right)"


def count(cases: Cases) -> int:
    return bin(cases).count("1")


def cost(words: str, steps: typing.Iterable[str]) -> int:
    """How little one of these steps depends on a property, or on two."""
    total = -SECOND
    for part in words.split(" and "):
        places = [place for step in steps for place, about in enumerate(CONSUMED[step].split("|")) if re.search(about, part)]
        total += min(places, default=ELSEWHERE) + SECOND + LIMIT * (">=" in part or "<=" in part or "right)" in part)
    return total


class Common:
    """Finds what cases of a suite have in common. A case has the numbers of its transmissions, of which an encoder's has one;
    it has a property if one of them has it. `more` are further properties by case, and `order` is their order in the suite."""

    def __init__(self, cases: typing.Mapping[str, typing.Sequence[Facts]], more: typing.Mapping[str, typing.Iterable[str]] = {},
                 order: typing.Mapping[str, int] = {}) -> None:
        self.facts, self.more, self.order = cases, more, order
        self.places = {name: 1 << place for place, name in enumerate(cases)}
        self.numbers = {name: [[read(it) for it in facts] for facts in cases.values()] for name, read in NUMBERS.items()}
        self.whole = (1 << len(cases)) - 1
        self.properties = [it for it in self.all_properties() if it.cases not in (0, self.whole)]

    def all_properties(self) -> typing.Iterator[Property]:
        """All properties, also those that every case has."""
        yield from self.values_of(VALUES)
        for words, contrary, test in YES_OR_NO:
            yes = mask_of(any(map(test, it)) for it in self.facts.values())
            yield from (Property(words, yes), Property(contrary, self.whole & ~yes))
        for name, width in itertools.product(MULTIPLES, (2, 8, 16, 32, 64)):
            yes = mask_of(any(it % width for it in numbers) for numbers in self.numbers[name])
            yield Property(f"{name} is no multiple of {width}", yes)
            yield Property(f"{name} is a multiple of {width}", self.whole & ~yes)
        named = dict.fromkeys(words for name in self.places for words in self.more.get(name, ()))
        yield from (Property(words, mask_of(words in self.more.get(name, ()) for name in self.places)) for words in named)
        yield from self.values_of(FURTHER)
        for name in ORDERED:
            numbers = [max(it) for it in self.numbers[name]]
            for value in sorted(set(numbers)):
                yield Property(f"{name} >= {value:,}", mask_of(it >= value for it in numbers), True)
                yield Property(f"{name} <= {value:,}", mask_of(it <= value for it in numbers), True)

    def values_of(self, names: typing.Iterable[str]) -> typing.Iterator[Property]:
        """Each value of these numbers as a property."""
        for name in names:
            for value in sorted({it for numbers in self.numbers[name] for it in numbers}):
                yield Property(name_of(name, value), mask_of(value in numbers for numbers in self.numbers[name]))

    def tells(self, name: str) -> bool:
        """Whether a case that passes says much: a block of zeros, or of a single one, hides most mistakes."""
        return all(it.random and max(it.shares) >= INFORMATIVE for it in self.facts[name])

    def condition(self, failing: typing.Collection[str], others: typing.Collection[str], steps: typing.Collection[str] = (),
                  against: int = AGAINST) -> Condition | None:
        """What all failing cases have, and none of the others, of which there must be so many. `steps` are those in which the
        mistake may be made: what they consume is told first."""
        bad, good = (sum(self.places[name] for name in set(names)) for names in (failing, others))
        if count(good) < against or not bad:
            return None
        if len(failing) < FOR_ONE:
            names = [OWN[step] for step in steps if step in OWN] if len(steps) == 1 else []
            found = [(it.words, it.cases) for it in self.values_of(names)]
        else:
            found = [(it.words, it.cases) for it in self.properties if not it.is_limit]
            found += [(words, bad) for words in self.ranges(failing, others)] + self.pairs(bad, good, len(failing))
        words_of = [words for words, cases in found if not bad & ~cases and not cases & good]
        if not words_of:
            return None
        words_of.sort(key=lambda words: cost(words, steps))
        return Condition(words_of[0], tuple(it for it in words_of[1:] if " and " not in it)[: ALIKE - 1], count(bad), count(good))

    def shared_by(self, failing: typing.Collection[str], others: typing.Collection[str],
                  steps: typing.Collection[str] = ()) -> list[str]:
        """A property that all failing cases have and fewer others than fail, in words, if there is one."""
        bad, good = (sum(self.places[name] for name in set(names)) for names in (failing, others))
        found = [(count(it.cases & good), cost(it.words, steps), it.words) for it in self.properties
                 if not it.is_limit and not bad & ~it.cases and count(it.cases & good) <= max(count(bad), 2)]
        if not found or len(failing) < FOR_ONE:
            return []
        there, _, words = min(found)
        return [f"all {count(bad)} that fail have in common: {words} ({there} of {count(good)} others have it too)"]

    def ranges(self, failing: typing.Collection[str], others: typing.Collection[str]) -> typing.Iterator[str]:
        """The limits and the ranges of numbers in which all failing cases are and no other, in words."""
        at = [(self.order[it], it) for it in failing if self.order]
        if at and all(self.order[it] < min(at)[0] for it in others):
            yield f"the case is {min(at)[1]} or stands after it in the suite"
        for name in ORDERED:
            by_case = dict(zip(self.places, self.numbers[name]))
            bad, good = (sorted(max(by_case[it]) for it in names) for names in (failing, others))
            below, above = ([it for it in good if it < bad[0]], [it for it in good if it > bad[-1]])
            if len(below) == len(good):
                yield gap(name, below[-1], bad[0])
            elif len(above) == len(good):
                yield gap(name, above[0], bad[-1])
            elif len(below) + len(above) == len(good) and min(len(below), len(above)) >= AGAINST and bad[0] < bad[-1]:
                yield f"{name} from {bad[0]:,} to {bad[-1]:,} ({below[-1]:,} and {above[0]:,} are right)"

    def pairs(self, bad: Cases, good: Cases, failing: int) -> list[tuple[str, Cases]]:
        """Two properties that all failing cases have, and none of the others has both."""
        if failing < FOR_TWO:
            return []
        kept: dict[Cases, Property] = {}
        for it in self.properties:
            if not bad & ~it.cases and (failing >= FOR_LIMIT or not it.is_limit):
                kept.setdefault(it.cases & good, it)
        return [(f"{one.words} and {two.words}", one.cases & two.cases) for one, two in itertools.combinations(kept.values(), 2)
                if not one.cases & two.cases & good and not (one.is_limit and two.is_limit)
                and min(count(one.cases & good), count(two.cases & good)) >= EACH]
