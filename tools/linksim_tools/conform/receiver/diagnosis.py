"""What a receiver answered to a suite, and what it costs to explain it by a listed mistake, of which the suite keeps the answers.
It also says how many iterations a receiver makes."""

from __future__ import annotations

import functools
import typing

from linksim_tools.conform.receiver import elimination, known_answers, steps
from linksim_tools.conform.receiver.suite import either

if typing.TYPE_CHECKING:
    from linksim_tools.conform.files import Object
    from linksim_tools.conform.receiver.answers import Answers
    from linksim_tools.conform.receiver.chain import Receiver
    from linksim_tools.conform.receiver.known_answers import Shown
    from linksim_tools.conform.receiver.suite import Suite
    from linksim_tools.conform.receiver.reception import Answer, Arrival

LEVELS = range(len(known_answers.LEVELS))

# What an answer costs that a mistake does not give: if it contradicts itself, receivers differ.
SURE, CLASH = 10, 1

# What was answered to a transmission, a word a level.
Word = typing.Tuple[typing.Optional[str], ...]


def words_of(answer: Answer | None, meant: str, told: Arrival) -> Word | None:
    """An answer as a suite keeps it; None if a level was not answered. If a single code block fails, `0` is none: it may say that
    the CRC of the block fails."""
    if answer is None:
        return None
    shown = known_answers.shown(answer, meant, told)
    says = answer.passed != "0" or answer.delivered is not None or steps.sizes(told.a, told.rate2048).c > 1
    there = (True, answer.passed is not None and says, answer.info is not None, answer.soft is not None)
    return tuple(word if given else None for word, given in zip(shown, there))


def agrees_once(wanted: tuple[str, ...], word: Word | None, levels: typing.Collection[int],
                also: typing.Sequence[tuple[str, str]]) -> bool:
    """Whether what was answered at these levels to a transmission is this, or is accepted `also`. That is of receivers that keep
    what has passed, and may leave their soft values as they are then."""
    if word is None or all([word[level] in (None, wanted[level]) for level in levels]):
        return True
    return any(all(word[level] in (None, it[level]) for level in levels if level < 2) for it in also)


class Diagnosis:
    """What was answered to a suite, and what may be the reason."""

    def __init__(self, suite: Suite, answers: Answers) -> None:
        self.suite, self.words = suite, {}
        self.costs_of: dict[tuple[str, tuple[int, ...]], dict[str, int]] = {}
        self.also: dict[str, list[list[tuple[str, str]]]] = {}
        # The cases in which something is decoded that peeling leaves undecided.
        self.more: list[str] = []
        for name, found in answers.items():
            kept = suite.cases[name]
            words = [words_of(*it) for it in zip(found, kept.case.meant, kept.case.arrivals)]
            # A receiver need not combine any more what belongs to a code block that has passed.
            self.words[name] = [it and (*it[:3], None) if "1" in passed else it for it, passed in zip(words, kept.passed_before())]
            self.also[name] = self.accepted(name, found)
        names = sorted(self.words, key=lambda name: (suite.cases[name].case.size, name))
        self.judged = [name for name in names if suite.cases[name].known and not self.is_doubt(name)]

    @functools.cached_property
    def failing(self) -> list[str]:
        """The cases that are judged and fail, small ones first."""
        return [name for name in self.judged if self.fails(name)]

    def accepted(self, name: str, answers: typing.Sequence[Answer | None]) -> list[list[tuple[str, str]]]:
        """What is accepted of each transmission beside what peeling finds: what more elimination fixes, and what is answered by one
        that keeps code blocks that passed. After a delivery nothing but a wrong block is wrong: values are combined only while a
        block is not decoded, the buffer may be freed, and a block need be handed up once (TS 38.321, 5.3.2.2)."""
        kept, words = self.suite.cases[name], self.words[name]
        found: list[list[tuple[str, str]]] = [[] for _ in words]
        more = [False] * len(words)
        if kept.known and any(
                one not in (None, other) for right, word in self.answered([name]) for one, other in zip(word[:3], right)):
            more = elimination.accepted(self.suite.tables, kept.case, answers)
        delivered: set[int] = set()
        each = zip(kept.case.arrivals, words, kept.right, kept.passed_before(), found, more)
        for told, word, right, before, also, is_more in each:
            if told.fresh:
                delivered.discard(told.process)
            elif len(before) > 1:
                passed = either(before, right[1])
                also.append((right[0] if "0" in passed else known_answers.MEANT, passed))
            if word and (is_more or told.process in delivered and word[0] in (known_answers.NONE, known_answers.MEANT)):
                also.append((word[0] or known_answers.NONE, word[1] or right[1]))
            if right[0] == known_answers.MEANT or is_more and word and word[0] != known_answers.NONE:
                delivered.add(told.process)
        if any(more):
            self.more.append(name)
        return found

    def answered(self, names: typing.Iterable[str]) -> typing.Iterator[tuple[tuple[str, ...], Word]]:
        """What is right and what was answered, of each transmission of these cases that was answered."""
        return ((right, word) for name in names for right, word in zip(self.suite.cases[name].right, self.words[name]) if word)

    def is_doubt(self, name: str) -> bool:
        """Whether a case is one that a right receiver may fail."""
        return self.suite.cases[name].case.step not in known_answers.STEPS_OF_CHAIN

    def agreeing(self, answers: Shown, name: str, levels: typing.Collection[int]) -> typing.Iterator[bool]:
        """Whether these answers to each transmission of a case are what was answered at these levels."""
        return (agrees_once(answer, word, levels, also) for answer, word, also in zip(answers, self.words[name], self.also[name]))

    def agrees(self, answers: Shown, name: str, levels: typing.Collection[int] = (0,)) -> bool:
        """Whether these answers to a case have the blocks that were answered, or what was answered at other levels."""
        return all(self.agreeing(answers, name, levels))

    def fits(self, name: str) -> list[bool]:
        """Whether what was answered to each transmission of a case is right. What contradicts itself is judged by blocks alone."""
        kept = self.suite.cases[name]
        return [*self.agreeing(kept.right, name, LEVELS[: 1 if kept.clash else None])]

    def fails(self, name: str) -> bool:
        return not all(self.fits(name))

    def given_by(self, made: type[Receiver], name: str) -> bool:
        """Whether such a receiver gives what was answered to a case. It is not asked on after another block."""
        receiver, kept, words = made(self.suite.tables), self.suite.cases[name], self.words[name]
        answers = []
        for answer, meant, word, also in zip(known_answers.taken(receiver, kept.case), kept.case.meant, words, self.also[name]):
            answers.append(answer)
            if not agrees_once((known_answers.block(answer, meant),), word, (0,), also):
                return False
        shown = tuple(map(known_answers.shown, answers, kept.case.meant, kept.case.arrivals))
        return self.agrees(shown, name, LEVELS[: 1 if receiver.clash else None])

    def cost(self, mistake: str, levels: typing.Collection[int], names: typing.Sequence[str] = ()) -> int:
        """What a mistake costs: how surely it does not give all answers, or those to these cases."""
        costs = [self.costs(name, levels) for name in names or self.judged]
        return sum(it.get(mistake, it[""]) for it in costs)

    def costs(self, name: str, levels: typing.Collection[int]) -> dict[str, int]:
        """The same of a case alone, by the mistake; all that are not there answer as none does, under the empty name. Many
        mistakes have the same answers, which are compared once."""
        key = name, tuple(levels)
        if key not in self.costs_of:
            kept = self.suite.cases[name]
            every = {"": (kept.right, kept.clash), **kept.wrong}
            given = {it: self.agrees(it, name, levels) for it in {it for it, _ in every.values()}}
            self.costs_of[key] = {it: 0 if given[answers] else CLASH if clash else SURE for it, (answers, clash) in every.items()}
        return self.costs_of[key]

    def least(self, mistakes: typing.Iterable[str], levels: typing.Collection[int], names: typing.Sequence[str] = ()) -> list[str]:
        """Those of these mistakes that cost least."""
        costs = {mistake: self.cost(mistake, levels, names) for mistake in mistakes}
        least = min(costs.values())
        return [mistake for mistake, cost in costs.items() if cost == least]

    def against(self, mistake: str) -> list[str]:
        """The cases whose blocks a mistake does not give."""
        cases = self.suite.cases
        return [it for it in self.judged if not self.agrees(cases[it].answers(mistake)[0], it)]

    def contradicts(self, mistake: str) -> bool:
        """Whether something was answered beside a block that a mistake does not give, though its case is a sure one."""
        for name in self.judged:
            answers, clash = self.suite.cases[name].answers(mistake)
            if not clash and self.agrees(answers, name) and not all(self.agrees(answers, name, [level]) for level in LEVELS[1:]):
                return True
        return False

    def shows(self, mistake: str) -> bool:
        """Whether something was answered that this mistake gives and a right receiver does not, beside losses. That is a
        wrong block, a code block that passed, bits or soft values."""
        for name in self.judged:
            kept = self.suite.cases[name]
            answers, clash = kept.answers(mistake)
            for right, wrong, word in zip(kept.right, answers, self.words[name]) if not clash else ():
                if word is None or word[0] != wrong[0]:
                    continue
                told = [level for level in LEVELS if word[level] == wrong[level] != right[level]]
                if 3 in told or 2 in told or 0 in told and wrong[0] != known_answers.NONE or 1 in told and "1" in wrong[1]:
                    return True
        return False

    def due(self) -> list[str | None]:
        """What is delivered of each block that is due."""
        return [word[0] for right, word in self.answered(self.judged) if right[0] == known_answers.MEANT]

    def delivers(self, mirror: str) -> bool:
        """Whether a mirror is delivered as a receiver with its mistake does."""
        kept = self.suite.cases[mirror]
        wrong = zip(kept.answers(kept.case.mirror)[0], kept.right, self.words[mirror])
        return any(word and word[0] == block != right and block != known_answers.NONE for (block, *_), (right, *_), word in wrong)

    def tells(self, failing: list[str]) -> bool:
        """Whether these cases show more than losses: a wrong block, or information bits or soft values that are not right."""
        return self.delivers_wrong(failing) or any(word[2] is not None or word[3] is not None for _, word in self.answered(failing))

    def delivers_wrong(self, names: typing.Iterable[str]) -> bool:
        """Whether a block is delivered in one of these cases that is not due."""
        return any(word[0] not in (known_answers.NONE, right[0]) for right, word in self.answered(names))

    def apart(self, names: list[str]) -> str | None:
        """The first level that was not answered at which some case tells these mistakes apart."""
        for level in LEVELS if len(names) > 1 else ():
            answered = any(word[level] is not None for words in self.words.values() for word in words if word is not None)
            for kept in self.suite.cases.values() if not answered else ():
                if len({tuple(it[level] for it in kept.answers(name)[0]) for name in names}) > 1:
                    return known_answers.LEVELS[level]
        return None


def iterations(of: Diagnosis) -> Object | None:
    """How many iterations a receiver is seen to make, as JSON has it: the deepest pattern up to which all were delivered, and the
    deepest that was, in rounds of flooding and of layers; of how many this is known, and whether a deeper one was lost."""
    depths: list[tuple[tuple[int, int], bool]] = []
    for name, words in of.words.items():
        kept = of.suite.cases[name]
        if kept.case.rounds and words[-1] is not None and kept.right[-1][0] == known_answers.MEANT and not of.is_doubt(name):
            depths.append((kept.case.rounds, words[-1][0] == known_answers.MEANT))
    there = [depth for depth, good in depths if good]
    lacking = [depth for depth, good in depths if not good]
    if not there:
        return None
    below = [it for it in there if not lacking or it < min(lacking)]
    return {"all_up_to": max(below, default=None), "delivered": max(there), "known": len(depths),
            "is_limited": max(lacking, default=(0, 0)) > max(there)}
