"""What is seen in the answers of a receiver that fails, each when a verdict asks for it."""

from __future__ import annotations

import collections
import functools
import typing

from linksim_tools.conform.receiver import conditions, families, known_answers, reading
from linksim_tools.conform.receiver.diagnosis import LEVELS, Diagnosis
from linksim_tools.conform.receiver.mistakes import MISTAKES

if typing.TYPE_CHECKING:
    from linksim_tools.conform.mistake import Mistake
    from linksim_tools.conform.receiver.answers import Answers

# So many cases at most in which what is decoded contradicts itself may speak against a mistake. From so many lost blocks on these
# alone show a mistake of a kind, or one of their step.
MOST_CLASHES, MANY, SOME = 10, 12, 3


class Seen:
    """What is seen, of the cases that fail and are judged, small ones first."""

    def __init__(self, of: Diagnosis, answers: Answers) -> None:
        self.of, self.answers, self.failing, self.cut_short = of, answers, of.failing, False

    @functools.cached_property
    def is_block_wrong(self) -> bool:
        return self.of.cost("", [0]) > 0

    @functools.cached_property
    def near(self) -> list[str]:
        """The listed mistakes that give the blocks of most cases, and what else was answered; none if they explain less than half
        of what fails."""
        names = self.of.least(MISTAKES, [0])
        for level in LEVELS[1:]:
            if len(names) > 1:
                names = self.of.least(names, LEVELS[: level + 1])
        doubtful = [name for name in self.of.words if self.of.is_doubt(name)]
        if len(names) > 1 and doubtful:
            names = self.of.least(names, [0], doubtful)
        return names if 2 * len(set(self.failing) - set(self.of.against(names[0]))) >= len(self.failing) else []

    @functools.cached_property
    def against(self) -> list[str]:
        """The cases whose blocks these do not give."""
        return self.of.against(self.near[0]) if self.near else list(self.failing)

    @property
    def clash_note(self) -> list[str]:
        said = "there it contradicts itself, and what a decoder makes of that differs from decoder to decoder"
        return [said] if self.against else []

    @functools.cached_property
    def free(self) -> list[str]:
        """Those that give all blocks but of cases that contradict themselves, and against which nothing speaks."""
        clashes = all(self.of.suite.cases[it].answers(self.near[0])[1] for it in self.against) if self.near else False
        if not clashes or len(self.against) > MOST_CLASHES:
            return []
        return [name for name in self.near if not self.of.contradicts(name)]

    @functools.cached_property
    def giving(self) -> list[str]:
        """Those of them that something shows beside losses."""
        if self.is_block_wrong:
            return self.free if any(map(self.of.shows, self.free)) else []
        there = {it for name in self.failing for it in self.of.suite.cases[name].wrong}
        return [it for it in self.of.least(MISTAKES, [0]) if it in there and not self.of.cost(it, LEVELS)]

    @property
    def losing(self) -> list[str]:
        return [] if self.giving else self.free

    @functools.cached_property
    def kinds(self) -> list[Mistake]:
        """The mistakes of a kind that give all that was answered, one of each. If only blocks are lost these must be many, or of
        the step of most cases that fail, and there must be no other kind."""
        if set(self.of.due()) <= {known_answers.NONE} or self.losing and not self.against:
            return []
        if len(self.failing) < SOME and not self.of.tells(self.failing):
            return []
        found, cut = families.found(self.of, self.failing)
        self.cut_short |= cut
        kinds = [*{(it.name, it.step, it.wrong.partition(" ")[0]): it for it in reversed(found)}.values()][::-1]
        if self.of.tells(self.failing):
            return kinds
        steps = collections.Counter(self.of.suite.cases[name].case.step for name in self.failing)
        likely = len(self.failing) >= MANY or kinds and steps[kinds[0].step] == max(steps.values())
        return kinds if len(kinds) == 1 and likely else []

    @functools.cached_property
    def lines(self) -> list[str]:
        """What is read from soft values, and a condition, in words."""
        read, found = reading.lines(self.of, self.answers), conditions.condition(self.of)
        if found:
            return [*read, f"{found[0]} {found[1].line('others')}"]
        if len(self.failing) == 1:
            only = self.of.suite.cases[self.failing[0]].case
            return [*read, f"only {only.id} fails: {only.what}"]
        return read

    @property
    def next(self) -> str:
        """What to do if there is no name, by what was seen."""
        words = [it for name in self.failing for it in self.of.words[name] if it]
        wanted = [name for level, name in ((3, "soft"), (2, "info"), (1, "passed")) if all(it[level] is None for it in words)]
        said = [f"answer {' and '.join(wanted)} too" if wanted else ""]
        if any(len(self.of.suite.cases[name].case.arrivals) > 1 for name in self.failing):
            said.append("start the command again for each case (--restart)")
        if self.of.suite.profile == "quick":
            said.append("take a suite of --profile full")
        return "; ".join(filter(None, said))
