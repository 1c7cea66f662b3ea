"""One limit of a rule that is another one, or that is missing: of the CRCs, of the base graph, of Kb and of Kcb."""

from __future__ import annotations

import dataclasses
import itertools
import typing

from linksim_tools.conform.case import Plan
from linksim_tools.conform.clauses import COLUMN_LIMITS, GRAPH_LIMITS, KCB, graph_of, kb_of
from linksim_tools.conform.encoder.families import instead, mistake
from linksim_tools.conform.mistake import Method, Methods, Mistake

# Trials of an encoder, or what has the code rate of a case and its right plan as they do.
Trials = typing.Sequence[typing.Any]

# A value that no number of bits and no code rate is above.
ALL = 1 << 24


@dataclasses.dataclass(frozen=True)
class Rule:
    """A rule: its step, name and limits, what is compared with each, its method, what that gives by the limits, and what
    it is given of a plan and a rate."""

    step: str
    name: str
    limits: typing.Mapping[typing.Any, int]
    numbers: typing.Sequence[str]
    hook: str
    by: Method
    of: typing.Callable[[Plan, int], tuple[int, ...]]

    def at(self, moved: typing.Mapping[typing.Any, int]) -> Methods:
        """The rule with these limits in place of the right ones."""
        limits = {**self.limits, **moved}
        return instead(self.hook, lambda *given: self.by(limits, *given))

    def moved(self, trials: Trials, numbers: dict[str, list[int]]) -> typing.Iterator[Mistake]:
        """The rule with each limit in turn at each other place that these cases tell apart, or without it."""
        for number, (name, limit) in zip(self.numbers, self.limits.items()):
            values = numbers[number]
            ranges: dict[typing.Any, list[int]] = {}
            for below, above in zip((0, *values), (*values, ALL)):
                limits = {**self.limits, name: below}
                given = tuple(self.by(limits, *self.of(trial.right.plan, trial.case.rate2048)) for trial in trials)
                ranges.setdefault(given, [below, above])[1] = above
            for below, above in ranges.values():
                if not below <= limit < above:
                    said = f"no limit {limit:,} of {number} is asked for" if below == 0 or above == ALL else (
                        f"the limit {limit:,} of {number} is from {below:,} to {above - 1:,}")
                    made = self.at({name: below})
                    yield mistake("other-limit", self.step, f"{self.name}: {said}", f"{number} <= {limit:,}", made)


CRC = Rule("crc", "the CRC", {"a": 3824}, "A", "crc_of_block", lambda it, a: "CRC24A" if a > it["a"] else "CRC16",
           lambda it, _: (it.a,))
GRAPH = Rule("graph", "the base graph", GRAPH_LIMITS, ("A", "A", "2048 R", "2048 R"), "base_graph", graph_of,
             lambda it, rate: (it.a, rate))
COLUMNS = Rule("segmentation", "Kb", COLUMN_LIMITS, "BBB", "filled_columns", lambda it, graph, _a, b: kb_of(it, graph, b),
               lambda it, _: (it.graph, 0, it.b))
RULES = (CRC, GRAPH, COLUMNS, *(
    Rule("segmentation", f"several code blocks of base graph {graph}", {"b": most}, "B", "has_several",
         lambda it, b, limit, most=most: b > (it["b"] if limit == most else limit), lambda it, _: (it.b, KCB[it.graph]))
    for graph, most in KCB.items()))


def several_before(less: int) -> Methods:
    """Several code blocks already where B is over a number that is so much less than Kcb."""
    return instead("has_several", lambda b, most: b > most - less)


def kcb(graph: int, other: int) -> Methods:
    """Another Kcb of a base graph."""
    return instead("largest", lambda it: other if it == graph else KCB[it])


def mistakes(trials: Trials) -> typing.Iterator[Mistake]:
    """The limits that these cases tell from the right ones."""
    plans = [trial.right.plan for trial in trials]
    numbers = {"A": sorted({it.a for it in plans}), "B": sorted({it.b for it in plans}),
               "2048 R": sorted({trial.case.rate2048 for trial in trials})}
    for rule in RULES:
        yield from rule.moved(trials, numbers)
    for less in (8, 16, 24, 32):
        yield mistake("other-limit", "segmentation", f"Kcb is {less} less at both base graphs", "8448 and 3840",
                      instead("largest", lambda it, less=less: KCB[it] - less))
        yield mistake("other-limit", "segmentation", f"several code blocks already where B > Kcb - {less}", "where B > Kcb",
                      several_before(less))
    for graph, most in KCB.items():
        for other in itertools.chain(range(most - 64, most + 65, 8), (8448, 8424, 8192, 6144, 3840, 3816, 4096, 3072)):
            if other != most:
                yield mistake("other-limit", "segmentation", f"Kcb of base graph {graph} is {other}", f"{most}", kcb(graph, other))
