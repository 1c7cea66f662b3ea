"""What may be a receiver's arithmetic alone, and no mistake of the chain: told as such, with what to try; and what several levels
of values tell together."""

from __future__ import annotations

import typing

from linksim_tools.conform.receiver import known_answers
from linksim_tools.conform.receiver.chain import Receiver
from linksim_tools.conform.receiver.diagnosis import Diagnosis

if typing.TYPE_CHECKING:
    from linksim_tools.conform.receiver.reception import Level
    from linksim_tools.conform.receiver.suite import Kept, Suite

EARLY = (
    "the decoder may stop as soon as hard decisions meet all rows, with places that it does not know yet; let it stop when all "
    "are known"
)

# What a case shows that a right receiver may fail, by its id.
SHOWN = {
    "doubt-full-scale": "values at full scale over several rounds are not decoded: sums that are no wider than messages may clip "
    "before a message is taken away; keep sums wider, or try --level 4",
    "doubt-weak": "values of 1 are not decoded: they may be lost in rounding or quantising; try a larger --level",
    "doubt-zeros": f"a block of zeros is not decoded: {EARLY}",
    "two-zeros-first": f"a code block of zeros is not as it is in other code blocks: {EARLY}",
}
WEAK, STRONG = "qQ", "hHlL"


def of_values(of: Diagnosis, failing: list[str], characters: str) -> bool:
    """Whether the cases with such values alone fail, and all in which a block is due."""
    having = {name for name in of.judged if of.suite.cases[name].case.has(characters)}
    due = {name for name in having if of.suite.cases[name].right[-1][0] == known_answers.MEANT}
    return due <= set(failing) <= having


def of_depth(of: Diagnosis, failing: list[str]) -> str | None:
    """How many rounds the failing cases take, if they only lose blocks and take more than all that are delivered."""
    if not failing or of.delivers_wrong(failing):
        return None
    there = [kept.case.rounds for name, kept in of.suite.cases.items() if name in of.words and not of.fails(name)
             and kept.case.rounds and kept.right[-1][0] == known_answers.MEANT and not of.is_doubt(name)]
    lacking = [of.suite.cases[name].case.rounds for name in failing]
    for way, words in enumerate(("rounds of flooding", "passes over layers")):
        least = min(it[way] if it else 0 for it in lacking)
        most = max((it[way] for it in there), default=0)
        if most and least > max(most, 2 - way):
            return f"all blocks that take {least} {words} or more are lost, and those of up to {most} are delivered"
    return None


def of_cases(of: Diagnosis) -> list[str]:
    """What the cases show that a right receiver may fail, each of which is said once."""
    found = {what.rpartition(": ")[2]: what for name, what in SHOWN.items() if name in of.words and of.fails(name)}
    return [f"doubt (it may be arithmetic, and no mistake of the chain): {what}" for what in found.values()]


def of_failing(of: Diagnosis, failing: list[str]) -> str | None:
    """What the failing cases have in common, if it may be how they were asked, or arithmetic alone."""
    several = {name for name in of.judged if of.suite.cases[name].case.is_mixed}
    signs = {name for name in several if "combine-signs" in of.suite.cases[name].wrong}
    if failing and set(failing) <= several and 2 * len(set(failing) & signs) >= len(signs):
        return ("only cases with values of several strengths fail: if your values have n bits, ask with --bits n and a --level of "
                "at most 2^(n-1) - 1; --bits 1 asks with hard decisions")
    if not failing or of.delivers_wrong(failing):
        return None
    if of_values(of, failing, WEAK):
        return "only cases with weak values fail; try a larger --level"
    if of_values(of, failing, STRONG):
        return "only cases with the strongest values fail; keep wider sums, or try --level 4"
    return None


def listed(numbers: typing.Sequence[int]) -> str:
    """Numbers in words."""
    return " and ".join(filter(None, [", ".join(map(str, numbers[:-1])), str(numbers[-1])]))


def largest(suite: Suite, kept: Kept, level: Level) -> int:
    """The largest sum that a place of a case comes to at this level."""
    receiver, found = Receiver(suite.tables), 0
    for told, _ in zip(kept.case.arrivals, receiver.answers(kept.case, level)):
        for soft in receiver.processes[told.process].soft or []:
            found = max(found, max(soft), -min(soft))
    return found


def width(suite: Suite, failing: dict[Level, list[str]], names: list[str]) -> str:
    """Up to which sum these cases pass at all levels, and from which on they fail, in words; nothing if they overlap."""
    passed, failed = [0], [0] * 0
    for level, wrong in failing.items():
        for name in names:
            (failed if name in set(wrong) else passed).append(largest(suite, suite.cases[name], level))
    low, high = max(passed), min(failed)
    bits = low.bit_length() + 1
    if low >= high or level.bits > 8:
        return ""
    least = f": {bits} bits hold them, and {'do not hold' if high >= 1 << bits - 1 else 'would hold'} those"
    return f"; sums of up to {low} are kept, and of {high} and more are not{least}"


def of_levels(suite: Suite, failing: dict[Level, list[str]], whole: typing.Collection[str]) -> list[str]:
    """What is told of all levels, weak ones first: which of the cases that were answered to the end at each fail."""
    failing = {level: [name for name in names if name in whole] for level, names in failing.items()}
    levels, counts = [it.strong for it in failing], [len(it) for it in failing.values()]
    known = f", of {len(whole)} that are answered at each" if len(whole) < len(suite.cases) else ""
    made = [f"levels {listed(levels)}: {listed(counts)} cases fail{known}"]
    weakest, strongest = (set([*failing.values()][at]) for at in (0, -1))
    for words, some, others, ordered in (("from", strongest, weakest, [*failing]), ("up to", weakest, strongest, [*failing][::-1])):
        more = sorted(some - others, key=[*suite.cases].index)
        if more and not others - some:
            first = next(it.strong for it in ordered if set(more) & set(failing[it]))
            due = [name for name in more if known_answers.MEANT in {it[0] for it in suite.cases[name].right}]
            why = width(suite, failing, due) if due and words == "from" else ""
            lost = " on: sums or messages are too narrow" if words == "from" else ": weak values are lost in rounding or quantising"
            made.append(f"  {len(more)} cases, as {more[0]}, fail {words} level {first}{lost}{why}")
    return made
