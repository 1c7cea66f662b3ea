"""What the cases that lose a block have in common: their numbers, and which parity rows and places their patterns need. And how the
blocks that are handed up wrongly come from the right ones: their octets in another order, and the like."""

from __future__ import annotations

import functools
import itertools
import typing

from linksim_tools.conform import bits as lists
from linksim_tools.conform.case import Case as Sent
from linksim_tools.conform.conditions import Common, Condition
from linksim_tools.conform.encoder.points import Facts
from linksim_tools.conform.receiver import known_answers, peeling
from linksim_tools.conform.receiver.chain import Receiver
from linksim_tools.conform.receiver.soft import known_and_ones

if typing.TYPE_CHECKING:
    from linksim_tools.conform.receiver.answers import Answers
    from linksim_tools.conform.receiver.diagnosis import Diagnosis
    from linksim_tools.conform.receiver.soft import Soft
    from linksim_tools.conform.receiver.steps import Tables
    from linksim_tools.conform.receiver.suite import Kept, Suite
    from linksim_tools.conform.receiver.reception import Arrival, Case

# A condition is told from so many other cases, and so many rows at most are told together.
AGAINST, MOST_ROWS = 8, 3
# What is given of the columns of a codeword: which bits are known, and which of them are ones.
Given = typing.Tuple[typing.Tuple[int, ...], typing.Tuple[int, ...]]
LOST = "blocks are lost"
NEEDED = "is needed"


def row_does(does: str, right: peeling.Peeler, number: int, given: Given, columns: int) -> bool:
    """Whether a row is needed to find all information columns, or decides a bit of them. It does if they change when all that it
    gives is turned over. `right` has what all rows give."""
    rows = right.rows
    row = () if does == NEEDED else (*rows.rows[number], (rows.columns, 0))
    known, ones = (tuple([*it, right.most]) for it in given)
    other = peeling.Peeler(rows.with_row(number, row), len(rows.rows), known, ones)
    other.spread()
    return any(other.unknown[:columns]) if does == NEEDED else other.ones[:columns] != right.ones[:columns]


def peeled_of(receiver: Receiver, told: Arrival) -> typing.Iterator[tuple[Soft, peeling.Peeler, Given, list[int]]]:
    """Of each code block after a transmission that a right receiver has taken its soft values, what all rows find, what is given,
    and the rows that may decide a bit: one that fixes no bit first does nothing, nor does one whose own column is not known."""
    sizes = receiver.sizes(told, told)
    for soft in receiver.processes[told.process].soft or []:
        given, rows = receiver.columns(sizes, told, soft), receiver.rows(sizes)
        found = peeling.peeled(rows, len(rows.rows), *given)
        yield soft, found, given, [it for it in found.giving if it < 4 or given[0][rows.rows[it][-1][0]]]


def deciding(tables: Tables, case: Case) -> set[int]:
    """The rows that decide a bit of a block that one transmission brings."""
    receiver, (told,), found = Receiver(tables), case.arrivals, set()
    _, sizes = [*receiver.answers(case)], receiver.sizes(told, told)
    for _, peeled, given, numbers in peeled_of(receiver, told):
        found |= {it for it in numbers if row_does("decides a bit", peeled, it, given, sizes.k // sizes.z)}
    return found


def needed(of: Diagnosis, kept: Kept, wanted: typing.Collection[str] | None = None) -> set[str]:
    """Which rows and places the patterns of a case need where a block is due, of these or of all."""
    receiver, found = Receiver(of.suite.tables), set()
    for told, right, _ in zip(kept.case.arrivals, kept.right, receiver.answers(kept.case)):
        sizes = receiver.sizes(told, told)
        for soft, peeled, given, numbers in peeled_of(receiver, told) if right[0] == known_answers.MEANT else ():
            for number, does in itertools.product(numbers, (NEEDED, "decides a bit")):
                words = f"row {number} of base graph {sizes.graph} {does}"
                if words not in found and (wanted is None or words in wanted):
                    found |= {words} if row_does(does, peeled, number, given, sizes.k // sizes.z) else set()
            last = known_and_ones(soft)[0].rfind("1") - 2 * sizes.z
            found |= {f"a place from {1 << n:,} on is needed" for n in range(7, 16) if last >= 1 << n}
    return found


def properties(kept: Kept) -> typing.Iterator[str]:
    """The properties of a case that its transmissions have together, of what is right of it, and what a special case is for."""
    arrivals = kept.case.arrivals
    rounds = sum(told.fresh for told in arrivals)
    yield "a block is sent again" if rounds < len(arrivals) else "each block is sent once"
    if rounds > 1 and len({told.process for told in arrivals}) == 1:
        yield "new data follows another block"
    if len({told.process for told in arrivals}) > 1:
        yield "several processes are busy"
    if any(told.process > 7 for told in arrivals):
        yield "a process is above 7"
    for count in (3, 4):
        if any(len(it) >= count for it in rounds_of(arrivals)):
            yield f"a block has {count} transmissions or more"
    if any(len({it.rv for it in some}) < len(some) for some in rounds_of(arrivals)):
        yield "an rv is repeated"
    for characters, words in (("qQiI", "values are weak"), ("hHlLM", "values are the largest")):
        if kept.case.has(characters):
            yield words
    for passed in {words[1] for words in kept.right}:
        if len(passed) > 1 and "0" in passed:
            yield "not all code blocks pass"
            if "0" not in passed[:-1]:
                yield "only the last code block fails"
            if "0" not in passed[1:]:
                yield "only the first code block fails"
    if not kept.case.what[:1].isdigit():
        yield f"the case is '{kept.case.what}'"


def rounds_of(arrivals: typing.Iterable[Arrival]) -> list[list[Arrival]]:
    """The transmissions of each block."""
    found: list[list[Arrival]] = []
    last: dict[int, list[Arrival]] = {}
    for told in arrivals:
        if told.fresh or told.process not in last:
            last[told.process] = []
            found.append(last[told.process])
        last[told.process].append(told)
    return found


@functools.lru_cache(4096)
def facts_of(told: Arrival) -> Facts:
    """The numbers of a transmission."""
    mask = "all" if told.mask is None else " ".join(map(str, told.mask))
    return Facts(Sent("", "0" * told.a, told.rate2048, told.lbrm, told.rv, told.g, told.qm, told.nl, mask))


def common_of(suite: Suite, names: typing.Iterable[str]) -> Common:
    """What finds what cases have in common; the smallest one that fails is described by itself too."""
    cases = {name: suite.cases[name] for name in names}
    return Common({name: [facts_of(it) for it in kept.case.arrivals] for name, kept in cases.items()},
                  {name: [*properties(kept)] for name, kept in cases.items()})


def wrong_of(of: Diagnosis) -> tuple[str, dict[str, bool]]:
    """In which cases a due block is lost, of those in which one is due. Or in which one is handed up that is not due, of those
    in which none is at some transmission. None of either, if there are both."""
    due: dict[str, bool] = {}
    empty: dict[str, bool] = {}
    for name in of.judged:
        pairs = [(right[0], word[0]) for right, word in zip(of.suite.cases[name].right, of.words[name]) if word is not None]
        if any(right == known_answers.MEANT for right, _ in pairs):
            due[name] = any(right == known_answers.MEANT != word for right, word in pairs)
        if any(right == known_answers.NONE for right, _ in pairs):
            empty[name] = of.fails(name) and any(right == known_answers.NONE != word for right, word in pairs)
    if any(due.values()) and any(empty.values()):
        return "", {}
    return (LOST, due) if any(due.values()) else ("a block is delivered that is not there", empty)


def by_needs(of: Diagnosis, failing: list[str], others: list[str]) -> list[str]:
    """The rows and places that exactly the failing cases need; or few rows, each of which is needed by some of them alone."""
    of_failing = {name: needed(of, of.suite.cases[name]) for name in failing}
    wanted = set().union(*of_failing.values())
    for name in others:
        if wanted:
            wanted -= needed(of, of.suite.cases[name], wanted)
    alone = sorted(words for words in wanted if all(words in it for it in of_failing.values()))
    if alone or not wanted:
        return alone
    rest, taken = set(failing), [""] * 0
    while rest and len(taken) < MOST_ROWS:
        best = max(sorted(wanted), key=lambda words: sum(words in of_failing[name] for name in rest))
        covered = {name for name in rest if best in of_failing[name]}
        if not covered:
            return []
        taken.append(best)
        rest -= covered
    return [] if rest or len(failing) < 2 * len(taken) else [" or ".join(sorted(taken))]


def condition(of: Diagnosis) -> tuple[str, Condition] | None:
    """What the cases that fail in one way have in common, and no other that could, after what happens there; or None."""
    said, cases = wrong_of(of)
    failing, others = ([name for name, wrong in cases.items() if wrong is it] for it in (True, False))
    if not failing or len(others) < AGAINST:
        return None
    steps = sorted({of.suite.cases[name].case.step for name in failing})
    found = common_of(of.suite, cases).condition(failing, others, steps)
    if found and " and " not in found.words:
        return said, found
    words = by_needs(of, failing, others) if said == LOST and len(failing) > 1 else []
    if words:
        return said, Condition(words[0], tuple(words[1:4]), len(failing), len(others))
    return (said, found) if found else None


CHANGES: dict[str, lists.Order] = {
    "each octet begins with its lowest bit": lists.each_octet_reversed,
    "the octets stand in the other order": lists.octets_backwards,
    "all bits stand in the other order": lists.backwards,
    "all bits are inverted": lists.inverted,
    "the halves of each octet are exchanged": lists.in_words(8, lambda octet: octet[4:] + octet[:4]),
    **{f"the octets of each word of {size} bits stand in the other order{words}":
       lists.in_words(size, lists.octets_backwards, is_whole)
       for size in (16, 32, 64) for words, is_whole in (("", False), (", but those of a last word that is not whole", True))},
    "its last octet is 0": lambda bits: bits[:-8] + "0" * 8,
    "its first octet is 0": lambda bits: "0" * 8 + bits[8:],
    "its last octet is missing": lambda bits: bits[:-8],
    "its first octet is missing": lambda bits: bits[8:],
    "it begins one bit late": lambda bits: bits[1:] + "0",
    "all its bits are 0": lambda bits: "0" * len(bits),
}


def change(suite: Suite, answers: Answers) -> str | None:
    """What is wrong with all blocks that are handed up wrongly, in at least two cases and never against it; None if nothing is."""
    pairs = []
    for name, found in answers.items():
        kept = suite.cases[name]
        for answer, meant, right in zip(found, kept.case.meant, kept.right):
            if answer is not None and answer.delivered is not None and right[0] == known_answers.MEANT:
                pairs.append((answer.delivered, meant))
    wrong = [(one, other) for one, other in pairs if one != other]
    if len(wrong) < 2:
        return None
    said = next((words for words, made in CHANGES.items() if all(one == made(other) for one, other in pairs)), None)
    places = {tuple(at for at, (x, y) in enumerate(zip(one, other)) if x != y) for one, other in pairs if len(one) == len(other)}
    if said or len(places) != 1 or not all(len(one) == len(other) for one, other in pairs):
        return said
    at = ", ".join(map(str, min(places)[:8])) + (", .." if len(min(places)) > 8 else "")
    return f"{'bit' if len(min(places)) == 1 else 'bits'} {at} inverted"
