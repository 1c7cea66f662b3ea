"""What is told of a step that no known mistake gives: numbers that stand for others, and bits that are shifted."""

from __future__ import annotations

import functools
import itertools
import math
import typing

from linksim_tools.conform.case import NAMES
from linksim_tools.conform.clauses import Clauses, Impossible
from linksim_tools.conform.conditions import NUMBERS
from linksim_tools.conform.encoder import displacement
from linksim_tools.conform.encoder.judging import NOTHING, Made, Trial, Trials
from linksim_tools.conform.encoder.observations import selected_bits
from linksim_tools.conform.encoder.points import Facts
from linksim_tools.conform.encoder.polynomials import of_answer

# How many numbers are told that stand for others, in how many of a hundred cases a shift must be the same, and the least number of
# bits of a word of which several may be missing.
OTHERS, MOST, LEAST_WORD = 4, 50, 16
# The lists of bits that each step answers, by their names.
LISTS = {"crc": ("attached", "the block with its CRC"), "codecrc": ("bits", "the bits"), "ldpc": ("d", "d"),
         "selection": ("e", "e"), "interleaving": ("f", "f"), "concatenation": ("sent", "the bits sent")}


def exchanged(name: str, pairs: typing.Iterable[tuple[int, int]]) -> list[str]:
    """A line if the same number always stands for another one."""
    found = sorted(set(pairs))
    if not found or len(found) > OTHERS or len({right for right, _ in found}) < len(found):
        return []
    return [f"{name} is " + ", ".join(f"{answered} in place of {right}" for right, answered in found)]


def of_graph(trials: list[Trial]) -> list[str]:
    """The base graph."""
    there = [(trial, trial.answer.graph) for trial in trials]
    return exchanged(NAMES["graph"], [(trial.made("graph", NOTHING), it) for trial, it in there if it is not None])


def of_plan(trials: list[Trial]) -> list[str]:
    """The first number of the plan that differs."""
    for name, words in NAMES.items():
        pairs = [(getattr(trial.made("plan", NOTHING), name), (trial.answer.plan or {}).get(name)) for trial in trials]
        differing = [(right, answered) for right, answered in pairs if answered is not None and answered != right]
        if differing:
            return exchanged(words, differing) or [f"{words} is the first number of the plan that differs, in each case that fails"]
    return []


def of_k0(trials: list[Trial]) -> list[str]:
    """k0 in columns, if it is whole columns."""
    found = [(trial.made("k0", NOTHING), trial.answer.k0, trial.right.plan.z) for trial in trials]
    if any(answered is None or answered % z or right % z for right, answered, z in found):
        return []
    return exchanged("k0 / Zc", [(right // z, (answered or 0) // z) for right, answered, z in found if answered != right])


# What may be said of E of all code blocks, of those that were answered and of the right ones.
LENGTHS: tuple[tuple[str, typing.Callable[[list[int], list[int]], bool]], ...] = (
    ("of the code blocks stands in reverse", lambda one, two: one == two[::-1]),
    ("has the right numbers, at other code blocks", lambda one, two: sorted(one) == sorted(two)),
    ("has the right lengths, of which others are the longer ones", lambda one, two: set(one) <= set(two)),
    ("adds up to less than is right", lambda one, two: sum(one) < sum(two)),
    ("adds up to more than is right", lambda one, two: sum(one) > sum(two)),
)


def of_lengths(trials: list[Trial]) -> list[str]:
    """E of each code block, if it is that of others."""
    pairs = [(trial.answer.E or [], trial.made("E", NOTHING)) for trial in trials]
    return next(([f"E {said}"] for said, is_so in LENGTHS if all(is_so(*pair) for pair in pairs)), [])


def parts_of(value: typing.Any) -> list[str]:
    """What is answered by code block, or a list that all have together."""
    return [value] if isinstance(value, str) else list(value or [])


def lists_of(step: str, trial: Trial) -> list[tuple[str, list[str], list[str]]]:
    """Lists of bits of a trial as they were answered and as they are right, each with its name."""
    field, name = LISTS[step]
    found = [(name, parts_of(getattr(trial.answer, field)), parts_of(trial.made(field, NOTHING)))]
    e = selected_bits(step, trial, Made(trial, NOTHING)) if step in ("interleaving", "concatenation") else None
    return [*found, ("e", e, trial.made("e", NOTHING))] if e else found


def of_bits(step: str, trial: Trial, old: list[str]) -> typing.Iterator[tuple[str, displacement.Shift | str | None]]:
    """Words for the bits of a trial, and their shift, for each of its lists that says something; `old` was answered to the case
    before."""
    for name, answered, right in lists_of(step, trial):
        moved = displacement.order(answered, right) if len(right) > 1 else ""
        r = next((r for r, (one, two) in enumerate(zip(answered, right)) if one != two), None)
        if moved:
            yield f"{name}: the parts of code blocks stand in another order", moved
        if moved or r is None:
            continue
        before = [("the case before", "".join(old[r : r + 1])), *([("the code block before", answered[r - 1])] if r else [])]
        words, shift = displacement.former_words(before, answered[r], right[r]), displacement.shift_of(answered[r], right[r])
        if shift and not words:
            yield f"{name} {shift.missing}", shift
            continue
        others = [(f"code block {r}", it) for r, it in enumerate(right)] if len(right) > 1 else []
        words = words or displacement.other_words(answered[r], right[r], others)
        if words:
            yield f"{name}: {words}", None


def of_shifts(step: str, trials: list[Trial], all_trials: Trials) -> list[str]:
    """What most cases have of shifted or former bits."""
    found: dict[str, list[displacement.Shift | str | None]] = {}
    for trial in trials:
        before = all_trials.by_name.get(trial.before.id) if trial.before else None
        for words, moved in of_bits(step, trial, parts_of(getattr(before.answer, LISTS[step][0])) if before else []):
            found.setdefault(words, []).append(moved)
        trial.forget()
    if not found:
        return []
    words, shifts = max(found.items(), key=lambda it: len(it[1]))
    if 100 * len(shifts) < MOST * len(trials):
        return in_words([it for moved in found.values() for it in moved if isinstance(it, displacement.Shift)], len(trials))
    there = [it for it in shifts if isinstance(it, displacement.Shift)]
    if isinstance(shifts[0], str):
        words += f", in the smallest case {shifts[0]}"
    if there:
        words = words.rpartition(" ")[0] + ": " + there[0].words(max(it.first for it in there), min(it.last for it in there))
    return [f"{words} (in {len(shifts)} of {len(trials)} that fail)"]


def differing(step: str, trials: list[Trial]) -> typing.Iterator[tuple[Trial, str, str]]:
    """Each list of bits of a step that differs, as it was answered and as it is right, with its trial."""
    for trial in trials:
        _, answered, right = lists_of(step, trial)[0]
        yield from ((trial, one, two) for one, two in zip(answered, right) if one != two)
        trial.forget()


def of_sequence(step: str, trials: list[Trial]) -> list[str]:
    """A line if one sequence is added to the right bits in all cases."""
    added = [f"{int(one, 2) ^ int(two, 2):0{len(two)}b}" for _, one, two in differing(step, trials)
             if len(one) == len(two) and "-" not in one + two]
    longest = max(added, key=len, default="")
    if len(added) < 3 or longest.count("1") < 2 or not all(longest.startswith(it) for it in added):
        return []
    return [f"the same sequence is added to the right bits in all {len(added)} lists: it begins {longest[:48]}"]


def of_parity(step: str, trials: list[Trial]) -> list[str]:
    """A line if parity bits of a CRC never change, or are rotated."""
    parities: dict[int, list[tuple[str, str]]] = {}
    for name, (bits, parity) in itertools.chain.from_iterable(of_answer(step, trial) for trial in trials):
        parities.setdefault(len(parity), []).append((parity, Clauses().crc(name, bits)))
    found = []
    for length, listed in parities.items():
        fixed = [f"p_{at} = {listed[0][0][at]}" for at in range(length) if len({it[at] for it, _ in listed}) == 1]
        turned = [by for by in range(1, length) if all(it == wanted[by:] + wanted[:by] for it, wanted in listed)]
        if len(listed) >= 6 and fixed:
            said = ", ".join(fixed[:8]) + (", .." if len(fixed) > 8 else "")
            found.append(f"parity bits of the CRC of {length} bits that never change: {said}")
        elif len(listed) > 1 and turned:
            found.append(f"the parity bits of the CRC of {length} bits are rotated by {turned[0]} to the left")
    return found


def of_places(step: str, trials: list[Trial]) -> list[str]:
    """A line if only the last bits differ, or only bits at places that have the same remainder by a word."""
    found = [(len(two), [at for at, (bit, other) in enumerate(zip(one, two)) if bit != other])
             for _, one, two in differing(step, trials) if len(one) == len(two)]
    if len(found) > 2 and all(places == [length - 1] for length, places in found):
        return ["only the last bit of each list differs"]
    for width in (64, 32, 16, 8):
        rests = [at % width for _, places in found for at in places]
        if len(rests) > width and len(set(rests)) == 1:
            return [f"only bits at places that are {rests[0]} modulo {width} differ"]
    return []


def of_counts(step: str, trials: list[Trial]) -> list[str]:
    """A line if the number of bits that are missing or too many is a number of the case modulo a word."""
    found = [(Facts(trial.case), len(two) - len(one)) for trial, one, two in differing(step, trials) if len(one) != len(two)]
    if len(found) < 3:
        return []
    first = found[0][1]
    kind = "missing" if first > 0 else "too many"
    if len({by for _, by in found}) == 1:
        return [f"{displacement.count(abs(first))} {kind} in each list that differs"]
    for width, name in itertools.product((8, 16, 32, 64), ("B", "K'", "G")):
        if all(abs(by) == NUMBERS[name](facts) % width and by * first > 0 for facts, by in found):
            return [f"mod({name}, {width}) bits are {kind} in each list that differs"]
    return []


def in_words(shifts: list[displacement.Shift], count: int) -> list[str]:
    """What shifts by different numbers of bits have in common: these are whole words."""
    by = [it.missing for it in shifts]
    width = functools.reduce(math.gcd, by, 0)
    if 100 * len(by) < MOST * count or min(by) < 0 < max(by):
        return []
    said = "varying numbers of bits are" if width < LEAST_WORD or width & (width - 1) else f"a multiple of {width} bits is"
    return [f"{said} {'missing' if by[0] > 0 else 'too many'} (in {len(by)} of {count} that fail)"]


def lines(step: str, trials: list[Trial], all_trials: Trials) -> list[str]:
    """What is told of the failing cases of a step."""
    told = {"graph": of_graph, "segmentation": of_plan, "buffer": of_k0, "lengths": of_lengths}.get(step)
    try:
        if told:
            return told(trials)
        moved = of_shifts(step, trials, all_trials)
        return of_sequence(step, trials) or [*of_parity(step, trials), *moved, *of_counts(step, trials), *of_places(step, trials)]
    except Impossible:
        return []
