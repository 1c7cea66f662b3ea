"""What is seen of the codewords of a case: which bits of each column were answered, and which of these differ. And which rows of a
base graph and which bits of a column are wrong, over all cases."""

from __future__ import annotations

import dataclasses
import typing

from linksim_tools.common.graphs import GRAPHS
from linksim_tools.conform import bits as lists
from linksim_tools.conform.case import STEPS, Plan, Tables
from linksim_tools.conform.clauses import Impossible, right
from linksim_tools.conform.code import TablesKey, columns_of, encoder_of, rotated
from linksim_tools.conform.encoder.judging import NOTHING, Made, Trial
from linksim_tools.conform.encoder.points import Facts

# How many code blocks are looked at, of how many bits, how many rows are named, and how many shifts.
MOST, BITS, NAMED, SHIFTS = 160, 1 << 18, 8, 5
# In fewer bits, or of fewer ones, a row with two wrong shifts or in reverse may look like a row with another shift. Others may by
# chance, but no more than one of so many.
FEW_BITS, FEW_ONES, SOME = 16, 5, 20

# How many code blocks of each size are looked at. A size tells a value by its residue alone, so all sizes of a set are wanted.
EACH = 3

# How an encoder may read the information bits of which it computes the parity bits.
READ: dict[str, typing.Callable[[str], str]] = {
    "in reverse": lambda it: it[::-1], "inverted": lambda it: it.translate({48: 49, 49: 48}),
    "with each octet in reverse": lambda it: "".join(it[at : at + 8][::-1] for at in range(0, len(it), 8))}


@dataclasses.dataclass(frozen=True)
class Seen:
    """A code block: its right columns as numbers, and of each column which bits were answered and which of these are
    wrong."""

    plan: Plan
    columns: list[int]
    known: list[int]
    wrong: list[int]

    @property
    def information(self) -> int:
        return GRAPHS[self.plan.graph].information

    @property
    def whole(self) -> int:
        """A column whose bits are all known."""
        return (1 << self.plan.z) - 1

    @property
    def bad(self) -> list[int]:
        """The columns with a wrong bit."""
        return [column for column, it in enumerate(self.wrong) if it]


def selected_bits(step: str, trial: Trial, made: Made) -> list[str] | None:
    """e of each code block, of what was answered in a step; None if its lengths are wrong."""
    answer, lengths, found, qm = trial.answer, made.of("E"), trial.answer.e, trial.case.qm
    if step != "selection":
        f = answer.f if step == "interleaving" else lists.parted(answer.sent or "", lengths)
        # The interleaver's inverse (5.4.2.2).
        found = ["".join(it[row::qm] for row in range(qm)) for it in f or []]
    if step == "concatenation" and len(answer.sent or "") > sum(lengths):
        return None
    return found if found and [len(it) for it in found] == lengths else None


def marked(d: str, answered: str, places: typing.Iterable[int]) -> tuple[str, str]:
    """Digits for the bits of d: ones for those that were answered at these places in turn, and for those that are wrong."""
    known, wrong = ["0"] * len(d), ["0"] * len(d)
    for place, bit in zip(places, answered):
        known[place], wrong[place] = "1", "01"[bit != d[place]]
    return "".join(known), "".join(wrong)


def seen_in(step: str, trial: Trial) -> typing.Iterator[Seen]:
    """The code blocks of a trial, as far as they were answered in a step."""
    made = Made(trial, NOTHING)
    try:
        plan, words, bits = made.of("plan"), made.made("d"), made.of("bits")
        if step == "ldpc":
            marks = [marked(d, it, range(len(d))) for d, it in zip(words, trial.answer.d or []) if len(d) == len(it)]
        else:
            parts = selected_bits(step, trial, made)
            first, length = made.of("k0"), made.of("Ncb")
            if not 0 <= first < length <= min(map(len, words)):
                return
            ring = [*range(first, length), *range(first)]
            marks = [marked(d, e, (at for at in ring if d[at] != lists.FILLER)) for d, e in zip(words, parts or [])]
    except Impossible:
        return
    for both, d, info in zip(marks, words, bits) if len(marks) == len(words) else ():
        word = (info + "0" * plan.fillers)[: 2 * plan.z] + d.replace(lists.FILLER, "0")
        if len(word) == GRAPHS[plan.graph].columns * plan.z:
            known, wrong = (columns_of("0" * 2 * plan.z + it, plan.z) for it in both)
            yield Seen(plan, columns_of(word, plan.z), known, wrong)


def are_few(kept: list[Seen], z: int) -> bool:
    """Whether another code block of this size is looked at."""
    return sum(it.plan.z == z for it in kept) < EACH


def groups_of(step: str, failing: list[Trial], passing: list[Trial]) -> dict[tuple[int, int], list[list[Seen]]]:
    """The code blocks that differ and those that agree, by base graph and set index, if some differ."""
    found: dict[tuple[int, int], list[list[Seen]]] = {}
    for trials in (failing, passing):
        for trial in trials:
            if trial.right.plan.c * len(trial.right.d[0]) > 1 << 20:
                continue
            key, z = (trial.right.plan.graph, trial.right.plan.set), trial.right.plan.z
            kept = found.get(key, [[], []])[0 if trials is failing else 1]
            if not are_few(kept, z) or key not in found and trials is passing:
                continue
            for seen in seen_in(step, trial):
                # What was answered counts: it may be another base graph than the right one.
                kept = found.setdefault((seen.plan.graph, seen.plan.set), [[], []])[0 if seen.bad else 1]
                if are_few(kept, z):
                    kept.append(seen)
            trial.forget()
    return {key: groups for key, groups in found.items() if groups[0]}


def named(numbers: list[int], last: int) -> str:
    """Rows in words: each, all from one on, all of a range."""
    first, end = numbers[0], numbers[-1]
    if len(numbers) > 2 and numbers == [*range(first, end + 1)]:
        return f"rows from {first} on" if end == last else f"rows {first} to {end}"
    said = ", ".join(map(str, numbers))
    return "" if len(numbers) > NAMED else f"rows {said}" if len(numbers) > 1 else f"row {said}"


def of_bits(seen: list[Seen]) -> str:
    """Words for the bits of columns that are wrong."""
    wrong = [(t, it.plan.z) for it in seen for column in it.bad
             for t, bit in enumerate(f"{it.wrong[column]:0{it.plan.z}b}") if bit == "1"]
    if not wrong:
        return ""
    if all(t == z - 1 for t, z in wrong):
        return "only the last bit t = Zc - 1 of columns is wrong"
    if all(t == 0 for t, _ in wrong):
        return "only the first bit t = 0 of columns is wrong"
    least = min(t for t, _ in wrong)
    if least >= 32 and any(it.plan.z > 2 * least or it.plan.z - least > 16 for it in seen):
        return f"only bits from t = {least} on of columns are wrong"
    for width in (8, 16, 32, 64):
        if 2 * sum(z >= width for _, z in wrong) > len(wrong) and all(t >= z // width * width for t, z in wrong):
            return f"only bits after the last multiple of {width} of columns are wrong"
    return ""


def of_rows(seen: list[Seen]) -> typing.Iterator[str]:
    """Words for the rows that are wrong, by base graph, if no other column is, and whether none of them is right elsewhere."""
    for graph in GRAPHS:
        those = [it for it in seen if it.plan.graph == graph]
        bad = {column - it.information for it in those for column in it.bad}
        good = {column - it.information for it in those for column, known in enumerate(it.known)
                if known == it.whole and not it.wrong[column] and it.columns[column]}
        words = named(sorted(bad), GRAPHS[graph].rows - 1) if bad and min(bad) >= 4 else ""
        words = f"column {GRAPHS[graph].information + min(bad)}" if len(bad) == 1 and min(bad) < 4 else words
        if words:
            always = "" if bad & good else ", and always"
            yield f"only {words} of base graph {graph} {'are' if words.startswith('rows') else 'is'} wrong{always}"


def of_columns(seen: list[Seen]) -> typing.Iterator[str]:
    """Words for wrong columns that are other right columns, or that are rotated by as much in all code blocks."""
    places: dict[tuple[int, int], set[int]] = {}
    turns: set[int] = set()
    for it in seen:
        for column in (column for column in it.bad if it.known[column] == it.whole and column >= 2):
            found, key = it.columns[column] ^ it.wrong[column], (it.plan.graph, column)
            own, z = it.columns[column], it.plan.z
            turns.add(next((by for by in range(z) if own and rotated(own, z - by, z) == found), -1))
            same = {other for other, right in enumerate(it.columns) if right == found and right}
            places[key] = places.get(key, same) & same
    moved = {key: min(others) for key, others in places.items() if others}
    if places and len(moved) == len(places):
        steps = {other - column for (_, column), other in moved.items()}
        said = [f"column {column} of base graph {graph} is the right column {it}" for (graph, column), it in moved.items()]
        each = f"each wrong column j of the codeword is the right column j {min(steps):+d}"
        yield each if len(steps) == 1 else "; ".join(said[:SHIFTS])
    elif len(turns) == 1 and -1 not in turns:
        yield f"each wrong column is the right one rotated by {min(turns)} to the right"


def of_shifts(seen: list[Seen], tables: Tables) -> typing.Iterator[str]:
    """The shifts that were used, where one entry of a row of the extension has another one, with what was answered as its input."""
    found: dict[tuple[int, int, int], set[int]] = {}
    tried = fitted = 0
    for it in seen:
        z, index = it.plan.z, it.plan.set
        columns = [one ^ wrong for one, wrong in zip(it.columns, it.wrong)]
        for own, entries in enumerate(tables[it.plan.graph][4:], it.information + 4):
            inputs = [(columns[other], values[index]) for other, values in entries if other != own]
            rest = columns[own]
            for column, value in inputs:
                rest ^= rotated(column, value % z, z)
            needed = (own, *(other for other, _ in entries if other > 1))
            if bin(rest).count("1") < FEW_ONES or z < FEW_BITS or any(it.known[other] != it.whole for other in needed):
                continue
            fitting = {(value, used) for column, value in inputs for used in range(z)
                       if rest == rotated(column, value % z, z) ^ rotated(column, used, z)}
            tried += 1
            if len(fitting) == 1:
                (value, used), = fitting
                fitted += 1
                found.setdefault((value, z, value % z), set()).add(used)
    if SOME * fitted > tried and all(len(used) == 1 for used in found.values()):
        said = [f"V = {value}, Zc = {z}: P = {right}, used is {min(used)}" for (value, z, right), used in sorted(found.items())]
        yield "shifts that were used: " + "; ".join(said[:SHIFTS]) + ("; .." if len(said) > SHIFTS else "")


def of_input(seen: list[Seen], tables: TablesKey) -> typing.Iterator[str]:
    """Words for parity bits that are right for the information bits, read in another way, if enough are wrong and they alone."""
    def fits(it: Seen, read: typing.Callable[[str], str]) -> bool:
        plan, first = it.plan, it.information
        info = "".join(f"{column:0{plan.z}b}" for column in it.columns[:first])[: plan.kdash]
        made = encoder_of(right(), tables, plan.graph, plan.z, plan.set).columns(read(info).ljust(plan.k, "0"))
        pairs = zip(it.columns[first:], it.wrong[first:], it.known[first:], made[first:])
        return not any((own ^ wrong ^ other) & known for own, wrong, known, other in pairs)

    few = seen[:SOME]
    is_parity = all(min(it.bad) >= it.information and it.plan.graph in tables.tables for it in few)
    if is_parity and sum(f"{wrong:b}".count("1") for it in few for wrong in it.wrong) >= FEW_BITS:
        yield from (f"the wrong parity bits are those of the information bits {words}" for words, read in READ.items()
                    if all(fits(it, read) for it in few))


def of_single_ones(failing: list[Trial], passing: list[Trial]) -> typing.Iterator[str]:
    """Words for the columns in which a block's single one makes it fail, if few do."""
    for graph in GRAPHS:
        bad, good = ({Facts(it.case).column for it in trials if it.right.plan.graph == graph} - {None}
                     for trials in (failing, passing))
        if 0 < len(bad) <= NAMED and len(good) > NAMED and not bad & good:
            columns = " or ".join(map(str, sorted(it for it in bad if it is not None)))
            yield f"blocks with a single 1 at base graph {graph} fail if it is in column {columns}"


def lines(step: str, failing: list[Trial], passing: list[Trial]) -> list[str]:
    """What is told of rows and of bits of columns."""
    if not any("ldpc" in failing[0].span(field) for field in STEPS[step][1]):
        return []
    bad: list[Seen] = []
    good: list[Seen] = []
    for trials, kept in ((failing, bad), (passing, good)):
        for trial in trials:
            if len(kept) < MOST and trial.right.plan.c * trial.right.plan.n < BITS:
                kept += [it for it in seen_in(step, trial) if it.bad or trials is passing]
                trial.forget()
    told = [*of_rows([*bad, *good]), of_bits(bad), *of_columns(bad), *of_shifts(bad, failing[0].tables.tables),
            *of_input(bad, failing[0].tables), *of_single_ones(failing, passing)]
    return [words for words in told if words]
