"""The first difference of an answer in a step, in the terms of its clause."""

from __future__ import annotations

import dataclasses
import typing

from linksim_tools.common.graphs import GRAPHS
from linksim_tools.conform import bits as lists
from linksim_tools.conform.case import NAMES, STEPS, Plan
from linksim_tools.conform.clauses import Impossible
from linksim_tools.conform.encoder import displacement
from linksim_tools.conform.encoder.displacement import first_place
from linksim_tools.conform.encoder.judging import NOTHING, Trial, same

# How many entries of a row are shown.
SHOWN = 24

# How many bits are shown around the first that differs.
AROUND = 32


def listed(items: typing.Iterable[object], between: str) -> str:
    """Items in words, the first of many."""
    words = [*map(str, items)]
    return between.join([*words[:SHOWN], ".."] if len(words) > SHOWN else words)


def beside(found: str, right: str, place: int) -> list[str]:
    """The bits around a place, as they were answered and as they are right, under each other with a mark."""
    first = max(place - AROUND // 2, 0) // 8 * 8
    both = [text[first : first + AROUND] for text in (found, right)]
    marks = "".join(" ^"[one != two] for one, two in zip(*both)).rstrip()
    words = [" ".join(text[at : at + 8] for at in range(0, len(text), 8)) for text in (*both, marks)]
    head = f"from bit {first} on: "
    return [f"{head}yours {words[0]}", f"{' ' * len(head)}right {words[1]}", f"{' ' * len(head)}      {words[2]}".rstrip()]


@dataclasses.dataclass(frozen=True)
class Spot:
    """A place of d of a code block."""

    r: int
    place: int


class Difference:
    """The first difference of a case in a step, in words."""

    def __init__(self, trial: Trial, step: str) -> None:
        self.trial, self.case, self.right, self.answer, self.step = trial, trial.case, trial.right, trial.answer, step
        self.tables, self.plan = trial.tables.tables, self.right.plan
        self.z, self.information = self.plan.z, GRAPHS[self.plan.graph].information
        self.around: list[str] = []

    def spot(self) -> Spot | None:
        """Where the first difference stands among the bits of d of its code block; None if it is in none."""
        field = {"ldpc": "d", "selection": "e", "interleaving": "f", "concatenation": "sent"}.get(self.step)
        if field is None or getattr(self.answer, field) is None or self.plan.c != len(self.right.d):
            return None
        found, right = getattr(self.answer, field), getattr(self.right, field)
        if field == "sent":
            found, right = [found], ["".join(self.right.f)]
        r = next((r for r, (one, two) in enumerate(zip(found, right)) if one != two), 0)
        place = first_place(found[r], right[r])
        if not 0 <= place < len(right[r]):
            return None
        if field == "sent":
            r, place = self.in_f(place)
        if field in ("f", "sent"):
            place = self.in_e(r, place)
        return Spot(r, place if field == "d" else self.in_d(r, place)[0])

    def in_f(self, place: int) -> tuple[int, int]:
        """The code block of a bit that is sent, and its place in f there."""
        for r, part in enumerate(self.right.f):
            if place < len(part):
                break
            place -= len(part)
        return r, place

    def in_e(self, r: int, place: int) -> int:
        """The place in e from which a bit of f comes."""
        j, i = divmod(place, self.case.qm)
        return i * (len(self.right.e[r]) // self.case.qm) + j

    def in_d(self, r: int, place: int) -> tuple[int, int, bool]:
        """The place in d from which a bit of e comes, the round of the buffer, and whether it is the first place of a round."""
        d, length, first = self.right.d[r], self.right.Ncb, self.right.k0
        ring = [at % length for at in range(first, first + length)]
        places = [at for at in ring if d[at] != lists.FILLER]
        turn, at = divmod(place, len(places))
        return places[at], turn + 1, places[at] == min(places)

    def expected(self, field: str) -> typing.Any:
        """What is right under a name, of what was answered before it."""
        try:
            return self.trial.made(field, NOTHING)
        except Impossible:
            return getattr(self.right, field)

    def lines(self) -> list[str]:
        fields = self.trial.answered(STEPS[self.step][1])
        field = next((it for it in fields if not same(it, getattr(self.answer, it), self.expected(it))), fields[0])
        found, right = getattr(self.answer, field), self.expected(field)
        lines: list[str] = [*getattr(self, f"of_{field}")(found, right), *self.around]
        if right != getattr(self.right, field):
            lines.append("what was answered of the steps before it is taken as its input")
        return lines

    def of_graph(self, found: int, right: int) -> list[str]:
        case = self.case
        return [f"base graph {found}, right is {right}: A = {len(case.a)}, R = {case.rate2048} / 2048 (6.2.2, 7.2.2)"]

    def of_plan(self, found: dict[str, int], right: Plan) -> list[str]:
        numbers = dataclasses.asdict(right)
        wrong = {name: it for name, it in found.items() if numbers[name] != it}
        return [f"{NAMES[name]} is {it}, right is {numbers[name]} (5.2.2, 5.3.2)" for name, it in wrong.items()]

    def of_Ncb(self, found: int, right: int) -> list[str]:
        limit = "no limit" if self.case.lbrm is None else f"TBS_LBRM = {self.case.lbrm}"
        return [f"Ncb is {found}, right is {right}: N = {self.plan.n}, {limit}, C = {self.plan.c} (5.4.2.1)"]

    def of_k0(self, found: int, right: int) -> list[str]:
        case = f"rv = {self.case.rv}, Ncb = {self.right.Ncb}, Zc = {self.z}"
        return [f"k0 is {found}, right is {right}: {case} (Table 5.4.2.1-2)"]

    def of_E(self, found: list[int], right: list[int]) -> list[str]:
        if len(found) != len(right):
            return [f"E of {len(found)} code blocks, right is C = {len(right)} (5.2.2)"]
        r = first_place(found, right)
        case = self.case
        return [f"E of code block r = {r} is {found[r]}, right is {right[r]} (5.4.2.1)",
                f"G = {case.g}, NL = {case.nl}, Qm = {case.qm}, sent are {case.mask} of C = {self.plan.c} code blocks",
                f"E given {listed(found, ', ')}, right {listed(right, ', ')}"]

    def bit(self, found: str, right: str, what: str) -> tuple[str, int | None]:
        """The line of a first differing bit, and its place, or None if one list ends there. A list that is too short or
        too long is told by its length."""
        place = first_place(found, right)
        self.around = beside(found, right, place)
        if len(found) != len(right):
            line = f"{what}: {len(found)} bits, right are {len(right)}; the first {place} agree"
            return line, place if place < min(len(found), len(right)) else None
        words = {"0": "0", "1": "1", lists.FILLER: "a filler"}
        return f"{what}: bit {place} is {words[found[place]]}, right is {words[right[place]]}", place

    def of_blocks(self, found: list[str], right: list[str], name: str,
                  explain: typing.Callable[[int, int], list[str]]) -> list[str]:
        """The first difference of lists of all code blocks; `explain` has more words for a place of code block r."""
        if len(found) != len(right):
            return [f"{name} of {len(found)} code blocks, right is C = {len(right)} (5.2.2)"]
        r = first_place(found, right)
        line, place = self.bit(found[r], right[r], f"{name} of code block r = {r}")
        others = [(f"code block r = {it}", other) for it, other in enumerate(right)]
        # A column that is rotated reads as a shift of bits, and is none.
        more = [] if name == "d" else displacement.lines(found[r], right[r], others)
        return [line, *(explain(r, place) if place is not None else []), *more]

    def of_attached(self, found: str, right: str) -> list[str]:
        line, place = self.bit(found, right, "b, the block with its CRC")
        if place is None:
            return [line + " (6.2.1, 7.2.1)", *displacement.lines(found, right, [])]
        a = self.plan.a
        part = f"bit a_{place} of the block itself" if place < a else f"parity bit p_{place - a} of {len(right) - a}"
        return [f"{line}: {part} (5.1)"]

    def of_bits(self, found: list[str], right: list[str]) -> list[str]:
        part = self.plan.kdash - self.plan.l
        return self.of_blocks(found, right, "the bits", lambda r, place: [
            f"it is parity bit p_{place - part} of the code block's CRC24B (5.1, 5.2.2)" if place >= part else
            f"it is bit b_{r * part + place} of the block with its CRC (5.2.2)"])

    def position(self, n: int) -> list[str]:
        """Lines on bit n of d: its column, and the rows that fix it."""
        column, t = divmod(n + 2 * self.z, self.z)
        words, place = f"column j = {column}, bit t = {t} of Zc = {self.z}", column - self.information
        if place < 0:
            return [f"{words}: " + ("a filler" if n + 2 * self.z >= self.plan.kdash else f"bit {n + 2 * self.z} of the code block")]
        rows = [*range(4)] if place == 0 else [place - 1 if place < 4 else place]
        name = "the sum of rows 0 to 3" if place == 0 else f"row {rows[0]}"
        return [f"{words}; {name} fixes it (5.3.2)", *map(self.row, rows)]

    def row(self, row: int) -> str:
        """The entries of a row with their shifts."""
        index = self.plan.set
        entries = (f"{column}:{values[index] % self.z}" for column, values in self.tables[self.plan.graph][row])
        return f"row {row}, set {index}, column:P = {listed(entries, ' ')}"

    def of_d(self, found: list[str], right: list[str]) -> list[str]:
        return self.of_blocks(found, right, "d", lambda _r, place: ["it is " + self.position(place)[0], *self.position(place)[1:]])

    def from_d(self, r: int, j: int) -> str:
        """Words for the place from which e_j comes."""
        n, turn, is_first = self.in_d(r, j)
        said = (f", in round {turn}" if turn > 1 else "") + (", the first place after the wrap" if is_first and j else "")
        return f"e_{j} is d_{n}{said} (k0 = {self.right.k0}, Ncb = {self.right.Ncb}; 5.4.2.1): {self.position(n)[0]}"

    def of_e(self, found: list[str], right: list[str]) -> list[str]:
        return self.of_blocks(found, right, "e", lambda r, place: [self.from_d(r, place)])

    def from_e(self, r: int, m: int) -> list[str]:
        """Words for the place of f of a code block."""
        symbol, e = self.case.qm, self.in_e(r, m)
        text = f"symbol {m // symbol}, bit {m % symbol} of Qm = {symbol}: f_{m} is e_{e} "
        return [f"{text}(E / Qm = {len(self.right.e[r]) // symbol}; 5.4.2.2)", self.from_d(r, e)]

    def of_f(self, found: list[str], right: list[str]) -> list[str]:
        return self.of_blocks(found, right, "f", self.from_e)

    def of_sent(self, found: str, right: str) -> list[str]:
        line, place = self.bit(found, right, "the bits sent")
        more = displacement.lines(found, right, [])
        if place is None:
            return [line + " (5.5)", *more]
        if place >= sum(map(len, self.right.f)):
            return [line, *more]
        r, m = self.in_f(place)
        return [line, f"it is f_{m} of code block r = {r} (5.5)", *self.from_e(r, m), *more]
