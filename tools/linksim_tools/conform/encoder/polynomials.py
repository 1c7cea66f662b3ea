"""How the parity bits that an encoder answers were made (5.1): by which generator polynomial, from which register, in
which order. The polynomial is the greatest common divisor of the blocks with their parity bits."""

from __future__ import annotations

import dataclasses
import functools
import itertools
import typing

from linksim_tools.conform import bits as lists
from linksim_tools.conform.case import STEPS, Plan
from linksim_tools.conform.clauses import Clauses, Impossible, right
from linksim_tools.conform.encoder.judging import NOTHING, Made, Trial
from linksim_tools.conform.encoder.observations import seen_in
from linksim_tools.conform.mistake import Mistake

# How many blocks are taken at most, of how many bits, and how many must agree in what was found.
BLOCKS, BITS, AGREE = 24, 9000, 3

# A list of bits with the parity bits after it.
Block = typing.Tuple[str, str]


# Orders of the bits that a register takes, and of the parity bits, each with words.
INPUTS: dict[str, lists.Order] = {"": str, "the bits of each octet go in lowest first": lists.each_octet_reversed,
                                  "the bits go in backwards": lists.backwards}
OUTPUTS: dict[str, lists.Order] = {"": str, "the parity bits are sent lowest first": lists.backwards,
                                   "the octets of the parity bits are sent lowest first": lists.octets_backwards,
                                   "the parity bits of each octet are sent lowest first": lists.each_octet_reversed}


def modulo(one: int, other: int) -> int:
    """The remainder of polynomials over GF(2)."""
    length = other.bit_length()
    while one.bit_length() >= length:
        one ^= other << (one.bit_length() - length)
    return one


def common_divisor(one: int, other: int) -> int:
    while other:
        one, other = other, modulo(one, other)
    return one


@dataclasses.dataclass(frozen=True)
class Way:
    """How parity bits are made. It has the polynomial with its highest term, what the register begins with and what is
    added to the parity bits. It also has the words of both orders."""

    polynomial: int
    register: int = 0
    added: int = 0
    taken: str = ""
    sent: str = ""

    @property
    def degree(self) -> int:
        return self.polynomial.bit_length() - 1

    def parity(self, bits: str) -> str:
        degree = self.degree
        terms = self.polynomial ^ 1 << degree
        number = lists.remainder((degree, terms), INPUTS[self.taken](bits), self.register) ^ self.added
        return OUTPUTS[self.sent](f"{number:0{degree}b}")

    def words(self, name: str, right: int) -> str:
        """What differs from the right way, in words."""
        digits = -(-self.degree // 4)
        said = [it for it in (self.taken, self.sent) if it]
        if self.polynomial != right:
            low, wanted = (it ^ 1 << self.degree for it in (self.polynomial, right))
            said.insert(0, f"the generator polynomial is 0x{low:0{digits}x} in place of 0x{wanted:0{digits}x}")
        if self.register:
            said.append(f"the register begins with 0x{self.register:0{digits}x} in place of 0")
        if self.added:
            said.append(f"0x{self.added:0{digits}x} is added to the parity bits")
        return f"{name}: " + ", ".join(said)


def begin_of(rest: int, count: int, polynomial: int) -> int:
    """What the register began with: what times D to `count` gives this remainder."""
    for _ in range(count):
        rest = (rest ^ polynomial if rest & 1 else rest) >> 1
    return rest


def way_of(blocks: list[Block], degree: int, right: int) -> Way | None:
    """The way that makes the parity bits of all these blocks; None if none is found."""
    for taken, sent in itertools.product(INPUTS, OUTPUTS):
        values = [(INPUTS[taken](bits), int(OUTPUTS[sent](parity), 2)) for bits, parity in blocks]
        numbers = [int(bits or "0", 2) << degree ^ parity for bits, parity in values]
        found = functools.reduce(common_divisor, sorted(numbers))
        if found.bit_length() - 1 == degree:
            return Way(found, 0, 0, taken, sent)
        rests = [modulo(number, right) for number in numbers]
        if len(set(rests)) == 1:
            return Way(right, 0, rests[0], taken, sent)
        begun = {begin_of(rest, len(bits), right) for rest, (bits, _) in zip(rests, values)}
        if len(begun) == 1:
            return Way(right, begun.pop(), 0, taken, sent)
    return None


def crc_of(plan: Plan, in_blocks: bool) -> str:
    """The name of the CRC of code blocks, if they have one, or of the transport block."""
    return "CRC24B" if plan.l and in_blocks else right().crc_of_block(plan.a)


def of_answer(step: str, trial: Trial) -> typing.Iterator[tuple[str, Block]]:
    """The blocks of a trial with their parity bits as they were answered, each with the name of its CRC."""
    plan, answer = trial.right.plan, trial.answer
    if step == "crc" and answer.attached is not None:
        yield crc_of(plan, False), (trial.case.a, answer.attached[plan.a :])
    for bits in answer.bits or [] if step == "codecrc" and plan.l else []:
        yield "CRC24B", (bits[: -plan.l], bits[-plan.l :])


def of_bits(step: str, trial: Trial) -> typing.Iterator[tuple[str, Block]]:
    """The same of what was answered after coding: the bits of the information columns that are seen."""
    plan = trial.right.plan
    count = plan.l or plan.b - plan.a
    for seen in seen_in(step, trial):
        text = "".join(f"{bits ^ wrong:0{plan.z}b}" for bits, wrong in zip(seen.columns, seen.wrong))[: plan.kdash]
        known = "".join(f"{it:0{plan.z}b}" for it in seen.known)[: plan.kdash]
        if not known[-count:].strip("1"):
            yield crc_of(plan, True), (text[:-count] if plan.l else trial.case.a, text[-count:])


def ways(step: str, trials: list[Trial]) -> dict[str, Way]:
    """How the parity bits of each CRC were made, if it is not the right way."""
    blocks: dict[str, list[Block]] = {}
    for trial in trials:
        there = blocks.get(crc_of(trial.right.plan, step != "crc"), [])
        if len(trial.case.a) > 8 * BITS or len(there) >= 2 * BLOCKS:
            continue
        try:
            Made(trial, NOTHING).of("plan")
            for name, block in (of_answer if step in ("crc", "codecrc") else of_bits)(step, trial):
                degree, _ = lists.POLYNOMIALS[name]
                if len(block[0]) <= BITS and len(block[1]) == degree and not (block[0] + block[1]).strip("01"):
                    blocks.setdefault(name, []).append(block)
        except Impossible:
            pass
        trial.forget()
    found = {}
    for name, listed in blocks.items():
        degree, terms = lists.POLYNOMIALS[name]
        distinct = sorted(set(listed), key=lambda it: len(it[0]))[:BLOCKS]
        way = way_of(distinct, degree, terms | 1 << degree) if len(distinct) >= AGREE else None
        if way and way != Way(terms | 1 << degree):
            found[name] = way
    return found


def found(step: str, failing: list[Trial], passing: list[Trial]) -> typing.Iterator[Mistake]:
    """A mistake of the CRCs that may give a step."""
    spans = frozenset().union(*(failing[0].span(field) for field in STEPS[step][1]))
    made = {} if spans.isdisjoint({"crc", "codecrc"}) else ways(step, [*failing, *passing])
    if not made:
        return

    class Wrong(Clauses):
        def crc(self, name: str, bits: str) -> str:
            return made[name].parity(bits) if name in made else super().crc(name, bits)

    said = [way.words(name, 1 << way.degree | lists.POLYNOMIALS[name][1]) for name, way in sorted(made.items())]
    first, *also = ["codecrc"] if set(made) == {"CRC24B"} else ["crc"] + ["codecrc"] * ("CRC24B" in made)
    change = "5.1: 0x1021, 0x864cfb, 0x800063; from zeros, the highest first"
    yield Mistake("polynomial", first, tuple(also), "5.1", "; ".join(said), change, Wrong)
