"""The CRCs over other bits, from another register, or of some code blocks alone."""

from __future__ import annotations

import typing

from linksim_tools.conform import bits as lists
from linksim_tools.conform.case import Plan
from linksim_tools.conform.clauses import Clauses
from linksim_tools.conform.encoder.families import Steps, mistake
from linksim_tools.conform.mistake import Method, Methods, Mistake

# The CRCs by whose they are: the steps that have them, words, and their names.
EACH = tuple(lists.POLYNOMIALS)
KINDS: tuple[tuple[Steps, str, tuple[str, ...]], ...] = (
    (("crc",), "the CRC of the transport block", ("CRC16", "CRC24A")), (("codecrc",), "the CRC of a code block", ("CRC24B",)),
    (("crc", "codecrc"), "each CRC", EACH),
)

# Which bits a CRC may take.
RANGES: tuple[tuple[str, lists.Order], ...] = (
    *((f"begins after {n} bits", lambda it, n=n: it[n:]) for n in (1, 2, 4, 8, 16, 24, 32, 64)),
    *((f"ends {n} bits early", lambda it, n=n: it[:-n]) for n in (1, 2, 4, 8, 16, 24, 32, 64)),
    *((f"takes {n} zeros more", lambda it, n=n: it + "0" * n) for n in (1, 8, 16, 24, 32)),
    *((f"takes zeros up to a multiple of {n} bits", lambda it, n=n: it + "0" * (-len(it) % n)) for n in (8, 16, 32, 64, 128)),
    *((f"takes ones up to a multiple of {n} bits", lambda it, n=n: it + "1" * (-len(it) % n)) for n in (8, 16, 32, 64)),
    *((f"leaves out what is no multiple of {n} bits", lambda it, n=n: it[: len(it) // n * n]) for n in (8, 16, 32, 64, 128)),
    ("goes over the bits in reverse", lists.backwards), ("goes over inverted bits", lists.inverted),
    ("goes over the first half of the bits", lambda it: it[: len(it) // 2]),
)

# Parity bits of some code blocks, of the right ones; and which code blocks, by r and C.
PARITIES: dict[str, lists.Order] = {
    "zeros": lambda it: "0" * len(it), "ones": lambda it: "1" * len(it), "inverted": lists.inverted, "in reverse": lists.backwards,
    "those of CRC24A": str
}
Which = typing.Callable[[int, int], bool]
WHICH: tuple[tuple[str, Which], ...] = (
    ("r = 0", lambda r, c: r == 0), ("r > 0", lambda r, c: r > 0), ("the last code block", lambda r, c: r == c - 1),
    ("all code blocks but the last", lambda r, c: r < c - 1), ("odd r", lambda r, c: r % 2 == 1),
    ("even r", lambda r, c: r % 2 == 0), ("r > 1", lambda r, c: r > 1),
)


def over(names: tuple[str, ...], taken: lists.Order) -> Methods:
    """CRCs of these names over other bits."""
    return {"crc": lambda _self, right, name, bits: right(name, taken(bits) if name in names else bits)}


def of_code_blocks(parity: typing.Callable[[Clauses, list[str], str, Plan], str | None]) -> Methods:
    """Other parity bits of code blocks, of those before, of a code block's bits and the plan; None if they are the right ones."""
    def code_block(self: Clauses, right: Method, before: list[str], part: str, plan: Plan, last: bool) -> str:
        found = parity(self, before, part, plan) if plan.l else None
        return str(right(before, part, plan, last) if found is None else part + found)

    return {"code_block": code_block}


def of_some(which: Which, parity: lists.Order = str, other: str = "CRC24B", taken: lists.Order = str) -> Methods:
    """Other parity bits for some code blocks, or those of other bits."""
    return of_code_blocks(lambda self, before, part, plan: (
        parity(self.crc(other, taken(part))) if which(len(before), plan.c) else None))


def from_before(place: int) -> Methods:
    """The register of a code block begins with what the one before it left there, or the first one."""
    return of_code_blocks(lambda _self, before, part, _plan: (
        f"{lists.remainder(lists.POLYNOMIALS['CRC24B'], part, int(before[place][-24:], 2)):024b}" if before else None))


def without_zeros(names: tuple[str, ...]) -> Methods:
    """The remainder of the bits themselves, without the L zeros after them."""
    def crc(self: Clauses, right: Method, name: str, bits: str) -> typing.Any:
        degree, _ = self.polynomial(name)
        if name not in names:
            return right(name, bits)
        if len(bits) < degree:
            return bits.rjust(degree, "0")
        # What is left of the first bits is added to the last ones.
        return f"{int(right(name, bits[:-degree]), 2) ^ int(bits[-degree:], 2):0{degree}b}"

    return {"crc": crc}


def mistakes() -> typing.Iterator[Mistake]:
    for steps, whose, names in KINDS[:2]:
        yield mistake("crc-range", steps, f"{whose} is the remainder of its bits without L zeros after them",
                      "divide the bits times D^L", without_zeros(names))
    right = "over all bits before the parity bits, and no others"
    for words, taken in RANGES:
        yield from (mistake("crc-range", steps, f"{whose} {words}", right, over(names, taken)) for steps, whose, names in KINDS)
    for which, test in WHICH:
        for words, parity in PARITIES.items():
            other = "CRC24A" if words == "those of CRC24A" else "CRC24B"
            yield mistake("code-crc", "codecrc", f"the parity bits of {which} are {words}", "each code block has its CRC24B",
                          of_some(test, parity, other))
        for said, taken in RANGES:
            yield mistake("code-crc", "codecrc", f"the CRC of {which} {said}", right, of_some(test, taken=taken))
    zeros = "the register begins with zeros for each code block"
    for which, place in (("the code block before", -1), ("r = 0", 0)):
        said = f"the register begins with the parity bits of {which}"
        yield mistake("code-crc", "codecrc", said, zeros, from_before(place))
    yield mistake("code-crc", "codecrc", "the CRC goes over the bits of all code blocks before it too", zeros, of_code_blocks(
        lambda self, before, part, plan: self.crc("CRC24B", "".join(it[: -plan.l] for it in before) + part)))
