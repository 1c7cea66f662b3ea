"""What received values fix, by elimination over GF(2): the parity rows and the CRCs as linear equations. A decoder may find
more than peeling does, and is right if nothing else is consistent with what was received."""

from __future__ import annotations

import typing

from linksim_tools.conform import bits as lists
from linksim_tools.conform.receiver import peeling
from linksim_tools.conform.receiver.chain import Receiver

if typing.TYPE_CHECKING:
    from linksim_tools.conform.receiver.steps import Sizes, Tables
    from linksim_tools.conform.receiver.reception import Answer, Arrival, Case

# With more unknown bits than these nothing is asked: the pattern is no one's that decodes more.
MOST = 12_000


class Equations:
    """Equations as numbers, each with its right side in the lowest bit, by their highest unknown."""

    def __init__(self) -> None:
        self.by_highest: dict[int, int] = {}
        self.are_consistent = True

    def reduced(self, equation: int) -> int:
        """An equation without the unknowns that others determine, as far as its highest one is such."""
        while equation > 1 and equation.bit_length() in self.by_highest:
            equation ^= self.by_highest[equation.bit_length()]
        return equation

    def add(self, equation: int) -> None:
        rest = self.reduced(equation)
        if rest > 1:
            self.by_highest[rest.bit_length()] = rest
        elif rest:
            self.are_consistent = False


class Solution:
    """What the values of all code blocks of a block fix together after a transmission that was taken."""

    def __init__(self, receiver: Receiver, told: Arrival) -> None:
        self.sizes = sizes = receiver.sizes(told, told)
        self.equations, self.unknown, rows = Equations(), 0, receiver.rows(sizes)
        peelers = [peeling.peeled(rows, len(rows.rows), *receiver.columns(sizes, told, soft))
                   for soft in receiver.processes[told.process].soft or []]
        # The bits of each codeword in an equation: an unknown, or its value.
        self.terms = [[self.term(left >> bit & 1, ones >> bit & 1) for left, ones in zip(it.unknown, it.ones)
                       for bit in reversed(range(sizes.z))] for it in peelers]
        if self.unknown <= MOST:
            for terms, it in zip(self.terms, peelers):
                self.add_rows(terms, it)
            self.add_crcs()

    def term(self, is_unknown: int, value: int) -> int:
        """A bit in an equation, which is a new unknown or known."""
        self.unknown += is_unknown
        return 1 << min(self.unknown, MOST) if is_unknown else value

    def add_rows(self, terms: list[int], found: peeling.Peeler) -> None:
        z = found.rows.z
        for row in found.rows.rows:
            left = 0
            for column, shift in row:
                left |= found.unknown[column] << shift | found.unknown[column] >> (z - shift)
            for bit in ones_of(left & found.most):
                total = 0
                for column, shift in row:
                    total ^= terms[(column + 1) * z - 1 - (bit - shift) % z]
                self.equations.add(total)

    def add_crcs(self) -> None:
        of, block = self.sizes, [it for info in self.infos for it in info[: self.sizes.kdash - self.sizes.l]]
        for info in self.infos if of.l else ():
            self.add_crc("CRC24B", info)
        self.add_crc("CRC24A" if of.a > 3824 else "CRC16", block[: of.b])

    @property
    def infos(self) -> list[list[int]]:
        """The information bits of each code block in equations."""
        return [terms[self.sizes.info.start :][: self.sizes.kdash] for terms in self.terms]

    def add_crc(self, name: str, terms: list[int]) -> None:
        """That a list with its parity bits leaves no remainder."""
        degree, polynomial = lists.POLYNOMIALS[name]
        sums, power = [0] * degree, 1
        for it in reversed(terms):
            for bit in ones_of(power) if it else ():
                sums[bit] ^= it
            power = (power << 1) ^ (1 << degree | polynomial if power >> (degree - 1) else 0)
        for total in sums:
            self.equations.add(total)

    def fixed(self) -> list[str] | None:
        """The information bits of all code blocks, `?` where they are not fixed; None if none is consistent or too much open."""
        if self.unknown > MOST or not self.equations.are_consistent:
            return None
        rests = [[self.equations.reduced(it) for it in info] for info in self.infos]
        return ["".join("?" if it > 1 else str(it) for it in info) for info in rests]


def ones_of(number: int) -> typing.Iterator[int]:
    """The places of the ones of a number."""
    while number:
        yield number.bit_length() - 1
        number ^= 1 << (number.bit_length() - 1)


def block_of(sizes: Sizes, infos: list[str] | None) -> str | None:
    """The only block that is consistent; None if there are several or none."""
    block = "".join(it[: sizes.kdash - sizes.l] for it in infos or ["?"])[: sizes.a]
    return None if "?" in block else block


def pairs_of(answer: Answer, right: Answer) -> typing.Iterator[tuple[str, str]]:
    """What was answered beside what peeling finds, bit by bit: `?` is not known, and `0` of `passed` is no decision."""
    yield (answer.delivered or "?", right.delivered or "?")
    yield from zip((answer.passed or "").replace("0", "?"), (right.passed or "").replace("0", "?"))
    for text, other in zip(answer.info or (), right.info or ()):
        yield from zip(text, other)


def accepted(tables: Tables, case: Case, answers: typing.Sequence[Answer | None]) -> list[bool]:
    """After which transmissions something is answered that peeling leaves undecided, all of which is fixed. A block that was so
    delivered may be kept."""
    receiver, found = Receiver(tables), []
    kept: dict[int, str] = {}
    for told, right, answer in zip(case.arrivals, receiver.answers(case), answers):
        if told.fresh:
            kept.pop(told.process, None)
        pairs = [] if answer is None else [it for it in pairs_of(answer, right) if it[0] != it[1]]
        found.append(bool(pairs) and all(other == "?" for _, other in pairs))
        if answer is None or not found[-1] or answer.delivered and answer.delivered == kept.get(told.process):
            continue
        infos = Solution(receiver, told).fixed()
        found[-1] = infos is not None and is_fixed(answer, infos, block_of(receiver.sizes(told, told), infos))
        if found[-1] and answer.delivered:
            kept[told.process] = answer.delivered
    return found


def is_fixed(answer: Answer, infos: list[str], block: str | None) -> bool:
    """Whether all that is answered is fixed, with these information bits and this block."""
    passed = all(digit == "0" or "?" not in info for digit, info in zip(answer.passed or "", infos))
    known = all(one in ("?", fixed) for text, info in zip(answer.info or (), infos) for one, fixed in zip(text, info))
    return answer.delivered in (None, block) and passed and known
