"""The chain of TS 38.212, right: a method for each thing that a clause fixes. A mistake is a class that replaces one of
them (conform.encoder.mistakes), and two mistakes together are a class of both."""

from __future__ import annotations

import functools
import typing

from linksim_tools.common.graphs import FACTORS, GRAPHS, LARGEST, STARTS
from linksim_tools.conform import bits as lists
from linksim_tools.conform.case import Case, Plan, Row, scheduled

# The lifting sizes of Table 5.3.2-1 in ascending order, each with its set index.
SETS = dict(sorted((a << j, index) for index, a in enumerate(FACTORS) for j in range(8) if a << j <= 384))
SIZES = list(SETS)
KCB = {1: 8448, 2: 3840}

# The limits of 6.2.2 and 7.2.2 in bits and in 2048ths of R, and those of 5.2.2 for each Kb in bits.
GRAPH_LIMITS = {"small": 292, "middle": 3824, "low": 67 * 2048 // 100, "lowest": 2048 // 4}
COLUMN_LIMITS = {10: 640, 9: 560, 8: 192}


class Impossible(Exception):
    """A step cannot be made, for example if a mistake leads to no lifting size."""


def graph_of(limits: dict[str, int], a: int, rate2048: int) -> int:
    """The base graph of a block of A bits, by the limits of sizes and of code rates."""
    low = a <= limits["middle"] and rate2048 <= limits["low"]
    return 2 if a <= limits["small"] or low or rate2048 <= limits["lowest"] else 1


def kb_of(limits: dict[int, int], graph: int, b: int) -> int:
    """Kb of a block of B bits with its CRC, by the limits of each."""
    return 22 if graph == 1 else next((kb for kb, limit in limits.items() if b > limit), 6)


class Crc:
    """The CRCs of transport blocks and of code blocks (5.1, 6.2.1, 7.2.1)."""

    def crc_of_block(self, a: int) -> str:
        """Which CRC a transport block of A bits has."""
        return "CRC24A" if a > 3824 else "CRC16"

    def polynomial(self, name: str) -> tuple[int, int]:
        """The degree of a generator polynomial, and its other terms as a number."""
        return lists.POLYNOMIALS[name]

    def register(self, degree: int) -> int:
        """What the register has at the beginning."""
        return 0

    def crc(self, name: str, bits: str) -> str:
        """The parity bits of a list, the highest first."""
        degree, terms = self.polynomial(name)
        return f"{lists.remainder((degree, terms), bits, self.register(degree)):0{degree}b}"

    def attached(self, a: str) -> str:
        """A transport block with its CRC."""
        return a + self.crc(self.crc_of_block(len(a)), a)


class Segmentation:
    """The base graph (6.2.2, 7.2.2), and code block segmentation (5.2.2)."""

    def base_graph(self, a: int, rate2048: int) -> int:
        return graph_of(GRAPH_LIMITS, a, rate2048)

    def largest(self, graph: int) -> int:
        """Kcb."""
        return KCB[graph]

    def has_several(self, b: int, most: int) -> bool:
        """Whether there are several code blocks."""
        return b > most

    def code_crc_length(self, several: bool) -> int:
        """L."""
        return 24 if several else 0

    def count(self, b: int, most: int, l: int, several: bool) -> int:
        """C."""
        return max(-(-b // (most - l)), 2) if several else 1

    def bits_of_code_block(self, b: int, c: int, l: int) -> int:
        """K'. A mistake may leave bits over, if no whole number of code blocks takes all: they are lost."""
        return (b + c * l) // c

    def filled_columns(self, graph: int, a: int, b: int) -> int:
        """Kb."""
        return kb_of(COLUMN_LIMITS, graph, b)

    def lifting_size(self, graph: int, kb: int, kdash: int) -> int:
        """Zc; the largest one if a mistake makes K' too long for it."""
        return next((size for size in SIZES if kb * size >= kdash), SIZES[-1])

    def set_index(self, z: int) -> int:
        """The set index of a lifting size (Table 5.3.2-1)."""
        return SETS[z]

    def plan(self, graph: int, a: int, b: int, known: typing.Mapping[str, int]) -> Plan:
        """All numbers of segmentation; those that are known already are taken as they are."""
        found: dict[str, int] = {"a": a, "b": b, "graph": graph}

        def put(name: str, number: typing.Callable[[], int]) -> int:
            found[name] = known[name] if name in known else number()
            return found[name]

        most = self.largest(graph)
        several = self.has_several(b, most)
        l = put("l", lambda: self.code_crc_length(several))
        c = put("c", lambda: self.count(b, most, l, several))
        kdash = put("kdash", lambda: self.bits_of_code_block(b, c, l))
        kb = put("kb", lambda: self.filled_columns(graph, a, b))
        z = put("z", lambda: self.lifting_size(graph, kb, kdash))
        put("set", lambda: self.set_index(z))
        put("k", lambda: GRAPHS[graph].information * z)
        put("n", lambda: (GRAPHS[graph].columns - 2) * z)
        return Plan(**found)

    def first_bit(self, r: int, part: int) -> int:
        """Where the bits of code block r begin in the block with its CRC."""
        return r * part


class Coding:
    """LDPC coding (5.3.2)."""

    def value(self, value: int) -> int:
        """V of an entry, as it stands in the table."""
        return value

    def shift(self, value: int, z: int, largest: int) -> int | None:
        """P: by how much the identity matrix of an entry is shifted to the right; None if the entry is left out.
        `largest` is the largest lifting size of the set."""
        return value % z

    def read(self, rows: list[Row], graph: int, index: int) -> list[Row]:
        """The rows of the table as they are read for a set."""
        return rows

    def rows(self, rows: list[Row], graph: int, index: int, z: int) -> list[list[tuple[int, int]]]:
        """The columns of each row with their shifts."""
        shifted = [[(it, self.shift(self.value(values[index]), z, LARGEST[index])) for it, values in row] for row in rows]
        return [[(column, shift) for column, shift in row if shift is not None] for row in shifted]

    def odd_row(self, shifts: dict[int, int]) -> int:
        """Which of the rows 0 to 3 has the shift of the first parity column that has no equal."""
        found = list(shifts.values())
        return next((row for row, shift in shifts.items() if found.count(shift) % 2), 0)

    def core_rotation(self, shift: int, z: int) -> int:
        """By how much the sum of rows 0 to 3 is rotated to the left, if its shift is this one."""
        return -shift % z

    def core_columns_left_out(self, information: int) -> tuple[int, ...]:
        """Columns that rows 0 to 2 leave out."""
        return ()

    def columns_of_extension(self, information: int) -> int:
        """How many columns the rows from 4 on take."""
        return information + 4

    def filled(self, bits: str, fillers: str) -> str:
        """K places of a code block: its bits and its fillers, which are zeros where parity is computed."""
        return bits + fillers

    def sent_columns(self, word: str, plan: Plan) -> str:
        """d, of all columns of a codeword."""
        return word[2 * plan.z : 2 * plan.z + plan.n]


class Matching:
    """Rate matching (5.4.2) and concatenation (5.5)."""

    def reference(self, lbrm: int, c: int, count: int) -> int:
        """Nref, if `count` of C code blocks are scheduled."""
        return 3 * lbrm // (2 * c)

    def buffer_length(self, plan: Plan, length: int, lbrm: int | None, count: int) -> int:
        """Ncb, of a codeword of this length."""
        return length if lbrm is None else min(length, max(self.reference(lbrm, plan.c, count), 1))

    def starts(self, graph: int) -> tuple[tuple[int, ...], int]:
        """The numerators of Table 5.4.2.1-2 and their denominator."""
        return STARTS[graph]

    def start(self, plan: Plan, length: int, version: int) -> int:
        """k0 in a buffer of this length."""
        numerators, columns = self.starts(plan.graph)
        return numerators[version] * length // (columns * plan.z) * plan.z

    def scheduled(self, mask: str, c: int) -> list[int]:
        """The code blocks that are sent."""
        found = scheduled(mask, c)
        if not found:
            raise Impossible("no code block is scheduled")
        return found

    def unit(self, case: Case) -> int:
        """Of what E_r is a multiple."""
        return case.qm * case.nl

    def counted(self, c: int, scheduled: int) -> int:
        """C'."""
        return scheduled

    def shared_by(self, c: int, counted: int) -> int:
        """To how many code blocks G is shared out."""
        return counted

    def longer(self, case: Case, units: int, count: int, c: int) -> int:
        """How many code blocks are longer ones, if so many units are shared out to `count` of C."""
        return units % count

    def is_longer(self, j: int, r: int, counted: int, longer: int) -> bool:
        """Whether code block r, the j-th of C' scheduled ones, is a longer one, if `longer` of them are."""
        return j >= counted - longer

    def longer_length(self, least: int, rest: int) -> int:
        """How many units a longer one has, if the others have the least and so many are left over."""
        return least + 1

    def lengths(self, case: Case, c: int, chosen: list[int]) -> list[int]:
        """E of each code block."""
        unit, counted, found = self.unit(case), self.counted(c, len(chosen)), [0] * c
        units, count = case.g // unit, self.shared_by(c, counted)
        longer, (least, rest) = self.longer(case, units, count, c), divmod(units, count)
        for j, r in enumerate(chosen):
            found[r] = (self.longer_length(least, rest) if self.is_longer(j, r, counted, longer) else least) * unit
        return found

    def ring(self, d: str, length: int) -> str:
        """The circular buffer."""
        return d[:length]

    def turns(self, ring: str, first: int) -> tuple[str, str]:
        """The places that are read from k0 to the buffer's end, and those of each round after them."""
        return ring[first:], ring

    def selected(self, d: str, first: int, length: int, count: int) -> str:
        """e: `count` bits of d from place `first` on."""
        ring = self.ring(d, length)
        if not ring.replace(lists.FILLER, ""):
            raise Impossible("a buffer without a bit")
        head, turn = self.turns(ring, first % len(ring))
        begun, live = head.replace(lists.FILLER, ""), turn.replace(lists.FILLER, "")
        more = max(count - len(begun), 0)
        if more and not live:
            raise Impossible("a round without a bit")
        return begun[:count] + (live * -(-more // len(live)) if more else "")[:more]

    def interleaved(self, e: str, symbol: int) -> str:
        """f of a code block: rows of E / Qm bits, read by columns."""
        columns = len(e) // symbol
        f = bytearray(columns * symbol)
        octets = e.encode()
        for row in range(symbol):
            f[row::symbol] = octets[row * columns : (row + 1) * columns]
        return f.decode()

    def interleaved_all(self, e: list[str], symbol: int) -> list[str]:
        """f of all code blocks."""
        return [self.interleaved(it, symbol) for it in e]

    def joined(self, f: list[str]) -> str:
        """The bits that are sent."""
        return "".join(f)


class Clauses(Crc, Segmentation, Coding, Matching):
    """The whole chain."""

    def plan_of(self, a: int, rate2048: int) -> Plan:
        """The plan of a block of A bits."""
        return self.plan(self.base_graph(a, rate2048), a, a + self.polynomial(self.crc_of_block(a))[0], {})

    def told(self, case: Case, before: Case | None) -> Case:
        """What is taken of a case; `before` is the case that stands before it in the suite."""
        return case

    def code_block(self, before: list[str], part: str, plan: Plan, last: bool) -> str:
        """The K' bits of a code block (5.2.2), of those before it and of its bits of the block."""
        return part + self.crc("CRC24B", part) if plan.l else part

    def code_blocks(self, b: str, plan: Plan) -> list[str]:
        """The K' bits of each code block of a block with its CRC."""
        part = plan.kdash - plan.l
        blocks: list[str] = []
        for r in range(plan.c):
            first = self.first_bit(r, part)
            bits = b[first : first + part]
            if len(bits) < part:
                raise Impossible("fewer bits than the code blocks have")
            blocks.append(self.code_block(blocks, bits, plan, r == plan.c - 1))
        return blocks


@functools.lru_cache(maxsize=1)
def right() -> Clauses:
    """The chain with nothing wrong."""
    return Clauses()
