"""The mistakes of encoders that the checker knows, in the order of the chain, and the chains that make them. Those that are members
of a family are made by it."""

from __future__ import annotations

import functools
import typing

from linksim_tools.common.graphs import GRAPHS
from linksim_tools.conform import bits as lists
from linksim_tools.conform.case import STEPS, Row
from linksim_tools.conform.clauses import SIZES, Clauses, right
from linksim_tools.conform.encoder.families import after, crcs, instead, limits, numbers, orders
from linksim_tools.conform.mistake import Catalogue, Method, Mistake, class_of

CATALOGUE = Catalogue(STEPS, Clauses)
mistake = CATALOGUE.mistake
GRAPH, MATCHING, TABLE = "6.2.2, 7.2.2", "5.4.2.1", "Table 5.4.2.1-2"

# The CRCs (5.1, 6.2.1, 7.2.1).
mistake("crc", "crc-exchanged", "6.2.1, 7.2.1", "CRC16 and CRC24A are exchanged", "attach CRC24A where A > 3824, else CRC16",
        crc_of_block=lambda _self, right, a: {"CRC16": "CRC24A", "CRC24A": "CRC16"}[right(a)])
mistake("crc", "crc-by-b", "6.2.1, 7.2.1", "the CRC is chosen by B = A + 16 in place of A",
        "compare A, without the CRC, with 3824", family=limits.CRC.at({"a": 3824 - 16}))
mistake("crc", "crc-24a-24b", "5.1", "the polynomials of CRC24A and CRC24B are exchanged",
        "transport block: 0x864CFB; code block: 0x800063", ("codecrc",),
        polynomial=lambda _self, right, name: right({"CRC24A": "CRC24B", "CRC24B": "CRC24A"}.get(name, name)))
mistake("crc", "crc-preset", "5.1", "the register begins with ones", "begin with zeros", ("codecrc",),
        register=lambda _self, _right, degree: (1 << degree) - 1)
mistake("crc", "crc-inverted", "5.1", "the parity bits are inverted", "send the remainder as it is", ("codecrc",),
        family=orders.parity(lists.inverted))
mistake("crc", "crc-parity-lowest-first", "5.1", "the parity bits are sent lowest first",
        "send p_0, the highest, first", ("codecrc",), family=orders.parity(lists.backwards))
mistake("crc", "crc-octets-lowest-first", "5.1", "the CRC takes the lowest bit of each octet first",
        "take the bits in the order in which they are sent", ("codecrc",), family=crcs.over(crcs.EACH, lists.each_octet_reversed))
mistake("codecrc", "code-crc-zeros", "5.2.2", "zeros stand where the CRC24B of a code block belongs",
        "write its 24 parity bits there", family=crcs.of_some(lambda *_: True, crcs.PARITIES["zeros"]))
mistake("codecrc", "code-crc-over-fillers", "5.2.2", "the CRC24B of a code block goes over its fillers too",
        "take the K' - L bits alone", family=crcs.of_code_blocks(
            lambda self, _before, part, plan: self.crc("CRC24B", part + "0" * plan.fillers)))
mistake("codecrc", "crc-after-segmentation", "6.2.1, 5.2.2",
        "the CRC of the transport block goes over the CRC24Bs before it too", "take the A bits alone",
        code_block=lambda self, right, before, part, plan, last: right(
            before, part[:-24] + self.crc("CRC24A", "".join(before) + part[:-24]) if last and plan.l else part, plan, last))


def next_size(z: int) -> int:
    return SIZES[min(SIZES.index(z) + 1, len(SIZES) - 1)]


# The base graph (6.2.2, 7.2.2), and segmentation (5.2.2).
mistake("graph", "graph-by-size", GRAPH, "the base graph is chosen by A alone (2 where A <= 3824)",
        "compare the code rate too", family=limits.GRAPH.at({"small": 3824, "low": 0, "lowest": 0}))
mistake("graph", "graph-by-rate", GRAPH, "the base graph is chosen by the rate alone (2 where R <= 0.67)",
        "compare A with 292 and 3824 too", family=limits.GRAPH.at({"small": 0, "middle": limits.ALL}))
mistake("graph", "graph-by-b", GRAPH, "the base graph is chosen by B in place of A",
        "compare A, without the CRC, with 292 and 3824", family=limits.GRAPH.at({"small": 292 - 16, "middle": 3824 - 16}))
mistake("graph", "graph-3824-strict", GRAPH, "base graph 1 already at A = 3824", "base graph 2 where A <= 3824 and R <= 0.67",
        family=limits.GRAPH.at({"middle": 3824 - 1}))
mistake("graph", "graph-two-thirds", GRAPH, "the rate is compared with 2/3", "the limit is 0.67: 1372 of 2048 are below it",
        family=limits.GRAPH.at({"low": 2 * 2048 // 3}))
mistake("graph", "graph-quarter-strict", GRAPH, "base graph 1 already at R = 0.25", "base graph 2 where R <= 0.25",
        family=limits.GRAPH.at({"lowest": 512 - 1}))
mistake("graph", "graph-quarter-forgotten", GRAPH, "base graph 1 for every A > 3824", "base graph 2 where R <= 0.25, for every A",
        family=limits.GRAPH.at({"lowest": 0}))
mistake("segmentation", "segment-limit", "5.2.2", "two code blocks already at B = Kcb",
        "several code blocks only where B > Kcb", family=limits.several_before(1))
mistake("segmentation", "kcb-3840", "5.2.2", "Kcb is 3840 at base graph 1 too", "8448 at base graph 1", family=limits.kcb(1, 3840))
mistake("segmentation", "kb-10", "5.2.2", "Kb is 10 for every B at base graph 2", "Kb is 10, 9, 8 or 6, by B over 640, 560 and 192",
        family=limits.COLUMNS.at({10: 0}))
mistake("segmentation", "kb-limits", "5.2.2", "Kb is the larger one already at B = 640, 560 or 192",
        "the larger one only where B is over these", family=limits.COLUMNS.at({10: 640 - 1, 9: 560 - 1, 8: 192 - 1}))
mistake("segmentation", "kb-by-a", "5.2.2", "Kb is chosen by A in place of B", "compare B, with the CRC, with 640, 560 and 192",
        filled_columns=lambda _self, right, graph, a, *_: right(graph, a, a))
mistake("segmentation", "lifting-by-k", "5.2.2", "the least Zc with K >= K', as if Kb were 10", "the least Zc with Kb Zc >= K'",
        lifting_size=lambda _self, right, graph, _kb, kdash: right(graph, GRAPHS[graph].information, kdash))
mistake("segmentation", "lifting-next", "5.2.2", "the next larger lifting size", "the least Zc with Kb Zc >= K'",
        lifting_size=lambda _self, right, *given: next_size(right(*given)))
mistake("segmentation", "lifting-strict", "5.2.2", "the least Zc with Kb Zc > K'", "Kb Zc = K' is enough",
        lifting_size=lambda _self, right, graph, kb, kdash: right(graph, kb, kdash + 1))
mistake("segmentation", "set-next", "5.3.2", "the set index of the next lifting size",
        "the row of Table 5.3.2-1 that has Zc itself", set_index=lambda _self, right, z: right(next_size(z)))
mistake("segmentation", "set-rows", "Table 5.3.2-1", "the first two rows of the table are exchanged",
        "set 0: 2, 4, 8, ..; set 1: 3, 6, 12, ..", family=numbers.sets_exchanged(0, 1))
mistake("segmentation", "code-crc-left-out", "5.2.2", "several code blocks have no CRC of their own, and L = 0",
        "L = 24, and C = ceil(B / (Kcb - 24))", code_crc_length=lambda *_: 0)
mistake("segmentation", "code-crc-always", "5.2.2", "a single code block has a CRC24B too, and L = 24",
        "L = 0 where C = 1", code_crc_length=lambda *_: 24)
mistake("segmentation", "set-from-one", "Table 5.3.2-1", "the set index is counted from 1",
        "the row with 2, 4, 8, .. is set 0", set_index=lambda _self, right, z: (right(z) + 1) % 8)


def turned(_self: Clauses, right: Method, value: int, z: int, largest: int) -> int | None:
    """P to the other side."""
    shift = right(value, z, largest)
    return None if shift is None else -shift % z


def subtracted(value: int, z: int) -> int:
    """A value from which Zc is subtracted once, if it is not less."""
    return value - z if value >= z else value


def zero_dropped(_self: Clauses, right: Method, rows: list[Row], graph: int, index: int, z: int) -> typing.Any:
    """The rows without information entries of value 0."""
    first = GRAPHS[graph].information
    return right([[(it, values) for it, values in row if it >= first or values[index]] for row in rows], graph, index, z)


def one_more(_self: Clauses, right: Method, bits: str, fillers: str) -> typing.Any:
    """A filler in the place of the last bit, if there are fillers."""
    return right(bits[:-1] + lists.FILLER if fillers.startswith(lists.FILLER) else bits, fillers)


# LDPC coding (5.3.2).
mistake("ldpc", "shift-left", "5.3.2", "the identity matrix is shifted to the left",
        "bit t of a row takes bit (t + P) mod Zc of the column", shift=turned)
mistake("ldpc", "shift-unreduced", "5.3.2", "a value V >= Zc is not reduced, and its column is taken unshifted",
        "P = V mod Zc", shift=lambda _self, _right, value, z, *_: value if value < z else 0)
mistake("ldpc", "shift-lost", "5.3.2", "a value V >= Zc is not reduced, and shifts its column out: the entry gives zeros",
        "P = V mod Zc", shift=lambda _self, _right, value, z, *_: value if value <= z else None)
mistake("ldpc", "shift-subtracted-once", "5.3.2", "of a value V >= Zc Zc is subtracted once", "P = V mod Zc: subtract until P < Zc",
        shift=lambda _self, _right, value, z, *_: subtracted(value, z) if subtracted(value, z) < z else 0)
mistake("ldpc", "shift-subtracted-lost", "5.3.2",
        "of a value V >= Zc Zc is subtracted once, and what is still over Zc shifts the column out",
        "P = V mod Zc: subtract until P < Zc",
        shift=lambda _self, _right, value, z, *_: subtracted(value, z) if subtracted(value, z) <= z else None)
mistake("ldpc", "shift-capped", "5.3.2", "a value V >= Zc counts as Zc - 1", "P = V mod Zc",
        shift=lambda _self, _right, value, z, *_: min(value, z - 1))
mistake("ldpc", "shift-scaled", "5.3.2", "P is V Zc / Zmax, with the largest lifting size of the set", "P = V mod Zc",
        shift=lambda _self, _right, value, z, largest: value * z // largest % z)
mistake("ldpc", "shift-masked", "5.3.2", "P is V and Zc - 1, bit by bit", "P = V mod Zc: a mask is right for powers of two alone",
        shift=lambda _self, _right, value, z, *_: value & (z - 1))
mistake("ldpc", "shift-multiple-dropped", "5.3.2", "an entry whose value is a multiple of Zc (and not 0) is left out",
        "P = 0 is the identity matrix",
        shift=lambda _self, right, value, z, largest: None if value and value % z == 0 else right(value, z, largest))
mistake("ldpc", "shift-zero-dropped", "5.3.2", "an information entry of value 0 is left out",
        "only a place that is not in the table is the zero matrix", rows=zero_dropped)
mistake("ldpc", "fillers-one", "5.3.2", "fillers are ones where parity is computed", "they count as zeros",
        filled=lambda _self, right, bits, fillers: right(bits, fillers.replace("0", "1")))
mistake("ldpc", "fillers-first", "5.2.2, 5.3.2", "the fillers stand before the bits of a code block",
        "they are the places K' to K - 1", filled=lambda _self, _right, bits, fillers: fillers + bits)
mistake("ldpc", "fillers-sent", "5.3.2", "fillers are sent as zeros", "d has NULL there, and selection skips them",
        filled=lambda _self, right, bits, fillers: right(bits, fillers.replace(lists.FILLER, "0")))
mistake("ldpc", "fillers-one-fewer", "5.3.2", "the first filler is sent as a zero", "the places K' to K - 1 are fillers",
        filled=lambda _self, right, bits, fillers: right(bits, fillers.replace(lists.FILLER, "0", 1)))
mistake("ldpc", "fillers-one-more", "5.3.2", "the last bit of a code block is left out as a filler, where it has fillers",
        "the places K' to K - 1 are fillers", filled=one_more)
mistake("ldpc", "punctured-sent", "5.3.2", "the first 2 Zc bits are part of d, which has N + 2 Zc bits",
        "d_0 is bit 2 Zc of the code block", ("buffer",), sent_columns=lambda _self, _right, word, *_: word)
mistake("ldpc", "punctured-kept", "5.3.2", "d begins with the first bit of the code block, and has N bits",
        "d_0 is bit 2 Zc of the code block", sent_columns=lambda _self, _right, word, plan: word[: plan.n])
mistake("ldpc", "core-first-forgotten", "5.3.2", "rows 0 to 2 are solved without the first parity column",
        "add its entries in these rows too", core_columns_left_out=lambda _self, _right, information: (information,))
mistake("ldpc", "extension-information-alone", "5.3.2", "rows from 4 on take information columns alone",
        "add the first four parity columns where the table has entries there",
        columns_of_extension=lambda _self, _right, information: information)
mistake("ldpc", "core-unrotated", "5.3.2", "the first parity column is the sum of rows 0 to 3, not rotated back",
        "rotate it to the right by its odd P", core_rotation=lambda *_: 0)
mistake("ldpc", "core-forward", "5.3.2", "the first parity column is rotated to the left by its odd P",
        "rotate it to the right", core_rotation=lambda _self, _right, shift, *_: shift)
mistake("ldpc", "core-first", "5.3.2", "the first parity column is rotated by the P of row 0",
        "rotate it by that P of its three which has no equal", odd_row=lambda *_: 0)


# Rate matching (5.4.2.1): the buffer, k0 and E_r.
mistake("buffer", "ncb-no-factor", MATCHING, "Nref lacks the factor R_LBRM = 2/3: TBS_LBRM / C",
        "Nref = floor(TBS_LBRM / (C 2/3))", reference=lambda _self, _right, lbrm, c, *_: lbrm // c)
mistake("buffer", "ncb-times-factor", MATCHING, "Nref is multiplied by 2/3", "divide: Nref = floor(3 TBS_LBRM / (2 C))",
        reference=lambda _self, _right, lbrm, c, *_: 2 * lbrm // (3 * c))
mistake("buffer", "ncb-floor-early", MATCHING, "TBS_LBRM / C is rounded down before it is divided by 2/3",
        "round down once, at the end", reference=lambda _self, _right, lbrm, c, *_: 3 * (lbrm // c) // 2)
mistake("buffer", "ncb-no-c", MATCHING, "Nref is not divided by C", "Nref = floor(3 TBS_LBRM / (2 C))",
        reference=lambda _self, right, lbrm, *_: right(lbrm, 1, 1))
mistake("buffer", "ncb-scheduled", MATCHING, "Nref is divided by the number of scheduled code blocks",
        "divide by C, all code blocks", family=instead("reference", numbers.REFERENCES["1.5 TBS_LBRM / C'"]))
mistake("buffer", "ncb-ignored", MATCHING, "the limit of the buffer is ignored: Ncb = N", "Ncb = min(N, Nref)",
        buffer_length=lambda _self, _right, _plan, length, *_: length)
mistake("buffer", "k0-from-n", TABLE, "k0 is taken from N", "take it from Ncb",
        start=lambda _self, right, plan, _length, version: right(plan, plan.n, version))
mistake("buffer", "k0-no-floor", TABLE, "k0 is no multiple of Zc", "round down before you multiply by Zc",
        family=numbers.begun(numbers.BEGINS["floor(number Ncb / columns)"]))
mistake("buffer", "k0-other-graph", TABLE, "k0 is that of the other base graph",
        "17, 33, 56 of 66 at base graph 1; 13, 25, 43 of 50 at 2", starts=lambda _self, right, graph: right(3 - graph))
mistake("buffer", "k0-shifted", TABLE, "k0 is 2 Zc too large", "d_0 already is bit 2 Zc of the code block",
        family=after("start", numbers.OF_PLAN["2 Zc too large"]))
mistake("buffer", "k0-in-word", TABLE, "k0 is 2 Zc too small, where it is not 0",
        "k0 counts bits of d, which begins after the first 2 Zc", family=after("start", numbers.OF_PLAN["2 Zc too small"]))
mistake("buffer", "rv-order", TABLE, "the redundancy versions are taken in the order 0, 2, 3, 1",
        "the order is the scheduler's; rv is the number", family=numbers.versions((0, 2, 3, 1)))
mistake("lengths", "lengths-longer-first", MATCHING, "the longer code blocks come first",
        "the first C' - mod(G / (NL Qm), C') are the shorter ones", family=numbers.composed(["the longer ones come first"]))
mistake("lengths", "lengths-j-strict", MATCHING, "one code block fewer is a shorter one: j < is asked for j <=",
        "j <= C' - mod(G / (NL Qm), C') - 1", family=numbers.composed(["one more is longer", "the longer length is the ceiling"]))
mistake("lengths", "lengths-no-layers", MATCHING, "E_r is a multiple of Qm alone", "share out G / (NL Qm)",
        family=numbers.composed(["the unit is Qm"]))
mistake("lengths", "lengths-count-all", MATCHING, "G is shared out to all C code blocks",
        "C' is the number of scheduled ones", counted=lambda _self, _right, c, _scheduled: c)
mistake("lengths", "lengths-by-number", MATCHING, "j is the number r of the code block",
        "j counts scheduled code blocks alone", family=numbers.composed(["j is the number r"]))
mistake("lengths", "mask-ignored", MATCHING, "code blocks are sent that are not scheduled", "E_r = 0 there",
        scheduled=lambda _self, right, _mask, c: right("all", c))


def counted(self: Clauses, d: str, first: int, length: int, count: int) -> str:
    """e whose fillers are skipped and counted: it is shorter by as many as were met."""
    ring = self.ring(d, length)
    first %= len(ring)
    places = ring[first:] + ring[:first]
    return (places * -(-count // len(places)))[:count].replace(lists.FILLER, "")


def one_round(self: Clauses, right: Method, d: str, first: int, length: int, count: int) -> typing.Any:
    """e of at most one round of the buffer."""
    return right(d, first, length, min(count, len(self.ring(d, length).replace(lists.FILLER, ""))))


def over_all(self: Clauses, _right: Method, e: list[str], symbol: int) -> list[str]:
    """f of all code blocks, interleaved as one."""
    return lists.parted(self.interleaved("".join(e), symbol), map(len, e))


def last_octet(change: typing.Callable[[str], str]) -> Method:
    """The bits that are sent, with the last octet changed where it is not whole."""
    def joined(_self: Clauses, right: Method, f: list[str]) -> str:
        sent = right(f)
        whole = len(sent) // 8 * 8
        return str(sent[:whole] + change(sent[whole:]))

    return joined


# Bit selection (5.4.2.1), interleaving (5.4.2.2) and concatenation (5.5).
mistake("selection", "fillers-counted", MATCHING, "fillers are skipped but counted, and zeros end e",
        "k goes on only where a bit was taken", selected=lambda self, _right, *given: counted(self, *given).ljust(given[-1], "0"))
mistake("selection", "fillers-counted-short", MATCHING, "fillers are skipped but counted, and e is shorter",
        "k goes on only where a bit was taken", selected=lambda self, _right, *given: counted(self, *given))
mistake("selection", "fillers-after-wrap", MATCHING, "fillers are sent as zeros past the buffer's end", "skip them in every round",
        turns=lambda _self, right, *given: (right(*given)[0], right(*given)[1].replace(lists.FILLER, "0")))
mistake("selection", "wrapped-at-n", MATCHING, "the buffer wraps round at N", "it wraps round at Ncb",
        ring=lambda _self, _right, d, *_: d)
mistake("selection", "wrapped-early", MATCHING, "the last place of the buffer is never read",
        "the places are 0 to Ncb - 1: (k0 + j) mod Ncb", ring=lambda _self, right, d, length: right(d, max(length - 1, 1)))
mistake("selection", "wrapped-late", MATCHING, "one place past the end of a limited buffer is read",
        "the places are 0 to Ncb - 1: (k0 + j) mod Ncb", ring=lambda _self, right, d, length: right(d, length + 1))
mistake("selection", "wrapped-late-zero", MATCHING, "one place past the buffer's end is read, and is 0 after d",
        "the places are 0 to Ncb - 1: (k0 + j) mod Ncb", ring=lambda _self, right, d, length: right(d + "0", length + 1))
mistake("selection", "wrapped-late-empty", MATCHING, "one place past the buffer's end is read, and is 0 there",
        "the places are 0 to Ncb - 1: (k0 + j) mod Ncb", ring=lambda _self, right, d, length: right(d, length) + "0")
mistake("selection", "wrapped-to-k0", MATCHING, "past the buffer's end k0 follows again",
        "place 0 follows: (k0 + j) mod Ncb", turns=lambda _self, right, *given: right(*given)[:1] * 2)
mistake("selection", "one-round", MATCHING, "zeros are sent after one round of the buffer", "go round until there are E bits",
        selected=lambda self, right, *given: one_round(self, right, *given).ljust(given[-1], "0"))
mistake("selection", "one-round-short", MATCHING, "nothing is sent after one round of the buffer",
        "go round until there are E bits", selected=one_round)
mistake("interleaving", "interleaver-transposed", "5.4.2.2", "the interleaver's inverse", "f_(i + j Qm) = e_(i E / Qm + j)",
        interleaved=lambda _self, _right, e, symbol: "".join(e[row::symbol] for row in range(symbol)))
mistake("interleaving", "interleaver-by-columns", "5.4.2.2", "written by columns and read by columns, e stays as it is",
        "write it by rows: Qm rows of E / Qm bits", interleaved=lambda _self, _right, e, *_: e)
mistake("interleaving", "interleaver-symbol-reversed", "5.4.2.2", "the bits of each symbol are in reverse", "row 0 is read first",
        family=orders.in_symbols(dict(orders.SYMBOLS)["in reverse"]))
mistake("interleaving", "interleaver-over-all", "5.4.2.2, 5.5", "one interleaver goes over all code blocks together",
        "interleave each code block, then join them", interleaved_all=over_all)
mistake("concatenation", "last-octet-reversed", "5.5", "the bits of the last octet are in reverse where it is not whole",
        "the first bit of an octet is its highest, also in the last one", joined=last_octet(lambda last: last[::-1]))
mistake("concatenation", "last-octet-right-aligned", "5.5",
        "the bits of the last octet stand at its low end where it is not whole: zeros come first",
        "the first bit of an octet is its highest, also in the last one",
        joined=last_octet(lambda last: last.rjust(8, "0")[: len(last)]))


MISTAKES: dict[str, Mistake] = CATALOGUE.ordered()


@functools.lru_cache(maxsize=8192)
def clauses_of(wrong: typing.FrozenSet[Mistake]) -> Clauses:
    made: Clauses = class_of(wrong, Clauses)() if wrong else right()
    return made
