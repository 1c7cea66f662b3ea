"""Codewords, as far as published vectors show them: files of DPDK's test-bbdev for encoders, and lines of plain words."""

from __future__ import annotations

import dataclasses
import re
import typing

from linksim_tools.common import files
from linksim_tools.common.graphs import GRAPHS
from linksim_tools.common.message import shown
from linksim_tools.common.program import Failed
from linksim_tools.conform import answer_lines
from linksim_tools.conform import bits as lists
from linksim_tools.conform.case import Plan
from linksim_tools.conform.clauses import SETS, Impossible, right
from linksim_tools.conform.code import columns_of

# The first of the characters that stand for the places of d while they are selected.
FIRST = 0x10000
FLAG = "RTE_BBDEV_LDPC_"


@dataclasses.dataclass(frozen=True)
class Word:
    """A codeword: where it comes from, its base graph and lifting size, and of each column the bits, its first one highest, and
    which of them are known."""

    name: str
    graph: int
    z: int
    columns: list[int]
    known: list[int]


def word(name: str, graph: int, z: int, c: str, sent: typing.Iterable[tuple[int, str]]) -> Word:
    """The codeword of K bits c of which these places of d are known, with their bits."""
    bits = [*c.replace(lists.FILLER, "0"), *"?" * ((GRAPHS[graph].columns - GRAPHS[graph].information) * z)]
    for place, bit in sent:
        if bits[2 * z + place] not in ("?", bit):
            raise Failed(f"{name}: bit {place} of d is {bit}, and c or an earlier bit of d says that it is {bits[2 * z + place]}")
        bits[2 * z + place] = bit
    text = "".join(bits)
    known = text.replace("0", "1").replace("?", "0")
    return Word(name, graph, z, columns_of(text.replace("?", "0"), z), columns_of(known, z))


def of_line(name: str, words: list[str]) -> Word:
    """The codeword of a line such as `graph 2 z 4 c 0110.. d 01..`, with bits, - for a filler, or hexadecimal digits."""
    found = dict(answer_lines.pairs_of(words))
    if found.keys() != {"graph", "z", "c", "d"}:
        raise Failed(f"{name}: it has not the names graph, z, c and d, each with its value")
    if found["graph"] not in ("1", "2") or found["z"] not in map(str, SETS):
        raise Failed(f"{name}: graph is not 1 or 2, or z is not a lifting size")
    graph, z = int(found["graph"]), int(found["z"])
    bits = {}
    for key, count in (("c", GRAPHS[graph].information * z), ("d", GRAPHS[graph].sent * z)):
        text, digits = found[key], -(-count // 4)
        if len(text) == count and not text.strip("01-"):
            bits[key] = text
        elif len(text) == digits and not text.strip("0123456789abcdefABCDEF"):
            bits[key] = lists.of_digits(text, count)
        else:
            raise Failed(f"{name}: {key} is neither {count} bits nor {digits} hexadecimal digits")
    return word(name, graph, z, bits["c"], ((place, bit) for place, bit in enumerate(bits["d"]) if bit != lists.FILLER))


class Operation:
    """The keys of a file of test-bbdev."""

    def __init__(self, path: str, text: str) -> None:
        parts = re.split(r"^[ \t]*(\w+)[ \t]*=", re.sub("#.*", "", text), flags=re.MULTILINE)
        self.path, self.keys = path, dict(zip(parts[1::2], map(str.strip, parts[2::2])))
        self.flags = {it.strip() for it in self.keys.get("op_flags", "").split(",")}
        if self.keys.get("op_type") != "RTE_BBDEV_OP_LDPC_ENC" or f"{FLAG}RATE_MATCH" not in self.flags:
            raise Failed(f"{path}: not an operation RTE_BBDEV_OP_LDPC_ENC with {FLAG}RATE_MATCH")

    def number(self, name: str, most: int, least: int = 0, default: str = "") -> int:
        """The number of a key, in decimal or hexadecimal digits."""
        text = self.keys.get(name, default)
        found = int(text, 0) if re.fullmatch("0|[1-9][0-9]{0,8}|0x[0-9a-fA-F]{1,8}", text) else -1
        if not least <= found <= most:
            raise Failed(f"{self.path}: {name} is {shown(text) or 'not there'}, and not a number from {least} to {most}")
        return found

    def bits(self, name: str) -> str:
        """The bits of a key's words."""
        words: typing.Any = [it for it in re.split(r"[\s,]+", self.keys.get(name, "")) if it]
        try:
            return str(lists.from_words(words))
        except lists.Unreadable as unreadable:
            raise Failed(f"{self.path}: {name} {unreadable}") from None

    def plan(self) -> Plan:
        """The numbers of segmentation, as far as they matter here."""
        graph, z = self.number("basegraph", 2, 1), self.number("z_c", 384, 2)
        if z not in SETS:
            raise Failed(f"{self.path}: z_c is {z}, which is not a lifting size")
        k, l = GRAPHS[graph].information * z, 24 * (f"{FLAG}CRC_24B_ATTACH" in self.flags)
        fillers = self.number("n_filler", k - 2 * z - l - 1)
        c = self.number("c", 344, 1) if self.number("code_block_mode", 1, default="1") == 0 else 1
        return Plan(0, 0, graph, c, l, k - fillers, 0, z, SETS[z], k, GRAPHS[graph].sent * z)

    def lengths(self, plan: Plan) -> list[int]:
        """E of each code block: of one its own, else `ea` of the first `cab` of them and `eb` of the others."""
        if self.number("code_block_mode", 1, default="1"):
            return [self.number("e", 1 << 22, 1)]
        longer = self.number("cab", plan.c)
        return [self.number("ea", 1 << 22, 1)] * longer + [self.number("eb", 1 << 22, 1) for _ in range(plan.c - longer)]

    def words(self) -> typing.Iterator[Word]:
        """The codewords of its code blocks."""
        plan, clauses, out = self.plan(), right(), self.bits("output0")
        length, qm = self.number("n_cb", plan.n, 1), self.number("q_m", 8, 1)
        first = clauses.start(plan, length, self.number("rv_index", 3))
        block = self.bits("input0")
        if f"{FLAG}CRC_24A_ATTACH" in self.flags:
            block += clauses.crc("CRC24A", block)
        lengths = self.lengths(plan)
        if sum(lengths) > len(out) or any(it % qm for it in lengths):
            raise Failed(f"{self.path}: e is not a multiple of q_m, or output0 has fewer bits than the code blocks: {len(out)}")
        known = plan.kdash - 2 * plan.z
        places = "".join(map(chr, range(FIRST, FIRST + plan.n)))
        places = places[:known] + lists.FILLER * plan.fillers + places[known + plan.fillers :]
        try:
            for r, (bits, count) in enumerate(zip(clauses.code_blocks(block, plan), lengths)):
                f, out = out[:count], out[count:]
                e = f if f"{FLAG}INTERLEAVER_BYPASS" in self.flags else "".join(f[row::qm] for row in range(qm))
                sent = zip((ord(it) - FIRST for it in clauses.selected(places, first, length, count)), e)
                yield word(f"{self.path}, code block {r}", plan.graph, plan.z, bits + lists.FILLER * plan.fillers, sent)
        except Impossible as error:
            raise Failed(f"{self.path}: {error}") from None


def words_of(path: str) -> typing.Iterator[Word]:
    """The codewords of a file."""
    text = files.text_of(path, files.RESULTS)
    if re.search(r"^\s*op_type\s*=", text, re.MULTILINE):
        yield from Operation(path, text).words()
        return
    for number, line in enumerate(text.splitlines(), 1):
        if line.strip() and not line.startswith("#"):
            try:
                yield of_line(f"{path}, line {number}", line.split())
            except answer_lines.Wrong as wrong:
                raise Failed(f"{path}, line {number}: {wrong}") from None
