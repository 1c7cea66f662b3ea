"""The steps that both ends of the chain have, right or with an encoder's mistakes by name: sizes, buffer, lengths, places,
CRC and parity rows. All of them come from the chain of the encoder's suite."""

from __future__ import annotations

import dataclasses
import functools
import typing

from linksim_tools.common.graphs import GRAPHS, LARGEST
from linksim_tools.conform import bits as lists
from linksim_tools.conform import clauses as chain
from linksim_tools.conform.case import PLAN, Case, Plan
from linksim_tools.conform.code import Encoder, TablesKey, encoder_of
from linksim_tools.conform.encoder.mistakes import MISTAKES, clauses_of
from linksim_tools.conform.mistake import Mistake
from linksim_tools.conform.receiver import peeling

if typing.TYPE_CHECKING:
    from linksim_tools.conform.case import Tables as Entries
    from linksim_tools.conform.receiver.reception import Arrival

Impossible = chain.Impossible
# Mistakes of an encoder, a known one by its name.
Wrong = typing.FrozenSet[typing.Union[str, Mistake]]
RIGHT: Wrong = frozenset()
LDPC = frozenset(it.name for it in MISTAKES.values() if it.step == "ldpc")

# The first of the characters that stand for places of d, and the place of each character.
MARK = 0x100
PLACES = [-1] * MARK + [*range(max(it.columns for it in GRAPHS.values()) * max(LARGEST))]
MARKS = "".join(map(chr, range(MARK, len(PLACES))))


@functools.lru_cache(None)
def clauses(wrong: Wrong) -> chain.Clauses:
    """The chain with those of these mistakes that are an encoder's."""
    named = (MISTAKES.get(it) if isinstance(it, str) else it for it in wrong)
    return clauses_of(frozenset(it for it in named if it))


@functools.lru_cache(4096)
def among(wrong: Wrong, names: frozenset[str], step: str) -> Wrong:
    """Those of these mistakes that have one of these names, or are not known ones of this step."""
    return frozenset(it for it in wrong if (it in names if isinstance(it, str) else it.step == step)) if wrong else wrong


@dataclasses.dataclass(frozen=True)
class Sizes(Plan):
    """The sizes of a block, as `linksim cut` names them; the fillers and the information bits of a codeword."""

    filled: range
    info: range

    def __hash__(self) -> int:
        """Of the few numbers that tell almost all apart: sizes are looked up often."""
        return hash((self.a, self.graph, self.z, self.filled))

    @property
    def size(self) -> int:
        """How many places a codeword has, with those that are never sent."""
        return GRAPHS[self.graph].columns * self.z


@functools.lru_cache(4096)
def sizes(a: int, rate2048: int, wrong: Wrong = RIGHT) -> Sizes:
    """The sizes of a block (5.2.2, 6.2.2, 7.2.2)."""
    it = clauses(wrong)
    plan = it.plan_of(a, rate2048)
    if plan.kdash > plan.k:
        raise Impossible("more bits than columns")
    numbers = {name: getattr(plan, name) for name in PLAN}
    if it.filled("1", "0") == "01":
        return Sizes(**numbers, filled=range(plan.fillers), info=range(plan.fillers, plan.k))
    return Sizes(**numbers, filled=range(plan.kdash, plan.k), info=range(plan.kdash))


@functools.lru_cache(1024)
def window(of: Sizes, wrong: Wrong) -> tuple[int, int]:
    """At which place of the codeword d begins, and how long it is (5.3.2)."""
    d = clauses(wrong).sent_columns(MARKS[: of.size], of)
    return ord(d[0]) - MARK, len(d)


@functools.lru_cache(4096)
def lengths(c: int, told: Arrival, wrong: Wrong) -> tuple[int, ...]:
    """E_r of each of so many code blocks (5.4.2.1)."""
    scheduled = told.scheduled(c)
    sent = Case("", "", told.rate2048, told.lbrm, told.rv, told.g, told.qm, told.nl)
    return tuple(clauses(wrong).lengths(sent, c, scheduled)) if scheduled else (0,) * c


class Places(typing.Tuple[int, ...]):
    """Where values stand in a codeword, -1 for nowhere; told apart from others by itself."""

    __slots__ = ()
    __hash__ = object.__hash__

    def __eq__(self, other: object) -> bool:
        return self is other


NOWHERE = Places()


@functools.lru_cache(1024)
def selected(ring: range, skipped: range, k0: int, ncb: int, count: int, wrong: Wrong) -> Places:
    """The places of the codeword at which `count` bits of e stand, of a d in these places of it (5.4.2.1)."""
    first, last = (min(max(it, ring.start), ring.stop) for it in (skipped.start, skipped.stop))
    d = MARKS[ring.start : first] + lists.FILLER * (last - first) + MARKS[last : ring.stop]
    return Places(map(PLACES.__getitem__, map(ord, clauses(wrong).selected(d, k0, ncb, count))))


def deinterleaved(f: bytes, symbol: int, wrong: Wrong) -> bytes:
    """e of an f (5.4.2.2)."""
    if "interleaver-by-columns" in wrong:
        return f
    whole = len(f) // symbol * symbol
    if "interleaver-transposed" in wrong:
        columns = len(f) // symbol
        return b"".join(f[row:whole:columns] for row in range(columns)) + f[whole:]
    rows = range(symbol - 1, -1, -1) if "interleaver-symbol-reversed" in wrong else range(symbol)
    return b"".join(f[row:whole:symbol] for row in rows) + f[whole:]


@functools.lru_cache(1024)
def fits_code_block(of: Sizes, bits: str, wrong: Wrong) -> bool:
    """Whether the CRC24B of a code block fits (5.2.2)."""
    if not of.l or "crc-after-segmentation" in wrong:
        return True
    return clauses(wrong).code_block([], bits[: of.kdash - of.l], of, False) == bits


@functools.lru_cache(1024)
def attached(bits: str, wrong: Wrong = RIGHT) -> str:
    """A block with its CRC (6.2.1, 7.2.1)."""
    return clauses(wrong).attached(bits)


class Tables:
    """The parity rows of a shift table, right and wrong."""

    def __init__(self, entries: Entries) -> None:
        self.key = TablesKey(entries)
        self.made: dict[typing.Any, peeling.Rows] = {}

    def graphs(self) -> typing.KeysView[int]:
        return self.key.tables.keys()

    def encoder(self, of: Sizes, wrong: Wrong) -> Encoder:
        return encoder_of(clauses(among(wrong, LDPC, "ldpc")), self.key, of.graph, of.z, of.set)

    def word(self, of: Sizes, bits: str, wrong: Wrong) -> str:
        """The codeword of a code block of K' bits."""
        encoder = self.encoder(of, wrong)
        filler = "1" if "fillers-ones" in wrong else "0"
        info = clauses(wrong).filled(bits, filler * len(of.filled))
        return peeling.text_of(encoder.columns(info), of.z)

    def rows(self, of: Sizes, wrong: Wrong) -> peeling.Rows:
        """The parity rows of these sizes."""
        coding = among(wrong, LDPC, "ldpc")
        key = of.graph, of.z, of.set, coding
        if key not in self.made:
            rows, info = self.encoder(of, wrong).rows, GRAPHS[of.graph].information
            known = clauses(coding).columns_of_extension(info)
            taken = [tuple(it for it in row if number < 4 or it[0] < known or it[0] == info + number)
                     for number, row in enumerate(rows)]
            self.made[key] = peeling.Rows(of.z, GRAPHS[of.graph].columns, taken)
        return self.made[key]
