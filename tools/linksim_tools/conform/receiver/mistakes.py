"""The mistakes of receivers that the checker knows, each by the function that it replaces, and the receivers that make them. Some
are an encoder's, in steps that both ends have."""

from __future__ import annotations

import dataclasses
import functools
import itertools
import typing

from linksim_tools.common.graphs import GRAPHS
from linksim_tools.conform.encoder import mistakes as encoders
from linksim_tools.conform.mistake import Catalogue, Method, Mistake, class_of
from linksim_tools.conform.receiver import steps
from linksim_tools.conform.receiver.chain import Process, Receiver
from linksim_tools.conform.receiver.reception import ZERO, Arrival, translated
from linksim_tools.conform.receiver.soft import Soft, each, empty, wrapped
from linksim_tools.conform.receiver.steps import Sizes

# The steps of a receiver in their order.
STEPS = {
    "parting": "deinterleaving and parting", "places": "places of rv and buffer", "combining": "combining",
    "processes": "processes", "decoder": "decoder", "decision": "CRC and desegmentation",
}
# The step of cases that are about a receiver's arithmetic alone.
DOUBT = "doubt"

CATALOGUE = Catalogue(STEPS, Receiver)
mistake = CATALOGUE.mistake
Range = typing.Callable[[Receiver, Sizes, Arrival], range]

INVERTED = translated(lambda value: -value)
SLICED = translated(lambda value: -1 if value < 0 else 1)
NO_FLOOR = frozenset(["k0-no-floor"])
LOWEST_KEPT = translated(lambda value: 127 if value == -128 else value)
SIGNS = translated(lambda value: (value > 0) - (value < 0))


def all_shorter(lengths: list[int]) -> list[int]:
    """The shorter length in the place of each that is not 0."""
    least = min((it for it in lengths if it), default=0)
    return [least if it else 0 for it in lengths]


def of_first(told: Arrival, first: Arrival) -> Arrival:
    """A transmission with the Qm and NL of the first one, if G is the same."""
    return dataclasses.replace(told, qm=first.qm, nl=first.nl) if first.g == told.g else told


def to_start(self: Receiver, _right: Method, ring: range, skipped: range, k0: int, ncb: int, count: int) -> steps.Places:
    """The places, with k0 after the buffer's end."""
    rest = range(ring.start + k0, ring.start + ncb)
    return steps.selected(rest if k0 < ncb else ring[:ncb], skipped, 0, len(rest) or ncb, count, self.shared)


def until_end(_self: Receiver, right: Method, ring: range, skipped: range, *given: int) -> steps.Places:
    """The places, with none after the buffer's end."""
    (k0, ncb, count), places = given, right(ring, skipped, *given)
    until = len([place for place in ring[k0:ncb] if place not in skipped])
    return steps.Places((*places[:until], *[-1] * (count - until)))


def one_copy(places: typing.Sequence[int], values: bytes, size: int) -> Soft:
    """The last value at each place."""
    found = [0] * (size + 1)
    for place, value in zip(places, values):
        found[place] = value - ZERO
    return Soft(found[:size])


def rounded_up(_self: Receiver, right: Method, sizes: Sizes, ncb: int, version: int) -> int:
    """k0, rounded up to a multiple of Zc."""
    start = int(right(sizes, ncb, version))
    return start + sizes.z if 0 < start < steps.clauses(NO_FLOOR).start(sizes, ncb, version) else start


def replaced(_self: Receiver, _right: Method, had: Soft, came: Soft, places: typing.Iterable[int]) -> Soft:
    """What came in the place of what there was."""
    there = set(places)
    return Soft([new if place in there else old for place, (old, new) in enumerate(zip(had, came))])


def pairwise(change: typing.Callable[[int, int], int]) -> Method:
    """What is made of each old value and its new one."""
    return lambda _self, _right, had, came, _places: each(change, had, came)


def translating(table: bytes) -> Method:
    """The values by a table of their octets."""
    return lambda _self, _right, values: values.translate(table)


def of_last(self: Receiver, _right: Method, told: Arrival) -> Arrival:
    """A transmission with the sizes of the last fresh block."""
    assert self.last is not None
    return dataclasses.replace(told, a=self.last.a, rate2048=self.last.rate2048)


def stuck(_self: Receiver, _right: Method, process: Process, bits: str | None) -> str | None:
    """The first block that was ever delivered."""
    process.sticking = process.sticking or bits
    return process.sticking


def taken(of: Range, known: str = "", ones: str = "") -> Method:
    """What is given, with these digits for all places of a range: whether they are known, and whether they are ones."""
    def given(self: Receiver, right: Method, sizes: Sizes, told: Arrival, soft: Soft) -> tuple[str, str]:
        places = of(self, sizes, told)

        def filled(digits: str, digit: str) -> str:
            return digits[: places.start] + digit * len(places) + digits[places.stop :] if digit else digits

        found = right(sizes, told, soft)
        return filled(found[0], known), filled(found[1], ones)

    return given


def buffer_of(self: Receiver, sizes: Sizes, told: Arrival) -> range:
    """The places of the buffer in the codeword."""
    first = self.window(sizes)[0]
    return range(first, first + self.buffer(sizes, told))


def rows_of(sizes: Sizes, lengths: list[int]) -> int:
    """As many rows as so many values have parity columns from place 0 on."""
    places = max(lengths) + 2 * sizes.z + len(sizes.filled) - sizes.k
    return min(GRAPHS[sizes.graph].rows, max(4, -(-places // sizes.z)))


def zeros_added(_self: Receiver, right: Method, sizes: Sizes, told: Arrival, process: Process) -> list[str]:
    """Zeros for the code blocks that are not sent now."""
    found = right(sizes, told, process)
    return [it if length else "0" * len(it) for it, length in zip(found, process.lengths)]


mistake("parting", "blocks-taken-reversed", "5.5", "the first part of what arrives is taken for the last code block",
        "the parts come in the order r = 0, 1, ..", order=lambda _self, _right, sizes: range(sizes.c - 1, -1, -1))
mistake("parting", "lengths-all-shorter", "5.4.2.1", "all E_r are the shorter one, and what is left over is dropped",
        "the last mod(G / (NL Qm), C') code blocks have NL Qm bits more",
        lengths=lambda _self, right, *given: all_shorter(right(*given)))
mistake("parting", "lengths-of-first", "5.4.2.1",
        "a retransmission is parted by the E_r of the first transmission if G is the same",
        "compute E_r anew, with the Qm and NL of each transmission",
        lengths=lambda _self, right, sizes, told, first: right(sizes, of_first(told, first), first))
mistake("parting", "symbols-of-first", "5.4.2.2", "a retransmission is deinterleaved with the Qm of the first one",
        "use the Qm of each transmission", symbol=lambda _self, _right, _told, first: first.qm)
mistake("parting", "symbols-at-most-6", "5.4.2.2", "Qm = 8 is deinterleaved as Qm = 6", "256QAM has 8 rows",
        symbol=lambda _self, _right, told, *_: min(told.qm, 6))
mistake("parting", "mask-squeezed", "5.4.2.1", "what arrives of scheduled code blocks goes to the first code blocks",
        "keep the number r of each scheduled code block",
        lengths=lambda _self, right, *given: sorted(right(*given), key=lambda it: not it))
mistake("parting", "sign-inverted", "-", "the sign of a value is taken for the other bit",
        "say by --positive which bit a positive value means, or turn the sign over",
        heard=translating(INVERTED))
mistake("parting", "sliced", "-", "values are cut to +1 and -1, an erased one to +1",
        "keep the strength of a value; 0 is no bit at all", heard=translating(SLICED))
mistake("parting", "lowest-negated", "-", "the lowest value of 8 bits, -128, is negated to itself",
        "clip to -127 before you negate", heard=translating(LOWEST_KEPT))
mistake("places", "fillers-filled", "5.4.2.1", "what arrives goes to the places of fillers too",
        "selection passes over fillers, so recovery must", skipped=lambda *_: range(0))
mistake("places", "fillers-unshifted", "5.4.2.1", "the places K' to K of d are passed over as fillers, 2 Zc too far",
        "d begins with bit 2 Zc: its fillers are at K' - 2 Zc to K - 2 Zc",
        skipped=lambda _self, _right, sizes: range(sizes.filled.start + 2 * sizes.z, sizes.filled.stop + 2 * sizes.z))
mistake("places", "wrapped-to-start", "5.4.2.1", "after the buffer's end it goes on at k0", "go on at place 0", selected=to_start)
mistake("places", "not-wrapped", "5.4.2.1", "what goes on at the buffer's begin is dropped",
        "go round the buffer until all E values are used", selected=until_end)
mistake("places", "first-copy", "5.4.2.1", "of a place that arrives twice in a transmission the first value alone counts",
        "add the values of all copies",
        gathered=lambda _self, _right, places, values, size: one_copy(places[::-1], values[: len(places)][::-1], size))
mistake("places", "last-copy", "5.4.2.1", "of a place that arrives twice in a transmission the last value alone counts",
        "add the values of all copies", gathered=lambda _self, _right, *given: one_copy(*given))
mistake("places", "rv-ignored", "Table 5.4.2.1-2", "each transmission is written from place 0 on",
        "begin at k0 of its rv", start=lambda *_: 0)
mistake("places", "rv-of-first", "Table 5.4.2.1-2", "a retransmission is written where the first one began",
        "use the rv of each transmission", version=lambda _self, _right, _told, first: first.rv)
mistake("places", "k0-plus-one-column", "Table 5.4.2.1-2", "k0 is rounded up to a multiple of Zc", "round down", start=rounded_up)
mistake("places", "graph-of-transmission", "6.2.2, 7.2.2", "the base graph is chosen by A / G of each transmission",
        "it is chosen by the code rate that the first one is told, once",
        rate=lambda _self, _right, told: max(1, min(2048, 2048 * told.a // told.g)))
mistake("combining", "combine-last", "5.4.2.1",
        "a retransmission's values replace those there were, erased ones too", "add them", combined=replaced)
mistake("combining", "combine-last-heard", "5.4.2.1", "a retransmission's values replace those there were, if something arrived",
        "add them", combined=pairwise(lambda old, new: new or old))
mistake("combining", "combine-first", "5.4.2.1", "a place that was heard keeps its first value",
        "add what comes later", combined=pairwise(lambda old, new: old or new))
mistake("combining", "combine-signs", "5.4.2.1", "hard decisions are added up", "add the values themselves",
        heard=translating(SIGNS))
mistake("combining", "combine-wraps", "5.4.2.1", "sums of 8 bits wrap around", "saturate, or keep more bits",
        stored=lambda _self, _right, soft: each(wrapped(8), soft))
mistake("combining", "combine-halves", "5.4.2.1", "sums are halved and rounded down",
        "a value of +1 and an erased one make 0, of -1 and an erased one -1: round to 0, or keep more bits",
        combined=pairwise(lambda old, new: (old + new) >> 1))
mistake("combining", "codeblocks-wiped", "5.4.2.1", "code blocks that are not scheduled lose what they had",
        "leave their soft values as they are", kept=lambda _self, _right, had, length: had if length else empty(len(had)))
mistake("processes", "cleared-always", "38.321, 5.3.2.2",
        "each transmission, or each block that fails, clears the soft buffer", "new data alone clears it", clears=lambda *_: True)
mistake("processes", "cleared-never", "38.321, 5.3.2.2", "a fresh block is added to the one before",
        "clear the soft buffer of its process", clears=lambda *_: False)
mistake("processes", "cleared-by-rv", "38.321, 5.3.2.2", "rv 0 clears the soft buffer, and nothing else does",
        "clear it by the new data indicator", clears=lambda _self, _right, told, *_: told.rv == 0)
mistake("processes", "cleared-by-both", "38.321, 5.3.2.2", "a fresh block clears the soft buffer only with rv 0",
        "clear it by the new data indicator, for each rv", clears=lambda _self, _right, told, *_: told.fresh and told.rv == 0)
mistake("processes", "process-one", "38.321, 5.3.2.1", "all processes have one soft buffer",
        "a soft buffer for each of 16 processes", process_of=lambda *_: 0)
mistake("processes", "process-of-eight", "38.321, 5.3.2.1", "process p has the soft buffer of p mod 8",
        "there are up to 16 processes", process_of=lambda _self, _right, told: told.process % 8)
mistake("processes", "plan-of-last", "38.321, 5.3.2.1", "the sizes are those of the last fresh block of any process",
        "keep the sizes of each process", block_of=of_last)
mistake("processes", "delivered-sticks", "38.321, 5.3.2.2", "once delivered a process answers the same bits for its next blocks",
        "forget the block when a fresh one begins", answered=stuck)
mistake("decoder", "punctured-zeros", "5.3.2", "the first 2 Zc bits are taken for zeros",
        "they are not known: begin with 0 there", given=taken(lambda _self, sizes, _told: range(2 * sizes.z), "1", "0"))
mistake("decoder", "punctured-one", "5.3.2", "only the first Zc bits are taken for punctured",
        "d begins with bit 2 Zc of the codeword", window=lambda _self, _right, sizes: (sizes.z, sizes.n + sizes.z))
mistake("decoder", "punctured-never-fixed", "5.3.2", "the decoder does not change the first 2 Zc bits",
        "the rows must find them", fixed_from=lambda *_: 2)
mistake("decoder", "fillers-erased", "5.3.2", "fillers are taken for erased", "fillers are zeros that are surely known",
        given=taken(lambda _self, sizes, _told: sizes.filled, known="0"))
mistake("decoder", "fillers-ones", "5.3.2", "fillers are taken for ones", "fillers are zeros",
        given=taken(lambda _self, sizes, _told: sizes.filled, ones="1"))
mistake("decoder", "unsent-zeros", "5.4.2.1", "places of the buffer that never arrived are taken for zeros",
        "they are not known: 0", given=taken(buffer_of, known="1"))
mistake("decoder", "beyond-zeros", "5.4.2.1", "places of d beyond Ncb are taken for zeros", "they are not known: 0",
        given=taken(lambda self, sizes, told: range(buffer_of(self, sizes, told).stop, sizes.size), "1", "0"))
mistake("decoder", "core-rows", "5.3.2", "the rows from 4 on are not used",
        "use all rows whose parity column arrived, whenever it did", rows_used=lambda *_: 4)
mistake("decoder", "rows-of-last", "5.3.2",
        "so many rows are used as E_r of the last transmission has parity columns from place 0 on",
        "use all rows whose parity column arrived in any transmission",
        rows_used=lambda _self, _right, sizes, process: rows_of(sizes, process.lengths))
mistake("decoder", "rows-of-first", "5.3.2",
        "so many rows are used as E_r of the first transmission has parity columns from place 0 on",
        "use all rows whose parity column arrived in any transmission",
        rows_used=lambda _self, _right, sizes, process: rows_of(sizes, process.first_lengths))
mistake("decoder", "last-row", "5.3.2", "the last row is not used", "use all rows",
        rows_used=lambda self, _right, sizes, *_: len(self.rows(sizes).rows) - 1)
mistake("decision", "zeros-delivered", "5.1", "bits that are not known count as zeros, and a CRC that fits is enough",
        "a block of zeros fits its CRC: hand up nothing while a bit is not known", is_known=lambda *_: True)
mistake("decision", "crc-unchecked", "5.1", "the CRC of the transport block is not checked",
        "check it before you hand the block up", fits_block=lambda *_: True)
mistake("decision", "code-crc-alone", "5.1", "with several code blocks their CRCs are enough",
        "check the CRC of the transport block too",
        fits_block=lambda _self, right, sizes, a, rest, texts: sizes.c > 1 or right(sizes, a, rest, texts))
mistake("decision", "code-crc-unchecked", "5.2.2", "the CRCs of code blocks are not checked",
        "check each CRC24B; a code block that fails must be asked for again", fits_code_block=lambda *_: True)
mistake("decision", "first-decides", "5.2.2", "the block is delivered if its first code block passes", "all code blocks must pass",
        good=lambda _self, _right, sizes, passed, _lengths, fits: passed[0] and (fits or sizes.c > 1))
mistake("decision", "last-decides", "5.2.2", "the block is delivered if its last code block passes", "all code blocks must pass",
        good=lambda _self, _right, sizes, passed, _lengths, fits: passed[-1] and (fits or sizes.c > 1))
mistake("decision", "codeblocks-passed-wiped", "5.2.2", "code blocks that passed and are not sent again count as failed",
        "keep that they passed", good=lambda _self, _right, _sizes, passed, lengths, fits: fits and all(passed) and all(lengths))
mistake("decision", "codeblocks-passed-added", "5.2.2",
        "only the code blocks that are sent now are decoded, and the others are zeros",
        "keep the bits of those that passed", decoded_all=zeros_added)
mistake("decision", "code-crc-kept", "5.2.2", "the CRCs of the code blocks stay in the block",
        "cut off the last 24 bits of each", cut=lambda _self, _right, _sizes, bits: bits)
mistake("decision", "fillers-kept", "5.2.2", "the fillers of the code blocks stay in the block", "cut off what comes after K'",
        cut=lambda _self, right, sizes, bits: right(sizes, bits) + "0" * len(sizes.filled))
mistake("decision", "joined-reversed", "5.2.2", "the code blocks are joined from the last to the first",
        "join r = 0 first", joined=lambda _self, right, sizes, texts: right(sizes, texts[::-1]))

# In which step of a receiver an encoder's mistakes show.
STEP_OF = {"crc": "decision", "graph": "places", "segmentation": "places", "codecrc": "decision", "ldpc": "decoder",
           "buffer": "places", "lengths": "parting", "selection": "places", "interleaving": "parting", "concatenation": "parting"}

# The encoders' mistakes that a receiver cannot make, or does not show.
ALONE = """
code-crc-always shift-lost shift-subtracted-lost fillers-one fillers-sent fillers-one-fewer fillers-one-more
core-first-forgotten core-unrotated core-forward core-first lengths-j-strict mask-ignored fillers-counted-short
fillers-after-wrap wrapped-early wrapped-late wrapped-late-zero wrapped-late-empty wrapped-to-k0 one-round one-round-short
last-octet-reversed last-octet-right-aligned
""".split()
SHARED = [name for name in encoders.MISTAKES if name not in ALONE]


def over_all(self: Receiver, sizes: Sizes, told: Arrival, first: Arrival, values: bytes) -> list[bytes]:
    """What arrives, deinterleaved before it is parted."""
    ends = [*itertools.accumulate(self.lengths(sizes, told, first))]
    whole = steps.deinterleaved(values, told.qm, steps.RIGHT)
    return [whole[at:end] for at, end in zip([0, *ends], ends)]


def of_encoder(it: Mistake, **parts: typing.Any) -> Mistake:
    """An encoder's mistake as one of a receiver, which has it in the steps of both ends, and these parts."""
    return dataclasses.replace(it, step=STEP_OF[it.step], also=(), made=type("Shared", (Receiver,), parts))


OWN: dict[str, Mistake] = CATALOGUE.ordered()
MISTAKES: dict[str, Mistake] = {**OWN, **{name: of_encoder(encoders.MISTAKES[name]) for name in SHARED}}
MISTAKES["interleaver-over-all"] = of_encoder(encoders.MISTAKES["interleaver-over-all"], parts=over_all)


@functools.lru_cache(None)
def receiver_with(wrong: frozenset[str]) -> type[Receiver]:
    made = class_of([MISTAKES[name] for name in wrong], Receiver)
    return type("Mistaken", (made,), {"shared": wrong})
