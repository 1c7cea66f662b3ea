"""Mistakes of receivers that are in no list of the checker, each a function in place of one of a right receiver. And receivers that
are right in other ways than the model: each is to pass the suite."""

from __future__ import annotations

import typing

from linksim_tools.conform.receiver import elimination, peeling, steps
from linksim_tools.conform.receiver.chain import STEADY, Process, Receiver
from linksim_tools.conform.receiver.reception import MODEL, Arrival, Level, translated
from linksim_tools.conform.receiver.soft import Soft

Change = typing.Callable[..., typing.Any]
# The steps of a receiver, right.
R = Receiver


def rows_with(change: typing.Callable[[steps.Sizes, list[peeling.Row]], typing.Iterable[peeling.Row]]) -> Change:
    """The decoder's rows, changed."""
    kept: dict[typing.Any, peeling.Rows] = {}

    def rows(self: Receiver, sizes: steps.Sizes) -> peeling.Rows:
        right = R.rows(self, sizes)
        key = sizes.graph, sizes.z, sizes.set, id(self.tables)
        if key not in kept:
            kept[key] = peeling.Rows(right.z, right.columns, [*change(sizes, [*right.rows])])
        return kept[key]

    return rows


def row(graph: int, numbers: typing.Container[int], change: typing.Callable[..., typing.Any] = lambda *_: ()) -> Change:
    """Rows of a base graph are changed, or missing."""
    return rows_with(lambda sizes, rows: [
        change(it, sizes) if sizes.graph == graph and n in numbers else it for n, it in enumerate(rows)])


def shifted(graph: int, number: int, place: int, sets: typing.Container[int] = range(8)) -> Change:
    """The value of an entry is one too large."""
    return row(graph, [number], lambda it, sizes: tuple(
        (column, (shift + (n == place and sizes.set in sets)) % sizes.z) for n, (column, shift) in enumerate(it)))


def exchanged(sizes: steps.Sizes, rows: list[peeling.Row]) -> list[peeling.Row]:
    """Rows 4 and 5 of base graph 2 have each other's shifts."""
    if sizes.graph == 2:
        first, second = ([shift for _, shift in rows[n]] for n in (4, 5))
        for n, shifts in ((4, second), (5, first)):
            rows[n] = tuple((column, shifts[k % len(shifts)]) for k, (column, _) in enumerate(rows[n]))
    return rows


def starts(graph: int, version: int, number: int) -> Change:
    """Another constant of k0."""
    return lambda self, sizes, ncb, rv: (
        number * ncb // sizes.n * sizes.z if (sizes.graph, rv) == (graph, version) else R.start(self, sizes, ncb, rv))


def order(change: typing.Callable[[int], typing.Sequence[int]], *sizes: int) -> Change:
    """The bits of a symbol are taken in another order, of these Qm."""

    def deinterleaved(self: Receiver, f: bytes, symbol: int) -> bytes:
        if symbol not in sizes:
            return R.deinterleaved(self, f, symbol)
        whole = len(f) // symbol * symbol
        return b"".join(f[at:whole:symbol] for at in change(symbol)) + f[whole:]

    return deinterleaved


def heard(change: typing.Callable[[int], int]) -> Change:
    """Values are taken otherwise."""
    return lambda self, values: values.translate(translated(change))


def handed_up(change: typing.Callable[[str], str]) -> Change:
    """The bits of a block are handed up otherwise."""
    return lambda self, process, bits: bits and change(bits)


def octets(bits: str) -> list[str]:
    return [bits[at : at + 8] for at in range(0, len(bits), 8)]


def shares(change: typing.Callable[[list[int], typing.Any], list[int]]) -> Change:
    """E_r is otherwise."""
    return lambda self, sizes, told, first: change(R.lengths(self, sizes, told, first), told)


def buffers(change: typing.Callable[[int, typing.Any, typing.Any], typing.Any]) -> Change:
    """Ncb is otherwise."""
    return lambda self, sizes, told: change(R.buffer(self, sizes, told), sizes, told)


def fillers_for(versions: typing.Container[int]) -> Change:
    """Fillers are passed over for some rv alone."""

    def places(self: Receiver, sizes: steps.Sizes, told: typing.Any, first: typing.Any, count: int) -> steps.Places:
        ncb, (at, length) = self.buffer(sizes, told), self.window(sizes)
        skipped = sizes.filled if told.rv in versions else range(0)
        return self.selected(range(at, at + length), skipped, self.start(sizes, ncb, told.rv), ncb, count)

    return places


def addresses(bits: int) -> Change:
    """Places of d from 2^bits on are lost."""
    return lambda self, ring, *given: steps.Places(
        [it if it - ring.start < 1 << bits else -1 for it in R.selected(self, ring, *given)])


def half_cleared(self: Receiver, sizes: steps.Sizes, told: typing.Any, process: typing.Any, values: bytes) -> None:
    """The upper half of the buffer is left as it was."""
    old = getattr(process, "before", None)
    if told.fresh and old and len(old) == sizes.c and len(old[0]) == sizes.size:
        half = sizes.size // 2
        process.soft = [Soft([*soft[:half], *was[half:]]) for soft, was in zip(process.soft, old)]
    R.combine(self, sizes, told, process, values)
    process.before = process.soft


def rest_last(lengths: list[int], told: typing.Any) -> list[int]:
    """All E_r but the last are the shorter one."""
    least, others = min(lengths), len(lengths) - 1
    return [*[least] * others, sum(lengths) - least * others] if all(lengths) else lengths


# The function that a mistake replaces, by what, and what a report says that names it.
HELD_OUT: dict[str, tuple[str, Change, str]] = {
    "row-17-of-1": ("rows", row(1, [17]), "row 17 of base graph 1 is needed"),
    "row-9-of-2": ("rows", row(2, [9]), "row 9 of base graph 2 is needed"),
    "row-2-of-1": ("rows", row(1, [2]), "row 2 of base graph 1 is needed"),
    "row-1-of-2": ("rows", row(2, [1]), "row 1 of base graph 2 is needed"),
    "rows-from-30-of-1": ("rows", row(1, range(30, 46)), "row 36 of base graph 1 "),
    "entry-of-row-4-of-1": ("rows", shifted(1, 4, 0), "row 4 of base graph 1 is needed"),
    "entry-of-row-0-of-2": ("rows", shifted(2, 0, 1), "row 0 of base graph 2 is needed"),
    "entry-of-row-6-of-2": ("rows", shifted(2, 6, 0), "row 6 of base graph 2 is needed"),
    "entry-of-set-3": ("rows", shifted(2, 5, 0, [3]), "row 5 of base graph 2 is needed"),
    "entry-missing-of-1": ("rows", row(1, [5], lambda it, _: it[1:]), "row 5 of base graph 1 is needed"),
    "entry-missing-of-2": ("rows", row(2, [7], lambda it, _: it[1:]), "row 7 of base graph 2 is needed"),
    "rows-exchanged": ("rows", rows_with(exchanged), "row 4 of base graph 2 is needed"),
    "k0-16-for-17": ("start", starts(1, 1, 16), "rv = 1"),
    "k0-34-for-33": ("start", starts(1, 2, 34), "k0 of rv = 2 by base graph 1 "),
    "k0-55-for-56": ("start", starts(1, 3, 55), "base graph 1 and rv = 3"),
    "k0-12-for-13": ("start", starts(2, 1, 12), "k0 of rv = 1 by base graph 2 "),
    "k0-26-for-25": ("start", starts(2, 2, 26), "k0 of rv = 2 by base graph 2 "),
    "k0-42-for-43": ("start", starts(2, 3, 42), "k0 of rv = 3 by base graph 2 "),
    "k0-66-of-2": ("start", starts(2, 2, 33), "base graph 2 and rv = 2"),
    "rv-of-1-bit": ("version", lambda self, told, first: told.rv & 1, "rv keeps 1 bit"),
    "fillers-of-rv-0": ("places", fillers_for([0]), "fillers are not passed over for rv 1 and 2 and 3"),
    "fillers-but-of-rv-3": ("places", fillers_for([0, 1, 2]), "base graph 2 and rv = 3"),
    "fillers-one-less": ("skipped", lambda self, sizes: sizes.filled[:-1], "the fillers end one place early"),
    "ncb-whole-columns": ("buffer", buffers(lambda ncb, sizes, told: ncb // sizes.z * sizes.z),
                          "Ncb is rounded down to a multiple of Zc"),
    "ncb-one-more": ("buffer", buffers(lambda ncb, sizes, told: ncb + (ncb < sizes.n)), "one place past the end"),
    "ncb-ignored-at-rv-0": ("buffer", buffers(lambda ncb, sizes, told: ncb if told.rv else sizes.n), "the buffer is limited"),
    "addresses-of-8-bits": ("selected", addresses(8), "a place from 256 on is needed"),
    "addresses-of-10-bits": ("selected", addresses(10), "a place from 1,024 on is needed"),
    "order-of-qm-6": ("deinterleaved", order(lambda qm: range(qm - 1, -1, -1), 6), "Qm = 6"),
    "order-of-qm-4": ("deinterleaved", order(lambda qm: (1, 0, 3, 2), 4), "Qm = 4"),
    "order-of-qm-8": ("deinterleaved", order(lambda qm: (4, 5, 6, 7, 0, 1, 2, 3), 8), "Qm = 8"),
    "pairs-exchanged": ("deinterleaved", order(lambda qm: [it ^ 1 for it in range(qm)], 2, 4, 6, 8), "Qm > 1"),
    "remainder-to-last": ("lengths", shares(rest_last), "the last code block has all that is left over"),
    "mask-mirrored": ("lengths", shares(lambda it, told: it[::-1] if told.mask is not None else it),
                      "some code blocks are not sent"),
    "weak-dropped": ("heard", heard(lambda it: 0 if abs(it) < 8 else it), "only cases with weak values fail"),
    "wraps-at-5-bits": ("stored", lambda self, soft: Soft([(it + 32) % 64 - 32 for it in soft]), "sums of 6 bits wrap around"),
    "stronger-kept": ("combined", lambda self, had, came, places: Soft([max(it, key=abs) for it in zip(had, came)]),
                      "right ones as strong twice"),
    "first-alone": ("combined", lambda self, had, came, places: had if any(had) else came, "the first transmission alone counts"),
    "half-cleared": ("combine", half_cleared, "by late columns"),
    "cleared-by-a": ("clears", lambda self, told, process: process.first is None or process.first.a != told.a,
                     "a fresh block is added to the one before"),
    "process-of-four": ("process_of", lambda self, told: told.process % 4, "processes 3 and 11 in turn"),
    "process-of-seven": ("process_of", lambda self, told: min(told.process, 7), "processes 9 and 15 in turn"),
    "crc-low-octet": ("fits_block", lambda self, sizes, a, rest, texts: (len(a) == sizes.a and steps.attached(a)[-8:] == rest[-8:]),
                      "the first octet of the block's CRC is wrong"),
    "octets-mirrored": ("answered", handed_up(lambda bits: "".join(it[::-1] for it in octets(bits))),
                        "each octet begins with its lowest bit"),
    "octets-reversed": ("answered", handed_up(lambda bits: "".join(octets(bits)[::-1])), "the octets stand in the other order"),
    "bits-inverted": ("answered", handed_up(lambda bits: bits.translate({48: 49, 49: 48})), "all bits are inverted"),
    "last-octet-zero": ("answered", handed_up(lambda bits: bits[:-8] + "0" * 8), "its last octet is 0"),
    "one-is-enough": ("good", lambda self, sizes, passed, lengths, fits: any(passed), "one code block that passes is enough"),
    "last-unchecked": ("good", lambda self, sizes, passed, lengths, fits: fits and all(passed[:-1]), "the last code block"),
    "wrapped-one-early": ("buffer", buffers(lambda ncb, sizes, told: ncb - 1), "Ncb is 1 too few"),
    "graph-at-3000": ("sizes", lambda self, told, first: steps.sizes(told.a, 1 if told.a <= 3000 else told.rate2048, self.shared),
                      "the limit 292 of A is from 1,400 to 3,"),
    "p-of-8-bits": ("rows", rows_with(lambda sizes, rows: [tuple((at, p & 255) for at, p in it) for it in rows]), "P keeps 8 bits"),
    "addresses-of-14-bits": ("selected", addresses(14), "the counter of places keeps 14 bits"),
    "order-of-qm-8-in-turn": ("deinterleaved", order(lambda qm: (0, 2, 4, 6, 1, 3, 5, 7), 8), "Qm = 8"),
    "remainder-of-2-first": ("lengths", shares(lambda it, told: sorted(it, reverse=True) if len(it) == 3 else it),
                             "of 3 code blocks the longest E_r comes first"),
}


def planted(name: str) -> type[Receiver]:
    """The receiver that makes this mistake."""
    function, change, _ = HELD_OUT[name]
    return type("HeldOut", (Receiver,), {function: change})


class Elimination(Receiver):
    """Solves the parity rows and the CRCs, and so finds all that is fixed."""

    def decoded_all(self, sizes: steps.Sizes, told: Arrival, process: Process) -> list[str]:
        found = super().decoded_all(sizes, told, process)
        if self.clash or all("?" not in it for it in found):
            return found
        infos = elimination.Solution(self, told).fixed()
        return found if infos is None else infos


class Votes(Receiver):
    """Counts hard decisions."""

    def heard(self, values: bytes) -> bytes:
        return values.translate(translated(lambda value: (value > 0) - (value < 0)))


class Freed(Receiver):
    """Frees the buffer when a block is delivered."""

    def clears(self, told: Arrival, process: Process) -> bool:
        return told.fresh or process.delivered is not None


class Once(Receiver):
    """Delivers a block at its first time only."""

    def answered(self, process: Process, bits: str | None) -> str | None:
        had = process.sticking
        process.sticking = str(id(process.first)) if bits else had
        return None if had == str(id(process.first)) else bits


class Block(Receiver):
    """Keeps a block that was delivered until a fresh one begins, as TS 38.321, 5.3.2.2 has it: values are combined only while a
    block is not decoded."""

    def answered(self, process: Process, bits: str | None) -> str | None:
        return bits or process.delivered


class CodeBlocks(Block):
    """Keeps each code block that passed too."""

    def decoded_all(self, sizes: steps.Sizes, told: Arrival, process: Process) -> list[str]:
        found = super().decoded_all(sizes, told, process)
        passed: dict[int, str] = vars(process).setdefault("passed", {})
        if told.fresh:
            passed.clear()
        for r, it in enumerate(found):
            if sizes.l and self.is_known(it) and self.fits_code_block(sizes, it):
                passed.setdefault(r, it)
        return [passed.get(r, it) for r, it in enumerate(found)]


class Early(Receiver):
    """Stops in the round in which a code block passes."""

    def decoded(self, sizes: steps.Sizes, told: Arrival, process: Process, soft: Soft) -> str:
        for self.rounds in range(STEADY + 1):
            found = super().decoded(sizes, told, process, soft)
            if self.is_known(found) and self.fits_code_block(sizes, found):
                break
        return found

    def iterations(self) -> int | None:
        return self.rounds


class Clipped(Receiver):
    """Keeps sums of 8 bits, which stop at the largest one."""

    def stored(self, soft: Soft) -> Soft:
        return Soft([max(-127, min(it, 127)) for it in soft])


DESIGNS: dict[str, tuple[type[Receiver], Level]] = {
    "elimination": (Elimination, MODEL), "votes": (Votes, Level(1, 1)), "freed": (Freed, MODEL), "once": (Once, MODEL),
    "keeps a block": (Block, MODEL), "keeps code blocks": (CodeBlocks, MODEL),
    "stops early": (Early, MODEL), "clips sums": (Clipped, MODEL), "six bits": (Receiver, Level(31, 6)),
    "hard decisions": (Receiver, Level(1, 1)), "two bits": (Receiver, Level(1, 2)), "three bits": (Receiver, Level(3, 3)),
    "four bits": (Receiver, Level(7, 4)), "five bits": (Receiver, Level(15, 5)),
}
