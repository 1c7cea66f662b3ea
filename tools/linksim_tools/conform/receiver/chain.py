"""A whole receiver of the chain of TS 38.212: rate recovery, HARQ, decoder and decision. `Receiver` is right; it is read
from `take` down. A mistake is a subclass that replaces one of its functions (conform.receiver.mistakes)."""

from __future__ import annotations

import dataclasses
import functools
import typing

from linksim_tools.conform.clauses import Clauses
from linksim_tools.conform.receiver import peeling, steps
from linksim_tools.conform.receiver.soft import Soft, digits, empty, gathered, known_and_ones, part_of_signs, summed
from linksim_tools.conform.receiver.reception import MODEL, Answer, Arrival, Case, Level, octets_of

# What stands for the sum of a digit and twice another.
BITS = bytes.maketrans(bytes(range(0x90, 0x94)), b"01??")
# So many iterations all decoders make: what a later one finds differs from decoder to decoder, as after a clash.
STEADY = 24
# The listed mistakes by which selection reads other places.
SELECTING = frozenset(["fillers-counted", "wrapped-at-n"])


@dataclasses.dataclass
class Process:
    """What a HARQ process keeps: of its block, of the values of each code block that came first and last, and what passed."""

    first: Arrival | None = None
    soft: list[Soft] | None = None
    delivered: str | None = None
    first_lengths: list[int] = dataclasses.field(default_factory=list)
    lengths: list[int] = dataclasses.field(default_factory=list)
    sticking: str | None = None
    left: list[Soft] | None = None


@functools.lru_cache(1024)
def information(found: peeling.Peeler, z: int, info: range) -> str:
    """The information bits of what was peeled, `?` for one that is not known."""
    columns = -(-info.stop // z)
    unknown, bits = (peeling.text_of(it[:columns], z)[info.start : info.stop] for it in (found.unknown, found.ones))
    once, twice = digits((bits.encode(), unknown.encode()))
    return (once + 2 * twice).to_bytes(len(bits), "big").translate(BITS).decode()


@functools.lru_cache(1024)
def given(soft: Soft, fillers: range) -> tuple[str, str]:
    """Digits that say which bits of a codeword are known, and which of them are ones, with fillers that are zeros."""
    known, ones = known_and_ones(soft)
    first, last, count = fillers.start, fillers.stop, len(fillers)
    return known[:first] + "1" * count + known[last:], ones[:first] + "0" * count + ones[last:]


class Receiver:
    """A receiver. `shared` are mistakes in steps that an encoder has too: sizes, buffer, CRC, rows."""

    shared: steps.Wrong = frozenset()

    def __init__(self, rows_of: steps.Tables) -> None:
        self.tables = rows_of
        self.processes: dict[int, Process] = {}
        self.last: Arrival | None = None
        self.faulty = False
        self.found: list[peeling.Peeler] = []

    @property
    def clauses(self) -> Clauses:
        """The steps of an encoder, with the mistakes that it has too."""
        return steps.clauses(self.shared)

    @property
    def clash(self) -> bool:
        """Whether something could not be taken or some row is not met, or the decoder went on for very long."""
        return self.faulty or any(it.clash or it.rounds > STEADY for it in self.found)

    def take(self, told: Arrival, values: bytes) -> Answer:
        """What is answered to a transmission; its values are octets, 128 more than they are."""
        process = self.processes.setdefault(self.process_of(told), Process())
        clears = self.clears(told, process)
        if told.fresh or process.first is None:
            process.first = self.last = told
            process.delivered = None
        sizes = self.sizes(self.block_of(told), process.first)
        lengths = self.lengths(sizes, told, process.first)
        if clears or process.soft is None or [len(it) for it in process.soft] != [sizes.size] * sizes.c:
            process.soft = [empty(sizes.size)] * sizes.c
        if told is process.first or not process.first_lengths:
            process.first_lengths = lengths
        process.lengths = lengths
        self.combine(sizes, told, process, self.heard(values))
        return self.decided(sizes, told, process, self.decoded_all(sizes, told, process))

    def answers(self, case: Case, level: Level = MODEL) -> typing.Iterator[Answer]:
        """What is answered to each transmission of a case."""
        for told, values in zip(case.arrivals, case.values):
            yield self.take(told, octets_of(values, level))

    def depths(self, told: Arrival) -> list[tuple[int, int] | None]:
        """In how many rounds, and passes over layers, each code block is found after a transmission that was taken."""
        sizes = self.sizes(told, told)
        return [peeling.depth(self.rows(sizes), *self.columns(sizes, told, soft), sizes.k)
                for soft in self.processes[told.process].soft or []]

    # HARQ processes.

    def process_of(self, told: Arrival) -> int:
        """Which soft buffer a transmission belongs to."""
        return told.process

    def clears(self, told: Arrival, process: Process) -> bool:
        """Whether a transmission begins with an empty soft buffer."""
        return told.fresh

    def block_of(self, told: Arrival) -> Arrival:
        """Whose A and rate count."""
        return told

    # Sizes, and what of the codeword is in the buffer.

    def rate(self, told: Arrival) -> int:
        """The code rate that chooses the base graph, in 2048ths."""
        return told.rate2048

    def sizes(self, told: Arrival, first: Arrival) -> steps.Sizes:
        """The sizes of a block (5.2.2, 6.2.2, 7.2.2)."""
        return steps.sizes(told.a, self.rate(told), self.shared)

    def window(self, sizes: steps.Sizes) -> tuple[int, int]:
        """At which place of the codeword d begins, and how long it is (5.3.2)."""
        return steps.window(sizes, self.shared)

    def buffer(self, sizes: steps.Sizes, told: Arrival) -> int:
        """Ncb (5.4.2.1)."""
        _, length = self.window(sizes)
        return self.clauses.buffer_length(sizes, length, told.lbrm, max(len(told.scheduled(sizes.c)), 1))

    def version(self, told: Arrival, first: Arrival) -> int:
        """The redundancy version."""
        return told.rv

    def start(self, sizes: steps.Sizes, ncb: int, version: int) -> int:
        """k0 (Table 5.4.2.1-2)."""
        return self.clauses.start(sizes, ncb, version)

    # Rate recovery.

    def heard(self, values: bytes) -> bytes:
        """The values with a sign that is positive for a bit 0."""
        return values

    def lengths(self, sizes: steps.Sizes, told: Arrival, first: Arrival) -> list[int]:
        """E_r of each code block (5.4.2.1)."""
        return [*steps.lengths(sizes.c, told, self.shared)]

    def order(self, sizes: steps.Sizes) -> typing.Iterable[int]:
        """In which order the parts of the code blocks arrive (5.5)."""
        return range(sizes.c)

    def symbol(self, told: Arrival, first: Arrival) -> int:
        """Qm of the interleaver."""
        return told.qm

    def parts(self, sizes: steps.Sizes, told: Arrival, first: Arrival, values: bytes) -> list[bytes]:
        """What arrives, parted by code block and deinterleaved: e of each (5.5, 5.4.2.2)."""
        lengths, symbol, at = self.lengths(sizes, told, first), self.symbol(told, first), 0
        found = [b""] * sizes.c
        for r in self.order(sizes):
            found[r] = self.deinterleaved(values[at : at + lengths[r]], symbol)
            at += lengths[r]
        return found

    def deinterleaved(self, f: bytes, symbol: int) -> bytes:
        """e of an f (5.4.2.2)."""
        return steps.deinterleaved(f, symbol, self.shared)

    def skipped(self, sizes: steps.Sizes) -> range:
        """The places of the codeword that selection passes over: fillers."""
        return sizes.filled

    def places(self, sizes: steps.Sizes, told: Arrival, first: Arrival, count: int) -> steps.Places:
        """Where `count` values of a code block stand in the codeword; -1 is nowhere."""
        ncb, (at, length) = self.buffer(sizes, told), self.window(sizes)
        k0 = self.start(sizes, ncb, self.version(told, first))
        return self.selected(range(at, at + length), self.skipped(sizes), k0, ncb, count)

    def selected(self, ring: range, skipped: range, k0: int, ncb: int, count: int) -> steps.Places:
        """The places in the order in which they are read, of a d in these places of the codeword (5.4.2.1)."""
        return steps.selected(ring, skipped, k0, ncb, count, steps.among(self.shared, SELECTING, "selection"))

    def gathered(self, places: steps.Places, values: bytes, size: int) -> Soft:
        """One transmission's values at the places of a codeword."""
        return gathered(places, values, size)

    # Combining.

    def combine(self, sizes: steps.Sizes, told: Arrival, process: Process, values: bytes) -> None:
        """Adds what arrived to the soft values of all code blocks."""
        assert process.soft is not None and process.first is not None
        parts = self.parts(sizes, told, process.first, values)
        for r, part in enumerate(parts):
            places = self.places(sizes, told, process.first, len(part)) if part else steps.NOWHERE
            came = self.gathered(places, part, sizes.size)
            had = self.kept(process.soft[r], process.lengths[r])
            process.soft[r] = self.stored(self.combined(had, came, places))

    def kept(self, had: Soft, length: int) -> Soft:
        """What a code block has from before, of which so much is sent now."""
        return had

    def combined(self, had: Soft, came: Soft, places: steps.Places) -> Soft:
        """What there was with what came at these places."""
        return summed(had, came)

    def stored(self, soft: Soft) -> Soft:
        """The sums as they are kept."""
        return soft

    # The decoder.

    def given(self, sizes: steps.Sizes, told: Arrival, soft: Soft) -> tuple[str, str]:
        """Digits that say which bits of a codeword are given, and which of them are ones: fillers are zeros (5.3.2)."""
        return given(soft, sizes.filled)

    def columns(self, sizes: steps.Sizes, told: Arrival, soft: Soft) -> tuple[tuple[int, ...], tuple[int, ...]]:
        """The columns of these digits."""
        known, ones = self.given(sizes, told, soft)
        return peeling.columns_of(known, sizes.z), peeling.columns_of(ones, sizes.z)

    def rows(self, sizes: steps.Sizes) -> peeling.Rows:
        """The parity rows (5.3.2)."""
        return self.tables.rows(sizes, self.shared)

    def rows_used(self, sizes: steps.Sizes, process: Process) -> int:
        """How many of them the decoder uses."""
        return len(self.rows(sizes).rows)

    def iterations(self) -> int | None:
        """How many iterations the decoder makes at most; None is until nothing more is found."""
        return None

    def fixed_from(self) -> int:
        """The first column that the rows fix."""
        return 0

    def decoded(self, sizes: steps.Sizes, told: Arrival, process: Process, soft: Soft) -> str:
        """The information bits of a code block, `?` for one that is not known."""
        used, given = self.rows_used(sizes, process), self.columns(sizes, told, soft)
        found = peeling.peeled(self.rows(sizes), used, *given, self.iterations(), self.fixed_from())
        self.found.append(found)
        return information(found, sizes.z, sizes.info)

    def decoded_all(self, sizes: steps.Sizes, told: Arrival, process: Process) -> list[str]:
        """The same of all code blocks."""
        return [self.decoded(sizes, told, process, soft) for soft in process.soft or []]

    # The decision.

    def is_known(self, info: str) -> bool:
        """Whether all bits of a code block are known."""
        return "?" not in info

    def fits_code_block(self, sizes: steps.Sizes, bits: str) -> bool:
        """Whether the CRC24B of a code block fits (5.2.2)."""
        return steps.fits_code_block(sizes, bits, self.shared)

    def fits_block(self, sizes: steps.Sizes, a: str, rest: str, texts: list[str]) -> bool:
        """Whether the CRC of the transport block fits (6.2.1, 7.2.1)."""
        if len(a) < sizes.a:
            return False
        block = steps.attached(a, self.shared)
        if "crc-after-segmentation" in self.shared and sizes.c > 1:
            return self.clauses.code_blocks(block, sizes) == texts
        return block[sizes.a :] == rest

    def good(self, sizes: steps.Sizes, passed: list[bool], lengths: list[int], fits: bool) -> bool:
        """Whether a block is handed up, of which these code blocks passed and whose own CRC fits or does not."""
        return fits and all(passed)

    def cut(self, sizes: steps.Sizes, bits: str) -> str:
        """A code block without its CRC."""
        return bits[: sizes.kdash - sizes.l]

    def joined(self, sizes: steps.Sizes, texts: list[str]) -> str:
        """The transport block with its CRC, of its code blocks (5.2.2)."""
        return "".join(self.cut(sizes, text) for text in texts)

    def answered(self, process: Process, bits: str | None) -> str | None:
        """What is handed up of what was decided now."""
        return bits

    def decided(self, sizes: steps.Sizes, told: Arrival, process: Process, decoded: list[str]) -> Answer:
        texts = [it.replace("?", "0") for it in decoded]
        passed = [self.is_known(info) and self.fits_code_block(sizes, bits) for info, bits in zip(decoded, texts)]
        joined = self.joined(sizes, texts)
        a, rest = joined[: sizes.a], joined[sizes.a : sizes.b]
        good = self.good(sizes, passed, process.lengths, self.fits_block(sizes, a, rest, texts))
        process.delivered = self.answered(process, a if good else None)
        soft = process.soft or [empty(sizes.size)] * sizes.c
        return Answer(process.delivered, "".join("1" if it else "0" for it in passed), tuple(decoded),
                      tuple(self.shown(sizes, it) for it in soft))

    def shown(self, sizes: steps.Sizes, soft: Soft) -> str:
        """The signs of the soft values of d."""
        return part_of_signs(soft, *self.window(sizes))
