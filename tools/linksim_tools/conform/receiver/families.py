"""Mistakes of receivers that no list has, by their kind: numbers, limits and rows that an encoder has too, and what a receiver
does alone. Which of them give what was answered is tried in the model. How much is tried is counted in values, so that a verdict is
the same on every machine."""

from __future__ import annotations

import dataclasses
import itertools
import types
import typing

from linksim_tools.conform.encoder import mistakes as encoders
from linksim_tools.conform.encoder.families import limits, numbers
from linksim_tools.conform.encoder.families import rows as of_tables
from linksim_tools.conform.encoder.families.orders import SYMBOLS
from linksim_tools.conform.mistake import Method, Mistake, replacing
from linksim_tools.conform.receiver import known_answers, steps
from linksim_tools.conform.receiver.chain import Process, Receiver
from linksim_tools.conform.receiver.mistakes import SHARED, of_encoder, pairwise, translating
from linksim_tools.conform.receiver.soft import Soft, each, wrapped
from linksim_tools.conform.receiver.steps import Places, Sizes
from linksim_tools.conform.receiver.reception import Arrival, translated

if typing.TYPE_CHECKING:
    from linksim_tools.conform.receiver.diagnosis import Diagnosis

# The methods of an encoder's chain that a receiver has too.
HOOKS = frozenset("""
start starts buffer_length reference bits_of_code_block count lengths unit shared_by longer is_longer longer_length ring base_graph
filled_columns lifting_size set_index has_several largest shift value read rows
""".split())
# If more fit than these, none is told. They are looked for until receivers were given so many values.
MOST, WORK = 4, 40_000_000
# So many mistakes a case that fails is taken to have told away before it is tried.
LIKELY = 8
# What is tried first if a single case fails.
FIRST = ("too-few-bits", "of-a-kind")
VERSIONS = [it for count in (1, 2, 3) for it in itertools.combinations(range(4), count)]


def kind(step: str, clause: str, wrong: str, change: str, **methods: Method) -> Mistake:
    """A mistake that replaces a method of a receiver."""
    return Mistake("of-a-kind", step, (), clause, wrong, change, replacing(Receiver, methods))


def numbers_of(of: Diagnosis, told: Arrival, made: type[Receiver]) -> typing.Any:
    """The numbers that such a receiver has of a transmission, and its rows; None if there are none."""
    receiver = made(of.suite.tables)
    try:
        sizes = receiver.sizes(told, told)
        ncb = receiver.buffer(sizes, told)
        return sizes, ncb, receiver.start(sizes, ncb, told.rv), receiver.lengths(sizes, told, told), receiver.rows(sizes).rows
    except known_answers.FAULTS:
        return None


def of_encoders(of: Diagnosis, failing: list[str]) -> typing.Iterator[Mistake]:
    """The mistakes of encoders that a receiver can make, and no known one of receivers is."""
    told = dict.fromkeys(it for kept in of.suite.cases.values() for it in kept.case.arrivals)
    trials = [types.SimpleNamespace(case=it, right=types.SimpleNamespace(plan=steps.sizes(it.a, it.rate2048)))
              for it in told]
    listed = (it for name, it in encoders.MISTAKES.items() if name not in SHARED)
    right = {it: numbers_of(of, it, Receiver) for it in of.suite.cases[failing[0]].case.arrivals}
    for it in itertools.chain(listed, limits.mistakes(trials), numbers.mistakes(), of_tables.rows_lost()):
        hooks, mistake = HOOKS & vars(it.made).keys(), of_encoder(it, shared=frozenset([it]))
        # What is read round the buffer's end is not a number.
        if hooks and ("ring" in hooks or any(numbers_of(of, told, mistake.made) != had for told, had in right.items())):
            yield mistake


def at_places(change: typing.Callable[..., tuple[Sizes, Arrival]]) -> Method:
    """The places of other sizes, or of what is told otherwise."""
    def places(_self: Receiver, right: Method, sizes: Sizes, told: Arrival, first: Arrival, count: int) -> typing.Any:
        return right(*change(sizes, told), first, count)

    return places


def filled(sizes: Sizes, first: int, last: int) -> Sizes:
    """The sizes with fillers that begin and end so much later; none if they end before they begin."""
    found = range(sizes.filled.start + first, max(sizes.filled.stop + last, sizes.filled.start + first))
    return dataclasses.replace(sizes, filled=found) if len(sizes.filled) else sizes


def of_places() -> typing.Iterator[Mistake]:
    """Fillers and limits for some rv alone, fillers that are one place off, and places in too few bits."""
    for some in VERSIONS:
        said = " and ".join(map(str, some))
        yield kind("places", "5.4.2.1", f"fillers are not passed over for rv {said}", "pass over them for each rv",
                   places=at_places(lambda sizes, told, some=some: (
                       filled(sizes, 0, -sizes.size) if told.rv in some else sizes, told)))
        yield kind("places", "5.4.2.1", f"the limit of the buffer is ignored for rv {said}", "Ncb = min(N, Nref) for each rv",
                   places=at_places(lambda sizes, told, some=some: (
                       sizes, dataclasses.replace(told, lbrm=None) if told.rv in some else told)))
    for first, last, words in ((1, 0, "begin one place late"), (-1, 0, "begin one place early"), (0, 1, "end one place late"),
                               (0, -1, "end one place early")):
        yield kind("places", "5.4.2.1", f"the fillers {words}", "they are the places K' - 2 Zc to K - 2 Zc - 1 of d",
                   places=at_places(lambda sizes, told, at=(first, last): (filled(sizes, *at), told)))
    for bits in range(7, 16):
        for words, lost in (("are lost", True), (f"count modulo 2^{bits}", False)):
            yield kind("places", "5.4.2.1", f"places of d from {1 << bits:,} on {words}", "d has up to 25,344 places",
                       selected=in_bits(1 << bits, lost))


def in_bits(most: int, lost: bool) -> Method:
    """The places below a number of them, of which others are lost or begin again."""
    def selected(_self: Receiver, right: Method, ring: range, *given: typing.Any) -> Places:
        places = right(ring, *given)
        if len(ring) <= most:
            return typing.cast(Places, places)
        turn = [*range(ring.start, ring.start + most)]
        counted = [*range(ring.start), *turn, *([-1] * len(ring) if lost else turn * (len(ring) // most))][: ring.stop]
        return Places(map([*counted, -1].__getitem__, places))

    return selected


def ordered(order: typing.Callable[[int], list[int]], of: typing.Collection[int]) -> Method:
    """e with the rows of symbols of these Qm in another order."""
    def deinterleaved(_self: Receiver, right: Method, f: bytes, symbol: int) -> typing.Any:
        whole = len(f) // symbol * symbol
        return b"".join(f[row:whole:symbol] for row in order(symbol)) + f[whole:] if symbol in of else right(f, symbol)

    return deinterleaved


def of_parting() -> typing.Iterator[Mistake]:
    """The bits of symbols in another order, and the lengths of scheduled code blocks at others."""
    which = {"each symbol": (2, 4, 6, 8), "each symbol with Qm > 2": (4, 6, 8), **{f"Qm = {qm}": (qm,) for qm in (2, 4, 6, 8)}}
    for (words, order), (said, of) in itertools.product(SYMBOLS, which.items()):
        if any(order(qm) != [*range(qm)] for qm in of):
            yield kind("parting", "5.4.2.2", f"the bits of {said} are taken in another order: {words}",
                       "row 0 is the first bit of a symbol", deinterleaved=ordered(order, of))
    for words, change in (("from the last to the first", lambda it: it[::-1]), ("one too far", lambda it: it[-1:] + it[:-1]),
                          ("one too early", lambda it: it[1:] + it[:1])):
        yield kind("parting", "5.4.2.1", f"the mask of code blocks is read {words}", "digit r is code block r",
                   lengths=lambda _self, right, sizes, told, *first, change=change: (
                       right(sizes, told, *first) if told.mask is None else change(right(sizes, told, *first))))
    for count in (2, 3, 4):
        yield kind("parting", "5.4.2.1", f"of {count} code blocks the longest E_r comes first, and what is not sent last",
                   "the last mod(G / (NL Qm), C') code blocks that are sent have NL Qm bits more",
                   lengths=lambda _self, right, sizes, *given, count=count: (
                       sorted(right(sizes, *given), reverse=True) if sizes.c == count else right(sizes, *given)))


def clipped(bits: int) -> typing.Callable[[int], int]:
    return lambda it: max(-(1 << bits - 1), min(it, (1 << bits - 1) - 1))


def of_sums() -> typing.Iterator[Mistake]:
    """Values and sums in too few bits, and other ways to combine."""
    for bits in (4, 5, 6, 7):
        for words, change in (("wrap around", wrapped(bits)), ("stop at the largest one", clipped(bits))):
            words += ", with strong values of 16"
            yield kind("combining", "5.4.2.1", f"sums of {bits} bits {words}", "keep more bits",
                       stored=lambda _self, _right, soft, change=change: each(change, soft))
            yield kind("parting", "-", f"values of {bits} bits {words}", "keep more bits", heard=translating(translated(change)))
    weak = translated(lambda it: it if abs(it) >= 16 else 0)
    yield kind("parting", "-", "weak values are lost, with strong values of 16", "keep more bits", heard=translating(weak))
    for words, made in (("the stronger one of two values is kept", lambda old, new: old if abs(old) >= abs(new) else new),
                        ("the mean of what there was and what came is kept", lambda old, new: int((old + new) / 2)),
                        ("what comes later counts half", lambda old, new: old + int(new / 2) if old else new),
                        ("what comes is taken away from what there was", lambda old, new: old - new if old else new)):
        yield kind("combining", "5.4.2.1", words, "add the values", combined=pairwise(made))
    for words, first in (("the first transmission alone counts", True), ("the last transmission alone counts", False)):
        yield kind("combining", "5.4.2.1", words, "add the values",
                   combined=lambda _self, _right, had, came, _places, first=first: had if first and any(had) else came)


def left_from(part: typing.Callable[[Sizes], range]) -> Method:
    """What a fresh block finds in a part of the buffer is what was there before."""
    def combine(_self: Receiver, right: Method, sizes: Sizes, told: Arrival, process: Process, values: bytes) -> None:
        old, places = process.left, part(sizes)
        if told.fresh and old and process.soft and [len(it) for it in old] == [len(it) for it in process.soft]:
            first, last = places.start, places.stop
            process.soft = [Soft((*it[:first], *was[first:last], *it[last:])) for it, was in zip(process.soft, old)]
        right(sizes, told, process, values)
        process.left = process.soft

    return combine


def of_processes() -> typing.Iterator[Mistake]:
    """Processes that share a buffer, what a fresh block clears, and a block that is sent again."""
    for count in range(2, 16):
        for words, taken in ((f"processes share a soft buffer: p and p mod {count}", lambda it, count: it % count),
                             (f"processes share a soft buffer: all from {count} on", min)):
            yield kind("processes", "38.321, 5.3.2.1", words, "there are up to 16 processes",
                       process_of=lambda _self, _right, told, of=taken, count=count: of(told.process, count))
    clear = "a fresh block alone clears the soft buffer"
    for words, clears in (
        ("another A clears the soft buffer, and nothing else does", lambda told, first: told.a != first.a),
        ("another A or R clears the soft buffer, and nothing else does",
         lambda told, first: (told.a, told.rate2048) != (first.a, first.rate2048)),
        ("another rv clears the soft buffer", lambda told, first: told.fresh or told.rv != first.rv),
        ("another G clears the soft buffer", lambda told, first: told.fresh or told.g != first.g),
        ("another Qm clears the soft buffer", lambda told, first: told.fresh or told.qm != first.qm),
    ):
        yield kind("processes", "38.321, 5.3.2.2", words, clear,
                   clears=lambda _self, _right, told, process, clears=clears: process.first is None or clears(told, process.first))
    for words, part in (
        ("the upper half", lambda it: range(it.size // 2, it.size)), ("the lower half", lambda it: range(it.size // 2)),
        ("the last quarter", lambda it: range(it.size * 3 // 4, it.size)), ("the parity part", lambda it: range(it.k, it.size)),
        ("the information part", lambda it: range(it.k)),
    ):
        yield kind("processes", "38.321, 5.3.2.2", f"{words} of the soft buffer is not cleared by a fresh block", "clear all of it",
                   combine=left_from(part))


def of_decision() -> typing.Iterator[Mistake]:
    """Some code blocks that need not pass, and CRCs of which a part is compared."""
    must = "all code blocks must pass, and the CRC of the block"
    for words, enough in (
        ("one code block that passes is enough", lambda passed, fits: any(passed)),
        ("one code block that passes is enough, if the CRC of the block fits", lambda passed, fits: any(passed) and fits),
        ("the last code block need not pass", lambda passed, fits: all(passed[:-1]) and fits),
        ("the first code block need not pass", lambda passed, fits: all(passed[1:]) and fits),
        ("no code block need pass, if the CRC of the block fits", lambda passed, fits: fits),
        ("the first code block decides alone", lambda passed, fits: passed[0]),
        ("the last code block decides alone", lambda passed, fits: passed[-1]),
        ("half of the code blocks are enough", lambda passed, fits: 2 * sum(passed) >= len(passed)),
    ):
        yield kind("decision", "5.2.2", words, must,
                   good=lambda _self, _right, _sizes, passed, _lengths, fits, enough=enough: enough(passed, fits))
    for words, part in (("the first octet", slice(8)), ("the last octet", slice(-8, None)), ("the first 16 bits", slice(16)),
                        ("the last 16 bits", slice(-16, None)), ("all but the last bit", slice(-1))):
        yield kind("decision", "5.1", f"of the CRC of the transport block {words} alone counts", "compare all of it",
                   fits_block=lambda _self, _right, sizes, a, rest, _texts, part=part: (
                       len(a) == sizes.a and steps.attached(a)[sizes.a :][part] == rest[part]))


def mistakes(of: Diagnosis, failing: list[str]) -> typing.Iterator[Mistake]:
    yield from of_decision()
    yield from of_parting()
    yield from of_sums()
    yield from of_processes()
    yield from of_places()
    yield from of_encoders(of, failing)


def merged(fitting: list[Mistake]) -> list[Mistake]:
    """The same, with those together that have the same text up to a colon."""
    heads: dict[str, list[Mistake]] = {}
    for it in fitting:
        heads.setdefault(it.wrong.partition(": ")[0], []).append(it)
    alike = {head: " or ".join(filter(None, (it.wrong.partition(": ")[2] for it in some))) for head, some in heads.items()}
    return [dataclasses.replace(some[0], wrong=": ".join(filter(None, (head, alike[head])))) for head, some in heads.items()]


class Trials:
    """The cases on which mistakes are tried: first the smallest that fails, then what is small and told many others away."""

    def __init__(self, of: Diagnosis, failing: list[str]) -> None:
        self.of, self.first, self.work = of, failing[0], 0
        self.told = {**dict.fromkeys(of.judged, 1), **dict.fromkeys(failing, LIKELY)}
        self.sizes = {name: of.suite.cases[name].case.size for name in of.judged}
        self.order = sorted(of.judged, key=self.cost)

    def cost(self, name: str) -> float:
        """How many values a case has for each mistake that it told away."""
        return 0 if name == self.first else self.sizes[name] / self.told[name]

    def fit(self, it: Mistake) -> bool:
        """Whether a mistake gives what was answered to all cases."""
        for name in self.order:
            self.work += self.sizes[name]
            if not self.of.given_by(it.made, name):
                if name != self.first:
                    self.told[name] += 1
                    self.order.sort(key=self.cost)
                return False
        return True


def found(of: Diagnosis, failing: list[str]) -> tuple[list[Mistake], bool]:
    """Those that give what was answered to all cases, none if there are too many; and whether the search was cut short. If a
    single case fails, no limits of rules are among them: many would."""
    tried, most = mistakes(of, failing), MOST
    if len(failing) == 1:
        tried = iter(sorted((it for it in tried if it.name != "other-limit"), key=lambda it: (*FIRST, it.name).index(it.name)))
        most = 2 * MOST
    trials = Trials(of, failing)
    fitting: list[Mistake] = []
    for it in tried:
        if trials.work > WORK or len(merged(fitting)) > most:
            break
        if trials.fit(it):
            fitting.append(it)
    return merged(fitting) if len(merged(fitting)) <= most else [], trials.work > WORK
