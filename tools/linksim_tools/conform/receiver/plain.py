"""Cases of one block each, whose values are all needed: sizes, versions, buffers, symbols, copies, retransmissions. And those by
which every parity row of both base graphs, with every entry in every set, decides a bit; what no pattern shows."""

from __future__ import annotations

import itertools
import random
import typing

from linksim_tools.common.graphs import GRAPHS
from linksim_tools.conform.clauses import SETS
from linksim_tools.conform.encoder.points import first_sizes
from linksim_tools.conform.receiver import blocks, conditions, drafts, steps
from linksim_tools.conform.receiver.drafts import Columns, Draft, Group
from linksim_tools.conform.receiver.blocks import Maker, again, sized
from linksim_tools.conform.receiver.reception import Arrival, Case

# Sizes: a name, A and the code rate.
SMALL = (
    ("a8", 8, 2048), ("a24", 24, 2048), ("a176", 176, 1024), ("a184", 184, 1024), ("a288", 288, 2048), ("a296", 296, 2048),
    ("a296-1372", 296, 1372), ("a296-1373", 296, 1373), ("a336", 336, 2048), ("a544", 544, 1024), ("a552", 552, 1024),
    ("a624", 624, 1024), ("a632", 632, 1024), ("a704", 704, 1024), ("a1400", 1400, 2048)
)
LARGE = (
    ("a3816", 3816, 1371), ("a3824", 3824, 1372), ("a3824-1373", 3824, 1373), ("a3832-1372", 3832, 1372),
    ("a3824-511", 3824, 511), ("a3832-513", 3832, 513), ("a3832", 3832, 2048), ("a8424", 8424, 2048),
)
SEVERAL = (("two", 3832, 512), ("three", 7656, 512), ("two-of-1", 8432, 2048))
# So many cases at most are made for a base graph and a set, each the best of so many drawn orders of columns, and so many more in
# vain.
CASES, ORDERS, IN_VAIN = 9, 60, 4
# A size A and a code rate by which each base graph has its largest lifting size.
LARGEST_OF = {1: (8424, 2048), 2: (3824, 512)}
Configuration = typing.Tuple[str, typing.List[Arrival]]


def of_one_size(name: str, a: int, rate: int) -> typing.Iterator[Configuration]:
    """Versions, buffers, symbols, copies and retransmissions of one size."""
    for version in (1, 2, 3):
        yield f"{name}-rv{version}", sized(a, rate, [version], 0.97, qm=(2, 4, 1)[version - 1])
    for version, limit in ((0, 55), (1, 47), (2, 61), (3, 73), (3, 53)):
        yield f"{name}-rv{version}-limit{limit}", sized(a, rate, [version], 0.93, limit=limit)
    yield f"{name}-rv0-limit55-twice", sized(a, rate, [0], 1.9, limit=55)
    for qm in (2, 4, 6, 8):
        yield f"{name}-qm{qm}", sized(a, rate, [0], 0.95, qm=qm)
    yield f"{name}-twice", sized(a, rate, [0], 1.9)
    yield f"{name}-rv3-twice", sized(a, rate, [3], 1.9, limit=60)
    yield f"{name}-retransmitted", sized(a, rate, [0, 2], 0.5)
    yield f"{name}-other-qm", sized(a, rate, [0], 0.5, qm=4) + again(sized(a, rate, [3], 0.5, qm=2), fresh=False)
    yield f"{name}-short-long", sized(a, rate, [0, 2], [0.3, 0.8])
    yield f"{name}-long-short", sized(a, rate, [0, 2], [0.95, 0.1])
    yield f"{name}-same", sized(a, rate, [0, 0], 0.9)
    yield f"{name}-late-early", sized(a, rate, [2, 0], 0.5)


def of_several() -> typing.Iterator[Configuration]:
    """Several code blocks: shares that are not even, masks, limits."""
    for name, a, rate in SEVERAL:
        yield f"{name}-rv0", sized(a, rate, [0], 0.6, qm=2)
    for name, a, rate in SEVERAL[:2]:
        yield f"{name}-uneven", sized(a, rate, [0], 0.6, qm=4, nl=2, over=1)
        yield f"{name}-limit", sized(a, rate, [1], 0.9, qm=2, limit=47)
        yield f"{name}-limit-twice", sized(a, rate, [1], 1.95, qm=2, limit=47 if a < 4000 else 60)
    yield "three-uneven", sized(7656, 512, [0], 0.6, qm=2, over=2)
    yield "three-one-over", sized(7656, 512, [0], 0.6, qm=2, over=1)
    yield "two-nl3", sized(3832, 512, [0], 0.6, qm=2, nl=3, over=1)
    yield "three-nl3", sized(7656, 512, [0], 0.6, qm=2, nl=3, over=2)
    yield "three-nl4", sized(7656, 512, [0], 0.6, qm=2, nl=4, over=1)
    yield "four-nl3", sized(14600, 512, [0], 0.6, qm=2, nl=3, over=2)
    then = sized(14600, 512, [0], 0.55, qm=2, nl=2, mask=(0, 1, 3), over=2)
    yield "four-then-013", sized(14600, 512, [0], 0.6, qm=2) + again(then, fresh=False)
    for mask, nl in (((0, 2), 1), ((1, 2), 2)):
        label = "".join(map(str, mask))
        then = sized(7656, 512, [0], 0.55, qm=2, nl=nl, mask=mask, over=1)
        yield f"three-then-{label}", sized(7656, 512, [0], 0.6, qm=2) + again(then, fresh=False)
    then = sized(7656, 512, [3], 1.9, qm=2, limit=62, mask=(1, 2))
    yield "three-limit-then-12", sized(7656, 512, [0], 0.97, qm=2, limit=62) + again(then, fresh=False)
    yield "three-floor", [Arrival(7656, 512, 15004, 1, 3 * 7300, 2)]
    yield "two-floor", [Arrival(3832, 512, 10007, 1, 2 * 6600, 2)]
    yield "two-rate-511", sized(3832, 511, [0], 0.6, qm=2)
    yield "two-no-filler", sized(4088, 512, [0], 0.6, qm=2)
    g = 8 * (2 * 780 + 1)
    yield "two-other-qm", [Arrival(3832, 512, None, 0, g, 2), Arrival(3832, 512, None, 0, g, 8, fresh=False)]


def configurations() -> typing.Iterator[Configuration]:
    """All of them, small ones first."""
    for name, a, rate in SMALL:
        yield f"{name}-rv0", sized(a, rate, [0], 0.99)
    for name, a, rate in (SMALL[0], SMALL[1], SMALL[5], SMALL[8]):
        yield from of_one_size(name, a, rate)
    yield "a8-wrapped", sized(8, 2048, [0, 1], [0.5, 1.3])
    yield from ((f"a8-rv1-limit{limit}", sized(8, 2048, [1], 0.97, limit=limit)) for limit in (65, 140))
    yield "a296-rate", sized(296, 2048, [0, 2], [0.5, 1.6])
    for name, a, rate in LARGE:
        yield f"{name}-rv0", sized(a, rate, [0], 0.9)
    yield from of_several()


def step_of(name: str) -> str:
    """What a case of these transmissions is for."""
    if "qm" in name or "uneven" in name or "then" in name:
        return "parting"
    return "decoder" if "short" in name else "combining" if "twice" in name or "retransmitted" in name else "places"


def about(arrivals: list[Arrival], wanted: str) -> str:
    """A case of these transmissions in words."""
    it = arrivals[0]
    limit = "" if it.lbrm is None else ", a limited buffer"
    sent = " and ".join(f"rv {told.rv} with Qm {told.qm}" for told in arrivals)
    return f"{it.a} bits by {sent}{limit}; what arrives is needed, {wanted.replace('-', ' ')} columns first"


def plain(make: Maker, name: str, arrivals: list[Arrival], wanted: str) -> typing.Iterator[Case]:
    """A case of these transmissions, if a pattern is found."""
    for order in dict.fromkeys((wanted, *blocks.OTHERWISE)):
        try:
            draft = make.draft(f"{name} {wanted}", arrivals, order)
        except steps.Impossible:
            continue
        yield make.case(f"{name}-{wanted}", step_of(name), about(arrivals, order), draft)
        return
    make.leave_out(f"{name}-{wanted}", steps.sizes(arrivals[0].a, arrivals[0].rate2048).graph)


def ladder(make: Maker, wanted: typing.Sequence[tuple[int, int]]) -> typing.Iterator[Case]:
    """Cases whose columns take so many rounds: how many iterations a receiver makes."""
    sizes = [it for it in SMALL if steps.sizes(*it[1:]).graph in make.tables.graphs()]
    for least, most in wanted:
        tried = (make.whole(f"ladder {name}", sized(a, rate, [0], 0.99)).critical(
            blocks.WANTED[order], "deep", 40, range(least, most + 1))
            for (name, a, rate), order in itertools.product(sizes, ("parity", "late", "even", "extension")))
        found = next(filter(None, tried), None)
        if found is None:
            make.leave_out(f"rounds-{least}")
        else:
            yield make.case(f"rounds-{least}", "decoder", f"{least} to {most} rounds of flooding", found)


def size_of(graph: int, index: int) -> tuple[int, int]:
    """A small block, with its code rate, whose lifting size is of a set."""
    z = next(z for (it, z) in first_sizes() if it == graph and SETS[z] == index and z > 3)
    _, a, rate = first_sizes()[graph, z]
    return a, rate


def orders(groups: typing.Iterable[Group], first: int, left: set[int], drawn: random.Random) -> typing.Iterator[list[Group]]:
    """Drawn orders of the columns that arrive: the parity columns of some of these rows, then those of others or information."""
    for turn in range(ORDERS):
        some = set(drawn.sample(sorted(left), min(len(left), drawn.randint(3, 14))))
        yield sorted(groups, key=lambda it: (it[1] - first not in some, turn % 3 == 0 and it[1] < first, drawn.random()))


def keeps_best(draft: Draft, left: set[int], drawn: random.Random) -> bool:
    """Keeps few columns that fix the block by as many of these rows as drawn orders find; says whether there are such."""
    columns = Columns(draft.receiver, draft.sizes)
    groups = draft.groups(0, columns)

    def lost(kept: list[Group]) -> int | None:
        known = columns.mask(kept)
        shown = {row for _, rows in columns.spread(known) for row in rows & left}
        return -len(shown) if shown and columns.rounds(known) <= drafts.ROUNDS else None

    tried = map(columns.least, orders(groups, draft.sizes.k // draft.sizes.z, left, drawn))
    found = drafts.best((it for it in tried if it is not None), lost)
    if found is not None:
        draft.keep(0, found, groups)
    return found is not None


def showing(
    make: Maker, name: str, seed: str, told: Arrival, left: set[int], most: int
) -> typing.Generator[Case, None, set[int]]:
    """So many cases of a transmission at most, until each of these rows decides a bit; returns those that do not."""
    drawn, vain, count = random.Random(f"{make.seed} {seed}"), 0, 0
    draft = make.whole(f"rows {seed}", [told])
    while left and vain < IN_VAIN and count < most:
        vain += 1
        if keeps_best(draft, left, drawn):
            case = make.case(f"{name}-{count}", "decoder", about([told], "drawn parity"), draft)
            shown = conditions.deciding(make.tables, case) & left
            if shown:
                left, vain, count = left - shown, 0, count + 1
                yield case
    return left


def of_large_numbers(make: Maker, graph: int) -> typing.Iterator[Case]:
    """Cases of the largest lifting size, by a shift of 9 bits and by a place of d of 15 bits."""
    told, = sized(*LARGEST_OF[graph], [0], 1.0)
    rows = make.receiver().rows(steps.sizes(told.a, told.rate2048))
    for what, some in (("shifts", {number for number, row in enumerate(rows.rows) if max(shift for _, shift in row) > 255}),
                       ("places", {number for number, row in enumerate(rows.rows) if (row[-1][0] - 2) * rows.z > 16_383})):
        if some and some == (yield from showing(make, f"rows-{graph}-{what}", f"{graph} {what}", told, some, 1)):
            make.leave_out(f"rows-{graph}-{what}")


def of_rows(make: Maker) -> typing.Iterator[Case]:
    for graph in make.tables.graphs():
        for index in range(8):
            told, = sized(*size_of(graph, index), [0], 1.0, qm=(1, 2, 4)[index % 3])
            rows = set(range(GRAPHS[graph].rows))
            left = yield from showing(make, f"rows-{graph}-set{index}", f"{graph} {index}", told, rows, CASES)
            if left:
                make.leave_out(f"row {', '.join(map(str, sorted(left)))} of base graph {graph} in set {index}")
        yield from of_large_numbers(make, graph)
