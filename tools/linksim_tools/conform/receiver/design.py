"""The cases of a suite for receivers, made for a table. They are special ones, mirrors, patterns of which nothing is
left over, and a ladder that measures iterations."""

from __future__ import annotations

import dataclasses
import sys
import typing

from linksim_tools.conform.encoder.points import first_sizes
from linksim_tools.conform.receiver import blocks, mirrors, plain, special, steps
from linksim_tools.conform.receiver.chain import Receiver
from linksim_tools.conform.receiver.blocks import Maker, sized
from linksim_tools.conform.receiver.reception import Arrival, Case

Item = typing.TypeVar("Item")

# Cases are added to `quick` that tell mistakes apart, up to so many in all.
MOST = 330

# The patterns of `quick`: transmissions, and which columns are wanted.
QUICK = """
a8-rv1-limit47 even, a8-rv1-limit47 early, a8-rv1-limit47 parity, a8-other-qm last, a8-twice second-copy, a8-qm8 even,
a8-rv0-limit55 even, a8-rv2-limit61 late, a8-rv3-limit73 extension, a8-long-short last, a24-rv0-limit55 even,
a296-rv2-limit61 early, a296-other-qm early, a296-rv1-limit47 parity, a336-other-qm even, a336-rv3-twice second-copy,
a288-rv0 parity, a296-1372-rv0 parity, a184-rv0 early, a176-rv0 early, a552-rv0 early, a1400-rv0 even, a3824-rv0 parity,
a3816-rv0 early, a296-rv1 even, a24-qm6 even, a24-rv0-limit55-twice second-copy, three-uneven early, two-uneven early,
two-limit-twice even, two-nl3 early, three-nl3 even, three-nl4 early, four-then-013 early, four-nl3 even, three-one-over early,
a296-rv1 late, a296-rv2 even, a296-rv3 early, a8-rv1 even, a8-rv3 even, a24-rv2 early, two-of-1-rv0 parity, three-then-12 even,
three-limit-then-12 last, three-then-02 extension, two-other-qm even, two-no-filler even, two-rate-511 early
"""
# How many rounds the rungs of the ladder take.
LADDER = ((9, 11), (12, 16), (17, 24))

# What the longest blocks are: names, A, code rate and part of the buffer.
LONGEST = (("longest-156", 1_310_688, 2048, 0.6), ("longest-344", 1_310_616, 512, 0.24))


def quick(make: Maker) -> typing.Iterator[Case]:
    yield from special.cases(make)
    yield from plain.ladder(make, LADDER)
    known = dict(plain.configurations())
    for name, wanted in (it.split() for it in QUICK.split(",")):
        yield from plain.plain(make, name, known[name], wanted)
    yield from mirrors.all_of(make)
    yield from plain.of_rows(make)


def further() -> typing.Iterator[tuple[str, list[Arrival], str]]:
    """What `full` has more: all transmissions by several columns, a case for each lifting size that a block reaches, cases of 3 to
    10 code blocks, and the longest blocks."""
    for name, arrivals in plain.configurations():
        yield from ((name, arrivals, wanted) for wanted in ("early", "late", "even"))
    for turn, ((graph, z), (smallest, largest, rate)) in enumerate(first_sizes().items()):
        a, wanted = (largest, smallest)[turn % 2], blocks.OTHERWISE[turn % 3]
        yield f"lifting-{graph}-{z}", sized(a, rate, [0], 0.9, qm=(1, 2, 4, 6, 8)[turn % 5]), wanted
    for count in range(3, 11):
        yield f"code-blocks-{count}", sized(3656 * count - 24, 512, [count % 4], 0.95, qm=2, over=count // 2), "early"
    for name, a, rate, part in LONGEST:
        yield name, sized(a, rate, [0], part), "early"


def full(make: Maker) -> typing.Iterator[Case]:
    yield from quick(make)
    for name, arrivals, wanted in further():
        yield from plain.plain(make, name, arrivals, wanted)


def counted(items: typing.Iterable[Item], words: str, is_told: bool) -> typing.Iterator[Item]:
    """The same items; each hundred of them are told on standard error, since the profile `full` takes minutes."""
    for number, item in enumerate(items, 1):
        if is_told and number % 100 == 0:
            print(f"{number} cases {words}", file=sys.stderr)
        yield item


def with_depth(tables: steps.Tables, case: Case) -> Case:
    """A case with the rounds that its last transmission takes of the deepest code block, if it is delivered."""
    receiver, told = Receiver(tables), case.arrivals[-1]
    *_, answer = receiver.answers(case)
    if answer.delivered is None or len(receiver.processes[told.process].soft or []) > 10:
        return case
    return dataclasses.replace(case, rounds=max(it or (0, 0) for it in receiver.depths(told)))


def designed(tables: steps.Tables, profile: str, seed: int) -> tuple[list[Case], list[str]]:
    """The cases of a profile, and which were left out since they cannot be made for this table."""
    make = Maker(tables, seed)
    cases: dict[str, Case] = {}
    for case in counted({"quick": quick, "full": full}[profile](make), "are made", profile == "full"):
        cases.setdefault(case.id, case)
    lacking = [f"base graph {graph}" for graph in sorted({1, 2} - tables.graphs())]
    for graph in lacking:
        print(f"the table lacks {graph}: its cases are left out", file=sys.stderr)
    left_out = [name for name in dict.fromkeys(make.left_out) if name not in cases]
    if left_out:
        by: dict[str, list[str]] = {}
        for name, _, why in (it.partition(" (") for it in left_out):
            by.setdefault(why and f" ({why}", []).append(name)
        said = "; ".join(", ".join(names) + why for why, names in by.items())
        print(f"no pattern is found for {len(left_out)} cases, which are left out: {said}", file=sys.stderr)
    return [with_depth(tables, it) for it in cases.values()], [*lacking, *left_out]
