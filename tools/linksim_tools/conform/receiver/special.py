"""The cases about values, processes, code blocks and decisions."""

from __future__ import annotations

import dataclasses
import typing

from linksim_tools.conform.bits import inverted
from linksim_tools.conform.clauses import right
from linksim_tools.conform.receiver import steps
from linksim_tools.conform.receiver.drafts import Draft
from linksim_tools.conform.receiver.blocks import Maker, NoPattern, again, sized
from linksim_tools.conform.receiver.mistakes import DOUBT
from linksim_tools.conform.receiver.reception import Case

# A block of base graph 2, and one of base graph 1.
SMALLEST, OTHER = 24, 296


def turned(values: str) -> str:
    """The values with the sign of the first one that arrives turned over."""
    at = len(values) - len(values.lstrip("0"))
    return values[:at] + ("-" if values[at] == "+" else "+") + values[at + 1 :]


def of_values(make: Maker, a: int, all_of_them: bool) -> typing.Iterator[Case]:
    """Cases about the values of one block: all of them, or those that matter at both base graphs."""

    def case(name: str, step: str, what: str, values: list[str], bits: str) -> Case:
        arrivals = [told, *again([told] * (len(values) - 1), fresh=False)]
        return Case(f"{name}-{a}", step, what, arrivals, values, [bits] * len(values))

    told, = sized(a, 2048, [0], 0.97)
    nothing = "0" * told.g
    draft = make.tight(f"values {a}", [told])
    (right,), (wrong,), (weak,), (high,), bits = *map(draft.values, ("+-", "-+", "Qq", "hH")), draft.bits
    yield case("flip", "decision", "one value has the wrong sign, and none is left over", [turned(right)], bits)
    yield case("weak-after", "combining", "right values, then weak wrong ones twice", [right, weak, weak], bits)
    yield case("weak-twice", "combining", "weak wrong values twice, then right ones", [weak, weak, right], bits)
    yield case("cancelled", "combining", "right values, then wrong ones as strong: erased", [right, wrong, right], bits)
    if not all_of_them:
        return
    yield case("nothing", "decision", "nothing arrives", [nothing], make.block(f"nothing {a}", a))
    yield case("cancelled-first", "combining", "wrong values, then right ones as strong twice", [wrong, right, right], bits)
    yield case("lowest", "parting", "the largest and the lowest values", draft.values("lL"), bits)
    yield case("weak-before", "combining", "weak wrong values, then right ones", [weak, right], bits)
    yield case("again-nothing", "processes", "a delivered block is sent again, and nothing arrives", [right, nothing], bits)
    one, other = in_parts(right, 2)
    yield case("strong", "combining", "half of the values four times, then the other half", [one] * 4 + [other], bits)
    yield case("sums", "combining", "four times the same half of the values, whose sum is over the largest, then the other half",
               [in_parts(high, 2)[0]] * 4 + [other], bits)
    mended = merged(in_parts(wrong, 2)[0], other)
    yield case("sums-hold", "combining", "half of the values twice, then wrong ones as strong with the other half",
               [one, one, mended], bits)
    yield case("fifths", "combining", "a fifth of the values in each of five transmissions", in_parts(right, 5), bits)


def in_parts(values: str, count: int) -> list[str]:
    """The values that arrive in so many transmissions, each of which has the next part of them."""
    at = [place for place, value in enumerate(values) if value != "0"]
    cuts = [at[len(at) * it // count] for it in range(1, count)]
    bounds = [0, *cuts, len(values)]
    return [values[first:last].rjust(last, "0").ljust(len(values), "0") for first, last in zip(bounds, bounds[1:])]


def merged(one: str, other: str) -> str:
    """The values of two transmissions that have none in common."""
    return "".join(first if first != "0" else second for first, second in zip(one, other))


def of_rounds(make: Maker, a: int) -> typing.Iterator[Case]:
    draft = make.draft(f"rounds {a}", sized(a, 2048, [0, 2, 3, 1, 0], 0.35), "in turn")
    yield make.case(f"five-{a}", "combining", "five transmissions, each of which is needed", draft)
    draft = make.draft(f"repeated {a}", sized(a, 2048, [0, 0, 2, 2], 0.6), "in turn")
    yield make.case(f"rv-repeated-{a}", "combining", "four transmissions, each rv of which comes twice", draft)


def of_contents(make: Maker, a: int) -> typing.Iterator[Case]:
    """Cases of blocks that are no drawn bits."""
    told, = sized(a, 2048, [0], 0.97)
    for name, bits in (("ones", "1" * a), ("single", "1".rjust(a, "0")), ("alternating", "10" * (a // 2))):
        yield make.case(f"{name}-{a}", "decoder", f"a block of {name} bits" if name != "single" else "a block of a single one",
                        make.draft(f"{name} {a}", [told], bits=bits))


def followed(name: str, what: str, one: Draft, other: Draft, strength: str = "qQ") -> Case:
    """A case of a fresh block after another one in the same process, weaker than that."""
    return Case(name, "processes", what, [*one.arrivals, *other.arrivals], [*one.values(), *other.values(strength)],
                [one.bits, other.bits])


def of_full_buffers(make: Maker, a: int, rate: int) -> typing.Iterator[Case]:
    """Cases of new data after a block of which every value arrived: nothing of it may be left in any part of the buffer."""
    told = sized(a, rate, [0], 1.0)
    for name in ("early", "even", "late") if a < 1000 else ("early",):
        what = f"new data after a block that filled the buffer, {name} columns first"
        other = make.draft(f"after full {a} {name}", told, name)
        yield followed(f"fresh-after-all-{a}-{name}", what, make.whole(f"full {a}", told), other)


# A fresh block after another one in the same process: a name, its rv, what it is, which columns arrive, and how strong.
FRESH = (
    ("fresh", 0, "a fresh block, weaker than the one before", "early", "qQ"),
    ("fresh-rv2", 2, "a fresh block with rv 2", "early", "qQ"),
    ("fresh-nothing", 0, "a fresh block of which nothing arrives", "early", "00"),
    ("fresh-late", 0, "a fresh block, weaker than the one before, by late columns", "late", "qQ"),
)


def of_fresh(make: Maker, a: int, name: str, version: int, what: str, wanted: str, strength: str) -> typing.Iterator[Case]:
    before = f"before {a}" if wanted == "early" else f"before {name} {a}"
    one, other = (make.draft(seed, sized(a, 2048, [rv], 0.97), wanted) for seed, rv in ((before, 0), (f"{name} {a}", version)))
    yield followed(f"{name}-{a}", what, one, other, strength)


def woven(name: str, what: str, made: dict[int, Draft]) -> Case:
    """A case of two transmissions of each of these drafts in turn, by process."""
    order = [(turn, process, it) for turn in range(2) for process, it in made.items()]
    return Case(name, "processes", what, [dataclasses.replace(it.arrivals[turn], process=process) for turn, process, it in order],
                [it.values()[turn] for turn, _, it in order], [it.bits for _, _, it in order])


def of_processes(make: Maker, a: int) -> typing.Iterator[Case]:
    one = make.draft(f"one {a}", sized(a, 2048, [0, 0], 0.9), "even")
    other = make.draft(f"other {a}", sized(a, 2048, [0, 2], 0.6), "even")
    for name, first, second in (("processes", 0, 1), ("processes-far", 3, 11)):
        yield woven(f"{name}-{a}", f"processes {first} and {second} in turn", {first: one, second: other})


def of_many_processes(make: Maker) -> typing.Iterator[Case]:
    short = sized(24, 2048, [0, 0], 0.9)
    made = {process: make.draft(f"{name} 24", short, "even") for process, name in ((9, "ninth"), (15, "last"))}
    yield woven("processes-last", "processes 9 and 15 in turn", made)
    yield woven("processes-all", "16 processes in turn", {
        it: make.draft(f"process {it}", sized(24, 2048, [it % 4, 0], 0.9), "even") for it in range(16)})
    made = {1: make.draft("short", short, "even"), 2: make.draft("long", sized(296, 2048, [0, 2], 0.6), "even")}
    yield woven("processes-sizes", "two processes with blocks of other sizes", made)


def of_code_blocks(make: Maker, tag: str, a: int, rate: int) -> typing.Iterator[Case]:
    told, = sized(a, rate, [0], 0.6, qm=2)
    draft, other = make.tight(f"{tag} one", [told]), make.tight(f"{tag} other", [told])
    (right,), (else_,) = draft.values(), other.values()
    half = len(draft.laid[0][0].numbers)

    def case(name: str, step: str, what: str, values: str, bits: str) -> Case:
        return Case(f"{tag}-{name}", step, what, [told], [values], [bits])

    nothing = "0" * told.g
    yield case("first", "decision", "the last code block does not arrive", right[:half] + nothing[half:], draft.bits)
    yield case("last", "decision", "the first code block does not arrive", nothing[:half] + right[half:], draft.bits)
    yield case("mixed", "decision", "code blocks of two blocks: each passes", right[:half] + else_[half:], draft.bits)
    yield case("flip", "decision", "one value of the last code block has the wrong sign, and none is left over",
               right[:half] + turned(right[half:]), draft.bits)
    yield case("nothing", "decision", "nothing arrives", nothing, draft.bits)


# Code blocks that are sent again after both were sent: a name, which, the columns wanted, the step, and what it is.
AGAIN = (
    ("rest", ((1,),), "all but even", "processes", "the code block that failed is sent again alone"),
    ("parts", ((0,), (1,)), "all but even", "combining", "both are sent again, one after the other"),
    ("hold", ((0,), None), "in thirds", "combining", "one code block is sent again, then both"),
)


def of_retransmissions(make: Maker, tag: str, a: int, rate: int, which: int) -> typing.Iterator[Case]:
    name, masks, wanted, step, what = AGAIN[which]
    arrivals = sized(a, rate, [0], 0.6, qm=2)
    for mask in masks:
        arrivals += again(sized(a, rate, [3 if mask is None else 2], 0.6, qm=2, mask=mask), fresh=False)
    yield make.case(f"{tag}-{name}", step, what, make.draft(f"{tag} {name}", arrivals, wanted))


def of_part_of_crc(make: Maker, a: int, rate: int) -> typing.Iterator[Case]:
    told, = sized(a, rate, [0], 0.97)
    draft = make.draft(f"crc {a}", [told])
    block = steps.attached(draft.bits)
    wrong = block[:a] + inverted(block[a : a + 8]) + block[a + 8 :]
    draft.words = [make.tables.word(draft.sizes, part, steps.RIGHT) for part in right().code_blocks(wrong, draft.sizes)]
    yield make.case(f"crc-octet-{a}", "decision", "the first octet of the block's CRC is wrong, and nothing else", draft)


def of_beginning(make: Maker, name: str, bits: str) -> typing.Iterator[Case]:
    told, = sized(24, 2048, [0], 0.97)
    draft = make.draft(name, [told], "parity", bits)
    yield make.case(f"begins-with-{name}", "decoder", f"the bits that are never sent are {name}", draft)


def of_parts(make: Maker) -> typing.Iterator[Case]:
    one, = sized(3832, 512, [0], 0.6, qm=2, mask=(0,))
    two, = again(sized(3832, 512, [0], 0.6, qm=2, mask=(1,)), fresh=False)
    yield make.case("two-one-by-one", "processes", "one code block, then the other", make.draft("by one", [one, two]))
    # All of the first code block arrives, so that its zeros are no guess.
    whole, = sized(3832, 512, [0], 0.97, qm=2, mask=(0,))
    bits = "0" * 1928 + make.block("zeros first", 3832 - 1928)
    draft = make.draft("zeros first", [whole, two], bits=bits)
    draft.kept[0] = [set(part.numbers) for part in draft.laid[0]]
    yield make.case("two-zeros-first", DOUBT, "a code block of zeros, then the other one alone", draft)


def of_doubts(make: Maker) -> typing.Iterator[Case]:
    """Cases that a receiver may fail by its arithmetic alone."""
    told = sized(1400, 2048, [0], 0.97)
    deep = make.draft("doubt", told, "even")
    yield make.case("doubt-full-scale", DOUBT, "values at full scale", deep, "lM")
    yield make.case("doubt-weak", DOUBT, "values of 1", deep, "iI")
    yield make.case("doubt-zeros", DOUBT, "a block of zeros", make.draft("doubt", told, "even", "0" * 1400))


def families(make: Maker) -> typing.Iterator[typing.Iterator[Case]]:
    """All of them by family; what the first base graph has in full, the second one has in part."""
    graphs = make.tables.graphs()
    for place, a in enumerate(it for it, graph in ((SMALLEST, 2), (OTHER, 1)) if graph in graphs):
        yield of_values(make, a, place == 0)
        yield from (of_fresh(make, a, *it) for it in FRESH[: 4 if a == SMALLEST else 3])
        yield from (of_rounds(make, a), of_contents(make, a), of_full_buffers(make, a, 2048))
    yield from (of_processes(make, SMALLEST), of_processes(make, OTHER), of_many_processes(make))
    yield from (of_part_of_crc(make, a, rate) for a, rate in ((SMALLEST, 2048), (3832, 2048)))
    several = [it for it in (("two", 3832, 512, 2), ("two-of-1", 8432, 2048, 1)) if it[3] in graphs]
    for place, (tag, a, rate, _) in enumerate(several):
        yield (it for it in of_code_blocks(make, tag, a, rate) if place == 0 or it.id == f"{tag}-mixed")
        for which in range(len(AGAIN) if place == 0 else 1):
            yield of_retransmissions(make, tag, a, rate, which)
    yield of_beginning(make, "zeros", "0" * 14 + "1011001110")
    yield of_beginning(make, "ones", "1" * 14 + "0011001110")
    yield from (of_parts(make), of_doubts(make), of_full_buffers(make, 3832, 512))


def cases(make: Maker) -> typing.Iterator[Case]:
    """All of them; a family ends if the table lacks its base graph, or has no pattern for it."""
    for family in families(make):
        try:
            yield from family
        except NoPattern as draft:
            make.leave_out(f"those of '{draft}'")
        except steps.Impossible:
            continue
