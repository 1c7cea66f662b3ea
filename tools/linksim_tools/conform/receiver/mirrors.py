"""Mirrors: values that are laid so that a receiver with one certain mistake finds its own word, its own rows and its
own CRC. Such a receiver delivers, and a right one must not."""

from __future__ import annotations

import typing

from linksim_tools.conform.receiver import elimination, plain
from linksim_tools.conform.receiver.drafts import Draft, words
from linksim_tools.conform.receiver.known_answers import FAULTS
from linksim_tools.conform.receiver.blocks import WANTED, Maker
from linksim_tools.conform.receiver.mistakes import MISTAKES
from linksim_tools.conform.receiver.reception import Case
from linksim_tools.conform.receiver.soft import known_and_ones

ORDERS = [WANTED[it] for it in ("extension", "early", "parity", "last", "even")]


def fault_of(make: Maker, case: Case) -> str:
    """Why a case is no mirror, by what a receiver with its mistake or a right one makes of it; nothing if it is one. A right one is
    to lose some code block for sure: so many values are wrong that those it has more than bits are no help to correct them."""
    mistaken, right, told = make.receiver(case.mirror), make.receiver(), case.arrivals[-1]
    *_, answer = mistaken.answers(case)
    if answer.delivered != case.meant[-1] or mistaken.clash:
        return "its values contradict themselves"
    *_, answer = right.answers(case)
    sizes = right.sizes(told, told)
    if answer.delivered is not None or elimination.block_of(sizes, elimination.Solution(right, told).fixed()) is not None:
        return "a right receiver finds the block too"
    for soft, word in zip(right.processes[told.process].soft or [], words(right, told, case.meant[-1])):
        known, ones = known_and_ones(soft)
        wrong = sum(1 for is_known, one, bit in zip(known, ones, word) if is_known == "1" and one != bit)
        if 2 * (known.count("1") - len(sizes.info)) <= wrong:
            return ""
    return "a right receiver may correct the values that are wrong"


# The mistakes that have a mirror, by the transmissions that mostly have one.
BY_CONFIGURATION = """
a8-rv0: sign-inverted fillers-filled punctured-one fillers-ones crc-exchanged crc-preset crc-inverted crc-parity-lowest-first
  crc-octets-lowest-first graph-by-rate kb-10 lifting-by-k lifting-next lifting-strict set-next set-rows set-from-one shift-left
  shift-unreduced shift-subtracted-once shift-capped shift-scaled shift-multiple-dropped fillers-first punctured-sent punctured-kept
  extension-information-alone k0-shifted
a8-rv1: rv-ignored k0-other-graph k0-in-word rv-order interleaver-transposed interleaver-by-columns
a8-wrapped: wrapped-to-start
a8-rv1-limit65: fillers-unshifted
a8-rv1-limit140: ncb-times-factor
a8-rv1-limit47: ncb-no-factor ncb-ignored k0-from-n wrapped-at-n
a8-rv2-limit61: k0-plus-one-column k0-no-floor
a8-other-qm: symbols-of-first
a8-qm8: symbols-at-most-6 interleaver-symbol-reversed
a8-retransmitted: rv-of-first
a24-rv0: shift-masked
a176-rv0: kb-limits
a184-rv0: kb-by-a
a288-rv0: graph-by-b
a296-rv0: graph-of-transmission graph-by-size shift-zero-dropped
a296-1372-rv0: graph-two-thirds
a3816-rv0: crc-by-b
a3824-rv0: graph-3824-strict segment-limit
a3832-1372-rv0: crc-24a-24b kcb-3840
two-rv0: blocks-taken-reversed joined-reversed graph-quarter-strict graph-quarter-forgotten code-crc-left-out code-crc-zeros
  code-crc-over-fillers crc-after-segmentation interleaver-over-all
two-uneven: lengths-all-shorter lengths-longer-first lengths-no-layers
two-other-qm: lengths-of-first
two-limit-twice: ncb-no-c
three-then-02: mask-squeezed lengths-count-all
three-then-12: lengths-by-number
three-floor: ncb-floor-early
three-limit-then-12: ncb-scheduled
"""
# So many other transmissions are tried if these have none, and so many orders of columns for the first and for others.
OTHERS, TRIES, FEW = 8, 60, 15


def mirror(make: Maker, name: str, configurations: typing.Sequence[plain.Configuration]) -> Case | str:
    """The first of these transmissions that a receiver with this mistake delivers and a right one does not, or why none is."""
    whys: list[str] = []
    for label, arrivals in configurations:
        try:
            bits = make.block(f"mirror {name} {label}", arrivals[0].a)
            draft = Draft(make.receiver(name), arrivals, bits)
            moved = draft.moved(Draft(make.receiver(), arrivals, bits))
            if not moved and name != "sign-inverted":
                continue
            what = f"only a receiver with {name} delivers it ({label})"
            case = Case(f"mirror-{name}", MISTAKES[name].step, what, arrivals, [], [bits] * len(arrivals), name)
            why = laid_for(make, case, draft, moved, FEW if whys else TRIES)
        except FAULTS:  # the mistake has no sense for these sizes
            continue
        if not why:
            return case
        whys.append(why)
        if len(whys) > OTHERS:
            break
    return " or ".join(dict.fromkeys(whys)) or "it changes nothing at these sizes"


def laid_for(make: Maker, case: Case, draft: Draft, moved: set[tuple[int, int]], tries: int) -> str:
    """Gives a case values of a draft that a receiver with this mistake delivers and a right one does not, or says why none are. The
    last order that is tried has those columns first of which the mistake moves a value."""
    first, why = draft.sizes.k // draft.sizes.z, "no whole columns of the table fix the block"

    def moved_first(t: int, column: int, copy: int) -> typing.Any:
        return (t, column + first) not in moved, -copy, 0 <= column < 4, column

    for wanted in (*ORDERS, moved_first):
        if draft.critical(wanted, seed=case.what, tries=tries):
            case.values = draft.values()
            why = fault_of(make, case)
            if not why:
                break
    return why


def all_of(make: Maker) -> typing.Iterator[Case]:
    known = dict(plain.configurations())
    small = [pair for pair in known.items() if sum(it.g for it in pair[1]) < 1200]
    for line in BY_CONFIGURATION.replace("\n  ", " ").strip().splitlines():
        label, names = line.split(":")
        for name in names.split():
            found = mirror(make, name, [(label, known[label]), *small])
            if isinstance(found, str):
                make.leave_out(f"mirror-{name} ({found})")
            else:
                yield found
