"""Where each position of an undecided code block comes from: received, a filler, fixed in a round of peeling, or stuck."""

from __future__ import annotations

import pathlib
import typing

import nr

from linksim_tools.certificate.rounds import rounds
from linksim_tools.certificate.steps import rows_of
from linksim_tools.certificate.writing import Arrived, CodeBlock
from linksim_tools.common.program import Failed
from linksim_tools.outcome.page import FILLER, HEARD, MOST_PICTURES, STUCK

if typing.TYPE_CHECKING:
    from linksim_tools.outcome.endings import Outcome


def states_of(one: CodeBlock) -> list[int]:
    """What each position of a code block is: the number of the round that fixed it, or one of the three above."""
    found = [STUCK] * len(one.stuck)
    for _, _, position, _ in one.arrived:
        found[position] = HEARD
    found[one.plan.kdash : one.plan.k] = [FILLER] * (one.plan.k - one.plan.kdash)
    for number, steps in enumerate(one.rounds, 1):
        for _, position in steps:
            found[position] = number
    return found


def pictures(program: pathlib.Path, words: dict[str, str], outcome: Outcome) -> dict[tuple[int, int], list[int]]:
    """What each position of the first undecided code blocks is, by the number of the block or round and that of the code block. A
    failure is raised if peeling does not end where `audit` does."""
    found: dict[tuple[int, int], list[int]] = {}
    for at, one in enumerate(rounds(program, words, outcome)):
        if one.ended.stuck and len(found) < MOST_PICTURES:
            a = 8 * len(one.block)
            plan = nr.plan(a, rate2048=one.rate2048)
            rows = rows_of(one.table, plan.graph, plan.set, plan.z)
            received = [Arrived(tx, given, a, one.rate2048, one.lbrm) for tx, given in one.receptions()]
            for r, stuck in [*one.ended.stuck.items()][: MOST_PICTURES - len(found)]:
                found[at, r] = states_of(CodeBlock(r, plan, rows, received))
                if [position for position, state in enumerate(found[at, r]) if state == STUCK] != stuck:
                    said = "audit names other positions: the program or the tool is wrong"
                    raise Failed(f"block {one.ended.block}, code block {r}: {said}")
    return found
