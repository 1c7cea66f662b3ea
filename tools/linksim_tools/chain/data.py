"""What the page of a transport block is drawn from."""

from __future__ import annotations

import base64
import struct
import typing

import nr

from linksim_tools.certificate.steps import rows_of
from linksim_tools.certificate.writing import NAMES, Arrived, CodeBlock, Reception, settings
from linksim_tools.common.graphs import GRAPHS
from linksim_tools.common.program import Wrong
from linksim_tools.conform.bits import hexadecimal

Object = typing.Dict[str, typing.Any]
# With more transmissions the rings of the buffer would be too thin to see.
MOST_TRANSMISSIONS = 32


def text_of(bits: typing.Iterable[int]) -> str:
    return "".join(map(str, bits))


def runs_of(places: typing.Sequence[int], qm: int) -> list[list[int]]:
    """The indexes of a code block's bits in the order of e, in which they ascend but for a few jumps: where each run begins, and
    how long it is."""
    runs: list[list[int]] = []
    for row in range(qm):
        for index in map(int, places[row::qm]):
            if runs and index == sum(runs[-1]):
                runs[-1][1] += 1
            else:
                runs.append([index, 1])
    return runs


def transmission(one: Arrived, plan: nr.Plan) -> Object:
    """A transmission: its numbers, what arrived, and which bits of each scheduled code block it carries."""
    tx, firsts = one.tx, one.firsts
    parts = [
        {"r": r, "runs": runs_of([it - r * plan.n for it in one.places[firsts[r] : firsts[r + 1]]], tx.qm)}
        for r in range(plan.c) if firsts[r] < firsts[r + 1]
    ]
    arrived, erased = one.text.replace("-", "0"), one.text.translate({48: "0", 49: "0", 45: "1"})
    numbers = {"rv": tx.rv, "g": tx.g, "qm": tx.qm, "nl": tx.nl}
    return {**numbers, "bits": hexadecimal(arrived), "erased": hexadecimal(erased), "parts": parts}


def ended_of(found: nr.Received) -> str:
    """How the block ends, as a sentence."""
    if found.outcome == nr.Outcome.DELIVERED:
        return "The block is delivered: it is the only one that is consistent with everything received."
    if found.outcome == nr.Outcome.OPEN:
        return "The block is undecided: peeling does not fix every code block."
    return "The block is inconsistent: no block is consistent with everything received."


def data_of(
    table: nr.Table, block: bytes, receptions: typing.Sequence[Reception], *, rate2048: int, lbrm: int | None = None
) -> Object:
    """The data of the page of a transport block, and of what was received of it."""
    if len(receptions) > MOST_TRANSMISSIONS:
        raise Wrong(f"the page shows at most {MOST_TRANSMISSIONS} transmissions of a block, and there are {len(receptions)}")
    a, link = 8 * len(block), settings(rate2048, lbrm)
    plan = nr.plan(a, rate2048=rate2048)
    received = [Arrived(tx, given, a, rate2048, lbrm) for tx, given in receptions]
    found = nr.receive(table, a, [(it.tx, it.octets) for it in received], **link)
    rows = rows_of(table, plan.graph, plan.set, plan.z)
    cut = [nr.cut(block, r, rate2048=rate2048) for r in range(plan.c)]
    b = text_of(bit for bits in cut for bit in bits[: plan.kdash - plan.l])
    words = [[*bits[: 2 * plan.z], *nr.codeword(table, bits, a, rate2048=rate2048)] for bits in cut]
    steps = [CodeBlock(r, plan, rows, received).steps for r in range(plan.c)]
    return {
        "plan": {**plan._asdict(), "a": a, "columns": GRAPHS[plan.graph].columns},
        "k0": [nr.buffer(a, rv, **link).k0 for rv in range(4)],
        "ncb": nr.buffer(a, 0, **link).ncb,
        "entries": sorted([number, *entry] for number, row in enumerate(rows.rows) for entry in row),
        "b": hexadecimal(b), "words": [hexadecimal(text_of(bit & 1 for bit in word)) for word in words],
        "transmissions": [transmission(it, plan) for it in received],
        "steps": [base64.b64encode(struct.pack(f"<{len(it)}H", *(row for row, _ in it))).decode() for it in steps],
        "outcome": NAMES[found.outcome], "ended": ended_of(found),
    }
