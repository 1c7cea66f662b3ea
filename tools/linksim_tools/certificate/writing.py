"""The certificate of what a receiver concludes about a transport block, as lines of JSON (docs/certificates.md)."""

from __future__ import annotations

import itertools
import json
import typing

import nr

from linksim_tools.certificate.steps import rows_of, steps_of
from linksim_tools.conform import bits as lists
from linksim_tools.conform.receiver.peeling import Peeler, Rows, columns_of, text_of
from linksim_tools.table import fingerprint

VERSION = 1
NAMES = {nr.Outcome.DELIVERED: "delivered", nr.Outcome.OPEN: "undecided", nr.Outcome.CONTRADICTION: "inconsistent"}
# What arrived at a place, as a character.
CHARACTERS = bytes(ord("01-"[min(it, 2)]) for it in range(256))

Reception = typing.Tuple[nr.Tx, typing.Any]


def settings(rate2048: int, lbrm: int | None) -> dict[str, typing.Any]:
    """The settings of a link as arguments of nr's calls."""
    return {"rate2048": rate2048, **({} if lbrm is None else {"lbrm": lbrm})}


def fingerprint_of(table: nr.Table, plan: nr.Plan) -> str:
    """The line of the table's fingerprint of the base graph and the set index that a block takes."""
    return f"graph {plan.graph} set {plan.set} {fingerprint.digest(table, plan.graph, plan.set)}"


class Arrived:
    """What arrived of a transmission: `text` has 0, 1 or - for each place."""

    def __init__(self, tx: nr.Tx, given: typing.Any, a: int, rate2048: int, lbrm: int | None) -> None:
        octets = bytes(given) if isinstance(given, (list, tuple)) else memoryview(given).cast("B").tobytes()
        self.tx, self.octets = tx, octets
        self.text = octets.translate(CHARACTERS).decode()
        # For each place r N + n, where bit d_n of code block r is sent, and where each code block begins among the places.
        self.places: list[int] = nr.places(a, tx, **settings(rate2048, lbrm)).tolist()
        self.firsts = [0, *itertools.accumulate(nr.lengths(a, tx, rate2048=rate2048))]

    def line(self, c: int) -> dict[str, typing.Any]:
        """What a certificate has of it, for a transport block of c code blocks."""
        scheduled = list(range(c)) if self.tx.blocks is None else sorted({r for r in self.tx.blocks if r < c})
        numbers = {"rv": self.tx.rv, "g": self.tx.g, "qm": self.tx.qm, "nl": self.tx.nl}
        return {**numbers, "codeblocks": scheduled, "received": self.text}


class CodeBlock:
    """Code block r: `arrived` has the transmission, the place, the position and the bit of all that arrived of it. `rounds` has the
    check rows with the positions that they fix, `word` the bits in the end, and `stuck` a 1 for each that is unknown."""

    def __init__(self, r: int, plan: nr.Plan, rows: Rows, received: list[Arrived]) -> None:
        self.r, self.plan = r, plan
        self.arrived = [
            (number, place, one.places[place] - r * plan.n + 2 * plan.z, int(one.text[place]))
            for number, one in enumerate(received, 1)
            for place in range(one.firsts[r], one.firsts[r + 1]) if one.text[place] != "-"
        ]
        known, word = ["0"] * (rows.columns * plan.z), ["0"] * (rows.columns * plan.z)
        known[plan.kdash : plan.k] = "1" * (plan.k - plan.kdash)
        for _, _, position, bit in reversed(self.arrived):
            known[position], word[position] = "1", str(bit)
        peeler = Peeler(rows, len(rows.rows), columns_of("".join(known), plan.z), columns_of("".join(word), plan.z))
        self.rounds = [*steps_of(peeler)]
        self.steps = [*itertools.chain.from_iterable(self.rounds)]
        self.word, self.stuck = text_of(peeler.ones, plan.z), text_of(peeler.unknown, plan.z)

    def contradiction(self, table: nr.Table, a: int, rate2048: int) -> list[int] | None:
        """A transmission and a place with a bit that the codeword of the fixed bits does not have; or the number of the code block
        if its CRC24B is wrong."""
        plan, bits = self.plan, [*map(int, self.word[: self.plan.kdash])]
        word = [*bits[: 2 * plan.z], *nr.codeword(table, bits, a, rate2048=rate2048)]
        found = [[number, place] for number, place, position, bit in self.arrived if word[position] != bit]
        if plan.l and lists.remainder(lists.POLYNOMIALS["CRC24B"], self.word[: plan.kdash]):
            found.append([self.r])
        return next(iter(found), None)

    def line(self, outcome: nr.Outcome) -> dict[str, typing.Any]:
        """What a certificate has of it."""
        line: dict[str, typing.Any] = {"codeblock": self.r}
        line.update({"rows": [row for row, _ in self.steps], "positions": [position for _, position in self.steps]})
        if "1" in self.stuck[: self.plan.kdash]:
            line["stuck"] = [position for position, it in enumerate(self.stuck) if it == "1"]
        if outcome == nr.Outcome.CONTRADICTION:
            line["bits"] = self.word[: self.plan.kdash]
        return line


def certificate(
    table: nr.Table, a: int, receptions: typing.Iterable[Reception], *, rate2048: int, lbrm: int | None = None
) -> typing.Iterator[str]:
    """The lines of the certificate of a transport block of `a` bits. `receptions` are what nr.receive() takes: pairs of a Tx and of
    what arrived at its G places, which is 0, 1, or another octet where nothing did."""
    received = [Arrived(tx, given, a, rate2048, lbrm) for tx, given in receptions]
    found = nr.receive(table, a, [(it.tx, it.octets) for it in received], **settings(rate2048, lbrm))
    plan = nr.plan(a, rate2048=rate2048)
    rows = rows_of(table, plan.graph, plan.set, plan.z)
    code_blocks: typing.Iterable[CodeBlock] = (CodeBlock(r, plan, rows, received) for r in range(plan.c))
    head: dict[str, typing.Any] = {"certificate": VERSION, "outcome": NAMES[found.outcome], "a": a, **settings(rate2048, lbrm)}
    head.update({"fingerprint": fingerprint_of(table, plan), "transmissions": len(received)})
    if found.outcome == nr.Outcome.DELIVERED:
        head["block"] = bytes(found.block or b"").hex()
    if found.outcome == nr.Outcome.CONTRADICTION:
        code_blocks = list(code_blocks)
        against = (it.contradiction(table, a, rate2048) for it in code_blocks)
        head["contradiction"] = next((it for it in against if it), [])
    yield json.dumps(head)
    yield from (json.dumps(it.line(plan.c)) for it in received)
    yield from (json.dumps(it.line(found.outcome)) for it in code_blocks)
