"""What `tools/conform` says of mistakes that have no name: each is planted in the chain of the model."""

from __future__ import annotations

import dataclasses
import typing
import unittest

import conform_shared
from linksim_tools.conform.bits import words_of
from linksim_tools.conform.case import Case, Plan
from linksim_tools.conform.clauses import SIZES, Clauses
from linksim_tools.conform.encoder import report as reporting

SEQUENCE = f"{0x9D4F13C2B76E0A85D3F1247C9B60E58A:0128b}" * 20_000


def added(bits: str) -> str:
    """The bits with a sequence added to them."""
    return f"{int(bits, 2) ^ int(SEQUENCE[: len(bits)], 2):0{len(bits)}b}" if bits else bits


def shares(case: Case, chosen: typing.Sequence[int], unit: int, count: int) -> dict[int, int]:
    """E_r whose first code blocks are the longer ones."""
    least, longer = divmod(case.g // unit, count)
    return {r: (least + (j < longer)) * unit for j, r in enumerate(chosen)}


class Pointers(unittest.TestCase):
    """What is said of one method of the chain that is another one."""

    def said(self, **methods: typing.Callable[..., typing.Any]) -> str:
        """The report from the diagnosis on."""
        made = reporting.report(conform_shared.suite(), conform_shared.answers_of(type("Wrong", (Clauses,), methods)()))
        text = "\n".join(reporting.text(made))
        return text[text.find("diagnosis") :]

    def test_no_shifts_of_columns_in_reverse(self) -> None:
        """A column of a few ones in reverse looks as if it were rotated."""
        def sent_columns(self: Clauses, word: str, plan: Plan) -> str:
            columns = words_of(word, plan.z)
            first = plan.k // plan.z + 10
            return Clauses.sent_columns(self, "".join([*columns[:first], *(it[::-1] for it in columns[first:])]), plan)

        said = self.said(sent_columns=sent_columns)
        self.assertNotIn("shifts that were used", said)
        self.assertIn("only rows from 10 on of base graph 1 are wrong", said)

    def test_what_is_said(self) -> None:
        """Which number, column or places differ, how many bits do, of what lengths are composed, and when it is so: a condition of
        what the step consumes."""
        planted: dict[str, dict[str, typing.Callable[..., typing.Any]]] = {
            "the same sequence is added to the right bits in all": {"joined": lambda self, f: added(Clauses.joined(self, f))},
            "parity bits of the CRC of 16 bits that never change: p_0 = 0": {
                "crc": lambda self, name, bits: "0" + Clauses.crc(self, name, bits)[1:]},
            r"shifts that were used: V = \d+, Zc = \d+: P = \d+, used is \d+": {
                "shift": lambda self, value, z, largest: (value + (value % 7 == 3)) % z},
            "the unit is Qm, the longer ones come first": {"lengths": lambda self, case, c, chosen: [
                shares(case, chosen, case.qm, len(chosen)).get(r, 0) for r in range(c)]},
            "NL = 3 is taken as 2": {
                "told": lambda self, case, before: dataclasses.replace(case, nl=2 if case.nl == 3 else case.nl)},
            "exactly where NL = 4": {
                "lengths": lambda self, case, *given: Clauses.lengths(self, case, *given)[:: -1 if case.nl == 4 else 1]},
            "exactly where (base graph [12] and )?Zc = 384": {
                "shift": lambda self, value, z, largest: (value + (z == 384 and value > 300)) % z},
            "E of the code blocks stands in reverse": {
                "lengths": lambda self, case, c, chosen: Clauses.lengths(self, case, c, chosen)[:: -1 if len(chosen) > 8 else 1]},
            "the parity bits of the CRC of 16 bits are rotated by 1 to the left": {
                "crc": lambda self, name, bits: (Clauses.crc(self, name, bits) * 2)[1 : self.polynomial(name)[0] + 1]},
            "the set index is the first number of the plan that differs, in each case that fails": {
                "set_index": lambda self, z: SIZES.index(z) % 8},
            "only column 23 of base graph 1 is wrong": {"sent_columns": lambda self, word, plan: Clauses.sent_columns(
                self, word[: plan.k + plan.z] + "0" * plan.z + word[plan.k + 2 * plan.z :], plan)},
            "blocks with a single 1 at base graph 1 fail if it is in column 3 or 4": {
                "read": lambda self, rows, graph, index: [
                    sorted(({3: 4, 4: 3}.get(it, it), values) for it, values in row) for row in rows]},
            "E adds up to less than is right": {"lengths": lambda self, case, c, chosen: [
                max(it - 8, 0) if case.g % 3 == 0 else it for it in Clauses.lengths(self, case, c, chosen)]},
            "E has the right lengths, of which others are the longer ones": {
                "is_longer": lambda self, j, r, counted, longer: longer > 0 and r % 3 == 0},
            "varying numbers of bits are missing": {
                "selected": lambda self, d, first, *given: Clauses.selected(self, d, first + given[1] % 7, *given)},
            "only bits at places that are 0 modulo 64 differ": {"joined": lambda self, f: "".join(
                "1" + word[1:] for word in words_of(Clauses.joined(self, f), 64))},
            "the wrong parity bits are those of the information bits in reverse": {
                "filled": lambda self, bits, fill: Clauses.filled(self, bits[::-1] if "0" in fill else bits, fill)},
            "only the last bit of each list differs": {"joined": lambda self, f: Clauses.joined(self, f)[:-1] + "0"},
        }
        for wanted, methods in planted.items():
            with self.subTest(wanted):
                self.assertRegex(self.said(**methods), wanted)

    def test_a_wrong_base_graph_accuses_no_later_step(self) -> None:
        """Where it leaves code blocks of no one length the clauses say nothing of them."""
        said = self.said(base_graph=lambda self, a, rate: 2 if a <= 3824 else 1,
                         bits_of_code_block=lambda self, b, c, l: -(-(b + c * l) // c))
        self.assertNotIn("step segmentation", said)

    def test_an_earlier_step_that_is_not_answered(self) -> None:
        """A fault in LDPC is not told again as one of selection where d is not answered, as a DUT leaves it out."""
        wrong = type("Wrong", (Clauses,), {"shift": lambda self, value, z, _: (value + value % 7) % z})
        answers = conform_shared.answers_of(wrong())
        for name, answer in answers.items():
            answer.d = None if conform_shared.suite().cases[name].mask != "all" else answer.d
        made = reporting.report(conform_shared.suite(), answers)
        self.assertEqual([step for step, it in made.steps.items() if it.failing], ["ldpc"])
        self.assertEqual({it.step for it in made.diagnosis}, {"ldpc"})

    def test_more_than_three_rounds(self) -> None:
        found = self.said(selected=lambda self, d, first, length, count: (
            lambda e, most: e[:most] + "0" * (len(e) - len(e[:most])))(
                Clauses.selected(self, d, first, length, count), 3 * len(self.ring(d, length).replace("-", ""))))
        self.assertIn("step selection", found)
