"""Parts of the diagnosis of tools/conform, each by hand: mistakes, conditions, shifts, parity bits, points, the page."""

from __future__ import annotations

import dataclasses
import inspect
import typing
import unittest

import conform_shared
import report_pages
from linksim_tools.conform.case import Case
from linksim_tools.conform.clauses import Clauses
from linksim_tools.conform.code import rotated
from linksim_tools.conform.encoder import design, displacement, points, polynomials, search
from linksim_tools.conform.encoder import report as reporting
from linksim_tools.conform.conditions import Common, Condition
from linksim_tools.conform.encoder.mistakes import MISTAKES, clauses_of


class Listed(unittest.TestCase):
    """The listed mistakes."""

    def test_each_replaces_methods_of_the_chain(self) -> None:
        right = {name for name, _ in inspect.getmembers(Clauses, inspect.isfunction)}
        for it in (*MISTAKES.values(), *search.of_every_suite()):
            with self.subTest((it.name, it.wrong)):
                replaced = set(vars(it.made)) - {"__module__", "__doc__"}
                self.assertTrue(replaced and replaced <= right, replaced)

    def test_two_together_are_a_class_of_both(self) -> None:
        both = clauses_of(frozenset([MISTAKES["shift-left"], MISTAKES["fillers-one"]]))
        self.assertEqual((both.shift(44, 16, 256), both.filled("1", "00")), ((-44) % 16, "111"))

    def test_two_of_one_method_are_both_made(self) -> None:
        """Also if a family makes one of them."""
        other = next(it for it in search.of_every_suite() if it.wrong == "the redundancy versions 0, 1, 2, 3 begin as 1, 0, 2, 3")
        plan = Clauses().plan_of(24, 2048)
        both = clauses_of(frozenset([MISTAKES["k0-shifted"], other]))
        self.assertEqual(both.start(plan, plan.n, 1), 2 * plan.z)


class Conditions(unittest.TestCase):
    """What cases have in common."""

    CASES = {it.id: it for it in design.designed("quick", 1)}
    COMMON = Common({name: [points.Facts(it)] for name, it in CASES.items()})

    def condition(self, fails: typing.Callable[[Case], bool], *steps: str) -> Condition:
        """What is found of the cases that fail so, and of no other."""
        failing = [name for name, it in self.CASES.items() if fails(it)]
        found = self.COMMON.condition(failing, [name for name in self.CASES if name not in failing], steps)
        assert found
        self.assertEqual((found.failing, found.others), (len(failing), len(self.CASES) - len(failing)))
        return found

    def test_one_property_and_two(self) -> None:
        self.assertEqual(self.condition(lambda it: it.qm == 6).words, "Qm = 6")
        self.assertEqual(self.condition(lambda it: it.qm == 2 and it.rv == 1).words, "rv = 1 and Qm = 2")

    def test_none_is_near(self) -> None:
        """A condition is of all that fail and of no other, and one of few others may be there by chance."""
        failing = [name for name, it in self.CASES.items() if it.qm > 1]
        others = [name for name in self.CASES if name not in failing]
        self.assertIsNone(self.COMMON.condition(failing[1:], [*others, failing[0]]))
        self.assertIsNone(self.COMMON.condition(failing, others[:7]))
        self.assertIsNotNone(self.COMMON.condition(failing, others[:8]))

    def test_order(self) -> None:
        """Of words for the same cases those come first that the step may depend on."""
        for step, first in (("crc", "A > 3824"), ("segmentation", "B >= 3,856 (3,840 is right)"), ("graph", "A > 3824")):
            found = self.condition(lambda it: len(it.a) > 3824, step)
            self.assertEqual(found.words, first)
            self.assertIn("A > 3824", (found.words, *found.alike))

    def test_a_single_case(self) -> None:
        """The value of the step's own number is said."""
        self.assertEqual(self.condition(lambda it: it.id == "kb-640", "segmentation").words, "B = 640")
        others = [name for name in self.CASES if name != "kb-640"]
        self.assertIsNone(self.COMMON.condition(["kb-640"], others, ["ldpc"]))

    def test_a_gap(self) -> None:
        """A limit is said with the value that is right beside it, and no power of two at which no case stands."""
        self.assertRegex(self.condition(lambda it: it.g > 8192, "lengths").words, r"^G >= 8,\d+ \((7,\d+|8,1\d+) is right\)$")

    def test_no_more_words_than_are_known(self) -> None:
        names = list(self.CASES)
        self.assertIsNone(self.COMMON.condition(names[:1], names[1:]))
        self.assertIsNone(self.COMMON.condition(names, []))
        self.assertIsNone(self.COMMON.condition(names[::7], [it for it in names if it not in names[::7]]))


class Shifts(unittest.TestCase):
    """Bits that stand elsewhere."""

    RIGHT = f"{0x9D4F13C2B76E0A85D3F1247C9B60E58A4C17F92D3B80A6E5:0192b}"

    def test_missing_and_too_many(self) -> None:
        for last, first, said in ((64, 80, r"^16 bits are missing from bit 6\d( to 6\d)? on; the next 11\d bits agree$"),
                                  (65, 64, r"^1 bit is too many from bit 6\d( to 6\d)? on; ")):
            line, = displacement.lines(self.RIGHT[:last] + self.RIGHT[first:], self.RIGHT, [])
            self.assertRegex(line, said)

    def test_of_another_code_block(self) -> None:
        other = self.RIGHT[::-1]
        line, = displacement.lines(other, self.RIGHT, [("code block r = 1", other)])
        self.assertEqual(line, "the bits from bit 2 on are those of code block r = 1 from bit 2 on")

    def test_last_octet(self) -> None:
        right = self.RIGHT[:189]
        found = right[:-1] + "10"[int(right[-1])]
        self.assertEqual(displacement.lines(found, right, []), ["only the last octet differs, which has 5 bits"])

    def test_a_single_bit(self) -> None:
        self.assertEqual(displacement.lines("10"[int(self.RIGHT[0])] + self.RIGHT[1:], self.RIGHT, []), [])

    def test_rotated(self) -> None:
        self.assertEqual(rotated(0b10010, 1, 5), 0b00101)


class ParityBits(unittest.TestCase):
    """The way in which parity bits were made."""

    BLOCKS = ["0110111000101", "10010010111010001", "1111000010011010111000", "010101110001", "1101110111010101011101"]
    RIGHT = 1 << 16 | 0x1021

    def test_ways(self) -> None:
        for way in (
            polynomials.Way(1 << 16 | 0x8005), polynomials.Way(self.RIGHT, 0x1D0F), polynomials.Way(self.RIGHT, 0, 0xFFFF),
            polynomials.Way(self.RIGHT, 0, 0, "", "the parity bits are sent lowest first"), polynomials.Way(self.RIGHT),
        ):
            blocks = [(it, way.parity(it)) for it in self.BLOCKS]
            self.assertEqual(polynomials.way_of(blocks, 16, self.RIGHT), way)

    def test_none(self) -> None:
        blocks = [(it, f"{place:016b}") for place, it in enumerate(self.BLOCKS, 77)]
        self.assertIsNone(polynomials.way_of(blocks, 16, self.RIGHT))


class Page(report_pages.SeenPages):
    """The report as a person sees it."""

    def test_no_part_is_wider_than_the_window(self) -> None:
        wrong = conform_shared.planted("wrapped-at-n")
        unknown = {name: dataclasses.replace(it, d=[d[::-1] for d in it.d or []]) for name, it in wrong.items()}
        for answers in (conform_shared.planted(), wrong, unknown):
            made = reporting.report(conform_shared.suite(), answers)
            marks, pictures = self.seen(reporting.page_lines(made))
            self.assertRegex(marks, "^[\u2713\u2717]{10}$")
            self.assertEqual(pictures, sum(first.spot is not None for first in made.firsts))
