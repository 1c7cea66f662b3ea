"""The diagnosis of tools/conform: each known mistake is found again by its name alone, pairs are, and what is no known
mistake is not named."""

from __future__ import annotations

import dataclasses
import html
import json
import unittest
import unittest.mock

import conform_shared
from linksim_tools.conform.case import FIELDS, STEPS, Answer
from linksim_tools.conform.chain import Chain
from linksim_tools.conform.clauses import Clauses, right
from linksim_tools.conform.code import TablesKey
from linksim_tools.conform.encoder import commands, mistakes, search
from linksim_tools.conform.encoder import report as reporting
from linksim_tools.conform.encoder.judging import Trials
from linksim_tools.conform.encoder.report import Report
from linksim_tools.conform.encoder.search import Found, diagnosis

# These differ in the number Kb that they say, and in no bit.
SAME_BITS = {"kb-10", "lifting-by-k"}


def found_in(answers: dict[str, Answer]) -> list[Found]:
    """The diagnosis of answers to the suite."""
    return diagnosis(conform_shared.suite(), Trials(conform_shared.suite(), answers))


def names(found: list[Found]) -> list[tuple[str, list[list[str]]]]:
    """The names that were found, by step."""
    return [(it.step, [one.names() for one in it.fitting]) for it in found]


class Planted(unittest.TestCase):
    """Mistakes that are planted in the model."""

    def test_each_is_found(self) -> None:
        """By all steps, and by the bits that are sent."""
        for name, mistake in mistakes.MISTAKES.items():
            with self.subTest(name):
                found = found_in(conform_shared.planted(name))
                self.assertEqual((names(found), found[0].is_sure), ([(mistake.step, [[name]])], True))
                found = found_in(conform_shared.planted(name, fields=("sent",)))
                wanted = sorted([it] for it in SAME_BITS) if name in SAME_BITS else [[name]]
                self.assertEqual(names(found), [("concatenation", wanted)])
                apart = (True, "plan") if name in SAME_BITS else (False, None)
                self.assertEqual((found[0].alike, found[0].apart), apart)

    def test_the_suite_says_which_have_the_same_bits(self) -> None:
        lines = {line.split(" (")[0].split()[-1]: line for line in commands.mistakes(str(conform_shared.suite_path()))}
        self.assertEqual(list(lines), list(mistakes.MISTAKES))
        for name, line in lines.items():
            count, _, said = line.strip().partition(" ")
            self.assertGreater(int(count), 0)
            it = mistakes.MISTAKES[name]
            wanted = f"{STEPS[it.step][0]:15} {name} ({it.clause}): {it.wrong}"
            self.assertTrue(said.startswith(wanted), line)
            other, = SAME_BITS - {name} if name in SAME_BITS else [None]
            self.assertEqual(line.partition("the same bits as ")[2], f"{other})" if other else "")

    def test_the_crc_of_code_blocks_is_judged_from_d(self) -> None:
        found = found_in(conform_shared.planted("code-crc-zeros", fields=("d",)))
        self.assertEqual(names(found), [("codecrc", [["code-crc-zeros"]])])
        made = reporting.report(conform_shared.suite(), conform_shared.planted(fields=("d",)))
        self.assertEqual((made.status(), made.steps["codecrc"].failing), (0, []))
        self.assertRegex(made.notes[0], r"^code block CRC of \d+ cases is judged from d$")

    def test_k0_may_be_taken_modulo_ncb(self) -> None:
        answers = conform_shared.planted("k0-from-n")
        for it in answers.values():
            assert it.k0 is not None and it.Ncb
            it.k0 %= it.Ncb
        self.assertEqual(names(found_in(answers)), [("buffer", [["k0-from-n"]])])

    def test_a_search_that_is_cut_short(self) -> None:
        answers = conform_shared.planted("shift-left")
        for it in answers.values():
            it.d = [bits[:-1] + "10"[int(bits[-1])] for bits in it.d or []]
        with unittest.mock.patch.object(search, "WORK_OF_PAIRS", 0):
            found = found_in(answers)
        said = "the search was cut short: the cases that fail are too long for it"
        self.assertEqual((found[0].fitting, found[0].cut), ([], said))

    def test_two_mistakes_of_a_step(self) -> None:
        for fields in (FIELDS, ("sent",)):
            for pair in (("fillers-one", "shift-left"), ("k0-no-floor", "ncb-floor-early")):
                found = found_in(conform_shared.planted(*pair, fields=fields))
                self.assertEqual([one for _, one in names(found)], [[list(pair)]])


class Words(unittest.TestCase):
    """What the report says."""

    def lines(self, answers: dict[str, Answer]) -> tuple[list[str], Report]:
        """The lines of the report after the table, and the object that it was made from."""
        made = reporting.report(conform_shared.suite(), answers)
        self.assertEqual(made.status(), 1)
        lines = list(reporting.text(made))
        return lines[next(it for it, line in enumerate(lines) if line.startswith("diagnosis")) :], made

    def test_a_mistake(self) -> None:
        lines, made = self.lines(conform_shared.planted("shift-left"))
        count = len(made.steps["ldpc"].failing)
        self.assertEqual(lines, [
            f"diagnosis, step LDPC: shift-left gives all {count} cases that fail and all others",
            "  shift-left (5.3.2): the identity matrix is shifted to the left",
            "    change: bit t of a row takes bit (t + P) mod Zc of the column",
        ])
        value = made.as_object()
        self.assertEqual([[it["name"] for it in pair] for pair in value["diagnosis"][0]["mistakes"]], [["shift-left"]])
        self.assertEqual(json.loads(json.dumps(value)), value)

    def test_two_mistakes(self) -> None:
        lines, _ = self.lines(conform_shared.planted("fillers-one", "shift-left"))
        heads = [line.split(" (")[0].strip() for line in lines[1::2]]
        self.assertEqual(heads, ["fillers-one", "shift-left", "both together"])
        lines, _ = self.lines(conform_shared.planted("crc-preset", "k0-from-n"))
        self.assertIn("diagnosis, step buffer and k0 (with crc-preset made right): k0-from-n gives all", lines[3])

    def test_the_same_bits(self) -> None:
        lines, _ = self.lines(conform_shared.planted("kb-10", fields=("sent",)))
        self.assertIn("same bits in every case of this suite; plan tells them apart, if it is answered", lines[1])
        self.assertEqual(len(lines), 6)

    def test_under_a_condition(self) -> None:
        answers = conform_shared.planted()
        wrong = conform_shared.planted("interleaver-transposed")
        answers |= {name: wrong[name] for name in answers if conform_shared.suite().cases[name].qm == 4}
        lines, _ = self.lines(answers)
        self.assertRegex(lines[0], r": interleaver-transposed gives all \d+ cases that fail$")
        said = r"^  exactly where Qm = 4: all \d+ that fail, none of \d+ others that it would change$"
        self.assertRegex(lines[1], said)
        self.assertIn("interleaver-transposed", lines[2])

    def test_what_is_shown_alone(self) -> None:
        answers, shown = conform_shared.planted(), conform_shared.planted("punctured-kept")
        lines, _ = self.lines({name: dataclasses.replace(it, d=shown[name].d) for name, it in answers.items()})
        self.assertIn("all later steps of these cases are right: look first at what is answered of this step", lines[1])
        self.assertEqual(len(lines), 4)

    def test_zeros_for_fillers(self) -> None:
        answers, shown = conform_shared.planted(), conform_shared.planted("fillers-sent")
        wrong = conform_shared.planted("interleaver-by-columns")
        mixed = {name: dataclasses.replace(wrong[name], d=shown[name].d) for name in answers}
        made = reporting.report(conform_shared.suite(), mixed)
        self.assertRegex(made.notes[0], r"^zeros stand at the fillers of d in \d+ cases: they are taken for fillers$")
        self.assertEqual(names(made.diagnosis), [("interleaving", [["interleaver-by-columns"]])])

    def test_none(self) -> None:
        answers = conform_shared.planted()
        for name in ("kb-560", "kb-640"):
            sent = answers[name].sent or ""
            answers[name].sent = sent[:-1] + "10"[int(sent[-1])]
        lines, _ = self.lines(answers)
        path = conform_shared.suite_path()
        said = "none of the known mistakes, and no pair of them, gives these bits"
        self.assertEqual(lines[0], f"diagnosis, step concatenation: {said}")
        self.assertIn("  the smallest case that fails: kb-560: A = 544, 2048 R = 1024, rv = 0, G = ", "\n".join(lines))
        said = ("next: run --twice shows whether the state of an earlier case is left; take a suite of --profile full; "
                "ask the smallest case alone, by a suite of --cases")
        self.assertEqual(lines[-2:], [f"  its vector: tools/conform show {path} kb-560", said])

    def test_entries_by_the_graph_that_was_taken(self) -> None:
        """Entries are looked for in the base graph that an encoder takes, though it is a wrong one."""
        class Wrong(Clauses):
            def base_graph(self, a: int, rate2048: int) -> int:
                return 2 if a <= 336 else super().base_graph(a, rate2048)

        tables = {graph: [*rows] for graph, rows in conform_shared.suite().tables.tables.items()}
        for graph, row in ((1, 40), (2, 20)):
            (column, values), *rest = tables[graph][row]
            tables[graph][row] = [(column, tuple(it + 1 for it in values)), *rest]
        answers = {}
        for name, case in conform_shared.suite().cases.items():
            if len(case.a) < 1500:
                made = Chain(TablesKey(tables), case, Wrong())
                answers[name] = Answer(graph=made.of("graph"), plan=dataclasses.asdict(made.of("plan")), d=made.of("d"))
        text = "\n".join(self.lines(answers)[0])
        self.assertIn("table entry graph 1, row 40, column ", text)
        self.assertIn("table entry graph 2, row 20, column ", text)

    def test_numbers_that_cannot_be(self) -> None:
        """From numbers that no code block has nothing is made: what fails is told."""
        right = conform_shared.suite().values["kb-560"]
        attached, e = right.attached[::-1], [right.e[0][::-1]]
        for answer in (Answer(attached, plan={"z": 1}), Answer(attached, 3, {"graph": 3}), Answer(attached, plan={"c": 0}),
                       Answer(Ncb=1_000_000, e=e)):
            with self.subTest(answer.names()):
                self.assertTrue(self.lines({"kb-560": answer})[0][0].startswith("diagnosis, step "))

    def test_another_table(self) -> None:
        """If most codewords are wrong and nothing has a name, the tables may differ."""
        tables = TablesKey({graph: [*rows[:4], *rows[:3:-1]] for graph, rows in conform_shared.suite().tables.tables.items()})
        for field in ("d", "sent"):
            small = [it for it in conform_shared.suite().cases.values() if len(it.a) < 200][:8]
            answers = {it.id: Answer(**{field: Chain(tables, it, right()).made(field)}) for it in small}
            self.assertTrue(self.lines(answers)[0][-1].startswith("next: compare the fingerprint of your table with the suite's; "))

    def test_two_one_behind_the_other(self) -> None:
        """Of two mistakes of a step, one made in some cases, the second is found among what the first does not give."""
        answers, shown = conform_shared.planted("shift-left"), conform_shared.planted("shift-left", "punctured-kept")
        large = [name for name, case in conform_shared.suite().cases.items() if len(case.a) > 1000]
        lines, made = self.lines(answers | {name: shown[name] for name in large})
        named = [name for _, fitting in names(made.diagnosis) for it in fitting for name in it]
        self.assertEqual(named[:2], ["shift-left", "punctured-kept"])
        self.assertRegex(lines[0], r": shift-left gives \d+ of the \d+ cases that fail, and all that pass$")

    def test_html(self) -> None:
        for answers in (conform_shared.planted("kb-10", fields=("sent",)), conform_shared.planted("shift-left")):
            _, made = self.lines(answers)
            page = "\n".join(reporting.page_lines(made))
            for fitting in made.diagnosis[0].fitting:
                self.assertIn(f"  {fitting.names()[0]} (", page)
            for found in made.diagnosis:
                for line in reporting.head_lines(made.suite, found):
                    self.assertIn(html.escape(line.strip()), page)
            for first in made.firsts:
                for line in first.difference:
                    self.assertIn(html.escape(line), page)
            self.assertNotRegex(page, "<script|<link|http|src=")
            for tag in ("table", "svg", "body", "html", "p", "pre", "strong"):
                self.assertEqual(page.count(f"<{tag}>") + page.count(f"<{tag} "), page.count(f"</{tag}>"), tag)
