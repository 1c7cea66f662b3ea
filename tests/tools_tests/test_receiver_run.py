"""`tools/conform receiver`: templates, what is asked and answered, commands that stop, answers that cannot be judged, and the
documents' example."""

from __future__ import annotations

import json
import pathlib
import shutil
import sys
import typing
import unittest

import conform_shared
import report_pages
import shared
from linksim_tools.conform import page
from linksim_tools.conform.receiver import report
from linksim_tools.conform.receiver.answers import Answers
from linksim_tools.conform.receiver.mistakes import STEPS, receiver_with
from linksim_tools.conform.receiver.reception import Level
from linksim_tools.conform.report import record_of
from receiver_shared import FEW, FOLDER, answers_of, built, few, few_path, receiver, suite, suite_path, table


class Run(conform_shared.Commands):
    """A test that runs commands over a suite of a few cases."""

    RUN = ("receiver", "run")
    GOOD = """
import json, sys
for line in sys.stdin:
    it = json.loads(line)
    if "reset" in it:
        continue
    %s
    print(json.dumps({"id": it["id"], "tx": it["tx"], "delivered": None}), flush=True)
"""

    def few_path(self) -> pathlib.Path:
        return few_path()

    def judged(self, ended: tuple[int, list[str], list[str]], answered: int = 6, status: int = 1) -> list[str]:
        """The lines of a run that answers so many cases, and writes nothing on standard error."""
        found, lines, error = ended
        self.assertEqual((found, error, lines[0]), (status, [], f"suite quick: 6 cases, {answered} answered"))
        return lines


class Asked(Run):
    """What a receiver is given, and may answer."""

    def test_template_in_python(self) -> None:
        """It hands up nothing, which is right of some cases."""
        self.judged(self.run_(sys.executable, FOLDER / "template.py"))

    @unittest.skipUnless(shutil.which("cc"), "no C compiler is there")
    def test_template_in_c(self) -> None:
        self.judged(self.run_(built("template"), more=["--plain"]))
        wrong = shared.run([built("template")], b'{"reset": true}\n')
        self.assertEqual(wrong, (2, b"", b"no transmission in plain words: `run` needs --plain\n"))

    @unittest.skipUnless(shutil.which("cc"), "no C compiler is there")
    def test_blank_lines_of_a_table(self) -> None:
        """They are no records, as the program has it."""
        path = self.file("blank.csv", "\n" + table().read_text().replace("\n", "\n\r\n"))
        self.assertEqual(shared.run([built("receiver"), path]), (0, b"", b""))

    @unittest.skipUnless(shutil.which("cc"), "no C compiler is there")
    def test_documents(self) -> None:
        """The lines of docs/receivers.md, and a page of them."""
        path, command = self.folder / "report.html", [built("receiver"), table(), "process-of-eight"]
        status, lines, error = self.run_(*command, more=["--plain", "--html", path], suite=suite_path())
        self.assertEqual((status, error), (1, []))
        text = "\n".join(lines).replace(str(suite_path()), "receivers.jsonl")
        self.assertIn(f"{text}\n```", (shared.ROOT / "docs" / "receivers.md").read_text())
        self.assertIn("  process-of-eight (38.321", path.read_text())

    def test_what_is_asked(self) -> None:
        seen, level = self.folder / "seen.txt", Level(20, 8, 1)
        self.good(f"print(line, end='', file=open({str(seen)!r}, 'a'))", more=["--level", "20", "--positive", "1"])
        asked = [json.loads(line) for line in seen.read_text().splitlines()]
        self.assertEqual([it["tx"] for it in asked], [n for kept in few().cases.values() for n in range(len(kept.right))])
        told = ["id", "tx", "process", "fresh", "a", "rate2048", "lbrm", "rv", "g", "qm", "nl", "mask", "llr"]
        for it in asked:
            wanted = level.listed(few().cases[it["id"]].case.values[it["tx"]])
            self.assertEqual((list(it), it["llr"]), (told, wanted))
        self.assertEqual((level.numbers()["+"], level.numbers()["Q"], level.numbers()["l"]), (-20, 5, -128))

    def test_plain_lines(self) -> None:
        lines = shared.made("conform", "receiver", "plain", few_path(), with_program=False).splitlines()
        self.assertEqual(lines.count("reset"), len(FEW))
        line = next(line for line in lines if line.startswith("id processes-far-24 tx 0 "))
        head = "id processes-far-24 tx 0 process 3 fresh 1 a 24 rate2048 2048 lbrm - rv 0 g 315 qm 1 nl 1 mask all llr "
        self.assertTrue(line.startswith(head), line)
        self.assertEqual(len(line[len(head) :].split(",")), 315)

    def test_all_that_was_asked_may_be_sent_back(self) -> None:
        self.judged(self.python(self.GOOD.replace('"id": it["id"], "tx": it["tx"]', "**it") % "pass"))

    def test_restart(self) -> None:
        """A command for each case, and no line `reset`."""
        seen = self.folder / "seen.txt"
        begun = f"import json, sys\nprint('begun', file=open({str(seen)!r}, 'a'))\n"
        self.judged(self.python(begun + self.GOOD % "assert 'reset' not in it", more=["--restart"]))
        self.assertEqual(seen.read_text().count("begun"), len(FEW))

    def test_levels_together(self) -> None:
        lines = self.judged(self.good(more=["--levels", "4,8"]))
        self.assertRegex("\n".join(lines), r"(?m)^levels 4 and 8: (\d) and \1 cases fail$")

    def test_a_level_that_is_not_answered(self) -> None:
        """What fails at another level alone is no mistake of levels."""
        _, lines, _ = self.good("sys.exit(3) if 16 in it['llr'] else 0", more=["--levels", "4,16", "--skip", "0"])
        self.assertEqual(lines[-1], "levels 4 and 16: 0 and 0 cases fail, of 0 that are answered at each")

    def test_show(self) -> None:
        output = shared.made("conform", "receiver", "show", few_path(), "nothing-24", with_program=False)
        said = r"\n# right: delivered - passed 0; the program proves: open: position 0 of code block 0 stands in a stopping set"
        self.assertRegex(output, said)
        said = conform_shared.refused("receiver", "show", few_path(), "none")
        self.assertEqual(said, f"{few_path()} has no case none")

    def test_lists(self) -> None:
        lines = receiver("mistakes", suite_path())[1].splitlines()
        self.assertEqual((len(lines), [line for line in lines if int(line.split()[0]) == 0]), (119, []))
        self.assertEqual(sum("the same blocks as" in line for line in lines), 2)
        self.assertEqual(len(receiver("points", suite_path())[1].splitlines()), 1 + len(suite().cases))

    def test_bounds(self) -> None:
        """A suite has at most 330 cases and 2 million values, and no mirror is lacking or delivered."""
        cases = suite().cases.values()
        self.assertEqual(sum(bool(kept.case.mirror) for kept in cases), 79)
        self.assertLessEqual(len(cases), 330)
        self.assertLessEqual(sum(kept.case.size for kept in cases), 2_000_000)
        for kept in cases:
            if kept.case.mirror:
                self.assertEqual({it[0] for it in kept.right}, {"-"}, kept.case.id)
                self.assertIn("ok", [it[0] for it in kept.answers(kept.case.mirror)[0]])


class Stopped(Run):
    """Commands that do not go on."""

    def stopped(self, said: str, answered: int, ended: tuple[int, list[str], list[str]]) -> None:
        """The run ended with this trouble, and the rest was judged."""
        lines = self.judged(ended, answered)
        self.assertEqual(len([line for line in lines if said in line]), 1, lines)

    def test_dies(self) -> None:
        third = [*few().cases][2]
        ends = f"sys.exit(7) if it['id'] == {third!r} else 0"
        said = f"at case {third}, transmission 0, number 3 of 6: the command ended with status 7; "
        self.stopped(f"{said}what it answered before is", 2, self.good(ends, more=["--skip", "0"]))
        for more in ([], ["--restart"]):
            self.stopped(f"{said}the other cases are judged", 5, self.good(ends, more=more))

    def test_an_interruption(self) -> None:
        """What was answered before is judged, and no further level is begun."""
        third = FEW[2]
        stop = f"if it['id'] == {third!r}: import os, time; os.kill(os.getppid(), 2); time.sleep(60)"
        status, lines, error = self.good(stop, more=["--levels", "4,8"])
        self.assertEqual((status, error), (130, []))
        self.assertIn("the run was interrupted; what was answered before is judged", lines)
        self.assertEqual([line.split(":")[0] for line in lines if line.startswith("levels")], ["levels 4"])

    def test_nothing_is_left_running(self) -> None:
        """A command that hangs, and what it has started."""
        seen = self.folder / "started.txt"
        starts = f"import subprocess\nprint(subprocess.Popen(['sleep', '900']).pid, file=open({str(seen)!r}, 'w'))\n"
        said = f"at case {[*few().cases][0]}, transmission 0, number 1 of 6: the command gave no answer for 6 s; it has written "
        self.stopped(f"{said}nothing", 0, self.python(f"{starts}import time\ntime.sleep(900)", more=["--seconds", "1"]))
        state = pathlib.Path(f"/proc/{seen.read_text().strip()}/stat")
        # One that has ended may wait for somebody to ask for its status.
        self.assertTrue(not state.exists() or state.read_text().rpartition(")")[2].split()[0] == "Z")

    def test_answers_that_cannot_be_judged(self) -> None:
        first, second, third, *_ = few().cases
        wrong = {
            f"an answer to transmission 0 of case {third}, where 0 of {second} was asked": f"it['id'] = {third!r}",
            "the suite has no case x": "it['id'] = 'x'",
            f"case {second} has no transmission 9: it has 1, from 0 on": "it['tx'] = 9",
            "delivered is not answered":
                "print(json.dumps({'id': it['id'], 'tx': 0, 'passed': '1'}), flush=True); continue",
            "delivered has other characters than hexadecimal digits":
                "print(json.dumps({'id': it['id'], 'tx': 0, 'delivered': 'xyz'}), flush=True); continue",
            "soft has other characters than 0 + -":
                "print(json.dumps({'id': it['id'], 'tx': 0, 'delivered': None, 'soft': '01'}), flush=True); continue",
            f"transmission 0 of case {first} was answered before": f"it['id'], it['tx'] = {first!r}, 0",
        }
        for said, change in wrong.items():
            with self.subTest(said):
                lines = self.judged(self.good(f"if it['id'] == {second!r}: {change}"), 5)
                self.assertIn(f"at case {second}, transmission 0: {said.rstrip()}", lines)


class Checked(Run):
    """Files of answers, and suites that are none."""

    def check(self, text: str | bytes, *more: str) -> tuple[int, list[str], list[str]]:
        status, output, error = receiver("check", few_path(), self.file("answers.txt", text), *more)
        return status, output.splitlines()[3:], error.splitlines()

    def test_line_by_line(self) -> None:
        good = {"id": "nothing-24", "tx": 0, "delivered": "-", "passed": "0", "info": "?" * 40, "soft": "0" * 350}
        lines = [json.dumps(good), "{", json.dumps({**good, "id": "fresh-24", "tx": True}), json.dumps(good), "\0x"]
        output, path = self.judged(self.check("\n".join(lines)), 1), self.folder / "answers.txt"
        self.assertTrue(any(line.startswith(f"{path} line 2: not JSON: Expecting property name") for line in output))
        self.assertIn(f"{path} line 3: no tx that is a whole number, for case fresh-24", output)
        self.assertIn(f"{path} line 4: transmission 0 of case nothing-24 was answered before", output)
        self.assertIn("1 line that is no answer was left out; the first begins '\\x00x'", output)

    def test_not_supported(self) -> None:
        """A case of which only the transmission is named is not judged, and told."""
        text = '{"id": "flip-24", "tx": 0}\n{"id": "nothing-24", "tx": 0, "delivered": null}'
        self.assertIn("not supported: flip-24", self.judged(self.check(text), 1, status=0))

    def test_one_case_for_ci(self) -> None:
        """`--only` judges one case, and `--junit` writes a test for each."""
        path = self.folder / "junit.xml"
        answers = "id nothing-24 tx 0 delivered 000000\nid flip-24 tx 0 delivered -\n"
        status, output, error = self.check(answers, "--plain", "--only", "flip-24", "--junit", str(path))
        self.assertEqual((status, error, output[0]), (0, [], "suite quick: 1 cases, 1 answered"))
        self.assertIn('<testcase name="flip-24"></testcase>', path.read_text())
        self.judged(self.check(answers, "--plain", "--junit", str(path)), 2)
        self.assertIn('failures="1" errors="0" skipped="4">', path.read_text())
        said = '<testcase name="nothing-24"><failure message="fails in CRC and desegmentation"/></testcase>'
        self.assertIn(said, path.read_text())

    def test_too_few_values(self) -> None:
        """Fewer values than a code block has are not right, also if those that are there are; so are too many."""
        good = {"id": "nothing-24", "tx": 0, "delivered": None, "passed": "0", "info": ["?" * 40], "soft": ["0" * 350]}
        self.assertEqual(self.check(json.dumps(good))[0], 0)
        wrong: list[tuple[dict[str, object], str]] = [
            ({"passed": "00"}, "code blocks that passed: 00, right is 0"),
            ({"info": ["?" * 39]}, "info: code block 0 has 39 values, right is 40"),
            ({"info": ["?" * 40, ""]}, "info: 2 code blocks, right is 1"),
            ({"soft": ["0" * 349]}, "soft: code block 0 has 349 values, right is 350"),
            ({"soft": ["0" * 350] * 2}, "soft: 2 code blocks, right is 1"),
        ]
        for change, said in wrong:
            with self.subTest(said):
                self.assertIn(f"  {said}", self.judged(self.check(json.dumps({**good, **change})), 1))

    def test_some_answers(self) -> None:
        """What is not answered is not judged, and if nothing is, the status is 1."""
        for name, said in (
            ("nothing-24", "null"), ("flip-24", '""'), ("flip-24", 'null, "passed": "0"'), ("flip-24", 'null, "passed": "1"')
        ):
            output = self.judged(self.check(f'{{"id": "{name}", "tx": 0, "delivered": {said}}}'), 1, status=0)
            self.assertEqual(output[-1], "all that was answered agrees")
        self.assertEqual(self.judged(self.check(""), 0)[-1], "nothing was answered")

    def test_report_as_json(self) -> None:
        answers = self.file("a.txt", "id nothing-24 tx 0 delivered 000000")
        status, output, error = receiver("check", few_path(), answers, "--plain", "--json")
        made = json.loads(output)
        self.assertEqual((status, error, made["failing"]), (1, "", ["nothing-24"]))
        self.assertIn(["zeros-delivered"], [[it["name"] for it in names] for names in made["diagnosis"]["mistakes"]])
        self.assertEqual(made["first"]["difference"][0], "it delivers 000000, right is nothing")

    def test_no_suite(self) -> None:
        none = "is not a suite for receivers: its first line is not a suite header (create one with tools/conform receiver suite"
        for text, said in (
            ("", f"{none})"),
            ('{"conform": 1}', f"{none}); it is a suite for encoders"),
            ("x", "line 1: not JSON: Expecting value: line 1 column 1 (char 0)"),
        ):
            path = self.file("suite.jsonl", text)
            self.assertEqual(conform_shared.refused("receiver", "mistakes", path), f"{path} {said}")
        head, *cases = few_path().read_text().splitlines()
        path = self.file("short.jsonl", "\n".join([head, *cases[1:]]))
        said = conform_shared.refused("receiver", "points", path)
        self.assertEqual(said, f"{path} is not a complete suite: it has 5 cases of 6")

    def test_levels(self) -> None:
        said = conform_shared.refused("receiver", "plain", few_path(), "--level", "200")
        self.assertEqual(said, "--level 200 is not a value of --bits 8: the largest is 127")


class Page(report_pages.SeenPages):
    """The page as a person sees it: of a right receiver, of two mistakes, and of answers that no known one gives."""

    def marks(self, answers: Answers, troubles: typing.Sequence[str] = ()) -> str:
        """The marks of the steps on the page of these answers."""
        made = report.report(few(), answers, troubles, (), record_of(["./receiver", "t" * 200], few()))
        found, pictures = self.seen(page.document("Conformance", page.of_report(made, report.text(made))))
        self.assertEqual((len(found), pictures), (len(STEPS), 0))
        return found

    def test_no_part_is_wider_than_the_window(self) -> None:
        right = answers_of(receiver_with(frozenset()), True, of=few())
        self.assertRegex(self.marks(right), "^[\u2713\u2013]+$")
        for mistake in ("k0-shifted", "zeros-delivered"):
            wrong = answers_of(receiver_with(frozenset([mistake])), True, of=few())
            self.assertRegex(self.marks(wrong), "^[\u2713\u2013]*\u2717")
        mixed = {name: found if place % 2 else right[name] for place, (name, found) in enumerate(wrong.items())}
        self.assertIn("\u2717", self.marks({**mixed, "flip-24": wrong["flip-24"]}, ["answers.txt line 7: " + "x" * 300]))
