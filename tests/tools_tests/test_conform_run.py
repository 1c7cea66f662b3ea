"""`tools/conform run`: templates, encoders in C with nothing wrong and with a mistake each, and commands that stop."""

from __future__ import annotations

import json
import pathlib
import shutil
import sys
import typing
import unittest

import conform_shared
import shared

FOLDER = shared.EXAMPLES / "conform"

# The encoders that have a mistake, with its name.
PLANTED = {
    "planted_shift": "shift-subtracted-once",
    "planted_filler": "fillers-sent",
    "planted_lengths": "lengths-longer-first",
}


@unittest.skipUnless(shutil.which("cc"), "no C compiler is there")
class InC(conform_shared.Commands):
    """The examples in C, on the whole suite."""

    def built(self, name: str) -> pathlib.Path:
        """The path of the program of an example."""
        path = self.folder / name
        words = ["cc", "-std=c99", "-Wall", "-Wextra", "-Werror", "-O2", "-o", path, FOLDER / f"{name}.c"]
        status, output, error = shared.run(words)
        self.assertEqual((status, output, error), (0, b"", b""))
        return path

    def run_plain(self, *command: object, more: typing.Sequence[object] = ()) -> tuple[int, list[str], list[str]]:
        return self.run_(*command, suite=conform_shared.suite_path(), more=["--plain", *more])

    def test_right_ones(self) -> None:
        """The template answers the first step alone, the whole encoder all of them."""
        count = str(len(conform_shared.lines()))
        for name, words, wanted in (("template", (), [[count, "0", "0"]] + [["0", "0", count]] * 9),
                                    ("encoder", (conform_shared.table(),), [[count, "0", "0"]] * 10)):
            status, lines, error = self.run_plain(self.built(name), *words)
            self.assertEqual((status, error, lines[-1]), (0, [], "all that was answered agrees"))
            self.assertEqual([line.split()[-3:] for line in lines[2:-1]], wanted)

    def test_planted(self) -> None:
        for name, mistake in PLANTED.items():
            with self.subTest(name):
                page = self.folder / "report.html"
                command = [self.built(name), conform_shared.table()]
                status, lines, error = self.run_plain(*command, more=["--json", "--html", page])
                made = json.loads(lines[0])
                self.assertEqual((status, error, len(lines)), (1, [], 1))
                found, = made["diagnosis"]
                self.assertEqual([[it["name"] for it in pair] for pair in found["mistakes"]], [[mistake]])
                self.assertIn(f"  {mistake} (", page.read_text())

    def test_plain_lines(self) -> None:
        output = shared.made("conform", "plain", conform_shared.few_path(), with_program=False)
        lines = [dict(zip(line.split()[::2], line.split()[1::2])) for line in output.splitlines()]
        cases = conform_shared.few().cases
        self.assertEqual([line["id"] for line in lines], list(cases))
        by_id = {line["id"]: line for line in lines}
        hole = by_id["mask-hole"]
        self.assertEqual((hole["mask"], hole["lbrm"], by_id["kb-560"]["mask"]), ("101", "-", "all"))
        self.assertEqual(by_id["limited-2-n"]["lbrm"], str(cases["limited-2-n"].lbrm))
        wrong = shared.run([self.built("encoder"), conform_shared.table()], b'{"id": "x"}\n')
        self.assertEqual(wrong, (2, b"", b"no case in plain words: `run` needs --plain\n"))
        status, answers, said = shared.run([self.folder / "encoder", conform_shared.table()], output.encode())
        path = self.file("answers.txt", answers)
        found, output, error = conform_shared.conform("check", "--plain", conform_shared.few_path(), path)
        self.assertEqual((status, said, found, error, output.splitlines()[-1]), (0, b"", 0, "", "all that was answered agrees"))


class InPython(conform_shared.Commands):
    """Commands over JSON."""

    GOOD = """
import json, sys
for line in sys.stdin:
    case = json.loads(line)
    %s
    print(json.dumps({"id": case["id"], "plan": {"a": case["a"]["count"]}}), flush=True)
"""

    def test_template(self) -> None:
        status, lines, error = self.run_(sys.executable, FOLDER / "template.py", suite=conform_shared.suite_path())
        count = len(conform_shared.lines())
        self.assertEqual((status, error, lines[-1]), (0, [], "all that was answered agrees"))
        self.assertEqual(lines[2].split(), ["CRC", str(count), "0", "0"])

    def test_a_case_has_no_answer_in_it(self) -> None:
        seen = self.folder / "seen.txt"
        self.good(f"print(line, end='', file=open({str(seen)!r}, 'a'))", more=["--pack", "octets"])
        cases = [json.loads(line) for line in seen.read_text().splitlines()]
        self.assertEqual([case["id"] for case in cases], list(conform_shared.few().cases))
        for case in cases:
            self.assertEqual(list(case), ["id", "rate2048", "lbrm", "transmission", "a"])
            line = conform_shared.lines()[case["id"]]
            self.assertEqual(bytes(case["a"]["octets"]).hex(), line["a"]["hex"])
            for name in ("rate2048", "lbrm", "transmission"):
                self.assertEqual(case[name], line[name])

    def stopped(self, said: str, answered: int, status: int, lines: list[str], error: list[typing.Any]) -> None:
        """The run ended with this trouble, and the rest was judged."""
        self.assertEqual((status, error), (1, []))
        self.assertEqual(lines[0], f"suite quick: {len(conform_shared.FEW)} cases, {answered} answered")
        self.assertEqual([line for line in lines if said in line], lines[-1:])

    def names(self) -> list[str]:
        return list(conform_shared.few().cases)

    def test_the_command_dies(self) -> None:
        third = self.names()[2]
        place = f"at case {third}, number 3 of 9: the command"
        exits, kill = f"sys.exit(7) if case['id'] == {third!r} else 0", "import os; os.kill(os.getpid(), 9)"
        said = f"{place} ended with status 7; the other cases are judged"
        self.stopped(said, 8, *self.good(exits))
        said = f"{place} ended with status 7; what it answered before is judged"
        self.stopped(said, 2, *self.good(exits, more=["--skip", "0"]))
        said = f"{place} was ended by signal 9; "
        self.stopped(said, 8, *self.good(f"if case['id'] == {third!r}: {kill}"))
        status, lines, error = self.run_("true")
        wanted = [f"at case {name}, number {number} of 9: the command ended with status 0; "
                  for number, name in enumerate(self.names()[:6], 1)]
        self.assertEqual((status, error, len(lines)), (1, [], 12 + 6))
        for line, said in zip(lines[12:], wanted):
            self.assertIn(said, line)

    def test_an_interruption(self) -> None:
        """What was answered before is judged, also if failing cases are asked again then."""
        first, _, third, *_ = self.names()
        stop = "os.kill(os.getppid(), 2); time.sleep(60)"
        late = f"if len(seen.read()) > 9: {stop}\n    if case['id'] == {first!r}: case['a']['count'] += 1"
        for text, answered, more in ((f"if case['id'] == {third!r}: {stop}", 2, []), (late, 9, ["--twice"])):
            begin = f"import os, time; seen = open({str(self.folder / 'seen')!r}, 'a+'); seen.write('.'); seen.seek(0)\n    "
            status, lines, error = self.good(begin + text, more=more)
            said = "the run was interrupted; what was answered before is judged"
            self.assertEqual((status, error, lines.count(said)), (130, [], 1), lines)
            self.assertIn(f"9 cases, {answered} answered", lines[0])
            (self.folder / "seen").unlink()

    def test_the_command_hangs(self) -> None:
        second = self.names()[1]
        said = f"at case {second}, number 2 of 9: the command gave no answer for 4.5 s; --seconds gives it longer; the other "
        # Time enough for the first case, on a machine that has much else to do.
        hangs = f"__import__('time').sleep(60) if case['id'] == {second!r} else 0"
        self.stopped(said, 8, *self.good(hangs, more=["--seconds", "4.5"]))
        more = ["--seconds", "0.5"]
        place = f"at case {self.names()[0]}, number 1 of 9"
        said = f"{place}: the command gave no answer for 3 s; it has written nothing at all"
        self.stopped(said, 0, *self.run_("sleep", "60", more=more))
        self.stopped(said, 0, *self.python("import os\nos.close(0)\nimport time\ntime.sleep(60)", more=more))
        said = f"{place}: the command gave no answer for 3 s; its last line has no end: '{{'; "
        self.stopped(said, 0, *self.python("print('{', end='', flush=True)\nimport time\ntime.sleep(60)", more=more))

    def test_the_command_closes_its_output(self) -> None:
        said = f"at case {self.names()[0]}, number 1 of 9: the command has closed its standard output; "
        self.stopped(said, 0, *self.python("import os, time\nos.close(1)\ntime.sleep(60)", more=["--skip", "0"]))

    def test_a_line_too_many(self) -> None:
        first, second, *_ = self.names()
        # The second line comes with the first one, or later than the next question.
        for text in ("'{0}\\n{0}', flush=True", "'{0}', flush=True); time.sleep(0.1); print('{0}', flush=True"):
            said = text.format(json.dumps({"id": first, "k0": 0}))
            status, lines, error = self.good(f"import time\n    if case['id'] == {first!r}: print({said}); continue")
            self.assertEqual((status, error, lines[-1]), (1, [], f"at case {second}: case {first} was answered before"))
            self.assertIn("9 cases, 9 answered", lines[0])

    def test_nothing_can_be_judged(self) -> None:
        path = conform_shared.suite_path()
        text = "import sys\nfor line in sys.stdin: print('{}', flush=True)"
        status, lines, error = self.python(text, suite=path)
        names = list(conform_shared.suite().cases)
        self.assertEqual((status, error, len(lines)), (1, [], 12 + 21))
        self.assertIn(f"at case {names[20]}, number 21 of {len(names)}: 20 lines could not be judged; ", lines[-1])

    def test_a_line_without_end(self) -> None:
        said = "the command's line is longer than "
        for text in ("while True: print('x' * 9999, end='')", "print('x' * 10_000_000, flush=True)\nimport time\ntime.sleep(60)"):
            self.stopped(said, 0, *self.python(text, more=["--skip", "0"]))

    def test_answers_that_cannot_be_judged(self) -> None:
        first, second, third, *_ = self.names()
        wrong = {
            "not JSON: Expecting property name enclosed in double quotes: line 1 column 2 (char 1): '{ready}'":
                "print('{ready}', flush=True); continue",
            "no id: '{}'": "print('{}', flush=True); continue",
            f"case {first} was answered before": f"case['id'] = {first!r}",
            "sent says 9 bits, and its hex has 8":
                "print(json.dumps({'id': case['id'], 'sent': {'count': 9, 'hex': '00'}}), flush=True); continue",
        }
        for said, change in wrong.items():
            with self.subTest(said):
                status, lines, error = self.good(f"if case['id'] == {second!r}: {change}")
                self.assertEqual((status, error, lines[-1]), (1, [], f"at case {second}: {said}"))
                self.assertIn("9 cases, 8 answered", lines[0])
        status, lines, _ = self.good(f"case['id'] = {third!r} if case['id'] == {second!r} else case['id']")
        said = f"at case {second}: an answer to case {third} where {second} was asked"
        self.assertEqual((status, lines[-1]), (1, said))

    def test_remarks(self) -> None:
        """Lines of a log are left out, also from a file; of a command that writes nothing else the last one is said."""
        status, lines, error = self.good("print('encoding', case['id'], flush=True)")
        said = "9 lines that are no answers were left out; the first begins 'encoding limit-8-511'"
        self.assertEqual((status, error, lines[-2:]), (0, [], [said, "all that was answered agrees"]))
        path = self.file("answers.jsonl", "reading\n" + json.dumps({"id": "kb-192", "k0": 0}) + "\n")
        status, output, _ = conform_shared.conform("check", conform_shared.few_path(), path)
        said = "1 line that is no answer was left out; the first begins 'reading'"
        self.assertEqual((status, output.splitlines()[-2]), (0, said))
        said = "the command wrote 300,000 lines that are no answers, the last one 'again'; "
        self.assertIn(said, self.run_("yes", "again", more=["--skip", "0"])[1][12])
        text = "import sys\nfor line in sys.stdin: print('error: no graph 2', flush=True)"
        status, lines, error = self.python(text, more=["--seconds", "0.5", "--skip", "0"])
        self.assertIn(": the command gave no answer for 3 s; its last line is none: 'error: no graph 2'; what ", lines[12])

    def test_what_is_not_supported(self) -> None:
        """An answer of an id alone is none: the report says what these cases have in common."""
        few = "if case['transmission']['rv']: print(json.dumps({'id': case['id']}), flush=True); continue"
        status, lines, error = self.good(few, suite=conform_shared.suite_path())
        count = sum(case.rv > 0 for case in conform_shared.suite().cases.values())
        said = f"not answered: exactly where rv > 0 ({count} cases)"
        self.assertEqual((status, error, lines[-2:]), (0, [], [said, "all that was answered agrees"]))

    def test_nothing_of_receivers_is_loaded(self) -> None:
        """An encoder's run loads no module of receivers; `-v` names each module that is loaded."""
        words = [sys.executable, "-v", shared.TOOLS / "conform", "run", conform_shared.few_path(), "--", "true"]
        status, _, error = shared.run(words)
        self.assertEqual(status, 1)
        self.assertIn(b"linksim_tools.conform.encoder", error)
        self.assertNotIn(b"linksim_tools.conform.receiver", error)

    def test_no_command(self) -> None:
        for command, suite, said in (("/nowhere/encoder", None, "/nowhere/encoder cannot be started: No such file or directory"),
                                     ("true", "/nowhere", "/nowhere cannot be read: No such file or directory")):
            self.assertEqual(self.run_(command, suite=suite), (1, [], [f"tools/conform: {said}"]))
        self.assertEqual(conform_shared.refused("run", conform_shared.few_path(), status=2), "no command: write it after --")
        for word in ("0", "nan", "ten"):
            status, _, error = self.run_("true", more=["--seconds", word])
            said = f"tools/conform run: error: argument --seconds: {word} is not from 0.001 to 1e+06"
            self.assertEqual((status, error[-1]), (2, said))
