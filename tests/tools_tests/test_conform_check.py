"""`tools/conform check`: forms of answers, statuses, first differences by hand, and answers that cannot be judged."""

from __future__ import annotations

import dataclasses
import functools
import json
import pathlib
import re
import shlex
import typing

import conform_shared
import shared
from linksim_tools.conform import bits, files
from linksim_tools.conform.case import STEPS
from linksim_tools.conform.encoder import answers as answering
from linksim_tools.conform.encoder import report as reporting


def answer(name: str, *fields: str) -> dict[str, typing.Any]:
    """A right answer to a case, of some of the names of its line."""
    line = conform_shared.lines()[name]
    return {"id": name} | {field: line[field] for field in fields}


class Checked(shared.InFolder):
    """A test with a file of answers."""

    def answers(self, *answers: str | dict[str, typing.Any]) -> pathlib.Path:
        """The path of a file of these answers."""
        lines = [it if isinstance(it, str) else json.dumps(it) for it in answers]
        return self.file("answers.jsonl", "".join(line + "\n" for line in lines))

    def check(self, *answers: str | dict[str, typing.Any], plain: bool = False) -> tuple[int, list[str]]:
        """The status and the lines of a check of these answers to a few cases."""
        found = answering.read(self.answers(*answers), conform_shared.few(), plain)
        made, _ = reporting.judged(conform_shared.few(), *found)
        return made.status(), list(reporting.text(made))

    def first(self, *answers: dict[str, typing.Any], **options: typing.Any) -> list[str]:
        """The lines of the first difference."""
        status, lines = self.check(*answers, **options)
        self.assertEqual(status, 1)
        start = next(place for place, line in enumerate(lines) if line.startswith("first difference"))
        end = next(place for place, line in enumerate(lines) if line.startswith("  cases that fail"))
        return [line.strip() for line in lines[start:end]]


class Right(Checked):
    """Answers that agree, in every form."""

    def numbers(self, step: str, lines: list[str]) -> list[int]:
        """How many cases pass, fail and were not answered in a step."""
        return [int(it) for it in next(line for line in lines if line.startswith(step)).split()[-3:]]

    def test_the_suite_itself(self) -> None:
        path = self.answers(*conform_shared.lines().values())
        status, output, error = conform_shared.conform("check", conform_shared.suite_path(), path)
        lines = output.splitlines()
        self.assertEqual(error, "")
        self.assertEqual(lines[0], f"judged: {shlex.quote(str(path))}")
        self.assertRegex(lines[1], r"^on \d{4}-\d\d-\d\d \d\d:\d\d:\d\d UTC by the tools of linksim \d+\.\d+\.\d+(-dev)?$")
        made = r"made by linksim \S+, table's fingerprint \w{12}$"
        self.assertRegex(lines[2], r"^suite: .+, profile quick, seed 1, " + made)
        count = len(conform_shared.lines())
        self.assertEqual((status, lines[-1]), (0, "all that was answered agrees"))
        self.assertEqual(
            [self.numbers(step, lines) for step, _ in STEPS.values()], [[count, 0, 0]] * 10
        )

    def test_some_names_alone(self) -> None:
        numbers = {"id": "kb-192", "k0": 0, "plan": {"z": 32}}
        status, lines = self.check("\ufeff" + json.dumps(answer("kb-560", "sent")), answer("kb-640", "plan"), numbers)
        count = len(conform_shared.FEW)
        self.assertEqual(status, 0)
        self.assertEqual(self.numbers("concatenation", lines), [1, 0, count - 1])
        self.assertEqual(self.numbers("segmentation", lines), [2, 0, count - 2])
        self.assertEqual(self.numbers("base graph", lines), [1, 0, count - 1])
        self.assertEqual(self.numbers("buffer and k0", lines), [1, 0, count - 1])

    def test_nothing(self) -> None:
        self.assertEqual(self.check()[0], 1)
        self.assertEqual(self.check()[1][-1], "nothing was answered")
        self.assertEqual(self.check({"id": "kb-560"})[1][-1], "nothing was answered")

    def test_forms(self) -> None:
        name = "mask-hole"
        right = conform_shared.suite().values[name]
        for form in bits.PACKINGS:
            packed = functools.partial(files.packed, form)
            value: dict[str, typing.Any] = {"id": name, "attached": packed(right.attached), "sent": packed(right.sent)}
            value |= {it: [packed(part) for part in getattr(right, it)] for it in ("bits", "e", "f")}
            value |= {"E": right.E, "d": right.d}
            with self.subTest(form):
                self.assertEqual(self.check(value)[0], 0)
        one = conform_shared.suite().values["kb-560"]
        single: dict[str, typing.Any] = {"id": "kb-560", "d": [None if bit == "-" else int(bit) for bit in one.d[0]]}
        single |= {"E": one.E[0], "e": one.e[0]}
        self.assertEqual(self.check(single)[0], 0)

    def test_plain(self) -> None:
        """Plain words; a list without a bit is one too."""
        right = conform_shared.suite().values["mask-hole"]
        words: dict[str, typing.Any] = {"id": "mask-hole", **dataclasses.asdict(right.plan)}
        words |= {name: getattr(right, name) for name in ("attached", "k0", "Ncb", "sent")}
        words |= {name: ",".join(map(str, getattr(right, name))) for name in ("E", "bits", "d", "e", "f")}
        zero = conform_shared.suite().values["shares-zero"]
        other = {"id": "shares-zero", "e": ",".join(it or "none" for it in zero.e), "sent": zero.sent}
        lines = [" ".join(f"{name} {value}" for name, value in it.items()) for it in (words, other)]
        status, lines = self.check(*lines, plain=True)
        self.assertEqual((status, self.numbers("interleaving", lines)[0], self.numbers("selection", lines)[0]), (0, 1, 2))

    def test_json_and_html(self) -> None:
        page = self.folder / "report.html"
        path = self.answers(*(conform_shared.lines()[name] for name in conform_shared.FEW))
        status, output, _ = conform_shared.conform("check", conform_shared.few_path(), path, "--json", "--html", page)
        self.assertEqual(status, 0)
        made = json.loads(output)
        self.assertEqual((made["first"], made["diagnosis"], made["steps"]["ldpc"]["fail"]), (None, [], 0))
        self.assertIn("all that was answered agrees", page.read_text())

    def test_coverage(self) -> None:
        """A file of the points that were covered, with how many cases of each fail."""
        path, right = self.folder / "coverage.txt", answer("kb-192", "sent")
        answers = self.answers(right, {**answer("kb-560", "sent"), "sent": right["sent"]})
        status, _, error = conform_shared.conform("check", conform_shared.few_path(), answers, "--coverage", path)
        head, *lines = path.read_text().splitlines()
        self.assertEqual((status, error), (1, ""))
        self.assertRegex(head, r"^\d+ of \d+ points are covered by 2 cases$")
        self.assertEqual([line.split()[:3] for line in lines if line.startswith(("kb-6 ", "kb-8 ", "kb-22 "))],
                         [["kb-6", "1", "0"], ["kb-8", "1", "1"], ["kb-22", "0", "0"]])

    def test_a_last_line_without_end(self) -> None:
        path = self.file("answers.txt", "id kb-192 k0 0")
        notes = [f"{path} line 1 has no end: see whether the file is whole"]
        self.assertEqual(answering.read(path, conform_shared.few(), True)[1:], ([], notes))

    def test_the_rest_is_judged(self) -> None:
        status, lines = self.check("{1}", answer("kb-560", "sent"), '{"id": "kb-640", "sent": 3}')
        self.assertEqual(status, 1)
        self.assertEqual(self.numbers("concatenation", lines), [1, 0, len(conform_shared.FEW) - 1])
        self.assertRegex(lines[-2], r"line 1: not JSON: .*: '[{]1[}]'$")
        self.assertRegex(lines[-1], r"line 3: case kb-640: sent is not a list of 0, 1 and, for a filler, null$")

    def test_required(self) -> None:
        right = conform_shared.suite().values
        path = self.answers(*({"id": name, "k0": right[name].k0} for name in conform_shared.FEW))
        status, output, _ = conform_shared.conform("check", conform_shared.few_path(), path)
        self.assertEqual((status, output.splitlines()[-1]), (0, "all that was answered agrees"))
        for name, wanted in (("k0", 0), ("Ncb", 1), ("sent", 1)):
            status, output, _ = conform_shared.conform("check", conform_shared.few_path(), path, "--require", f"k0,{name}")
            self.assertEqual((status, f"\n{name} is required, and 9 of 9 cases lack it\n" in output), (wanted, wanted == 1))

    def test_own_input(self) -> None:
        shown, right = conform_shared.planted("k0-shifted"), conform_shared.suite().values
        value = shown["limited-2-rv1"]
        lines = self.check({"id": "limited-2-rv1", "k0": value.k0, "Ncb": value.Ncb, "e": value.e})[1]
        self.assertNotEqual(value.e, right["limited-2-rv1"].e)
        self.assertEqual(self.numbers("buffer and k0", lines)[:2], [0, 1])
        self.assertEqual(self.numbers("selection", lines)[:2], [1, 0])

    def test_what_cannot_be_an_input(self) -> None:
        value = {"id": "kb-560", "plan": {"z": 71, "set": 0, "kdash": 560}, "d": "01"}
        lines = self.check(value)[1]
        said = "LDPC of 1 cases is not judged: what was answered before cannot be its input, or what was not fails in other cases"
        self.assertIn(said, lines)


class Differences(Checked):
    """The first difference of each step, in the terms of its clause."""

    def changed(self, name: str, field: str, place: int, r: int = 0) -> dict[str, typing.Any]:
        """A right answer to a case with one bit changed: of a code block or of the list."""
        right = getattr(conform_shared.suite().values[name], field)
        text = right if isinstance(right, str) else right[r]
        text = text[:place] + {"0": "1", "1": "0", "-": "0"}[text[place]] + text[place + 1 :]
        return {"id": name, field: text if isinstance(right, str) else right[:r] + [text] + right[r + 1 :]}

    def test_a_bit(self) -> None:
        """One bit of each list is another one."""
        right = conform_shared.suite().values
        self.assertEqual(self.first(self.changed("kb-560", "attached", 546))[0],
                         "first difference, step CRC, in the smallest case that fails: kb-560")
        plan, lengths, z, systematic = right["mask-hole"].plan, right["mask-hole"].E, 72, 40 - 2 * 7
        part, columns, count = plan.kdash - 24, len(right["fillers-2"].e[0]) // 2, right["limited-2-n"].E[0]
        for name, field, place, r, at, said in (
            ("kb-560", "attached", 546, 0, 2, r"bit 546 is [01], right is [01]: parity bit p_2 of 16 \(5.1\)"),
            ("kb-560", "attached", 5, 0, 2, "bit a_5 of the block itself"),
            ("mask-hole", "bits", part + 3, 1, 3, r"^it is parity bit p_3 of the code block's CRC24B \(5.1, 5.2.2\)$"),
            ("mask-hole", "bits", 7, 2, 3, rf"^it is bit b_{2 * part + 7} of the block with its CRC \(5.2.2\)$"),
            ("kb-560", "d", 3 * z + 11, 0, 3, f"column j = 5, bit t = 11 of Zc = {z}: bit {5 * z + 11} of the code block"),
            ("kb-560", "d", 8 * z + 5, 0, 3, f"column j = 10, bit t = 5 of Zc = {z}; the sum of rows 0 to 3 fixes it"),
            ("kb-560", "d", 560 - 2 * z, 0, 2, "bit 416 is 0, right is a filler"),
            ("fillers-2", "e", systematic, 0, 3,
             rf"e_{systematic} is d_{70 - 14} \(k0 = 0, Ncb = 350; 5.4.2.1\): column j = 10, bit t = 0"),
            ("fillers-2", "f", 5, 0, 3,
             rf"symbol 2, bit 1 of Qm = 2: f_5 is e_{columns + 2} \(E / Qm = {columns}; 5.4.2.2\)"),
            ("limited-2-n", "e", count - 1, 0, 3, r", in round 3 \("),
            ("mask-hole", "sent", lengths[0] + 6, 0, 3, r"^it is f_6 of code block r = 2 \(5.5\)$"),
            ("mask-hole", "sent", lengths[0] + 6, 0, 4, "symbol 1, bit 2 of Qm = 4: f_6 is e_"),
        ):
            with self.subTest(said):
                self.assertRegex(self.first(self.changed(name, field, place, r))[at], said)

    def test_rows(self) -> None:
        """The rows that fix a column, with their entries."""
        z = 72
        self.assertEqual(len(self.first(self.changed("kb-560", "d", 8 * z + 5))), 11)
        for column, row in ((11, 0), (13, 2), (14, 4), (51, 41)):
            lines = self.first(self.changed("kb-560", "d", (column - 2) * z + 1))
            self.assertIn(f"column j = {column}, bit t = 1 of Zc = {z}; row {row} fixes it", lines[3])
            entries = sorted(conform_shared.entries(2).items())
            wanted = [f"{at}:{values[4] % z}" for (number, at), values in entries if number == row]
            self.assertEqual(lines[4], f"row {row}, set 4, column:P = {' '.join(wanted)}")

    def test_numbers_and_lengths(self) -> None:
        """Numbers that are others, and lists that are too short or too long."""
        one = conform_shared.suite().values["kb-560"]
        rows: tuple[tuple[str, dict[str, typing.Any], list[str]], ...] = (
            ("kb-560", {"plan": {"graph": 1, "z": 64}}, ["base graph 1, right is 2: A = 544, R = 1024 / 2048 (6.2.2, 7.2.2)"]),
            ("kb-560", {"plan": {"graph": 2, "z": 64, "set": 0, "kb": 8}},
             ["Zc is 64, right is 72 (5.2.2, 5.3.2)", "the set index is 0, right is 4 (5.2.2, 5.3.2)"]),
            ("mask-hole", {"bits": ["01"]}, ["the bits of 1 code blocks, right is C = 3 (5.2.2)"]),
            ("limited-2-rv1", {"Ncb": 70, "k0": 7}, ["Ncb is 70, right is 45: N = 350, TBS_LBRM = 30, C = 1 (5.4.2.1)"]),
            ("limited-2-rv1", {"k0": 8}, ["k0 is 8, right is 7: rv = 1, Ncb = 45, Zc = 7 (Table 5.4.2.1-2)"]),
            ("shares-zero", {"E": [2, 0, 2]}, ["E of code block r = 0 is 2, right is 0 (5.4.2.1)"]),
            ("shares-zero", {"E": [2, 2]}, ["E of 2 code blocks, right is C = 3 (5.2.2)"]),
            ("kb-560", {"sent": one.sent[:100]},
             [f"the bits sent: 100 bits, right are {len(one.sent)}; the first 100 agree (5.5)"]),
            ("kb-560", {"attached": one.attached + "01"},
             ["b, the block with its CRC: 562 bits, right are 560; the first 560 agree (6.2.1, 7.2.1)"]),
            ("kb-560", {"d": "10"[int(one.d[0][0])] + one.d[0]},
             ["d of code block r = 0: 3601 bits, right are 3600; the first 0 agree",
              "it is column j = 2, bit t = 0 of Zc = 72: bit 144 of the code block"]),
        )
        for name, wrong, said in rows:
            with self.subTest(said):
                self.assertEqual(self.first({"id": name, **wrong})[2 : 2 + len(said)], said)


class Unjudged(Checked):
    """Answers that cannot be judged: one line that says why, and status 2."""

    def refused(self, said: str, *lines: str, plain: bool = False) -> None:
        """These lines are refused in one line that ends so."""
        path = self.answers(*lines)
        _, troubles, _ = answering.read(path, conform_shared.few(), plain)
        self.assertEqual(troubles, [f"{path} line {len(lines)}: {said}"])

    def test_lines(self) -> None:
        said = "not JSON: Expecting ',' delimiter: line 1 column 17 (char 16): "
        line = '{"id": "kb-560" "a really long line of words, so that it is cut"}'
        self.refused(f"{said}'{line[:58]}..'", line)
        self.refused("not JSON: plain words want --plain: 'id kb-560 k0 0'", "id kb-560 k0 0")
        self.refused("no id: '{}'", "{}")
        self.refused("no id: '{\"id\": 3}'", '{"id": 3}')
        self.refused("the suite has no case kb-9", '{"id": "kb-9"}')
        self.refused("case kb-560 was answered before", '{"id": "kb-560"}', "", '{"id": "kb-560"}')
        self.refused("case kb-560: unknown name: bit", '{"id": "kb-560", "bit": 1}')

    def test_a_long_line(self) -> None:
        most = conform_shared.lines()
        self.assertGreater(10_000_000, max(len(json.dumps(it)) for it in most.values()))
        path = self.file("answers.jsonl", '{"id": "' + "x" * 10_000_000 + '"}\n')
        status, output, error = conform_shared.conform("check", conform_shared.few_path(), path)
        self.assertEqual((status, error), (1, ""))
        self.assertRegex(output, r"line 1: longer than \d+ octets, and no answer of this suite can be\n$")

    def test_what_cannot_be_shown(self) -> None:
        """A surrogate alone is escaped, also in the page."""
        page = self.folder / "report.html"
        words = ["check", conform_shared.few_path(), self.answers('{"id": "\\ud800"}'), "--html", page]
        status, output, error = conform_shared.conform(*words)
        self.assertEqual((status, error), (1, ""))
        for text in (output, page.read_text()):
            self.assertIn("line 1: the suite has no case \\ud800\n", text.replace("</", "\n</"))

    def test_values(self) -> None:
        for said, value in {
            "attached says 24 bits, and its hex has 20": {"attached": {"count": 24, "hex": "01102"}},
            "attached has other characters than hexadecimal digits": {"attached": {"count": 24, "hex": "0x1102"}},
            "sent has other characters than 0, 1 and, for a filler, -": {"sent": "0102"},
            "sent is not a list of 0, 1 and, for a filler, null": {"sent": [0, 2]},
            "e is not a list of octets": {"e": {"count": 8, "octets": [256]}},
            "e of code block 1 is not a list of words such as 0x0a1b2c3d": {"e": ["", {"count": 8, "le32": ["0a"]}]},
            "k0 is not a whole number": {"k0": "0"},
            "E is not a whole number": {"E": [1.5]},
            "k0 is not the same in all code blocks": {"k0": [0, 1]},
            "plan.z is not a whole number": {"plan": {"z": None}},
            "codeblocks is not a list of objects": {"codeblocks": {}},
            "codeblocks is not in the order r = 0, 1, ..": {"codeblocks": [{"r": 1}]},
            "codeblocks has an unknown name: x": {"codeblocks": [{"r": 0, "x": 1}]},
            "codeblocks has d for some code blocks alone": {"codeblocks": [{"d": [0]}, {}]},
        }.items():
            with self.subTest(said):
                self.refused(
                    "case kb-560: " + said, json.dumps({"id": "kb-560", **typing.cast(typing.Dict[str, object], value)})
                )
        forms = ", ".join(f'"{name}"' for name in bits.READERS)
        said = f'case kb-560: f is not an object of "count" and one of {forms}'
        self.refused(said, '{"id": "kb-560", "f": {"hex": "00"}}')
        said = "case kb-560: plan has other names than a, b, graph, c, l, kdash, kb, z, set, k, n"
        self.refused(said, '{"id": "kb-560", "plan": 3}')

    def test_plain(self) -> None:
        self.refused("an odd number of words: each name has one value: 'id kb-560 k0'", "id kb-560 k0", plain=True)
        self.refused("k0 is not a whole number: -1: 'id kb-560 k0 -1'", "id kb-560 k0 -1", plain=True)
        self.refused("k0 occurs twice: 'id kb-560 k0 1 k0 1'", "id kb-560 k0 1 k0 1", plain=True)
        said = "case kb-560: sent has other characters than 0, 1 and, for a filler, -"
        self.refused(said, "id kb-560 sent 0a", plain=True)
        self.refused("case kb-560: unknown name: rv", "id kb-560 rv 0", plain=True)
        self.refused("no id: '{\"id\": \"kb-560\"}'", '{"id": "kb-560"}', plain=True)

    def test_files(self) -> None:
        nowhere, few = "tools/conform: /nowhere cannot be read: No such file or directory\n", conform_shared.few_path()
        path = self.answers("{1}")
        status, output, error = conform_shared.conform("check", few, path)
        self.assertEqual((status, error), (1, ""))
        self.assertRegex(output, r"\n" + re.escape(str(path)) + r" line 1: not JSON: .*: '\{1\}'\n")
        path = self.file("answers.jsonl", '{"id": "kb-560"}\n')
        said = "tools/conform: /nowhere/page.html cannot be written: No such file or directory\n"
        rows: list[tuple[list[object], str]] = [([few, "/nowhere"], nowhere), (["/nowhere", "/nowhere"], nowhere),
                                                ([few, path, "--html", "/nowhere/page.html"], said)]
        for words, wanted in rows:
            status, _, error = conform_shared.conform("check", *words)
            self.assertEqual((status, error), (1, wanted))
        status, _, error = conform_shared.conform("check")
        self.assertEqual(status, 2)
        self.assertIn("usage:", error)
