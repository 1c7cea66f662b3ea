"""`tools/conform suite`: every point of the clauses has a case, and cases are what the program and other models say."""

from __future__ import annotations

import dataclasses
import json
import re
import unittest

import conform_shared
from model import coding, encoder
import shared
from linksim_tools.common import program
from linksim_tools.conform import files
from linksim_tools.conform.clauses import SIZES
from linksim_tools.conform.encoder import design, points
from linksim_tools.conform.encoder import suite as suites

# The most cases of a profile.
MOST = {"quick": 190, "full": 1100}


class Points(unittest.TestCase):
    """The design, which needs no program."""

    def test_names(self) -> None:
        names = [point.name for part in points.PARTS for point in part()]
        self.assertEqual(len(names), len(set(names)))
        self.assertEqual(set(names), set(points.POINTS))

    def test_every_point_has_a_case(self) -> None:
        for profile, most in MOST.items():
            found = {case.id: points.covered(case) for case in design.designed(profile, 1)}
            self.assertLessEqual(len(found), most)
            document = (shared.ROOT / "docs" / "conformance.md").read_text()
            self.assertTrue(f"| `{profile}` | {len(found)} |" in document)
            self.assertTrue(all(found.values()))
            wanted = {name for name, point in points.POINTS.items() if profile == "full" or not point.long}
            self.assertEqual(wanted - set().union(*found.values()), set(), profile)

    def test_full_has_the_cases_of_quick(self) -> None:
        self.assertLess(set(design.designed("quick", 7)), set(design.designed("full", 7)))

    def test_long_blocks_stand_in_full_alone(self) -> None:
        longest = {name: max(len(case.a) for case in design.designed(name, 1)) for name in MOST}
        self.assertGreater(longest["full"], 1_310_000)
        self.assertLess(longest["quick"], 70_000)

    def test_lifting_sizes(self) -> None:
        sizes = points.first_sizes()
        self.assertEqual([z for graph, z in sizes if graph == 1][:3], [15, 16, 18])
        missing = {2, 3, 5, 9, 13}
        self.assertEqual({z for graph, z in sizes if graph == 2}, set(SIZES) - missing)

    def test_command(self) -> None:
        lines = [line.split() for line in shared.made("conform", "points", with_program=False).splitlines()]
        self.assertEqual(lines[0][:3], ["point", "quick", "full"])
        self.assertEqual([line[0] for line in lines[1:]], list(points.POINTS))
        self.assertTrue(all(int(line[2]) >= int(line[1]) and int(line[2]) > 0 for line in lines[1:]))


class Suite(shared.InFolder):
    """The suite as it is written."""

    maxDiff = 1000

    def test_head_and_order(self) -> None:
        head, *cases = map(json.loads, conform_shared.suite_path().read_text().splitlines())
        self.assertEqual((head["conform"], head["profile"], head["seed"], head["cases"]), (1, "quick", 1, len(cases)))
        designed = design.designed("quick", 1)
        self.assertEqual([case["id"] for case in cases], [case.id for case in designed])
        self.assertEqual([case["covers"] for case in cases], [points.covered(case) for case in designed])

    def test_a_case_is_a_vector(self) -> None:
        for name in ("kb-560", "limited-floor", "mask-hole"):
            case = conform_shared.lines()[name]
            limit = f"lbrm = {case['lbrm']}\n" if case["lbrm"] is not None else ""
            settings = self.file("settings.toml", f"rate2048 = {case['rate2048']}\n{limit}")
            words = [f"--{key}={value}" for key, value in case["transmission"].items()]
            blocks = self.file("blocks", case["a"]["hex"] + "\n")
            files = ["--table", conform_shared.table(), "--settings", settings, "--blocks", blocks]
            made = json.loads(shared.made("vectors", "one", *files, *words))
            vector = {key: it for key, it in made.items() if key not in ("made", "digest")}
            self.assertEqual(vector, {key: it for key, it in case.items() if key not in ("id", "covers")})
            status, output, _ = conform_shared.conform("show", conform_shared.suite_path(), name)
            self.assertEqual((status, json.loads(output)), (0, case))

    def test_against_another_encoder(self) -> None:
        suite = conform_shared.suite()
        entries = {graph: conform_shared.entries(graph) for graph in (1, 2)}
        for name in list(suite.cases)[::9]:
            with self.subTest(name):
                case, right = suite.cases[name], suite.values[name]
                plan = right.plan
                b = encoder.attached(list(map(int, case.a)))
                self.assertEqual(right.attached, "".join(map(str, b)))
                for bits, d, count, e, f in zip(*(getattr(right, it) for it in ("bits", "d", "E", "e", "f"))):
                    word = coding.coded(entries[plan.graph], dataclasses.asdict(plan), list(map(int, bits)))
                    self.assertEqual(d, "".join("-" if bit is None else str(bit) for bit in word))
                    selected = encoder.selected(word, right.k0, right.Ncb, count)
                    self.assertEqual(e, "".join(map(str, selected)))
                    self.assertEqual(f, "".join(map(str, encoder.interleaved(selected, case.qm))))

    def test_seeds_and_packings(self) -> None:
        words = ["suite", "--table", shared.EXAMPLES / "practice.csv", "--seed=2", "--pack=le32"]
        status, output, error = shared.tool("conform", *words)
        self.assertEqual(status, 0)
        self.assertIn("the table lacks base graph 1: ", error)
        cases = [json.loads(line) for line in output.splitlines()[1:]]
        other = conform_shared.lines()
        self.assertTrue(all(case["plan"]["graph"] == 2 for case in cases))
        self.assertTrue(all(case["attached"]["le32"][0].startswith("0x") for case in cases))
        path = self.file("suite.jsonl", output)
        read = suites.read(path)
        self.assertEqual([len(read.cases), read.profile], [len(cases), "quick"])
        one = read.cases["limit-8-511"].a
        self.assertNotEqual(int(one, 2), int(other["limit-8-511"]["a"]["hex"], 16))

    def test_the_model_is_the_library_on_every_case(self) -> None:
        """All cases of `full`; a suite is written only if the model has the library's bits."""
        path, tables = conform_shared.table(), files.entries_of(conform_shared.table())
        cases = suites.cases_of(tables, "full", 3)
        self.assertEqual(len(cases), len(design.designed("full", 3)))
        count = len(list(suites.judged(path, tables, cases)))
        self.assertEqual(count, len(cases))

    def test_another_model_is_no_suite(self) -> None:
        tables = files.entries_of(conform_shared.table())
        tables[2][20] = [(column, tuple(value + 1 for value in values)) for column, values in tables[2][20]]
        case = conform_shared.suite().cases["kb-560"]
        with self.assertRaisesRegex(program.Failed, "case kb-560: d is not as the model has it"):
            list(suites.judged(conform_shared.table(), tables, [case]))


class Own(shared.InFolder):
    """A suite of one's own cases."""

    def own(self, *lines: str) -> tuple[int, str, str]:
        """A suite of one's own cases."""
        path = self.file("cases.txt", "".join(line + "\n" for line in lines))
        return shared.tool("conform", "suite", "--table", conform_shared.table(), "--cases", path)

    def test_own_cases(self) -> None:
        lines = ["# mine", "id one rate2048 1024 g 600 a 0123456789abcdef rv 2 qm 4", "",
                 "id two rate2048 512 lbrm 15004 rv 1 g 1204 qm 4 nl 1 mask 101 a " + "5a" * 957]
        status, output, error = self.own(*lines)
        self.assertEqual((status, error), (0, ""))
        head, one, two = map(json.loads, output.splitlines())
        self.assertEqual((head["profile"], head["seed"], head["cases"]), ("own", None, 2))
        self.assertEqual((one["id"], one["a"]["count"], two["transmission"]["mask"]), ("one", 64, "0 2"))
        path = self.file("own.jsonl", output)
        suite = suites.read(path)
        self.assertEqual(list(suite.cases), ["one", "two"])
        status, output, error = conform_shared.conform("check", path, path)
        self.assertEqual((status, error), (1, ""))
        self.assertIn("no id", output)

    def test_own_cases_that_cannot_be(self) -> None:
        good = "id one rate2048 1024 g 600 a 01"
        for said, line in {
            "an odd number of words: each name has one value": "id one rate2048",
            "unknown name: size": good + " size 1",
            "g is not there": "id one rate2048 1024 a 01",
            "rv is not a number from 0 to 3: 4": good + " rv 4",
            "a is not hexadecimal digits of whole octets, at most 163840": "id one rate2048 1024 g 600 a 012",
            "mask is not `all`, and no digits 0 and 1 with a 1: 000": good + " mask 000",
            "no code block is scheduled": good + " mask 01",
            "rv occurs twice": good + " rv 1 rv 1",
            "a block of 16856 bits cannot be cut; tools/vectors near names sizes that can": good + "00" * 2106,
        }.items():
            with self.subTest(said):
                status, _, error = self.own("# mine", line)
                self.assertEqual(status, 1)
                self.assertRegex(error, r"^tools/conform: \S+ line 2: " + re.escape(said) + r"\n$")
        status, _, error = self.own(good, good)
        self.assertRegex(error, r"line 2: a case before it is one too\n$")
        status, _, error = self.own("id one rate2048 1024 g 601 qm 4 a 01")
        self.assertEqual(status, 1)
        self.assertRegex(error, "^tools/conform: case one: the library rejects it: Ragged: .*\n$")


class Refused(shared.InFolder):
    """What is not a suite, and not a table."""

    def refused(self, said: str, text: str) -> None:
        self.assertIn(said, conform_shared.refused("check", self.file("suite.jsonl", text), self.file("answers.jsonl", "")))

    def test_suites(self) -> None:
        head, case = conform_shared.suite_path().read_text().splitlines()[:2]
        self.refused("is not a suite for encoders: its first line", "")
        self.refused("line 1: not JSON", "suite\n")
        self.refused("is not a suite for encoders: its first line", case + "\n")
        self.refused("is not a suite for encoders: its first line", json.dumps(json.loads(head) | {"made": 7}) + "\n")
        self.refused("line 2: not a JSON object", head + "\n[]\n")
        self.refused("line 2: not a case of a suite: 'transmission'", head + '\n{"id": "x"}\n')
        endless = json.dumps(json.loads(case) | {"rate2048": float("inf")})
        self.refused("line 2: not a case of a suite: cannot convert float infinity to integer", f"{head}\n{endless}\n")
        changed = json.loads(case) | {"plan": {"a": 8}}
        self.refused("line 2: not a case of a suite: 'b'", f"{head}\n{json.dumps(changed)}\n")
        self.refused("is not a complete suite: it has 1 cases of", head + "\n" + case + "\n")
        for table in (3, [], [[2, 0, 0]], json.loads(head)["table"][1:300], [[3] + [0] * 10]):
            self.refused("has no table", json.dumps(json.loads(head) | {"table": table}) + "\n")

    def test_tables_and_cases(self) -> None:
        suite, refused = conform_shared.suite_path(), conform_shared.refused
        self.assertEqual(refused("suite", "--table", "/nowhere"), "/nowhere cannot be read: No such file or directory")
        self.assertEqual(refused("show", suite, "none"), f"{suite} has no case none")
        path = self.file("receivers.jsonl", '{"receiver": 1}\n{"id": "none"}\n')
        self.assertRegex(refused("show", path, "none"), "suite\\); it is a suite for receivers$")
        self.assertEqual(refused("mistakes", "/nowhere"), "/nowhere cannot be read: No such file or directory")
