"""Mistakes that tools/conform does not list, planted in the example encoder singly and by two, and bugs of hardware. The tests
count how many end in the right name, table entry, polynomial or condition, by all steps and by only the bits that are sent."""

from __future__ import annotations

import concurrent.futures
import dataclasses
import functools
import multiprocessing
import pathlib
import re
import shutil
import sys
import typing
import unittest

import conform_shared
import encoder_families
import encoder_mistakes
import shared
from linksim_tools.conform.case import Answer
from linksim_tools.conform.encoder import answers as answering
from linksim_tools.conform.encoder import report as reporting
from linksim_tools.conform.encoder.mistakes import MISTAKES

EXAMPLES = shared.EXAMPLES / "conform"

# In how many of a hundred mistakes the right name, entry, polynomial or exact condition must be said, by all steps and by `sent`.
# Then of how many of a kind at least, and of how many pairs both names by `sent`.
LEAST, OF_KIND, PAIRS = (80, 65), 8, 5


@functools.cache
def questions() -> bytes:
    """The cases of the suite as lines of plain words."""
    return shared.made("conform", "plain", conform_shared.suite_path(), with_program=False).encode()


def built(one: encoder_mistakes.Planted) -> pathlib.Path:
    """The example encoder with a mistake, built."""
    folder = conform_shared.folder() / one.name
    folder.mkdir(exist_ok=True)
    for name in ("plain.h", "encoder.c"):
        shutil.copy(EXAMPLES / name, folder)
    chain = (EXAMPLES.parent / "chain.h").read_text()
    text = (EXAMPLES / "encoder.h").read_text().replace('#include "../chain.h"\n', chain)
    for old, new in one.changes:
        assert text.count(old) == 1, (one.name, old)
        text = text.replace(old, new)
    (folder / "encoder.h").write_text(text)
    # A planted mistake may write past what the right encoder takes.
    (folder / "roomy.h").write_text("#include <stdlib.h>\n#define malloc(size) malloc(2 * (size) + 65536)\n")
    roomy = ["-include", folder / "roomy.h"]
    status, _, error = shared.run(["cc", "-std=c99", "-O1", "-w", *roomy, "-o", folder / "encoder", folder / "encoder.c"])
    assert status == 0, error.decode()
    return folder / "encoder"


def answered(one: encoder_mistakes.Planted) -> dict[str, Answer]:
    """What the encoder with a mistake answers to the suite."""
    status, output, error = shared.run([built(one), conform_shared.table()], questions())
    assert (status, error) == (0, b""), error.decode()
    path = conform_shared.folder() / one.name / "answers.txt"
    path.write_bytes(output)
    found, troubles, _ = answering.read(path, conform_shared.suite(), True)
    assert not troubles, troubles
    return found


def said_of(answers: dict[str, Answer]) -> tuple[reporting.Report, str]:
    """The report of these answers, and what stands in it from the first difference on."""
    made = reporting.report(conform_shared.suite(), answers)
    text = "\n".join(reporting.text(made))
    return made, text[text.find("first difference") :]


class Said(typing.NamedTuple):
    """What a report says: its text from the first difference on, how many names are sure, and the listed ones among them, all and
    those that stand alone."""

    text: str
    sure: int
    listed: list[str]
    alone: list[str]


def judged(ones: typing.Sequence[encoder_mistakes.Planted]) -> list[Said]:
    """What is said of one mistake, or of two together: of all steps, and of the bits that are sent."""
    one = dataclasses.replace(ones[0], name="+".join(it.name for it in ones), changes=sum((it.changes for it in ones), ()))
    answers, said = answered(one), []
    for given in (answers, {name: Answer(sent=it.sent) for name, it in answers.items() if it.sent is not None}):
        made, text = said_of(given)
        sure = [(it.name, len(found.fitting)) for found in made.diagnosis if found.is_sure
                for fitting in found.fitting for it in fitting.mistakes]
        listed = [(name, count) for name, count in sure if name in MISTAKES]
        said.append(Said(text, len(sure), [name for name, _ in listed], [name for name, count in listed if count == 1]))
    return said


def all_judged(listed: typing.Iterable[typing.Sequence[encoder_mistakes.Planted]]) -> list[list[Said]]:
    """The same of many, several at a time."""
    questions(), conform_shared.suite()
    with concurrent.futures.ProcessPoolExecutor(4, multiprocessing.get_context("fork")) as pool:
        return list(pool.map(judged, listed))


@unittest.skipUnless(shutil.which("cc"), "no C compiler is there")
class Planted(unittest.TestCase):
    """Each mistake is found, most are named, and none is named wrongly."""

    def test_how_many_are_named(self) -> None:
        """The wanted words are said of each. No listed mistake is named, since it is none of them."""
        planted = encoder_mistakes.PLANTED
        for one, both in zip(planted, all_judged([it] for it in planted)):
            for said, wanted in zip(both, one.said):
                with self.subTest(one.name):
                    self.assertTrue(said.text.startswith("first difference"))
                    self.assertEqual(said.listed, [])
                    self.assertTrue(not said.sure or wanted and not one.is_told)
                    self.assertTrue(re.search(wanted, said.text), said.text)
        self.assertGreaterEqual(len(planted), 60)
        for place, least in enumerate(LEAST):
            named = sum(bool(it.said[place]) and not it.is_told for it in planted)
            self.assertGreaterEqual(100 * named, least * len(planted))

    def test_each_kind(self) -> None:
        listed = [one for ones in encoder_families.KINDS.values() for one in ones]
        found = all_judged([one] for one in listed)
        for one, both in zip(listed, found):
            with self.subTest(one.name):
                self.assertEqual([said.alone for said in both], [[], []])
        self.assertGreaterEqual(len(listed), 80)
        self.assertGreaterEqual(min(map(len, encoder_families.KINDS.values())), OF_KIND)
        for place, least in enumerate(LEAST):
            lacking = [one.name for one, both in zip(listed, found)
                       if not one.said[place] or not re.search(one.said[place], both[place].text)]
            self.assertLessEqual(100 * len(lacking), (100 - least) * len(listed), lacking)

    def test_two_together(self) -> None:
        named = {one.name: one for ones in encoder_families.KINDS.values() for one in ones}
        pairs = [[named[name] for name in pair] for pair in encoder_families.PAIRS]
        both = [[all(re.search(one.said[place], said[place].text) for one in pair) for place in range(2)]
                for pair, said in zip(pairs, all_judged(pairs))]
        all_steps, sent_alone = (sum(it) for it in zip(*both))
        self.assertGreaterEqual(sent_alone, PAIRS)
        self.assertGreaterEqual(all_steps, len(pairs) - 1)

    def test_bugs_of_hardware(self) -> None:
        for one, both in zip(encoder_mistakes.HARDWARE, all_judged([it] for it in encoder_mistakes.HARDWARE)):
            for said, wanted in zip(both, one.said):
                with self.subTest(one.name):
                    self.assertRegex(said.text, wanted)

    def test_state_of_an_earlier_case(self) -> None:
        one = next(it for it in encoder_mistakes.HARDWARE if it.name == "stale-fillers")
        words = ["run", "--plain", "--twice", conform_shared.suite_path(), "--", built(one), conform_shared.table()]
        status, output, error = conform_shared.conform(*words)
        self.assertEqual((status, error), (1, ""))
        said = r" asked alone: its answer is right, after case \S+ it is another: the state of an earlier case is left\n"
        self.assertRegex(output, said)

    def test_not_deterministic(self) -> None:
        text = ("import sys, random\nfor line in sys.stdin:\n    words = line.split()\n"
                "    print('id', words[1], 'k0', random.randrange(9, 99_999), flush=True)\n")
        path = conform_shared.folder() / "drawn_answers.py"
        path.write_text(text)
        words = ["run", "--plain", "--twice", conform_shared.few_path(), "--", sys.executable, path]
        status, output, error = conform_shared.conform(*words)
        lines = [line for line in output.splitlines() if " asked alone" in line]
        self.assertEqual((status, error, len(lines)), (1, "", 9))
        for line in lines:
            self.assertRegex(line, r"^case \S+ asked alone twice: two answers: the command is not deterministic$")

    def test_no_answer_alone(self) -> None:
        """A command that ends if it is asked another case first."""
        first, second, *_ = conform_shared.few().cases
        text = ("import sys\nfor at, line in enumerate(sys.stdin):\n    name = line.split()[1]\n"
                f"    at or name == {first!r} or sys.exit(1)\n    print('id', name, 'k0', 99 * (name == {second!r}), flush=True)\n")
        path = conform_shared.folder() / "ends.py"
        path.write_text(text)
        words = ["run", "--plain", "--twice", conform_shared.few_path(), "--", sys.executable, path]
        said = f"case {second} asked alone: its answer is missing, after case {first} it is another"
        self.assertIn(said, conform_shared.conform(*words)[1])

    def test_the_same_answers_when_asked_again(self) -> None:
        one = next(it for it in encoder_mistakes.HARDWARE if it.name == "rotator-left")
        words = ["run", "--plain", "--twice", conform_shared.few_path(), "--", built(one), conform_shared.table()]
        status, output, error = conform_shared.conform(*words)
        self.assertEqual((status, error), (1, ""))
        self.assertRegex(output, r"failing cases asked again, alone and after themselves: the answers are the same\n$")


class Two(unittest.TestCase):
    """A mistake hides no other of a later step."""

    def test_an_unknown_one_and_a_known_one(self) -> None:
        answers = conform_shared.planted("k0-shifted")
        for it in answers.values():
            attached = it.attached or ""
            it.attached = attached[:-3] + attached[-3:][::-1]
        made, _ = said_of(answers)
        named = [(found.step, [it.names() for it in found.fitting]) for found in made.diagnosis]
        self.assertIn(("buffer", [["k0-shifted"]]), named)
        self.assertEqual(named[0], ("crc", []))

    def test_twelve_pairs(self) -> None:
        for pair in (("crc-by-b", "shift-left"), ("kb-limits", "rv-order"), ("shift-capped", "interleaver-transposed"),
                     ("graph-two-thirds", "core-forward"), ("k0-no-floor", "last-octet-reversed"), ("crc-inverted", "one-round"),
                     ("lifting-strict", "lengths-by-number"), ("code-crc-zeros", "ncb-no-factor"), ("fillers-one", "k0-in-word"),
                     ("set-rows", "interleaver-by-columns"), ("shift-masked", "lengths-no-layers"),
                     ("crc-preset", "fillers-counted")):
            with self.subTest(pair):
                made, _ = said_of(conform_shared.planted(*pair))
                found = [(it.step, [one.names() for one in it.fitting]) for it in made.diagnosis]
                wanted = sorted(((MISTAKES[name].step, [[name]]) for name in pair), key=lambda it: found.index(it))
                self.assertEqual(found, wanted)
