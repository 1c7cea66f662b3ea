"""`tools/conform receiver`: every known mistake is planted in the model, and some in a receiver in C that shares no
code with it. Each is named. Receivers in C with nothing wrong have no failing case in four arithmetics."""

from __future__ import annotations

import dataclasses
import shutil
import unittest
import unittest.mock

from linksim_tools.conform.receiver import doubts, families, known_answers, reading, report, steps, verdicts
from linksim_tools.conform.receiver.chain import Receiver
from linksim_tools.conform.receiver.diagnosis import Diagnosis
from linksim_tools.conform.receiver.mistakes import MISTAKES, OWN, SHARED, STEPS, receiver_with
from linksim_tools.conform.receiver.reception import Answer, Level
from receiver_mistakes import DESIGNS, HELD_OUT, Change, Votes, handed_up, octets, planted
from receiver_shared import answered, answers_of, few, of_model, reported, reported_of, side_by_side, suite

# These give the same blocks in every case.
ALIKE = ["kb-10", "lifting-by-k"]

# The mistakes that the receiver in C can make.
IN_C = """
lengths-longer-first lengths-no-layers lengths-count-all interleaver-by-columns interleaver-symbol-reversed
symbols-of-first k0-shifted k0-from-n rv-ignored rv-of-first ncb-no-factor ncb-ignored fillers-filled not-wrapped
combine-last combine-first combine-wraps cleared-never cleared-by-rv process-one process-of-eight codeblocks-wiped
punctured-zeros fillers-erased core-rows rows-of-last shift-subtracted-once zeros-delivered crc-unchecked code-crc-kept
kb-limits
""".split()

# Strong values, and the arithmetics that must deliver with them.
LEVELS = {4: ("int8", "int4", "float"), 16: ("int8", "int4", "float", "sum-product"),
          64: ("int8", "int4", "float", "sum-product")}


class InTheModel(unittest.TestCase):
    """Each mistake by itself."""

    def test_all_are_there(self) -> None:
        self.assertEqual((len(OWN), len(SHARED), len(MISTAKES)), (56, 63, 119))
        self.assertEqual({it.step for it in MISTAKES.values()}, set(STEPS))

    def test_each_is_named(self) -> None:
        """By the blocks, and by which code blocks passed. A mistake is found, and named: by its name if something but a single lost
        block shows it, or by its iterations."""
        for mistake in MISTAKES:
            for levels in (1, 2):
                with self.subTest(mistake, levels=levels):
                    of = of_model(mistake, levels)
                    found = verdicts.verdict(of, {})
                    self.assertNotEqual(of.failing, [])
                    if found.names:
                        self.assertIn(mistake, found.names)
                    else:
                        self.assertTrue(found.kind == "depth" or len(of.failing) == 1, (found.kind, found.said, of.failing))

    def test_the_suite_has_what_the_model_answers(self) -> None:
        for mistake in [*MISTAKES][::12]:
            answers = answers_of(receiver_with(frozenset([mistake])), True)
            for name, kept in suite().cases.items():
                with self.subTest(mistake=mistake, case=name):
                    each = zip(answers[name], kept.case.meant, kept.case.arrivals)
                    words = tuple(known_answers.shown(answer, meant, told) for answer, meant, told in each if answer)
                    self.assertTrue(not kept.known or words == kept.answers(mistake)[0])

    def test_the_listed_pair(self) -> None:
        """Two mistakes give the same blocks in every case: both are named, and nothing that can be answered tells them
        apart."""
        self.assertEqual(*([known_answers.blocks(kept.answers(name)[0]) for kept in suite().cases.values()] for name in ALIKE))
        for mistake in ALIKE:
            found = verdicts.verdict(of_model(mistake), {})
            self.assertEqual((sorted(found.names), found.apart, found.against), (ALIKE, None, []))

    def test_right(self) -> None:
        found = of_model("")
        self.assertEqual([name for name in found.words if found.fails(name)], [])


class HeldOut(unittest.TestCase):
    """Mistakes that are in no list."""

    def test_no_false_name(self) -> None:
        """None has a plain name that is not its own, and more than half are named by what the report says: a name is given only
        where something proves it. Numbers in few bits are found."""
        named, found = [], []
        for name, (_, _, said) in HELD_OUT.items():
            with self.subTest(name):
                made, text = reported_of(planted(name))
                found += [name] * bool(made.failing)
                named += [name] * (said in text)
                if made.diagnosis and made.diagnosis.kind == "gives":
                    self.assertIn(said, text)
        self.assertGreaterEqual(len(found), 0.95 * len(HELD_OUT))
        self.assertLessEqual({"p-of-8-bits", "addresses-of-14-bits", "ncb-ignored-at-rv-0"}, set(found))
        self.assertIn("rv-of-1-bit", named)
        self.assertGreaterEqual(len(named), 0.55 * len(HELD_OUT), sorted(HELD_OUT.keys() - set(named)))

    def test_search_is_cut_short(self) -> None:
        """After so much work, and not after so long: what is said is the same on every machine."""
        answers = answers_of(planted("order-of-qm-4"))
        for work, is_cut in ((families.WORK, False), (0, True)):
            with unittest.mock.patch.object(families, "WORK", work):
                found = reported(answers).diagnosis
            assert found
            self.assertEqual((found.cut_short, bool(found.kinds)), (is_cut, not is_cut))
            self.assertEqual("  the search was cut short: the cases are too long for it" in found.says(), is_cut)

    def test_levels_are_told_together(self) -> None:
        """Sums of 6 bits that wrap around fail from level 8 on, as four times 8; values below 8 are lost up to level 4."""
        for name, said in (
            ("wraps-at-5-bits", "from level 8 on: .* too narrow; sums of up to 16 are kept, and of 32 and more are not"),
            ("weak-dropped", "up to level 4: weak values are lost in rounding"),
        ):
            with self.subTest(name):
                kind = planted(name)
                failing = {it: Diagnosis(suite(), answers_of(kind, level=it)).failing for it in map(Level, (4, 8, 16, 31))}
                text = "\n".join(doubts.of_levels(suite(), failing, suite().cases))
                self.assertRegex(text, said)
                self.assertRegex(text, r"^levels 4, 8, 16 and 31: \d+, \d+, \d+ and \d+ cases fail\n")

    def test_right_designs(self) -> None:
        """Receivers that keep what passed, free a buffer or deliver a block once, and one that decodes by elimination, are right,
        whatever they answer; hard decisions are right if they are asked for."""
        for name, (kind, level) in DESIGNS.items():
            for every_level in (False, True):
                with self.subTest(name, every_level=every_level):
                    answers = answers_of(kind, every_level=every_level, level=level)
                    made = reported({it: found for it, found in answers.items() if level.asks(suite().cases[it].case)})
                    self.assertEqual((made.failing, made.doubts), ([], []))
                    self.assertEqual(any("decodes more than peeling" in note for note in made.notes), name == "elimination")

    def test_several_consistent_blocks(self) -> None:
        """One that guesses among several blocks that are consistent with what was received is wrong."""
        made = reported({"nothing-24": [Answer("0" * 24)]})
        self.assertEqual((made.failing, made.notes), (["nothing-24"], []))

    def test_what_is_said_of_others(self) -> None:
        """If only cases with values of several strengths fail, the report says how to ask. A mistake under a condition whose mirror
        is delivered heads the report, with the condition. What is delivered in another order is not called next to nothing, and
        told as it is. Too few iterations are told as such, and not as wrong entries."""
        changes: list[tuple[str, Change, str]] = [
            ("heard", Votes.heard, "--bits 1 asks with hard decisions"),
            ("joined", lambda self, sizes, texts: Receiver.joined(self, sizes, texts[::-1] if len(texts) == 2 else texts),
             "^diagnosis: joined-reversed gives all that fails, exactly where C = 2"),
            ("answered", handed_up(lambda bits: "".join(it[4:] + it[:4] for it in octets(bits))),
             "^diagnosis: .*the halves of each octet are exchanged"),
            ("answered", handed_up(lambda bits: str(1 - int(bits[0])) + bits[1:]), "^diagnosis: .*bit 0 inverted"),
            ("iterations", lambda self: 3, "^diagnosis: .*those of up to 3 are delivered: too few iterations"),
            ("iterations", lambda self: 6, "^diagnosis: .*those of up to 6 are delivered: too few iterations"),
        ]
        for function, change, said in changes:
            with self.subTest(said):
                made, text = reported_of(type("Other", (Receiver,), {function: change}))
                self.assertNotEqual(made.failing, [])
                self.assertRegex(text, said)

    def test_no_name_by_a_single_loss(self) -> None:
        """One lost block shows no mistake: the case is told, and what it is for."""
        of = of_model("")
        last = next(name for name in of.judged if "a8-other-qm" in name)
        of.words[last] = [it and ("-", None, None, None) for it in of.words[last]]
        found = verdicts.verdict(of, {})
        self.assertEqual((found.names, found.kinds), ([], ()))
        self.assertIn(f"  only {last} fails: ", "\n".join(found.says()))

    def test_soft_values_are_read(self) -> None:
        """They show k0 and Ncb, which are judged as an encoder's are, and what else puts values elsewhere."""
        for name, said in (
            ("ncb-whole-columns", "Ncb is 92, right is 94"), ("ncb-whole-columns", "Ncb is rounded down to a multiple of Zc"),
            ("k0-34-for-33", "k0 of rv = 2 by base graph 1 is not made of 33: 34"), ("rv-of-1-bit", "rv keeps 1 bit"),
            ("order-of-qm-8", "with its halves exchanged"), ("fillers-of-rv-0", "fillers are not passed over"),
        ):
            answers = answers_of(planted(name), every_level=True)
            read = reading.lines(Diagnosis(suite(), answers), answers)
            self.assertRegex(read[0], "^read from soft in ")
            self.assertIn(said, "\n".join(read))

    def test_a_buffer_that_would_be_larger_than_the_codeword(self) -> None:
        """It is not read, though the values would stand so in it."""
        self.assertEqual(reading.numbers_of("+000000+00", "+00000+0000000000+", range(0), True), {})

    def test_a_single_code_block(self) -> None:
        """If it fails, `0` may mean the CRC of the block, which is right: what differs is told of the transmission after it."""
        made = reported({"weak-before-24": [Answer(None, "0")] * 2})
        self.assertEqual((made.failing, made.first and made.first.transmission), (["weak-before-24"], 1))

    def test_the_longest_cases_alone(self) -> None:
        """If only cases fail of which the answers of mistakes are not known, no block is said to be right."""
        long = {name: dataclasses.replace(kept, known=False) for name, kept in few().cases.items()}
        made = report.report(dataclasses.replace(few(), cases=long), {"fresh-24": [Answer(None), None]})
        assert made.diagnosis
        self.assertIn("only the longest cases fail", made.diagnosis.said)


@unittest.skipUnless(shutil.which("cc"), "no C compiler is there")
class InC(unittest.TestCase):
    """The receiver in C on the whole suite."""

    def test_right(self) -> None:
        words = [(Level(strong, 8, sign), f"{arithmetic} {'positive-1' * sign}")
                 for strong, names in LEVELS.items() for arithmetic in names for sign in (0, 1)]
        for level, said, answers in side_by_side(words):
            with self.subTest(level=level, words=said):
                made = reported(answers)
                self.assertEqual((made.failing, made.answered), ([], len(suite().cases)))

    def test_doubts(self) -> None:
        """A decoder that stops by hard decisions fails no case: a block of zeros is in doubt, once. Nor do sums that are no wider
        than messages if values are small."""
        for word, said in (("hard-decisions", "^doubt [^;]* may stop as soon as hard decisions meet all rows[^;]*;[^;]*$"), (
                "narrow", "^doubt .it may be arithmetic, and no mistake of the chain.: values at full scale ")):
            made = reported(answered(Level(), word))
            self.assertEqual((made.failing, made.diagnosis), ([], None))
            self.assertRegex(" ".join(made.doubts), said)

    def test_planted(self) -> None:
        named = 0
        for _, mistake, answers in side_by_side([(Level(), mistake) for mistake in IN_C]):
            names = verdicts.verdict(Diagnosis(suite(), answers), answers).names
            named += names == [mistake]
            with self.subTest(mistake):
                self.assertIn(mistake, names or [mistake])
        self.assertGreaterEqual(named, len(IN_C) - 2)

    def test_soft_shows_the_place(self) -> None:
        made = reported(answered(Level(), "soft", "k0-shifted"))
        assert made.first
        found = [line for line in made.first.difference if line.startswith("soft: place ")]
        self.assertEqual(len(found), 1)
        self.assertRegex(found[0], r"of d of code block 0 \(column j = \d+, bit t = \d+ of Zc = \d+\) is .*, right is ")

    def test_fillers_in_soft(self) -> None:
        """A receiver that keeps fillers as sure zeros in its soft buffer is right too."""
        answers = answered(Level(), "soft")
        for name, found in answers.items():
            for tx, (answer, told) in enumerate(zip(found, suite().cases[name].case.arrivals)):
                sizes = steps.sizes(told.a, told.rate2048)
                first, last = sizes.kdash - 2 * sizes.z, sizes.k - 2 * sizes.z
                assert answer is not None and answer.soft is not None
                soft = tuple(it[:first] + "+" * (last - first) + it[last:] for it in answer.soft)
                found[tx] = dataclasses.replace(answer, soft=soft)
        self.assertEqual(reported(answers).failing, [])
