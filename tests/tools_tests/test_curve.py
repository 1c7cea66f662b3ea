"""Tests of `tools/curve`: chunks in any order, which come next, and runs that are interrupted."""

from __future__ import annotations

import dataclasses
import hashlib
import os
import pathlib
import re
import shutil
import signal
import subprocess
import sys
import time
import typing

import curve_files
import nr
import shared
from linksim_tools.common.program import Wrong
from linksim_tools.curve import binary, chunks, draws, tasks, units
from linksim_tools.curve import setting as settings
from linksim_tools.curve import source as sources

# A curve of 40 rounds a chunk over the practice table, small enough for a test.
RULE = {"rounds": 40, "points": [0.2, 0.4], "step": 0.1, "errors": 20, "chunks": 2}
CONF = curve_files.text_of(curve_files.PRACTICE, curve_files.SHORT, RULE)


def size_of_item(item: str) -> int:
    """How many places an item of a place list has; - has none."""
    first, _, last = item.partition("-")
    return int(last) - int(first) + 1 if first else 0


def rows(path: pathlib.Path) -> list[str]:
    """The lines of a file of results without its comments, with their ends."""
    return [line for line in path.read_text().splitlines(keepends=True) if not line.startswith("#")]


class Conf(shared.InFolder):
    """A test with a curve in its folder."""

    text = CONF

    def setUp(self) -> None:
        super().setUp()
        self.conf = self.file("c.toml", self.text)
        self.setting = settings.read_setting(self.conf)

    def curve(self, *words: typing.Any, folder: typing.Any = None) -> str:
        """What `tools/curve` writes, run in this folder or in that of the tests; a failure is a failed test."""
        status, output, error = shared.tool("curve", *words, folder=folder, with_program=words[0] != "merge")
        self.assertEqual(status, 0, error)
        return output

    def source(self) -> str:
        """The source of the curve's lines."""
        return sources.source_of(settings.read_setting(self.conf), shared.program()).text()

    def refused(self, *words: str | pathlib.Path) -> str:
        """The line with which `tools/curve` refuses."""
        return shared.refused("curve", *words, with_program=words[0] != "merge").strip()


class Chunks(Conf):
    def test_points_of_one_threshold_are_one(self) -> None:
        self.conf.write_text(CONF.replace("0.2,", "0.2, 0.2, 0.20000000001,"))
        self.assertEqual(settings.read_setting(self.conf).points, (0.2, 0.4))

    @staticmethod
    def schedule(setting: settings.Setting, p: float, turns: typing.Iterable[int], after: int) -> str:
        """The schedule of rounds of chunk 0."""
        return chunks.schedule_of(setting, chunks.sendings_of(setting, p, 0, turns, after))

    def test_seed_is_the_hash_of_five_numbers(self) -> None:
        threshold = 2**31
        text = b"7 2147483648 3 39 1"
        self.assertEqual(
            chunks.seed_of(self.setting, threshold, 3, 39, 1), int(hashlib.sha256(text).hexdigest()[:16], 16)
        )
        self.assertEqual([draws.threshold_of(p) for p in (0, 0.5, 1)], [0, 2**31, 2**32 - 1])

    def test_schedule_is_rounds_of_process_0(self) -> None:
        lines = self.schedule(self.setting, 0.5, [4], 2).splitlines()
        seeds = [chunks.seed_of(self.setting, 2**31, 0, 4, k) for k in (0, 1)]
        self.assertEqual(lines, [
            "block,rv,g,qm,nl,erase,flip,mask,process,fresh",
            f"1,0,120,2,1,pcg:{seeds[0]}:2147483648,-,all,0,1",
            f"1,2,120,2,1,pcg:{seeds[1]}:2147483648,-,all,0,0",
        ])

    def test_words_that_name_no_chunk(self) -> None:
        for words in ("", "0.2", "0.2 7-4", "0.2 5-", "0.2:1-2-3"):
            with self.subTest(words), self.assertRaisesRegex(Wrong, "is not a probability with chunks"):
                tasks.tasks_from(words.split())

    def test_long_chunks_take_several_schedules(self) -> None:
        setting = dataclasses.replace(self.setting, rvs=(0, 2, 3, 1))
        parts = chunks.parts_of(setting, 0.5, range(3000), 4)
        self.assertEqual([(part[0], part[-1]) for part in parts], [(0, 1023), (1024, 2047), (2048, 2999)])
        # With flips a round stands there with 1, 2, 3 and 4 transmissions, and its places are listed.
        flipping = dataclasses.replace(setting, link="flip")
        self.assertEqual(len(chunks.parts_of(flipping, 0.0, range(3000), 4)[0]), 409)
        long = dataclasses.replace(flipping, g=40_000)
        schedule = self.schedule(long, 0.5, chunks.parts_of(long, 0.5, range(3000), 1)[0][:4], 1)
        self.assertLess(len(chunks.parts_of(long, 0.5, range(3000), 1)[0]) * len(schedule) / 4, 16_777_216)

    def test_nothing_erased_delivers_and_all_erased_leaves_all(self) -> None:
        source = self.source()
        self.assertEqual(self.curve("point", self.conf, "0", "0"), f"0.0,0,40,1,0,0,0,0,0,0,,,{source}\n")
        # The greatest threshold is 2^32 - 1, so that a word of all ones would still be heard. K' is 40 + 16. After both
        # transmissions all of 240 places are erased; after the first one nobody looks, since fewer arrive than K'.
        bits, counts = 40 * 56, ",240:40"
        self.assertEqual(self.curve("point", self.conf, "1", "0"), f"1.0,0,40,1,40,40,40,40,{bits},{bits},{counts},{source}\n")

    def test_flipped_places_are_those_that_the_program_would_erase(self) -> None:
        # The first words for the seed 42 are a15c02b7, 7b47f409, ba1d3330, 83d2f293, bfa4784b, cbed606e.
        for threshold, wanted in [
            (0x7B47F409, []), (0x7B47F40A, [1]), (0xA15C02B8, [0, 1, 3]), (2**32 - 1, list(range(6)))
        ]:
            self.assertEqual(draws.drawn_places(42, threshold, 6), wanted)

    def test_units_and_bursts_by_hand(self) -> None:
        """The words for the seed 42 are those above. Of four symbols the second is erased, or of two layers the second, with
        symbols 1 and 3. With bursts the first word says whether the first unit is bad; then every other word is a turn."""
        low = 0x7B47F40A / 2**32
        cases: list[tuple[dict[str, typing.Any], str]] = [
            ({"unit": 1}, "2-3"), ({"unit": 2, "qm": 1}, "2-3"), ({"unit": 3, "g": 7, "qm": 1}, "3-5"),
            ({"unit": "layer", "nl": 2}, "2-3 6-7"), ({"unit": "layer", "nl": 1}, "-"), ({"unit": 1, "nl": 2}, "2-3"),
            # Bad: 0.63 < 2/3. Unit 0: 0.48 erases. 0.727 is no turn. Unit 1: 0.515 does not, 0.748 is no turn. Unit 2: 0.796 ..
            ({"unit": 1, "g": 6, "burst": (1.0, 0.5)}, "0-1"),
            # Good: 0.63 >= 0.4 / 0.9; 0.727 is no turn, nor is 0.748.
            ({"unit": 1, "g": 4, "burst": (0.4, 0.5)}, "-"), ({"unit": "bit", "g": 2, "burst": (0.9, 0.5)}, "0-0"),
        ]
        for keys, wanted in cases:
            setting = dataclasses.replace(self.setting, **{"g": 8, "qm": 2, **keys})
            self.assertEqual(units.erase_field(setting, 42, draws.threshold_of(low)), wanted, keys)

    def test_bursts_have_their_length_and_share(self) -> None:
        """Bad spells have 1 / leave units in the mean, and a share of enter / (enter + leave) is bad."""
        setting = dataclasses.replace(self.setting, unit="bit", g=40_000, burst=(0.02, 0.1))
        erased = units.erased(setting, 5, 2**32 - 1)
        spells = sum(place - 1 not in set(erased[max(0, seat - 1) : seat]) for seat, place in enumerate(erased))
        self.assertAlmostEqual(len(erased) / 40_000, 1 / 6, delta=0.02)
        self.assertAlmostEqual(len(erased) / spells, 10, delta=1.5)

    def test_units_are_made_and_counted(self) -> None:
        """By the program, with the places listed; single bits have the source that they had."""
        single = sources.keys_of(self.setting)
        self.conf.write_text(CONF + "unit = 3\nburst = [0.2, 0.3]\n")
        setting = settings.read_setting(self.conf)
        self.assertEqual(sources.keys_of(setting), single[:-1] + ', "unit": 3, "burst": [0.2, 0.3]}')
        line = self.curve("point", self.conf, "0.9", "0").split(",")
        records = self.schedule(setting, 0.9, range(40), 1).splitlines()[1:]
        lost = [sum(size_of_item(item) for item in record.split(",")[5].split()) for record in records]
        # Of 120 places fewer than K' = 56 arrive, or all do.
        self.assertGreaterEqual(int(line[4]), sum(120 - count < 56 for count in lost))
        self.assertEqual((line[2], line[3], line[10:12]), ("40", "1", ["", ""]))
        self.assertLessEqual(int(line[4]), sum(count > 0 for count in lost))
        self.assertIn("erases units or bursts", self.refused("pool", self.conf, self.file("c.csv", ",".join(line))))

    def test_flipped_bits_are_failures(self) -> None:
        self.conf.write_text(CONF + 'link = "flip"\n')
        self.assertEqual(self.curve("point", self.conf, "0", "0"), f"0.0,0,40,1,0,0,0,0,0,0,,,{self.source()}\n")
        numbers = [int(n) for n in self.curve("point", self.conf, "0.01", "0").split(",")[1:-3]]
        # One of 120 places is flipped with 70 percent, one of 240 with 91, and what is flipped is never put right.
        setting = settings.read_setting(self.conf)
        for after in (1, 2):
            clean = sum(
                not any(
                    chunks.link_of(setting, draws.threshold_of(0.01), 0, turn, k)[1] != "-"
                    for k in range(after)
                )
                for turn in range(40)
            )
            self.assertEqual(numbers[2 + after], 40 - clean)
        self.assertIn("flips bits", self.refused("sets", self.conf, "0.01", "0"))
        self.assertIn("flips bits", self.refused("failed", self.conf, "0.01", "0", "--out", self.folder / "failed"))

    def test_two_orders_give_the_same_results(self) -> None:
        tasks = [("0.2", "0"), ("0.2", "1"), ("0.4", "0")]
        one = [self.curve("point", self.conf, *task) for task in tasks]
        other = [self.curve("point", self.conf, *task) for task in reversed(tasks)]
        first, second = self.file("1.csv", "".join(one)), self.file("2.csv", "".join(other))
        merged = self.curve("merge", first)
        self.assertEqual(merged, self.curve("merge", second))
        self.assertEqual(merged, self.curve("merge", second, first, second))
        heads = "p,chunk,rounds,c,failed_1,failed_2,failed_codeblocks_1,failed_codeblocks_2,left_1,left_2"
        self.assertEqual(merged, heads + ",erased_1,erased_2,source\n" + "".join(one))
        total = self.curve("merge", "--total", first).splitlines()
        self.assertIn("these are sums of chunks", self.refused("merge", first, self.file("3.csv", "\n".join(total) + "\n")))
        sums = [a + b for a, b in zip(*([int(n) for n in line.split(",")[2:10]] for line in one[:2]))]
        sums[1] = 1
        self.assertTrue(total[1].startswith("0.2,2," + ",".join(map(str, sums)) + ","))
        # Each open code block is counted by its erased places.
        for after, counts in zip((1, 2), total[1].split(",")[10:12]):
            self.assertEqual(sum(int(item.split(":")[1]) for item in counts.split()), sums[3 + after])

    def test_stopping_sets_are_of_the_rounds_that_failed(self) -> None:
        counts = [int(n) for n in self.curve("point", self.conf, "0.2", "0").split(",")[1:10]]
        for after in (1, 2):
            rows = self.curve("sets", self.conf, "0.2", "0", "--after", after).splitlines()
            numbers = [[int(n) for n in row.split(",")] for row in rows[1:]]
            self.assertEqual(rows[0], "positions,below_kdash,code_blocks")
            self.assertEqual(sum(count for _, _, count in numbers), counts[4 + after])
            self.assertEqual(sum(below * count for _, below, count in numbers), counts[6 + after])
        command = self.curve("failed", self.conf, "0.2", "0", "--out", self.folder / "failed")
        audit = subprocess.run(command, shell=True, capture_output=True, text=True, check=True).stdout
        stuck = [line for line in audit.splitlines() if line.startswith("process 0 stuck ")]
        self.assertEqual((len(stuck), len(audit.splitlines())), (counts[4], counts[4]))


class Runs(Conf):
    def test_a_resumed_run_agrees(self) -> None:
        wanted = self.folder / "c.csv"
        self.curve("run", self.conf, "--jobs", "2")
        lines, results = rows(wanted), self.curve("merge", wanted)
        head = "".join(line for line in wanted.read_text().splitlines(keepends=True) if line.startswith("#"))
        # The grid, the point between where the curve falls, and second chunks of the points that do not stop.
        self.assertEqual({line.split(",")[0] for line in lines[1:]}, {"0.2", "0.3", "0.4"})
        # A run that was cut off while it wrote its third line, and has one twice.
        cut = self.file("cut.csv", head + "".join(lines[:3]) + lines[1] + lines[3][:9])
        self.curve("run", self.conf, "--out", cut, "--jobs", "2", "--batch", "0")
        self.assertEqual(self.curve("merge", cut), results)
        self.assertEqual((cut.read_text(), wanted.read_text()), (results, results))
        # Nothing is left to do, so nothing is written, and nobody idles.
        before = os.stat(wanted)
        self.assertEqual(shared.tool("curve", "run", self.conf, "--jobs", "70")[2].count("\n"), 1)
        self.assertEqual((os.stat(wanted).st_ino, os.stat(wanted).st_mtime_ns), (before.st_ino, before.st_mtime_ns))
        # Its log has each chunk once.
        log = [line.split(",") for line in rows(self.folder / "c.csv.log")]
        self.assertEqual(log[0], ["time", "host", "p", "chunk", "seconds", "maker\n"])
        self.assertEqual({fields[5] for fields in log[1:]}, {"library\n"})
        self.assertEqual(sorted(fields[2:4] for fields in log[1:]), sorted(line.split(",")[:2] for line in lines[1:]))

    def test_an_interrupted_run_keeps_its_chunks(self) -> None:
        out = self.folder / "1.csv"
        words = [sys.executable, shared.TOOLS / "curve", "run", self.conf, "--jobs", "1", "--out", out]
        program = ["--program", shared.program()]
        with subprocess.Popen([*map(str, [*words, *program])], stderr=subprocess.PIPE, text=True) as child:
            while child.poll() is None and not (out.exists() and len(rows(out)) > 1):
                time.sleep(0.01)
            child.send_signal(signal.SIGTERM)
            _, said = child.communicate()
        self.assertIn(child.returncode, (130, 0))
        if child.returncode:
            # The signal may also come when the last chunk is written, and then no command has to go on.
            kept_in = rf"\d+ chunks are in {re.escape(str(out))}(: the same command goes on from there)?"
            self.assertRegex(said, rf"tools/curve: {kept_in}\ntools/curve: interrupted\n$")
        kept = out.read_text()
        self.assertGreater(len(rows(out)), 1)
        self.curve("run", self.conf, "--jobs", "1", "--out", out)
        self.assertLessEqual(set(kept.splitlines()), set(out.read_text().splitlines()))
        found = {line.split(",")[0] for line in rows(out)[1:]}
        self.assertEqual(found, {"0.2", "0.3", "0.4"})

    def test_a_refused_run_leaves_no_file(self) -> None:
        before = set(self.folder.iterdir())
        self.conf.write_text(CONF.replace("g = 120", "g = 121"))
        self.assertIn("Ragged", shared.refused("curve", "run", self.conf, "--jobs", "2"))
        self.assertEqual(set(self.folder.iterdir()), before)

    def test_an_estimate_of_very_many_chunks(self) -> None:
        """It makes the first points alone too. Without a log nobody knows how long a chunk takes."""
        self.conf.write_text(CONF.replace("= 20", "= 1_000_000").replace("chunks = 2", "chunks = 1_000_000"))
        status, _, said = shared.tool("curve", "run", self.conf, "--estimate")
        self.assertEqual((status, len(rows(self.folder / "c.csv"))), (0, 3))
        self.assertRegex(said, r"more than [:\d]+ hours of a core for \d{5} chunks")
        (self.folder / "c.csv.log").unlink()
        self.assertIn("c.csv.log does not say how long a chunk took", self.refused("run", self.conf, "--estimate", "--jobs", "1"))

    def test_results_of_another_program(self) -> None:
        """They go on if a share of them, made again, is the same. A line that was changed is found, and then nothing is written. A
        program without its symbols is the same one."""
        self.conf.write_text(CONF + 'link = "flip"\n')
        self.setting = settings.read_setting(self.conf)
        out, old = self.folder / "c.csv", self.source()
        self.curve("run", self.conf)
        before = out.read_text()
        stripped, newer = self.folder / "stripped", self.folder / "linksim"
        newer.write_bytes(shared.program().read_bytes().replace(b"TS 38.212", b"TS 38.213"))
        newer.chmod(0o755)
        if shutil.which("strip"):
            subprocess.run(["strip", "-o", stripped, shared.program()], check=True)
            self.assertEqual(sources.source_of(self.setting, stripped).text(), old)
        new = sources.source_of(self.setting, newer).text()
        self.assertNotEqual((new[:4], new[4:]), (old[:4], new[4:]))
        with_newer = ["--program", newer]
        for words in (["run", self.conf], ["audit", self.conf]):
            said = shared.tool("curve", *words, *with_newer, with_program=False)[2]
            self.assertIn("tools/curve audit CONF FILE --restamp tries a share", said)
        changed = before.replace(",40,", ",41,", 1)
        words = ["audit", self.conf, out, "--share", "100%", "--seed", 3, "--restamp", *with_newer]
        for text, status in ((changed, 1), (before, 0)):
            out.write_text(text)
            found, output, error = shared.tool("curve", *words, with_program=False)
            self.assertEqual(found, status, error)
            if status:
                self.assertEqual(out.read_text(), text)
        *_, comment = [line for line in out.read_text().splitlines() if line.startswith("#")]
        said = rf"^## \d+ chunks had the source {old}; with --share 1 --seed 3 those drawn .* by {new}, with the same result$"
        self.assertRegex(comment, said)
        restamped, digest = out.read_text(), binary.sha256_of(newer)
        self.assertIn(f"## program linksim {nr.__version__}, SHA-256 {digest}\n", restamped)
        self.assertEqual("".join(rows(out)), "".join(rows(self.file("before.csv", before.replace(old, new)))))
        # The run goes on, and keeps the comment.
        self.assertEqual(shared.tool("curve", "run", self.conf, *with_newer, with_program=False)[0], 0)
        self.assertEqual(out.read_text(), restamped)

    def test_a_stranger_repeats_it(self) -> None:
        """From the file of results alone, with the table in the same folder, come the same octets."""
        out = self.folder / "c.csv"
        self.curve("run", self.conf)
        there = self.folder / "there"
        there.mkdir()
        shutil.copy(out, there / "found.csv")
        shutil.copy(curve_files.PRACTICE, there)
        self.curve("run", there / "found.csv", "--out", there / "again.csv")
        self.assertEqual((there / "again.csv").read_bytes(), out.read_bytes())
        text = out.read_text()
        for said in (f"curve by linksim {nr.__version__}", "library libnr.so", "module nr", "table practice.csv, SHA-256"):
            self.assertIn(f"## {said}", text)
        bare = self.file("bare.csv", "".join(rows(out)))
        self.assertIn("bare.csv has no head with the keys of its curve", self.refused("run", bare, "--out", self.folder / "d.csv"))
        # Merged files keep it, and sums have it too.
        self.assertEqual(self.curve("merge", out, bare), text)

    def test_results_of_another_setting_are_refused(self) -> None:
        out = self.file("c.csv", self.curve("point", self.conf, "0.2", "0"))
        for old, new in (("seed = 7", "seed = 8"), ("rounds = 40", "rounds = 41"), ("a = 40", "a = 48")):
            self.conf.write_text(CONF.replace(old, new))
            self.assertIn("one of the keys a, rate2048", self.refused("run", self.conf))
        self.conf.write_text(CONF)
        self.file("practice.csv", (shared.EXAMPLES / "practice.csv").read_text() + "\n")
        self.conf.write_text(CONF.replace(str(shared.EXAMPLES / "practice.csv"), "practice.csv"))
        self.assertIn("the table differs", self.refused("run", self.conf))
        self.conf.write_text(CONF.replace("points = [0.2, 0.4]", "points = [0.2]").replace("chunks = 2", "chunks = 1"))
        self.curve("run", self.conf)
        self.assertEqual(out.read_text().count("\n0."), 1)
