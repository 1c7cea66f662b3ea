"""Results of `tools/curve`: merged, refused, with lines that were cut off or are not there, and which chunks come next. Chunks
that the library makes are those that the program makes, octet for octet but for their source."""

from __future__ import annotations

import bisect
import contextlib
import dataclasses
import datetime
import io
import random
import shutil
import subprocess
import sys

from linksim_tools.curve import chunks, draws, engines, grid, making, outlook, results, run, status
from linksim_tools.curve import setting as settings
from linksim_tools.curve import source as sources
import shared
from model import pcg
from test_curve import CONF, Conf


class Merging(Conf):
    NEW = "1a2b-3c4d-5e6f"

    def test_a_chunk_with_other_numbers_is_refused(self) -> None:
        one, other = self.file("1.csv", "0.2,0,40,1,2,2,9\n"), self.file("2.csv", "0.2,0,40,1,3,3,9\n")
        self.assertIn("with other numbers", self.refused("merge", one, other))

    def test_another_curve_and_other_text_are_refused(self) -> None:
        one, other = self.file("1.csv", "0.2,0,40,1,2,2,9\n"), self.file("2.csv", "0.2,1,40,2,2,4,9\n")
        said = "belong to different curves: .*1.csv has 1 transmissions of 1 code blocks and .*2.csv has 1 transmissions of 2 code"
        self.assertRegex(self.refused("merge", one, other), said)
        for text in ("0.2,0,40,1,3,2\n", "x,0,40,1,3,3,9\n", "0.2,0,0,1,3,3,9\n", "1.2,0,40,1,3,3,9\n"):
            said = shared.refused("curve", "merge", self.file("3.csv", text), lines=2, with_program=False)
            self.assertRegex(said, "(?s)line 1 is no line of results.*there is no line of results in it")
        sourced = f"0.2,0,40,1,3,3,9,70:3,{self.NEW}\n"
        for text, ended in (("x\n" * 13, 1), (sourced + "0.2,1,40,1,3,3,9\n" * 5000 + "x\n" * 5000, 0)):
            found, _, said = shared.tool("curve", "merge", self.file("3.csv", text), with_program=False)
            self.assertEqual((found, said.count("\n"), said.count("3.csv: ")), (ended, 9 + ended, 9 + ended), said)
            self.assertIn(f"{text.count(chr(10)) - 8 - (ended == 0)} more lines are ignored\n", said)

    def test_a_line_that_contradicts_itself_is_an_error(self) -> None:
        """Its file and its number are named. A round over flipped bits fails without an undecided code block."""
        for counts, said in (
            ("15,14,90", "failed_1 is 15, more than failed_codeblocks_1, which is 14"), ("41,41,99", "failed_1 is 41 of 40 rounds"),
            ("1,2,9", "failed_codeblocks_1 is 2 in 1 failed rounds"), ("3,3,2", "left_1 is 2 in 3 failed code blocks"),
        ):
            path = self.file("3.csv", f"0.2,0,40,1,3,3,9\n0.2,1,40,1,{counts}\n")
            self.assertIn(f"3.csv: line 2 contradicts itself: {said}", self.refused("merge", path))
        self.assertEqual(self.merged("0.2,0,40,1,3,0,0\n")[0], "0.2,0,40,1,3,0,0\n")

    def merged(self, text: str) -> tuple[str, str]:
        """What merge writes of a file, without the header, and what it says."""
        status, output, error = shared.tool("curve", "merge", self.file("1.csv", text), with_program=False)
        self.assertEqual(status, 0, error)
        return output.partition("\n")[2], error

    def test_a_line_without_an_end_is_left_out(self) -> None:
        kept, said = self.merged("0.2,0,40,1,3,3,9\n0.2,1,40,1,3")
        self.assertEqual(kept, "0.2,0,40,1,3,3,9\n")
        self.assertIn("has no end", said)
        with contextlib.redirect_stderr(io.StringIO()):
            self.assertEqual(results.lines_from(self.file("2.csv", "p,chu")), [])

    def test_a_line_that_was_cut_off_loses_itself_alone(self) -> None:
        """Wherever it was cut, and whether the next one stands after it at once or in a line of its own."""
        lost, kept = f"0.2,0,40,1,3,30,3,30,9,95,70:3,99:30,{self.NEW}", f"0.25,1,40,1,2,1,2,1,9,5,70:2,99:1,{self.NEW}\n"
        for other in (kept, kept.replace("0.25", "5e-06"), kept.replace("0.25", "1.0")):
            for text in (lost[:end] + between + other for end in range(1, len(lost)) for between in ("", "\n")):
                with self.subTest(text), contextlib.redirect_stderr(io.StringIO()) as said:
                    found = results.lines_from(self.file("1.csv", text))
                    self.assertEqual([line.text() + "\n" for line in found], [other])
                    self.assertIn("it is ignored", said.getvalue())

    def test_sources(self) -> None:
        """Lines of two sources are refused, and what differs is named; old files have none, and merge by themselves."""
        line = "0.2,{},40,1,3,3,9,70:3,{}\n"
        one = self.file("1.csv", line.format(0, self.NEW))
        for source, said in (
            ("1a2b-3c4d-0000", "one of the keys a, rate2048"), ("1a2b-0000-5e6f", "the table differs"),
            ("0000-3c4d-5e6f", "the library or program differs"),
            ("0000-0000-5e6f", "the library or program and the table differ"),
        ):
            other = self.file("2.csv", line.format(1, source))
            self.assertIn(said, self.refused("merge", one, other))
            self.assertIn(said, self.refused("merge", "--total", one, other))
        old = [self.file(f"old-{chunk}.csv", f"0.2,{chunk},40,1,3,3,9\n") for chunk in (0, 1)]
        self.assertIn("without a source", self.refused("merge", one, *old))
        self.assertEqual(self.curve("merge", *old), "p,chunk,rounds,c,failed_1,failed_codeblocks_1,left_1\n"
                         "0.2,0,40,1,3,3,9\n0.2,1,40,1,3,3,9\n")

    def test_what_is_sent_twice_is_kept_once(self) -> None:
        call, out = engines.Call(self.setting, shared.program(), sources.Source("1a2b", "3c4d", "5e6f")), self.folder / "c.csv"
        text = f"0.2,0,40,1,3,3,2,2,9,9,,70:3,{self.NEW}\n"
        with run.kept(call, out) as found:
            self.assertEqual([found.take(text), found.take(text)], [results.line_from(text), None])
        self.assertEqual(out.read_text().count(text), 1)

    def test_missing(self) -> None:
        """Chunks that are not there are listed, with status 1; results of another curve say nothing of it."""
        lines = "".join(f"{p},{chunk},40,1,0,0,0,0,0,0,,,{self.source()}\n" for p, chunk in ((0.2, 0), (0.2, 3), (0.4, 0)))
        path = self.file("1.csv", lines)
        for words, wanted in (
            ("", "0.2,1\n0.2,2\n"), ("--points 0.4 --chunks 2", "0.4,1\n"), ("--points 0.3,0.4", "0.3,0\n"),
            ("--points 0.4", ""),
        ):
            found = shared.tool("curve", "merge", path, "--missing", self.conf, *words.split(), with_program=False)
            self.assertEqual(found, (1 if wanted else 0, wanted, ""))
        self.conf.write_text(CONF.replace("seed = 7", "seed = 8"))
        self.assertIn("1.csv: not the curve of ", self.refused("merge", path, "--missing", self.conf))


class Status(Conf):
    """How far a run is, by its file and its log."""

    def test_said(self) -> None:
        now = datetime.datetime(2026, 1, 2, 3, 4, 5, tzinfo=datetime.timezone.utc)
        path = self.file("c.csv", "".join(f"0.2,{chunk},40,1,0,0,0,0,0,0,,,1a2b-3c4d-5e6f\n" for chunk in range(30)))
        log = ["time,host,p,chunk,seconds,maker", "# 2026-01-02T03:00:05+00:00,20,40,100"]
        log += [f"2026-01-02T03:01:45+00:00,n{chunk},0.2,{chunk},9.5,library" for chunk in range(30)]
        log += ["x,y,z,1,2", "# 1,2,3,4", "# "]
        self.file("c.csv.log", "\n".join(log))
        first, last = "c.csv: 30 chunks at 1 points, 1,200 rounds", "last chunk 0:02:20 ago, made by n29"
        coming = "30 chunks of this wave are to come; about 90 in all"
        said = list(status.lines(path, now))
        self.assertEqual(said, [f"{self.folder}/{first}", last, "no run has the file locked", coming])
        with results.results_file(path):
            said = list(status.lines(path, now))
        self.assertEqual(said[2:], ["a run writes there now", coming, "about 0:15:00 left for these, at 6.0 chunks a minute"])
        self.file("c.csv.log", "")
        self.assertEqual(list(status.lines(path, now)), [f"{self.folder}/{first}", "no run has the file locked"])
        self.assertIn("there is no file of results", shared.refused("curve", "status", "none.csv", with_program=False))


class Wanted(Conf):
    """Which chunks come next, without the program: lines are made by hand."""

    def line(self, p: float, chunk: int, *failed: int) -> results.Line:
        return results.Line(p, chunk, 40, 1, failed, failed, failed)

    def test_the_grid_then_the_fall_then_more(self) -> None:
        setting = dataclasses.replace(self.setting, points=(0.2, 0.6), chunks=4)
        lines: list[results.Line] = []
        self.assertEqual(grid.wanted(setting, lines), [(0.2, 0), (0.6, 0)])
        lines += [self.line(0.2, 0, 1, 0), self.line(0.6, 0, 40, 40)]
        self.assertEqual(grid.wanted(setting, lines), [(0.4, 0)])
        lines.append(self.line(0.4, 0, 40, 30))
        self.assertEqual(grid.wanted(setting, lines), [(0.3, 0)])
        lines.append(self.line(0.3, 0, 21, 0))
        # At 0.3 the first curve is known well, and the second one falls elsewhere; at 0.2 one failure is too few.
        self.assertEqual(grid.wanted(setting, lines), [(0.2, 1)])
        lines.append(self.line(0.2, 1, 2, 0))
        self.assertEqual(grid.wanted(setting, lines), [(0.2, 2), (0.2, 3)])
        lines.append(self.line(0.2, 3, 2, 0))
        self.assertEqual(grid.wanted(setting, lines), [(0.2, 2)])
        lines.append(self.line(0.2, 2, 2, 0))
        self.assertEqual(grid.wanted(setting, lines), [])

    def test_of_points_without_a_failure_the_greatest_has_all_chunks(self) -> None:
        setting = dataclasses.replace(self.setting, points=(0.1, 0.2, 0.3, 0.4), step=0.1, chunks=4)
        lines = [self.line(p, 0, failed, 0) for p, failed in ((0.1, 0), (0.2, 0), (0.3, 0), (0.4, 30))]
        # 0.2 and 0.1 wait for what is above them.
        for numbers in ([1], [2, 3]):
            self.assertEqual(grid.wanted(setting, lines), [(0.3, chunk) for chunk in numbers])
            lines += [self.line(0.3, chunk, 0, 0) for chunk in numbers]
        self.assertEqual(grid.wanted(setting, lines), [])
        # If a later chunk at 0.3 has a failure, 0.2 is the greatest without one.
        lines[-1] = self.line(0.3, 3, 1, 0)
        self.assertEqual(grid.wanted(setting, lines), [(0.2, 1)])

    def test_how_many_come_is_foreseen(self) -> None:
        """From the grid on, if the shares fall on straight lines, a run wants what was foreseen of it, phase by
        phase."""
        setting = dataclasses.replace(self.setting, points=(0.2, 0.6), chunks=4)
        lines = [self.line(0.2, 0, 1, 0)]
        self.assertIsNone(outlook.outlook(setting, []))
        self.assertIsNone(outlook.outlook(setting, lines))
        lines.append(self.line(0.6, 0, 40, 40))
        points, foreseen = results.totals(lines), outlook.outlook(setting, lines)
        assert foreseen is not None
        self.assertGreater(len(foreseen), 4)
        while tasks := grid.wanted(setting, lines):
            lines += [outlook.predicted(points, p, chunk) for p, chunk in tasks]
        self.assertEqual(len(lines), 2 + len(foreseen))
        self.assertEqual(outlook.outlook(setting, lines), [])
        endless = dataclasses.replace(setting, chunks=10**9, errors=10**9)
        self.assertIsNone(outlook.outlook(endless, lines))

    def test_waves(self) -> None:
        """The first one is the grid. Each later one has what is wanted, and up to its size what will be wanted then. A new point
        has its neighbours beside it alone."""
        setting = dataclasses.replace(self.setting, points=(0.2, 0.6, 1.0), step=0.1, chunks=4)
        self.assertEqual(outlook.wave(setting, []), [(0.2, 0), (0.6, 0), (1.0, 0)])
        lines = [self.line(p, 0, 0, 0) for p in (0.2, 0.6, 1.0)]
        self.assertEqual(grid.halvings(setting, lines, [(0.4, 0), (0.6, 1)], 99), [(0.3, 0), (0.5, 0)])
        lines = [self.line(0.2, 0, 1, 0), self.line(0.6, 0, 40, 40), self.line(1.0, 0, 40, 40)]
        for size, first in ((1, 1), (3, 3), (4, 4)):
            tasks = outlook.wave(dataclasses.replace(setting, wave=size), lines)
            self.assertEqual((tasks[0], len(tasks)), ((0.4, 0), first))

    def test_a_wave_is_ended_first(self) -> None:
        """Whatever of it is there, in whatever order: the same chunks are made. What is of no wave counts for what comes."""
        setting = dataclasses.replace(self.setting, points=(0.2, 0.6), step=0.1, chunks=8, wave=4)
        waves: list[list[tuple[float, int]]] = []
        lines: list[results.Line] = []
        rule = run.Rule(setting)
        points = results.totals([self.line(0.2, 0, 1, 0), self.line(0.6, 0, 40, 40)])
        while True:
            tasks, foreseen = rule.next(lines)
            if not tasks:
                break
            waves.append(tasks)
            lines += [outlook.predicted(points, p, chunk) for p, chunk in tasks]
        self.assertEqual((waves[0], foreseen), ([(0.2, 0), (0.6, 0)], []))
        self.assertGreater(len(waves), 3)
        made = {(line.p, line.chunk): line for line in lines}
        draw = random.Random(3)
        for number, wave in enumerate(waves):
            before = [made[task] for some in waves[:number] for task in some]
            some = draw.sample(wave, len(wave) // 2)
            rest, _ = run.Rule(setting).next(draw.sample(before, len(before)) + [made[task] for task in some])
            self.assertEqual(rest, [task for task in wave if task not in some])
        other = [*lines[:2], outlook.predicted(points, 0.3, 7)]
        self.assertEqual(run.Rule(setting).next(other)[0], outlook.wave(setting, other))

    def test_no_step_adds_no_point(self) -> None:
        setting = dataclasses.replace(self.setting, points=(0.2, 0.6), step=0.0, chunks=1)
        lines = [self.line(0.2, 0, 0, 0), self.line(0.6, 0, 40, 40)]
        self.assertEqual(grid.wanted(setting, lines), [])


ARCHIVE = shared.ROOT / "crates" / "nr_c" / "out" / "libnr_c.a"

# Graph 1 has one code block, a short buffer, or three code blocks of two lengths. Graph 2 has one code block, a short
# buffer, or three code blocks. Each has points where the first transmission may do, and where a later one does.
CURVES = [
    ("drawn.csv", {"a": 3840, "rate2048": 1365, "g": 5760, "qm": 2}, (0.28, 0.64, 0.8)),
    ("drawn.csv", {"a": 3840, "rate2048": 1365, "g": 5280, "qm": 2, "lbrm": 4500}, (0.2, 0.6)),
    ("drawn.csv", {"a": 16848, "rate2048": 1365, "g": 25288, "qm": 2, "nl": 2}, (0.29, 0.7)),
    ("practice.csv", {"a": 72, "rate2048": 2048, "g": 200, "qm": 2}, (0.1, 0.35, 0.8)),
    ("practice.csv", {"a": 72, "rate2048": 2048, "g": 180, "qm": 1, "lbrm": 120}, (0.1, 0.3)),
    ("practice.csv", {"a": 7632, "rate2048": 512, "g": 24008, "qm": 4}, (0.08, 0.5)),
]
REST = 'rvs = [0, 2, 3]\nseed = 9\nrounds = 40\npoints = [0.1]\nerrors = 1\nchunks = 1\n'


class Library(shared.InFolder):
    """Program, library and tools as in a checkout, in a folder of their own."""

    def setUp(self) -> None:
        super().setUp()
        if not ARCHIVE.exists() or not shutil.which("rt"):
            self.skipTest("the archive of nr_c is not built, or the kit is not there")
        shutil.copytree(shared.TOOLS, self.folder / "tools", ignore=shutil.ignore_patterns("__pycache__"))
        self.program = self.folder / "crates" / "linksim" / "out" / "linksim"
        self.program.parent.mkdir(parents=True)
        shutil.copy(shared.program(), self.program)
        shutil.copytree(shared.ROOT / "c" / "nr", self.folder / "c" / "nr")
        out = self.folder / "c" / "out"
        words = ["make", "-s", "-C", shared.ROOT / "c", f"OUT={out}", f"NR_C={ARCHIVE}", out / "libnr.so.3"]
        subprocess.run(list(map(str, words)), check=True)

    def lines(self, program: object, conf: object, *tasks: str) -> str:
        """What `point` writes."""
        return self.curve("point", conf, *tasks, "--program", program)[1]

    def curve(self, *words: object, status: int = 0) -> tuple[int, str, str]:
        """What the tool of this folder writes."""
        found, output, error = shared.run([sys.executable, self.folder / "tools" / "curve", *words])
        self.assertEqual(found, status, error)
        return found, output.decode(), error.decode()

    def by_program(self, setting: settings.Setting, p: float, chunk: int, source: str) -> results.Line:
        """A chunk's line from what the program says of its rounds."""
        after, shape, threshold = len(setting.rvs), making.shape_of(setting), draws.threshold_of(p)
        tally = making.Tally(setting, shape, (p, chunk))
        for turn, states in chunks.rounds_of_chunk(setting, self.program, p, chunk, range(setting.rounds), after):
            erased = [0] * len(shape.lengths)
            for k, (fails, lacking) in enumerate(states):
                seed, start = chunks.seed_of(setting, threshold, chunk, turn, k), 0
                places = pcg.places(seed, threshold, setting.g)
                tally.failed[k] += fails
                tally.left[k] += sum(lacking)
                for r, length in enumerate(shape.lengths):
                    erased[r] += bisect.bisect_left(places, start + length) - bisect.bisect_left(places, start)
                    start += length
                    tally.failed_codeblocks[k] += lacking[r] > 0
                    if lacking[r] and k + 1 >= tally.hope:
                        tally.open_by_erased[k][tally.group[r]][erased[r]] += 1
        return tally.line(source)

    def test_same_lines(self) -> None:
        """What the library makes is what the program says of each round by itself."""
        open_after: set[bool] = set()
        for number, (table, keys, points) in enumerate(CURVES):
            shutil.copy(shared.EXAMPLES / table, self.folder)
            text = "".join(f"{name} = {value}\n" for name, value in {"nl": 1, **keys}.items())
            conf = self.file(f"{number}.toml", f'table = "{table}"\n{text}{REST}')
            setting, words = settings.read_setting(conf), "/".join(f"{p}:0-1" for p in points)
            with self.subTest(table=table, **keys):
                found = [results.line_from(text) for text in self.lines(self.program, conf, words).splitlines()]
                self.assertEqual(len(found), 2 * len(points))
                for line in found:
                    assert line
                    self.assertEqual(line, self.by_program(setting, line.p, line.chunk, line.source))
                    open_after |= {failed not in (0, 40) for failed in line.failed}
        self.assertEqual(open_after, {False, True})

    def test_source(self) -> None:
        """A library, or a module of it, that is another one is another source, which nothing takes for the old one."""
        shutil.copy(shared.EXAMPLES / "practice.csv", self.folder)
        conf = self.file("c.toml", 'table = "practice.csv"\na = 72\nrate2048 = 2048\ng = 200\nqm = 2\nnl = 1\n' + REST)
        one = self.file("1.csv", self.lines(self.program, conf, "0.1", "0"))
        if shutil.which("strip"):
            subprocess.run(["strip", self.folder / "c" / "out" / "libnr.so.3"], check=True)
            self.assertEqual(self.lines(self.program, conf, "0.1", "0"), one.read_text())
        with open(self.folder / "c" / "nr" / "_simulate.py", "a") as file:
            file.write("# another one\n")
        other = self.file("2.csv", self.lines(self.program, conf, "0.1", "1"))
        for given in (("merge", one, other), ("audit", conf, one, "--program", self.program)):
            self.assertRegex(self.curve(*given, status=1)[2], "the library or program differs.*audit CONF FILE --restamp")
        self.curve("run", conf, "--out", self.folder / "c.csv", "--jobs", 1, "--program", self.program)
        log = [line.split(",") for line in (self.folder / "c.csv.log").read_text().splitlines()]
        self.assertEqual({fields[5] for fields in log[1:] if len(fields) > 5}, {"library"})

    def test_rejected(self) -> None:
        """What the library rejects is said in its words, with the file."""
        shutil.copy(shared.EXAMPLES / "practice.csv", self.folder)
        for changed, said in (
            ({"qm": 3}, "qm is not 1, 2, 4, 6 or 8"), ({"qm": 10}, "1024QAM (qm = 10) is of Release 17"),
            ({"g": 201}, "g is not a multiple of qm * nl"), ({"a": 8000}, "the table has no entries for base graph 1"),
            ({"lbrm": 0}, "lbrm is not an integer from 1"),
        ):
            keys = {"nl": 1, "a": 72, "rate2048": 2048, "g": 200, "qm": 2, **changed}
            conf = self.file("c.toml", 'table = "practice.csv"\n' + "".join(f"{k} = {v}\n" for k, v in keys.items()) + REST)
            error = self.curve("point", conf, "0.1", "0", "--program", self.program, status=1)[2]
            self.assertIn(f"tools/curve: {conf}: ", error)
            self.assertIn(said, error)
            self.assertEqual(error.count("\n"), 1, error)
