"""`tools/explain`: what it says of each refusal, and of which part of the files. Of `outcome` it has the lines of blocks, why one
is open, and the page's pictures."""

from __future__ import annotations

import hashlib
import re
import unittest.mock

from linksim_tools.common import faults, program, toml_file
from linksim_tools.outcome import command
import report_pages
import shared

TABLE = shared.INPUTS["table"]
SETTINGS = "rate2048 = 2048\n"
HEADER = "block,rv,g,qm,nl,erase"


def changed(number: int, text: str) -> str:
    """The practice table with another record."""
    lines = TABLE.read_text().splitlines()
    lines[number - 1] = text
    return "".join(f"{line}\n" for line in lines)


def without(*starts: str) -> str:
    """The practice table without the records that begin so."""
    return "".join(line for line in TABLE.read_text().splitlines(True) if not line.startswith(starts))


# The text of a table, the fault, and what is said of it.
TABLES = [
    ("", "Empty", ["no record"]),
    ("2,0\n", "Fields", ["record 1, line 1: '2,0'", "2 fields"]),
    ("\n" + changed(3, "2,0,4"), "Csv 3", ["record 3, line 4: '2,0,4'", "3 fields, and 11 in record 1"]),
    (changed(3, "2,0,4" + ",-1" * 8), "Number 3", ["record 3, line 3", "set 0 is '-1'", "set 7 is '-1'"]),
    (changed(3, "2,0,52" + ",0" * 8), "Range 3", ["column is '52'"]),
    (changed(3, "3,0,52" + ",0" * 8), "Range 3", ["graph is '3'"]),
    (changed(3, "2,0,2" + ",0" * 8), "Twice 3", ["record 3, line 3", "record 2, line 2: '2,0,2,"]),
    (without("2,0,11,"), "Core 2", ["row 0: columns 10 from 10 on", "row 1: columns 11, 12 from 10 on"]),
    (without("2,7,17,"), "Extension 2", ["base graph 2, row 7"]),
    (without("2,7,", "2,9,"), "MissingRow 2", ["no entry in rows 7, 9"]),
]
SETTINGS_TEXTS = [
    ("rate2048 = \n", "Toml", ["not TOML"]),
    ("rate = 5\n", "Unknown", ["rate = 5"]),
    ("lbrm = 5\n", "Missing", ["lbrm = 5"]),
    ("rate2048 = 0.5\n", "Kind", ["rate2048 = 0.5 (rate2048 = 1024 is the same)"]),
    ("rate2048 = 682.5\n", "Kind", ["rate2048 = 682.5 (rate2048 = 1365 is the same)"]),
    ("rate1024 = 512\n", "Unknown", ["rate1024 = 512 (rate2048 = 1024 is the same)"]),
    ("rate2048 = 4096\n", "Range", ["rate2048 = 4096"]),
]
BLOCKS_TEXTS = [
    ("", "Empty", ["0 octets in 0 lines"]),
    ("01\n" * 257, "TooMany", ["257 lines"]),
    ("01\n\n", "Blank 2", ["line 2: ''"]),
    ("01\n0x01\n", "Digit 2", ["line 2: '0x01'", "character 2 is 'x'"]),
    ("012\n", "Odd 1", ["line 1: '012'", "3 digits"]),
    ("00" * 163_841, "LongLine 1", ["327682 digits"]),
]
SCHEDULES = [
    ("block,rv,g\n", "Header", ["record 1, line 1: 'block,rv,g'"]),
    (f"{HEADER}\n1,0\n", "Csv 2", ["record 2, line 2: '1,0'", "2 fields, and 6 in the header"]),
    (HEADER + "\n1,0,24,1,1,-" * 4097, "TooMany", ["4098 records with the header"]),
    (f"{HEADER}\n1,0,x,1,1,-\n", "Number 2", ["g is 'x'"]),
    (f"{HEADER}\n\n3,0,24,1,1,-\n", "Block 2", ["record 2, line 3", "block is 3, of 1 in"]),
    (f"{HEADER}\n1,0,24,1,1,0.5\n", "Erase 2", ["erase is '0.5'"]),
    (f"{HEADER},flip\n1,0,24,1,1,-,x\n", "Flip 2", ["flip is 'x'"]),
    (f"{HEADER},flip,mask\n1,0,24,1,1,-,-,-\n", "Mask 2", ["mask is '-'"]),
    (f"{HEADER},flip,mask,process,fresh\n1,0,24,1,1,-,-,all,16,1\n", "Process 2", ["process is '16'"]),
    (f"{HEADER},flip,mask,process,fresh\n1,0,24,1,1,-,-,all,5,0\n", "Fresh 2", ["no round of its process began before"]),
]


class Names(shared.InFolder):
    """The names alone."""

    def test_each_name(self) -> None:
        for kind in faults.FILES.values():
            for fault in [*kind.faults, *kind.later]:
                output = shared.made("explain", fault.name.lower(), with_program=False)
                self.assertIn(f"  {fault.cause}\n  {fault.remedy}\n", output)

    def test_no_name(self) -> None:
        said = "tools/explain: there is no error Mend\n"
        self.assertEqual(shared.tool("explain", "Core", "Mend", with_program=False), (2, "", said))
        self.assertEqual(shared.tool("explain", "mend", "--table", "t")[0], 2)
        self.assertEqual(shared.tool("explain", "run", "check", "--table", "t")[0], 2)

    def test_a_program_that_is_killed(self) -> None:
        """It says nothing itself, as on a processor that lacks an instruction."""
        killed = self.file("killed", "#!/bin/sh\nkill -ILL $$\n")
        killed.chmod(0o755)
        for words in (["explain", "check", "--table", TABLE], ["conform", "receiver", "suite", "--table", TABLE]):
            said = shared.refused(str(words[0]), *words[1:], "--program", killed, with_program=False)
            self.assertIn(f"{killed} ended with status -4", said)

    def test_another_program(self) -> None:
        """Each tool says so, whatever that program would answer."""
        other = self.file("other", "#!/bin/sh\necho another 1.0\n")
        other.chmod(0o755)
        tools = [["explain", "check", "--table", TABLE], ["conform", "receiver", "suite", "--table", TABLE],
                 ["curve", "sets", shared.EXAMPLES / "curve.toml", "0.3", "0"]]
        for tool, *words in tools:
            said = shared.refused(str(tool), *words, "--program", other, with_program=False)
            self.assertEqual(said, f"tools/{tool}: {other} is not linksim: it answers 'another 1.0' to --version\n")

    def test_about(self) -> None:
        """Which program it is."""
        output = shared.made("explain", "about")
        said = dict(line.rpartition(" ")[::2] for line in output.splitlines())
        self.assertEqual(said["linksim"], shared.linksim("--version").split()[1])
        self.assertEqual(said["program sha256"], hashlib.sha256(shared.program().read_bytes()).hexdigest())
        self.assertEqual(said["tools"], (shared.ROOT / "VERSION").read_text().strip())
        self.assertIn("specification 3GPP TS 38.212 Release 15\n", output)
        verdicts = [line.split() for line in output.splitlines() if line.startswith("verdict ")]
        self.assertEqual([(it[1], len(it) - 3) for it in verdicts if it[2] == "axioms"], [("nr_c", 3), ("linksim", 39)])


class Files(shared.InFolder):
    """The refusals of files."""

    def setUp(self) -> None:
        super().setUp()
        self.paths: dict[str, object] = {
            "table": TABLE, "settings": self.file("s.toml", SETTINGS), "blocks": self.file("b.txt", "01\n")
        }
        self.paths["schedule"] = self.file("d.csv", f"{HEADER}\n1,0,24,1,1,-\n")

    def explained(self, command: str, **paths: object) -> str:
        """What is said of a command with these files in the place of others; something is refused."""
        words = paths if command in ("cut", "check") else {**self.paths, **paths}
        status, output, error = shared.tool("explain", command, *shared.options(words))
        self.assertEqual((status, error), (1, ""), output)
        return output

    def test_faults_of_files(self) -> None:
        rows = {"table": TABLES, "settings": SETTINGS_TEXTS, "blocks": BLOCKS_TEXTS, "schedule": SCHEDULES}
        self.assertEqual({name: {row[1].split()[0] for row in of} | {"Read", "TooLong"} for name, of in rows.items()},
                         {name: {fault.name for fault in kind.faults} for name, kind in faults.FILES.items()})
        for name, texts in rows.items():
            for text, fault, said in texts:
                with self.subTest(f"{name} {fault}"):
                    output = self.explained("send", **{name: self.file("wrong", text)})
                    self.assertEqual(output.splitlines()[0], f"linksim: refused: {name} {fault}")
                    for part in said:
                        self.assertIn(part, output)
                    found = next(it for of, it in faults.named(fault.split()[0]) if of == name)
                    self.assertIn(f"  {found.head}: {found.line}\n", output)

    def test_files_that_cannot_be_read(self) -> None:
        missing = self.folder / "no such file"
        self.assertIn(f"  {missing}: No such file or directory\n", self.explained("check", table=missing))
        self.assertIn(f"  {self.folder}: Is a directory\n", self.explained("run", schedule=self.folder))

    def test_standard_input(self) -> None:
        status, output, error = shared.tool("explain", "cut", "--blocks", "-", stdin=b"0x01\n")
        self.assertEqual((status, error), (1, ""))
        self.assertIn("  standard input, line 1: '0x01'\n  character 2 is 'x'\n", output)

    def test_a_long_file(self) -> None:
        self.assertIn(": more than 65,536 octets\n", self.explained("send", settings=self.file("long", "#" * 65_537)))

    def test_counts_of_a_table(self) -> None:
        """A table that is accepted, but has another number of entries than the published one, gets a hint."""
        full = shared.drawn_table(self.folder)
        said = "linksim check refuses nothing of these files\n"
        self.assertEqual(shared.made("explain", "check", "--table", full), said)
        hint = "  base graph 2 has 105 entries; Table 5.3.2-3 has 197\n"
        self.assertEqual(shared.made("explain", "check", "--table", TABLE), said + hint)

    def test_a_rate_that_is_a_fraction(self) -> None:
        blocks = self.file("b.txt", "01\n")
        for rate, hint in (("0.5", "0.5 is 1024"), ("0.3", "0.3 is not a whole number of these: 614.40"), ("1/4", "1/4 is 512")):
            status, output, error = shared.tool("explain", "cut", "--rate", rate, "--blocks", blocks)
            self.assertEqual((status, error), (2, ""))
            self.assertIn(f"  the rate is a number of 2048ths; {hint}\n", output)

    def test_blocks_by_themselves(self) -> None:
        output = self.explained("cut", blocks=self.file("u", "01\n" + "00" * 12_500 + "\n"))
        self.assertIn("line 2: 100000 bits\n", output)
        self.assertIn("  below a ", output)
        output = self.explained("send", blocks=self.file("g", "00" * 500 + "\n"))
        self.assertIn("  rate2048 2048: base graph 1\n", output)
        self.assertIn("graph 2 entries 105\n", output)
        self.assertIn(
            "NoBuffer: lbrm leaves no bit", self.explained("send", settings=self.file("l", SETTINGS + "lbrm = 0\n"))
        )

    def test_transmissions(self) -> None:
        output = self.explained("run", schedule=self.file("t", f"{HEADER}\n" + "1,4,24,1,1,-\n" * 12))
        self.assertIn("refused 1 1 Rv\n", output)
        self.assertIn("record 2, line 2: '1,4,24,1,1,-'\n  Rv: rv is above 3; write 0-3\n", output)
        self.assertTrue(output.endswith("and 2 transmissions more\n"), output)

    def test_a_later_release(self) -> None:
        output = self.explained("send", schedule=self.file("q", f"{HEADER}\n1,0,40,10,1,-\n"))
        said = "\n  1024QAM is of Release 17; this is Release 15, which has 1, 2, 4, 6 and 8\n  Order: qm is not 1"
        self.assertIn(said, output)

    def test_a_text_in_utf_16(self) -> None:
        output = self.explained("check", table=self.file("t16.csv", TABLE.read_text().encode("utf-16")))
        self.assertIn("t16.csv: its text is in UTF-16; save it in UTF-8\n", output)

    def test_wrong_words(self) -> None:
        status, output, error = shared.tool("explain", "run", "--table", TABLE)
        self.assertEqual((status, error), (2, ""))
        self.assertIn("required arguments", output)


class Outcome(report_pages.SeenPages):
    """Over the files of the examples."""

    def outcome(self, schedule: object, *more: object, status: int = 0, **given: object) -> str:
        """What the tool says of a schedule of the examples' blocks."""
        words = shared.options({**shared.INPUTS, **given, "schedule": schedule})
        found, output, error = shared.tool("explain", "outcome", *words, *more)
        self.assertEqual((found, error), (status, ""), output)
        return output

    def test_an_open_block(self) -> None:
        """By hand: of 24 bits the first 20 arrive. The 4 that are missing, and the 8 that are never sent, are left, with what
        parity hangs on them."""
        schedule = self.file("s.csv", "block,rv,g,qm,nl,erase\n1,0,24,1,1,20-23\n")
        lines = self.outcome(schedule).splitlines()
        self.assertRegex(lines[0], r"^block 1 open tx 1 failed 1 of 1$")
        self.assertRegex(lines[1], r"^  code block 0: (\d+) of its K' = 24 bits are unknown\. The (\d+) ")
        audited = shared.linksim("audit", *shared.options({**shared.INPUTS, "schedule": schedule}))
        words = audited.splitlines()[0].split()
        self.assertEqual(re.findall(r"The (\d+) unknown", lines[1]), [words[3]])
        self.assertIn(f"code block 0: {sum(int(it) < 24 for it in words[4:])} of its K'", lines[1])
        self.assertTrue(lines[-1].startswith("total blocks "))

    def test_the_lines_of_run(self) -> None:
        """Of every schedule of the examples: the lines of blocks, rounds and the total of `run`, in its order."""
        for name in ("schedule.csv", "losses.csv", "processes.csv"):
            with self.subTest(name):
                words = shared.options({**shared.INPUTS, "schedule": shared.EXAMPLES / name})
                wanted = [line for line in shared.linksim("run", *words).splitlines() if re.match("block|process|total", line)]
                page = self.folder / f"{name}.html"
                output = self.outcome(shared.EXAMPLES / name, "--html", page)
                self.assertEqual([line for line in output.splitlines() if re.match("block|process|total", line)], wanted)
                self.assertEqual(page.read_text().count("<svg"), output.count("  code block "))

    def test_a_refusal(self) -> None:
        output = self.outcome(self.file("s.csv", "block,rv\n"), status=1)
        self.assertTrue(output.startswith("linksim: refused: schedule Header\n"), output)
        self.assertEqual(shared.tool("explain", "outcome", "--table", "t")[0], 2)
        words = {name: str(path) for name, path in shared.INPUTS.items()}
        words["schedule"] = str(shared.EXAMPLES / "losses.csv")
        with unittest.mock.patch.object(toml_file, "tomllib", None), self.assertRaisesRegex(program.Failed, "the package tomli"):
            command.told(shared.program(), words, None)

    def test_the_pictures_of_long_rounds(self) -> None:
        """Drawn and listed erasures, several code blocks, masks, a limited buffer, processes and refused transmissions. The tool
        fails if peeling does not end where `audit` says."""
        table = shared.drawn_table(self.folder)
        block = self.file("b.txt", "5a" * 957 + "\n" + "3c" * 480 + "\n")
        settings = self.file("s.toml", "rate2048 = 512\nlbrm = 9000\n")
        schedule = self.file("s.csv", "block,rv,g,qm,nl,erase,flip,mask,process,fresh\n" + "".join((
            "1,0,12000,2,1,pcg:1:1500000000,-,all,0,1\n", "2,2,3000,6,1,0-900 950,-,all,3,1\n", "1,3,8000,8,1,pcg:9:3000000000,-,0 2,0,0\n",
            "2,4,3000,6,1,-,-,all,3,0\n", "1,0,30,10,1,-,-,all,0,1\n", "2,1,900,4,3,all,-,all,3,0\n", "1,2,24000,1,1,0-11000,-,1,0,0\n",
        )))
        page = self.folder / "page.html"
        output = self.outcome(schedule, "--html", page, table=table, settings=settings, blocks=block)
        self.assertIn("process 0 block 1 open tx 2 failed ", output)
        self.assertIn("2 transmissions are rejected: tools/explain run shows why", output)
        self.assertGreater(page.read_text().count("<svg"), 2)
        self.assertIn("in 4 to 7", page.read_text())
        self.assertEqual(self.seen(page.read_text().splitlines())[1], page.read_text().count("<svg"))
