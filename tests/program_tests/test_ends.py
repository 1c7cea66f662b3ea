"""Files and outputs that break, that take little at a time, or that have no end. Each failing read is the fault `Read`
of its file, with nothing written and no read after it. Each failing write is `Write`, after the octets before it. At the
program's edge its files are opened and closed in turn, its standard streams may be closed, and it may have little memory."""

from __future__ import annotations

import os
import random
import threading

from programs import Ended, FILES, Program, Row, done, folder, octets, ran, refused
import programs
from texts import EXAMPLES, PRACTICE, QUARTER_RATE, lines, six, ten
from worked_texts import CUT_01, LONG_HELP, SYMBOLS, VERSION

# Two rounds of one HARQ process: 24 bits of block 01 leave column 1, and 32 nothing, of 208 positions with 16 fillers.
ROUNDS = ten("1,0,24,4,1,-,-,all,3,1", "1,0,32,1,1,-,-,all,3,1")
RECORD = six("1,0,24,4,1,-")
RUN_BY_ROUNDS = lines(
    "sent 1 1 000a51",
    "left 1 1 0 4",
    "process 3 block 1 open tx 1 failed 1 of 1",
    "sent 2 1 10210330",
    "left 2 1 0 0",
    "process 3 block 1 delivered tx 1 failed 0 of 1 01",
    "total rounds 2 delivered 1 open 1 contradiction 0 codeblocks 2 failed 1",
)

# The commands, each with its files in the order in which they are read, and its text.
TRIALS = [
    ("cut", Row("a block", CUT_01)),
    ("check", Row("a table", "graph 2 entries 105\n")),
    *((command, Row("a transmission", text, schedule=RECORD)) for command, text in SYMBOLS.items()),
    ("run", Row("two rounds", RUN_BY_ROUNDS, schedule=ROUNDS)),
    ("audit", Row("two rounds", f"process 3 {SYMBOLS['audit']}process 3 order 1 0 160\n", schedule=ROUNDS)),
]


def reads_of(command: str, row: Row, step: int) -> list[tuple[str, int]]:
    """The files that a command reads, in their order, each with its number of reads of so many octets. The last read of
    each meets the end."""
    names = {"cut": ["blocks"], "check": ["table"]}.get(command, programs.FILES)
    return [(name, -(-len(getattr(row, name)) // step) + 1) for name in names]


def reads_made() -> int:
    """How many reads the last run made."""
    return int((folder() / "count").read_text())


class Reads(Program):
    """Of files, each read in turn."""

    def breaks(self, command: str, row: Row, step: int, parts: list[str]) -> None:
        """Breaks each read of these files, if a read takes so many octets."""
        words, before = row.words(command), 0
        for name, reads in reads_of(command, row, step):
            for read in range(before + 1, before + reads + 1) if name in parts else []:
                found = ran(words, STEP=step, FAIL_READ=read, COUNT_FILE="count")
                self.is_ended(found, refused(f"{name} Read"), f"{command}, {row.name}, read {read}")
                self.assertEqual(reads_made(), read, f"{command}: a read after the broken one")
            before += reads
        self.is_ended(ran(words, STEP=step, COUNT_FILE="count"), row.wanted(), f"{command}, {row.name}")
        self.assertEqual(reads_made(), before, f"{command}: as many reads as the files ask for")

    def test_each_read_of_a_table(self) -> None:
        for command, row in TRIALS:
            if command != "cut":
                self.breaks(command, row, 64, ["table"])

    def test_each_read_of_the_other_files(self) -> None:
        for command, row in TRIALS:
            if command != "check":
                self.breaks(command, row, 1, ["settings", "blocks", "schedule"])

    def test_standard_input_breaks(self) -> None:
        cases: list[tuple[list[str], str]] = [([], "blocks"), (["check", "--table", "-"], "table")]
        for words, name in cases:
            for read in range(1, 4):
                found = ran(words, "01", STEP=1, FAIL_READ=read)
                self.is_ended(found, refused(f"{name} Read"), f"{words}, read {read}")


class Writes(Program):
    """Of standard output and standard error, each write in turn."""

    def test_each_write(self) -> None:
        for command, row in TRIALS:
            words, text = row.words(command), octets(row.output)
            breaks = [{"STEP": 1, "FAIL_OUTPUT": before + 1} for before in range(len(text) + 1)]
            for before, found in enumerate(programs.all_ran([(words, "", it) for it in breaks])):
                wanted = refused("output Write", text[:before]) if before < len(text) else done(text)
                self.is_ended(found, wanted, f"{command}, {row.name}, after {before} octets")

    def test_a_line_a_write(self) -> None:
        """Each line is written as soon as it is made."""
        for command, row in TRIALS:
            words, made = row.words(command), octets(row.output).splitlines(keepends=True)
            for before in range(len(made)):
                wanted = refused("output Write", b"".join(made[:before]))
                found = ran(words, FAIL_OUTPUT=before + 1)
                self.is_ended(found, wanted, f"{command}, {row.name}, after {before} lines")

    def test_endings(self) -> None:
        """What is written if standard output or standard error breaks at a write of one octet."""
        nothing = Row("", schedule=ten()).words("audit")
        no_block = ["cut", "--blocks", "-"]
        fault, write = b"linksim: refused: blocks Empty\n", b"linksim: refused: output Write\n"
        text, version = octets(LONG_HELP["cut"]), octets(f"linksim {VERSION}\n")
        said = b"error: invalid value '0' for '--rate <N>': 0 is not in 1..=2048\n\n"
        said += b"For more information, try '--help'.\n"
        misused = ["cut", "--rate", "0", "--blocks", "-"]
        for words, output, error, wanted in [
            (nothing, 0, 0, done("")),
            (nothing, 1, 1, done("")),
            (no_block, 1, 0, Ended(1, b"", fault)),
            (no_block, 0, 10, Ended(1, b"", fault[:9])),
            (no_block, 0, 1, Ended(1, b"", b"")),
            (["--version"], 0, 1, done(version)),
            (["cut", "--help"], 0, 1, done(text)),
            (["--version"], 1, 0, Ended(1, b"", write)),
            (["--version"], 4, 0, Ended(1, version[:3], write)),
            (["--version"], 4, 1, Ended(1, version[:3], b"")),
            (["cut", "--help"], 300, 0, Ended(1, text[:299], write)),
            (misused, 1, 0, Ended(2, b"", said)),
            (misused, 0, 3, Ended(2, b"", said[:2])),
        ]:
            found = ran(words, STEP=1, FAIL_OUTPUT=output, FAIL_ERROR=error)
            self.is_ended(found, wanted, f"{words}, write {output} of the output, {error} of the error")


class Hindered(Program):
    """Reads and writes that are done in part, or that signals interrupt."""

    def test_parts(self) -> None:
        for command, row in TRIALS:
            for step in [1, 7, 4096]:
                self.is_ended(ran(row.words(command), STEP=step), row.wanted(), f"{command} by {step}")

    def test_interrupted(self) -> None:
        for command, row in TRIALS:
            for times in [1, 3]:
                found = ran(row.words(command), INTERRUPTIONS=times, STEP=64)
                self.is_ended(found, row.wanted(), f"{command}, {row.name}, interrupted {times} times")


# The most octets of each file, and so many octets a read that they are a whole number of reads.
LIMITS = {
    "table": (4_194_304, 4096),
    "settings": (65_536, 1),
    "blocks": (100_000_000, 62_500),
    "schedule": (16_777_216, 16_384),
}


class Sizes(Program):
    """Files without an end, or of the most octets that they may have."""

    def over(self, command: str, **paths: str) -> list[str]:
        """The words of a command over the files of a whole row, some of which have another path."""
        words = Row("files", schedule=RECORD).words(command)
        options = {f"--{name}": path for name, path in paths.items()}
        return [options.get(before, word) for before, word in zip([""] + words, words)]

    def test_endless(self) -> None:
        for at, name in enumerate(programs.FILES):
            commands = {"blocks": ["cut", "run"], "table": ["check", "send", "run", "audit"]}
            for command in commands.get(name, ["send", "run", "audit"]):
                # The files after it are not opened.
                paths = {name: "/dev/zero", **{later: "missing" for later in programs.FILES[at + 1 :]}}
                found = ran(self.over(command, **paths))
                self.is_ended(found, refused(f"{name} TooLong"), command)

    def test_reads_of_endless_files(self) -> None:
        """No read follows that which meets the first octet too many."""
        for name, (limit, step) in LIMITS.items():
            command = {"table": "check", "blocks": "cut"}.get(name, "send")
            row = Row("files", schedule=RECORD)
            found = ran(self.over(command, **{name: "/dev/zero"}), STEP=step, COUNT_FILE="count")
            self.is_ended(found, refused(f"{name} TooLong"), name)
            before = 0
            for other, reads in reads_of(command, row, step):
                if other == name:
                    break
                before += reads
            self.assertEqual(reads_made() - before, limit // step + 1, name)

    def test_longest(self) -> None:
        for name, text in [("table", PRACTICE), ("schedule", RECORD)]:
            limit = LIMITS[name][0]
            command = {"table": "check", "schedule": "send"}[name]
            for more, wanted in [
                (0, done("graph 2 entries 105\n" if name == "table" else "sent 1 1 000a51\n")),
                (1, refused(f"{name} TooLong")),
            ]:
                # (blank lines are no records)
                (folder() / "long").write_text("\n" * (limit + more - len(text)) + text)
                self.is_ended(ran(self.over(command, **{name: "long"})), wanted, f"{name} and {more}")

    def test_blocks_of_zero_octets(self) -> None:
        for more, fault in [(0, "Digit 1"), (1, "TooLong")]:
            with open(folder() / "long", "wb") as file:
                file.truncate(100_000_000 + more)
            self.is_ended(ran(["cut", "--blocks", "long"]), refused(f"blocks {fault}"), f"{more}")


# A block that is sent once, as SYMBOLS has the texts of the commands.
ROW = Row("one transmission", schedule=six("1,0,24,4,1,-"))
# Eight transport blocks of 344 code blocks, each sent once. A receiver of one takes some 15 MiB. So the program's and
# one receiver's memory is within the limit in KiB, and that of eight is not.
LONG_BLOCKS, LONG_OCTETS, LONG_LIMIT = 8, 163_827, 80_000
LONG_TOTAL = b"total blocks 8 delivered 0 open 8 contradiction 0 codeblocks 2752 failed 2752"


class Edge(Program):
    """By a shell that closes or limits something before the program runs."""

    def setUp(self) -> None:
        ROW.words("run")
        for name in ("fifo", "slow", "late"):
            (folder() / name).unlink(missing_ok=True)

    def words(self, command: str, **paths: str) -> list[str]:
        """The words of a command over the four files, some of which have another path."""
        return [command, *(word for name in FILES for word in (f"--{name}", paths.get(name, name)))]

    def test_without_standard_input(self) -> None:
        """No file takes its place: `-` cannot be read, and the other files can."""
        for command, text in SYMBOLS.items():
            for name in FILES:
                found = ran(self.words(command, **{name: "-"}), shell='exec "$@" 0<&-')
                self.is_ended(found, refused(f"{name} Read"), f"{command} {name}")
            self.is_ended(ran(self.words(command), shell='exec "$@" 0<&-'), done(text), command)
        for line, name in [("", "blocks"), ("cut --blocks -", "blocks"), ("check --table -", "table")]:
            self.is_ended(ran(line.split(), shell='exec "$@" 0<&-'), refused(f"{name} Read"), name)
        self.is_ended(ran(["cut", "--blocks", "blocks"], shell='exec "$@" 0<&-'), done(CUT_01), "cut")

    def test_without_standard_output(self) -> None:
        """No file takes its place either."""
        for command in SYMBOLS:
            self.is_ended(ran(self.words(command), shell='exec "$@" 1>&-'), refused("output Write"), command)

    def test_few_descriptors(self) -> None:
        """One file is open at a time: a fourth descriptor is enough."""
        for limit in (6, 4):
            for command, text in SYMBOLS.items():
                self.is_ended(ran(self.words(command), shell=f'ulimit -n {limit}; exec "$@"'), done(text), command)

    def test_before_a_fifo(self) -> None:
        """A FIFO without a writer, which cannot be opened, is not waited for if a file before it is refused."""
        os.mkfifo(folder() / "fifo")
        (folder() / "nothing").touch()
        faults = {"table": "Empty", "settings": "Missing", "blocks": "Empty"}
        for at, name in enumerate(FILES):
            for later in FILES[at + 1 :]:
                for path, fault in [("missing", "Read"), ("nothing", faults[name])]:
                    found = ran(self.words("run", **{name: path, later: "fifo"}))
                    self.is_ended(found, refused(f"{name} {fault}"), f"{name} before {later}")

    def test_in_their_order(self) -> None:
        """A file is opened once those before it are read: it may be made while the program waits for one of them."""
        os.mkfifo(folder() / "slow")

        def write() -> None:
            with open(folder() / "slow", "w") as fifo:
                (folder() / "late").write_bytes(octets(ROW.settings))
                fifo.write(PRACTICE)

        threading.Thread(target=write, daemon=True).start()
        self.is_ended(ran(self.words("run", table="slow", settings="late")), done(SYMBOLS["run"]), "a late file")

    def test_standard_input(self) -> None:
        """Each of the files may be standard input."""
        for command, text in SYMBOLS.items():
            for name in FILES:
                found = ran(self.words(command, **{name: "-"}), getattr(ROW, name))
                self.is_ended(found, done(text), f"{command} {name}")

    def test_little_memory(self) -> None:
        """It is run from the least memory that the program is loaded with up to what it needs, in steps of 4 KiB. It is
        refused for want of memory, with a first part of its text, or it does what it does with all memory. It is never
        ended by a signal."""
        (folder() / "both").write_text((EXAMPLES / "drawn.csv").read_text() + PRACTICE)
        all_words = [self.words(command, table="both") for command in SYMBOLS]
        for words in [["cut", "--blocks", "blocks"], ["check", "--table", "both"], *all_words]:
            whole, limit, times, loaded = ran(words), 2000, 0, False
            while times < 20:
                found = ran(words, shell=f'ulimit -v {limit}; exec "$@"')
                loaded = loaded or found.status != 127
                first = refused("memory", found.output)
                if loaded and found != whole:
                    self.is_ended(found, first, f"{words} in {limit} KiB")
                    self.assertTrue(whole.output.startswith(found.output), limit)
                times = times + 1 if found == whole else 0
                limit += 4
                self.assertLess(limit, 20_000, words)

    def test_one_receiver_at_a_time(self) -> None:
        """What a receiver of a long block took is given back before the next one's is taken."""
        draw = random.Random(1)
        blocks = lines(*(f"{draw.getrandbits(8 * LONG_OCTETS):0{2 * LONG_OCTETS}x}" for _ in range(LONG_BLOCKS)))
        schedule = six(*(f"{block},0,2752,8,1,-" for block in range(1, LONG_BLOCKS + 1)))
        words = Row("long", settings=QUARTER_RATE, blocks=blocks, schedule=schedule).words("run")
        found = ran(words, shell=f'ulimit -v {LONG_LIMIT}; exec "$@"')
        self.assertEqual((found.status, found.output.splitlines()[-1:], found.error), (0, [LONG_TOTAL], b""))
