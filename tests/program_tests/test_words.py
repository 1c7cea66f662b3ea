"""The command line: what its words ask for, help, and wrong usage, octet by octet."""

from __future__ import annotations

import os

from programs import Ended, Program, done, folder, octets, ran, refused
from texts import FULL_RATE, PRACTICE, six
from worked_texts import CUT_01, HELP, LONG_HELP, PROGRAM_HELP, SYMBOLS, VERSION

ZERO = "00" * 37
# 37 octets take base graph 2 at most at 1372, and at a rate of one digit.
CUT_GRAPH_2 = "block 1 a 296 b 312 graph 2 c 1 l 0 kdash 312 kb 8 z 40 set 2 k 400 n 2000\n"
CUT_GRAPH_1 = "block 1 a 296 b 312 graph 1 c 1 l 0 kdash 312 kb 22 z 15 set 7 k 330 n 990\n"
REST = f"attached 1 {'00' * 39}\ncode 1 0 {'00' * 39}\n"

# Files by one letter, each of which one place of the words can take.
PATHS = {
    "a": PRACTICE,
    "b": FULL_RATE,
    "c": "01\n",
    "d": six("1,0,24,4,1,-"),
    "f": ZERO,
    "t": PRACTICE,
}

# The words, standard input, and the text.
JOBS = [
    ("", "01\n", CUT_01),
    ("", ZERO, CUT_GRAPH_1 + REST),
    ("cut --blocks -", "01\n", CUT_01),
    ("cut --blocks -", ZERO, CUT_GRAPH_1 + REST),
    ("cut --blocks f", "01\n", CUT_GRAPH_1 + REST),
    ("cut --rate 5 --blocks f", "", CUT_GRAPH_2 + REST),
    ("cut --blocks f --rate 7", "", CUT_GRAPH_2 + REST),
    ("cut --blocks=f --rate=2048", "", CUT_GRAPH_1 + REST),
    ("cut --blocks=f --rate=1373", "", CUT_GRAPH_1 + REST),
    ("cut --blocks=f --rate=1372", "", CUT_GRAPH_2 + REST),
    ("cut --blocks f --rate=+5", "", CUT_GRAPH_2 + REST),
    ("cut --blocks f --rate 007", "", CUT_GRAPH_2 + REST),
    ("cut --blocks f --rate 1", "", CUT_GRAPH_2 + REST),
    ("check --table t", "", "graph 2 entries 105\n"),
    ("check --table=-", PRACTICE, "graph 2 entries 105\n"),
    *[
        (words, stdin, text)
        for command, text in SYMBOLS.items()
        for words, stdin in [
            (f"{command} --table a --settings b --blocks c --schedule d", ""),
            (f"{command} --schedule d --table a --settings b --blocks c", ""),
            (f"{command} --schedule d --blocks - --settings=b --table a", "01\n"),
            (f"{command} --schedule=d --blocks - --settings b --table a", "01\n"),
            (f"{command} --table=a --blocks - --settings b --schedule d", "01\n"),
            (f"{command} --blocks=c --table a --schedule=- --settings=b", PATHS["d"]),
        ]
    ],
]

# Files that are none, or that cannot stand for another one.
REFUSED = [
    ("cut --blocks missing", "blocks Read"),
    ("cut --blocks .", "blocks Read"),
    ("check --table missing", "table Read"),
    ("check --table c", "table Fields"),
    ("cut --blocks a", "blocks Digit 1"),
    ("run --table a --settings c --blocks b --schedule d", "settings Toml"),
    ("run --table a --settings b --blocks d --schedule c", "blocks Digit 1"),
    ("audit --table a --settings b --blocks c --schedule a", "schedule Header"),
    ("send --table missing --settings missing --blocks missing --schedule missing", "table Read"),
    ("send --table a --settings missing --blocks missing --schedule missing", "settings Read"),
    ("run --table a --settings b --blocks missing --schedule missing", "blocks Read"),
    ("audit --table a --settings b --blocks c --schedule missing", "schedule Read"),
]

PROGRAM = "linksim <COMMAND>"
CUT = "linksim cut [OPTIONS] --blocks <FILE>"
FOUR = "--table <FILE> --settings <FILE> --blocks <FILE> --schedule <FILE>"
MISSING = "the following required arguments were not provided:"
TWICE = "standard input is named for several files"

# The words, the reason, and the usage that is shown, if any.
USAGE = [
    ("cut", f"{MISSING}\n  --blocks <FILE>", "linksim cut --blocks <FILE>"),
    ("cut --rate 0 --blocks f", "invalid value '0' for '--rate <N>': 0 is not in 1..=2048", None),
    ("cut --rate 2049 --blocks f", "invalid value '2049' for '--rate <N>': 2049 is not in 1..=2048", None),
    ("cut --blocks f --blocks g", "the argument '--blocks <FILE>' cannot be used multiple times", CUT),
    ("check --table t --blocks f", "unexpected argument '--blocks' found", "linksim check --table <FILE>"),
    ("cut --version", "unexpected argument '--version' found", CUT),
    ("mend", "unrecognized subcommand 'mend'\n\n  tip: a similar subcommand exists: 'send'", PROGRAM),
    (
        "send",
        f"{MISSING}\n  --table <FILE>\n  --settings <FILE>\n  --blocks <FILE>\n  --schedule <FILE>",
        f"linksim send {FOUR}",
    ),
    ("send --table - --settings b --blocks - --schedule d", TWICE, f"linksim send {FOUR}"),
    ("run --table a --settings b --schedule d", f"{MISSING}\n  --blocks <FILE>", f"linksim run {FOUR}"),
    ("run --table a --settings - --blocks c --schedule -", TWICE, f"linksim run {FOUR}"),
    ("audit --table - --settings - --blocks - --schedule -", TWICE, f"linksim audit {FOUR}"),
    (
        "audit --table a --settings b --blocks c --schedule d e",
        "unexpected argument 'e' found",
        f"linksim audit {FOUR}",
    ),
]

HELP_WORDS = [
    *((words, PROGRAM_HELP) for words in ("--help", "-h", "help")),
    *((f"{command} --help", text) for command, text in LONG_HELP.items()),
    *((f"{command} -h", text) for command, text in HELP.items()),
    *((f"help {command}", text) for command, text in LONG_HELP.items()),
    *((words, f"linksim {VERSION}\n") for words in ("--version", "-V")),
]


def usage(reason: str, shown: str | None) -> Ended:
    """The ending of words that are none of the program's."""
    usage_lines = f"Usage: {shown}\n\n" if shown else ""
    return Ended(2, b"", octets(f"error: {reason}\n\n{usage_lines}For more information, try '--help'.\n"))


class Words(Program):
    """Against the rows above."""

    def setUp(self) -> None:
        for name, text in PATHS.items():
            (folder() / name).write_bytes(octets(text))

    def ends(self, words: str, stdin: str, wanted: Ended) -> None:
        with self.subTest(words=words):
            self.is_ended(ran(words.split(), stdin), wanted, words)

    def test_jobs(self) -> None:
        for words, stdin, text in JOBS:
            self.ends(words, stdin, done(text))

    def test_the_name_is_no_word(self) -> None:
        for name in ["cut", "linksim", "--help"]:
            self.is_ended(ran([], "01\n", name=name), done(CUT_01), name)
            self.is_ended(ran(["check", "--table", "t"], name=name), done("graph 2 entries 105\n"), name)

    def test_refused(self) -> None:
        for words, fault in REFUSED:
            self.ends(words, "", refused(fault))

    def test_usage(self) -> None:
        for words, reason, shown in USAGE:
            self.ends(words, "", usage(reason, shown))

    def test_words_that_are_no_text(self) -> None:
        found = ran(["cut", "--blocks", os.fsdecode(b"\xff")])
        self.assertEqual((found.status, found.output), (2, b""))
        self.assertTrue(found.error.startswith(b"error: "))

    def test_help(self) -> None:
        for words, text in HELP_WORDS:
            self.ends(words, "", done(text))
