"""The man pages and the completion name every command and every option that the program's help does, and no other."""

from __future__ import annotations

import re
import shutil
import sys
import unittest

import shared
from linksim_tools.common import faults

sys.path.insert(0, str(shared.ROOT / "packaging"))

from packages import completions, pages  # noqa: E402  (they are in a folder that was just named)


OPTION = r"(?<![\w-])--?[A-Za-z][a-z]*"


def options(text: str) -> set[str]:
    """The options of a help text, in the section Options."""
    section = text.partition("\nOptions:\n")[2].partition("\n\n")[0]
    return {option for line in section.splitlines() for option in re.findall(OPTION, line.strip().partition("  ")[0])}


def commands() -> list[str]:
    """The commands of the program's help."""
    section = shared.linksim("--help").partition("\nCommands:\n")[2].partition("\n\n")[0]
    return [line.split()[0] for line in section.splitlines()]


def helps() -> dict[str, set[str]]:
    """Each command's options, that of no command under the empty word."""
    return {"": options(shared.linksim("-h"))} | {
        it: options(shared.linksim(it, "-h")) for it in commands() if it != "help"
    }


class Tools(unittest.TestCase):
    """What all tools have."""

    def test_help_has_an_example(self) -> None:
        tools = [path for path in sorted(shared.TOOLS.iterdir()) if path.is_file() and not path.suffix]
        self.assertLessEqual({"table", "vectors"}, {path.name for path in tools})
        for path in tools:
            with self.subTest(path.name):
                status, output, error = shared.run([path, "--help"])
                self.assertEqual((status, error), (0, b""))
                self.assertRegex(output.decode(), rf"(?is)example.*tools/{path.name} ")


class Manuals(shared.InFolder):
    """The man pages, as packaging makes them of the helps."""

    def setUp(self) -> None:
        super().setUp()
        pages.write(self.folder, str(shared.program()), "0.0.0")

    def section(self, name: str, title: str) -> str:
        """A section of a page, without what only roff reads."""
        text = (self.folder / f"{name}.1").read_text().replace("\\-", "-").replace("\\fB", "").replace("\\fR", "")
        return text.partition(f"\n.SH {title}\n")[2].partition("\n.SH ")[0]

    def test_program(self) -> None:
        """It has each command, each option with all that is refused of its file, and the statuses."""
        shown = re.findall(r"(?m)^\.TP\n(.*)", self.section("linksim", "OPTIONS"))
        self.assertEqual({it for line in shown for it in re.findall(OPTION, line)}, set.union(*helps().values()))
        self.assertEqual(re.findall(r"(?m)^\.SS (.*)", self.section("linksim", "COMMANDS")), commands()[:-1])
        said = "".join(f"{self.section('linksim', title)}\n" for title in ("OPTIONS", "DESCRIPTION"))
        for fault in [fault for kind in faults.FILES.values() for fault in [*kind.faults, *kind.later]] + faults.ALWAYS:
            self.assertIn(f".br\n{fault.head}: {fault.line}\n", said)
        self.assertIn("0 on success", self.section("linksim", "EXIT STATUS"))

    def test_tools(self) -> None:
        """A tool's page has each command, and below it each option with what its help says of it."""
        commands = (["table", "rom"], ["conform", "receiver", "run"], ["conform", "export"], ["curve", "run"], ["vectors", "one"])
        for words in commands:
            said = shared.run([shared.TOOLS / words[0], *words[1:], "--help"])[1].decode()
            part = self.section(f"linksim-{words[0]}", "COMMANDS" if words[1:] else "OPTIONS")
            part = part.partition(f".SS {' '.join(words[1:])}\n")[2].partition("\n.SS")[0] if words[1:] else part
            with self.subTest(words):
                # (--help stands after -h, and among the tool's own options)
                known = re.findall(r"(?m)^  (--[a-z-]+)(?: \S+)?(?:\n? {2,}(\w+))", said)
                self.assertEqual(re.findall(r"(?m)^\.TP\n(--[a-z-]+).*\n(\w+)", part), known)
                self.assertGreater(len(known), 2)


class Help(shared.InFolder):
    """Against the help texts of the program."""

    def test_version(self) -> None:
        """The program has the version of the file VERSION."""
        self.assertEqual(shared.linksim("--version"), f"linksim {(shared.ROOT / 'VERSION').read_text()}")

    def test_help_is_understood(self) -> None:
        self.assertEqual(helps()["cut"], {"--blocks", "--rate", "-h", "--help"})
        self.assertEqual(helps()[""], {"-h", "--help", "-V", "--version"})
        self.assertLess({"cut", "check", "send", "run", "audit"}, set(commands()))

    def completions(self, *words: str) -> set[str]:
        """What the completion offers for the last one of these words."""
        script = '. "$0"; COMP_WORDS=("$@"); COMP_CWORD=$(($# - 1)); _linksim; printf "%s\\n" "${COMPREPLY[@]}"'
        path = self.file("linksim", completions.bash(completions.of_program(str(shared.program()))))
        status, output, error = shared.run(["bash", "-c", script, path, "linksim", *words], folder=shared.EXAMPLES)
        self.assertEqual((status, error), (0, b""))
        return set(output.decode().split())

    @unittest.skipUnless(shutil.which("bash"), "bash is not there")
    def test_completion(self) -> None:
        self.assertEqual(self.completions(""), set(commands()) | helps()[""])
        self.assertEqual(self.completions("help", ""), set(commands()))
        for command, wanted in helps().items():
            if command:
                self.assertEqual(self.completions(command, ""), wanted, command)
        self.assertEqual(self.completions("send", "--s"), {"--settings", "--schedule"})
        self.assertEqual(self.completions("a"), {"audit"})
        self.assertEqual(self.completions("send", "--table", "pr"), {"practice.csv", "processes.csv"})
        self.assertEqual(self.completions("send", "--table", "=", "pr"), {"practice.csv", "processes.csv"})
        self.assertLess({"practice.csv", "blocks.txt"}, self.completions("send", "--table", "="))
        self.assertEqual(self.completions("send", "--table=pr"), {"--table=practice.csv", "--table=processes.csv"})
        self.assertEqual(self.completions("cut", "--rate", ""), set())
        self.assertEqual(self.completions("cut", "--rate", "=", "1"), set())

    def test_other_shells(self) -> None:
        """The completions of zsh and of fish have the same commands and options."""
        options = {it[2:] for it in set.union(*helps().values()) if it.startswith("--")}
        for made, form in ((completions.zsh, r"--([a-z]+)"), (completions.fish, r"-l ([a-z]+)")):
            text = made(completions.of_program(str(shared.program())))
            self.assertLessEqual(options, set(re.findall(form, text)))
            for command in commands():
                self.assertRegex(text, rf"['\s]{command}\b")
