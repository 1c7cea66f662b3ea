"""The completions in their shells, as `make install` puts them below a folder: what each makes of a line at a tab."""

from __future__ import annotations

import os
import pathlib
import pty
import re
import select
import time
import typing
import unittest

import dist

COMMANDS = ["audit", "check", "cut", "help", "run", "send"]
OF_LINK = {"--ta": "--table", "--se": "--settings", "--b": "--blocks", "--sc": "--schedule", "--h": "--help"}
# What is typed before the tab, and the last word that the program has then. Two files are there: one.csv, and two.csv in a
# folder with a space.
TYPED = {
    **{f"linksim {word[:2]}": word for word in COMMANDS},
    **{f"linksim help {word[:2]}": word for word in COMMANDS},
    **{f"linksim {word} {typed}": option for word in ("send", "run", "audit") for typed, option in OF_LINK.items()},
    "linksim --v": "--version",
    "linksim --h": "--help",
    "linksim cut --b": "--blocks",
    "linksim cut --r": "--rate",
    "linksim check --t": "--table",
    "linksim run --table=one.csv --se": "--settings",
    "linksim run --table one.csv --se": "--settings",
    "linksim check --table on": "one.csv",
    "linksim check --table=on": "--table=one.csv",
    "linksim check --table with\\ space/t": "with space/two.csv",
    "linksim check --table=with\\ space/t": "--table=with space/two.csv",
    "linksim cut --blocks on": "one.csv",
    # Nothing is offered here.
    "linksim cut --rate on": "on",
    "linksim check on": "on",
    "linksim help cut se": "se",
}
# The same of the tools, whose completions are made of their help.
OF_TOOLS = {
    "linksim-conform su": "suite",
    "linksim-conform suite --ta": "--table",
    "linksim-conform suite --profile qu": "quick",
    "linksim-curve mer": "merge",
    "linksim-curve run --jo": "--jobs",
    "linksim-table fi": "fingerprint",
    "linksim-vectors one --setti": "--settings",
    "linksim-explain --sche": "--schedule",
    "linksim-explain NoBuf": "NoBuffer",
    "linksim-explain abo": "about",
    "linksim-explain check --table on": "one.csv",
}
SHOWS = "linksim() { printf '<%s>' \"$@\"; echo; }; PS1="


class Terminal:
    """A shell at a terminal of its own. It reads one line after the other, so that no pause is needed between them."""

    def __init__(self, words: typing.List[str], folder: pathlib.Path) -> None:
        self.said = b""
        environment = dist.without_kit(TERM="dumb", LC_ALL="C.UTF-8", HOME=folder)
        self.pid, self.place = pty.fork()
        if not self.pid:
            try:
                os.chdir(folder)
                os.execvpe(words[0], words, environment)
            finally:
                os._exit(127)

    def after(self, line: str) -> str:
        """What the shell says to a line."""
        # The quotes make the mark another one than what is typed, which the terminal shows.
        os.write(self.place, f"{line}\recho EN''D\r".encode())
        until = time.monotonic() + dist.SECONDS
        while b"END\r\n" not in self.said:
            if not select.select([self.place], [], [], max(0, until - time.monotonic()))[0]:
                raise AssertionError(f"{line}: no end after {self.said!r}")
            self.said += os.read(self.place, 1 << 16)
        said, _, self.said = self.said.partition(b"END\r\n")
        return said.decode()

    def close(self) -> None:
        os.close(self.place)
        os.waitpid(self.pid, 0)


class Completed(dist.InFolder):
    """Each shell, if it is there."""

    def setUp(self) -> None:
        super().setUp()
        dist.done(["make", "-s", "-C", dist.ROOT, "install-program", "PREFIX=/usr", f"DESTDIR={self.folder / 'root'}"])
        self.share = self.folder / "root" / "usr" / "share"
        self.files = self.folder / "files"
        (self.files / "with space").mkdir(parents=True)
        for name in ("one.csv", "with space/two.csv"):
            (self.files / name).touch()

    def in_terminal(self, words: typing.List[str], *lines: str) -> None:
        """What the shell of these words makes of all that is typed, after these lines."""
        terminal = Terminal(words, self.files)
        try:
            terminal.after("; ".join([SHOWS, *lines]))
            for typed, word in TYPED.items():
                with self.subTest(typed):
                    found = re.findall("<([^<>\r\n]*)>\r\n", terminal.after(f"{typed}\t"))
                    self.assertEqual(found, [word])
        finally:
            terminal.close()

    def test_bash(self) -> None:
        completion = self.share / "bash-completion" / "completions" / "linksim"
        self.in_terminal([dist.needs("bash"), "--norc", "--noprofile", "-i"], f". '{completion}'")

    def test_tools_in_bash(self) -> None:
        """What bash would offer in each place, for the tools: one word, or none if what was typed stays."""
        script = 'tool=$1; . "$2/linksim-$tool"; shift 2; COMP_WORDS=("$@"); COMP_CWORD=$(($# - 1)); '
        script += '_linksim_$tool; printf "%s\\n" "${COMPREPLY[@]}"'
        folder = self.share / "bash-completion" / "completions"
        for typed, word in OF_TOOLS.items():
            words = typed.split()
            if "." in word:
                continue  # (readline offers files, if the completion offers nothing)
            with self.subTest(typed):
                tool = words[0].partition("-")[2]
                said = dist.done([dist.needs("bash"), "-c", script, "bash", tool, folder, *words], self.files)
                self.assertEqual(said.split(), [word] if word != words[-1] else [])

    def test_tools_in_fish(self) -> None:
        fish = dist.needs("fish")
        script = 'source $argv[1]; complete -C"$argv[2]"; true'
        environment = dist.without_kit(HOME=self.folder)
        for typed, word in OF_TOOLS.items():
            with self.subTest(typed):
                completion = self.share / "fish" / "vendor_completions.d" / f"{typed.split()[0]}.fish"
                said = dist.done([fish, "--no-config", "-c", script, completion, typed], self.files, environment)
                self.assertIn(word, [line.partition("\t")[0] for line in said.splitlines()])

    def test_tools_in_zsh(self) -> None:
        """zsh takes each file; what it offers is what bash does, by the same levels."""
        zsh = dist.needs("zsh")
        for path in sorted((self.share / "zsh" / "site-functions").glob("_linksim-*")):
            dist.done([zsh, "-n", path])

    def test_zsh(self) -> None:
        folder = self.share / "zsh" / "site-functions"
        found = f"fpath=('{folder}' $fpath); autoload -U compinit; compinit -u -D"
        self.in_terminal([dist.needs("zsh"), "-f", "-i"], found)

    def test_fish(self) -> None:
        """What fish says that it would offer: one word, or none if what was typed stays."""
        fish = dist.needs("fish")
        completion = self.share / "fish" / "vendor_completions.d" / "linksim.fish"
        script = 'source $argv[1]; for line in $argv[2..-1]; echo "<"(complete -C$line | string split -f 1 \\t)">"; end'
        environment = dist.without_kit(HOME=self.folder)
        for typed, word in TYPED.items():
            with self.subTest(typed):
                said = dist.done([fish, "--no-config", "-c", script, completion, typed], self.files, environment)
                self.assertEqual(re.findall("<(.*)>", said), [word] if word != typed.split()[-1] else [])


class Placed(unittest.TestCase):
    """Debian's package puts each where the shell of Debian looks for it."""

    def test_folders(self) -> None:
        dpkg = dist.needs("dpkg-deb")
        listed = dist.done([dpkg, "-c", *dist.DIST.glob("linksim_*.deb")])
        for name in ("bash-completion/completions/linksim", "fish/vendor_completions.d/linksim.fish", "zsh/vendor-completions/_linksim"):
            self.assertIn(f" ./usr/share/{name}\n", listed)
