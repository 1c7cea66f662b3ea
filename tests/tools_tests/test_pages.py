"""Every command block of README, CONTRIBUTING, docs/ and the crates' READMEs is run as its reader would run it, from a folder that
looks like the top of the repository, and what it prints is compared with what stands below it. A block that is not run here has a
comment above it, which readers do not see:

    <!-- run by tests/rtl: it needs simulators -->
    <!-- not run: it proves everything -->
    <!-- with receivers.jsonl: making the suite takes minutes -->

The last kind of block is not run either, but leaves the file that it names to the blocks after it. If another suite runs all blocks
of a kind, one comment says so for the page: `<!-- sh blocks run by tests/rtl test_page: they need simulators -->`. Of every block,
run or not, the files that it names must be there, and the tools must know its subcommands and options. To list the marks, run
`python3 tests/tools_tests/test_pages.py`."""

from __future__ import annotations

import functools
import os
import pathlib
import re
import shlex
import shutil
import subprocess
import sys
import typing
import unittest

if __name__ == "__main__":
    sys.path[:0] = [str(pathlib.Path(__file__).resolve().parent.parent)]
    import outcome

    outcome.look_in("tools_tests")

import documents  # noqa: E402  (the path is set above if this module is the program)
import layouts  # noqa: E402
import shared  # noqa: E402

FENCE = re.compile(r"(?ms)^(?P<mark><!-- (?P<how>run by|not run|with)\b ?(?P<what>[^:>]*): (?P<why>[^>]+) -->\n+)?"
                   r"^```(?P<kind>console|sh|python)\n(?P<text>.*?)^```$")
OF_PAGE = re.compile(r"(?m)^<!-- (sh|python|console) blocks (run by) ([^:>]+): ([^>]+) -->$")
SAID = re.compile(r"(?s)\A(?:(?!\n#|```).)*?\n```\n(.*?)```")
# What a command line names of the repository. A name with a capital letter or a star is a place for the reader's own.
OURS = re.compile(r"(?<![\w/$.~-])(?:\./)?((?:tools|tests|bench|packaging|gate|examples|c|docs|crates|\.ci)/[a-z0-9_./-]+[a-z0-9_])(?![\w*{<])")
# The same in a clone beside the reader's own repository.
CLONE = re.compile(r"(?<![\w/.-])linksim/([A-Za-z0-9_./-]*[A-Za-z0-9])(?![\w*])")
TOOL = re.compile(r"(?<![\w/-])tools/([a-z-]+)(?![\w/.-])((?: +[a-z][a-z-]*(?=\s|$))*)")
OPTION = re.compile(r"(?<![\w:-])(--[a-z][a-z0-9-]*)(?:[ =]([a-z]+)\b)?")
SCRIPT = re.compile(r"(?<![\w/-])((?:bench|gate|packaging|tests)/[a-z-]+)(?![\w./-])")
# What is built, what a reader makes, and a file of the crate for Rust.
NOT_OURS = ("/out/", "obj_dir/", "crates/mine", "examples/erasures.rs")


class Block(typing.NamedTuple):
    """A command block of a page: where it is, its kind, its text, what is printed below it, and its mark."""

    page: pathlib.Path
    line: int
    kind: str
    text: str
    said: str | None
    how: str
    what: str
    why: str

    @property
    def place(self) -> str:
        return f"{self.page.relative_to(shared.ROOT)}:{self.line}"


def pages() -> list[pathlib.Path]:
    """All pages that may tell a reader to run something."""
    tops = [shared.ROOT / name for name in ("README.md", "CONTRIBUTING.md", "SECURITY.md")]
    return [*tops, *sorted(shared.ROOT.glob("docs/*.md")), *sorted(shared.ROOT.glob("crates/*/README.md"))]


@functools.lru_cache(None)
def blocks() -> list[Block]:
    """The command blocks of all pages."""
    found = []
    for page in pages():
        text = page.read_text()
        elsewhere = {kind: mark for kind, *mark in OF_PAGE.findall(text)}
        for it in FENCE.finditer(text):
            below = SAID.match(text[it.end():])
            said = below[1] if below and it["kind"] != "console" else None
            mark = [it["how"], it["what"].strip(), it["why"]] if it["how"] else elsewhere.get(it["kind"], ["", "", ""])
            line = text.count("\n", 0, it.start("kind")) + 1
            found.append(Block(page, line, it["kind"], it["text"], said, *mark))
    return found


def sentences_code(page: pathlib.Path) -> list[str]:
    """The pieces of code in the sentences of a page."""
    return [" ".join(it.split()) for it in re.findall(r"`([^`]+)`", re.sub(r"(?ms)^```.*?^```$", "", page.read_text()))]


def needs_library(text: str) -> bool:
    """Whether a block calls the library: by Python, or by a tool that does."""
    return "import nr" in text or re.search(r"tools/(certify|conform|curve|table|vectors)\b|explain chain", text) is not None


def has_library() -> bool:
    """Whether the library is built."""
    return any((shared.ROOT / "c" / "out").glob("libnr.so.*"))


class Marks(unittest.TestCase):
    """What can be said of a block without running it."""

    def test_marks(self) -> None:
        """A block that another suite runs names one that is there."""
        for block in blocks():
            if block.how == "run by":
                with self.subTest(block.place):
                    script, *module = block.what.split()
                    self.assertTrue((shared.ROOT / script).is_file())
                    folder = shared.ROOT / f"{script.replace('-', '_')}_tests"
                    self.assertTrue(all((folder / f"{it}.py").is_file() for it in module))

    def test_every_mark_is_above_a_block(self) -> None:
        for page in pages():
            text = page.read_text()
            marks = re.findall(r"(?m)^<!-- (?:run by|not run|with)\b", text)
            self.assertEqual(len(marks), sum(1 for it in FENCE.finditer(text) if it["how"]), page.name)

    def test_files_are_there(self) -> None:
        """Those that blocks name, and sentences between the marks of code."""
        named = {(block.place, name) for block in blocks() for name in OURS.findall(block.text) + CLONE.findall(block.text)}
        for page in pages():
            named |= {(page.name, name) for code in sentences_code(page) for name in OURS.findall(code)}
        for place, name in sorted(named):
            if not any(it in f"{name}/" for it in NOT_OURS):
                with self.subTest(place, name=name):
                    self.assertTrue((shared.ROOT / name).exists())

    def test_words_are_known(self) -> None:
        """Each subcommand and option of a tool of ours or of rt is in its help, each option of another script in the script, and each
        target and variable of make in a Makefile. So are those that stand in the sentences of a page."""
        for block in blocks():
            for line in re.split(r"\n(?!> )|[|;]|&&", block.text.replace("\\\n", "")):
                with self.subTest(block.place, line=line):
                    self.known(line)
        for page in pages():
            for line in sentences_code(page):
                if line.startswith(("tools/", "make ", "pip ", "rt ")) or SCRIPT.match(line):
                    with self.subTest(page.name, line=line):
                        self.known(line)

    def known(self, line: str) -> None:
        for name, words in TOOL.findall(line):
            said = help_of(name)
            subcommands = [it for it in words.split() if it in re.split(r"[{},\s]+", said)]
            first = re.match(r" +([a-z]+)", words)
            if first and re.search(r"\bCOMMAND\b|\{[a-z-]+(,[a-z-]+)+\}", said):
                self.assertIn(first[1], subcommands)
            said = help_of(name, *subcommands)
            for option, value in OPTION.findall(line.partition(f"tools/{name}")[2].partition(" -- ")[0]):
                self.assertRegex(said, rf"{option}\b")
                choices = re.search(rf"{option} \{{([^}}]+)\}}", said)
                if choices and value:
                    self.assertIn(value, re.split(r"[,\s]+", choices[1]))
        for folder in re.findall(r"pip install '?(\./[^\s'*\[]+)(?![^\s]*\.whl)", line):
            self.assertTrue((shared.ROOT / folder).exists())
        for script in SCRIPT.findall(line):
            text = (shared.ROOT / script).read_text() + (shared.ROOT / "tests" / "outcome.py").read_text()
            for option, _ in OPTION.findall(line.partition(script)[2].partition(" -- ")[0]):
                self.assertIn(option, text)
        for words in re.findall(r"(?:^|[$(])\s*rt ([a-z][^#]*)", line) if shutil.which("rt") else []:
            self.assertEqual(set(re.findall(r"^[a-z-]+|--[a-z-]+", words.partition(" -- ")[0])) - words_of_kit(), set())
        made = re.match(r"(?:\$ )?make( -C c)?((?: [a-z-]+)*)((?: [A-Z].*)?)$", line.partition("#")[0].rstrip())
        if made:
            rules = (shared.ROOT / ("c/Makefile" if made[1] else "Makefile")).read_text()
            for target in made[2].split():
                self.assertRegex(rules, rf"(?m)^{target}:")
            for variable in re.findall(r"\b([A-Z]+)=", made[3]):
                self.assertIn(f"$({variable})", rules)

    def test_compiled(self) -> None:
        """What a block that is not run compiles has its files and headers."""
        if not shutil.which("cc"):
            self.skipTest("no cc")
        for block in blocks():
            for words in re.findall(r"\bcc ([^;&\n]+)", block.text if block.how == "not run" else ""):
                with self.subTest(block.place):
                    self.assertEqual(shared.run(["sh", "-c", f"cc -fsyntax-only {words}"], folder=shared.ROOT)[0], 0)


@functools.lru_cache(None)
def words_of_kit() -> set[str]:
    """The words of rt's help: its commands and options among them."""
    _, output, error = shared.run(["rt", "--help"])
    return set(re.findall(r"--[a-z-]+|[a-z-]+", (output + error).decode()))


@functools.lru_cache(None)
def help_of(tool: str, *words: str) -> str:
    """The help of a tool or of one of its subcommands."""
    if tool == "first-build":
        return ""
    status, output, error = shared.run([shared.TOOLS / tool, *words, "--help"])
    if status and not has_library():
        raise unittest.SkipTest("the library is not there")
    return output.decode()


def prepare(folder: pathlib.Path, name: str) -> None:
    """Leaves a file in a folder that a block would make in minutes."""
    import receiver_shared

    assert name == "receivers.jsonl"
    shutil.copy(receiver_shared.suite_path(), folder / name)


def follow(test: unittest.TestCase, folder: pathlib.Path, of_page: list[Block], modules: str = "c:tools") -> None:
    """Runs blocks of a page one after the other in one shell, in a folder with the Python modules there, and compares."""
    commands: list[tuple[Block, str, str | None]] = []
    for block in of_page:
        if block.how == "with":
            prepare(folder, block.what)
        elif not block.how and block.kind == "console":
            commands += [(block, command, wanted) for command, wanted in documents.commands(f"```console\n{block.text}```\n")]
        elif not block.how:
            script = block.text if block.kind == "sh" else f"PYTHONPATH={modules} python3 -c {shlex.quote(block.text)}"
            commands.append((block, f"(set -e\n{script}) || echo failed with status $?", block.said))
    said = documents.answers(folder, [command for _, command, _ in commands])
    test.assertEqual(len(said), len(commands))
    for (block, command, wanted), answer in zip(commands, said):
        with test.subTest(block.place, command=command):
            missing = documents.words_missing(command)
            if missing or needs_library(command) and not has_library():
                test.skipTest(f"{missing[0] if missing else 'the library'} is not there")
            test.assertNotIn("failed with status", answer)
            if wanted is not None:
                test.assertEqual(documents.settled(answer), documents.settled(wanted))


class Pages(shared.InFolder):
    """The blocks of each page, one after the other in one shell."""

    maxDiff = None

    def top(self, page: pathlib.Path) -> pathlib.Path:
        """The folder of a page: the top of the repository, with the program and the library, and a text of the standard."""
        folder = documents.top(self.folder / page.stem)
        (folder / "c").symlink_to(shared.ROOT / "c")
        tables = {graph: layouts.halves(shared.drawn_entries(graph)) for graph in (1, 2)}
        text = "".join(layouts.text(graph, [lines], layouts.aligned) for graph, lines in tables.items())
        (folder / "ts_138212.pdf").write_text(text)
        return folder

    def test_every_block(self) -> None:
        for page in pages():
            of_page = [block for block in blocks() if block.page == page]
            if any(block.how in ("", "with") for block in of_page):
                follow(self, self.top(page), of_page)


@unittest.skipUnless(os.environ.get("WITH_KIT"), "WITH_KIT=1 is not set, as .ci/run sets it")
class Kit(shared.InFolder):
    """Blocks that build without proofs: README's, and that of docs/using.md over a clone that has nothing built."""

    def test_readme(self) -> None:
        self.check("README.md", shared.ROOT)

    def test_using(self) -> None:
        subprocess.run(["git", "clone", "-q", "--depth", "1", shared.ROOT.as_uri(), self.folder / "linksim"], check=True)
        self.check("docs/using.md", self.folder)

    def check(self, page: str, folder: pathlib.Path) -> None:
        (block,) = [it for it in blocks() if it.page == shared.ROOT / page and it.how == "not run" and "rt try" in it.text]
        ended = subprocess.run(["bash", "-e", "-c", block.text], cwd=folder, capture_output=True, text=True, check=False)
        self.assertEqual(ended.returncode, 0, ended.stderr)
        self.assertTrue(block.said and block.said in ended.stdout)


if __name__ == "__main__":
    for one in blocks():
        if one.how:
            print(f"{one.place}: {one.how} {one.what}{': ' if one.what else ''}{one.why}")
