"""Links of the documents lead somewhere, every page is linked, and lines fit. Their commands are run by test_pages."""

from __future__ import annotations

import pathlib
import re
import shutil
import subprocess
import sys
import unittest

import shared

COLUMNS = 132
MOST_WORDS_OF_README = 1_000
MADE_BY_SCRIPT = re.compile(r"<!-- made by .*?-->.*?<!-- end of .*?-->", re.DOTALL)
LINK = re.compile(r"\]\(([^)\s]+)\)")


def every_page() -> list[pathlib.Path]:
    """All pages of the repository."""
    tops = [shared.ROOT / name for name in ("README.md", "CONTRIBUTING.md", "CHANGELOG.md", "bench/gate-times.md")]
    return [*tops, *sorted(shared.ROOT.glob("docs/*.md")), *sorted(shared.ROOT.glob("crates/*/README.md"))]


def every_file(*endings: str) -> list[pathlib.Path]:
    """All files beside the crates whose names end so."""
    folders = [shared.ROOT / name for name in ("tools", "tests", "gate", "packaging", "bench", "c", "examples", "docs/pictures")]
    found = [path for folder in folders for path in sorted(folder.glob("**/*")) if path.suffix in endings]
    return [path for path in found if path.is_file()]


def every_script(language: str = "python3") -> list[pathlib.Path]:
    """All sources in Python, or the scripts in another language."""
    first = f"#!/usr/bin/env {language}\n".encode()
    modules = every_file(".py") if language == "python3" else []
    return [*modules, *(path for path in every_file("") if path.read_bytes().startswith(first))]


def headline() -> str:
    """The theorem, as README has it."""
    return next(line for line in (shared.ROOT / "README.md").read_text().splitlines() if line.startswith("**For every accepted"))


class Documents(unittest.TestCase):
    """README, of which test_pages cannot run the command that proves everything."""

    def test_first_output(self) -> None:
        """What README shows after its first commands, which prove and build before they run the program."""
        text = (shared.ROOT / "README.md").read_text()
        for command in ("&& printf '01\\n' | crates/linksim/out/linksim cut --blocks -", "printf '01\\n' | rt try -- cut --blocks -"):
            self.assertIn(command, text)
        self.assertIn(f"```\n{shared.linksim('cut', '--blocks', '-', stdin=b'01' + bytes([10]))}```\n", text)


def long_lines(text: str) -> list[str]:
    """The lines of a page that are too wide. Code, tables and what scripts made may be: they cannot be broken."""
    plain = re.sub(r"(?ms)^```.*?^```$", "", MADE_BY_SCRIPT.sub("", text))
    return [line for line in plain.splitlines() if len(line) > COLUMNS and not line.startswith("|")]


def anchors(page: pathlib.Path) -> set[str]:
    """What a link can name after its `#`: the headings of a page, as sites of Markdown spell them."""
    headings = re.findall(r"(?m)^#+ (.+)$", re.sub(r"(?ms)^```.*?^```$", "", page.read_text()))
    return {re.sub(r"[^\w\- ]", "", heading.lower()).replace(" ", "-") for heading in headings}


class Layout(unittest.TestCase):
    """Pages fit on a screen, README is short, and the theorem stands word for word in both places."""

    def test_columns(self) -> None:
        """Lines are no longer than those of the sources, except for the theorem, which stands in one."""
        for page in every_page():
            with self.subTest(page=str(page.relative_to(shared.ROOT))):
                self.assertEqual([line for line in long_lines(page.read_text()) if line != headline()], [])

    def test_length_of_readme(self) -> None:
        seen = re.sub(r"<!--.*?-->", "", (shared.ROOT / "README.md").read_text())
        self.assertLessEqual(len(seen.split()), MOST_WORDS_OF_README)

    def test_theorem(self) -> None:
        self.assertIn(headline(), (shared.ROOT / "docs" / "theorem.md").read_text().splitlines())


class Version(unittest.TestCase):
    """The number in VERSION, and what CHANGELOG.md says of it."""

    def test_not_released(self) -> None:
        """What is not released yet has a number above that of the last release, and VERSION is that number with the ending -dev."""
        text = (shared.ROOT / "CHANGELOG.md").read_text()
        headings = re.findall(r"(?m)^## (\d+\.\d+\.\d+) \((\d{4}-\d\d-\d\d|not released yet)\)$", text)
        self.assertEqual(len(headings), text.count("\n## "))
        numbers = [tuple(map(int, number.split("."))) for number, _ in headings]
        self.assertEqual(numbers, sorted(set(numbers), reverse=True))
        self.assertEqual([number for number, date in headings[1:] if not date[0].isdigit()], [])
        ending = "" if headings[0][1][0].isdigit() else "-dev"
        self.assertEqual((shared.ROOT / "VERSION").read_text().strip(), headings[0][0] + ending)


class Made(unittest.TestCase):
    """What the pages show and lead to is there."""

    def test_links(self) -> None:
        """Each file that a page links to is there, and has the heading that the link names."""
        for page in every_page():
            for target in LINK.findall(page.read_text()):
                path, _, anchor = target.partition("#")
                if "://" not in path:
                    with self.subTest(page=str(page.relative_to(shared.ROOT)), target=target):
                        leads_to = page.parent / path if path else page
                        self.assertTrue(leads_to.exists())
                        self.assertTrue(not anchor or anchor in anchors(leads_to))

    def test_every_page_is_linked(self) -> None:
        """docs/README.md leads to each page of docs/."""
        index = shared.ROOT / "docs" / "README.md"
        linked = {target.partition("#")[0] for target in LINK.findall(index.read_text())}
        self.assertEqual({page.name for page in index.parent.glob("*.md")} - linked - {index.name}, set())

    def test_sizes(self) -> None:
        """Each size of the table in docs/proved.md stands in the tests that it names."""
        page = (shared.ROOT / "docs" / "proved.md").read_text()
        rows = re.findall(r"(?m)^\|[^|]+\|[^|]+\| ([\d,]+) \| [\d,-]+ \| (.+) \|$", page)
        self.assertGreater(len(rows), 10)
        for size, names in rows:
            for name in re.findall(r"`(.+?)`", names):
                with self.subTest(size=size, name=name):
                    (path,) = [*shared.ROOT.glob(f"tests/**/{name}"), *shared.ROOT.glob(f"crates/worked_examples/src/**/{name}")]
                    self.assertRegex(path.read_text(), rf"\b{size.replace(',', '[,_]?')}\b")

    def test_words_of_pictures(self) -> None:
        """Each picture has a title and a description, or a label, to be read aloud."""
        for path in sorted((shared.ROOT / "docs" / "pictures").glob("*.svg")):
            with self.subTest(path.name):
                said = r"<svg [^>]*(aria-label=\"[^\"]+\"|>\s*<title[^>]*>[^<]+</title>\s*<desc[^>]*>[^<]+</desc>)"
                self.assertRegex(path.read_text()[:2000], said)

    def test_picture(self) -> None:
        drawn = subprocess.run([sys.executable, "-B", "docs/pictures/draw-pipeline", "--check"], cwd=shared.ROOT, check=False)
        self.assertEqual(drawn.returncode, 0)


class Kit(unittest.TestCase):
    """The kit that the documents name is the one that is here. Kits of one logic differ in name, so the logic counts."""

    def test_logic(self) -> None:
        if not shutil.which("rt"):
            self.skipTest("rt is not there")
        version = subprocess.run(["rt", "version"], capture_output=True, check=True, text=True).stdout
        logic = version.partition("logic ")[2].split()[0]
        for page in ["README.md", "docs/proved.md"]:
            with self.subTest(page=page):
                self.assertEqual(set(re.findall(r"logic (?:sum )?`?([0-9a-f]{16})\b", (shared.ROOT / page).read_text())), {logic})
