"""The documentation as a site, as the packages have it: in a browser, at two widths, with its search."""

from __future__ import annotations

import itertools
import pathlib
import re
import tarfile

import browser
import dist

# Pages with their headings: those of a server for a page that is not there have another one.
PAGES = {
    "index.html": "linksim", "docs/overview.html": "Overview", "docs/formats.html": "Commands, files and texts",
    "docs/theorem.html": "The theorem", "docs/rtl.html": "In an RTL testbench", "calls/c.html": "Calls of nr.h",
    "calls/python.html": "Calls of the Python module nr", "calls/rust.html": "Calls of the Rust crate nr",
    "man/linksim.1.html": "linksim(1)", "man/linksim-formats.5.html": "linksim-formats(5)", "crates/nr_peel/index.html": "nr_peel",
    "crates/nr_linkcommands/index.html": "nr_linkcommands",
}
# What is looked for, and a page that is among the first ones found.
WORDS = {
    "NoBuffer": "docs/formats.html", "nr_receive": "calls/c.html", "bler": "calls/python.html", "BLER": "docs/overview.html",
    "QPSK": "docs/formats.html", "PUSCH": "docs/overview.html", "PDSCH": "docs/overview.html", "CBG": "docs/overview.html",
    "NDI": "docs/overview.html", "erasure channel": "docs/overview.html", "TBS": "docs/formats.html", "left": "docs/formats.html",
}
TYPED = """
(() => {
  const field = document.querySelector(".md-search__input");
  field.focus();
  field.value = WORD;
  field.dispatchEvent(new Event("input", {bubbles: true}));
})()
"""
READY = "window.searchIndex && document.querySelector('.md-search-result__link') !== null"
FOUND = "[...document.querySelectorAll('.md-search-result__link')].map((it) => it.href)"
# The code that a page cuts.
CUT = "[...document.querySelectorAll('pre > code')].filter((it) => it.scrollWidth > it.clientWidth).map((it) => it.textContent)"


class Site(dist.InFolder):
    """What is in share/doc/linksim/html of the archive."""

    def setUp(self) -> None:
        super().setUp()
        with tarfile.open(next(dist.DIST.glob("*.tar.gz"))) as tar:
            members = [it for it in tar.getmembers() if "/share/doc/linksim/html/" in it.name]
            if not members:
                self.skipTest("the site is not in the archive: mkdocs is not here")
            tar.extractall(self.folder, members)
        self.top = next(self.folder.glob("*/share/doc/linksim/html"))

    def test_nothing_is_fetched(self) -> None:
        """No page asks another host for a script, a style or a picture."""
        for path in sorted(self.top.glob("**/*.html")):
            text = path.read_text()
            for mark in ('src="http', 'rel="stylesheet" href="http', "fonts.googleapis", "@import url(http"):
                self.assertNotIn(mark, text, path)

    def test_pages(self) -> None:
        """Opened as files, as everybody will: each page has its own heading, and is no wider than a window."""
        if not browser.path():
            self.skipTest("chromium is not there")
        with browser.Browser() as shown:
            for width, page in itertools.product(browser.WIDTHS, PAGES):
                with self.subTest(page=page, width=width):
                    shown.open((self.top / page).as_uri(), width)
                    heading = shown.evaluate("document.querySelector('h1').firstChild.textContent")
                    self.assertEqual((heading, shown.wider_than_window()), (PAGES[page], []))
                    self.assertEqual(shown.evaluate("document.documentElement.scrollWidth > innerWidth"), False)
                    if width == max(browser.WIDTHS):
                        self.assertEqual(shown.evaluate(CUT), [])

    def test_search(self) -> None:
        """Of pages that are opened as files, in the top folder and below it, and by HTTP. Crates come last."""
        if not browser.path():
            self.skipTest("chromium is not there")
        with browser.Served(self.top) as served, browser.Browser() as shown:
            for place in (f"{self.top.as_uri()}/", f"{self.top.as_uri()}/docs/../", served):
                shown.open(f"{place}docs/rtl.html" if ".." in place else f"{place}index.html", max(browser.WIDTHS))
                for word, wanted in WORDS.items():
                    with self.subTest(word, place=place):
                        shown.evaluate(TYPED.replace("WORD", repr(word)))
                        shown.until(READY)
                        found = [it.replace("docs/../", "").partition("#")[0] for it in shown.evaluate(FOUND)]
                        is_crate = ["/crates/" in it for it in found]
                        self.assertEqual(is_crate, sorted(is_crate))
                        self.assertTrue(any(it.endswith(f"/{wanted}") for it in found[:6]), found)


class Documents(dist.InFolder):
    """What packages say of themselves beside their man pages."""

    def listed(self, package: str) -> str:
        found = sorted(dist.DIST.glob(f"{package}_*.deb"))
        if not found:
            self.skipTest(f"no package {package} was made")
        return dist.done([dist.needs("dpkg-deb"), "-c", found[0]])

    def test_places(self) -> None:
        for package, names in {
            "linksim": ["share/doc/linksim/docs/formats.md", "share/doc/linksim/README.md", "share/man/man5/linksim-formats.5.gz",
                        "share/linksim/built.json", "share/bash-completion/completions/linksim-conform"],
            "linksim-doc": ["share/doc/linksim/html/index.html", "share/doc/linksim/html/search/index.js"],
            "libnr-dev": ["share/doc/libnr-dev/examples/erasures.c"],
            "python3-nr": ["share/doc/python3-nr/examples/erasures.py"],
        }.items():
            with self.subTest(package):
                said = self.listed(package)
                for name in names:
                    self.assertIn(f" ./usr/{name}\n", said)

    def test_formats(self) -> None:
        """linksim-formats(5) has every line of output and every fault of docs/formats.md, and man takes it without a word."""
        dist.done(["make", "-s", "-C", dist.ROOT, "install", "PREFIX=/usr", f"DESTDIR={self.folder}"])
        page = self.folder / "usr" / "share" / "man" / "man5" / "linksim-formats.5"
        man = dist.needs("man")
        environment = dist.without_kit(MANWIDTH=200, LC_ALL="C.UTF-8", HOME=self.folder)
        said = dist.done([man, "--warnings", "--nj", "--nh", "-l", page], self.folder, environment)
        document = (dist.ROOT / "docs" / "formats.md").read_text()
        for word in ("total rounds", "left <", "order", "stuck", "NoBuffer", "MissingRow", "LongLine", "pcg:"):
            self.assertIn(word, document)
            self.assertIn(word, said)

    def test_examples_of_help(self) -> None:
        """The examples that an installed tool's help shows are files that are there."""
        dist.done(["make", "-s", "-C", dist.ROOT, "install", "PREFIX=/usr", f"DESTDIR={self.folder}"])
        tools = self.folder / "usr" / "bin"
        for tool in ("curve", "explain", "vectors"):
            said = dist.done([tools / f"linksim-{tool}", "--help"], self.folder)
            top = re.escape(str(self.folder.resolve() / "usr" / "share" / "linksim" / "examples"))
            named = re.findall(rf"{top}/[\w.-]+", said)
            self.assertTrue(named, tool)
            self.assertEqual([path for path in named if not pathlib.Path(path).exists()], [])
