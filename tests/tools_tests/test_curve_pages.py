"""What `tools/curve` draws and reports of results with counts, and how it audits and foresees them."""

from __future__ import annotations

import html.parser
import os
import pathlib
import shutil

import browser
import curve_files
import shared
from test_curve import Conf

# A curve of one transmission over the practice table; its first interval is wide, so that a few chunks do.
RULE = {"rounds": 200, "points": [0.02, 0.2, 0.4, 0.6], "step": 0.05, "width": 0.5, "lowest": 0.01, "chunks": 20}
CONF = curve_files.text_of(curve_files.PRACTICE, curve_files.SHORT, RULE)


class Page(html.parser.HTMLParser):
    """What a page has by id, and the addresses that it asks for."""

    def __init__(self, text: str) -> None:
        super().__init__()
        self.ids: set[str] = set()
        self.asked: list[str] = []
        self.rows = 0
        self.feed(text)

    def handle_starttag(self, tag: str, attrs: list[tuple[str, str | None]]) -> None:
        for name, value in attrs:
            if name == "id" and value:
                self.ids.add(value)
            if name in ("src", "href", "xlink:href") and value and not value.startswith("#"):
                self.asked.append(value)
        self.rows += tag == "tr"
        if tag in ("script", "link"):
            self.asked.append(tag)


class Made(Conf):
    """With the results of a whole run."""

    text = CONF

    def setUp(self) -> None:
        super().setUp()
        shared.needs_matplotlib()
        self.results = self.folder / "c.csv"

    def test_from_estimate_to_report(self) -> None:
        """A run with `width` ends where the intervals are as narrow as they were wanted; the rest reads its results."""
        estimate = self.curve("run", self.conf, "--estimate", "--jobs", 2).splitlines()
        self.assertEqual(estimate[0], "p,chunks,to_come,core_hours")
        self.assertLessEqual({"0.02", "0.2", "0.4", "0.6"}, {line.split(",")[0] for line in estimate})
        self.assertGreater(sum(int(line.split(",")[2]) for line in estimate[1:]), 0)
        self.curve("run", self.conf, "--jobs", 2)
        rates = [line.split(",") for line in self.curve("pool", self.conf).splitlines()[1:]]
        for p, after, *texts in rates:
            estimated, low, high, low_if, high_if = (float(text) if text != "-" else 0.0 for text in texts[:5])
            self.assertTrue(low <= estimated <= high, (p, after))
            if estimated >= 0.01:
                self.assertLessEqual(high - low, 2 * 0.5 * estimated + 1e-3, (p, after))
                self.assertTrue(low <= low_if <= high_if <= high + 1e-9, (p, after))
        below = [float(texts[2]) for p, after, *texts in rates if after == "2" and float(texts[0]) < 0.01]
        self.assertTrue(any(high <= 0.015 for high in below), below)
        self.report()
        self.audit()

    def report(self) -> None:
        """The page has the picture, the rates and the provenance, and asks for nothing from elsewhere."""
        out = self.folder / "c.html"
        self.curve("report", self.conf, "--out", out)
        text = out.read_text()
        page = Page(text)
        self.assertLessEqual({"picture", "rates", "commands", "provenance"}, page.ids)
        self.assertEqual(page.asked, [])
        self.assertGreater(page.rows, 4)
        # The keys stand as they do in the curve's file, without those that it leaves out.
        self.assertRegex(text, r"rvs = \[\d")
        self.assertNotIn("= None", text)
        source = self.results.read_text().splitlines()[1].split(",")[-1]
        for said in (source, "linksim ", "SHA-256", "seed = 7", "tools/curve run", "free of assumptions", "hours of a processor"):
            self.assertIn(said, text)
        again = self.folder / "again.html"
        self.curve("report", self.conf, "--out", again)
        self.assertEqual(again.read_text().replace("again.html", "c.html"), text)
        if not browser.path():
            self.skipTest("chromium is not there")
        self.look(out)

    def look(self, out: pathlib.Path) -> None:
        """In a browser all of it is there, and nothing is wider than the page."""
        with browser.Served(out.parent) as url, browser.Browser() as shown:
            for width in browser.WIDTHS:
                shown.open(f"{url}{out.name}", width)
                self.assertEqual(shown.wider_than_window(), [])
                self.assertLessEqual(shown.evaluate("document.documentElement.scrollWidth"), width)
                for name in ("#picture svg", "#rates tbody tr", "#commands", "#provenance dd"):
                    place = f"document.querySelector({name!r}).getBoundingClientRect()"
                    self.assertGreater(shown.evaluate(f"{place}.width * {place}.height"), 1000, name)

    def audit(self) -> None:
        """A drawn share is made anew; a line that was changed by hand is found if it is drawn."""
        self.assertIn("chunks are what they were", self.curve("audit", self.conf, "--share", "20%", "--seed", "1"))
        lines = self.results.read_text().splitlines(keepends=True)
        # A bit more is left of the code blocks that failed: the line does not contradict itself, as with another failed round.
        at = next(at for at, line in enumerate(lines) if line[0] in "01" and int(line.split(",")[4]))
        fields = lines[at].split(",")
        fields[8] = str(int(fields[8]) + 1)
        self.results.write_text("".join([*lines[:at], ",".join(fields), *lines[at + 1 :]]))
        status, output, _ = shared.tool("curve", "audit", self.conf, "--share", "100%")
        self.assertEqual(status, 1)
        self.assertIn(f"chunk {fields[1]} of the point {fields[0]} differs", output)
        self.conf.write_text(CONF.replace("seed = 7", "seed = 8"))
        self.assertIn("one of the keys", shared.refused("curve", "audit", self.conf))

    def test_drawn(self) -> None:
        """The picture is the same each time. Several curves are in one, and the figures of HARQ in another."""
        self.curve("run", self.conf, "--jobs", 2)
        for name in ("1.svg", "2.svg"):
            self.curve("plot", self.conf, "--out", self.folder / name)
        self.assertEqual((self.folder / "1.svg").read_bytes(), (self.folder / "2.svg").read_bytes())
        self.assertGreater(os.path.getsize(self.folder / "1.svg"), 10_000)
        refused = shared.refused("curve", "plot", self.conf, "--out", self.folder / "1.foo", status=2)
        self.assertRegex(refused, r"1\.foo: the ending of a picture is one of .*, pdf, .*png, .*svg,")
        other = self.file("d.toml", CONF)
        shutil.copy(self.results, self.folder / "d.csv")
        self.curve("plot", self.conf, self.results, other, self.folder / "d.csv", "--out", self.folder / "3.svg")
        said = self.curve("harq", self.conf, "--at", "0.2,0.3", "--plot", self.folder / "4.svg").splitlines()
        self.assertEqual(said[0], "p,figure,transmissions,estimate,low,high")
        figures = {",".join(line.split(",")[:3]) for line in said[1:]}
        self.assertLessEqual({"0.2,block_error_rate,2", "0.3,mean_transmissions,2", "-,p_for_0.1,1"}, figures)
        for name, words in (("3.svg", (">c<", ">d<", ">c: practice.csv ")), ("4.svg", (">mean transmissions<", ">1 - p<"))):
            drawn = (self.folder / name).read_text()
            self.assertEqual([word for word in words if word not in drawn], [], name)
