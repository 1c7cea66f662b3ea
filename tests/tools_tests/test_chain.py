"""tools/explain chain: what the page says of bits that are pointed at, by mouse and by keys, against TS 38.212 as tools/verify has
it, and the outcome at the end of peeling."""

from __future__ import annotations

import importlib.machinery
import importlib.util
import json
import pathlib
import random
import re
import sys
import typing
import unittest

import browser
import nr
import shared
from linksim_tools.chain import page
from linksim_tools.chain.data import data_of
from linksim_tools.conform import code
from linksim_tools.conform.files import entries_of

WIDE = 96  # the bits of a line of a map
POINTS = 100
MOST_OCTETS = 400_000


def verifier() -> typing.Any:
    """tools/verify as a module."""
    loader = importlib.machinery.SourceFileLoader("verify", str(shared.TOOLS / "verify"))
    made = importlib.util.module_from_spec(typing.cast(typing.Any, importlib.util.spec_from_loader("verify", loader)))
    sys.modules["verify"] = made
    loader.exec_module(made)
    return made


class Chain:
    """A block over a link, and what the clauses say of its bits."""

    def __init__(self, path: pathlib.Path, a: int, rate2048: int, txs: list[nr.Tx], erased: float) -> None:
        verify, draw = verifier(), random.Random(1)
        table, block = nr.Table.open(path), draw.randbytes(a // 8)
        self.receptions = [
            (tx, nr.erase(nr.send(table, block, tx, rate2048=rate2048), seed=seed, p=erased)) for seed, tx in enumerate(txs)
        ]
        self.data = data_of(table, block, self.receptions, rate2048=rate2048)
        self.received = nr.receive(table, a, self.receptions, rate2048=rate2048)
        self.plan = verify.plan_of(a, rate2048, -1)
        rows, z = verify.shifted(verify.read_table(path.read_text())[self.plan.graph], self.plan.index, self.plan.z), self.plan.z
        self.rows: dict[int, list[int]] = {}
        for i, row in enumerate(rows):
            for t in range(z):
                for position in verify.positions(row, t, z):
                    self.rows.setdefault(position, []).append(i * z + t)
        self.sent: list[dict[int, tuple[int, int]]] = []
        for tx in txs:
            whole = verify.Sent(tx.rv, tx.g, tx.qm, tx.nl, list(range(self.plan.c)), "0" * tx.g)
            self.sent.append({m: (r, p) for r in range(self.plan.c) for m, p in whole.places(self.plan, r)})

    def firsts(self, t: int, r: int) -> tuple[int, int]:
        """Where a code block begins in g of a transmission, and how many bits it has there."""
        places = [m for m, (of, _) in self.sent[t].items() if of == r]
        return places[0], len(places)

    def carriers(self, r: int, position: int) -> str:
        """Where a bit is sent, as the page says it."""
        found = [(t, m) for t, places in enumerate(self.sent) for m, it in places.items() if it == (r, position)]
        order = sorted(found, key=lambda it: (it[0], (it[1] - self.firsts(it[0], r)[0]) % self.receptions[it[0]][0].qm, it[1]))
        erased = {it: " (erased)" * (self.receptions[it[0]][1][it[1]] == nr.ERASED) for it in order}
        return ", ".join(f"transmission {t + 1} index {m}{erased[t, m]}" for t, m in order) or "no index"


@unittest.skipUnless(browser.path(), "no Chromium")
class Pointed(shared.InFolder):
    """The page in a browser."""

    def setUp(self) -> None:
        super().setUp()
        tables = [(shared.EXAMPLES / name).read_text() for name in ("drawn.csv", "practice.csv")]
        table = self.file("table.csv", "".join(tables))
        self.chain = Chain(table, 3904, 500, [nr.Tx(4200, qm=2, nl=1), nr.Tx(1800, rv=2, qm=6)], 0.2)
        self.draw = random.Random(2)
        path = self.file("chain.html", "".join(line + "\n" for line in page.lines("A chain", self.chain.data)))
        self.shown = self.enterContext(browser.Browser()) if hasattr(self, "enterContext") else browser.Browser().__enter__()
        if not hasattr(self, "enterContext"):
            self.addCleanup(self.shown.__exit__, None, None, None)
        self.shown.open(path.as_uri(), 1280)

    def about(self, name: str) -> str:
        return str(self.shown.evaluate(f"(document.getElementById('about-{name}') || {{}}).textContent || ''"))

    def key(self, name: str) -> None:
        for kind in ("rawKeyDown", "keyUp"):
            number = 9 if name == "Tab" else 0
            self.shown.ask("Input.dispatchKeyEvent", type=kind, key=name, code=name, windowsVirtualKeyCode=number)

    def point(self, cells: str, at: int) -> None:
        """Moves the mouse to a bit of a map."""
        x, y = self.shown.evaluate(f"""(() => {{
            const map = {cells}, [x, y] = map.cells[{at}], frame = map.svg.parentElement;
            frame.scrollIntoView({{block: "end"}});  // so that the box at the top covers nothing
            let place = map.svg.getBoundingClientRect(), scale = place.width / map.svg.viewBox.baseVal.width;
            frame.scrollTop = y * CELL * scale - 150;
            place = map.svg.getBoundingClientRect();
            return [place.left + (x * CELL + 5.5) * scale, place.top + (y * CELL + 5.5) * scale];
        }})()""")
        self.shown.ask("Input.dispatchMouseEvent", type="mouseMoved", x=x, y=y)

    def said_of_position(self, r: int, position: int) -> None:
        """The box tells of a codeword index what the clauses say."""
        self.assertEqual(self.about("codeblock"), str(r))
        column, bit = divmod(position, self.chain.plan.z)
        self.assertRegex(self.about("position"), rf"^{position}: column {column}, bit {bit};")
        self.assertEqual(sorted(map(int, self.about("rows").split())), sorted(self.chain.rows[position]))
        self.assertEqual(self.about("sent"), self.chain.carriers(r, position))

    def said_of_sent(self, t: int, m: int) -> None:
        """And so of a sent bit."""
        r, position = self.chain.sent[t][m]
        tx, arrived = self.chain.receptions[t]
        first, count = self.chain.firsts(t, r)
        row, column = (m - first) % tx.qm, (m - first) // tx.qm
        self.assertEqual(self.about("place"), f"{m} of transmission {t + 1}")
        self.assertTrue(self.about("interleaver").startswith(f"row {row} of {tx.qm}, column {column} of {count // tx.qm}:"))
        self.assertEqual("nothing arrived" in self.about("bit"), arrived[m] == nr.ERASED)
        self.said_of_position(r, position)

    def tab_to(self, label: str) -> None:
        """Presses Tab until a map has the focus."""
        for _ in range(40):
            self.key("Tab")
            if str(self.shown.evaluate("document.activeElement.getAttribute('aria-label') || ''")).startswith(label):
                return
        self.fail(f"Tab does not reach {label}")

    def test_sent_bits(self) -> None:
        for _ in range(POINTS):
            t = self.draw.randrange(2)
            m = self.draw.choice(list(self.chain.sent[t]))
            r = self.chain.sent[t][m][0]
            self.point(f"sentMaps[{t}][{r}]", m - self.chain.firsts(t, r)[0])
            self.said_of_sent(t, m)
        t, r, qm = 1, 1, 6
        self.tab_to(f"sent bits of transmission {t + 1}, code block {r}")
        first, count = self.chain.firsts(t, r)
        here = int(self.shown.evaluate(f"sentMaps[{t}][{r}].current"))
        for _ in range(POINTS):
            row, column = here % qm, here // qm
            moves = {
                "ArrowRight": here + qm if column % WIDE < WIDE - 1 and column + 1 < count // qm else min(here + 1, count - 1),
                "ArrowLeft": here - qm if column % WIDE else max(here - 1, 0),
                "ArrowDown": here + 1 if row < qm - 1 else (column + WIDE) * qm if column + WIDE < count // qm else here,
                "ArrowUp": here - 1 if row else (column - WIDE) * qm + qm - 1 if column >= WIDE else here,
                "End": count - 1, "Home": 0,
            }
            name = self.draw.choice([*["ArrowRight", "ArrowDown"] * 6, *moves])
            here = moves[name]
            self.key(name)
            self.said_of_sent(t, first + here)

    def test_codeword(self) -> None:
        """Indexes of the codeword, and the steps of peeling to their end."""
        z, size = self.chain.plan.z, self.chain.plan.z * self.chain.plan.columns
        for _ in range(POINTS):
            position = self.draw.randrange(size)
            self.point("shown.map", position)
            self.said_of_position(0, position)
        # On its way Tab passes the sent bits of both code blocks, and the last one is shown.
        self.tab_to("codeword of code block")
        here, r = int(self.shown.evaluate("shown.map.current")), int(self.shown.evaluate("shown.block.r"))
        for _ in range(POINTS):
            t = here % z
            moves = {"ArrowRight": min(here + 1, size - 1), "ArrowLeft": max(here - 1, 0), "Home": 0, "End": size - 1,
                     "ArrowDown": here + WIDE if t + WIDE < z else here - t + z + t % WIDE if here - t + z < size else here}
            name = self.draw.choice(list(moves))
            here = moves[name]
            self.key(name)
            self.said_of_position(r, here)
        self.peeled()

    def peeled(self) -> None:
        """Stepping to the end leaves what the library leaves."""
        text = "document.getElementById('step').textContent"
        for r in range(self.chain.plan.c):
            self.shown.evaluate(f"(() => {{ const it = document.getElementById('code-block'); it.value = {r}; "
                                "it.dispatchEvent(new Event('change')); document.getElementById('first').click(); })()")
            self.assertIn("Before the first", self.shown.evaluate(text))
            self.shown.evaluate("document.getElementById('next').click()")
            self.assertRegex(self.shown.evaluate(text), r"Step 1 of \d+: in check row \d+, only codeword index \d+ is unknown")
            self.shown.evaluate("document.getElementById('last').click()")
            stuck = self.shown.evaluate("document.getElementById('step').dataset.stuck").split()
            self.assertEqual(sum(int(it) < self.chain.plan.kdash for it in stuck), self.chain.received.left[r])
            self.assertIn("stopping set" if stuck else "every index below K' is fixed", self.shown.evaluate(text))


class Written(shared.InFolder):
    """The page as a file, from each kind of source."""

    def test_size(self) -> None:
        """A page of two code blocks of Zc = 384 is below 400 KB, and asks for nothing else."""
        chain = Chain(shared.EXAMPLES / "drawn.csv", 16824, 1800, [nr.Tx(24000, qm=4), nr.Tx(24000, rv=2, qm=4)], 0.2)
        self.assertEqual((chain.plan.c, chain.plan.z), (2, 384))
        text = "\n".join(page.lines("A chain", chain.data))
        self.assertLess(len(text.encode()), MOST_OCTETS)
        self.assertEqual(set(re.findall(r"https?://[^\"'` ]+", text)), {"http://www.w3.org/2000/svg"})
        self.assertNotRegex(text, r"<(link|img|iframe)|\bsrc=|@import|url\(")

    def data_of(self, *words: object) -> dict[str, typing.Any]:
        """The data of the page that the tool writes."""
        path = self.folder / "page.html"
        path.unlink(missing_ok=True)
        self.assertEqual(shared.made("explain", "chain", "--html", path, *words), "")
        found = re.search(r'<script type="application/json" id="data">(.*?)</script>', path.read_text())
        assert found
        made: dict[str, typing.Any] = json.loads(found[1])
        return made

    def test_sources(self) -> None:
        table = shared.INPUTS["table"]
        words = shared.options({**shared.INPUTS, "schedule": shared.EXAMPLES / "losses.csv"})
        of_run = self.data_of(*words, "--block", 2)
        self.assertEqual((of_run["outcome"], len(of_run["transmissions"])), ("undecided", 1))
        vector = self.file("vector.json", shared.made("vectors", "one", "--table", table, "--a", 8, "--payload", "01", "--g", 24))
        of_vector = self.data_of("--vector", vector, "--table", table)
        self.assertEqual((of_vector["b"], of_vector["transmissions"][0]["bits"]), ("011021", "102103"))
        records = code.records_of(entries_of(table))
        link = {"a": 8, "rate2048": 1024, "lbrm": None, "rv": 0, "g": 24, "qm": 1, "nl": 1, "mask": "all"}
        sent = {**link, "process": 0, "fresh": 1, "values": "+++-" * 5 + "00qH", "block": "01"}
        lines = [{"receiver": 1, "table": records}, {"id": "mine", "transmissions": [sent]}]
        suite = self.file("suite.jsonl", "".join(json.dumps(line) + "\n" for line in lines))
        of_case = self.data_of("--suite", suite, "--case", "mine")
        self.assertEqual((of_case["transmissions"][0]["bits"], of_case["transmissions"][0]["erased"]), ("111111", "00000c"))
        case = {"id": "mine", "a": "00000001", "rate2048": 1024, "lbrm": None, "transmission": link}
        lines = [{"conform": 1, "table": records}, case]
        suite = self.file("suite.jsonl", "".join(json.dumps(line) + "\n" for line in lines))
        self.assertEqual(self.data_of("--suite", suite, "--case", "mine")["outcome"], "undecided")

    def test_errors(self) -> None:
        out = ["--html", self.folder / "page.html"]
        self.assertIn("chain needs --vector and --table", shared.refused("explain", "chain", *out, status=2))
        self.assertIn("needs --html", shared.tool("explain", "chain")[2])
        self.assertIn("chain also needs --case", shared.refused("explain", "chain", *out, "--suite", "s", status=2))
        self.assertIn("cannot be read", shared.refused("explain", "chain", *out, "--suite", "missing", "--case", "x"))
        words = shared.options({**shared.INPUTS, "schedule": shared.EXAMPLES / "losses.csv"})
        self.assertIn("no block 4", shared.refused("explain", "chain", *out, *words, "--block", 4, status=2))


if __name__ == "__main__":
    unittest.main()
