"""tools/certify writes certificates that tools/verify and examples/verify.c accept, and both reject each edit of them, with the
same sentence."""

from __future__ import annotations

import ast
import json
import pathlib
import random
import re
import sys
import typing
import unittest

import certificates
import nr
import shared
from linksim_tools.certificate.writing import certificate

VERIFY, TWIN = shared.TOOLS / "verify", shared.EXAMPLES / "verify.c"
MOST_LINES = 400
STANDARD = {"__future__", "argparse", "hashlib", "itertools", "re", "sys", "typing"}
HEADERS = {"stdarg.h", "stdint.h", "stdio.h", "stdlib.h", "string.h"}
# How many rounds are drawn for one run of the program, and in how many runs.
ROUNDS, RUNS = 250, 8
LARGEST = 1_310_688
Answer = typing.Tuple[int, str, str]


def arrived(bits: bytearray, draw: random.Random, erased: float, inverted: int = 0) -> bytearray:
    """What arrives of bits over a link that erases, and inverts so many bits."""
    for place in draw.sample(range(len(bits)), inverted):
        bits[place] ^= 1
    return bytearray(nr.ERASED if draw.random() < erased else bit for bit in bits)


class Both(shared.InFolder):
    """The verifiers in both languages."""

    twin: pathlib.Path

    def setUp(self) -> None:
        super().setUp()
        self.twin = self.folder / "verify"
        words = ["cc", "-std=c99", "-O2", "-Wall", "-Wextra", "-Wpedantic", "-Werror", "-o", self.twin, TWIN]
        self.assertEqual(shared.run(words), (0, b"", b""))
        tables = [(shared.EXAMPLES / name).read_text() for name in ("drawn.csv", "practice.csv")]
        self.table = self.file("table.csv", "".join(tables))
        self.nr = nr.Table.open(self.table)

    def verified(self, text: str, table: pathlib.Path | None = None) -> Answer:
        """What both say of certificates: status, standard output and standard error."""
        path, found = self.file("certificate.jsonl", text), []
        commands: list[list[object]] = [[sys.executable, VERIFY], [self.twin]]
        for words in commands:
            status, output, error = shared.run([*words, table or self.table, path])
            found.append((status, output.decode(), error.decode()))
        self.assertEqual(found[0], found[1])
        return found[0]

    def made(self, block: bytes, rate2048: int, txs: list[nr.Tx], erased: float, inverted: int = 0, seed: int = 1) -> str:
        """The certificate of a block over a link."""
        draw = random.Random(seed)
        receptions = [(tx, arrived(nr.send(self.nr, block, tx, rate2048=rate2048), draw, erased, inverted)) for tx in txs]
        return "".join(line + "\n" for line in certificate(self.nr, 8 * len(block), receptions, rate2048=rate2048))


class Accepted(Both):
    """Certificates of what the program and the library conclude."""

    def test_share_nothing(self) -> None:
        tree = ast.parse(VERIFY.read_text())
        names = {it.module or "" if isinstance(it, ast.ImportFrom) else it.names[0].name for it in ast.walk(tree)
                 if isinstance(it, (ast.Import, ast.ImportFrom))}
        self.assertLessEqual(names, STANDARD)
        self.assertLessEqual(set(re.findall(r"#include [<\"](.*)[>\"]", TWIN.read_text())), HEADERS)
        for path in (VERIFY, TWIN):
            self.assertLessEqual(len(path.read_text().splitlines()), MOST_LINES)

    def drawn(self, seed: int) -> dict[str, pathlib.Path]:
        """Blocks and a schedule of so many rounds of HARQ processes, over a link that erases and inverts."""
        draw = random.Random(seed)
        sizes = [draw.choice([1, 2, 3, 5, 9, 24, 60]) for _ in range(99)]
        blocks = [draw.randbytes(size) for size in [*sizes, draw.choice([486, 1065])]]
        lines = ["block,rv,g,qm,nl,erase,flip,mask,process,fresh"]
        for number in range(ROUNDS):
            process, block = number % 16, draw.randrange(100) if number else 99
            for turn in range(draw.randint(1, 3)):
                qm, nl = draw.choice([1, 2, 4, 6, 8]), draw.randint(1, 4)
                g = qm * nl * max(1, int(draw.uniform(0.6, 2.5) * 8 * (len(blocks[block]) + 3) / (qm * nl)))
                lost = draw.choice(["-", f"pcg:{draw.getrandbits(60)}:{int(draw.uniform(0, .6) * 2**32)}", "0-7"])
                flip = draw.choice(["-"] * 4 + [str(draw.randrange(g))])
                rv = draw.randrange(4) if draw.random() < 0.97 else 4
                lines.append(f"{block + 1},{rv},{g},{qm},{nl},{lost},{flip},all,{process},{int(not turn)}")
        texts = {"blocks": "".join(it.hex() + "\n" for it in blocks), "schedule": "\n".join(lines) + "\n",
                 "settings": f"rate2048 = {draw.choice([400, 1024, 1800])}\n" + draw.choice(["", "lbrm = 30000\n"])}
        return {"table": self.table, **{name: self.file(f"{name}{seed}", text) for name, text in texts.items()}}

    def test_rounds(self) -> None:
        """The program's outcome of each of 2,000 rounds is the certificate's, and tools/certify holds the library to it."""
        names = {"delivered": "delivered", "open": "undecided", "contradiction": "inconsistent"}
        seen = []
        for seed in range(RUNS):
            words = shared.options(self.drawn(seed))
            found = re.findall(r"process \d+ block \d+ (\w+) tx", shared.linksim("run", *words))
            self.assertEqual(len(found), ROUNDS)
            status, output, error = self.verified(shared.made("certify", *words))
            self.assertEqual((status, error), (0, ""))
            self.assertEqual([line.partition(":")[0] for line in output.splitlines()], [names[it] for it in found])
            seen += found
        self.assertEqual(set(seen), set(names))
        self.assertGreaterEqual(min(map(seen.count, names)), 100)

    def test_blocks(self) -> None:
        """The examples of the documents, and a block of which nothing was sent."""
        words = shared.options({**shared.INPUTS, "schedule": shared.EXAMPLES / "losses.csv"})
        said = self.verified(shared.made("certify", *words), shared.INPUTS["table"])
        ends = [line.split(", ")[-1] for line in said[1].splitlines()]
        self.assertEqual((said[0], ends), (0, ["the only block", "1 of 1 code blocks stuck", "no block"]))
        empty = self.file("empty", "block,rv,g,qm,nl,erase\n")
        words = shared.options({**shared.INPUTS, "schedule": empty})
        self.assertIn("undecided", self.verified(shared.made("certify", *words, "--block=2"), shared.INPUTS["table"])[1])
        self.assertIn("there is no block 4", shared.refused("certify", *words, "--block=4", status=2))
        words = shared.options({**shared.INPUTS, "schedule": self.table})
        self.assertIn("refused: schedule Header", shared.refused("certify", *words))

    def test_largest(self) -> None:
        """The largest block that has code blocks of equal length."""
        block = random.Random(1).randbytes(LARGEST // 8)
        said = self.verified(self.made(block, 2048, [nr.Tx(156 * 12_000, qm=6)], 0.05))
        self.assertRegex(said[1], r"delivered: \d+ steps, 2755584 rows, the only block")

    def test_limited_and_crc(self) -> None:
        """A block whose CRC alone contradicts: another block's bits with the parity of its own."""
        block, tx = bytes(5), nr.Tx(400)
        codeword = nr.codeword(self.nr, bytes(8 * 5 + 15) + b"\1", 40, rate2048=1024)
        bits = nr.select(codeword, 400, 40, rate2048=1024)
        text = "".join(line + "\n" for line in certificate(self.nr, 40, [(tx, bits)], rate2048=1024))
        self.assertIn('"contradiction": []', text)
        self.assertIn("inconsistent", self.verified(text)[1])
        self.assertIn("delivered", self.verified(self.made(block, 1024, [tx], 0.1))[1])


class Rejected(Both):
    """Edits, which both reject with the same sentence."""

    def edited(self, text: str, edits: dict[str, tuple[certificates.Edit, str]]) -> None:
        for name, (edit, part) in edits.items():
            with self.subTest(name):
                lines = [json.loads(line) for line in text.splitlines()]
                edit(lines)
                self.rejected(certificates.text_of(lines), part)

    def rejected(self, text: str, part: str) -> None:
        status, output, error = self.verified(text)
        self.assertIn(status, (1, 2))
        self.assertEqual((output.startswith("wrong: "), error.startswith("verify: ")), (status == 1, status == 2))
        self.assertIn(part, output + error)

    def test_delivered(self) -> None:
        block = random.Random(2).randbytes(488)
        text = self.made(block, 500, [nr.Tx(18000, qm=2, nl=2), nr.Tx(6000, rv=2, qm=6)], 0.02)
        self.assertIn("delivered", self.verified(text)[1])
        self.edited(text, certificates.DELIVERED)
        for name, (change, part) in certificates.TEXTS.items():
            with self.subTest(name):
                self.rejected(change(text), part)

    def test_undecided(self) -> None:
        text = self.made(b"\1", 1024, [nr.Tx(24, qm=2)], 0.3)
        self.assertIn("undecided", self.verified(text)[1])
        self.edited(text, certificates.UNDECIDED)

    def test_inconsistent(self) -> None:
        text = self.made(b"\r*", 1024, [nr.Tx(104)], 0.0, inverted=1)
        self.assertIn("inconsistent", self.verified(text)[1])
        self.edited(text, certificates.INCONSISTENT)

    def test_tables(self) -> None:
        text, right = self.made(b"\1", 1024, [nr.Tx(104)], 0.0), self.table.read_text()
        repeated, shaped = right + right.splitlines()[-1] + "\n", right.replace("2,17,27,0", "2,17,27,1")
        for changed in (right.replace("2,4,4,4,", "2,4,4,5,"), repeated, shaped, shaped.replace("2,17,27,1", "3,17,27,0"),
                        "graph,\n", "2,1\n", ""):
            table = self.file("changed.csv", changed)
            self.assertIn(self.verified(text, table)[0], (1, 2))
        quoted = "\ufeffgraph,row,column,a,b,c,d,e,f,g,h\r\n" + right.replace("2,17,", ' "2" ,17, ').replace("\n", "\r\n")
        self.assertEqual(self.verified(text, self.file("quoted.csv", quoted))[0], 0)


class Audited(shared.InFolder):
    """The lines of `linksim audit` as they are."""

    def audited(self, words: dict[str, pathlib.Path], change: typing.Callable[[str], str] = lambda text: text) -> tuple[int, str]:
        text = self.file("audit", change(shared.linksim("audit", *shared.options(words))))
        files = [words["table"], text, "--audit", words["settings"], words["blocks"], words["schedule"]]
        status, output, error = shared.run([sys.executable, VERIFY, *files])
        self.assertEqual(error, b"")
        return status, output.decode()

    def test_examples(self) -> None:
        losses = {**shared.INPUTS, "schedule": shared.EXAMPLES / "losses.csv"}
        self.assertEqual(self.audited(losses), (0, "1 stuck lines are stopping sets, 2 order lines hold no steps to check\n"))
        status, said = self.audited({**shared.INPUTS, "schedule": shared.EXAMPLES / "processes.csv"})
        self.assertEqual((status, said.split()[1:3]), (0, ["stuck", "lines"]))

    def test_edits(self) -> None:
        losses = {**shared.INPUTS, "schedule": shared.EXAMPLES / "losses.csv"}
        for old, new, part in (
            ("14 6 14", "13 14", "exactly one"), ("14 6 14", "14 14 6", "ascending"), (" 14 6 ", " 13 6 ", "that many"),
            (" 205\n", " 206\n", "a"), ("14 6 14", "15 6 8 14", "known"), ("stuck 2 0", "stuck 2 1", "block 2, code block 0"),
            ("order 3 0 614\n", "", ""), ("order 3 0 614\n", "order 3 0 614\norder 4 0 1\n", "nothing should stand here"),
        ):
            with self.subTest(new):
                if part:
                    status, said = self.audited(losses, lambda text, old=old, new=new: text.replace(old, new))  # type: ignore[misc]
                    self.assertEqual((status, part in said), (1, True))


if __name__ == "__main__":
    unittest.main()
