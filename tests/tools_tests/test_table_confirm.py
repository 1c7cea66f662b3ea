"""`tools/table confirm`: vectors made by another encoder confirm the table that they were made with, and name a wrong digit."""

from __future__ import annotations

import random
import types
import typing

import shared
from linksim_tools.common.graphs import GRAPHS, LARGEST
from linksim_tools.common.program import Failed
from linksim_tools.conform import code
from linksim_tools.conform.chain import Chain
from linksim_tools.conform.clauses import right
from linksim_tools.conform.encoder.suite import case_of_words
from linksim_tools.rtl import bbdev
from linksim_tools.table import confirm, words
from model import encoder

SETS = {z: index for index, largest in enumerate(LARGEST) for z in (largest >> shift for shift in range(8)) if z << 8 > largest}


def line(graph: int, z: int, entries: shared.Entries, seed: int = 1, payload: str = "") -> str:
    """The line of a code block of drawn bits, or of this payload, with its codeword."""
    k = GRAPHS[graph].information * z
    c = payload or f"{random.Random(seed).getrandbits(k):0{k}b}"
    d = encoder.codeword(entries, GRAPHS[graph].information, SETS[z], z, list(map(int, c)))[2 * z :]
    return f"graph {graph} z {z} c {c} d {''.join(map(str, d))}\n"


def changed(entries: shared.Entries, place: tuple[int, int], index: int, value: int) -> shared.Entries:
    """The entries with another value at a place."""
    row = list(entries[place])
    row[index] = value
    return {**entries, place: row}


def operations(text: str, entries: shared.Entries) -> list[str]:
    """The files of test-bbdev of the code blocks of a case."""
    case = case_of_words(text.split())
    values = Chain(code.TablesKey(code.entries_of(shared.table_text({2: entries}))), case, right()).values()
    one: typing.Any = types.SimpleNamespace(case=case, values=values)
    return ["\n".join(bbdev.lines(one, r)) for r in range(values.plan.c)]


class Confirm(shared.InFolder):
    """The table of base graph 2, whose set 6 has the lifting sizes 208, 104, 52 and 26."""

    entries: typing.ClassVar[shared.Entries] = shared.drawn_entries(2, 5)

    def report(self, entries: shared.Entries, *texts: str) -> list[str]:
        """The lines on a table with these entries, by files of these texts."""
        paths = [self.file(f"{number}.data", text) for number, text in enumerate(texts)]
        found = (word for path in paths for word in words.words_of(str(path)))
        return list(confirm.Confirmed(code.entries_of(shared.table_text({2: entries})), found).report())

    def test_every_value(self) -> None:
        """One code block of a set's largest size confirms its values whole, two of a smaller size modulo that."""
        half = "".join(line(2, 104, self.entries, seed) for seed in (1, 2))
        self.assertEqual(self.report(self.entries, line(2, 208, self.entries), half + line(2, 288, self.entries)), [
            "graph 2 set 4 modulo 288: 153 of 153 values confirmed by 1 code block",
            "graph 2 set 6 modulo 104: 153 of 153 values confirmed by 2 code blocks",
            "graph 2 set 6 modulo 208: 153 of 153 values confirmed by 1 code block",
            "confirmed: 306 of 1,224 values, and 0 more modulo a smaller lifting size; rows contradicted: 0",
        ])
        self.assertIn(": 0 of 1,224 values, and 153 more modulo", self.report(self.entries, half)[-1])

    def test_one_wrong_digit(self) -> None:
        """In every third row and some column: rejected with its row and column, and the value that fits."""
        text = line(2, 208, self.entries)
        for row in range(0, 42, 3):
            column = next(it for at, it in reversed(list(self.entries)) if at == row and confirm.is_free(2, row, it))
            value = self.entries[row, column][6]
            wrong = value + 10 if value < 198 else value - 10
            *_, said, last = self.report(changed(self.entries, (row, column), 6, wrong), text)
            with self.subTest(row=row):
                place = str(self.folder / "0.data, line 1")
                fits = f"contradicted by {place}: column {column}: {wrong} is wrong, {value} fits"
                self.assertEqual(said, f"graph 2 set 6 modulo 208 row {row}: {fits}")
                self.assertRegex(last, "rows contradicted: 1$")

    def test_as_a_user(self) -> None:
        """The tool's status is 1 if a vector contradicts the table, or if a file is none."""
        table, vector = self.file("table.csv", shared.table_text({2: self.entries})), self.file("v.txt", line(2, 26, self.entries))
        place = next(it for it in self.entries if it[1] < 10)
        values = changed(self.entries, place, 6, self.entries[place][6] ^ 1)
        wrong = self.file("wrong.csv", shared.table_text({2: values}))
        self.assertEqual(shared.tool("table", "confirm", table, vector)[::2], (0, ""))
        status, output, error = shared.tool("table", "confirm", wrong, vector)
        self.assertEqual((status, error), (1, ""))
        self.assertIn(f"row {place[0]}: contradicted by {vector}, line 1: ", output)
        self.assertIn(f"{vector}: ", shared.refused("table", "confirm", table, self.file("v.txt", "op_type =\nX\n")))

    def test_payload_that_shows_nothing(self) -> None:
        """All ones are met by every shift. So few equations that other shifts may meet them confirm nothing either."""
        for text in (line(2, 208, self.entries, payload="1" * 2080), line(2, 13, self.entries)):
            self.assertIn(": 0 of 1,224 values, and 0 more ", self.report(self.entries, text)[-1])

    def test_hexadecimal_digits(self) -> None:
        *names, c, _, d = line(2, 208, self.entries).split()
        text = " ".join([*names, f"{int(c, 2):0{len(c) // 4}x}", "d", f"{int(d, 2):0{len(d) // 4}X}"])
        self.assertEqual(self.report(self.entries, text), self.report(self.entries, line(2, 208, self.entries)))

    def test_bbdev(self) -> None:
        """All that is sent is taken: of each redundancy version, interleaved, of a limited buffer, around fillers."""
        drawn, texts = random.Random(7), []
        for octets, numbers in ((258, "rv 0 g 10400 qm 1"), (258, "lbrm 7000 rv 1 g 9000 qm 2"), (250, "rv 3 g 10800 qm 6"),
                                (258, "rv 2 g 3000 qm 8")):
            texts += operations(f"id a rate2048 512 {numbers} a {drawn.randbytes(octets).hex()}", self.entries)
        self.assertRegex(self.report(self.entries, *texts)[-1], "confirmed: 153 of 1,224 .* contradicted: 0$")
        few = self.report(self.entries, texts[3].replace("=\n", " = # a remark\n"))
        self.assertRegex(few[0], r"^graph 2 set 6 modulo 208: [1-9][0-9]? of 153 ")
        before, name, words_of_f = texts[0].partition("output0 =\n")
        with self.assertRaisesRegex(Failed, r"0.data, code block 0: bit \d+ of d is 0, and c or an earlier bit of d says that "):
            self.report(self.entries, before + name + "0x00000000" + words_of_f[10:])

    def test_bbdev_of_a_transport_block(self) -> None:
        """Code blocks in one file: the bits of all of them, which get their CRC24B, and E of the first and of the others."""
        one, two = operations(f"id a rate2048 512 rv 0 g 20832 qm 2 a {random.Random(8).randbytes(479).hex()}", self.entries)
        keys = [dict(part.split(" =\n", 1) for part in text.strip().split("\n\n")) for text in (one, two)]
        both = {**keys[0], **{name: f"{keys[0][name]}, {keys[1][name]}" for name in ("input0", "output0")}}
        both.update({"code_block_mode": "0", "c": "2", "cab": "1", "ea": keys[0]["e"], "eb": keys[1]["e"]})
        text = "".join(f"{name} =\n{value}\n\n" for name, value in both.items())
        self.assertEqual(self.report(self.entries, text), self.report(self.entries, one, two))

    def test_refusals(self) -> None:
        """Each line names the file and what is wrong with it."""
        good = line(2, 26, self.entries)
        for text, said in (
            (good.replace("z 26", "z 27"), "graph is not 1 or 2, or z is not a lifting size"), ("id 1 2", "an odd number of words"),
            (good[:-2], "d is neither 1300 bits nor 325 hexadecimal digits"), ("c 1 d 0", "it has not the names graph, z, c and d"),
            ("op_type =\nRTE_BBDEV_OP_LDPC_DEC\n", "not an operation RTE_BBDEV_OP_LDPC_ENC"),
        ):
            with self.subTest(said), self.assertRaisesRegex(Failed, f"^{self.folder}/0.data.*: .*{said}"):
                self.report(self.entries, text)
        good, = operations("id a rate2048 512 rv 0 g 10400 qm 1 a " + "5a" * 258, self.entries)
        for old, new, said in (
            ("z_c =\n208", "z_c =\n209", "z_c is 209"), ("z_c", "zc", "z_c is not there"), ("n_cb =\n", "n_cb =\n9", "is 910400"),
            ("\ne =\n1", "\ne =\n2", "output0 has fewer bits"), ("input0 =\n0x", "input0 =\n0xg", "input0 is not a list of words"),
            ("n_filler =\n0", "n_filler =\n1700", "n_filler is 1700"), ("input0", "input1", "fewer bits than the code blocks"),
            ("LDPC_RATE_MATCH", "LDPC_X", "with RTE_BBDEV_LDPC_RATE_MATCH"),
        ):
            with self.subTest(said), self.assertRaisesRegex(Failed, f"^{self.folder}/0.data.*: .*{said}"):
                self.report(self.entries, good.replace(old, new, 1))
