"""`tools/vectors`: from the block to d, and from d to the sent bits, by another implementation of the clauses. Packings
and the sizes that can be cut are tested too."""

from __future__ import annotations

import json
import pathlib
import typing
import unittest

from model import coding, encoder
import shared
from linksim_tools.common import near, program
from linksim_tools.common.graphs import GRAPHS
from linksim_tools.conform import bits, files

# k0 of Table 5.4.2.1-2, by base graph and redundancy version: of each 66 or 50 columns so many.
STARTS = {1: [0, 17, 33, 56], 2: [0, 13, 25, 43]}
Vector = typing.Dict[str, typing.Any]


setUpModule = shared.needs_tomllib


def bits_of(packed: Vector) -> list[int]:
    """The bits of a list that was packed as bits."""
    assert packed["count"] == len(packed["bits"])
    bits: list[int] = packed["bits"]
    return bits


class Rebuilt(shared.InFolder):
    """Everything in a vector follows from what stands before it."""

    def vector(self, entries: dict[int, shared.Entries], settings: str, octets: bytes, **transmission: str | int) -> Vector:
        """The vector of a block of these octets, its lists as bits."""
        files = {
            "table": self.file("table.csv", shared.table_text(entries)),
            "settings": self.file("settings.toml", settings),
            "blocks": self.file("blocks.txt", "ff\r\n" + octets.hex() + "\n"),
        }
        words = [*shared.options(files | transmission), "--block", "2", "--pack", "bits"]
        made: Vector = json.loads(shared.made("vectors", "one", *words))
        return made

    def check(
        self, entries: dict[int, shared.Entries], settings: str, octets: bytes, mask: str = "all",
        scheduled: list[int] | None = None, lbrm: int | None = None, **transmission: int,
    ) -> Vector:
        """A vector is what the clauses make of the block, step by step. `scheduled` are the code blocks that `mask`
        names, or all."""
        found = self.vector(entries, settings, octets, mask=mask, **transmission)
        plan, blocks = found["plan"], found["codeblocks"]
        a = encoder.bits_of(octets)
        self.assertEqual(bits_of(found["a"]), a)
        self.assertEqual(bits_of(found["attached"]), encoder.attached(a))
        self.cut(bits_of(found["attached"]), plan, blocks)
        self.coded(entries, plan, blocks)
        length = plan["n"] if lbrm is None else min(plan["n"], 3 * lbrm // (2 * plan["c"]))
        sent_blocks = list(range(plan["c"])) if scheduled is None else scheduled
        for r in set(range(plan["c"])) - set(sent_blocks):
            self.assertEqual([blocks[r]["E"], bits_of(blocks[r]["e"]), bits_of(blocks[r]["f"])], [0, [], []])
        sent = self.matched(plan, [blocks[r] for r in sent_blocks], length, **transmission)
        self.assertEqual(bits_of(found["sent"]), sent)
        return found

    def cut(self, b: list[int], plan: dict[str, int], blocks: list[Vector]) -> None:
        """The code blocks are the parts of the attached block, with a CRC each if there are several (5.2.2)."""
        self.assertEqual(len(blocks), plan["c"])
        part = plan["kdash"] - plan["l"]
        for r, block in enumerate(blocks):
            bits = b[r * part : (r + 1) * part]
            wanted = encoder.with_crc(bits, encoder.CRC_24B) if plan["c"] > 1 else bits
            self.assertEqual((block["r"], bits_of(block["bits"])), (r, wanted))

    def coded(self, entries: dict[int, shared.Entries], plan: dict[str, int], blocks: list[Vector]) -> None:
        """d is the codeword of the code block, from its third column on, with fillers as null (5.3.2)."""
        for block in blocks:
            self.assertEqual(block["d"], coding.coded(entries[plan["graph"]], plan, bits_of(block["bits"])))

    def matched(
        self, plan: dict[str, int], blocks: list[Vector], length: int, rv: int, g: int, qm: int = 1, nl: int = 1
    ) -> list[int]:
        """e and f of these code blocks are selected from d and interleaved (5.4.2), and joined (5.5)."""
        count, symbols = len(blocks), g // (nl * qm)
        start = STARTS[plan["graph"]][rv] * length // (GRAPHS[plan["graph"]].sent * plan["z"]) * plan["z"]
        sent = []
        for j, block in enumerate(blocks):
            share = symbols // count if j <= count - symbols % count - 1 else -(-symbols // count)
            self.assertEqual((block["E"], block["k0"], block["Ncb"]), (nl * qm * share, start, length))
            self.assertEqual(bits_of(block["e"]), encoder.selected(block["d"], start, length, block["E"]))
            self.assertEqual(bits_of(block["f"]), encoder.interleaved(bits_of(block["e"]), qm))
            sent += bits_of(block["f"])
        return sent

    def test_one_code_block_of_base_graph_2(self) -> None:
        entries = {2: shared.drawn_entries(2)}
        for rv, qm, nl, g in [(0, 1, 1, 184), (1, 2, 1, 100), (2, 4, 2, 160), (3, 6, 3, 180), (0, 8, 4, 3200)]:
            with self.subTest(rv=rv, qm=qm, nl=nl):
                self.check(entries, "rate2048 = 1024\n", bytes(range(3, 20)), rv=rv, g=g, qm=qm, nl=nl)

    def test_one_code_block_of_base_graph_1(self) -> None:
        octets = bytes(it * 7 % 256 for it in range(600))
        self.check({1: shared.drawn_entries(1)}, "rate2048 = 0x7_00\n", octets, rv=2, g=6000, qm=6)

    def test_several_code_blocks_and_a_limited_buffer(self) -> None:
        entries = {2: shared.drawn_entries(2)}
        octets = bytes(it * it % 251 for it in range(480))
        settings = "rate2048 = 512\nlbrm = 6000\n"
        for rv, g in [(0, 5002), (3, 2000)]:
            with self.subTest(rv=rv):
                found = self.check(entries, settings, octets, lbrm=6000, rv=rv, g=g, qm=2)
                self.assertEqual((found["plan"]["c"], found["lbrm"]), (2, 6000))

    def test_scheduled_code_blocks(self) -> None:
        entries = {2: shared.drawn_entries(2)}
        octets = bytes(it * it % 241 for it in range(1200))
        found = self.check(entries, "rate2048 = 512\n", octets, rv=1, g=1204, qm=4, mask="0 2", scheduled=[0, 2])
        self.assertEqual([block["E"] for block in found["codeblocks"]], [600, 0, 604])

    def test_fewer_symbols_than_code_blocks(self) -> None:
        octets = bytes(it * it % 241 for it in range(1200))
        found = self.check({2: shared.drawn_entries(2)}, "rate2048 = 512\n", octets, rv=0, g=4, qm=2)
        self.assertEqual([block["E"] for block in found["codeblocks"]], [0, 2, 2])

    def test_worked_by_hand(self) -> None:
        # The practice table's rows over the six columns of 011021 (Z = 4); the first bits that are sent.
        found = self.vector({2: self.practice()}, "rate2048 = 2048\n", b"\x01", rv=0, g=24)
        block, = found["codeblocks"]
        self.assertEqual(encoder.octets_of(bits_of(found["attached"])).hex(), "011021")
        self.assertEqual(block["d"][:16], [int(bit) for bit in f"{0x1021:016b}"])
        self.assertEqual(block["d"][16:32], [None] * 16)
        self.assertEqual(block["d"][32:48], [int(bit) for bit in f"{0x0330:016b}"])
        self.assertEqual(encoder.octets_of(bits_of(found["sent"])).hex(), "102103")

    @staticmethod
    def practice() -> shared.Entries:
        """The entries of the practice table."""
        lines = [list(map(int, line.split(","))) for line in (shared.EXAMPLES / "practice.csv").read_text().split()]
        return {(row, column): values for _, row, column, *values in lines}


class Refused(shared.InFolder):
    """What cannot be done is said in one line, with nothing written."""

    def refused(self, said: str, *words: str | pathlib.Path) -> None:
        """These words after the files are refused, and the line has this in it."""
        self.assertIn(said, shared.refused("vectors", "one", *shared.options(shared.INPUTS), *words))

    def test_refusals(self) -> None:
        self.refused("case block-1: the library rejects it: Rv", "--rv=4", "--g=8")
        self.refused("case block-1: the library rejects it: Ragged", "--rv=0", "--g=9", "--qm=2")
        self.refused("case block-1: the library rejects it: NoneScheduled", "--rv=0", "--g=8", "--mask=7")
        self.refused("case block-1: the library rejects it: g is 99999999999, and not 0 to", "--rv=0", "--g=99999999999")
        less, long = self.file("less.toml", "rate2048 = 512\nlbrm = 1\n"), self.file("long.txt", "00" * 999 + "\n")
        self.refused("case block-1: the library rejects it: NoBuffer", "--rv=0", "--g=8", "--settings", less, "--blocks", long)
        none = self.file("none.toml", "rate2048 = 2048\nlbrm = 0\n")
        self.refused("lbrm is not a whole number from 1 to 4294967295", "--rv=0", "--g=8", "--settings", none)
        self.refused("has no block 4", "--rv=0", "--g=8", "--block=4")
        self.refused("has no block 0", "--rv=0", "--g=8", "--block=0")
        self.refused("--mask must be all", "--rv=0", "--g=8", "--mask=x")
        self.refused("/nowhere cannot be read", "--rv=0", "--g=8", "--table=/nowhere")
        self.refused("rate2048 is not a whole number from 1 to 2048", "--rv=0", "--g=8", "--settings", self.file("empty.toml", ""))
        odd = self.file("blocks.txt", "0x01\n")
        self.refused("blocks.txt block 1 is not an even number of hexadecimal digits", "--rv=0", "--g=8", "--blocks", odd)
        more = self.file("more.toml", "rate2048 = 1\nx = 2")
        self.refused("x is not a key of the settings", "--rv=0", "--g=8", "--settings", more)

    def test_usage(self) -> None:
        for words, said in (
            (["one", "--rv=0"], "the following arguments are required: --table"),
            (["many", "--table=t", "--count=1", "--rv=0"], "unrecognized arguments: --rv=0"),
            (["many", "--table=t", "--out=d"], "--count or --cases is required"),
            (["many", "--table=t", "--count=1"], "--out is required"),
        ):
            status, _, error = shared.tool("vectors", *words)
            self.assertEqual((status, error.splitlines()[-1].partition("error: ")[2]), (2, said))

    def test_older_forms(self) -> None:
        """The options without a command, as earlier releases took them, do the same with a hint."""
        files, hint = shared.options(shared.INPUTS), "tools/vectors: this form is deprecated and goes with the next release; write "
        for old, new in (
            ([*files, "--rv=0", "--g=24"], ["one", *files, "--rv=0", "--g=24"]), (["--near", "100"], ["near", "100"]),
            (["--rate=512", "--near=100"], ["near", "100", "--rate=512"]),
        ):
            status, output, error = shared.tool("vectors", *old)
            self.assertEqual((status, output, error), (0, shared.made("vectors", *new), f"{hint}tools/vectors {new[0]} ..\n"))
        words = ["--table", shared.INPUTS["table"], "--count=2"]
        self.assertEqual(shared.tool("vectors", *words, "--dir", self.folder / "old")[0], 0)
        self.assertEqual(shared.tool("vectors", "many", *words, "--out", self.folder / "new")[0], 0)
        one, two = ({path.name: path.read_bytes() for path in (self.folder / name).iterdir()} for name in ("old", "new"))
        self.assertEqual((one, len(one)), (two, 3))

    def test_out(self) -> None:
        """A file is there whole, or as it was."""
        words, place = ["vectors", "one", *shared.options(shared.INPUTS), "--rv=0"], self.folder / "v.json"
        wanted = shared.made(*words, "--g=24")
        self.assertEqual(shared.made(*words, "--g=24", "--out", place), "")
        shared.refused(*words, "--g=0", "--out", place)
        self.assertEqual((place.read_text(), [path.name for path in self.folder.iterdir()]), (wanted, ["v.json"]))
        self.assertIn("/nowhere/v.json: No such file", shared.refused(*words, "--g=24", "--out=/nowhere/v.json"))


class Packings(unittest.TestCase):
    """Each packing of some bits, by hand."""

    BITS = "1000" "0001" "0111" "1111" "0000" "0010" "1010" "1010" "1100" "1100" "01"

    def test_by_hand(self) -> None:
        wanted = {
            "hex": "817f02aacc4",
            "octets": [0x81, 0x7F, 0x02, 0xAA, 0xCC, 0x40],
            "lsb": [0x81, 0xFE, 0x40, 0x55, 0x33, 0x02],
            "le32": ["0xaa027f81", "0x40cc"],
            "bits": list(map(int, self.BITS)),
        }
        for name, value in wanted.items():
            with self.subTest(name):
                self.assertEqual(files.packed(name, self.BITS), {"count": 42, name: value})
        self.assertEqual(bits.of_digits("817f02aacc4", 42), self.BITS)

    def test_nothing(self) -> None:
        for name, value in {"hex": "", "octets": [], "lsb": [], "le32": [], "bits": []}.items():
            self.assertEqual(files.packed(name, ""), {"count": 0, name: value})

    def test_the_tool_writes_each(self) -> None:
        files = shared.options(shared.INPUTS)
        for name, value in {"hex": "102103", "octets": [16, 33, 3], "lsb": [8, 132, 192], "le32": ["0x032110"]}.items():
            with self.subTest(name):
                output = shared.made("vectors", "one", *files, "--rv=0", "--g=24", f"--pack={name}")
                self.assertEqual(json.loads(output)["sent"], {"count": 24, name: value})


class Near(unittest.TestCase):
    """The sizes that can be cut, worked out by hand from 5.2.2."""

    def sizes(self, wanted: int, rate: int = 2048) -> dict[str, int]:
        """By `exact`, `below` and `above` the size, as `near` names it."""
        lines = near.near(rate, wanted)
        return {line.split()[0]: program.plan_of("block 1 " + line.partition(" ")[2])["a"] for line in lines}

    def test_base_graph_1(self) -> None:
        # Three code blocks: B, a multiple of 8 as A is, must be a multiple of 24, and is A + 24.
        self.assertEqual(self.sizes(20000), {"below": 19992, "above": 20016})
        self.assertEqual(self.sizes(19992), {"exact": 19992, "below": 19968, "above": 20016})
        # Up to 8448 bits with the CRC there is one code block.
        self.assertEqual(self.sizes(8424), {"exact": 8424, "below": 8416, "above": 8432})

    def test_base_graph_2(self) -> None:
        # At the rate 0.25: B above 3840 has two code blocks, and every whole octet can be halved.
        self.assertEqual(self.sizes(3816, 512), {"exact": 3816, "below": 3808, "above": 3824})
        # Three code blocks: B from 7633 to 11448.
        self.assertEqual(self.sizes(8001, 512), {"below": 7992, "above": 8016})

    def test_ends(self) -> None:
        self.assertEqual(self.sizes(3), {"above": 8})
        self.assertEqual(self.sizes(8), {"exact": 8, "above": 16})

    def test_tool(self) -> None:
        lines = shared.made("vectors", "near", "20000").splitlines()
        self.assertEqual([line.split()[:3] for line in lines], [["below", "a", "19992"], ["above", "a", "20016"]])
        said = "tools/vectors: a size must be 1 to 1310720 bits, and not 0\n"
        self.assertEqual(shared.refused("vectors", "near", "0"), said)
