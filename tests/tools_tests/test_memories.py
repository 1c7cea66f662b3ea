"""Vectors in folders: memory files by code block, many vectors at once, and shift tables as ROMs. tests/rtl reads such files in
simulators; this reads them by itself."""

from __future__ import annotations

import hashlib
import json
import os
import pathlib
import re
import shutil
import sys
import typing

import conform_shared
import shared
from linksim_tools.common.graphs import GRAPHS
from linksim_tools.rtl import draw

TABLE = shared.INPUTS["table"]
# The settings and the blocks of the examples.
LINK = shared.options({name: shared.INPUTS[name] for name in ("settings", "blocks")})
# The lifting sizes of Table 5.3.2-1 by their set index: a factor, times powers of two.
FACTORS = (2, 3, 5, 7, 9, 11, 13, 15)


setUpModule = shared.needs_tomllib


def command_of(words: typing.Sequence[object]) -> str:
    """The command that takes these options."""
    return "many" if any(str(word).startswith(("--count", "--cases")) for word in words) else "one"


class Folders(shared.InFolder):
    """What tools/vectors writes into a folder."""

    def vectors(self, name: str, *words: object, table: pathlib.Path = TABLE) -> pathlib.Path:
        """The folder that the tool made."""
        place = pathlib.Path(self.folder) / name
        self.assertEqual(shared.tool("vectors", command_of(words), "--table", table, "--out", place, *words)[:2], (0, ""))
        return place

    def manifest(self, place: pathlib.Path) -> dict[str, typing.Any]:
        found: dict[str, typing.Any] = json.loads((place / "manifest.json").read_text())
        return found

    def test_drawn_vectors(self) -> None:
        """The same seed draws the same, a number alone too; and each is what the tool writes of that transmission."""
        place = self.vectors("five", "--count", 5, "--seed", 3)
        again = self.vectors("again", "--count", 5, "--seed", 3)
        other = self.vectors("other", "--count", 5, "--seed", 4)
        names = sorted(path.name for path in place.iterdir())
        self.assertEqual(names, [*(f"drawn-3-{number}.json" for number in range(5)), "manifest.json"])
        for name in names:
            self.assertEqual((place / name).read_bytes(), (again / name).read_bytes())
        self.assertNotEqual((place / names[0]).read_text(), (other / "drawn-4-0.json").read_text())
        vector = json.loads((place / "drawn-3-4.json").read_text())
        case = draw.drawn(3, 4, {2})
        self.assertEqual((vector["rate2048"], vector["transmission"]["g"]), (case.rate2048, case.g))
        settings = f"rate2048 = {case.rate2048}\n" + (f"lbrm = {case.lbrm}\n" if case.lbrm else "")
        words = [f"--{name}={getattr(case, name)}" for name in ("rv", "g", "qm", "nl", "mask")]
        files = ["--settings", self.file("settings.toml", settings), "--blocks", self.file("block.txt", vector["a"]["hex"] + "\n")]
        alone = json.loads(shared.made("vectors", "one", "--table", TABLE, *files, *words))
        self.assertEqual(alone, {name: value for name, value in vector.items() if name not in ("id", "covers")})

    def test_plain_lines(self) -> None:
        """The lines of `tools/conform plain` are vectors too."""
        line = "id mine rate2048 512 lbrm - rv 1 g 1204 qm 4 nl 1 mask 101 a " + "5a" * 957
        place = self.vectors("mine", "--cases", self.file("cases.txt", line + "\n\n"))
        vector = json.loads((place / "mine.json").read_text())
        self.assertEqual([part["E"] for part in vector["codeblocks"]], [600, 0, 604])
        self.assertEqual(vector["transmission"]["mask"], "0 2")

    def test_memories_of_one(self) -> None:
        """The vector of one transmission as memory files, by hand: 011021 and what is sent of it."""
        place = self.vectors("one", *LINK, "--rv=0", "--g=24", "--form=mem", "--width=8", "--first=msb")
        self.assertEqual((place / "block-1" / "attached.mem").read_text().split(), ["01", "10", "21"])
        self.assertEqual((place / "block-1" / "sent.mem").read_text().split(), ["10", "21", "03"])
        care = (place / "block-1" / "d_0_care.mem").read_text().split()
        self.assertEqual(care, ["ff"] * 2 + ["00"] * 2 + ["ff"] * 21)
        case, = self.manifest(place)["cases"]
        self.assertEqual(case["codeblocks"], [{"r": 0, "kdash": 24, "z": 4, "set": 0, "power": 1, "E": 24, "k0": 0, "Ncb": 200}])
        self.assertEqual(case["files"]["d_0"]["bits"], 200)
        axis = self.vectors("axis", *LINK, "--rv=0", "--g=21", "--form=axis", "--width=16", "--first=lsb")
        # tlast, tkeep of two octets, tdata: 1021 and 03, of which five bits are sent.
        self.assertEqual((axis / "block-1" / "sent.axis.mem").read_text().split(), ["38408", "50000"])

    def keys_of(self, path: pathlib.Path) -> dict[str, str]:
        """The keys of a file of test-bbdev, with their values."""
        parts = path.read_text().strip().split("\n\n")
        return {name: " ".join(value.split()) for name, value in (part.split(" =\n") for part in parts)}

    def test_bbdev_of_one(self) -> None:
        """The file of one code block, by hand: 011021, of which 102103 is sent."""
        place = self.vectors("bb", *LINK, "--rv=0", "--g=24", "--form=bbdev")
        self.assertEqual(self.keys_of(place / "block-1_0.data"), {
            "op_type": "RTE_BBDEV_OP_LDPC_ENC", "input0": "0x211001", "output0": "0x032110", "basegraph": "2", "z_c": "4",
            "n_cb": "200", "q_m": "1", "n_filler": "16", "e": "24", "rv_index": "0", "code_block_mode": "1",
            "op_flags": "RTE_BBDEV_LDPC_RATE_MATCH", "expected_status": "OK",
        })

    def test_bbdev_of_a_suite(self) -> None:
        """Files of a suite's code blocks, which DPDK's own reader takes; it refuses one that lacks a number."""
        suite = self.file("suite.jsonl", shared.tool("conform", "suite", "--table", TABLE)[1])
        place = self.folder / "data"
        self.assertEqual(shared.tool("conform", "export", suite, "--out", place, "--form", "bbdev", with_program=False)[0], 0)
        cases = {it["id"]: it for it in map(json.loads, suite.read_text().splitlines()[1:])}
        files = sorted(place.glob("*.data"))
        wanted = {f"{name}_{part['r']}.data" for name, it in cases.items() for part in it["codeblocks"] if part["E"]}
        self.assertEqual({path.name for path in files} | set(self.manifest(place)["no_whole_octets"]), wanted)
        several = [path for path in files if "CRC_24B" in path.read_text()]
        self.assertTrue(several)
        if not shutil.which("dpdk-test-bbdev"):
            self.skipTest("no dpdk-test-bbdev")
        wrong = self.file("wrong.data", files[0].read_text().replace("z_c =", "zc ="))
        for path in [wrong, *files[:: len(files) // 6], several[0]]:
            options = "--no-huge -m 256 --no-pci --no-telemetry --vdev=baseband_null -- -n 32 -b 32 -l 1 -c validation -v".split()
            _, output, error = shared.run(["dpdk-test-bbdev", "--file-prefix", f"nr{os.getpid()}", *options, path])
            said = (output + error).decode()
            # No device of Debian's encodes: what was read is then skipped.
            with self.subTest(path.name):
                self.assertEqual("does not support specified capabilities" in said, path != wrong, said)

    def test_provenance(self) -> None:
        """Vectors and manifests say what made them, and the manifest has the digest of each file."""
        place = self.vectors("made", "--count", 2, "--form", "mem")
        manifest = self.manifest(place)
        made = manifest["made"]
        fingerprint = shared.tool("table", "fingerprint", "--table", TABLE)[1].splitlines()
        self.assertEqual((made["fingerprint"], made["table_sha256"]), (fingerprint, hashlib.sha256(TABLE.read_bytes()).hexdigest()))
        self.assertEqual(made["tools"], (shared.ROOT / "VERSION").read_text().strip())
        told = {it["file"]: it["sha256"] for case in manifest["cases"] for it in case["files"].values()} | manifest["run"]
        told |= {it["care"]: it["care_sha256"] for case in manifest["cases"] for it in case["files"].values() if "care" in it}
        files = {str(path.relative_to(place)): path for path in place.glob("**/*") if path.is_file()}
        del files["manifest.json"]
        self.assertEqual(told, {name: hashlib.sha256(path.read_bytes()).hexdigest() for name, path in files.items()})

    def test_a_run(self) -> None:
        """The records of the run stand beside its beats, and their numbers are those of the manifest."""
        place = self.vectors("run", "--count", 12, "--form", "mem", "--width", 64)
        manifest = self.manifest(place)
        sizes = {name: int(value) for name, value in re.findall(r"localparam (\w+) = (\d+);", (place / "sizes.svh").read_text())}
        records = []
        for line in (place / "control.mem").read_text().split():
            numbers = [int(line[at : at + 8], 16) for at in range(0, len(line), 8)]
            records.append(dict(zip(manifest["control"], numbers)))
        self.assertEqual(sizes["NR_FIELDS"], len(manifest["control"]))
        self.assertEqual(sum(it["beats_in"] for it in records), sizes["NR_BEATS_IN"])
        beats = (place / "expected.mem").read_text().split()
        self.assertEqual((len(records), len(beats)), (sizes["NR_BLOCKS"], sizes["NR_BEATS_OUT"]))
        at = 0
        for record in records:
            case = manifest["cases"][record["case"]]
            part = case["codeblocks"][record["r"]]
            self.assertEqual((record["e"], record["k0"], record["ncb"]), (part["E"], part["k0"], part["Ncb"]))
            self.assertEqual(record["z"], FACTORS[record["set"]] << record["power"])
            f = (place / case["files"][f"f_{record['r']}"]["file"]).read_text().split()
            self.assertEqual(beats[at : at + record["beats_out"]], f)
            at += record["beats_out"]

    def refused(self, status: int, said: str, *words: object, table: object = TABLE) -> None:
        """The tool ends so, with one line that has this, and leaves nothing."""
        before = sorted(path.name for path in pathlib.Path(self.folder).iterdir())
        self.assertIn(said, shared.refused("vectors", command_of(words), "--table", table, *words, status=status))
        self.assertEqual(sorted(path.name for path in pathlib.Path(self.folder).iterdir()), before)

    def test_refusals(self) -> None:
        place = pathlib.Path(self.folder) / "new"
        line = "id x rate2048 2048 lbrm - rv 0 g 24 qm 1 nl 1 mask all a 01\n"
        self.refused(2, "--width must be 1 to 512, and not 0", "--count=1", "--form=mem", "--width=0", "--out", place)
        self.refused(2, "--width must be 1 to 512, and not 513", "--count=1", "--form=mem", "--width=513", "--out", place)
        self.refused(2, "--count must be 1 or more, and not 0", "--count=0", "--out", place)
        self.refused(1, "cannot be written", "--count=1", "--out", place / "below")
        self.refused(1, "exists and is not empty", "--count=1", "--out", self.file("file", ""))
        self.refused(1, "exists and is not empty", "--count=1", "--out", self.folder)
        self.refused(1, "the library rejects it: Rv", *LINK, "--rv=4", "--g=24", "--out", place)
        self.refused(1, "/nowhere cannot be read", "--count=1", "--out", place, table="/nowhere")
        self.refused(1, "table Fields", "--count=1", "--out", place, table=self.file("none.csv", "1,2\n3\n"))
        for status, wrong, said in (
            (1, line.replace("g 24", "g x"), "line 1: g is not a number"), (1, line.replace(" a 01", ""), "line 1: a is not there"),
            (1, line * 2, "line 2: a case before it is x too"), (1, "", "has no case"),
            (1, line.replace("id x", "id ../x"), "../x: an id that names a file may have only letters"),
            (1, line.replace("g 24", "g 23").replace("qm 1", "qm 2"), "case x: the library rejects it: Ragged"),
            (1, "id x rate2048 512 lbrm - rv 0 g 24 qm 1 nl 1 mask all a " + "00" * 955, "cannot be cut; tools/vectors near"),
        ):
            self.refused(status, said, "--cases", self.file("cases.txt", wrong), "--out", place)
        found = shared.tool("vectors", "many", "--table", TABLE, "--count=1")
        self.assertTrue(found[:2] == (2, "") and "--out" in found[2], found)


class Export(shared.InFolder):
    """tools/conform export."""

    def test_a_suite(self) -> None:
        """Every case of a suite has its folder, with as many bits as the suite says, and the run has every code block. It needs
        no program: here the tools stand by themselves, and none is in PATH."""
        place, tools = pathlib.Path(self.folder) / "all", pathlib.Path(self.folder) / "tools"
        shutil.copytree(shared.TOOLS, tools)
        words = [sys.executable, tools / "conform", "export", conform_shared.suite_path(), "--out", place]
        status, output, said = shared.run(words, environment={"PATH": "/nowhere"})
        error = said.decode()
        self.assertEqual((status, output), (0, b""))
        manifest = json.loads((place / "manifest.json").read_text())
        head = json.loads(conform_shared.suite_path().read_text().splitlines()[0])
        self.assertEqual(manifest["made"]["fingerprint"], head["made"]["fingerprint"])
        suite = conform_shared.lines()
        self.assertEqual([case["id"] for case in manifest["cases"]], list(suite))
        blocks = 0
        for case in manifest["cases"]:
            right = suite[case["id"]]
            blocks += sum(part["E"] > 0 for part in right["codeblocks"])
            self.assertEqual((case["covers"], case["plan"]), (right["covers"], right["plan"]))
            self.assertEqual(case["files"]["sent"]["bits"], right["sent"]["count"])
            self.assertEqual({name for name in case["files"] if name[:2] == "f_"},
                             {f"f_{part['r']}" for part in right["codeblocks"] if part["E"]})
        self.assertIn(f"localparam NR_BLOCKS = {blocks};\n", (place / "sizes.svh").read_text())
        self.assertIn(f"{len(suite)} cases, {blocks} code blocks\n", error)

    def test_refusals(self) -> None:
        for words, said in (
            ((self.file("none.jsonl", "{}\n"), "--out=new"), "is not a suite"),
            ((conform_shared.suite_path(), f"--out={pathlib.Path(self.folder) / 'a' / 'b'}"), "cannot be written"),
        ):
            self.assertIn(said, conform_shared.refused("export", *words))


class Rom(shared.InFolder):
    """tools/table rom."""

    def test_forms(self) -> None:
        """The words of all forms are the same."""
        mem = [line for line in shared.made("table", "rom", "--table", TABLE).splitlines() if not line.startswith("//")]
        coe = shared.made("table", "rom", "--form=coe", "--table", TABLE)
        self.assertIn("memory_initialization_radix=16;\nmemory_initialization_vector=\n", coe)
        self.assertEqual(re.findall(r"(?m)^([0-9a-f]{5})[,;]$", coe), mem)
        self.assertTrue(coe.endswith(";\n") and coe.count(";\n") == 2)
        mif = shared.made("table", "rom", "--form=mif", "--table", TABLE)
        self.assertIn(f"WIDTH=17;\nDEPTH={len(mem)};\nADDRESS_RADIX=HEX;\nDATA_RADIX=HEX;\nCONTENT BEGIN\n0 : {mem[0]};\n", mif)
        self.assertEqual(re.findall(r"(?m)^[0-9a-f]+ : ([0-9a-f]{5});$", mif), mem)

    def test_reduced(self) -> None:
        """Words of a lifting size have P = V mod Zc, as they stand in the table."""
        text = shared.made("table", "rom", "--z=4,208", "--table", TABLE)
        words = [int(line, 16) for line in text.splitlines() if not line.startswith("//")]
        rows = sorted([int(field) for field in line.split(",")] for line in TABLE.read_text().split())
        self.assertEqual(len(words), 4 * 512)
        for at, (z, index) in ((1024, (4, 0)), (1536, (208, 6))):
            found = [(word >> 9 & 127, word & 511) for word in words[at : at + len(rows)]]
            self.assertEqual(found, [(row[2], row[3 + index] % z) for row in rows])
        headed = self.file("headed.csv", f"graph,{'x' * 140_000}{',y' * 9}\n{TABLE.read_text()}")
        self.assertEqual(shared.made("table", "rom", "--z=4,208", "--table", headed), text)
        # The table lacks base graph 1.
        self.assertEqual(set(words[:1024]), {1 << 16})
        self.assertEqual(sum(word >> 16 for word in words[1024:1536]), GRAPHS[2].rows + 512 - len(rows))

    def test_refusals(self) -> None:
        self.assertIn("17 is not a lifting size", shared.refused("table", "rom", "--z=17", "--table", TABLE, status=2))
        greater = self.file("greater.csv", TABLE.read_text().replace("2,0,2,0,", "2,0,2,512,", 1))
        self.assertIn("the value 512, and a word has 9 bits", shared.refused("table", "rom", "--table", greater))
        one, two = (shared.made("table", "rom", "--z=4", "--table", it) for it in (greater, TABLE))
        self.assertEqual(one, two)
        self.assertIn("name a file", shared.refused("table", "rom", "--table", "-"))
        self.assertIn("/nowhere cannot be read: No such file or directory", shared.refused("table", "rom", "--table", "/nowhere"))
