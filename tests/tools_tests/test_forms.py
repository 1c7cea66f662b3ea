"""What programs read: outcomes as JSON and CSV, vectors from options alone, as arrays, and as files of DPDK's test-bbdev for
decoders."""

from __future__ import annotations

import csv
import hashlib
import io
import json
import os
import pathlib
import random
import shutil
import subprocess
import sys
import typing
import unittest
import zipfile

import shared

TABLE = shared.INPUTS["table"]
Objects = typing.List[typing.Dict[str, typing.Any]]
# What a tool may need for a text of any length beyond what it needs for a short one, in KiB.
MORE = 8_000


class Outcomes(shared.InFolder):
    """The text of `run`, piped through tools/explain outcome."""

    def run_of(self, count: int) -> dict[str, object]:
        """The files of a run of so many transmissions of 200 blocks."""
        draw = random.Random(count)
        lines = ["block,rv,g,qm,nl,erase,flip,mask,process,fresh"]
        for number in range(count):
            rv = draw.choice([0, 1, 2, 3, 3, 4])
            lines.append(f"{number // 16 % 200 + 1},{rv},{draw.randint(8, 200)},1,1,0-{draw.randint(0, 40)},-,all,{number % 16},1")
        blocks = "".join(draw.randbytes(1 + number % 9).hex() + "\n" for number in range(200))
        return {"table": TABLE, "settings": shared.INPUTS["settings"], "blocks": self.file(f"blocks{count}", blocks),
                "schedule": self.file(f"schedule{count}", "\n".join(lines) + "\n")}

    def piped(self, files: dict[str, object], *words: str) -> tuple[str, int]:
        """What the tool writes of the run, and the most memory that it has."""
        with subprocess.Popen([shared.program(), "run", *shared.options(files)], stdout=subprocess.PIPE) as run:
            with subprocess.Popen([sys.executable, shared.TOOLS / "explain", "outcome", *words], stdin=run.stdout,
                                  stdout=subprocess.PIPE, text=True) as tool:
                assert run.stdout and tool.stdout
                run.stdout.close()
                output = tool.stdout.read()
                _, status, used = os.wait4(tool.pid, 0)
                tool.returncode = os.waitstatus_to_exitcode(status)
        self.assertEqual((tool.returncode, run.returncode), (0, 0))
        return output, used.ru_maxrss

    def test_sums(self) -> None:
        """4,096 transmissions add up to the total, in memory that does not grow with them."""
        files = self.run_of(4096)
        output, most = self.piped(files, "--json")
        told: Objects = [json.loads(line) for line in output.splitlines()]
        sent, rounds = ([it for it in told if it["kind"] == kind] for kind in ("transmission", "round"))
        self.assertEqual([it["transmission"] for it in sorted(sent, key=lambda it: int(it["transmission"]))], list(range(1, 4097)))
        counted = {name: sum(it["outcome"] == name for it in rounds) for name in ("delivered", "undecided", "inconsistent")}
        sums = {name: sum(it[name] for it in rounds) for name in ("codeblocks", "failed")}
        self.assertEqual(told[-1], {"kind": "total", "count": len(rounds), **counted, **sums})
        self.assertGreater(min(counted["delivered"], counted["undecided"], sum("error" in it for it in sent)), 100)
        records = list(csv.DictReader(io.StringIO(self.piped(files, "--csv")[0])))
        self.assertEqual(len(records), len(told))
        for it, record in zip(told, records):
            flat = {name: " ".join(map(str, value)) if name == "left" else str(value) for name, value in it.items()}
            self.assertEqual(flat, {name: value for name, value in record.items() if value})
        self.assertLess(most, self.piped(self.run_of(10), "--json")[1] + MORE)

    def test_sent(self) -> None:
        """The sent bits, of files that are named."""
        words = shared.options({**shared.INPUTS, "schedule": shared.EXAMPLES / "losses.csv"})
        told = [json.loads(line) for line in shared.made("explain", "outcome", "--json", "--sent", *words).splitlines()]
        self.assertEqual((told[0]["sent"], told[5]["payload"]), ("102103", "01"))
        self.assertNotIn("sent", shared.made("explain", "outcome", "--json", *words))

    def test_errors(self) -> None:
        status, _, error = shared.tool("explain", "outcome", "--json", stdin=b"sent 1 1 10\nleft 1 1 0 4\n")
        self.assertEqual((status, error.count("\n")), (1, 1))
        self.assertIn("ends before its last line", error)
        self.assertIn("line 1 is not one", shared.tool("explain", "outcome", "--csv", stdin=b"left 1 1 0 4\n")[2])
        words = shared.options({**shared.INPUTS, "schedule": TABLE})
        self.assertIn("refused: schedule Header", shared.tool("explain", "outcome", "--json", *words)[2])


class Vectors(shared.InFolder):
    """Vectors from options alone."""

    def one(self, *words: object) -> dict[str, typing.Any]:
        found: dict[str, typing.Any] = json.loads(shared.made("vectors", "one", "--table", TABLE, *words))
        return found

    def test_options(self) -> None:
        files = shared.options({name: shared.INPUTS[name] for name in ("settings", "blocks")})
        link = ["--rate", 2048, "--payload", "01"]
        self.assertEqual(self.one(*link, "--g", 24), self.one(*files, "--g", 24))
        self.assertEqual(self.one(*link, "--g", 24)["digest"], hashlib.sha256(bytes(map(int, f"{0x102103:024b}"))).hexdigest())
        alone = self.one(*link)
        self.assertEqual((alone["attached"]["hex"], sorted(alone["codeblocks"][0])), ("011021", ["bits", "d", "r"]))
        self.assertNotIn("transmission", alone)
        block = self.one("--graph", 2, "--z", 4, "--fillers", 16, "--payload", "011021", "--g", 24)
        self.assertEqual((block["d"], block["f"]["hex"]), (alone["codeblocks"][0]["d"], "102103"))

    def test_payload(self) -> None:
        self.assertEqual(self.one("--a", 16, "--payload", "ones")["a"]["hex"], "ffff")
        drawn = [self.one("--a", 800, "--rate", 512, "--seed", seed)["a"]["hex"] for seed in (1, 1, 2)]
        self.assertEqual((drawn[0] == drawn[1], drawn[1] == drawn[2]), (True, False))
        wrong: list[tuple[list[object], str]] = [
            (["--payload", "0"], "--payload is random, ones, or"), (["--payload", "random"], "--a is the size"),
            (["--a", 9], "the block"), (["--graph", 2, "--z", 17, "--payload", "ones"], "the code block"),
        ]
        for words, part in wrong:
            self.assertIn(part, shared.refused("vectors", "one", "--table", TABLE, *words))

    def test_arrays(self) -> None:
        """Octets of a bit each, and an archive of arrays, of the same vectors."""
        folders = {}
        for form in ("json", "dat", "npz"):
            folders[form] = self.folder / form
            words = ["--count", 3, "--payload", "random", "--form", form, "--out", folders[form]]
            self.assertEqual(shared.tool("vectors", "many", "--table", TABLE, *words)[0], 0)
        for number in range(3):
            name = f"drawn-1-{number}"
            vector = json.loads((folders["json"] / f"{name}.json").read_text())
            sent = (folders["dat"] / name / "sent.dat").read_bytes()
            self.assertEqual((hashlib.sha256(sent).hexdigest(), len(sent)), (vector["digest"], vector["sent"]["count"]))
            d = (folders["dat"] / name / "d_0.dat").read_bytes()
            self.assertEqual([None if it == 2 else it for it in d], vector["codeblocks"][0]["d"])
            with zipfile.ZipFile(folders["npz"] / f"{name}.npz") as archive:
                stages = {it[: -len(".npy")]: archive.read(it) for it in archive.namelist()}
            for stage, octets in stages.items():
                dat = (folders["dat"] / name / f"{stage}.dat").read_bytes()
                self.assertEqual((octets[:8], octets[10 + int.from_bytes(octets[8:10], "little") :]), (b"\x93NUMPY\x01\x00", dat))
        if shared.run(["/usr/bin/python3", "-c", "import numpy"])[0]:
            self.skipTest("numpy is not there")
        script = "import numpy, sys; it = numpy.load(sys.argv[1]); print(it['sent'].dtype, it['sent'].sum(), it['a'].shape)"
        said = shared.run(["/usr/bin/python3", "-c", script, folders["npz"] / "drawn-1-2.npz"])[1].decode()
        self.assertEqual(said.split()[:2], ["uint8", str(sum(sent))])


class Decoders(shared.InFolder):
    """Files of test-bbdev for decoders."""

    def keys_of(self, path: pathlib.Path) -> dict[str, str]:
        parts = path.read_text().strip().split("\n\n")
        return {name: " ".join(value.split()) for name, value in (part.split(" =\n") for part in parts)}

    def test_by_hand(self) -> None:
        """Code block 011021, of which 1021 and then 03 is sent with nothing erased: 16 for a 0, and -16 for a 1."""
        place = self.folder / "data"
        words = ["--payload", "01", "--g", 24, "--form", "bbdev", "--op", "ldpc_dec", "--rounds", "0,0", "--erased", 0]
        self.assertEqual(shared.tool("vectors", "one", "--table", TABLE, *words, "--out", place)[0], 0)
        first, second = (self.keys_of(place / f"block-1_0_round{number}.data") for number in (1, 2))
        values = [16 - 32 * int(bit) for bit in f"{0x102103:024b}"]
        octets = bytes(it % 256 for it in values)
        in_words = ", ".join("0x" + octets[at : at + 4][::-1].hex() for at in range(0, 24, 4))
        self.assertEqual((first["input0"], second["input0"], first["output0"]), (in_words, in_words, "0x211001"))
        self.assertNotIn("harq_input0", first)
        self.assertTrue(second["harq_input0"].startswith(in_words + ", 0x00000000"))
        # Ncb is 200, and 16 of these are fillers.
        self.assertEqual(second["harq_input0"].count("0x"), 184 // 4)
        self.assertEqual((first["e"], first["n_cb"], first["n_filler"], first["expected_status"]), ("24", "200", "16", "SYN"))
        manifest = json.loads((place / "manifest.json").read_text())
        self.assertEqual({name: it["left"] for name, it in manifest["files"].items()},
                         {"block-1_0_round1.data": 4, "block-1_0_round2.data": 4})

    def test_read_by_dpdk(self) -> None:
        """DPDK's reader takes the files, and refuses one that lacks a number; recovered and stuck code blocks are among them."""
        place = self.folder / "many"
        words = ["--count", 12, "--payload", "random", "--form", "bbdev", "--op", "ldpc_dec", "--rounds", "0,2,3", "--erased", 0.1]
        self.assertEqual(shared.tool("vectors", "many", "--table", TABLE, *words, "--out", place)[0], 0)
        files = json.loads((place / "manifest.json").read_text())["files"]
        kinds = {self.keys_of(place / name)["expected_status"]: place / name for name in files}
        self.assertLessEqual({"OK", "SYN"}, set(kinds))
        for name, it in files.items():
            self.assertEqual(self.keys_of(place / name)["expected_status"] == "OK", it["left"] == 0)
        if not shutil.which("dpdk-test-bbdev"):
            self.skipTest("no dpdk-test-bbdev")
        later = next(place / name for name in files if name.endswith("round2.data"))
        wrong = self.file("wrong.data", later.read_text().replace("z_c =", "zc ="))
        for path in {wrong, later, *kinds.values()}:
            options = "--no-huge -m 256 --no-pci --no-telemetry --vdev=baseband_null -- -n 32 -b 32 -l 1 -c validation -v".split()
            _, output, error = shared.run(["dpdk-test-bbdev", "--file-prefix", f"nr{os.getpid()}", *options, path])
            said = (output + error).decode()
            with self.subTest(path.name):
                self.assertEqual("does not support specified capabilities" in said, path != wrong, said)


if __name__ == "__main__":
    unittest.main()
