"""The library for processors of level x86-64-v3 gives what the one for every processor gives, and is chosen where it can run."""

from __future__ import annotations

import os
import pathlib
import shutil
import subprocess
import sys
import unittest

import archive as making
import clib

# Rounds, rows and bits of both base graphs, of one and several code blocks and words, hashed.
DRAWN = """
import hashlib, nr
digest, table = hashlib.sha256(), nr.Table.practice()
for a, g, p in ((24, 60, 0.3), (320, 700, 0.4), (3840, 7200, 0.27), (8424, 20000, 0.4), (20496, 42000, 0.3)):
    txs = [nr.Tx(g, rv=rv, qm=2) for rv in (0, 2, 3)]
    found = nr.simulate(table, a, txs, p=p, rounds=192, seed=a, rate2048=1365)
    for field in (found.after, found.left, found.erased):
        digest.update(memoryview(field).tobytes())
    block = bytes(i * 37 % 256 for i in range(a // 8))
    sent = [bytes(nr.send(table, block, tx, rate2048=1365)) for tx in txs]
    digest.update(b"".join(sent))
    lost = [bytes(2 if i % 5 == 0 else bit for i, bit in enumerate(bits)) for bits in sent]
    got = nr.receive(table, a, list(zip(txs, lost)), rate2048=1365)
    digest.update(repr((list(got.outcomes), list(got.left))).encode() + bytes(got.block or b""))
print(nr.library_path().parent.name, nr.library_base().parent.name, digest.hexdigest())
"""


class Levels(unittest.TestCase):
    """The libraries as `make -C c` puts them, by the Python module beside them."""

    top: pathlib.Path

    @classmethod
    def setUpClass(cls) -> None:
        if not making.FASTER.exists():
            raise unittest.SkipTest("there is no archive for x86-64-v3")
        cls.top = clib.FOLDER / "levels"
        # The module looks for the library in out/ beside its folder.
        shutil.copytree(clib.C / "nr", cls.top / "nr", ignore=shutil.ignore_patterns("__pycache__"))
        (cls.top / "nr" / "practice.csv").write_bytes(clib.DRAWN.read_bytes() + clib.PRACTICE.read_bytes())
        places = [f"NR_C={clib.archive()}", f"NR_C_V3={making.FASTER}", f"OUT={cls.top / 'out'}"]
        clib.done(["make", "-s", "-C", clib.C, *places, "all"])

    def said(self, **environment: str) -> list[str]:
        """The folder of the loaded library, that of the one for every processor, and what comes of the calls."""
        words = [sys.executable, "-c", DRAWN]
        kept = {name: value for name, value in os.environ.items() if name not in ("NR_LIBRARY", "NR_CPU")}
        return clib.done(words, environment={**kept, "PYTHONPATH": str(self.top), **environment}).decode().split()

    def test_same(self) -> None:
        """Both libraries give the same octets, and NR_CPU names the one that is loaded."""
        usual = self.said(NR_CPU="x86-64-v2")
        self.assertEqual(usual[:2], ["out", "out"])
        flags = pathlib.Path("/proc/cpuinfo").read_text()
        if " avx2 " not in flags or " fma " not in flags:
            self.skipTest("this processor is below x86-64-v3")
        faster = self.said(NR_CPU="x86-64-v3")
        self.assertEqual(faster, ["x86-64-v3", "out", usual[2]])
        self.assertEqual(self.said(), faster)

    def test_other_level(self) -> None:
        words = [sys.executable, "-c", "import nr"]
        environment = {**os.environ, "PYTHONPATH": str(self.top), "NR_CPU": "x86-64-v9"}
        environment.pop("NR_LIBRARY", None)
        ended = subprocess.run(words, env=environment, stderr=subprocess.PIPE, text=True, check=False)
        self.assertIn("NR_CPU is x86-64-v2 or x86-64-v3, and not 'x86-64-v9'", ended.stderr)
