"""The archive that LLVM compiles and the one that Rattle's own compiler makes of the same sources: a million drawn calls return and
write the same."""

from __future__ import annotations

import re
import subprocess

import archive as making
import clib
import test_programs

CALLS = 1_000_000


class Compilers(test_programs.Compiled):
    """drawn.c over each archive."""

    def test_drawn_calls(self) -> None:
        if not making.made_beside(making.BY_RATTLE, backend="rattle"):
            self.skipTest("no archive by Rattle's own compiler: the libraries of the crates below nr_c are not at hand")
        runs = []
        for archive in (clib.archive(), making.BY_RATTLE):
            program = self.compiled("drawn.c", "-std=c11", ending=(archive, clib.allocator())).rename(self.folder / archive.stem)
            runs.append(subprocess.Popen([program, self.both_graphs(), str(CALLS)], stdout=subprocess.PIPE, text=True))
            self.addCleanup(runs[-1].kill)
        by_llvm, by_rattle = (run.communicate()[0].splitlines() for run in runs)
        self.assertEqual([run.returncode for run in runs], [0, 0])
        self.assertEqual(by_llvm, by_rattle)
        counts = {line.split()[0]: [int(it) for it in line.split()[1:3]] for line in by_llvm}
        exports = set(re.findall(r"^ +(nr_\w+);$", (clib.C / "nr.map").read_text(), re.MULTILINE))
        self.assertEqual(set(counts), exports - {"nr_fault_name", "nr_version"})
        self.assertGreaterEqual(sum(called for called, _ in counts.values()), CALLS)
        for name, (called, right) in counts.items():
            self.assertGreater(2 * right, called, f"{name} is refused most times")
