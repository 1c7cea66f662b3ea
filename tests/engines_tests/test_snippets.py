"""Every command of docs/curves.md, as it stands there, over a smaller curve and with Slurm, ssh and dask of this machine."""

from __future__ import annotations

import os
import re
import subprocess
import sys

import curve_files
import dask_here
import documents
import hosts_here
import shared
import slurm_here
from runs import skip_without

PAGE = shared.ROOT / "docs" / "curves.md"
BLOCKS = re.compile(r"```sh\n(.*?)```", re.DOTALL)

# In place of the example's: of so many places more than K' arrive seldom at 0.27, so that rounds fail there.
RULE = {"rounds": 20, "points": [0.24, 0.27], "step": 0, "width": 0.5, "lowest": 0.1, "chunks": 4}
CONF = curve_files.text_of("drawn.csv", curve_files.LONG, {"g": 5280, "rvs": [0, 2], "seed": 1}, RULE)


class Snippets(shared.InFolder):
    @classmethod
    def setUpClass(cls) -> None:
        skip_without([*slurm_here.PROGRAMS, *hosts_here.PROGRAMS, *dask_here.PROGRAMS])
        shared.needs_matplotlib()
        cls.cluster, cls.hosts = slurm_here.Cluster(), hosts_here.Hosts()
        cls.addClassCleanup(cls.cluster.close)
        cls.addClassCleanup(cls.hosts.close)
        cls.scheduler = dask_here.Scheduler(2)
        cls.addClassCleanup(cls.scheduler.close)

    cluster: slurm_here.Cluster
    hosts: hosts_here.Hosts
    scheduler: dask_here.Scheduler

    def test_every_command(self) -> None:
        blocks = BLOCKS.findall(PAGE.read_text())
        self.assertEqual(len(blocks), 8)
        folder = documents.top(self.folder / "top")
        (folder / "c").symlink_to(shared.ROOT / "c")
        (folder / "examples" / "curve.toml").write_text(CONF)
        environment = {**self.hosts.environment, **self.cluster.environment}
        # The tools are run by the Python of these tests, which has numpy.
        environment["PATH"] = os.pathsep.join([os.path.dirname(sys.executable), environment["PATH"]])
        environment["PARALLEL_SSH"] = self.hosts.environment["PARALLEL_SSH"]
        environment["PARALLEL_HOME"] = self.hosts.environment["PARALLEL_HOME"]
        for block in blocks:
            # This machine has two processors a node, and its scheduler another address; and it is waited for the job.
            text = block.replace("sbatch -c 64", "sbatch --wait -c 2").replace("--jobs 64", "--jobs 2")
            text = text.replace("dask:scheduler.example:8786", f"dask:{self.scheduler.address}")
            # Each run makes its results itself.
            text = re.sub(r"(?m)^(.*tools/curve run examples)", r"rm -f curve.csv; \1", text)
            ended = subprocess.run(
                ["bash", "-e", "-c", text], cwd=folder, env=environment, capture_output=True, text=True,
                timeout=shared.SECONDS,
            )
            with self.subTest(block):
                self.assertEqual(ended.returncode, 0, ended.stderr)
            if "tools/curve run" in block:
                self.assertGreater((folder / "curve.csv").read_text().count("\n"), 2, ended.stderr)
        self.assertGreater((folder / "curve.html").stat().st_size, 10_000)
        self.assertGreater((folder / "harq.svg").stat().st_size, 5_000)
