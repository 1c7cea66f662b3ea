"""The example's curve is the same to the octet by whatever makes it, however many at a time, and after KILLS (2) kills of a run."""

from __future__ import annotations

import os
import random
import re
import time
import typing

import dask_here
import hosts_here
import shared
import slurm_here
from runs import Running, kill, skip_without

# How often a run is killed, before so many chunks are there.
KILLS, BEFORE = int(os.environ.get("KILLS", "2")), 40

# So many rounds a chunk, and so wide an interval, are enough to plan waves of several sizes.
SMALLER = {"rounds": "200", "chunks": "1000", "width": "0.5", "lowest": "1e-2", "wave": "16"}


class Same(Running):
    def setUp(self) -> None:
        super().setUp()
        text = (shared.EXAMPLES / "curve.toml").read_text().replace("drawn.csv", "table.csv")
        for key, value in SMALLER.items():
            text = re.sub(rf"(?m)^{key} = .*\n|\Z", "", text, count=1) + f"{key} = {value}\n"
        self.conf = self.file("c.toml", text)

    def made(self, *words: object, environment: typing.Mapping[str, str] | None = None, kills: int = 0) -> bytes:
        """The file of a run; of one that is killed so often at drawn moments, sometimes after a process of it, and begun again."""
        drawn = random.Random(f"{words[:2]} {kills}")
        for lines in sorted(drawn.sample(range(BEFORE), kills)):
            with self.begun(lines, *words, environment=environment) as child:
                time.sleep(0.3 * drawn.random())
                below = slurm_here.steps_below(child.pid)
                if below and drawn.random() < 0.5:
                    kill(drawn.choice(below))
                    time.sleep(0.3 * drawn.random())
                kill(child.pid)
        status, said = self.told(*words, environment=environment)
        self.assertEqual(status, 0, said)
        found = self.out.read_bytes()
        self.out.unlink()
        return found

    def test_engines(self) -> None:
        wanted = self.made("--jobs", 1)
        self.assertGreater(wanted.count(b"\n"), BEFORE)
        self.assertEqual(self.made("--jobs", 3, kills=KILLS), wanted)
        engines = (slurm_here.PROGRAMS, self.slurm), (hosts_here.PROGRAMS, self.ssh), (dask_here.PROGRAMS, self.dask)
        for programs, start in engines:
            with self.subTest(start.__name__):
                skip_without(programs)
                started, environment, words = start()
                try:
                    self.assertEqual(self.made(*words, environment=environment, kills=KILLS), wanted)
                finally:
                    started.close()

    def slurm(self) -> tuple[typing.Any, typing.Mapping[str, str], list[object]]:
        found = slurm_here.Cluster()
        return found, found.environment, ["--engine", "slurm", "--jobs", 5, "--batch", 0.5]

    def ssh(self) -> tuple[typing.Any, typing.Mapping[str, str], list[object]]:
        found = hosts_here.Hosts()
        return found, found.environment, ["--engine", "ssh:2/one.example,1/two.example", "--batch", 0.5]

    def dask(self) -> tuple[typing.Any, typing.Mapping[str, str], list[object]]:
        found = dask_here.Scheduler(2)
        return found, os.environ, ["--engine", f"dask:{found.address}", "--batch", 0.5]
