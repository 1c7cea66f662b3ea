"""dask: a scheduler with two workers."""

from __future__ import annotations

import os
import sys
import unittest.mock

from dask_here import PROGRAMS, Scheduler
from ports import free_ports
from runs import Running, kill, skip_without


class Dask(Running):
    @classmethod
    def setUpClass(cls) -> None:
        skip_without(PROGRAMS)

    def scheduler(self, workers: int) -> Scheduler:
        found = Scheduler(workers)
        self.addCleanup(found.close)
        return found

    def test_a_worker_that_is_killed(self) -> None:
        found = self.scheduler(2)
        with self.begun(3, "--engine", f"dask:{found.address}", "--batch", 0.1) as child:
            kill(found.workers[0].pid)
            status, said = self.ended(child)
            self.assertEqual(status, 0, said)
        self.assert_same()
        # The driver is killed, and the same command goes on with the worker that is left.
        self.out.unlink()
        with self.begun(3, "--engine", f"dask:{found.address}", "--batch", 0.1) as child:
            kill(child.pid)
        self.run_whole("--engine", f"dask:{found.address}")

    def test_a_call_that_fails(self) -> None:
        """It is made again twice. The Python of its worker fails at the first two calls."""
        calls = self.folder / "calls"
        text = f'#!/bin/sh\necho >> {calls}\n[ $(wc -l < {calls}) -gt 2 ] || exit 1\nexec {sys.executable} "$@"\n'
        self.file("python3", text).chmod(0o755)
        with unittest.mock.patch.dict(os.environ, {"PATH": f"{self.folder}:{os.environ['PATH']}"}):
            found = self.scheduler(1)
        self.run_whole("--engine", f"dask:{found.address}")
        self.assertGreater(calls.read_text().count("\n"), 2)
        # What fails each time is told by its own words.
        self.out.unlink()
        self.file("python3", f"#!/bin/sh\necho >> {calls}\necho tools/curve: it has no Python >&2\nexit 1\n").chmod(0o755)
        calls.write_text("")
        self.assertIn("tools/curve: it has no Python\n", self.refused("--engine", f"dask:{found.address}"))
        self.assertGreater(calls.read_text().count("\n"), 2)

    def test_no_worker_and_no_scheduler(self) -> None:
        """Both are refused at once."""
        self.assertIn("has no worker", self.refused("--engine", f"dask:{self.scheduler(0).address}"))
        self.assertIn("no dask scheduler at", self.refused("--engine", f"dask:127.0.0.1:{free_ports(1)[0]}"))
