"""A dask scheduler on this machine, with workers."""

from __future__ import annotations

import pathlib
import shutil
import subprocess
import tempfile
import time

from ports import free_ports, wait_for

PROGRAMS = ("dask-scheduler", "dask-worker")


class Scheduler:
    """The scheduler, and its workers by number."""

    def __init__(self, workers: int) -> None:
        self.folder = pathlib.Path(tempfile.mkdtemp(prefix="linksim-dask-"))
        self.children: list[subprocess.Popen[bytes]] = []
        port = free_ports(1)[0]
        self.address = f"127.0.0.1:{port}"
        self.start("dask-scheduler", "--host", "127.0.0.1", "--port", str(port), "--no-dashboard")
        wait_for(port)
        self.workers = [self.start_worker(number) for number in range(workers)]
        self.wait_for_workers()

    def start(self, *words: str) -> subprocess.Popen[bytes]:
        """A daemon."""
        with open(self.folder / f"said-{len(self.children)}", "wb") as said:
            child = subprocess.Popen(words, stdout=said, stderr=said, cwd=self.folder)
        self.children.append(child)
        return child

    def start_worker(self, number: int) -> subprocess.Popen[bytes]:
        """A worker with a thread, which has another current folder than a run."""
        folder = self.folder / f"worker-{number}"
        folder.mkdir()
        options = ["--nthreads", "1", "--no-nanny", "--no-dashboard", "--local-directory", str(folder)]
        return self.start("dask-worker", self.address, *options)

    def wait_for_workers(self, seconds: float = 180) -> None:
        """Waits until the scheduler knows all workers, as each then says."""
        end = time.monotonic() + seconds
        for number in range(1, len(self.children)):
            said = self.folder / f"said-{number}"
            while "Registered to" not in said.read_text(errors="replace"):
                if time.monotonic() > end:
                    raise AssertionError(f"a worker of dask does not begin: {said.read_text(errors='replace')[-2000:]}")
                time.sleep(0.05)

    def close(self) -> None:
        """Ends all of them."""
        for child in reversed(self.children):
            child.kill()
            child.wait()
        shutil.rmtree(self.folder, ignore_errors=True)
