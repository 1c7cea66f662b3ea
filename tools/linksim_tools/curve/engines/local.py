"""This machine's cores: processes that stay, each of which makes batch after batch."""

from __future__ import annotations

import os
import queue
import subprocess
import tempfile
import threading
import typing

from linksim_tools.common.program import Failed
from linksim_tools.curve.engines import TRIES, Call, Engine, first_fault
from linksim_tools.curve.tasks import word_of

if typing.TYPE_CHECKING:
    from linksim_tools.curve.making import Task

Outcome = typing.Union[str, Failed, None]


class Ended(Exception):
    """A process ended before its batch was made."""


class Worker:
    """A process of `point` that reads batches, a line each, and writes their lines."""

    def __init__(self, call: Call) -> None:
        self.error, self.word = tempfile.TemporaryFile(), ""
        self.child = subprocess.Popen(
            [*call.here(), "-"], stdin=subprocess.PIPE, stdout=subprocess.PIPE, stderr=self.error, text=True
        )

    def lines(self, batch: list[Task]) -> typing.Iterator[str]:
        """What is written of a batch."""
        assert self.child.stdin and self.child.stdout
        self.word = word_of(batch)
        try:
            self.child.stdin.write(f"{self.word}\n")
            self.child.stdin.flush()
        except BrokenPipeError:
            raise Ended from None
        left = len(batch)
        while left:
            line = self.child.stdout.readline()
            if not line.endswith("\n"):
                raise Ended
            left -= not line.startswith("#")
            yield line

    def fault(self) -> Failed | None:
        """Why it ended, if it said so itself; nothing if a signal ended it, which has status 130 where `point` took it up."""
        status = self.child.wait()
        self.error.seek(0)
        said = self.error.read().decode(errors="replace")
        return None if status < 0 or status == 130 else Failed(first_fault(said, f"point ended with status {status}"))

    def end(self) -> None:
        """Ends it."""
        self.child.terminate()
        self.child.communicate()
        self.error.close()


class Local(Engine):
    """The engine of this machine."""

    longest = 1.0

    def __init__(self, jobs: int | None) -> None:
        self.jobs = jobs or len(os.sched_getaffinity(0))
        self.idle: list[Worker] = []
        self.busy: set[Worker] = set()
        self.threads: list[threading.Thread] = []
        self.lock, self.over = threading.Lock(), threading.Event()

    def slots(self) -> int:
        return self.jobs

    def most(self) -> int:
        return 1 << 20

    def taken(self, call: Call) -> Worker:
        """A process that waits for work, or a new one."""
        with self.lock:
            if self.over.is_set():
                raise Ended
            worker = self.idle.pop() if self.idle else Worker(call)
            self.busy.add(worker)
            return worker

    def given_back(self, worker: Worker, ended: bool) -> None:
        """A process waits for work again, or is over."""
        with self.lock:
            self.busy.discard(worker)
            if not ended and not self.over.is_set():
                self.idle.append(worker)
                return
        worker.end()

    def made(self, call: Call, batch: list[Task], found: queue.Queue[Outcome]) -> None:
        """Makes a batch; what is left of it by another process, if one was killed over it."""
        rest = sorted(batch)
        for _ in range(TRIES):
            worker, ended = self.taken(call), True
            try:
                for line in worker.lines(rest):
                    found.put(line)
                    rest = rest[not line.startswith("#") :]
                ended = False
                return
            except Ended:
                fault = worker.fault()
                if fault:
                    raise fault from None
            finally:
                self.given_back(worker, ended)
        raise Failed(f"a process that made {word_of(rest)} was killed, {TRIES} times")

    def work(self, call: Call, waiting: queue.Queue[list[Task]], found: queue.Queue[Outcome]) -> None:
        """Makes batches until none waits."""
        try:
            while not self.over.is_set():
                self.made(call, waiting.get_nowait(), found)
        except (queue.Empty, Ended):
            found.put(None)
        except Failed as failed:
            found.put(failed)
        except BaseException as error:  # a thread that ends must not leave the others waiting
            found.put(Failed(f"{type(error).__name__}: {error}"))

    def lines(self, call: Call, batches: list[list[Task]]) -> typing.Iterator[str]:
        waiting: queue.Queue[list[Task]] = queue.Queue()
        found: queue.Queue[Outcome] = queue.Queue()
        for batch in batches:
            waiting.put(batch)
        count = min(self.jobs, len(batches))
        self.threads = [threading.Thread(target=self.work, args=(call, waiting, found)) for _ in range(count)]
        for thread in self.threads:
            thread.start()
        while count:
            one = found.get()
            if isinstance(one, Failed):
                raise one
            if one is None:
                count -= 1
            else:
                yield one

    def waiting(self) -> str:
        with self.lock:
            busy = [f"process {worker.child.pid}, which makes {worker.word}" for worker in self.busy]
        return "; ".join(busy[:4]) + (f"; and {len(busy) - 4} more" if busy[4:] else "")

    def close(self) -> None:
        self.over.set()
        with self.lock:
            for worker in self.busy:
                worker.child.terminate()
        for thread in self.threads:
            # One whose start was interrupted cannot be joined, and makes nothing: it finds that all is over.
            if thread.is_alive():
                thread.join()
        for worker in self.idle:
            worker.end()
        self.idle.clear()
