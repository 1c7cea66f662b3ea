"""A curve that each engine makes, and runs of it that are watched, broken off and gone on with."""

from __future__ import annotations

import contextlib
import os
import pathlib
import shutil
import subprocess
import sys
import time
import typing
import unittest

import curve_files
import shared

# Points within the fall, each of which wants all its chunks, whatever is made at a time: 24 of some 50 ms.
RULE = {"rounds": 2000, "points": [0.28, 0.285, 0.29], "step": 0, "errors": 100_000, "chunks": 8}
CONF = curve_files.text_of("table.csv", curve_files.LONG, RULE)
CHUNKS = 24

# A machine under load takes its time.
SECONDS = 600

Environment = typing.Optional[typing.Mapping[str, str]]


class Running(shared.InFolder):
    """A test with the curve's files in its folder, and with what an engine of its own makes of them."""

    wanted, whole = "", ""

    def setUp(self) -> None:
        super().setUp()
        shutil.copy(shared.EXAMPLES / "drawn.csv", self.folder / "table.csv")
        self.conf, self.out = self.file("c.toml", CONF), self.folder / "c.csv"
        self.program = self.folder / "linksim"
        shutil.copy(shared.program(), self.program)

    def words(self, *more: object) -> list[str]:
        """The command of a run."""
        tool = [sys.executable, shared.TOOLS / "curve", "run", self.conf, "--program", self.program]
        return list(map(str, [*tool, "--out", self.out, *more]))

    def told(self, *more: object, environment: Environment = None, inside: typing.Sequence[str] = ()) -> tuple[int, str]:
        """The status of a run to its end, inside another command if one is given, and what it says."""
        words = [*inside, *self.words(*more)]
        ended = subprocess.run(words, capture_output=True, text=True, env=environment, timeout=shared.SECONDS)
        return ended.returncode, ended.stderr

    def run_whole(self, *more: object, environment: Environment = None, inside: typing.Sequence[str] = ()) -> None:
        """A run to its end, which makes what this machine by itself makes."""
        status, said = self.told(*more, environment=environment, inside=inside)
        self.assertEqual(status, 0, said)
        self.assert_same()

    def refused(self, *more: object, environment: Environment = None) -> str:
        """What a run says that is refused."""
        status, said = self.told(*more, environment=environment)
        self.assertIn(status, (1, 2), said)
        return said

    @contextlib.contextmanager
    def begun(
        self, lines: int, *more: object, environment: Environment = None
    ) -> typing.Iterator[subprocess.Popen[str]]:
        """A run that goes on, and has so many chunks."""
        with subprocess.Popen(self.words(*more), stderr=subprocess.PIPE, text=True, env=environment) as child:
            try:
                self.wait_for(child, lines)
                yield child
            finally:
                if child.poll() is None:
                    child.kill()
                if child.stderr:
                    child.stderr.close()

    def wait_for(self, child: subprocess.Popen[str], lines: int) -> None:
        """Waits until a run has so many chunks."""
        end = time.monotonic() + SECONDS
        while self.count() < lines and child.poll() is None and time.monotonic() < end:
            time.sleep(0.01)
        self.assertGreaterEqual(self.count(), lines)

    def ended(self, child: subprocess.Popen[str]) -> tuple[int, str]:
        """The status of a run that goes on, at its end, and what it says."""
        _, said = child.communicate(timeout=shared.SECONDS)
        return child.returncode, said

    def count(self) -> int:
        """How many chunks are there."""
        return max(0, len(rows(self.out.read_text())) - 1) if self.out.exists() else 0

    def merged(self, path: pathlib.Path) -> str:
        """The lines of a file of results in order."""
        return shared.made("curve", "merge", path, with_program=False)

    def assert_same(self) -> None:
        """The results are what this machine makes by `point`, one process a point. Their head is the same by every engine."""
        if not Running.wanted:
            words = ["0-7", "--program", self.program]
            texts = [shared.made("curve", "point", self.conf, p, *words, with_program=False) for p in (0.28, 0.285, 0.29)]
            Running.wanted = self.merged(self.file("wanted.csv", "".join(texts)))
            self.assertEqual(Running.wanted.count("\n"), 1 + CHUNKS)
        text = self.out.read_text()
        self.assertEqual("".join(rows(text)), Running.wanted)
        Running.whole = Running.whole or text
        self.assertEqual(text, Running.whole)


def rows(text: str) -> list[str]:
    """The whole lines of a file of results without its comments."""
    return [line for line in text.splitlines(keepends=True) if not line.startswith("#") and line.endswith("\n")]


def children_of(pid: int) -> list[int]:
    """The processes that a process started, by any of its threads."""
    found: list[int] = []
    for path in pathlib.Path(f"/proc/{pid}/task").glob("*/children"):
        with contextlib.suppress(OSError):  # the thread ended
            found += map(int, path.read_text().split())
    return found


def kill(pid: int) -> None:
    """Ends a process at once."""
    with contextlib.suppress(ProcessLookupError):
        os.kill(pid, 9)


def path_with_sbin() -> str:
    """The environment's PATH with the folders of daemons, which a user's may lack."""
    return os.pathsep.join([os.environ["PATH"], "/usr/sbin", "/sbin"])


def skip_without(programs: typing.Sequence[str]) -> None:
    """Skips a test, or a class of tests, if one of these programs is not there."""
    missing = next((name for name in programs if not shutil.which(name, path=path_with_sbin())), None)
    if missing:
        raise unittest.SkipTest(f"{missing} is not there")
