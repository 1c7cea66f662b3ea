"""Slurm: a cluster of two nodes, also over a file system that caches what is not there; and stand-ins for its commands."""

from __future__ import annotations

import errno
import os
import pathlib
import shutil
import signal
import subprocess
import sys
import time
import typing
import unittest.mock

import shared
from linksim_tools.common.program import Failed
from linksim_tools.curve.engines import slurm
from runs import CHUNKS, SECONDS, Running, kill, skip_without
from slurm_here import PROGRAMS, Cluster

# Stand-ins: the array is over at once to squeue, and its elements run some seconds later, if at all.
COMMANDS = {
    "scontrol": "echo MaxArraySize = 101",
    "scancel": "true",
    "squeue": '[ -z "$STATE" ] || ! echo "$*" | grep -q states=all || for at in $(seq 0 100); do echo "$at $STATE"; done',
    "sbatch": """cat > script
last=$(echo "$*" | sed 's/.*--array=0-\\([0-9]*\\)%.*/\\1/')
echo 7
[ -n "$LATE" ] || exit 0
(sleep "$LATE"; for at in $(seq 0 "$last"); do SLURM_JOB_ID=7 SLURM_ARRAY_TASK_ID=$at sh script; done) > said 2>&1 &""",
}


class StandIn(Running):
    """What is seen of an array, and when."""

    def environment(self, **more: str) -> typing.Mapping[str, str]:
        """One in which the stand-ins come first."""
        folder = self.folder / "commands"
        folder.mkdir(exist_ok=True)
        for name, text in COMMANDS.items():
            (folder / name).write_text(f"#!/bin/sh\ncd {self.folder}\n{text}\n")
            (folder / name).chmod(0o755)
        return {**os.environ, "PATH": f"{folder}:{os.environ['PATH']}", **more}

    def test_an_element_that_runs_twice(self) -> None:
        """It was requeued, and still runs on a node that was taken for dead: each writes a file of its own."""
        script = slurm.SCRIPT.format(folder=self.folder, words="sh -c 'echo $0; sleep 1; echo $0'")
        self.file("words", "word\n")
        environment = {**os.environ, "SLURM_JOB_ID": "7", "SLURM_ARRAY_TASK_ID": "0"}
        both = [subprocess.Popen(["sh", "-c", script], env=environment) for _ in range(2)]
        self.assertEqual([child.wait() for child in both], [0, 0])
        self.assertEqual((self.folder / "0.csv").read_text(), "word\nword\n")

    def test_a_full_disk(self) -> None:
        """A last line that is cut off is no whole one. If the run itself cannot write, the folder is named."""
        for number, text in enumerate(("# cost\n0.28,0,150\n", "# cost\n0.28,0,15", "0.28,0,150\n", "# cost\n")):
            self.file(f"{number}.csv", text)
        found = slurm.written(self.folder, [[[(0.28, 0)]]] * 4, {0, 1, 3})
        self.assertEqual([number for number, _ in found], [0])
        engine: typing.Any = slurm.Slurm.__new__(slurm.Slurm)
        full = unittest.mock.patch.object(pathlib.Path, "write_text", side_effect=OSError(errno.ENOSPC, "No space left on device"))
        with full, self.assertRaisesRegex(Failed, f"{self.folder}: No space left on device"):
            next(engine.elements(None, self.folder, [[[(0.28, 0)]]]))

    def test_several_processors(self) -> None:
        """An element makes as many batches side by side as it has processors; if one fails the element has no file."""
        self.file("words", "one two\nno three\n")
        script = slurm.SCRIPT.format(folder=self.folder, words="sh -c '[ $0 != no ] && echo $0'")
        for seat, wanted in ((0, {"one", "two"}), (1, None)):
            environment = {**os.environ, "SLURM_ARRAY_TASK_ID": str(seat)}
            status = subprocess.run(["sh", "-c", script], env=environment).returncode
            found = self.folder / f"{seat}.csv"
            there = set(found.read_text().split()) if found.exists() else None
            self.assertEqual((status == 0, there), (wanted is not None, wanted))
        for options, count in (
            ("-c 8", 8), ("--cpus-per-task=4 --time=5", 4), ("--cpus-per-task 2", 2), ("-c3", 3), ("--mem=1G", 1),
        ):
            self.assertEqual(slurm.processors_in(options.split()), count)

    def test_a_run_that_is_sent(self) -> None:
        """--detach sends the command itself, with the options of sbatch, and ends."""
        sent = self.folder / "sent"
        stand_in = f'echo "$*" > {sent}; cat >> {sent}; echo 9'
        with unittest.mock.patch.dict(COMMANDS, {"sbatch": stand_in}):
            words = ["--engine", "slurm:--partition=long -c 4", "--jobs", 8, "--detach"]
            status, said = self.told(*words, environment=self.environment())
        self.assertEqual((status, self.out.exists()), (0, False), said)
        self.assertRegex(said, r"^tools/curve: the run is job 9; tools/curve status .*c\.csv says how far it is\n$")
        options, *script = sent.read_text().splitlines()
        wanted = r"^--parsable --partition=long -c 4 --cpus-per-task=1 --job-name=curve-run .*--output=.*/c\.csv\.run$"
        self.assertRegex(options, wanted)
        self.assertRegex(script[-1], rf"^exec .*tools/curve run {self.conf} .*--engine 'slurm:--partition=long -c 4' --jobs 8$")
        self.assertIn("--detach is for --engine slurm", self.refused("--detach"))

    def test_files_that_are_seen_late(self) -> None:
        """They are looked for after the end; and notes are no faults."""
        self.run_whole("--engine", "slurm", "--jobs", 8, environment=self.environment(LATE="3"))
        self.assertEqual([path.name for path in self.folder.glob(".*")], [])

    def test_an_audit_that_was_killed(self) -> None:
        """The next one clears away what it left behind."""
        self.run_whole("--jobs", 2)
        (self.folder / ".c.toml.slurm" / "1").mkdir(parents=True)
        self.file(".c.toml.slurm/1/job", "7")
        words = [sys.executable, shared.TOOLS / "curve", "audit", self.conf, self.out, "--program", self.program]
        ended = subprocess.run(
            [*map(str, words), "--engine", "slurm"], env=self.environment(LATE="0"), capture_output=True, text=True,
            timeout=shared.SECONDS,
        )
        self.assertEqual((ended.stdout, ended.stderr.count("\n")), ("1 of 1 chunks are what they were\n", 1))
        self.assertEqual([path.name for path in self.folder.glob(".*")], [])

    def test_lost_elements(self) -> None:
        """If each has failed nothing is waited for. What comes later all the same is taken up by the next run."""
        words = ["--engine", "slurm", "--latency-wait", 10 * shared.SECONDS]
        said = self.refused(*words, environment=self.environment(STATE="NODE_FAIL"))
        self.assertIn(f"their logs are in {self.folder}/.c.csv.slurm, and the same command takes up", said)
        lost = sorted(self.folder.glob(".c.csv.slurm/*/words"))
        self.assertEqual(len(lost), 3)
        word = lost[1].read_text().split()[0]
        output = shared.made("curve", "point", self.conf, word, "--program", self.program, with_program=False)
        (lost[1].parent / "0.csv").write_text(output)
        self.run_whole("--engine", "slurm", environment=self.environment(LATE="0"))
        self.assertEqual([path.name for path in self.folder.glob(".*")], [])
        self.assertNotIn(output.split(",")[0] + ",0,", (self.folder / "c.csv.log").read_text())


class Slurm(Running):
    cluster: Cluster

    @classmethod
    def setUpClass(cls) -> None:
        skip_without(PROGRAMS)
        cls.cluster = Cluster(patience=15)
        cls.addClassCleanup(cls.cluster.close)

    def jobs(self) -> list[str]:
        """What waits or runs."""
        return self.cluster.asked("squeue", "--noheader", "--format=%i").split()

    def wait_for_none(self) -> None:
        """Waits until nothing waits or runs."""
        end = time.monotonic() + SECONDS
        while self.jobs() and time.monotonic() < end:
            time.sleep(0.1)
        self.assertEqual(self.jobs(), [])

    def test_a_node_that_dies(self) -> None:
        """What it had to make is sent again, and made by the other one."""
        words = ["--engine", "slurm:--no-requeue", "--jobs", 8, "--batch", 0.1]
        with self.begun(3, *words, environment=self.cluster.environment) as child:
            self.cluster.kill_node("n2")
            try:
                status, said = self.ended(child)
            finally:
                self.cluster.start_node("n2")
        self.assertEqual(status, 0, said)
        self.assert_same()

    def test_a_killed_run(self) -> None:
        """What had been made is found again by the same command; a run that is ended by a signal takes its jobs along."""
        words = ["--engine", "slurm", "--jobs", 8, "--batch", 0.1]
        with self.begun(3, *words, environment=self.cluster.environment) as child:
            end = time.monotonic() + SECONDS
            while not list(self.folder.glob(".c.csv.slurm/*/job")) and time.monotonic() < end:
                time.sleep(0.01)
            kill(child.pid)
        self.assertEqual(len(list(self.folder.glob(".c.csv.slurm/*/job"))), 1)
        self.run_whole(*words[:-1], 0.3, environment=self.cluster.environment)
        self.assertEqual([path.name for path in self.folder.glob(".*")], [])
        self.out.unlink()
        with self.begun(1, *words, environment=self.cluster.environment) as child:
            child.send_signal(signal.SIGTERM)
            self.assertEqual(self.ended(child)[0], 130)
        self.wait_for_none()

    def test_a_run_as_a_job(self) -> None:
        """It sends its arrays from there, and anyone can see how far it is."""
        words = ["--engine", "slurm:--cpus-per-task=2", "--jobs", 2, "--batch", 0.3, "--detach"]
        status, said = self.told(*words, environment=self.cluster.environment)
        self.assertEqual(status, 0, said)
        end, seen = time.monotonic() + SECONDS, ""
        while (not self.out.exists() or self.count() < CHUNKS or self.jobs()) and time.monotonic() < end:
            time.sleep(0.2)
            if self.out.exists():
                seen += shared.made("curve", "status", self.out, with_program=False)
        self.assert_same()
        self.assertRegex(seen, r"a run writes there now\n\d+ chunks of this wave are to come")
        said = shared.made("curve", "status", self.out, with_program=False)
        self.assertRegex(said, rf"c\.csv: {CHUNKS} chunks at 3 points, 48,000 rounds\nlast chunk .* ago, made by .*\nno run has")

    def test_a_held_array(self) -> None:
        """After a stated time it is said what Slurm waits for, and the run goes on when that is over."""
        words = ["--engine", "slurm:--hold", "--jobs", 8, "--silence", 2]
        with subprocess.Popen(
            self.words(*words), stderr=subprocess.PIPE, text=True, env=self.cluster.environment
        ) as child:
            assert child.stderr
            said = next((line for line in child.stderr if "no chunk came" in line), "")
            wanted = r"note: no chunk came for \d+ seconds: waiting for job \d+ of Slurm, whose elements are: \d+ PENDING JobHeld"
            self.assertRegex(said, wanted)
            end = time.monotonic() + SECONDS
            while child.poll() is None and time.monotonic() < end:
                for job in self.jobs():
                    self.cluster.asked("scontrol", "release", job.partition("_")[0])
                time.sleep(0.2)
            child.stderr.read()
        self.assertEqual(child.returncode, 0)
        self.assert_same()

    def test_a_file_system_that_caches_lookups(self) -> None:
        """The nodes see the folder itself. The run sees it as NFS shows it: what is asked for too early is not there for long."""
        mounted = f'bindfs -o negative_timeout=30 {self.folder} {self.folder} && exec "$@"'
        inside = ["unshare", "--mount", "sh", "-c", mounted, "sh"]
        if not shutil.which("bindfs") or subprocess.run([*inside, "true"], capture_output=True).returncode:
            self.skipTest("bindfs cannot mount here")
        words = ["--engine", "slurm", "--jobs", 4, "--batch", 0.3]
        self.run_whole(*words, environment=self.cluster.environment, inside=inside)

    def test_faults(self) -> None:
        """What sbatch refuses, and what fails in every element, is said once."""
        said = self.refused("--engine", "slurm:--partition=none", environment=self.cluster.environment)
        self.assertIn("sbatch: ", said)
        (self.folder / "table.csv").write_text("no table\n")
        said = self.refused("--engine", "slurm", environment=self.cluster.environment)
        self.assertRegex(said, "lost 3 times: .*table.* is not that of the run|lost 3 times: .*no shift table|rejected")
