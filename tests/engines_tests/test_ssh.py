"""Machines behind ssh, by GNU parallel."""

from __future__ import annotations

import contextlib
import io
import math
import os
import unittest.mock

import curve_files
from hosts_here import PROGRAMS, Hosts
from linksim_tools.curve.engines import ssh
from runs import RULE, Running, skip_without


class StandIn(Running):
    def asked(self, hosts: str, **more: str) -> list[str]:
        """What a run over these machines calls, by stand-ins: ssh and rsh take half a second, and GNU parallel makes nothing."""
        asked = self.folder / "asked"
        for name in ("ssh", "rsh"):
            self.file(name, f'#!/bin/sh\nsleep 0.5\necho {name} "$@" >> {asked}\n').chmod(0o755)
        self.file("parallel", f'#!/bin/sh\necho "$PARALLEL_SSH" parallel "$@" >> {asked}\necho GNU parallel\n').chmod(0o755)
        environment = {**os.environ, "PATH": f"{self.folder}:{os.environ['PATH']}", **more}
        self.refused("--engine", f"ssh:{hosts}", environment=environment)
        lines = [line for line in asked.read_text().splitlines() if not line.endswith("--version")]
        asked.unlink()
        return lines

    def test_a_machine_that_dies_silently(self) -> None:
        """It does not close its connection, so that ssh has to ask it; but who names another ssh gets that one."""
        cases: list[tuple[dict[str, str], str]] = [({}, "ssh -o ServerAliveInterval=60"), ({"PARALLEL_SSH": "rsh"}, "rsh")]
        for more, wanted in cases:
            lines = self.asked("1/one.example", **more)
            self.assertEqual(len(lines), 2)
            self.assertTrue(all(line.startswith(wanted) for line in lines), lines)

    def test_many_logins(self) -> None:
        """More than nine at a time are begun one after another, for sshd drops some. A machine may have a port."""
        self.conf.write_text(curve_files.text_of("table.csv", curve_files.LONG, {**RULE, "points": [p / 20 for p in range(12)]}))
        self.assertIn("--sshlogin 9/one.example --sshdelay 0.000 ", self.asked("9/one.example")[-1])
        *asked, called = self.asked("8/one.example,16/two.example:2222")
        self.assertRegex(called, r"--sshlogin 8/one\.example,12/two\.example:2222 --sshdelay (?!0\.0)")
        self.assertEqual([line.split()[-4:] for line in asked if "two" in line], [["-p", "2222", "two.example", "true"]])

    def test_a_machine_that_says_nothing(self) -> None:
        """It costs its timeout once, however many waves there are."""
        asked: list[str] = []

        def login(host: str) -> float | None:
            asked.append(host)
            return {"silent.example": math.inf, "refusing.example": None}.get(host, 0.1)

        with unittest.mock.patch.object(ssh, "has_gnu_parallel", return_value=True):
            engine = ssh.Ssh("1/one.example,1/silent.example,1/refusing.example")
        with unittest.mock.patch.object(ssh, "login", login), contextlib.redirect_stderr(io.StringIO()) as said:
            for _ in range(3):
                self.assertEqual(engine.answering(), {"one.example": 0.1})
            self.assertEqual([asked.count(f"{name}.example") for name in ("one", "silent", "refusing")], [3, 1, 3])
            self.assertEqual(said.getvalue().count("silent.example did not answer within 60 seconds, and is left out"), 1)
            with unittest.mock.patch.object(engine, "counts", {"silent.example": 1}):
                self.assertEqual(engine.answering(), {})
        self.assertEqual(asked.count("silent.example"), 1)

    def test_words(self) -> None:
        for name in ("ssh:", "ssh:2/", "ssh:0/a", "ssh:a/b/c", "slow", "dask:", "local:2", "slurm:'"):
            self.assertIn("--engine", self.refused("--engine", name))
        for name in ("ssh:1/one.example", "dask:127.0.0.1:1"):
            status, said = self.told("--engine", name, "--jobs", 2)
            self.assertEqual((status, said.count("\n"), self.out.exists()), (2, 1, False), said)
            self.assertIn("--jobs is for --engine local and slurm: ", said)


class Ssh(Running):
    hosts: Hosts

    @classmethod
    def setUpClass(cls) -> None:
        skip_without(PROGRAMS)

    def setUp(self) -> None:
        super().setUp()
        self.hosts = Hosts()
        self.addCleanup(self.hosts.close)

    def test_two_machines_and_one_that_refuses(self) -> None:
        names = "2/one.example,2/two.example,2/three.example"
        self.run_whole("--engine", f"ssh:{names}", "--batch", 0.3, environment=self.hosts.environment)

    def test_a_machine_that_dies(self) -> None:
        """What it had to make is made by the other one."""
        names = "1/one.example,1/two.example"
        with self.begun(4, "--engine", f"ssh:{names}", "--batch", 0.1, environment=self.hosts.environment) as child:
            self.hosts.kill("two")
            status, said = self.ended(child)
            self.assertEqual(status, 0, said)
        self.assert_same()

    def test_a_machine_that_is_busy(self) -> None:
        """If no machine answers for now, all are asked again."""
        slow = self.file("slow", f'#!/bin/sh\necho >> {self.folder}/asked\n'
                         f'[ $(wc -l < {self.folder}/asked) -gt 4 ] || exit 255\nexec ssh "$@"\n')
        slow.chmod(0o755)
        ssh = self.hosts.environment["PARALLEL_SSH"].replace("ssh", str(slow), 1)
        environment = {**self.hosts.environment, "PARALLEL_SSH": ssh}
        self.run_whole("--engine", "ssh:2/one.example,2/two.example", environment=environment)

    def test_a_machine_that_takes_no_batch(self) -> None:
        """It answers before: what ssh says then is told, and not which command failed."""
        lost = self.file("lost", '#!/bin/sh\ncase "$*" in *true) exit;; esac\necho "Connection reset" >&2; exit 255\n')
        lost.chmod(0o755)
        environment = {**self.hosts.environment, "PARALLEL_SSH": str(lost)}
        self.assertIn("tools/curve: Connection reset\n", self.refused("--engine", "ssh:2/one.example", environment=environment))

    def test_no_machine(self) -> None:
        said = self.refused("--engine", "ssh:2/three.example", environment=self.hosts.environment)
        self.assertEqual(self.count(), 0)
        self.assertIn("none of the machines of ssh:2/three.example answers", said)
