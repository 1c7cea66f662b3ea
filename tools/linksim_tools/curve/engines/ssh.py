"""Machines behind ssh, by GNU parallel: those that do not answer are left out, and what fails on one goes to another."""

from __future__ import annotations

import collections
import concurrent.futures
import math
import os
import re
import shlex
import shutil
import subprocess
import tempfile
import time
import typing

from linksim_tools.common.program import Failed, Wrong
from linksim_tools.curve.engines import TRIES, Call, Engine, first_fault
from linksim_tools.curve.results import note
from linksim_tools.curve.tasks import word_of

if typing.TYPE_CHECKING:
    from linksim_tools.curve.making import Task

# A machine that says nothing for five minutes is given up, unless the environment names another ssh. By itself ssh takes hours.
SSH = "ssh -o ServerAliveInterval=60 -o ServerAliveCountMax=5"

# So many seconds a machine is waited for that is asked whether it is there.
PATIENCE = 60

# sshd drops logins once ten are begun at a time (MaxStartups). Beyond nine GNU parallel counts how many it takes.
LOGINS = 9

# The machine that GNU parallel reaches without ssh: this one.
HERE = ":"


def has_gnu_parallel() -> bool:
    """Whether `parallel` is GNU's."""
    if not shutil.which("parallel"):
        return False
    said = subprocess.run(["parallel", "--version"], capture_output=True, text=True, stdin=subprocess.DEVNULL)
    return said.stdout.startswith("GNU parallel")


def ssh_of(host: str) -> list[str]:
    """The words of ssh to a machine, which GNU parallel also takes with a port, as one.example:2222."""
    name, _, port = host.partition(":") if host.count(":") == 1 else (host, "", "")
    return [*shlex.split(os.environ.get("PARALLEL_SSH") or SSH), *(["-p", port] if port else []), name]


def login(host: str) -> float | None:
    """How many seconds a machine takes to run a command, or None if it cannot. A machine that says nothing for PATIENCE seconds
    takes infinitely long. GNU parallel's own question takes a busy machine for a fault of its own."""
    words, begun = ["true"] if host == HERE else [*ssh_of(host), "true"], time.monotonic()
    nothing = subprocess.DEVNULL  # a pipe would be held open by what ssh may leave in the background (ControlPersist)
    try:
        said = subprocess.run(words, stdin=nothing, stdout=nothing, stderr=nothing, timeout=PATIENCE)
    except subprocess.TimeoutExpired:
        return math.inf
    except OSError:
        return None
    return None if said.returncode else time.monotonic() - begun


def end_quietly(child: subprocess.Popen[str]) -> None:
    """Ends GNU parallel if it is still there, and waits for it: at the second signal it ends its jobs too."""
    if child.stdout:
        child.stdout.close()
    while child.poll() is None:
        child.terminate()
        time.sleep(0.1)


class Ssh(Engine):
    """The engine of machines `8/one,16/two`: how many batches each makes at a time, and its name for ssh."""

    longest = 10.0

    def __init__(self, hosts: str) -> None:
        self.hosts = hosts
        named = [re.fullmatch(r"(?:([1-9]\d*)/)?([^/,\s]+)", host) for host in hosts.split(",")]
        if not all(named):
            raise Wrong(f"--engine ssh:HOSTS wants 8/one,16/two, and not {hosts}")
        self.counts: collections.Counter[str] = collections.Counter()
        for found in named:
            self.counts.update({found[2]: int(found[1] or 1)} if found else {})
        if not has_gnu_parallel():
            raise Failed("--engine ssh needs GNU parallel: apt-get install parallel (Debian, Ubuntu)")
        self.child: subprocess.Popen[str] | None = None
        self.silent: set[str] = set()

    def slots(self) -> int:
        return sum(self.counts.values())

    def most(self) -> int:
        return 4 * self.slots()

    def lines(self, call: Call, batches: list[list[Task]]) -> typing.Iterator[str]:
        times = self.answering()
        if not times:
            raise Failed(f"none of the machines of ssh:{self.hosts} answers")
        said = yield from self.sent(call, batches, times)
        if said:
            raise Failed(first_fault(said, "GNU parallel failed"))

    def answering(self) -> dict[str, float]:
        """The machines that answer, each with the time that it took: all are asked again if none does. One that says nothing at all
        costs that wait once, and is then left out of the run."""
        times: dict[str, float] = {}
        for _ in range(TRIES):
            asked = [host for host in self.counts if host not in self.silent]
            if not asked:
                break
            with concurrent.futures.ThreadPoolExecutor(len(asked)) as pool:
                found = list(zip(asked, pool.map(login, asked)))
            silent = [host for host, seconds in found if seconds == math.inf]
            for host in silent:
                note(f"{host} did not answer within {PATIENCE} seconds, and is left out")
            self.silent.update(silent)
            times = {host: seconds for host, seconds in found if seconds is not None and host not in self.silent}
            if times:
                break
        return times

    def sent(self, call: Call, batches: list[list[Task]], times: dict[str, float]) -> typing.Generator[str, None, str]:
        """The lines of batches, and what was said if they failed. Logins are so far apart that sshd takes them all."""
        counts = {host: min(self.counts[host], len(batches)) for host in times}
        delay = max(times.values()) / 5 if max(counts.values()) > LOGINS else 0
        command = [
            "parallel", "--sshlogin", ",".join(f"{count}/{host}" for host, count in counts.items()), "--sshdelay", f"{delay:.3f}",
            "--retries", str(TRIES), "--halt", "now,fail=1", f"{shlex.join(call.words())} {{}}",
        ]
        with tempfile.TemporaryFile("w+") as words, tempfile.TemporaryFile("w+") as error:
            words.writelines(f"{word_of(batch)}\n" for batch in batches)
            words.seek(0)
            self.child = subprocess.Popen(
                command, stdin=words, stdout=subprocess.PIPE, stderr=error, text=True, env={"PARALLEL_SSH": SSH, **os.environ}
            )
            try:
                assert self.child.stdout
                yield from self.child.stdout
                if not self.child.wait():
                    return ""
                error.seek(0)
                return error.read().partition("parallel: This job failed:")[0] or "GNU parallel failed"
            finally:
                end_quietly(self.child)

    def waiting(self) -> str:
        return f"GNU parallel (process {self.child.pid if self.child else 0}) and the machines of ssh:{self.hosts}"

    def close(self) -> None:
        if self.child:
            end_quietly(self.child)
