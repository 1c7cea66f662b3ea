"""Slurm: each wave is an array of jobs, whose elements write a file each that is renamed when it is whole."""

from __future__ import annotations

import collections
import os
import pathlib
import re
import shlex
import shutil
import subprocess
import time
import typing

from linksim_tools.common.program import Failed, named_in_faults
from linksim_tools.curve.engines import TRIES, Call, Engine, first_fault
from linksim_tools.curve.tasks import word_of

if typing.TYPE_CHECKING:
    from linksim_tools.curve.making import Task

# What an element of an array makes: a batch for each of its processors.
Element = typing.List[typing.List["Task"]]

# How many elements run at a time if --jobs is left out.
JOBS = 64

# Slurm is asked again after so many seconds, the longer the less comes.
PAUSES = 0.25, 5.0

# A file may be seen so many seconds after it was written: NFS keeps for up to a minute what a folder has. An element that failed
# has mostly written nothing, and is not waited for as long.
LATENCY, LATENCY_OF_FAILED = 90.0, 5.0

# The states in which an element may have ended without its file.
FAILED = {"BOOT_FAIL", "CANCELLED", "DEADLINE", "FAILED", "NODE_FAIL", "OUT_OF_MEMORY", "PREEMPTED", "TIMEOUT"}

# The most elements of an array if Slurm does not say (MaxArraySize is 1001 by itself).
LARGEST_ARRAY = 1000

# An element makes the batches of its line side by side, one on each of its processors.
SCRIPT = """#!/bin/sh
set -eu
cd {folder}
part=$SLURM_ARRAY_TASK_ID.part.$(uname -n).$$
made=
for word in $(sed -n "$((SLURM_ARRAY_TASK_ID + 1))p" words); do
  {words} "$word" > "$part.${{#made}}" &
  made="$made$! "
done
for child in $made; do wait "$child"; done
cat "$part".* > "$part"
rm "$part".*
mv "$part" "$SLURM_ARRAY_TASK_ID.csv"
"""

# The run itself, as a job.
DETACHED = """#!/bin/sh
cd {folder}
exec {words}
"""


def asked(*words: str, text: str | None = None) -> str:
    """What a command of Slurm answers."""
    ended = subprocess.run(words, input=text, capture_output=True, text=True)
    if ended.returncode:
        raise Failed(f"{words[0]}: {first_fault(ended.stderr, 'failed')}")
    return ended.stdout


def processors_in(options: list[str]) -> int:
    """How many processors the options of sbatch ask for each element, 1 if they do not say."""
    found = 1
    for option, following in zip(options, [*options[1:], ""]):
        named = re.fullmatch(r"(?:--cpus-per-task|-c)(?:=?(\d+))?", option)
        if named and (named[1] or following).isdecimal():
            found = max(1, int(named[1] or following))
    return found


def written(folder: pathlib.Path, elements: list[Element], waiting: set[int]) -> typing.Iterator[tuple[int, str]]:
    """The elements that are waited for whose files are there and whole, by the folder's list. A file system that was asked for a
    name in vain may say for a minute that it is not there."""
    for entry in os.scandir(folder):
        number, _, ending = entry.name.partition(".")
        if ending == "csv" and number.isdecimal() and int(number) in waiting:
            try:
                text = pathlib.Path(entry.path).read_text()
            except OSError:
                continue  # it is listed, and cannot be opened yet
            count = sum(not line.startswith("#") for line in text.splitlines())
            if text.endswith("\n") and count == sum(map(len, elements[int(number)])):
                yield int(number), text


class Slurm(Engine):
    """The engine of a cluster with Slurm, all of whose machines see the files and the folder of results."""

    longest = 60.0
    latency = LATENCY

    def __init__(self, options: list[str], jobs: int | None, out: pathlib.Path) -> None:
        if not shutil.which("sbatch"):
            raise Failed("--engine slurm needs the commands of Slurm on this machine: apt-get install slurm-client")
        self.options, self.jobs = options, jobs or JOBS
        self.folder = out.resolve().parent / f".{out.name}.slurm"
        found = re.search(r"MaxArraySize\s*=\s*(\d+)", asked("scontrol", "show", "config"))
        self.largest = max(1, int(found[1]) - 1) if found else LARGEST_ARRAY
        self.running: str | None = None
        self.processors = processors_in(options)

    def slots(self) -> int:
        return min(self.jobs, self.largest) * self.processors

    def most(self) -> int:
        return self.largest * self.processors

    def recovered(self, call: Call) -> typing.Iterator[str]:
        for folder in sorted(self.folder.glob("*")):
            job = folder / "job"
            if job.exists():
                subprocess.run(["scancel", job.read_text().strip()], capture_output=True)
            for path in sorted(folder.glob("*.csv")):
                yield from path.read_text().splitlines(keepends=True)
            shutil.rmtree(folder, ignore_errors=True)

    def lines(self, call: Call, batches: list[list[Task]]) -> typing.Iterator[str]:
        rest: list[Element] = [batches[at : at + self.processors] for at in range(0, len(batches), self.processors)]
        fault, folders = "", []
        for _ in range(TRIES):
            folder = self.folder / f"{time.time_ns()}"
            folder.mkdir(parents=True)
            folders.append(folder)
            try:
                done: set[int] = set()
                for number, text in self.elements(call, folder, rest):
                    yield from text.splitlines(keepends=True)
                    done.add(number)
            finally:
                self.cancel()
            rest = [element for number, element in enumerate(rest) if number not in done]
            if not rest:
                for one in folders:
                    shutil.rmtree(one, ignore_errors=True)
                return
            logs = "".join(path.read_text(errors="replace") for path in sorted(folder.glob("log-*")))
            fault = first_fault(logs, "nothing was said of it")
        kept = f"their logs are in {self.folder}, and the same command takes up what is still written there"
        raise Failed(f"{len(rest)} elements of an array were lost {TRIES} times: {fault}; {kept}")

    def elements(self, call: Call, folder: pathlib.Path, elements: list[Element]) -> typing.Iterator[tuple[int, str]]:
        """Sends an array; the numbers of its elements, and what they wrote, as they are made. Those that are lost do not come."""
        with named_in_faults(folder):
            (folder / "words").write_text("".join(f"{' '.join(map(word_of, element))}\n" for element in elements))
        script = SCRIPT.format(folder=shlex.quote(str(folder)), words=shlex.join(call.words()))
        options = [f"--array=0-{len(elements) - 1}%{min(self.jobs, self.largest)}", f"--output={folder}/log-%a", "--job-name=curve"]
        said = asked("sbatch", "--parsable", "--cpus-per-task=1", *options, *self.options, text=script)
        self.running = said.strip().split(";")[0]
        with named_in_faults(folder):
            (folder / "job").write_text(self.running)
        waiting, pause, over_at = set(range(len(elements))), PAUSES[0], 0.0
        while True:
            made = dict(written(folder, elements, waiting))
            waiting -= set(made)
            yield from sorted(made.items())
            if not over_at and self.is_over():
                over_at = time.monotonic()
            if not waiting or over_at and time.monotonic() - over_at > self.patience(waiting):
                return
            pause = PAUSES[0] if made else min(2 * pause, PAUSES[1])
            time.sleep(min(pause, self.latency / 4) if over_at else pause)

    def detached(self, words: list[str]) -> str:
        """Sends the run itself, as a job of one processor that sends the arrays; the number of the job."""
        script = DETACHED.format(folder=shlex.quote(os.getcwd()), words=shlex.join(words))
        out = self.folder.parent / self.folder.name[1:].replace(".slurm", ".run")
        options = [*self.options, "--cpus-per-task=1", "--job-name=curve-run", "--open-mode=append", f"--output={out}"]
        return asked("sbatch", "--parsable", *options, text=script).strip().split(";")[0]

    def waiting(self) -> str:
        said = self.queue("--array", "--format=%T %r").stdout.splitlines()
        states = [f"{count} {state}" for state, count in sorted(collections.Counter(said).items())]
        return f"job {self.running} of Slurm, whose elements are: {', '.join(states) or 'not in its queue'}"

    def patience(self, waiting: set[int]) -> float:
        """How long files are looked for after the end of an array, whose elements `waiting` wrote none that is seen."""
        said = self.queue("--array", "--states=all", "--format=%K %T").stdout
        states = dict(line.split() for line in said.splitlines() if len(line.split()) == 2)
        have_failed = all(states.get(str(number)) in FAILED for number in waiting)
        return min(self.latency, LATENCY_OF_FAILED) if have_failed else self.latency

    def queue(self, *words: str) -> subprocess.CompletedProcess[str]:
        """What squeue says of the array."""
        command = ["squeue", "--noheader", "--jobs", str(self.running), *words]
        return subprocess.run(command, capture_output=True, text=True)

    def is_over(self) -> bool:
        """Whether nothing of the array waits or runs; while Slurm does not answer, that is not known."""
        said = self.queue("--format=%T")
        if said.returncode:
            return "Invalid job id" in said.stderr
        return not said.stdout.split()

    def cancel(self) -> None:
        """Ends the array that was sent last."""
        if self.running:
            subprocess.run(["scancel", self.running], capture_output=True)
            self.running = None

    def close(self) -> None:
        self.cancel()
        if self.folder.is_dir() and not any(self.folder.iterdir()):
            self.folder.rmdir()
