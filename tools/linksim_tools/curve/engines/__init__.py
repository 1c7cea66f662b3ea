"""What makes chunks side by side: this machine's cores, machines behind ssh, Slurm, or dask. Each calls `point`."""

from __future__ import annotations

import dataclasses
import pathlib
import shlex
import sys
import typing

from linksim_tools.common.program import Wrong, name_of
from linksim_tools.curve.results import NOTE, say

if typing.TYPE_CHECKING:
    from linksim_tools.curve.making import Task
    from linksim_tools.curve.setting import Setting
    from linksim_tools.curve.source import Source

TOOL = pathlib.Path(__file__).resolve().parents[3] / "curve"

# What the tool calls itself.
TOOLS = ("tools/curve", "linksim-curve")

# How often what was lost is sent.
TRIES = 3


@dataclasses.dataclass(frozen=True)
class Call:
    """A call of `point`, which makes chunks where it is run: by files at the same paths, whose SHA-256 it is told."""

    setting: Setting
    program: pathlib.Path
    source: Source

    def words(self) -> list[str]:
        """The words before those that name chunks."""
        options = ["--cost", "--told", self.source.word(), "--program", str(self.program)]
        return [str(TOOL), "point", *options, str(self.setting.path.absolute())]

    def here(self) -> list[str]:
        """The same on this machine, by the Python that runs."""
        return [sys.executable, *self.words()]


class Engine(typing.Protocol):
    """Makes chunks side by side."""

    longest: float
    """How many seconds a batch takes at most, once it is known how long a chunk takes."""

    def slots(self) -> int:
        """How many batches are made at a time."""

    def most(self) -> int:
        """How many batches a wave has at most."""

    def recovered(self, call: Call) -> typing.Iterator[str]:
        """What an earlier run left behind that had been made: nothing, if an engine keeps nothing."""
        return iter(())

    def lines(self, call: Call, batches: list[list[Task]]) -> typing.Iterator[str]:
        """What `point` writes of batches, line by line as they come. To close it ends what is still made."""

    def waiting(self) -> str:
        """What has not answered, for a run that has waited long."""
        return "its engine"

    def close(self) -> None:
        """Ends what the engine started."""


def engine_named(text: str, jobs: int | None, longest: float | None, latency: float | None, out: pathlib.Path) -> Engine:
    """The engine that a word names; results go to `out`. Slurm's files are looked for so many seconds after a job's end."""
    kind, _, at = text.partition(":")
    if jobs is not None and kind in ("ssh", "dask"):
        raise Wrong("--jobs is for --engine local and slurm: ssh:8/one has counts, and dask the threads of its workers")
    engine: Engine
    if kind == "local" and not at:
        from linksim_tools.curve.engines.local import Local

        engine = Local(jobs)
    elif kind == "ssh" and at:
        from linksim_tools.curve.engines.ssh import Ssh

        engine = Ssh(at)
    elif kind == "slurm":
        from linksim_tools.curve.engines.slurm import Slurm

        try:
            options = shlex.split(at)
        except ValueError as error:
            raise Wrong(f"--engine {text}: {error}") from None
        slurm = engine = Slurm(options, jobs, out)
        slurm.latency = slurm.latency if latency is None else latency
    elif kind == "dask" and at:
        from linksim_tools.curve.engines.dask import Dask

        engine = Dask(at)
    else:
        raise Wrong(f"--engine is local, ssh:8/one,16/two, slurm, slurm:OPTIONS of sbatch or dask:ADDRESS, and not {text}")
    if longest is not None:
        engine.longest = longest
    return engine


def detach(engine: Engine, out: pathlib.Path) -> None:
    """Sends the run itself to a cluster, by the words of this one."""
    from linksim_tools.curve.engines.slurm import Slurm

    if not isinstance(engine, Slurm):
        raise Wrong("--detach is for --engine slurm: elsewhere start the run in the background")
    job = engine.detached([str(TOOL), *(word for word in sys.argv[1:] if word != "--detach")])
    say(f"the run is job {job}; {name_of('curve')} status {out} says how far it is")


def first_fault(text: str, otherwise: str) -> str:
    """The first line by which `point` said why it failed, or the last line that there is; notes are no faults."""
    lines = [line for line in text.strip().splitlines() if not line.startswith(tuple(f"{tool}: {NOTE}" for tool in TOOLS))]
    found = [line.partition(": ")[2] for line in lines if line.startswith(tuple(f"{tool}: " for tool in TOOLS))]
    return [*found, *lines[-1:], otherwise][0]
