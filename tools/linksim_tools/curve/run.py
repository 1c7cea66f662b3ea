"""A run of a curve: which chunks are wanted next, made by an engine, and kept in the file of results as they come."""

from __future__ import annotations

import contextlib
import dataclasses
import datetime
import io
import os
import pathlib
import sys
import typing

from linksim_tools.common.program import Failed, name_of, named_in_faults
from linksim_tools.curve import head, outlook, plan
from linksim_tools.curve.draws import threshold_of
from linksim_tools.curve.engines import Call, Engine
from linksim_tools.curve.making import shape_of, simulator_of
from linksim_tools.curve.packages import numpy_for
from linksim_tools.curve.results import (
    Line, comments_of, header, line_from, log_of, merged, note, results_file, rewrite, say, two_sources
)
from linksim_tools.curve.silence import SILENCE, Silence
from linksim_tools.curve.source import Watch, source_of
from linksim_tools.curve.tasks import Costs, batches

if typing.TYPE_CHECKING:
    from linksim_tools.curve.making import Task
    from linksim_tools.curve.setting import Setting

# The log of earlier versions stood in place of the file's ending.
OLD_LOG = "time,host,p,chunk,seconds"
LOG_HEADER = "time,host,p,chunk,seconds,maker"


class Rule:
    """Which chunks a run wants next. A wave follows from the file and from all waves before it, never from what makes them or
    when. So it is found again after an interruption, and the same chunks are made everywhere."""

    def __init__(self, setting: Setting) -> None:
        self.setting = setting
        self.shape = shape_of(setting) if setting.width else None
        self.numpy = numpy_for("the key width") if setting.width else None
        self.past: list[Line] = []

    def wave(self, lines: list[Line]) -> tuple[list[Task], list[Task] | None]:
        """The wave that follows on these lines, and all that will probably be made from now on, if that is known by the way."""
        if not self.shape:
            return outlook.wave(self.setting, lines), None
        return plan.wave(self.setting, self.shape, lines, self.numpy)

    def next(self, lines: list[Line]) -> tuple[list[Task], list[Task] | None]:
        """What is made next if these lines are there, and all that will probably be made from now on; nothing if that cannot be
        said. Waves of which all is there are over. If there are chunks of no wave, what comes is planned by all lines."""
        there = {line.key(): line for line in lines}
        while True:
            tasks, foreseen = self.wave(self.past)
            keys = [(threshold_of(p), chunk) for p, chunk in tasks]
            rest = [task for task, key in zip(tasks, keys) if key not in there]
            if not tasks or rest:
                break
            self.past += [there[key] for key in keys]
        if rest and len(self.past) + len(tasks) - len(rest) < len(there):
            rest, foreseen = self.wave(lines)
        if not self.shape:
            return rest, outlook.outlook(self.setting, lines)
        return rest, [task for task in foreseen if (threshold_of(task[0]), task[1]) not in there] if foreseen else foreseen

    def is_told(self, tasks: list[Task], foreseen: list[Task] | None) -> bool:
        """Whether an estimate can be made: what comes is foreseen; or the grid is there, and very much comes."""
        return foreseen is not None or not self.shape and not outlook.has_grid(self.setting, tasks)


def judge_kept(call: Call, path: pathlib.Path, lines: list[Line]) -> None:
    """Fails if earlier results come from another program, table or setting."""
    for line in lines:
        if line.source != call.source.text():
            said = two_sources({call.source.text(): f"{call.setting.path} now", line.source: path})
            raise Failed(f"{said}; to start again, remove {path}, or name another file by --out")


@dataclasses.dataclass
class Kept:
    """The file of results and its log, and the lines that are there."""

    call: Call
    path: pathlib.Path
    file: io.FileIO
    lines: list[Line]
    costs: Costs
    keys: set[tuple[int, int]] = dataclasses.field(default_factory=set)
    has_noted: bool = False

    @property
    def log(self) -> pathlib.Path:
        """The log beside the results: who made which chunk, when, how many seconds of a processor it took, and by what."""
        return log_of(self.path)

    def begin(self) -> None:
        """Reads the log, takes away what was cut off in the last line of results, and writes the header of a new file."""
        judge_kept(self.call, self.path, self.lines)
        self.keys.update(line.key() for line in self.lines)
        old = self.path.with_suffix(".log")
        if not self.log.exists() and old.is_file() and old.read_text(errors="replace").startswith(OLD_LOG):
            old.replace(self.log)
        if self.log.exists():
            for line in self.log.read_text(errors="replace").splitlines():
                self.learn(line)
        self.file.seek(0)
        text = self.file.read()
        whole = 1 + max(map(text.rfind, (b"\n", b"\r")))
        if whole < len(text):
            self.file.truncate(whole)
        if not whole:
            self.put("\n".join([*head.of(self.call.setting, self.call.program), header(len(self.call.setting.rvs))]))

    def expect(self, tasks: list[Task], foreseen: list[Task] | None) -> None:
        """Says in the log what comes, for `status`."""
        now = datetime.datetime.now(datetime.timezone.utc).isoformat(timespec="seconds")
        self.put_log(f"# {now},{len(self.lines)},{len(tasks)},{'' if foreseen is None else len(foreseen)}")

    def learn(self, text: str) -> tuple[float, int] | None:
        """The cost of a line of the log, if it is one."""
        fields = text.split(",")
        try:
            p, chunk, seconds = float(fields[2]), int(fields[3]), float(fields[4])
        except (IndexError, ValueError):
            return None
        self.costs.add(p, seconds)
        return p, chunk

    def put(self, text: str) -> None:
        """Writes a line of results, which is then on the disk."""
        octets = f"{text}\n".encode()
        if not self.file.writable():
            raise Failed(f"{self.path} cannot be written, and chunks are to come")
        with named_in_faults(self.path):
            while octets:
                octets = octets[self.file.write(octets) :]
            os.fsync(self.file.fileno())

    def settle(self) -> None:
        """Puts the lines in order, by point and chunk: two runs of one file then end with the same octets."""
        if self.lines:
            rewrite(self.path, comments_of(self.path), self.lines)

    def put_log(self, text: str) -> None:
        """Writes a line of the log, and its header before the first."""
        with named_in_faults(self.log), open(self.log, "a", encoding="utf-8") as file:
            file.write(f"{text}\n" if file.tell() else f"{LOG_HEADER}\n{text}\n")

    def take(self, text: str) -> Line | None:
        """Keeps what `point` wrote: a chunk, which is given back if it was not there yet, or what it cost."""
        if text.startswith("# "):
            self.learn(text[2:].strip())
            self.put_log(text[2:].strip())
            return None
        line = line_from(text)
        if line is None:
            raise Failed(f"point wrote no line of results: {text.strip()}")
        if line.source != self.call.source.text():
            raise Failed(f"point made a chunk of another source, {line.source}: nothing of it is kept")
        if line.key() in self.keys:
            return None
        self.put(line.text())
        self.keys.add(line.key())
        self.lines.append(line)
        return line


@contextlib.contextmanager
def kept(call: Call, out: pathlib.Path) -> typing.Iterator[Kept]:
    """The file of results of a run, and what is in it. A failure that comes ahead of the first chunk leaves no new file."""
    new = [path for path in (out, log_of(out)) if not path.exists()]
    with results_file(out) as file:
        found = Kept(call, out, file, merged([out]), Costs())
        try:
            found.begin()
            yield found
        except Failed:
            for path in [] if found.lines or found.costs.sums else new:
                path.unlink(missing_ok=True)
            raise


def run(
    setting: Setting, program: pathlib.Path, out: pathlib.Path, engine: Engine, only_estimate: bool = False,
    silence: float = SILENCE,
) -> None:
    """Makes all chunks that are wanted, each written to the file of results as soon as it is there."""
    with contextlib.closing(engine):
        if setting.is_pooled:
            simulator_of(setting)  # which says what the library rejects, before anything is written
        watch, call = Watch(setting, program), Call(setting, program, source_of(setting, program))
        rule, bar = Rule(setting), outlook.Bar()
        with kept(call, out) as found, going_on(found), contextlib.closing(bar):
            for text in engine.recovered(call):
                line = line_from(text)
                if line and line.source == call.source.text():
                    found.take(text)
            while True:
                watch.judge()
                tasks, foreseen = rule.next(found.lines)
                if not tasks or only_estimate and rule.is_told(tasks, foreseen):
                    break
                bar.expect(len(tasks), None if foreseen is None else len(foreseen))
                found.expect(tasks, foreseen)
                for line in made(engine, found, tasks, silence):
                    watch.judge()
                    bar.step(line.p)
            if only_estimate:
                say_estimate(found, outlook.foreseen_of(setting, found.lines) if foreseen is None else foreseen, engine.slots())
                return
            bar.finish()
            found.settle()
        print(f"{name_of('curve')}: {len(found.lines)} chunks are in {out}", file=sys.stderr)


@contextlib.contextmanager
def going_on(found: Kept) -> typing.Iterator[None]:
    """Says of a run that is interrupted what is kept of it."""
    try:
        yield
    except KeyboardInterrupt:
        say(f"{len(found.lines)} chunks are in {found.path}: the same command goes on from there")
        raise


def made(engine: Engine, found: Kept, tasks: list[Task], silence: float) -> typing.Iterator[Line]:
    """The chunks of a wave as they come. If none comes for so many seconds, what is waited for is reported."""
    slots, setting = engine.slots(), found.call.setting
    shares = batches(tasks, found.costs, engine.longest, slots, engine.most())
    if setting.wave <= len(tasks) == len(shares) < slots and found.costs.sums and not found.has_noted:
        found.has_noted = True
        note(f"{len(tasks)} of {slots} slots have work, because a wave has {setting.wave} chunks: wave = {slots} in {setting.path} "
             "gives work to all")
    texts = typing.cast("typing.Generator[str, None, None]", engine.lines(found.call, shares))
    with contextlib.closing(texts), Silence(silence, engine.waiting) as watch:
        for text in texts:
            watch.heard()
            line = found.take(text)
            if line:
                yield line


def say_estimate(found: Kept, foreseen: list[Task], slots: int) -> None:
    """What a run will take still: by point the chunks that are there, those to come, and their hours of a core."""
    if foreseen and not found.costs.sums:
        raise Failed(f"{found.log} does not say how long a chunk took: {len(foreseen)} chunks or more are to come")
    print("p,chunks,to_come,core_hours")
    total = 0.0
    for p in sorted({line.p for line in found.lines} | {p for p, _ in foreseen}):
        there, coming = sum(line.p == p for line in found.lines), sum(other == p for other, _ in foreseen)
        hours = coming * found.costs.of(p) / 3600
        total += hours
        print(f"{p!r},{there},{coming},{hours:.4f}")
    core, here = (str(datetime.timedelta(seconds=round(3600 * total / count))) for count in (1, slots))
    about = "more than" if len(foreseen) > outlook.MOST and not found.call.setting.width else "about"
    say(f"{about} {core} hours of a core for {len(foreseen)} chunks, {here} with {slots} at a time")
