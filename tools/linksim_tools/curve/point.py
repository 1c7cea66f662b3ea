"""`point`: the lines of chunks, made one after the other by one process."""

from __future__ import annotations

import datetime
import os
import pathlib
import sys
import typing

from linksim_tools.curve.making import Maker
from linksim_tools.curve.source import Watch, judge_told, source_of
from linksim_tools.curve.tasks import tasks_from

if typing.TYPE_CHECKING:
    from linksim_tools.curve.making import Task
    from linksim_tools.curve.setting import Setting


def processor_seconds() -> float:
    """How long this process and those that it waited for had a processor."""
    spent = os.times()
    return spent.user + spent.system + spent.children_user + spent.children_system


def words_given(words: typing.Sequence[str]) -> typing.Iterator[list[Task]]:
    """The chunks of the words, or of each line of standard input."""
    if list(words) != ["-"]:
        yield tasks_from(words)
        return
    for line in iter(sys.stdin.readline, ""):
        yield tasks_from(line.split())


def point(setting: Setting, program: pathlib.Path, words: typing.Sequence[str], told: str | None, cost: bool) -> None:
    """Writes the line of each chunk as soon as it is made. With `cost` it comes after a line that says when and where
    it was made, and how many seconds of a processor it took."""
    if list(words) != ["-"]:
        tasks_from(words)
    watch = Watch(setting, program)
    source = source_of(setting, program)
    if told is not None:
        judge_told(told, source)
    maker = Maker(setting, program, source, watch)
    for tasks in words_given(words):
        for task in tasks:
            before = processor_seconds()
            line = maker.line(task)
            if cost:
                now = datetime.datetime.now(datetime.timezone.utc).isoformat(timespec="seconds")
                spent = processor_seconds() - before
                maker_name = "library" if maker.simulator else "program"
                print(f"# {now},{os.uname().nodename},{line.p!r},{line.chunk},{spent:.4f},{maker_name}")
            print(line.text(), flush=True)
