"""On which stopping sets the rounds of a chunk are stuck: `audit` of its rounds, and the sets counted by size."""

from __future__ import annotations

import collections
import pathlib
import shlex
import typing

from linksim_tools.common.program import Failed, name_of
from linksim_tools.curve.chunks import failed_rounds, lines_of, parts_of, schedule_of, sendings_of, write_files

if typing.TYPE_CHECKING:
    from linksim_tools.curve.setting import Setting
    from linksim_tools.curve.theory import Code


def short_path(path: pathlib.Path) -> str:
    """A path as it is seen from the current folder, if it is below it."""
    path, here = pathlib.Path(path), pathlib.Path.cwd()
    return str(path.relative_to(here) if here in path.parents else path)


def stuck_sets(
    setting: Setting, program: pathlib.Path, code: Code, p: float, chunk: int, after: int
) -> typing.Iterator[tuple[int, int, list[int], int]]:
    """The code blocks that are stuck after so many transmissions. Each has its round, its number in the block, the
    positions that are not fixed, and how many of them are below K'."""
    for part in parts_of(setting, p, range(setting.rounds), after):
        schedule = schedule_of(setting, sendings_of(setting, p, chunk, part, after))
        with lines_of(program, "audit", setting, schedule) as lines:
            for index, line in enumerate(lines):
                words = line.split()
                if words[2] == b"stuck":
                    places = [int(word) for word in words[6:]]
                    below = sum(place < code.plan["kdash"] for place in places)
                    yield part[index // code.plan["c"]], int(words[4]), places, below


def count_sets(found: list[tuple[int, int, list[int], int]]) -> list[tuple[int, int, int]]:
    """How many code blocks are stuck on how many positions, of which how many are below K', the smallest sets first."""
    counts = collections.Counter((len(places), below) for _, _, places, below in found)
    return [(size, below, count) for (size, below), count in sorted(counts.items())]


def write_failed(
    setting: Setting, program: pathlib.Path, p: float, chunk: int, after: int, folder: str
) -> tuple[list[int], str | None]:
    """Writes the files of the rounds of a chunk that fail after so many transmissions, and those alone, into a folder.
    It answers the rounds, and the command that shows what they are stuck on. If none fails, nothing is written."""
    there = pathlib.Path(folder)
    if there.is_dir() and any(there.iterdir()):
        raise Failed(f"{folder} exists and is not empty")
    turns = failed_rounds(setting, program, p, chunk, after)
    if not turns:
        return turns, None
    if len(parts_of(setting, p, turns, after)) > 1:
        raise Failed(f"{len(turns)} rounds failed, more than one schedule takes: use {name_of('curve')} sets, or a lower p")
    there.mkdir(parents=True, exist_ok=True)
    words = write_files(setting, there, schedule_of(setting, sendings_of(setting, p, chunk, turns, after)))
    return turns, shlex.join([short_path(program), "audit", *words])
