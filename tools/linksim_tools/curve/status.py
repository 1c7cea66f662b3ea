"""How far a run is, by its file of results and the log beside it: on any machine that sees them."""

from __future__ import annotations

import contextlib
import datetime
import fcntl
import pathlib
import typing

from linksim_tools.common.program import Failed
from linksim_tools.curve.results import lines_from, log_of


class Wave(typing.NamedTuple):
    """What a run planned when a wave began: how many chunks there were then, how many the wave has, and how many in all are
    foreseen, or None."""

    begun: datetime.datetime
    there: int
    chunks: int
    foreseen: typing.Optional[int]


def moment(text: str) -> datetime.datetime | None:
    """The time that a text of the log says, or None."""
    try:
        found = datetime.datetime.fromisoformat(text)
    except ValueError:
        return None
    return found if found.tzinfo else None


def wave_from(text: str) -> Wave | None:
    """The wave that a line of the log announces, or None."""
    fields = text[2:].split(",")
    begun = moment(fields[0]) if text.startswith("# ") else None
    if begun is None or len(fields) != 4 or not all(field.isdecimal() for field in fields[1:3]):
        return None
    return Wave(begun, int(fields[1]), int(fields[2]), int(fields[3]) if fields[3].isdecimal() else None)


def is_running(path: pathlib.Path) -> bool:
    """Whether a run has the file locked."""
    with open(path, "rb") as file, contextlib.suppress(OSError):
        try:
            fcntl.flock(file, fcntl.LOCK_SH | fcntl.LOCK_NB)
        except BlockingIOError:
            return True
    return False


def duration(seconds: float) -> str:
    """A time as hours, minutes and seconds."""
    return str(datetime.timedelta(seconds=round(seconds)))


def lines(path: pathlib.Path, now: datetime.datetime) -> typing.Iterator[str]:
    """What is known of a run, a line each."""
    if not path.is_file():
        raise Failed(f"{path}: there is no file of results")
    there = lines_from(path)
    rounds, points = sum(line.rounds for line in there), len({line.p for line in there})
    yield f"{path}: {len(there)} chunks at {points} points, {rounds:,} rounds"
    log = log_of(path).read_text(errors="replace").splitlines() if log_of(path).exists() else []
    made = [(moment(fields[0]), fields[1]) for fields in (text.split(",") for text in log) if len(fields) in (5, 6)]
    last, host = next(((time, host) for time, host in reversed(made) if time), (None, ""))
    if last:
        yield f"last chunk {duration((now - last).total_seconds())} ago, made by {host}"
    running = is_running(path)
    yield "a run writes there now" if running else "no run has the file locked"
    wave = next((wave for wave in map(wave_from, reversed(log)) if wave), None)
    if wave is None:
        return
    done = len(there) - wave.there
    coming, left = max(0, wave.chunks - done), max(0, (wave.foreseen or wave.chunks) - done)
    rest = "how many follow is not known yet" if wave.foreseen is None else f"about {left} in all"
    yield f"{coming} chunks of this wave are to come; {rest}"
    seconds = (last - wave.begun).total_seconds() if last else 0.0
    if running and done > 0 and left and seconds > 0:
        yield f"about {duration(left * seconds / done)} left for these, at {60 * done / seconds:.1f} chunks a minute"
