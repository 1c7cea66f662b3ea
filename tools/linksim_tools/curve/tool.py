"""linksim-curve: curves of the block error rate over a link that erases bits, after each of several HARQ transmissions."""

from __future__ import annotations

import argparse
import pathlib
import signal
import typing

from linksim_tools.common.command_line import Commands, add_out, hint, numbers, output
from linksim_tools.common.program import PROGRAM, add_program, program_at
from linksim_tools.curve import commands as do
from linksim_tools.curve import setting as settings
from linksim_tools.curve.silence import SILENCE
from linksim_tools.curve.tasks import probability, share_from

ABOUT = "Curves of the block error rate over a link that erases bits, after each of several HARQ transmissions."
EXAMPLES = """
examples, from the repository's top:
  tools/curve run examples/curve.toml --out curve.csv
  tools/curve plot examples/curve.toml curve.csv --out curve.svg

docs/curves.md has the file CONF, the columns, and how to use many machines."""


def count(text: str) -> int:
    """A number from 0 on."""
    value = int(text)
    if value < 0:
        raise ValueError
    return value


def seconds(text: str) -> float:
    """A time from 0 on."""
    value = float(text)
    if not 0 <= value < float("inf"):
        raise ValueError
    return value


def probabilities(text: str) -> list[float]:
    """Probabilities with commas between."""
    return [probability(it) for it in text.split(",")]


# The words of an argument, and what argparse is told of it; and what does a command.
Argument = typing.Tuple[typing.List[str], typing.Dict[str, typing.Any]]
Does = typing.Callable[..., typing.Optional[int]]

RESULTS = "files of results (CONF's name with .csv)"
OUT: Argument = (["--out"], {"metavar": "FILE", "type": pathlib.Path, "help": "the file of results (CONF's name with .csv)"})
FILES: Argument = (["files"], {"metavar": "FILE", "nargs": "*", "help": RESULTS})
MORE: Argument = (["files"], {
    "metavar": "FILE", "nargs": "*", "help": f"{RESULTS}; and the files of further curves, each with its results after it",
})
RUNS: list[Argument] = [
    (["--engine"], {
        "metavar": "NAME", "default": "local", "help": "local, ssh:8/one,16/two, slurm[:OPTIONS of sbatch] or dask:ADDRESS",
    }),
    (["--jobs"], {
        "metavar": "N", "type": count, "help": "how many at a time, with local (one for each core) and slurm (64)",
    }),
    (["--latency-wait"], {
        "metavar": "SECONDS", "type": seconds, "help": "how long Slurm's files are looked for after a job's end (90)",
    }),
]
AT: Argument = (["--at"], {
    "metavar": "P,..", "type": probabilities, "nargs": "+", "help": "at these probabilities (those of the files)",
})
P: Argument = (["p"], {"metavar": "P", "type": probability, "help": "the erasure probability"})
CHUNK: Argument = (["chunk"], {"metavar": "CHUNK", "type": count, "help": "the number of the chunk, from 0"})
CHUNKS: Argument = (["chunk"], {"metavar": "CHUNKS", "type": numbers, "nargs": "+", "help": "numbers of chunks, as 0,4-7"})
AFTER: Argument = (["--after"], {"metavar": "N", "type": count, "help": "after so many transmissions (all where left out)"})


# The commands that print lines of CSV.
PRINTS = ("merge", "status", "pool", "harq", "limits", "sets")


class Curve:
    """The tool's commands."""

    def __init__(self) -> None:
        self.commands = Commands("curve", ABOUT, EXAMPLES)
        self.parser = self.commands.parser

    def add(
        self, name: str, does: Does, about: str, example: str, arguments: typing.Sequence[Argument], runs: str = "",
    ) -> argparse.ArgumentParser:
        """Adds a command of a curve's file, unless its example begins with results. One that prints lines of CSV takes --out for
        them. It `runs` the program for links other than erasures of single bits (`made`), `always`, or never."""
        conf, prints = example.startswith("examples/curve.toml"), name in PRINTS

        def run(given: argparse.Namespace) -> int | None:
            words: list[typing.Any] = [given]
            if conf:
                setting = settings.read_setting(given.conf)
                is_run = runs == "always" or runs == "made" and not setting.is_pooled
                words += [setting, program_at(given.program) if is_run else pathlib.Path(given.program or PROGRAM)]
            with output(given.out if prints else "-"):
                return does(*words)

        command = self.commands.add(name, run, about, f"tools/curve {name} {example}")
        if conf:
            command.add_argument("conf", metavar="CONF", help="the TOML file of the curve")
        for words, options in arguments:
            command.add_argument(*words, **options)
        if prints:
            add_out(command)
        if runs:
            add_program(command)
        else:
            command.add_argument("--program", help=argparse.SUPPRESS)
        return command


def plot(given: argparse.Namespace, *more: typing.Any) -> None:
    """The picture, whose file older forms name before the results."""
    if given.out is None:
        if not given.files:
            given.parser.error("--out is required")
        hint(given.parser.prog, f"{given.parser.prog} CONF FILE.. --out OUT.svg")
        given.out = given.files.pop(0)
    do.do_plot(given, *more)


def report(given: argparse.Namespace, *more: typing.Any) -> None:
    """The page, which older forms name by --html."""
    if given.html is not None:
        hint(given.parser.prog, "--out OUT.html")
    elif given.out is None:
        given.parser.error("--out is required")
    given.html = given.html or given.out
    do.do_report(given, *more)


def failed(given: argparse.Namespace, *more: typing.Any) -> None:
    """The files, whose folder older forms name without an option."""
    if given.folder is not None:
        hint(given.parser.prog, "--out FOLDER")
    elif given.out is None:
        given.parser.error("--out is required")
    given.folder = given.folder or given.out
    do.do_failed(given, *more)


def options() -> argparse.ArgumentParser:
    """The command line's parser."""
    curve = Curve()
    curve.add("point", do.do_point, "writes the CSV lines of chunks", "examples/curve.toml 0.27 0 1 4-7", [
        (["tasks"], {"metavar": "P CHUNK", "nargs": "+", "help": "a probability and chunks, as 0.27 0 1 4-7, or one word "
                     "as 0.27:0-7/0.28:0; - reads such words, one a line"}),
        (["--told"], {"metavar": "DIGITS", "help": "fails if the program, the table or CONF has another SHA-256"}),
        (["--cost"], {"action": "store_true", "help": "writes a line with # ahead of each chunk's: when, where, how long"}),
    ], "made")
    about = "makes all chunks that are wanted; the same command again goes on where it ended"
    curve.add("run", do.do_run, about, "examples/curve.toml --out curve.csv --jobs 4", [
        OUT, *RUNS,
        (["--batch"], {"metavar": "SECONDS", "type": seconds, "help": "how long what is sent at a time takes at most (local 1, "
                       "dask 2, ssh 10, slurm 60)"}),
        (["--silence"], {"metavar": "SECONDS", "type": seconds, "default": SILENCE, "help": "if no chunk comes for this long, "
                         "reports what is waited for (600)"}),
        (["--detach"], {"action": "store_true", "help": "with slurm: sends the run itself as a job, and ends"}),
        (["--estimate"], {"action": "store_true", "help": "makes the first points alone, and says what the run will take"}),
    ], "made")
    about = "writes the lines of files of results, each chunk of a point once, in order"
    curve.add("merge", do.do_merge, about, "one.csv two.csv --out curve.csv", [
        (["files"], {"metavar": "FILE", "nargs": "+", "help": "files of results, - for standard input"}),
        (["--total"], {"action": "store_true", "help": "one line for each point, the sum of its chunks"}),
        (["--missing"], {"metavar": "CONF", "help": "instead lists the chunks that are not there, with status 1 if any"}),
        (["--points"], {"metavar": "P,..", "type": probabilities, "nargs": "+", "help": "with --missing: of these points (CONF's "
                        "and those of the files)"}),
        (["--chunks"], {"metavar": "N", "type": count, "help": "with --missing: so many of each point (up to the greatest)"}),
    ])
    curve.add("status", do.do_status, "says how far a run is, also from another machine", "curve.csv", [
        (["file"], {"metavar": "FILE", "type": pathlib.Path, "help": "the file of results"}),
    ])
    about = "re-runs a random sample of the chunks and compares; status 1 if any differs"
    curve.add("audit", do.do_audit, about, "examples/curve.toml curve.csv --share 1%", [
        FILES,
        (["--share"], {"metavar": "SHARE", "type": share_from, "default": 0.01, "help": "how many of them (1%%)"}),
        (["--seed"], {"metavar": "N", "type": count, "help": "draws them by this number (another one each time)"}),
        (["--restamp"], {"action": "store_true", "help": "takes over chunks of another program or library if those drawn are the "
                         "same: lines get the source of now, and a comment keeps the old one"}),
        *RUNS,
    ], "made")
    about = "writes the rates at any points by the chunks of all, with two intervals (needs numpy)"
    curve.add("pool", do.do_pool, about, "examples/curve.toml curve.csv --at 0.27,0.28", [FILES, AT])
    about = "writes a page with picture, rates and provenance (needs matplotlib and numpy)"
    command = curve.add("report", report, about, "examples/curve.toml curve.csv --out curve.html", [
        FILES, (["--out"], {"metavar": "OUT.html", "type": pathlib.Path, "help": "the page"}),
    ], "made")
    command.add_argument("--html", type=pathlib.Path, help=argparse.SUPPRESS)
    about = "draws the curve with what theory says, or several (needs matplotlib and numpy)"
    curve.add("plot", plot, about, "examples/curve.toml curve.csv --out curve.svg", [
        MORE, (["--out"], {"metavar": "OUT.svg", "help": "the picture; its ending names its form"}),
    ])
    about = "writes rates, mean transmissions, throughput and the p of target rates (needs numpy)"
    curve.add("harq", do.do_harq, about, "examples/curve.toml curve.csv --plot harq.svg", [
        MORE, AT,
        (["--plot"], {"metavar": "OUT.svg", "type": pathlib.Path, "help": "draws them too (needs matplotlib)"}),
    ])
    about = "writes the erasure limit and the density evolution threshold after each transmission"
    curve.add("limits", do.do_limits, about, "examples/curve.toml", [])
    about = "counts by size the stopping sets on which the rounds of chunks are stuck"
    curve.add("sets", do.do_sets, about, "examples/curve.toml 0.3 0,4-7 --after 1", [P, CHUNKS, AFTER], "always")
    about = "writes the four files of a chunk's failed rounds, and the command of audit"
    command = curve.add("failed", failed, about, "examples/curve.toml 0.3 0 --out failed", [P, CHUNK, AFTER], "always")
    command.add_argument("folder", nargs="?", help=argparse.SUPPRESS)
    add_out(command, "where the files are written, new or empty", None)
    return curve.parser


def main() -> int | None:
    # A signal that ends the tool is an interruption, which leaves no temporary file.
    signal.signal(signal.SIGTERM, signal.default_int_handler)
    given = options().parse_args()
    for name, word in (("at", "--at P,P"), ("points", "--points P,P"), ("chunk", "CHUNK,CHUNK")):
        lists = getattr(given, name, None)
        if isinstance(lists, list):
            if len(lists) > 1:
                hint(given.parser.prog, word)
            setattr(given, name, [it for some in lists for it in some])
    status: int | None = given.does(given)
    return status
