"""Explains errors of linksim, and shows the line of your file that caused each.

    tools/explain NAME..
    tools/explain about
    tools/explain COMMAND --table F --settings F --blocks F --schedule F
    tools/explain outcome --table F --settings F --blocks F --schedule F [--html PAGE | --json | --csv] [--sent]
    tools/explain outcome --json | --csv [--sent]
    tools/explain chain --html PAGE (--vector F --table F | --suite F --case ID | --table F .. --schedule F [--block N])

The first form prints for each name, such as `Unknown` or `Core`, what is wrong and what to do. The second one reports which
program this is: its version, its digest, how it was built, and what the prover said of it. The third one runs `linksim COMMAND`
with the same options, and shows the path, key, line, record or field that is rejected, and what the system reports about a file
that cannot be read. `outcome` writes the lines of blocks and the total of `run`, and explains why a block is undecided. With --json
or --csv it writes what `run` prints for other programs to read, also from a text of `run` on standard input. `chain` draws a
transport block, its bits as they are sent and received, and all that is between them, as one page.
"""

from __future__ import annotations

import argparse
import pathlib
import sys
import typing

from linksim_tools.common import explanation, faults, provenance
from linksim_tools.common.message import shown
from linksim_tools.common.program import Wrong, add_program, as_installed, name_of, program_at
from linksim_tools.outcome import command as outcomes
from linksim_tools.outcome import records

EXAMPLES = """
examples:
  tools/explain about
  tools/explain Unknown Core
  tools/explain check --table table.csv
  tools/explain run --table examples/practice.csv --settings examples/settings.toml \\
      --blocks examples/blocks.txt --schedule examples/losses.csv
  tools/explain outcome --table examples/practice.csv --settings examples/settings.toml \\
      --blocks examples/blocks.txt --schedule examples/losses.csv --html outcome.html
  linksim run --table examples/practice.csv --settings examples/settings.toml \\
      --blocks examples/blocks.txt --schedule examples/losses.csv | tools/explain outcome --json
  tools/explain chain --html chain.html --table examples/practice.csv --settings examples/settings.toml \\
      --blocks examples/blocks.txt --schedule examples/losses.csv --block 2

Exit status: 0 if nothing is rejected, 1 if something is, 2 for a usage error.
"""


def options() -> argparse.ArgumentParser:
    """The command line's parser."""
    parser = argparse.ArgumentParser(
        prog=name_of("explain"), description="Explain errors of linksim, and show the line of your file that caused each.",
        epilog=as_installed("explain", EXAMPLES), formatter_class=argparse.RawDescriptionHelpFormatter,
    )
    said = "names of errors; or cut, check, send, run, audit, outcome or chain; or about"
    parser.add_argument("words", nargs="+", metavar="NAME", help=said)
    for name, kind in faults.FILES.items():
        parser.add_argument(f"--{name}", metavar="FILE", help=kind.about)
    parser.add_argument("--rate", metavar="N", help="with cut: the code rate in 2048ths (default: 2048)")
    parser.add_argument("--html", metavar="FILE", help="with outcome or chain: the page to write")
    form = parser.add_mutually_exclusive_group()
    form.add_argument("--json", dest="form", action="store_const", const="json", help="with outcome: write a JSON object a line")
    form.add_argument("--csv", dest="form", action="store_const", const="csv", help="with outcome: write a record a line")
    parser.add_argument("--sent", action="store_true", help="with --json or --csv: write the sent bits too")
    parser.add_argument("--vector", metavar="FILE", help=f"with chain: a vector, as {name_of('vectors')} writes it")
    said = f"with chain: a suite of {name_of('conform')}, for encoders or receivers"
    parser.add_argument("--suite", metavar="FILE", help=said)
    parser.add_argument("--case", metavar="ID", help="with chain: the case of the suite")
    parser.add_argument("--block", type=int, default=1, metavar="N", help="with chain: the block of the run (default: 1)")
    add_program(parser)
    return parser


def meanings(words: typing.List[str]) -> typing.List[str]:
    """What each name means."""
    lines: typing.List[str] = []
    for word in words:
        found = faults.named(word)
        if not found:
            raise Wrong(f"there is no error {shown(word)}")
        for of, fault in found:
            lines.append(f"{of} {fault.head}".strip())
            lines += [f"  {fault.cause}", f"  {fault.remedy}"]
            if fault.name == "Uneven":
                lines.append(f"  `{name_of('vectors')} near A` and nr.near(A) name the sizes nearest to A that can be segmented")
    return lines


def about(program: pathlib.Path) -> list[str]:
    """Which program and library these are, how they were built as far as that is known, and which specification they follow."""
    import nr

    source = provenance.source_of(program)
    build = provenance.built() or provenance.build_of_checkout()
    lines = [f"linksim {source.program}", f"program {program}", f"program sha256 {source.program_sha256}"]
    lines += [f"nr {source.library}", f"library {nr.library_path()}", f"library sha256 {provenance.digest_of(nr.library_path())}"]
    lines += [f"specification {source.specification}", f"tools {source.tools}"]
    lines += [f"{name} {build[name]}" for name in ("kit", "logic", "compiler", "commit") if name in build]
    return lines + [f"verdict {line}" for line in provenance.verdicts()]


def main() -> int:
    parser = options()
    given = parser.parse_args()
    named = {name: getattr(given, name) for name in [*faults.FILES, "rate"] if getattr(given, name) is not None}
    command, *more = given.words
    if given.words == ["about"] and not named:
        print("\n".join(about(program_at(given.program))))
        return 0
    if given.words == ["chain"]:
        if not given.html:
            parser.error("chain needs --html")
        from linksim_tools.chain.command import write  # which needs the library

        return write(given)
    if given.words == ["outcome"] and given.form and not named:
        return records.copied(sys.stdin.buffer, sys.stdout, given.form, given.sent)
    if given.words == ["outcome"] and named:
        if list(named) != faults.READS["run"]:
            parser.error("outcome needs --table, --settings, --blocks and --schedule")
        if given.form:
            return records.ran(program_at(given.program), named, sys.stdout, given.form, given.sent)
        lines, status = outcomes.told(program_at(given.program), named, given.html)
        print("\n".join(lines))
        return status
    if command not in faults.READS and not named:
        print("\n".join(meanings(given.words)))
        return 0
    if command not in faults.READS or more:
        parser.error("files need a command: cut, check, send, run or audit")
    lines, status = explanation.explained(program_at(given.program), command, named, explanation.stdin_of(named))
    print("\n".join(lines))
    return status
