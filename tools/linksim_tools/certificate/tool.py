"""Certificates of what a receiver concludes about transport blocks, which anyone can check with one file.

    tools/certify --table F --settings F --blocks F --schedule F [--block N]

For each block of a run, or each round of a HARQ process, it writes what arrived, the steps by which the check rows fix the code
blocks, and the outcome, as lines of JSON (docs/certificates.md). tools/verify checks them.
"""

from __future__ import annotations

import argparse

from linksim_tools.certificate.rounds import rounds
from linksim_tools.certificate.writing import certificate
from linksim_tools.common import faults
from linksim_tools.common.program import Failed, Wrong, add_program, as_installed, name_of, program_at

EXAMPLES = """
example:
  tools/certify --table examples/practice.csv --settings examples/settings.toml \\
      --blocks examples/blocks.txt --schedule examples/losses.csv > certificates.jsonl

Exit status: 0 if the certificates are written, 1 if a file is rejected, 2 for a usage error.
"""
OUTCOMES = {"delivered": "delivered", "open": "undecided", "contradiction": "inconsistent"}


def options() -> argparse.ArgumentParser:
    """The command line's parser."""
    parser = argparse.ArgumentParser(
        prog=name_of("certify"), description="Certificates of what a receiver concludes about transport blocks.",
        epilog=as_installed("certify", EXAMPLES), formatter_class=argparse.RawDescriptionHelpFormatter,
    )
    for name in faults.READS["run"]:
        parser.add_argument(f"--{name}", metavar="FILE", required=True, help=faults.FILES[name].about)
    parser.add_argument("--block", type=int, metavar="N", help="only the certificates of this block, from 1")
    add_program(parser)
    return parser


def main() -> int:
    given = options().parse_args()
    words = {name: getattr(given, name) for name in faults.READS["run"]}
    count = 0
    for one in rounds(program_at(given.program), words):
        if given.block not in (None, one.ended.block):
            continue
        lines = certificate(one.table, 8 * len(one.block), one.receptions(), rate2048=one.rate2048, lbrm=one.lbrm)
        for at, line in enumerate(lines):
            if not at and f'"outcome": "{OUTCOMES[one.ended.outcome]}"' not in line:
                raise Failed(f"block {one.ended.block}: the library and the program differ in the outcome: {line[:80]}")
            print(line)
        count += 1
    if not count:
        raise Wrong(f"there is no block {given.block}")
    return 0
