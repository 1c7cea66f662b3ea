"""linksim-vectors: test vectors of one transmission or of many, and the block sizes that can be segmented."""

from __future__ import annotations

import argparse
import sys

from linksim_tools.common import near
from linksim_tools.common.command_line import Commands, add_out, hint, numbers, write
from linksim_tools.common.program import Failed, name_of
from linksim_tools.conform.bits import PACKINGS
from linksim_tools.rtl import arrays, beats, vectors

ABOUT = """Test vectors: a transport block, its code blocks, their codewords, and the bits that a transmission sends.
All bits are the library's."""
EXAMPLES = """
examples:
  tools/vectors one --table examples/practice.csv --settings examples/settings.toml \\
      --blocks examples/blocks.txt --rv 0 --g 24 --out vector.json
  tools/vectors many --table examples/practice.csv --count 100 --seed 1 --out vectors
  tools/vectors near 100000

docs/vectors.md has the names and the packings of vectors, and docs/rtl.md the other forms.
"""
ONE = """
Writes JSON to a file or to standard output; of another form, memory files to the new or empty folder --out.

example:
  tools/vectors one --table examples/practice.csv --settings examples/settings.toml \\
      --blocks examples/blocks.txt --rv 0 --g 24
  tools/vectors one --table examples/practice.csv --a 8 --payload ones --rate 1024 --g 24
"""
MANY = """
Writes the vectors to a new or empty folder: those of plain lines, as tools/conform plain writes them, or drawn near
the limits of TS 38.212.

example:
  tools/vectors many --table examples/practice.csv --count 100 --form mem --width 64 --out memories
"""
NEAR = """
Writes a line with the segmentation parameters of the size itself, if it can be segmented, and of the next one below
and above.

example:
  tools/vectors near 100000 --rate 1024
"""


def one(given: argparse.Namespace) -> None:
    """The vector of one transmission, as a file or as a folder."""
    if min(given.rv, given.g or 0, given.qm, given.nl, given.fillers, given.ncb or 0) < 0:
        raise Failed("--rv, --g, --qm, --nl, --fillers and --ncb must not be negative")
    if given.form != "json" and (given.g is None or given.graph is not None):
        given.parser.error(f"--form {given.form} needs --g, and a block")
    if given.dir is None and given.form == "json":
        write(vectors.lines(given), given.out)
        return
    given.dir = given.out if given.dir is None else given.dir
    if given.dir == "-":
        given.parser.error(f"--form {given.form} needs --out DIR")
    vectors.write(given)


def many(given: argparse.Namespace) -> None:
    """The vectors of many transmissions, in a folder."""
    given.dir = given.out if given.dir is None else given.dir
    if given.dir is None:
        given.parser.error("--out is required")
    vectors.write(given)


def sizes(given: argparse.Namespace) -> None:
    """The sizes near one."""
    write(near.near(given.rate, given.size), given.out)


def add_payload(command: argparse.ArgumentParser) -> None:
    """Which blocks are sent."""
    command.add_argument("--payload", metavar="P", help="the bits of blocks that no file has: random, ones, or hexadecimal digits")
    command.add_argument("--seed", type=int, default=1, metavar="N", help="draws other vectors, payloads and erasures (1)")


def add_forms(command: argparse.ArgumentParser) -> None:
    """How vectors are written."""
    command.add_argument("--pack", choices=PACKINGS, default="hex", help="how JSON has lists of bits (hex)")
    command.add_argument(
        "--form", choices=("json", *beats.FORMS, *arrays.FORMS), default="json",
        help="JSON, memory files of data or of beats of an AXI4-Stream, files of DPDK's test-bbdev, or octets of a bit each (json)",
    )
    command.add_argument("--op", choices=("ldpc_enc", "ldpc_dec"), default="ldpc_enc", help="with bbdev: the operation (ldpc_enc)")
    said = "with ldpc_dec: the redundancy version of each HARQ round, as 0,2,3,1"
    command.add_argument("--rounds", type=numbers, default=[], metavar="LIST", help=said)
    command.add_argument("--erased", type=float, default=0.1, metavar="P", help="with ldpc_dec: the share of erased bits (0.1)")
    command.add_argument("--width", type=int, default=32, metavar="N", help="the bits of a beat, 1 to 512 (32)")
    command.add_argument(
        "--first", choices=beats.FIRSTS, default="lsb", help="where a beat has its first bit: lowest or highest (lsb)"
    )
    command.add_argument("--dir", help=argparse.SUPPRESS)


def options() -> argparse.ArgumentParser:
    """The command line's parser."""
    commands = Commands("vectors", ABOUT, EXAMPLES)
    single = commands.add("one", one, "writes the vector of one transmission of a block", ONE)
    single.add_argument("--table", metavar="FILE", required=True, help="the shift table")
    single.add_argument("--settings", metavar="FILE", help="the code rate and the limit of the buffer, as TOML")
    single.add_argument("--rate", type=int, default=2048, metavar="N", help="without --settings: the code rate in 2048ths (2048)")
    single.add_argument("--lbrm", type=int, metavar="N", help="without --settings: TBS_LBRM, which limits the buffer")
    single.add_argument("--blocks", metavar="FILE", help="the transport blocks, one a line in hexadecimal; - is standard input")
    single.add_argument("--block", type=int, default=1, metavar="N", help="the number of the block, from 1 (1)")
    single.add_argument("--a", type=int, metavar="N", help="without --blocks: the bits of the block")
    single.add_argument("--rv", type=int, default=0, metavar="N", help="the redundancy version, 0 to 3 (0)")
    single.add_argument("--g", type=int, metavar="N", help="G: how many bits are sent; without it the block alone is written")
    single.add_argument("--qm", type=int, default=1, metavar="N", help="Qm: the bits of a symbol: 1, 2, 4, 6 or 8 (1)")
    single.add_argument("--nl", type=int, default=1, metavar="N", help="NL: the number of layers, 1 to 4 (1)")
    single.add_argument("--mask", default="all", metavar="LIST", help="the code blocks that are sent, as 0,2-3 (all)")
    single.add_argument("--graph", type=int, choices=(1, 2), help="a code block alone, by this base graph and --z")
    single.add_argument("--z", type=int, metavar="N", help="with --graph: the lifting size")
    single.add_argument("--fillers", type=int, default=0, metavar="N", help="with --graph: the last of the K bits are fillers (0)")
    single.add_argument("--ncb", type=int, metavar="N", help="with --graph: the length of the circular buffer (N)")
    add_payload(single)
    add_forms(single)
    add_out(single)
    several = commands.add("many", many, "writes the vectors of many transmissions to a folder", MANY)
    several.add_argument("--table", metavar="FILE", required=True, help="the shift table")
    several.add_argument("--count", type=int, metavar="N", help="the number of vectors: the first lines of --cases, or drawn")
    several.add_argument("--cases", metavar="FILE", help="the vectors of these plain lines")
    add_payload(several)
    add_forms(several)
    add_out(several, "the folder to write, new or empty", None)
    named = commands.add("near", sizes, "names the block sizes nearest to one that can be segmented", NEAR)
    named.add_argument("size", type=int, metavar="A", help="the size in bits")
    named.add_argument("--rate", type=int, default=2048, metavar="N", help="the code rate in 2048ths (2048)")
    add_out(named)
    return commands.parser


def renewed(words: list[str]) -> list[str]:
    """The words of a command, also if they are the options without a command that earlier releases took."""
    if not words or not words[0].startswith("-") or words[0] in ("-h", "--help"):
        return words
    whole = [part for word in words for part in (word.split("=", 1) if word.startswith("--") else [word])]
    if "--near" in whole:
        at = whole.index("--near")
        words = ["near", *whole[at + 1 : at + 2], *whole[:at], *whole[at + 2 :]]
    else:
        words = ["many" if {"--count", "--cases"} & set(whole) else "one", *words]
    hint(name_of("vectors"), f"{name_of('vectors')} {words[0]} ..")
    return words


def main() -> None:
    given = options().parse_args(renewed(sys.argv[1:]))
    if given.does is many and given.count is None and given.cases is None:
        given.parser.error("--count or --cases is required")
    given.does(given)
