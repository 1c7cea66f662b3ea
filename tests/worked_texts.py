"""Inputs of the program's runs, and the texts that it is to write of them. Some are those of the README's worked
examples. Others follow from TS 38.212 by hand, as the practice tables' parity columns are sums and rotations of
columns."""

from __future__ import annotations

import pathlib

from linksim_tools.common import faults

ROOT = pathlib.Path(__file__).resolve().parent.parent
VERSION = (ROOT / "VERSION").read_text().strip()


def both_graphs() -> str:
    """The practice table, and one of base graph 1 in its manner. Each core row has every other information column, and
    each further row two entries."""
    records = []
    for row, tail in enumerate([[22, 23], [22, 23, 24], [24, 25], [22, 25]]):
        records += [(row, column, 0) for column in [*range(row % 2, 22, 2), *tail]]
    for row in range(4, 46):
        records += [(row, row % 22, row), (row, 22 + row, 0)]
    lines = [f"1,{row},{column}" + f",{value}" * 8 + "\n" for row, column, value in records]
    return (ROOT / "examples" / "practice.csv").read_text() + "".join(lines)


# The octets 1, 2, .. 250, 0, 1, ..; of 37 and of 479 of them is a transport block.
COUNTING = bytes((place + 1) % 251 for place in range(479))

# The files beside the examples. At the rate 0.25 both long blocks take base graph 2, and have two code blocks. At the
# highest rate 37 octets take base graph 1.
INPUTS = {
    "one.txt": "01\n",
    "two.txt": "01\naf3c\n",
    "zeros.txt": "00" * 480 + "\n",
    "counting.txt": f"{COUNTING.hex()}\n" * 2,
    "short.txt": f"{COUNTING[:37].hex()}\n",
    "low.toml": "rate2048 = 512\n",
    "limited.toml": "rate2048 = 1024\nlbrm = 9\n",
    "both.csv": both_graphs(),
    "short.csv": "block,rv,g,qm,nl,erase\n1,0,1056,4,1,-\n",
    # The bits after the two punctured columns of both code blocks, and then all. Then come all of the same block, and
    # all with a flipped place of the second code block.
    "long.csv": "block,rv,g,qm,nl,erase,flip\n1,0,3072,1,1,-,-\n1,2,20544,8,4,-,-\n"
    "2,3,20544,6,2,-,-\n2,1,20544,4,1,-,10300\n",
    "fields.csv": "block,rv,g,qm,nl,erase,flip,mask\n1,0,8,1,1,pcg:42:7,0-3 5,all\n1,0,8,1,1,4 6-7,-,0\n",
    # All of the buffer of block 01; 24 bits of it, by four a symbol; and places and code blocks by lists.
    "whole.csv": "block,rv,g,qm,nl,erase\n1,0,184,1,1,-\n",
    "symbols.csv": "block,rv,g,qm,nl,erase\n1,0,24,4,1,-\n",
    "lists.csv": "block,rv,g,qm,nl,erase,flip,mask\n1,0,8,1,1,1-2 4,3,0 2\n1,1,8,1,1,pcg:1:7,-,all\n",
    "rounds.csv": "block,rv,g,qm,nl,erase,flip,mask,process,fresh\n1,0,24,1,1,-,-,all,0,1\n1,0,24,1,1,-,-,all,15,1\n"
    "1,0,28,1,1,0-23,-,all,0,0\n1,0,32,1,1,-,-,all,0,1\n",
}


def stuck(columns: list[int], before: str = "stuck 1 0") -> str:
    """The line of a code block that is stuck on these columns of its codeword, each of four positions."""
    positions = [4 * column + at for column in columns for at in range(4)]
    return f"{before} {len(positions)} {' '.join(map(str, positions))}"


CUT_01 = """block 1 a 8 b 24 graph 2 c 1 l 0 kdash 24 kb 6 z 4 set 0 k 40 n 200
attached 1 011021
code 1 0 011021
"""

CUT_TWO = f"""{CUT_01}block 2 a 16 b 32 graph 2 c 1 l 0 kdash 32 kb 6 z 6 set 1 k 60 n 300
attached 2 af3cfa9f
code 2 0 af3cfa9f
"""

CUT_EXAMPLES = f"""{CUT_01}block 2 a 8 b 24 graph 2 c 1 l 0 kdash 24 kb 6 z 4 set 0 k 40 n 200
attached 2 809188
code 2 0 809188
block 3 a 72 b 88 graph 2 c 1 l 0 kdash 88 kb 6 z 15 set 7 k 150 n 750
attached 3 31323334353637383931c3
code 3 0 31323334353637383931c3
"""

CUT_ZEROS = f"""block 1 a 3840 b 3864 graph 2 c 2 l 24 kdash 1956 kb 10 z 208 set 6 k 2080 n 10400
attached 1 {"0" * 966}
code 1 0 {"0" * 489}
code 1 1 {"0" * 489}
"""

SENT_EXAMPLES = """sent 1 1 1021033022000008108800000240220000081088000002
sent 2 1 000a51
sent 3 1 8000002102
sent 4 2 91880909
refused 5 1 Rv
"""

RUN_EXAMPLES = """sent 1 1 102103
left 1 1 0 4
sent 2 1 1021033
left 2 1 0 0
sent 3 2 9188090981000020
left 3 2 0 3
refused 4 2 Rv
sent 5 3 0d4d8dce0e4c70c0005ff6ee88
left 5 3 0 0
block 1 delivered tx 2 failed 0 of 1 01
block 2 open tx 1 failed 1 of 1
block 3 contradiction tx 1 failed 0 of 1
total blocks 3 delivered 1 open 1 contradiction 1 codeblocks 3 failed 1
"""

AUDIT_EXAMPLES = """order 1 0 164
stuck 2 0 14 6 14 22 61 87 93 103 125 135 141 167 173 183 205
order 3 0 614
"""

# Columns 2 and 3 are heard, with both bits where the link flips them, and 6 to 9 are fillers.
HEARD = [2, 3, 6, 7, 8, 9]
FIELDS = {
    "send": "sent 1 1 10\nsent 2 1 10\n",
    "run": "sent 1 1 10\nleft 1 1 0 16\nsent 2 1 10\nleft 2 1 0 16\nblock 1 open tx 2 failed 1 of 1\n"
    "total blocks 1 delivered 0 open 1 contradiction 0 codeblocks 1 failed 1\n",
    "audit": stuck([at for at in range(52) if at in range(10, 14) or at % 10 not in HEARD]) + "\n",
}

# The 184 bits that are ever sent of block 01. The two punctured columns are what peeling fixes.
ALL_OF_01 = "1021033022000008108800000240220000081088000002"
WHOLE = {
    "send": f"sent 1 1 {ALL_OF_01}\n",
    "run": f"sent 1 1 {ALL_OF_01}\nleft 1 1 0 0\nblock 1 delivered tx 1 failed 0 of 1 01\n"
    "total blocks 1 delivered 1 open 0 contradiction 0 codeblocks 1 failed 0\n",
    "audit": "order 1 0 8\n",
}

# 24 bits leave column 1, and with it columns 12 and 13 and the rotations of column 1.
WITHOUT_COLUMN_1 = [1, 12, 13, 21, 31, 41, 51]
SYMBOLS = {
    "send": "sent 1 1 000a51\n",
    "run": "sent 1 1 000a51\nleft 1 1 0 4\nblock 1 open tx 1 failed 1 of 1\n"
    "total blocks 1 delivered 0 open 1 contradiction 0 codeblocks 1 failed 1\n",
    "audit": stuck(WITHOUT_COLUMN_1) + "\n",
}

# A buffer of 13 bits, in which both versions begin with columns 2 and 3: five places of them are heard, and then all.
LISTS = {
    "send": FIELDS["send"],
    "run": "sent 1 1 10\nleft 1 1 0 19\nsent 2 1 10\nleft 2 1 0 16\nblock 1 open tx 2 failed 1 of 1\n"
    "total blocks 1 delivered 0 open 1 contradiction 0 codeblocks 1 failed 1\n",
    "audit": FIELDS["audit"],
}

# 24 bits leave column 1, which the last four of 28 bits give, and 32 bits leave nothing.
ROUNDS = {
    "send": "sent 1 1 102103\nsent 2 1 102103\nsent 3 1 1021033\nsent 4 1 10210330\n",
    "run": """sent 1 1 102103
left 1 1 0 4
sent 2 1 102103
left 2 1 0 4
sent 3 1 1021033
left 3 1 0 0
process 0 block 1 delivered tx 2 failed 0 of 1 01
sent 4 1 10210330
left 4 1 0 0
process 0 block 1 delivered tx 1 failed 0 of 1 01
process 15 block 1 open tx 1 failed 1 of 1
total rounds 3 delivered 2 open 1 contradiction 0 codeblocks 3 failed 1
""",
    "audit": "process 0 order 1 0 164\nprocess 0 order 1 0 160\n"
    + stuck(WITHOUT_COLUMN_1, "process 15 stuck 1 0") + "\n",
}


STATUSES = "Exit status: 0 on success, 1 on an error, 2 on wrong usage\n"
ABOUT = {
    "cut": "Attach the CRC to each transport block and segment it into code blocks",
    "check": "Check a table of shift values",
    "send": "Encode each transport block and write the bits of each transmission of a schedule",
    "run": "Send and receive the transmissions of a schedule over a link that loses bits, and show what is delivered",
    "audit": "Show, for each code block, how many decoding steps recovered it or which stopping set blocks it",
}
RATE = "The target code rate in 2048ths, twice that of the MCS tables; 0.5 is 1024"
SCHEDULES = {"send": "schedule.csv", "run": "losses.csv", "audit": "losses.csv"}


def usage_of(command: str) -> tuple[str, str]:
    """The words of a command, and its example."""
    if command == "cut":
        return "[OPTIONS] --blocks <FILE>", "echo 01 | linksim cut --rate 1024 --blocks -"
    names = faults.READS[command]
    paths = {
        "table": "practice.csv", "settings": "settings.toml", "blocks": "blocks.txt", "schedule": SCHEDULES.get(command)
    }
    example = " ".join(f"--{name} examples/{paths[name]}" for name in names)
    return " ".join(f"--{name} <FILE>" for name in names), f"linksim {command} {example}"


def help_of(command: str) -> str:
    """A command's short help: its options in two columns, and an example."""
    usage, example = usage_of(command)
    options = [(f"    --{name} <FILE>", faults.FILES[name].about) for name in faults.READS[command]]
    options += [("    --rate <N>", f"{RATE} [default: 2048]")] if command == "cut" else []
    options.append(("-h, --help", "Print help (see more with '--help')"))
    width = max(len(option) for option, _ in options)
    lines = "".join(f"  {option:<{width}}  {text}\n" for option, text in options)
    end = f"Example:\n  {example}\n\n{STATUSES}"
    return f"{ABOUT[command]}\n\nUsage: linksim {command} {usage}\n\nOptions:\n{lines}\n{end}"


def long_help_of(command: str) -> str:
    """A command's long help: below each option what it takes and what is refused of it."""
    usage, example = usage_of(command)
    options = [(f"    --{name} <FILE>", faults.of_file(name)) for name in faults.READS[command]]
    options += [("    --rate <N>", f"{RATE}\n\n[default: 2048]")] if command == "cut" else []
    options.append(("-h, --help", "Print help (see a summary with '-h')"))
    texts = [f"  {option}\n" + "\n".join(f"          {line}" for line in text.split("\n")) for option, text in options]
    end = f"{faults.of_all()}\n\nExample:\n  {example}\n\n{STATUSES}"
    return f"{ABOUT[command]}\n\nUsage: linksim {command} {usage}\n\nOptions:\n" + "\n\n".join(texts) + f"\n\n{end}"


HELP = {command: help_of(command) for command in ABOUT}
LONG_HELP = {command: long_help_of(command) for command in ABOUT}
PROGRAM_HELP = (
    "The data coding chain of 5G NR (3GPP TS 38.212): CRC, segmentation, LDPC, rate matching, HARQ\n"
    "With no arguments, linksim reads transport blocks from standard input.\n\n"
    "Usage: linksim <COMMAND>\n\nCommands:\n"
    + "".join(f"  {command:<5}  {about}\n" for command, about in ABOUT.items())
    + "  help   Print this message or the help of the given subcommand(s)\n\n"
    "Options:\n  -h, --help     Print help\n  -V, --version  Print version\n\n"
    "With no arguments, linksim does what 'linksim cut --rate 2048 --blocks -' does.\n\n" + STATUSES
)
