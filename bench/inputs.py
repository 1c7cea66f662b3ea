"""What bench/throughput measures: the files that the commands read, and the words that name them."""

from __future__ import annotations

import pathlib
import random
import sys
import typing

ROOT = pathlib.Path(__file__).resolve().parent.parent
sys.path.append(str(ROOT / "tools"))

from linksim_tools.common.graphs import GRAPHS  # noqa: E402  (it stands in the folder that was just named)

# The four files of a command, from a folder; and its words after the program's name, from a folder and a count of blocks.
Files = typing.Tuple[pathlib.Path, pathlib.Path, pathlib.Path, pathlib.Path]
FilesIn = typing.Callable[[pathlib.Path], Files]
Word = typing.Union[str, pathlib.Path]
WordsIn = typing.Callable[[pathlib.Path, int], typing.List[Word]]
Places = typing.Dict[typing.Tuple[int, int], int]

# With its CRC such a block has 1,310,712 bits: 156 code blocks of 8,402 bits each, by base graph 1.
BLOCK_BITS = 1_310_688


def blocks_file(folder: pathlib.Path, count: int, bits: int = BLOCK_BITS) -> pathlib.Path:
    """The path of a file with `count` blocks of so many bits, one a line in hexadecimal."""
    path = folder / f"blocks-{count}-{bits}.txt"
    if not path.exists():
        octets = random.Random(count)
        with path.open("w") as file:
            for _ in range(count):
                file.write(octets.randbytes(bits // 8).hex() + "\n")
    return path


def write_table(path: pathlib.Path, graph: int, places: Places) -> None:
    """Writes a table of a base graph with these values, the same for each set."""
    lines = (f"{graph},{row},{column}" + f",{value}" * 8 + "\n" for (row, column), value in sorted(places.items()))
    path.write_text("".join(lines))


def table_file(folder: pathlib.Path, graph: int = 1) -> pathlib.Path:
    """The path of a shift table of a base graph with as many entries as the published one has. Its numbers are drawn,
    and its parity columns have the shape that an accepted table has."""
    path = folder / f"table-{graph}.csv"
    if not path.exists():
        numbers = random.Random(graph)
        rows, first, count = GRAPHS[graph].rows, GRAPHS[graph].information, GRAPHS[graph].entries
        places = GRAPHS[graph].parity()
        while len(places) < count:
            row = numbers.randrange(rows)
            place = (row, numbers.randrange(first if row < 4 else first + 4))
            if row >= 4 or numbers.random() < 0.9:
                places.setdefault(place, numbers.randrange(384))
        write_table(path, graph, places)
    return path


def settings_file(folder: pathlib.Path, rate: int = 2048, limit: str = "") -> pathlib.Path:
    """The path of a settings file for a code rate, and maybe a line that limits the buffer."""
    path = folder / f"settings-{rate}{'-limited' if limit else ''}.toml"
    path.write_text(f"rate2048 = {rate}\n{limit}")
    return path


# Twice the bits of a block: the code rate is a half.
SENT_BITS = 2 * BLOCK_BITS


# 15 % of the places, of which the program draws whether they are erased, each by a number below 2^32.
SOME = round(0.15 * 2**32)


def lines_file(
    folder: pathlib.Path, name: str, lines: list[str], columns: str = "block,rv,g,qm,nl,erase"
) -> pathlib.Path:
    """The path of a schedule with these lines."""
    path = folder / name
    path.write_text(columns + "\n" + "".join(line + "\n" for line in lines))
    return path


def schedule_file(folder: pathlib.Path, count: int, threshold: int = 0) -> pathlib.Path:
    """The path of a schedule that sends each of `count` blocks once, six bits a symbol. The link erases a place if its
    number is below the threshold."""
    drawn = {number: f"pcg:{number}:{threshold}" if threshold else "-" for number in range(1, count + 1)}
    lines = [f"{number},0,{SENT_BITS},6,1,{erase}" for number, erase in drawn.items()]
    return lines_file(folder, f"schedule-{count}-{threshold}.csv", lines)


def words_of(command: str, table: Word, settings: Word, blocks: Word, schedule: Word) -> list[Word]:
    """The words of a command over four files after the program's name."""
    return [command, "--table", table, "--settings", settings, "--blocks", blocks, "--schedule", schedule]


def sent_once(command: str, threshold: int = 0) -> WordsIn:
    """From a folder and a count of blocks the words of a command over files by which each block is sent once."""
    return lambda folder, count: words_of(
        command,
        table_file(folder),
        settings_file(folder),
        blocks_file(folder, count),
        schedule_file(folder, count, threshold),
    )


# A row: the name, the counts of blocks, and from a folder and a count of blocks the words after the program's name.
# Another command is another line here, with a function for each file that it wants beside the blocks.
ROWS: list[tuple[str, list[int], WordsIn]] = [
    ("cut", [8, 64, 256], lambda folder, count: ["cut", "--blocks", blocks_file(folder, count)]),
    ("send", [8, 64, 256], sent_once("send")),
    ("run", [2, 8, 32], sent_once("run")),
    ("run, 15 %", [2, 8, 32], sent_once("run", SOME)),
    ("audit", [2, 8, 32], sent_once("audit")),
]


# The longest schedule, and the most bits of a transmission.
MOST_LINES = 4096
MOST_SENT = 4_194_304


def long_block(graph: int, bits: int, rate: int, erase: str) -> FilesIn:
    """Files with one block, which is sent once with the most bits."""
    return lambda folder: (
        table_file(folder, graph),
        settings_file(folder, rate),
        blocks_file(folder, 1, bits),
        lines_file(folder, f"long-{graph}-{erase.partition(':')[0]}.csv", [f"1,0,{MOST_SENT},1,1,{erase}"]),
    )


def many_lines(blocks: int, bits: int, sent: int, threshold: int) -> FilesIn:
    """Files with the most transmissions, of blocks in turn, each with its own drawn erasures."""
    return lambda folder: (
        table_file(folder, 2),
        settings_file(folder, 512),
        blocks_file(folder, blocks, bits),
        lines_file(
            folder,
            f"many-{blocks}-{bits}-{threshold}.csv",
            [f"{k % blocks + 1},{k // blocks % 4},{sent},1,1,pcg:{k}:{threshold}" for k in range(MOST_LINES)],
        ),
    )


def single_bits(folder: pathlib.Path) -> Files:
    """Files with a long block, of which each of the most transmissions sends one bit."""
    lines = [f"1,{k % 4},1,1,1,-" for k in range(MOST_LINES)]
    return table_file(folder), settings_file(folder), blocks_file(folder, 1), lines_file(
        folder, "single-bits.csv", lines
    )


# The header of a schedule whose transmissions belong to rounds of a HARQ process.
ROUND_COLUMNS = "block,rv,g,qm,nl,erase,flip,mask,process,fresh"


def rounds(bits: int, sent: int, count: int) -> FilesIn:
    """Files with rounds of one block, each of four transmissions of process 0, with 15 % of the places erased."""
    lines = [
        f"1,{rv},{sent},2,1,pcg:{4 * k + n}:{SOME},-,all,0,{int(n == 0)}"
        for k in range(count)
        for n, rv in enumerate((0, 2, 3, 1))
    ]
    return lambda folder: (
        table_file(folder, 2),
        settings_file(folder, 1371),
        blocks_file(folder, 1, bits),
        lines_file(folder, f"rounds-{bits}.csv", lines, ROUND_COLUMNS),
    )


# Of a block of BLOCK_BITS bits by base graph 1: its code blocks, their lifting size, and K' of each with its CRC24B.
CODE_BLOCKS, LIFTING, CODE_BLOCK_BITS = 156, 384, 8426
# The positions of a code block that are not sent: its fillers, and those of its first two columns.
FILLERS, PUNCTURED = 22 * LIFTING - CODE_BLOCK_BITS, 2 * LIFTING
# The places of a code block of which each other position is sent once.
ONCE = 68 * LIFTING - PUNCTURED - FILLERS
# How many rounds of a slow schedule are measured, of the 4,096 that it may have.
SLOW_ROUNDS = 8


def slow_table_file(folder: pathlib.Path) -> pathlib.Path:
    """The path of a table of base graph 1 by which positions are fixed one after another. Row 4 + k fixes a position of one
    column by the same position of the columns before it, and the previous one of those after it. Row 25 goes on from the last
    column to the first, one place further. All other entries that a table may have are there, so that each step visits them."""
    path = folder / "table-slow.csv"
    numbers = random.Random(5)
    columns = [2, 0, 1, *range(3, 22)]
    places = GRAPHS[1].parity() | {(25, column): int(column == 2) for column in columns}
    for k in range(21):
        places |= {(4 + k, column): 0 for column in columns[: k + 2]}
        places |= {(4 + k, column): LIFTING - 1 for column in columns[max(k + 2, 3) :]}
    for row in range(46):
        for column in range(0 if row < 4 or row > 25 else 22, 22 if row < 4 else 26):
            places.setdefault((row, column), numbers.randrange(LIFTING))
    write_table(path, 1, places)
    return path


def one_by_one(folder: pathlib.Path) -> Files:
    """Files with rounds of a long block over that table. Of each code block's own bits the first that is sent arrives, and the
    last of each column. Of its parity bits all do but the last of column 47, which is row 25's own: so no step begins at the
    other end."""
    own_bits = CODE_BLOCK_BITS - PUNCTURED
    gaps = [(max(at, 1), min(at + LIFTING - 1, own_bits) - 1) for at in range(0, own_bits, LIFTING)]
    last_of_row_25 = 48 * LIFTING - 1 - PUNCTURED - FILLERS
    gaps.append((last_of_row_25, last_of_row_25))
    erase = " ".join(f"{ONCE * r + first}-{ONCE * r + last}" for r in range(CODE_BLOCKS) for first, last in gaps)
    line = f"1,0,{ONCE * CODE_BLOCKS},1,1,{erase},-,all,0,1"
    return slow_table_file(folder), settings_file(folder), blocks_file(folder, 1), lines_file(
        folder, "one-by-one.csv", [line] * SLOW_ROUNDS, ROUND_COLUMNS
    )


def contradictions(folder: pathlib.Path) -> Files:
    """Files with rounds of a long block in which one position of each code block arrives twice, with both bits."""
    count = MOST_SENT // CODE_BLOCKS
    flip = " ".join(str(count * r + ONCE + 5) for r in range(CODE_BLOCKS))
    line = f"1,0,{count * CODE_BLOCKS},1,1,-,{flip},all,0,1"
    return table_file(folder), settings_file(folder), blocks_file(folder, 1), lines_file(
        folder, "contradictions.csv", [line] * SLOW_ROUNDS, ROUND_COLUMNS
    )


def one_bit_buffer(folder: pathlib.Path) -> Files:
    """Files with transmissions of the most bits out of a buffer that keeps one bit of its block."""
    blocks = folder / "blocks-01.txt"
    blocks.write_text("01\n")
    settings = settings_file(folder, limit="lbrm = 1\n")
    return ROOT / "examples" / "practice.csv", settings, blocks, lines_file(
        folder, "one-bit-buffer.csv", [f"1,0,{MOST_SENT},1,1,-"] * SLOW_ROUNDS
    )


# What is run over four files, whose paths a folder gives: `send`, `run` and `audit`, each with its time and memory.
LOADS: list[tuple[str, FilesIn]] = [
    ("one block of 1,310,616 bits, base graph 2, G = 4,194,304", long_block(2, 1_310_616, 512, "-")),
    ("the same, a quarter of the places erased", long_block(2, 1_310_616, 512, "pcg:1:1073741824")),
    ("one block of 1,310,688 bits, base graph 1, G = 4,194,304", long_block(1, 1_310_688, 2048, "-")),
    ("4,096 transmissions of one block of 24 bits, G = 216, half erased", many_lines(1, 24, 216, 2**31)),
    ("4,096 transmissions of 256 blocks of 24 bits, G = 216, half erased", many_lines(256, 24, 216, 2**31)),
    ("4,096 transmissions of one block of 3,824 bits, G = 9,600, half erased", many_lines(1, 3824, 9600, 2**31)),
    (
        "1,000 rounds of a block of 3,824 bits, G = 5,712, four transmissions each, 15 % erased",
        rounds(3824, 5712, 1000),
    ),
    ("4,096 transmissions of one bit each of a block of 1,310,688 bits", single_bits),
    (f"{SLOW_ROUNDS} rounds of such a block, over a table of 1,230 entries that fixes one position a turn", one_by_one),
    (f"{SLOW_ROUNDS} rounds of such a block, with a contradiction in each code block", contradictions),
    (f"{SLOW_ROUNDS} transmissions of 4,194,304 bits out of a buffer of one bit", one_bit_buffer),
]
