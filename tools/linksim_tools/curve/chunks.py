"""A chunk of a curve: rounds of one block over a link that erases, made by the program and counted."""

from __future__ import annotations

import contextlib
import dataclasses
import hashlib
import itertools
import pathlib
import subprocess
import tempfile
import typing

from linksim_tools.common.program import Failed, named_in_faults
from linksim_tools.curve.draws import drawn_places, threshold_of
from linksim_tools.curve.units import erase_field, octets_of

if typing.TYPE_CHECKING:
    from linksim_tools.curve.setting import Setting

HEADER = "block,rv,g,qm,nl,erase,flip,mask,process,fresh\n"

# The most transmissions of a schedule, and so of a run of the program.
MOST_TRANSMISSIONS = 4096

# The most octets of a schedule.
MOST_OCTETS = 16_777_216

# What the program writes is read in pieces of so many octets.
BUFFER = 1 << 20


def seed_of(setting: Setting, threshold: int, chunk: int, turn: int, transmission: int) -> int:
    """The seed of one transmission: round `turn` of the chunk and the transmission in it count from 0."""
    text = f"{setting.seed} {threshold} {chunk} {turn} {transmission}"
    return int.from_bytes(hashlib.sha256(text.encode()).digest()[:8], "big")


def block_of(setting: Setting) -> str:
    """The transport block in hexadecimal. Which one it is does not matter over erasures; it is drawn, so that a program
    that delivers another one is seen."""
    octets = b""
    while 8 * len(octets) < setting.a:
        octets += hashlib.sha256(f"linksim curve {setting.seed} {len(octets) // 32}".encode()).digest()
    return octets[: setting.a // 8].hex()


def link_of(setting: Setting, threshold: int, chunk: int, turn: int, k: int) -> tuple[str, str]:
    """The fields `erase` and `flip` of a transmission."""
    seed = seed_of(setting, threshold, chunk, turn, k)
    if setting.is_pooled:
        return f"pcg:{seed}:{threshold}", "-"
    if setting.link == "erase":
        return erase_field(setting, seed, threshold), "-"
    return "-", " ".join(map(str, drawn_places(seed, threshold, setting.g))) or "-"


@dataclasses.dataclass(frozen=True)
class Sending:
    """A round of a schedule: its chunk by threshold and number, its own number there, and how many of its transmissions."""

    threshold: int
    chunk: int
    turn: int
    count: int


def sendings_of(setting: Setting, p: float, chunk: int, turns: typing.Iterable[int], after: int) -> list[Sending]:
    """What the schedule of these rounds, each with its first `after` transmissions, has as rounds. If bits are flipped, a round
    stands there once for each number of transmissions, since its outcome is known at its end alone."""
    counts = [after] if setting.link == "erase" else range(1, after + 1)
    return [Sending(threshold_of(p), chunk, turn, count) for turn in turns for count in counts]


def schedule_of(setting: Setting, sendings: typing.Iterable[Sending]) -> str:
    """The schedule of these rounds."""
    lines = [HEADER]
    for it in sendings:
        for k, rv in enumerate(setting.rvs[: it.count]):
            erase, flip = link_of(setting, it.threshold, it.chunk, it.turn, k)
            lines.append(f"1,{rv},{setting.g},{setting.qm},{setting.nl},{erase},{flip},all,0,{int(k == 0)}\n")
    return "".join(lines)


def parts_of(setting: Setting, p: float, turns: list[int] | range, after: int) -> list[list[int]]:
    """The rounds in parts that fit into one schedule each, by its transmissions and, with places listed, its octets."""
    turns, sent = list(turns), sum(it.count for it in sendings_of(setting, p, 0, [0], after))
    most = MOST_TRANSMISSIONS // sent
    if not setting.is_pooled:
        mean = p * setting.g
        listed = 8 * (mean + 10 * mean**0.5) if setting.link == "flip" else octets_of(setting, p)
        octets = sent * (100 + listed)
        most = max(1, min(most, int(MOST_OCTETS / octets)))
    return [turns[start : start + most] for start in range(0, len(turns), most)]


def write_files(setting: Setting, folder: pathlib.Path | str, schedule: str) -> list[str]:
    """Writes settings, block and schedule into a folder; the words after the command that name all four files."""
    folder = pathlib.Path(folder)
    texts = {"settings.toml": setting.settings_text(), "blocks.txt": block_of(setting) + "\n", "schedule.csv": schedule}
    for name, text in texts.items():
        with named_in_faults(folder / name):
            (folder / name).write_text(text)
    paths = [setting.table, *(folder / name for name in texts)]
    options = ["--table", "--settings", "--blocks", "--schedule"]
    return [word for option, path in zip(options, paths) for word in (option, str(path))]


@contextlib.contextmanager
def lines_of(
    program: pathlib.Path, command: str, setting: Setting, schedule: str
) -> typing.Iterator[typing.Iterator[bytes]]:
    """The whole lines that `run` or `audit` writes for a schedule, as they come. A refusal is a failure with its own line."""
    with tempfile.TemporaryDirectory(prefix="linksim-curve-") as folder:
        words = [str(program), command, *write_files(setting, folder, schedule)]
        with open(pathlib.Path(folder) / "error", "w+b") as error:
            with subprocess.Popen(words, stdout=subprocess.PIPE, stderr=error, bufsize=BUFFER) as child:
                assert child.stdout
                try:
                    yield (line for line in child.stdout if line.endswith(b"\n"))
                except BaseException:
                    child.kill()
                    raise
            if child.returncode:
                error.seek(0)
                said = error.read().decode(errors="replace").strip().splitlines()
                raise Failed(said[0] if said else f"{program} ended with status {child.returncode}")


def read(
    lines: typing.Iterable[bytes], sendings: typing.Sequence[Sending]
) -> tuple[list[int], list[tuple[str, bytes]]]:
    """What each code block lacks after each transmission of a schedule, in turn. Of each round its outcome, and the last word of
    its line, which is the block if one is delivered."""
    lacking: list[int] = []
    ends: list[tuple[str, bytes]] = []
    for line in lines:
        if line.startswith(b"left "):
            lacking.append(int(line[line.rindex(b" ") :]))
        elif line.startswith(b"process "):
            words = line.split()
            ends.append((words[4].decode(errors="replace"), words[-1]))
        elif line.startswith(b"refused "):
            _, which, _, name = line.decode().split()
            numbers = [k for it in sendings for k in range(1, it.count + 1)]
            raise Failed(f"transmission {numbers[int(which) - 1]} of a round is refused: {name}")
    return lacking, ends


def judge_round(setting: Setting, left: list[int], outcome: str, is_right: bool) -> bool:
    """Whether a round failed: whether it did not end with the block that was sent. It raises Failed if the
    round's line is not what its counts say. A block with bits left is open, and over erasures every other one is
    delivered as it was sent."""
    is_wrong = setting.link == "erase" and not any(left) and not (outcome == "delivered" and is_right)
    if (any(left) and outcome != "open") or is_wrong:
        raise Failed(f"a round ended as {outcome}, against its counts: the program is broken")
    return outcome != "delivered" or not is_right


def made(
    setting: Setting, program: pathlib.Path, sendings: typing.Sequence[Sending]
) -> typing.Iterator[tuple[bool, list[list[int]]]]:
    """Of each of these rounds whether it failed, and after each transmission what each code block lacks."""
    with lines_of(program, "run", setting, schedule_of(setting, sendings)) as lines:
        lacking, ends = read(lines, sendings)
    c, rest = divmod(len(lacking), sum(it.count for it in sendings))
    if len(ends) != len(sendings) or rest or not c:
        raise Failed("the program wrote another number of lines than its schedule wants: it is broken")
    block, at = block_of(setting).encode(), 0
    for it, (outcome, last) in zip(sendings, ends):
        states = [lacking[at + k * c : at + k * c + c] for k in range(it.count)]
        at += it.count * c
        yield judge_round(setting, states[-1], outcome, last == block), states


def rounds_of_chunk(
    setting: Setting, program: pathlib.Path, p: float, chunk: int, turns: range, after: int
) -> typing.Iterator[tuple[int, list[tuple[bool, list[int]]]]]:
    """Each of these rounds of a chunk, and of it after each transmission whether it failed and what each code block
    lacks."""
    for part in parts_of(setting, p, turns, after):
        found = made(setting, program, sendings_of(setting, p, chunk, part, after))
        if setting.link == "erase":
            yield from ((turn, [(any(left), left) for left in states]) for turn, (_, states) in zip(part, found))
        else:
            yield from ((turn, [(failed, states[-1]) for failed, states in itertools.islice(found, after)]) for turn in part)


def failed_rounds(setting: Setting, program: pathlib.Path, p: float, chunk: int, after: int) -> list[int]:
    """The rounds of a chunk that fail after so many transmissions."""
    found = rounds_of_chunk(setting, program, p, chunk, range(setting.rounds), after)
    return [turn for turn, states in found if states[-1][0]]
