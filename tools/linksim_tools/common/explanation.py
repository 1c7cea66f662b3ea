"""Which part of which file a refusal of the program is of."""

import fractions
import pathlib
import re
import subprocess
import typing

from linksim_tools.common import faults, files, graphs, near
from linksim_tools.common.file_errors import (File, Record, blocks_of, numbers, of_blocks, of_schedule, of_settings,
                                                  of_table, rate_of)
from linksim_tools.common.program import Failed, output_of

Words = typing.Dict[str, str]
# So many transmissions that are refused are told one by one.
MOST = 10


class Run(typing.NamedTuple):
    """How a command ended: its status, what it said on standard error, and the lines of its text that were asked for."""

    status: int
    said: str
    lines: typing.List[str]


def explained(
    program: pathlib.Path, command: str, words: Words, stdin: bytes
) -> typing.Tuple[typing.List[str], int]:
    """What is refused of a command's files, and the status: 0 for nothing."""
    run = ran(program, command, words, stdin, ("refused ", "graph "))
    given = {name: File(path, stdin, files.LIMITS[name]) for name, path in words.items() if name in faults.FILES}
    if run.status == 2:
        return [*run.said.splitlines(), *of_rate(words.get("rate", ""))], 2
    if run.status:
        line = run.said.strip()
        return [line, *of_refusal(program, command, words, given, line.split(": ", 2)[-1].split())], 1
    if command == "check" or not run.lines:
        return [f"linksim {command} refuses nothing of these files", *of_counts(run.lines)], 0
    return of_transmissions(run.lines, given["schedule"]), 1


def stdin_of(words: Words) -> bytes:
    """What standard input holds, if a file is named -: at most what the program takes of that file, and an octet more."""
    most = max([files.LIMITS.get(name, 0) + 1 for name, path in words.items() if path == "-"], default=0)
    return files.octets_of("-", most, cut=True) if most else b""


def ran(program: pathlib.Path, command: str, words: Words, stdin: bytes, heads: typing.Tuple[str, ...]) -> Run:
    """Runs the command. Its text may be long: a line at a time is looked at, and those are kept that begin with one of `heads`."""
    given = [word for name, path in words.items() for word in (f"--{name}", path)]
    with subprocess.Popen(
        [str(program), command, *given], stdin=subprocess.PIPE, stdout=subprocess.PIPE, stderr=subprocess.PIPE
    ) as child:
        assert child.stdin and child.stdout and child.stderr
        try:
            child.stdin.write(stdin)
            child.stdin.close()
        except BrokenPipeError:
            pass
        wanted = tuple(head.encode() for head in heads)
        lines = [line.decode().strip() for line in child.stdout if line.startswith(wanted)]
        said = child.stderr.read().decode(errors="replace")
    if child.returncode and not said.strip():
        raise Failed(f"{program} ended with status {child.returncode}")
    return Run(child.returncode, said, lines)


def of_rate(rate: str) -> typing.List[str]:
    """What a code rate that is written as a fraction is in 2048ths."""
    if not re.fullmatch("[0-9]{0,9}[.]?[0-9]{1,20}(/[0-9]{1,9})?", rate):
        return []
    try:
        value = fractions.Fraction(rate)
    except (ValueError, ZeroDivisionError):
        return []
    if not 0 < value < 1:
        return []
    doubled = value * 2048
    whole = f"{rate} is {doubled}" if doubled.denominator == 1 else f"{rate} is not a whole number of these: {float(doubled):.2f}"
    return [f"  the rate is a number of 2048ths; {whole}"]


def of_counts(lines: typing.List[str]) -> typing.List[str]:
    """A hint for each base graph that has another number of entries than the published table."""
    found = []
    for line in lines:
        _, number, _, count = line.split()
        published = graphs.GRAPHS[int(number)]
        if int(count) != published.entries:
            found.append(f"  base graph {number} has {count} entries; {published.table} has {published.entries}")
    return found


def of_transmissions(refused: typing.List[str], schedule: File) -> typing.List[str]:
    """What is wrong with transmissions that are lines of the text."""
    lines = []
    for line in refused[:MOST]:
        _, transmission, block, name = line.split()
        at = int(transmission) + 1
        lines += [line, *(f"  {said}" for said in schedule.record_lines(at))]
        if name == "Order" and numbers(Record(0, schedule.record(at).fields[3:4]), 1) == [10]:
            lines.append("  1024QAM is of Release 17; this is Release 15, which has 1, 2, 4, 6 and 8")
        lines += remedy(name, ("transmission",))
    if len(refused) > MOST:
        lines.append(f"and {len(refused) - MOST} transmissions more")
    return lines


def remedy(name: str, of: typing.Sequence[str]) -> typing.List[str]:
    """Cause and remedy of a fault, below the place that it is of."""
    found = [fault for kind, fault in faults.named(name) if kind in of]
    return [f"  {fault.head}: {fault.line}" for fault in found]


def of_refusal(
    program: pathlib.Path, command: str, words: Words, files: typing.Dict[str, File], parts: typing.List[str]
) -> typing.List[str]:
    """What a line `linksim: refused: ..` is of."""
    kind, name = parts[0], parts[-1] if parts[0] in ("block", "memory") else parts[1]
    if kind == "block":
        return [*of_block(program, command, words, files, int(parts[1]), name), *remedy(name, ("block",))]
    if kind not in files:
        return remedy(name, ("output", ""))
    file, place = files[kind], int(parts[2]) if len(parts) > 2 else 0
    if name == "Read":
        found = [f"{file.shown}: {file.trouble or 'it can be read now'}"]
    elif name == "TooLong":
        found = [f"{file.shown}: more than {file.most:,} octets"]
    elif kind == "schedule":
        found = of_schedule(file, name, place, files["blocks"])
    else:
        found = {"table": of_table, "settings": of_settings, "blocks": of_blocks}[kind](file, name, place)
    if file.octets[:2] in (b"\xff\xfe", b"\xfe\xff"):
        found = [f"{file.shown}: its text is in UTF-16; save it in UTF-8"]
    return [*(f"  {line}" for line in found), *remedy(name, (kind,))]


def of_block(
    program: pathlib.Path, command: str, words: Words, files: typing.Dict[str, File], number: int, name: str
) -> typing.List[str]:
    """What a block is that is refused by itself."""
    line, text = blocks_of(files["blocks"])[number - 1]
    lines = [f"  {files['blocks'].shown}, line {line}: {4 * len(text)} bits"]
    rate = int(words.get("rate", 2048)) if command == "cut" else rate_of(files["settings"])
    if rate is None:
        return lines
    if name == "Uneven":
        return [*lines, *(f"  {size}" for size in near.near(rate, 4 * len(text)))]
    import nr

    lines.append(f"  rate2048 {rate}: base graph {nr.plan(4 * len(text), rate2048=rate).graph}")
    if name == "Graph":
        try:
            lines += [
                f"  {files['table'].shown}: {it}"
                for it in output_of(program, ["check", "--table", words["table"]]).splitlines()
            ]
        except Failed:
            pass  # (the table was standard input, which is read once)
    return lines
