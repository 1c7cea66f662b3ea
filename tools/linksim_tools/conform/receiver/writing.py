"""Writes a suite: its cases, what receivers answer to them, and what the program proves. Cases are added that tell mistakes apart
which the others show alike with its table. Each beginning of a case is a round of a schedule of `run`, over what the sums of all
values leave. A place is erased if its sum is 0, and turned over if it has the sign of the other bit."""

from __future__ import annotations

import itertools
import json
import pathlib
import sys
import typing

from linksim_tools.common.program import Failed, answers_of, settings_text
from linksim_tools.conform import bits as lists
from linksim_tools.conform import code, files
from linksim_tools.conform.receiver import design, drafts, known_answers, plain, steps
from linksim_tools.conform.receiver.chain import Receiver
from linksim_tools.conform.receiver.known_answers import Shown
from linksim_tools.conform.receiver.blocks import Maker
from linksim_tools.conform.receiver.mistakes import MISTAKES
from linksim_tools.conform.receiver.suite import Kept, told_of
from linksim_tools.conform.receiver.reception import LONG, ZERO, Case, octets_of


# A transmission of a schedule: its block, and its record without the number of the block.
Record = typing.Tuple[str, str]
# What all receivers answer to a case, by the mistake; that of a right one under the empty name.
Found = typing.Dict[str, typing.Tuple[typing.Tuple[typing.Tuple[str, ...], ...], bool]]

# These give the same blocks with every table.
ALIKE = frozenset(["kb-10", "lifting-by-k"])

# So many patterns are tried for a group of mistakes.
TRIES = 64


def groups(all_found: typing.Iterable[Found]) -> list[list[str]]:
    """The mistakes, and none under the empty name, that have the same blocks in all of these cases."""
    kept = list(all_found)
    by: dict[tuple[tuple[str, ...], ...], list[str]] = {}
    for name in ("", *MISTAKES):
        by.setdefault(tuple(known_answers.blocks(found[name][0]) for found in kept), []).append(name)
    return [names for names in by.values() if len(names) > 1 and set(names) != ALIKE]


def patterns(make: Maker) -> typing.Iterator[Case]:
    """What is tried: each size by itself, and then all others, small ones first."""
    known = list(plain.configurations())
    known.sort(key=lambda pair: (not pair[0].endswith("rv0"), sum(it.g for it in pair[1])))
    for name, arrivals in known:
        for wanted in ("early", "even"):
            yield from plain.plain(make, name, arrivals, wanted)


def telling(make: Maker, names: list[str], there: set[str]) -> Case | None:
    """The first pattern that tells some of these apart."""
    for _, case in zip(range(TRIES), patterns(make)):
        if case.id not in there and case.size <= LONG:
            found = known_answers.everyone(make.tables, [name for name in names if name], case)
            if len({known_answers.blocks(found[name][0]) for name in names}) > 1:
                return case
    return None


def sharper(make: Maker, cases: list[Case], all_found: list[Found], most: int) -> None:
    """Adds cases, up to so many in all, until all mistakes are told apart, or no pattern does it."""
    given_up: set[tuple[str, ...]] = set()
    while len(cases) < most:
        names = next((it for it in groups(all_found) if tuple(it) not in given_up), None)
        if names is None:
            return
        case = telling(make, names, {it.id for it in cases})
        if case is None:
            given_up.add(tuple(names))
        else:
            cases.append(case)
            all_found.append(known_answers.everyone(make.tables, MISTAKES, case))


class Outcome(typing.NamedTuple):
    """What the program says: the block if it delivers one, how many bits of each code block are not fixed, and it in words."""

    block: str | None
    left: tuple[int, ...]
    words: str


def ranges(places: list[int]) -> str:
    """A place list."""
    found = []
    for _, pairs in itertools.groupby(enumerate(places), lambda pair: pair[1] - pair[0]):
        run = [place for _, place in pairs]
        found.append(f"{run[0]}-{run[-1]}" if len(run) > 1 else str(run[0]))
    return " ".join(found) or "-"


def records_of(tables: steps.Tables, case: Case) -> list[list[Record]]:
    """For each transmission the records of its process's round that ends with it."""
    rounds: dict[int, list[int]] = {}
    found = []
    for n, told in enumerate(case.arrivals):
        if told.fresh:
            rounds[told.process] = []
        rounds[told.process].append(n)
        found.append(round_of(Receiver(tables), case, rounds[told.process]))
    return found


def round_of(receiver: Receiver, case: Case, numbers: list[int]) -> list[Record]:
    """The records of a round of these transmissions, with the places that the link erases and turns over."""
    first, meant = case.arrivals[numbers[0]], case.meant[numbers[-1]]
    words = drafts.words(receiver, first, meant)
    sums = [[0] * len(word) for word in words]
    laid = [drafts.laid(receiver, case.arrivals[n], first) for n in numbers]
    for n, parts in zip(numbers, laid):
        values = octets_of(case.values[n])
        for part, total in zip(parts, sums):
            for number, place in zip(part.numbers, part.places):
                total[place] += values[number] - ZERO
    found: list[Record] = []
    for it, parts in zip((case.arrivals[n] for n in numbers), laid):
        came = sorted((number, total[place], word[place]) for part, total, word in zip(parts, sums, words)
                      for number, place in zip(part.numbers, part.places))
        erased = ranges([number for number, value, _ in came if not value])
        flipped = ranges([number for number, value, bit in came if value and (value < 0) != (bit == "1")])
        mask = "all" if it.mask is None else ranges(list(it.mask))
        found.append((meant, f"{it.rv},{it.g},{it.qm},{it.nl},{erased},{flipped},{mask},0,{int(not found)}"))
    return found


def read(ran: list[str], audited: list[str], counts: list[int]) -> typing.Iterator[Outcome]:
    """The outcomes of the lines of `run` and `audit`; `counts` are the transmissions of each round. Of the first code block with
    bits that are not fixed the words have a position and how many are left with it."""
    if any(line.startswith("refused") for line in ran):
        raise Failed("the program rejects a transmission of a case: this is an error of the tool")
    lefts: list[list[int]] = []
    stuck: list[str] = []
    for words in (line.split() for line in ran if line.startswith("left ")):
        if words[3] == "0":
            lefts.append([])
        lefts[-1].append(int(words[4]))
    for words in map(str.split, audited):
        if words[4] == "0":
            stuck.append("")
        if words[2] == "stuck":
            stuck[-1] = stuck[-1] or f": position {words[6]} of code block {words[4]} stands in a stopping set of {words[5]}"
    ends = (line.split() for line in ran if line.startswith("process "))
    for at, end, found in zip(itertools.accumulate(counts), ends, stuck):
        said = {"open": found, "contradiction": ": no block explains what arrived"}.get(end[4], "")
        block = lists.of_digits(end[-1], 4 * len(end[-1])) if end[4] == "delivered" else None
        yield Outcome(block, tuple(lefts[at - 1]), end[4] + said)


def outcomes(program: pathlib.Path, table: str, tables: steps.Tables, case: Case) -> list[Outcome]:
    """The program's outcome after each transmission of a case."""
    first, rounds = case.arrivals[0], records_of(tables, case)
    numbers = {block: number for number, block in enumerate(dict.fromkeys(case.meant), 1)}
    lines = [f"{numbers[block]},{record}" for records in rounds for block, record in records]
    schedule = ["block,rv,g,qm,nl,erase,flip,mask,process,fresh", *lines]
    texts = settings_text(first.rate2048, first.lbrm), list(map(lists.hexadecimal, numbers)), schedule
    ran, audited = (answers_of(program, command, table, *texts) for command in ("run", "audit"))
    return [*read(ran, audited, [len(records) for records in rounds])]


def line_of(kept: Kept) -> str:
    case = kept.case
    each = zip(case.arrivals, case.values, case.meant, kept.right, kept.proved)
    sent = [{**told_of(told), "values": values, "block": lists.hexadecimal(meant), "right": right,
             "proved": proved} for told, values, meant, right, proved in each]
    groups: dict[tuple[Shown, bool], list[str]] = {}
    for name, found in kept.wrong.items():
        groups.setdefault(found, []).append(name)
    wrong = [{"mistakes": names, "answers": answers, "clash": clash} for (answers, clash), names in groups.items()]
    head = {"id": case.id, "step": case.step, "what": case.what, "mirror": case.mirror, "rounds": case.rounds}
    return json.dumps({**head, "clash": kept.clash, "known": kept.known, "transmissions": sent, "wrong": wrong})


def kept_of(tables: steps.Tables, case: Case, found: Found, proved: list[Outcome]) -> Kept | None:
    """A case with what all answer. The model without a mistake is held to the program's outcomes: other blocks are a fault. A
    case in which they leave other bits open is left out, and None."""
    right, clash = found[""]
    for answer, outcome in zip(Receiver(tables).answers(case), proved):
        if answer.delivered != outcome.block:
            fault = "this is a fault of the program or of the tool"
            raise Failed(f"case {case.id}: the model and the program deliver different blocks: {fault}")
        if tuple(info.count("?") for info in answer.info or ()) != outcome.left:
            print(f"the model and the program leave other bits open in {case.id}, which is left out", file=sys.stderr)
            return None
    wrong = {name: it for name, it in found.items() if name and it != (right, clash)}
    return Kept(case, right, tuple(it.words for it in proved), wrong, clash, len(found) > 1)


def written(program: pathlib.Path, path: str, profile: str, seed: int, known: typing.Collection[str] = MISTAKES) -> list[str]:
    """The lines of a suite, all there before one is written, with what receivers with each known mistake answer."""
    entries = files.entries_of(path)
    tables = steps.Tables(entries)
    cases, left_out = design.designed(tables, profile, seed)
    is_full = profile == "full"
    found = [known_answers.everyone(tables, known if case.size <= LONG else (), case)
             for case in design.counted(cases, f"of {len(cases)} are answered with each mistake", is_full)]
    if profile == "quick" and known:
        sharper(Maker(tables, seed), cases, found, design.MOST)
    proved = [outcomes(program, path, tables, case)
              for case in design.counted(cases, f"of {len(cases)} are asked of the program", is_full)]
    kept = [kept_of(tables, *it) for it in zip(cases, found, proved)]
    left_out += [case.id for case, it in zip(cases, kept) if it is None]
    lines = [line_of(it) for it in kept if it is not None]
    head: files.Object = {"receiver": files.FORMAT, "profile": profile, "seed": seed, "cases": len(lines)}
    head.update({"left_out": left_out} if left_out else {})
    made = {"made": files.made_by(path, program), "table": code.records_of(entries)}
    return [json.dumps({**head, **made}), *lines]
