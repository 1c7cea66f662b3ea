"""How each block, or round of a HARQ process, ended. It is what `run` and `audit` write of it, and a sentence on each open code
block."""

from __future__ import annotations

import dataclasses
import pathlib
import re
import typing

from linksim_tools.common import explanation, message
from linksim_tools.common.program import Failed, plan_of

# A block's digits are shown up to so many.
MOST_DIGITS = 64
ENDED = re.compile(r"(?:process (\d+) )?block (\d+) (delivered|open|contradiction) tx (\d+) failed (\d+) of (\d+)(?: ([0-9a-f]+))?")


@dataclasses.dataclass(frozen=True)
class Ended:
    """A block or a round: the line of `run`, the process or None, the block, its outcome, and how often it was received. If it was, it
    has the positions of each open code block that are not fixed."""

    line: str
    process: int | None
    block: int
    outcome: str
    received: int
    plan: dict[str, int]
    stuck: dict[int, list[int]]

    def below(self, r: int) -> int:
        """How many positions of an open code block are below K'."""
        return sum(position < self.plan["kdash"] for position in self.stuck[r])

    def sentences(self) -> typing.Iterator[str]:
        """Why it was not delivered."""
        if self.outcome == "contradiction":
            yield "All bits are known, but no block is consistent with them: the link flipped a bit, or the ends' settings differ."
        elif not self.received:
            yield "Nothing of it was received."
        for r in self.stuck:
            yield (
                f"code block {r}: {self.below(r)} of its K' = {self.plan['kdash']} bits are unknown. The {len(self.stuck[r])} unknown bits "
                "of the codeword are a stopping set: no check row has exactly one of them."
            )


def lines_of(program: pathlib.Path, command: str, words: dict[str, str], stdin: bytes, heads: tuple[str, ...]) -> list[str]:
    """The lines of a command's text that begin so; a refusal is a failure with its line."""
    run = explanation.ran(program, command, words, stdin, heads)
    if run.status:
        raise Failed(run.said.strip().splitlines()[0])
    return run.lines


def shown(line: str) -> str:
    """The line of a block with the first of its digits."""
    head, _, digits = line.rpartition(" ")
    return line if len(digits) <= MOST_DIGITS else f"{head} {digits[:MOST_DIGITS]}.. ({len(digits):,} digits)"


def stuck_of(lines: typing.Iterator[str], count: int) -> dict[int, list[int]]:
    """Of the next lines of `audit`, one for each code block, the positions that are not fixed."""
    found = {}
    for r in range(count):
        words = re.sub(r"^process \d+ ", "", next(lines)).split()
        if words[0] == "stuck":
            found[r] = list(map(int, words[4:]))
    return found


@dataclasses.dataclass(frozen=True)
class Outcome:
    """Each block or round in the order of `run`, the line of the total, and the numbers of transmissions that are refused."""

    ended: list[Ended]
    total: str
    refused: set[int]


def outcome_of(program: pathlib.Path, words: dict[str, str], rate: int, stdin: bytes) -> Outcome:
    """How all ended."""
    cut = {"rate": str(rate), "blocks": words["blocks"]}
    plans = [plan_of(line) for line in lines_of(program, "cut", cut, stdin, ("block ",))]
    *said, total = lines_of(program, "run", words, stdin, ("block ", "process ", "refused ", "total "))
    refused = {int(line.split()[1]) for line in said if line.startswith("refused ")}
    audited = iter(lines_of(program, "audit", words, stdin, ("order ", "stuck ", "process ")))
    found = []
    for line in (line for line in said if not line.startswith("refused ")):
        ended = ENDED.fullmatch(line)
        if not ended:
            raise Failed(f"linksim run writes no such line: {message.shown(line)}")
        process, block, outcome, received, _, count, _ = ended.groups()
        stuck = stuck_of(audited, int(count))
        found.append(Ended(
            shown(line), None if process is None else int(process), int(block), outcome, int(received), plans[int(block) - 1],
            stuck if int(received) else {},
        ))
    return Outcome(found, total, refused)
