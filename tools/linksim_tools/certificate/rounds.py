"""What arrived of each block, or of each round of a HARQ process, of the four files of `linksim run`."""

from __future__ import annotations

import dataclasses
import pathlib
import typing

import nr

from linksim_tools.certificate.writing import Reception, settings
from linksim_tools.common import files
from linksim_tools.common.file_errors import File
from linksim_tools.common.program import Wrong
from linksim_tools.common.tables import table_at
from linksim_tools.common.toml_file import settings_of
from linksim_tools.conform.case import scheduled
from linksim_tools.outcome.endings import Ended, Outcome, outcome_of
from linksim_tools.outcome.origins import NONE, Sent, heard_places, rounds_of


@dataclasses.dataclass(frozen=True)
class Round:
    """A block, or a round of a HARQ process: how `run` says that it ended, its octets, its transmissions as records of the schedule,
    the shift table and the settings."""

    ended: Ended
    block: bytes
    sent: list[Sent]
    table: nr.Table
    rate2048: int
    lbrm: int | None

    def receptions(self) -> list[Reception]:
        """What arrives of the transmissions that send something."""
        return [self.arrived(it) for it in self.sent if it.get("mask") != NONE]

    def arrived(self, sent: Sent) -> Reception:
        """What arrives of a transmission."""
        g, rv, qm, nl = (int(sent[name]) for name in ("g", "rv", "qm", "nl"))
        mask, c = sent.get("mask", "all"), self.ended.plan["c"]
        tx = nr.Tx(g, rv=rv, qm=qm, nl=nl, blocks=None if mask == "all" else scheduled(mask, c))
        bits = bytearray(nr.send(self.table, self.block, tx, **settings(self.rate2048, self.lbrm)))
        stays = heard_places(sent.get("flip", "-"), g)
        for place, is_heard in enumerate(heard_places(sent["erase"], g)):
            bits[place] = bits[place] ^ 1 ^ stays[place] if is_heard else nr.ERASED
        return tx, bits


def rounds(program: pathlib.Path, words: dict[str, str], outcome: Outcome | None = None) -> typing.Iterator[Round]:
    """Each block or round in the order of `run`. The program judges the files, unless its outcome is already known."""
    if "-" in words.values():
        raise Wrong("every file is wanted by its name: each is read several times")
    rate2048, lbrm = settings_of(words["settings"])
    outcome = outcome or outcome_of(program, words, rate2048, b"")
    table = table_at(words["table"])
    records = [record.fields for record in File(words["schedule"], b"", files.LIMITS["schedule"]).records]
    blocks = files.octets_of(words["blocks"], files.LIMITS["blocks"]).decode("latin-1").split("\n")
    for one, sent in zip(outcome.ended, rounds_of(records, outcome)):
        yield Round(one, bytes.fromhex(blocks[one.block - 1]), sent, table, rate2048, lbrm)
