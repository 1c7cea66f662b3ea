"""`tools/explain chain`: the page of a transport block."""

from __future__ import annotations

import argparse
import pathlib

from linksim_tools.chain import page
from linksim_tools.chain.data import data_of
from linksim_tools.chain.sources import source_of
from linksim_tools.common.program import named_in_faults


def write(given: argparse.Namespace) -> int:
    """Writes the page of what the words name."""
    source = source_of(given)
    data = data_of(source.table, source.block, source.receptions, rate2048=source.rate2048, lbrm=source.lbrm)
    text = "".join(line + "\n" for line in page.lines(source.title, data))
    with named_in_faults(given.html):
        pathlib.Path(given.html).write_text(text, encoding="utf-8")
    return 0
