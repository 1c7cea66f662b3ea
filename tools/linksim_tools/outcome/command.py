"""`tools/explain outcome`: how the blocks ended, in lines and as a page."""

from __future__ import annotations

import pathlib

from linksim_tools.common import explanation, files
from linksim_tools.common.file_errors import File, keys_of
from linksim_tools.common.program import Failed, Wrong, name_of, named_in_faults
from linksim_tools.outcome import page
from linksim_tools.outcome.endings import outcome_of


def told(program: pathlib.Path, words: dict[str, str], html: str | None) -> tuple[list[str], int]:
    """The lines, and the status: 1 if the program refuses a file, of which it is then said why."""
    if html and "-" in words.values():
        raise Wrong("--html needs every file by its name, because it is read several times")
    stdin = explanation.stdin_of(words)
    try:
        rate = keys_of(File(words["settings"], stdin, files.LIMITS["settings"])).get("rate2048")
        outcome = outcome_of(program, words, rate if isinstance(rate, int) and 0 < rate <= 2048 else 0, stdin)
    except Failed:
        lines, status = explanation.explained(program, "run", words, stdin)
        if not lines[0].startswith("linksim: refused: "):
            raise
        return lines, status
    if html:
        from linksim_tools.outcome.positions import pictures  # which needs the library

        with named_in_faults(html):
            text = "".join(line + "\n" for line in page.lines(outcome, pictures(program, words, outcome)))
            pathlib.Path(html).write_text(text, encoding="utf-8")
    lines = [line for one in outcome.ended for line in (one.line, *(f"  {it}" for it in one.sentences()))]
    count = f"{len(outcome.refused)} transmission{'s are' if len(outcome.refused) > 1 else ' is'}"
    refused = [f"{count} rejected: {name_of('explain')} run shows why"] if outcome.refused else []
    return [*lines, outcome.total, *refused], 0
