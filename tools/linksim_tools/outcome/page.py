"""The outcome as one HTML file, with a picture of each open code block: a column of Zc positions beside the other."""

from __future__ import annotations

import itertools
import typing

from linksim_tools.common.graphs import GRAPHS
from linksim_tools.conform.page import document, escaped, paragraph

if typing.TYPE_CHECKING:
    from linksim_tools.outcome.endings import Outcome

# What a position is, beside the number of the round that fixed it.
STUCK, HEARD, FILLER = -3, -2, -1
# A picture is so wide, of which each column has so much; its height, and that of a position at most.
WIDE, COLUMN, TOP, HIGH, MOST = 372, 5, 16, 230, 8
# The kinds of positions: a name, a colour, and the states that it has. Rounds of peeling get darker.
KINDS = (
    ("heard", "#56b4e9", range(HEARD, HEARD + 1)), ("filler", "#d5d9de", range(FILLER, FILLER + 1)),
    ("fixed in round 1", "#c7e9c0", range(1, 2)), ("in 2 or 3", "#8fd18a", range(2, 4)), ("in 4 to 7", "#4aa564", range(4, 8)),
    ("in 8 to 15", "#1b7a43", range(8, 16)), ("later", "#00441b", range(16, 1 << 30)), ("stuck", "#d55e00", range(STUCK, STUCK + 1)),
)
# So many pictures are drawn.
MOST_PICTURES = 16


def kind_of(state: int) -> int:
    """The kind of a position, by its place in the list."""
    return next(at for at, (_, _, states) in enumerate(KINDS) if state in states)


def picture(states: list[int], plan: dict[str, int]) -> typing.Iterator[str]:
    """The columns of a codeword, each from its first position at the top to its last one, and what each kind has."""
    z = plan["z"]
    kinds = [kind_of(state) for state in states]
    high = min(MOST, HIGH / z)
    paths: list[list[str]] = [[] for _ in KINDS]
    for column in range(len(states) // z):
        top = 0
        for kind, run in itertools.groupby(kinds[column * z : column * z + z]):
            count = len(list(run))
            paths[kind].append(f"M{COLUMN * column} {TOP + high * top:.6g}h{COLUMN - 0.5}v{high * count:.6g}h-{COLUMN - 0.5}z")
            top += count
    bottom = TOP + high * z
    about = "the positions of the codeword by column: " + ", ".join(
        f"{name} {kinds.count(at)}" for at, (name, _, _) in enumerate(KINDS) if at in kinds
    )
    yield (f'<svg role="img" aria-label="{about}" viewBox="0 0 {WIDE} {bottom + 4:.6g}" style="width:100%;max-width:46rem" '
           f'font-family="system-ui, sans-serif" font-size="11"><title>{about}</title>')
    for (_, colour, _), path in zip(KINDS, paths):
        if path:
            yield f'<path fill="{colour}" d="{"".join(path)}"/>'
    for column in range(0, len(states) // z, 10):
        yield f'<text x="{COLUMN * column}" y="{TOP - 5}" fill="#1b1f24">{column}</text>'
    parity = COLUMN * GRAPHS[plan["graph"]].information - 0.25
    yield f'<path stroke="#1b1f24" d="M{parity} {TOP - 3}V{bottom + 3:.6g}"/></svg>'
    yield "<p>" + " ".join(
        f'<span style="white-space:nowrap"><span style="color:{colour}">&#9632;</span> {name}: {kinds.count(at):,}</span>'
        for at, (name, colour, _) in enumerate(KINDS) if at in kinds
    ) + "</p>"


def body(outcome: Outcome, drawn: dict[tuple[int, int], list[int]]) -> typing.Iterator[str]:
    """Each block with its sentences and pictures, and the total."""
    yield paragraph(
        "A column stands from its first position at the top to its last one; those right of the line are parity. A round of peeling "
        "applies every parity row once."
    )
    for at, one in enumerate(outcome.ended):
        yield f"<p><code>{escaped(one.line)}</code></p>"
        yield from map(paragraph, one.sentences())
        for r in one.stuck:
            if (at, r) in drawn:
                yield f"<h2>block {one.block}, code block {r}: Zc = {one.plan['z']}, K' = {one.plan['kdash']}</h2>"
                yield from picture(drawn[at, r], one.plan)
    yield f"<p><code>{escaped(outcome.total)}</code></p>"
    left = sum(len(one.stuck) for one in outcome.ended) - len(drawn)
    if left:
        yield paragraph(f"{left} open code blocks more have no picture: name fewer blocks or transmissions.")


def lines(outcome: Outcome, drawn: dict[tuple[int, int], list[int]]) -> typing.Iterator[str]:
    """The lines of the file."""
    return document("How the blocks ended", body(outcome, drawn))
