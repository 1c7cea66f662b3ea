"""The numbers of TS 38.212 that the model needs: base graphs (5.3.2), buffers, redundancy versions and shares of G (5.4.2.1)."""

from __future__ import annotations

import typing


class Graph(typing.NamedTuple):
    """The rows and columns of a base graph, and how many columns are sent and carry information bits."""

    rows: int
    columns: int
    sent: int
    information: int


GRAPHS = {1: Graph(46, 68, 66, 22), 2: Graph(42, 52, 50, 10)}


def buffer_length(plan: dict[str, int], lbrm: int | None) -> int:
    """Ncb: N, or min(N, N_ref) if TBS_LBRM limits it, where N_ref = floor(TBS_LBRM / (C R_LBRM)) and R_LBRM = 2/3."""
    n_ref = plan["n"] if lbrm is None else lbrm * 3 // (plan["c"] * 2)
    return min(plan["n"], n_ref)


def start(plan: dict[str, int], ncb: int, rv: int) -> int:
    """k0, by Table 5.4.2.1-2."""
    z = plan["z"]
    if plan["graph"] == 1:
        return [0, 17 * ncb // (66 * z) * z, 33 * ncb // (66 * z) * z, 56 * ncb // (66 * z) * z][rv]
    return [0, 13 * ncb // (50 * z) * z, 25 * ncb // (50 * z) * z, 43 * ncb // (50 * z) * z][rv]


def lengths(g: int, qm: int, nl: int, scheduled: typing.Sequence[int]) -> dict[int, int]:
    """E_r of each scheduled code block: the first C' - mod(G / (NL Qm), C') of them have the floor, the others the ceiling."""
    count, symbols = len(scheduled), g // (nl * qm)
    found = {}
    for j, r in enumerate(scheduled):
        if j <= count - symbols % count - 1:
            found[r] = nl * qm * (g // (nl * qm * count))
        else:
            found[r] = nl * qm * -(-g // (nl * qm * count))
    return found
