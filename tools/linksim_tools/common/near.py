"""The sizes of a transport block that can be segmented, near a wanted one."""

from __future__ import annotations

from linksim_tools.common.program import Failed

# The most bits of a transport block; and the numbers of its plan, as `linksim cut` writes them.
MOST, NUMBERS = 1_310_720, "b graph c l kdash kb z set k n".split()


def near(rate: int, wanted: int) -> list[str]:
    """The lines `exact`, `below` and `above`, each with the numbers of a block. It has the wanted size, the next
    shorter one that can be segmented, or the next longer one. One that there is not has no line."""
    import nr

    if wanted not in range(1, MOST + 1):
        raise Failed(f"a size must be 1 to {MOST} bits, and not {wanted}")
    try:
        below, above = nr.near(wanted - 1, rate2048=rate)[0], nr.near(wanted + 1, rate2048=rate)[1]
        exact = wanted if wanted in nr.near(wanted, rate2048=rate) else None
    except nr.Fault as fault:
        raise Failed(f"--rate {rate}: {fault}") from None
    lines = []
    for name, size in (("exact", exact), ("below", below), ("above", above)):
        if size is not None:
            plan = nr.plan(size, rate2048=rate)
            lines.append(" ".join([f"{name} a {size}", *(f"{it} {getattr(plan, it)}" for it in NUMBERS)]))
    return lines
