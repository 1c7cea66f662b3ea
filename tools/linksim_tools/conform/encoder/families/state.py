"""What is left of an earlier case or code block: settings, numbers, the register of a CRC, bits in the places of fillers."""

from __future__ import annotations

import dataclasses
import functools
import typing

from linksim_tools.conform import bits as lists
from linksim_tools.conform.case import Case, Plan
from linksim_tools.conform.clauses import right
from linksim_tools.conform.code import encoder_of
from linksim_tools.conform.encoder.families import Steps, instead, mistake
from linksim_tools.conform.encoder.points import Facts
from linksim_tools.conform.encoder.suite import Suite
from linksim_tools.conform.mistake import Method, Methods, Mistake

# Settings that may be those of the case before, with the steps that take them.
SETTINGS: dict[str, tuple[str, Steps]] = {
    "rv": ("rv", ("buffer",)), "qm": ("Qm", ("lengths", "interleaving")), "nl": ("NL", ("lengths",)),
    "lbrm": ("TBS_LBRM", ("buffer",)), "mask": ("the mask of code blocks", ("lengths", "buffer")),
    "rate2048": ("R", ("graph",)), "g": ("G", ("lengths",)),
}

# Numbers that may be, by their methods: what they are, their step, and what is left, of a new value, the case before and what the
# method is given. Of E_r only as many are left, and of Ncb at most the N that is given.
NUMBERS: tuple[tuple[str, str, str, typing.Callable[..., typing.Any]], ...] = (
    ("start", "k0 is that of the case before", "buffer", lambda _new, old, *_: old.k0),
    ("buffer_length", "Ncb is that of the case before", "buffer", lambda _new, old, *_: old.ncb),
    ("base_graph", "the base graph is that of the case before", "graph", lambda _new, old, *_: old.graph),
    ("count", "C is that of the case before", "segmentation", lambda _new, old, *_: old.c),
    ("filled_columns", "Kb is that of the case before", "segmentation", lambda _new, old, *_: old.plan.kb),
    ("set_index", "the set index is that of the case before", "segmentation", lambda _new, old, *_: old.plan.set),
    ("lifting_size", "Zc is that of the case before", "segmentation", lambda _new, old, *_: old.z),
    ("buffer_length", "Ncb is that of the case before, or N if that is less", "buffer",
     lambda _new, old, _plan, most, *_: min(old.ncb, most)),
    ("lengths", "E_r are those of the case before, if it has as many", "lengths",
     lambda new, old, *_: old.lengths if len(old.lengths) == len(new) else new),
)

# No more octets of code blocks are kept.
MOST = 1 << 22


@functools.lru_cache(maxsize=2048)
def facts_of(case: Case) -> Facts:
    return Facts(case)


def told(self: typing.Any, _right: Method, case: Case, before: Case | None) -> Case:
    """The case, which is kept with the one before for those methods that are not given it."""
    self.case, self.before = case, before
    return case


def number(hook: str, left: typing.Callable[..., typing.Any]) -> Methods:
    """A number of the case before."""
    def made(self: typing.Any, right: Method, *given: typing.Any) -> typing.Any:
        value = right(*given)
        return left(value, facts_of(self.before), *given) if self.before else value

    return {"told": told, hook: made}


@functools.lru_cache(maxsize=4)
def uncleared(suite: Suite) -> dict[str, str]:
    """The parity bits of all transport blocks of a suite in turn, by the id of a case, if the register is never cleared."""
    rest, found = 0, {}
    for name, case in suite.cases.items():
        degree, terms = lists.POLYNOMIALS[right().crc_of_block(len(case.a))]
        rest = lists.remainder((degree, terms), case.a, rest & (1 << degree) - 1)
        found[name] = f"{rest:0{degree}b}"
    return found


def register(suite: Suite) -> Methods:
    """The register of the transport block's CRC begins with what the case before left there."""
    return {"told": told, "attached": lambda self, _right, a: a + uncleared(suite)[self.case.id]}


# What one memory keeps of a code block: of what there was, the bits, their old fillers, the plan and the suite.
Kept = typing.Callable[[str, str, str, "Plan", "Suite"], str]


def whole_word(memory: str, bits: str, old: str, plan: Plan, suite: Suite) -> str:
    """The whole codeword of old bits, and what there was after it."""
    columns = encoder_of(right(), suite.tables, plan.graph, plan.z, plan.set).columns(bits + old)
    return "".join(f"{it:0{plan.z}b}" for it in columns) + memory[len(columns) * plan.z :]


def left_by(kept: Kept, suite: Suite) -> dict[str, str]:
    """The old bits in the places of fillers, by the bits of a code block, of one memory that keeps this of each code block."""
    memory, found, work = "", {}, 0
    for values in suite.values.values():
        plan = values.plan
        work = work + plan.c * (plan.k + plan.n) if kept is whole_word else plan.c * plan.k
        for bits in values.bits if work < MOST else []:
            found[bits] = memory[plan.kdash : plan.k].ljust(plan.fillers, "0")
            memory = kept(memory, bits, found[bits], plan, suite)
    return found


MEMORIES: tuple[tuple[Kept, str], ...] = (
    (lambda memory, bits, _old, plan, _suite: bits + memory[plan.kdash :], "in one memory"),
    (lambda _memory, bits, *_: bits, "of the code block before"), (whole_word, "with parity bits, in one memory"),
)


def fillers(memory: typing.Callable[[], dict[str, str]]) -> Methods:
    """Parity of old bits in the places of fillers."""
    return instead("filled", lambda bits, found: bits + (memory().get(bits, found) if found.strip("0") == "" else found))


@functools.lru_cache(maxsize=4)
def mistakes_of(suite: Suite) -> tuple[Mistake, ...]:
    """All of a suite, whose cases are asked in its order."""
    change = "set it anew for each case"
    found = [mistake("left-from-before", steps, f"{name} is that of the case before", change, instead(
        "told", lambda case, before, it=field: dataclasses.replace(case, **{it: getattr(before, it)}) if before else case))
             for field, (name, steps) in SETTINGS.items()]
    found += [mistake("left-from-before", step, said, change, number(hook, left)) for hook, said, step, left in NUMBERS]
    found.append(mistake("left-from-before", "crc", "the register begins with the parity bits of the case before",
                         "begin with zeros", register(suite)))
    for kept, words in MEMORIES:
        said = f"the bits that are left in the places of fillers, {words}, are taken where parity is computed"
        found.append(mistake("left-from-before", "ldpc", said, "fillers count as zeros: clear their places for each code block",
                             fillers(functools.lru_cache(None)(functools.partial(left_by, kept, suite)))))
    return tuple(found)
