"""The values of a case under some clauses: what was answered of it is the input of the later steps."""

from __future__ import annotations

import dataclasses
import typing

from linksim_tools.conform.case import Answer, Case, Plan, Values
from linksim_tools.conform.clauses import SIZES, Clauses, Impossible
from linksim_tools.conform.code import TablesKey, coding_of, encoder_of

# From which names each name is made, and how.
MADE: dict[str, tuple[tuple[str, ...], typing.Callable[..., typing.Any]]] = {
    "attached": ((), lambda it: it.clauses.attached(it.case.a)),
    "graph": ((), lambda it: it.clauses.base_graph(len(it.case.a), it.case.rate2048)),
    "plan": (("attached", "graph"), lambda it, attached, graph: it.clauses.plan(graph, len(it.case.a), len(attached), {})),
    "bits": (("attached", "plan"), lambda it, attached, plan: it.clauses.code_blocks(attached, plan)),
    "d": (("bits", "plan"), lambda it, bits, plan: it.words(bits, plan)),
    "Ncb": (("plan",), lambda it, plan: it.buffer_length(plan)),
    "k0": (("plan", "Ncb"), lambda it, plan, length: it.clauses.start(plan, length, it.case.rv)),
    "E": (("plan",), lambda it, plan: it.clauses.lengths(it.case, plan.c, it.scheduled())),
    "e": (("d", "Ncb", "k0", "E"), lambda it, *given: it.selected(*given)),
    "f": (("e",), lambda it, e: it.clauses.interleaved_all(e, it.case.qm)),
    "sent": (("f",), lambda it, f: it.clauses.joined(f)),
}
INPUTS = {name: inputs for name, (inputs, _) in MADE.items()}

# No number of a plan is larger than this, and no list that is made longer.
MOST_NUMBER, MOST_BITS = 1 << 22, 1 << 25


class Chain:
    """The values of a case; each is made from those before it."""

    def __init__(self, tables: TablesKey, case: Case, clauses: Clauses, given: Answer | None = None,
                 before: Case | None = None) -> None:
        self.tables, self.clauses, self.given = tables, clauses, given or Answer()
        self.case = clauses.told(case, before)
        self.kept: dict[str, object] = {}

    def of(self, name: str) -> typing.Any:
        """What stands under a name as the input of a later step: as it was answered, or else as it is made."""
        found = getattr(self.given, name)
        if name == "plan":
            return self.plan(found or {})
        return self.made(name) if found is None else found

    def attempt(self, name: str) -> typing.Any:
        """What is made under a name, or why nothing is."""
        inputs, make = MADE[name]
        try:
            return make(self, *map(self.of, inputs))
        except (Impossible, ArithmeticError, LookupError, ValueError, TypeError) as error:
            return Impossible(str(error))

    def made(self, name: str) -> typing.Any:
        """What is made under a name, once."""
        found = self.kept[name] = self.kept[name] if name in self.kept else self.attempt(name)
        if isinstance(found, Impossible):
            raise found
        return found

    def plan(self, known: typing.Mapping[str, int]) -> Plan:
        """The plan with these numbers as they were answered."""
        if not known:
            found: Plan = self.made("plan")
            return found
        if not all(0 <= it <= MOST_NUMBER for it in known.values()):
            raise Impossible("no plan")
        graph = known.get("graph", None) or self.of("graph")
        try:
            plan = self.clauses.plan(graph, len(self.case.a), known.get("b", len(self.of("attached"))), known)
        except (ArithmeticError, LookupError):
            raise Impossible("no plan") from None
        if plan.z not in SIZES or plan.set not in range(8) or plan.c < 1 or plan.c * (plan.k + plan.n) > MOST_BITS:
            raise Impossible("no plan")
        return plan

    def scheduled(self) -> list[int]:
        return self.clauses.scheduled(self.case.mask, self.of("plan").c)

    def words(self, bits: list[str], plan: Plan) -> list[str]:
        """d of each code block."""
        encoder = encoder_of(coding_of(self.clauses), self.tables, plan.graph, plan.z, plan.set)
        return [encoder.coded(part, plan) for part in bits]

    def buffer_length(self, plan: Plan) -> int:
        length = len(self.clauses.sent_columns("0" * (plan.n + 2 * plan.z), plan))
        return self.clauses.buffer_length(plan, length, self.case.lbrm, len(self.scheduled()) if self.case.lbrm else 1)

    def selected(self, words: list[str], length: int, first: int, counts: list[int]) -> list[str]:
        """e of each code block."""
        if len(words) != len(counts) or not 0 < length <= MOST_NUMBER or sum(counts) > MOST_BITS or min(counts) < 0:
            raise Impossible("no buffer")
        return [self.clauses.selected(d, first, length, count) for d, count in zip(words, counts)]

    def values(self) -> Values:
        return Values(**{field.name: self.of(field.name) for field in dataclasses.fields(Values)})
