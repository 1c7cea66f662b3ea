"""What soft values show of where a receiver puts what arrives: k0, Ncb, fillers and the order of a symbol's bits. They are read off
the first transmission of each block, and k0 and Ncb are judged as an encoder's are."""

from __future__ import annotations

import bisect
import dataclasses
import typing

from linksim_tools.conform.case import PLAN, Plan, Values
from linksim_tools.conform.case import Answer as Numbers
from linksim_tools.conform.encoder import suite as suites
from linksim_tools.conform.encoder.families.orders import SYMBOLS
from linksim_tools.conform.encoder.judging import NOTHING, Trials
from linksim_tools.conform.encoder.search import Search
from linksim_tools.conform.receiver import conditions, steps
from linksim_tools.conform.receiver.reception import ZERO, octets_of

if typing.TYPE_CHECKING:
    from linksim_tools.conform.case import Case
    from linksim_tools.conform.receiver.answers import Answers
    from linksim_tools.conform.receiver.diagnosis import Diagnosis
    from linksim_tools.conform.receiver.reception import Arrival

SIGNS = bytes(b"0+-"[(octet > ZERO) + 2 * (octet < ZERO)] for octet in range(256))
# So many values of a code block must arrive for its places to be read, and so many cases must show the same.
LEAST, SOME = 12, 2


@dataclasses.dataclass
class Read:
    """A case of one transmission, with what is right of it, and what is read: k0, and Ncb if it goes on at the buffer's begin; or
    what else explains what is seen."""

    case: Case
    values: Values
    numbers: dict[str, int]
    others: set[str]

    def wrong(self) -> list[str]:
        """The numbers that are not right, beside the right ones."""
        right = {name: getattr(self.values, name) for name in self.numbers}
        return [f"{name} is {it}, right is {right[name]}" for name, it in self.numbers.items() if it != right[name]]


def numbers_of(d: str, e: str, fillers: range, is_limited: bool) -> dict[str, int]:
    """The place of d at which e begins, and that before which it goes on at place 0, if it does; none that is amid fillers, or if e
    is not there in one such way alone. What has not arrived is 0."""
    ring, there = d[: fillers.start] + d[fillers.stop :], [at for at, it in enumerate(e) if it != "0"]
    first, last, found = len(ring) - len(ring.lstrip("0")), len(ring.rstrip("0")) - 1, []
    # All values come before the buffer's end, or one after it stands first in the buffer.
    for count in (len(e), *(at - first for at in there if at - first > there[0])):
        k0 = last - there[bisect.bisect_left(there, count) - 1]
        size = k0 + count
        if k0 < 0 and count == len(e) and not is_limited:
            # They all come after the end of the whole codeword.
            k0, size = k0 + len(ring), len(ring)
        if k0 >= 0 and (size <= len(ring) or count == len(e)) and all(ring[(k0 + at) % size] == e[at] for at in there):
            if len({(k0 + at) % size for at in there}) == len(ring) - ring.count("0"):
                found.append({"k0": k0} if count == len(e) else {"Ncb": size, "k0": k0})
    return {name: it + (it > fillers.start) * len(fillers) for name, it in found[0].items()
            if it != fillers.start or not fillers} if len(found) == 1 else {}


def read_of(name: str, told: Arrival, values: bytes, soft: typing.Sequence[str]) -> Read | None:
    """What is read of the first code block that is sent, by the right order and fillers, or by another order or without fillers."""
    facts, sizes = conditions.facts_of(told), steps.sizes(told.a, told.rate2048)
    r, qm = facts.scheduled[0], told.qm
    f = values[: facts.lengths[r]].translate(SIGNS).decode()
    if len(soft) != sizes.c or len(f) - f.count("0") < LEAST:
        return None
    d, first = soft[r].ljust(sizes.n, "0"), max(sizes.filled.start - 2 * sizes.z, 0)
    fillers, e = range(first, first + facts.fillers), "".join(f[row::qm] for row in range(qm))
    plan = Plan(**{number: getattr(sizes, number) for number in PLAN})
    values_of = Values("", plan, [], [], facts.ncb, facts.k0, facts.lengths, [], [], "")
    found = Read(dataclasses.replace(facts.case, id=name), values_of, numbers_of(d, e, fillers, told.lbrm is not None), set())
    if found.numbers and not found.wrong():
        return found
    others = {f"the bits of each symbol are taken in another order: {words}": ("".join(f[row::qm] for row in order(qm)), fillers)
              for words, order in SYMBOLS if qm % 2 == 0}
    others["fillers are not passed over"] = e, fillers[:0]
    for words, given in others.items():
        other = dataclasses.replace(found, numbers=numbers_of(d, *given, told.lbrm is not None))
        found.others |= {words} if other.numbers and not other.wrong() else set()
    # A half of the symbol's bits that comes first looks like another k0.
    return dataclasses.replace(found, numbers={}) if found.others else found


def lines(of: Diagnosis, answers: Answers) -> list[str]:
    """What is read in the cases that are judged, if it is not right."""
    found: list[Read] = []
    for name in of.judged:
        case = of.suite.cases[name].case
        for tx, (told, values, answer) in enumerate(zip(case.arrivals, case.values, answers.get(name, ()))):
            if told.fresh and answer is not None and answer.soft:
                read = read_of(f"{name}, transmission {tx}", told, octets_of(values), answer.soft)
                found += [read] if read else []
    unread = [it.others for it in found if it.others]
    common = set.intersection(*unread) if len(unread) >= SOME else set()
    return [f"read from soft in {len(unread)} cases: {' or '.join(sorted(common))}"] if common else of_numbers(
        of, [it for it in found if it.numbers])


def of_numbers(of: Diagnosis, found: list[Read]) -> list[str]:
    """What is wrong of the numbers that were read, by the mistakes of encoders."""
    wrong = [it for it in found if it.wrong()]
    if len(wrong) < SOME:
        return []
    suite = suites.Suite("", "", None, {}, of.suite.tables.key, {it.case.id: it.case for it in found},
                         {it.case.id: it.values for it in found})
    trials = Trials(suite, {it.case.id: Numbers(graph=it.values.graph, plan=dataclasses.asdict(it.values.plan),
                                                Ncb=it.numbers.get("Ncb"), k0=it.numbers.get("k0")) for it in found})
    made = Search(suite, trials).found("buffer", NOTHING, trials.failing("buffer", NOTHING))
    first = min(wrong, key=lambda it: it.case.g)
    said = [f"read from soft in {first.case.id}: {'; '.join(first.wrong())}"]
    names = [it.wrong for fitting in made.fitting[:1] for it in fitting.mistakes] if len(made.fitting) == 1 else []
    condition = made.fitting[0].condition if names else made.condition
    said += [f"this gives it in all {len(wrong)} cases where it is wrong, of {len(found)}: {' and '.join(names)}"] * bool(names)
    return said + ([condition.line("others")] if condition else []) + made.told
