"""Mistakes that no list has, by their kind: too few bits, another formula, another limit, another order. Each is tried as a
listed one is, and some listed ones are members of these families."""

from __future__ import annotations

import dataclasses
import typing

from linksim_tools.conform.clauses import Clauses
from linksim_tools.conform.mistake import Method, Methods, Mistake, replacing

CLAUSES = {"crc": "5.1", "graph": "6.2.2, 7.2.2", "segmentation": "5.2.2", "codecrc": "5.2.2", "ldpc": "5.3.2", "buffer": "5.4.2.1",
           "lengths": "5.4.2.1", "selection": "5.4.2.1", "interleaving": "5.4.2.2", "concatenation": "5.5"}
# The steps in which a mistake can show by itself, the first one its own.
Steps = typing.Tuple[str, ...]


def mistake(name: str, step: str | Steps, wrong: str, change: str, methods: Methods) -> Mistake:
    """A mistake that replaces these methods of the chain."""
    first, *also = (step,) if isinstance(step, str) else step
    return Mistake(name, first, tuple(also), CLAUSES[first], wrong, change, replacing(Clauses, methods))


def instead(hook: str, formula: Method) -> Methods:
    """A method by a formula of what it is given."""
    return {hook: lambda _self, _right, *given: formula(*given)}


def after(hook: str, change: Method) -> Methods:
    """A method whose right value is changed; `change` is given that and what the method is given."""
    return {hook: lambda _self, right, *given: change(right(*given), *given)}


def told(**changes: Method) -> Methods:
    """A case of which these settings are taken otherwise."""
    return after("told", lambda case, *_: dataclasses.replace(
        case, **{name: change(getattr(case, name)) for name, change in changes.items()}))
