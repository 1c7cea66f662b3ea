"""What a mistake is, and how a module lists those of a step: the methods that it replaces, with its clause and its texts."""

from __future__ import annotations

import dataclasses
import typing

Method = typing.Callable[..., typing.Any]
# Methods that replace the right ones, by their names.
Methods = typing.Mapping[str, Method]


@dataclasses.dataclass(frozen=True)
class Mistake:
    """A mistake: its name, its step, the further steps that it shows in, and its clause. It also has what is wrong,
    what to change, and the class that makes it."""

    name: str
    step: str
    also: tuple[str, ...]
    clause: str
    wrong: str
    change: str
    made: type[typing.Any]

    @property
    def steps(self) -> tuple[str, ...]:
        """The steps that it can show in by itself."""
        return (self.step, *self.also)


def replacing(right: type[typing.Any], methods: Methods) -> type[typing.Any]:
    """A class that replaces methods. Each change is given the object, the right method, and what that is given."""
    def replaced(hook: str, change: Method) -> Method:
        return lambda self, *given: change(self, getattr(super(made, self), hook), *given)

    made = type("Made", (right,), {hook: replaced(hook, change) for hook, change in methods.items()})
    return made


class Catalogue:
    """The mistakes of a kind, encoders or receivers, by name; its modules list them when they are imported."""

    def __init__(self, steps: typing.Iterable[str], right: type[typing.Any]) -> None:
        self.steps, self.right = list(steps), right
        self.there: dict[str, Mistake] = {}

    def mistake(self, step: str, name: str, clause: str, wrong: str, change: str, also: tuple[str, ...] = (),
                family: Methods | None = None, **methods: Method) -> None:
        """Lists a mistake by the methods that it replaces, or by those of a family of which it is a member."""
        assert name not in self.there, name
        self.there[name] = Mistake(name, step, also, clause, wrong, change, replacing(self.right, family or methods))

    def ordered(self) -> dict[str, Mistake]:
        return {it.name: it for it in sorted(self.there.values(), key=lambda it: self.steps.index(it.step))}


def in_order(wrong: typing.Iterable[Mistake]) -> list[Mistake]:
    """Mistakes by name, and those of one name by what is wrong."""
    return sorted(wrong, key=lambda it: (it.name, it.wrong))


def class_of(wrong: typing.Iterable[Mistake], right: type[typing.Any]) -> type[typing.Any]:
    """The class that makes these mistakes together, or the right one."""
    made = tuple(it.made for it in in_order(wrong))
    return type("Wrong", made, {}) if made else right
