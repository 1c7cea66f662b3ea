"""What a user gave, as messages show it: no longer than can be read, and nothing that a terminal would obey."""

from __future__ import annotations

import typing

# The most characters of a word, a key or a line, and of a whole message; and the most lines about one file.
MOST, MOST_MESSAGE, MOST_LINES = 60, 380, 10


def shown(given: object, most: int = MOST) -> str:
    """A word, a key or a line of a user: at most so many characters, and those that are not printed escaped."""
    text = given.decode("utf-8", "backslashreplace") if isinstance(given, bytes) else str(given)
    text = text[: most + 1]
    plain = text if text.isprintable() else "".join(it if it.isprintable() else it.encode("unicode_escape").decode() for it in text)
    return plain if len(plain) <= most else f"{plain[: most - 2]}.."


def first_lines(lines: typing.Sequence[str], rest: str) -> list[str]:
    """The first lines about one file; if there are more, the last one says how many, as `rest` has it."""
    kept = list(lines[: MOST_LINES if len(lines) <= MOST_LINES else MOST_LINES - 1])
    return kept if len(kept) == len(lines) else [*kept, rest.format(len(lines) - len(kept))]
