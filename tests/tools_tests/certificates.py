"""Edits of certificates, each of which both verifiers have to reject, with a part of what they say."""

from __future__ import annotations

import json
import typing

Lines = typing.List[typing.Dict[str, typing.Any]]
Edit = typing.Callable[[Lines], typing.Any]


def text_of(lines: Lines) -> str:
    return "".join(json.dumps(line) + "\n" for line in lines)


def put(at: int, **values: typing.Any) -> Edit:
    """Gives keys of a line other values."""
    return lambda lines: lines[at].update(values)


def drop(at: int, name: str) -> Edit:
    return lambda lines: lines[at].pop(name)


def place(at: int, change: typing.Callable[[str], str], first: int = 0, kind: str = "01") -> Edit:
    """Changes the first place of a transmission from which on one of these characters stands."""
    def edit(lines: Lines) -> None:
        text = lines[at]["received"]
        here = next(m for m in range(first, len(text)) if text[m] in kind)
        lines[at]["received"] = text[:here] + change(text[here]) + text[here + 1 :]
    return edit


def step(at: int, change: typing.Callable[[typing.List[int], typing.List[int]], typing.Any]) -> Edit:
    """Changes the rows and positions of a code block."""
    return lambda lines: change(lines[at]["rows"], lines[at]["positions"])


def both(number: int) -> typing.Callable[[typing.List[int], typing.List[int]], typing.Any]:
    """Takes a step away."""
    return lambda rows, positions: (rows.pop(number), positions.pop(number))


def doubled(rows: typing.List[int], positions: typing.List[int]) -> None:
    """The first step twice."""
    for it in (rows, positions):
        it.insert(0, it[0])


def swapped(rows: typing.List[int], positions: typing.List[int]) -> None:
    """The last step stands first."""
    rows.insert(0, rows.pop())
    positions.insert(0, positions.pop())


def other(bit: str) -> str:
    return "10"[int(bit)]


# Of a delivered block of two code blocks: line 0 is the head, 1 and 2 are transmissions, 3 and 4 the code blocks.
DELIVERED: typing.Dict[str, typing.Tuple[Edit, str]] = {
    "another size": (lambda lines: lines[0].update(a=lines[0]["a"] + 16), "line"),
    "no size": (put(0, a=9), "no transport block has this size"),
    "another rate": (put(0, rate2048=2048), "another table"),
    "no rate": (put(0, rate2048=0), "no transport block"),
    "a limit of the buffer": (put(0, lbrm=6000), "line 4: step"),
    "a limit of nothing": (put(0, lbrm=0), "no transport block"),
    "another fingerprint": (lambda lines: lines[0].update(fingerprint=lines[0]["fingerprint"][:-1] + "x"), "another table"),
    "a transmission more": (lambda lines: lines[0].update(transmissions=3), "line 4 lacks the number rv"),
    "a transmission less": (lambda lines: lines[0].update(transmissions=1), "line 3 lacks the number codeblock"),
    "another block": (lambda lines: lines[0].update(block="f" + lines[0]["block"][1:]), "block is not what the steps fix"),
    "a shorter block": (lambda lines: lines[0].update(block=lines[0]["block"][:-1]), "block is not what the steps fix"),
    "an undecided block": (put(0, outcome="undecided"), "no code block is stuck"),
    "an inconsistent block": (put(0, outcome="inconsistent", contradiction=[]), "line 4 lacks the text bits"),
    "an unknown outcome": (put(0, outcome="open"), "does not begin a certificate"),
    "another version": (put(0, certificate=2), "does not begin a certificate"),
    "another redundancy version": (put(2, rv=1), "line 4"),
    "no redundancy version": (put(1, rv=4), "no transmission has these numbers"),
    "another G": (lambda lines: lines[1].update(g=lines[1]["g"] + 12), "received is not one of"),
    "a ragged G": (lambda lines: lines[1].update(g=lines[1]["g"] + 1), "no transmission has these numbers"),
    "another modulation": (put(1, qm=4), "line 4"),
    "no modulation": (put(1, qm=3), "no transmission has these numbers"),
    "no layers": (put(1, nl=5), "no transmission has these numbers"),
    "a code block less": (put(1, codeblocks=[1]), "line 4"),
    "no code blocks": (put(1, codeblocks=[]), "no transmission has these numbers"),
    "code blocks in another order": (put(1, codeblocks=[1, 0]), "no transmission has these numbers"),
    "a code block that is not there": (put(1, codeblocks=[0, 2]), "no transmission has these numbers"),
    "a bit inverted": (place(1, other), "contradicts the delivery"),
    "a bit of the second transmission inverted": (place(2, other), "contradicts the delivery"),
    "a bit erased": (place(1, lambda _: "-"), "line 4"),
    "a place shorter": (lambda lines: lines[1].update(received=lines[1]["received"][1:]), "received is not one of"),
    "a place of another sign": (place(1, lambda _: "2"), "received is not one of"),
    "the first step missing": (step(3, both(0)), "line 4"),
    "the last step missing": (step(3, both(-1)), "line 4"),
    "a step twice": (step(3, doubled), "line 4: step 2"),
    "the last step first": (step(3, swapped), "line 4: step 1"),
    "another row": (step(3, lambda rows, _: rows.__setitem__(0, rows[0] + 1)), "line 4: step 1"),
    "another position": (step(3, lambda _, positions: positions.__setitem__(0, positions[0] + 1)), "line 4: step 1"),
    "a row past the last": (step(3, lambda rows, _: rows.__setitem__(0, 42 * 384)), "line 4: step 1"),
    "a position past the last": (step(4, lambda _, positions: positions.__setitem__(0, 10**14)), "line 5: step 1"),
    "more rows than positions": (step(3, lambda rows, _: rows.append(0)), "not equally many"),
    "another number of a code block": (put(3, codeblock=1), "code block 0 should stand here"),
    "code blocks swapped": (lambda lines: lines.append(lines.pop(3)), "code block 0 should stand here"),
    "a code block missing": (lambda lines: lines.pop(), "ends too early"),
    "a stuck code block": (put(3, stuck=[0]), "stuck is not the list"),
    "a key missing": (drop(1, "g"), "line 2 lacks the number g"),
    "a number as a text": (put(1, g="24"), "line 2 lacks the number g"),
    "a list as a number": (put(3, rows=1), "line 4 lacks the list rows"),
    "a negative number": (put(1, rv=-1), "line 2 lacks the number rv"),
    "nothing": (lambda lines: lines.clear(), "ends too early"),
}
UNDECIDED: typing.Dict[str, typing.Tuple[Edit, str]] = {
    "delivered": (put(0, outcome="delivered", block="01"), "stuck, and the outcome delivered"),
    "inconsistent": (put(0, outcome="inconsistent", contradiction=[]), "stuck, and the outcome inconsistent"),
    "a stuck position less": (lambda lines: lines[-1]["stuck"].pop(), "stuck is not the list"),
    "a stuck position more": (lambda lines: lines[-1]["stuck"].append(207), "stuck is not the list"),
    "stuck positions in another order": (lambda lines: lines[-1]["stuck"].reverse(), "stuck is not the list"),
    "no stuck positions": (drop(-1, "stuck"), "stuck is not the list"),
    "a step less": (step(-1, both(-1)), "line 3: row"),
    "a bit that did not arrive": (place(1, lambda _: "0", kind="-"), "line 3"),
}
INCONSISTENT: typing.Dict[str, typing.Tuple[Edit, str]] = {
    "another place": (
        lambda lines: lines[0]["contradiction"].append(lines[0]["contradiction"].pop() + 1), "the contradiction is none",
    ),
    "another transmission": (put(0, contradiction=[2, 0]), "the contradiction is none"),
    "another CRC24B": (put(0, contradiction=[0]), "the contradiction is none"),
    "three numbers": (put(0, contradiction=[1, 7, 7]), "the contradiction is none"),
    "other bits": (lambda lines: lines[-1].update(bits=other(lines[-1]["bits"][0]) + lines[-1]["bits"][1:]), "bits are not what"),
    "bits missing": (drop(-1, "bits"), "lacks the text bits"),
    "no contradiction": (drop(0, "contradiction"), "lacks the list contradiction"),
    "delivered": (put(0, outcome="delivered", block="0d2a"), "contradicts the delivery"),
    "undecided": (put(0, outcome="undecided"), "no code block is stuck"),
}
# Edits of the text of a delivered certificate.
TEXTS: typing.Dict[str, typing.Tuple[typing.Callable[[str], str], str]] = {
    "a line cut": (lambda text: text[:-40], "is not a JSON object"),
    "a blank line": (lambda text: "\n" + text, "line 1 is not a JSON object"),
    "an escape": (lambda text: text.replace('"outcome"', '"outc\\u006fme"', 1), "is not a JSON object"),
    "a key twice": (lambda text: text.replace('{"certificate": 1,', '{"certificate": 1, "a": 8,', 1), "lacks the number a"),
    "an object in an object": (lambda text: text.replace('"certificate": 1', '"certificate": {"a": 1}', 1), "is not a JSON object"),
    "a number with a leading zero": (lambda text: text.replace('"rv": ', '"rv": 0', 1), "lacks the number rv"),
}
