"""What the program refuses, with the cause and what to do about it, as faults.txt beside this module lists it. The program's
long help and its man page have these lines. A line is `NAME: cause; remedy.`"""

import pathlib
import re
import typing

LIST = pathlib.Path(__file__).with_name("faults.txt")
ENTRY = re.compile(r"(?:(\d+) )?(\w+)(?:: (.*))?")
# A line, and those below it that are indented.
LINES = re.compile(r"(?m)^([^#\n].*)((?:\n  .*)*)")
PLACE = re.compile(r"\b(record|graph|line) N\b")


class Fault(typing.NamedTuple):
    """A fault: its name, what the number after the name is of, what is wrong, and what to do. Then what the library says of it:
    its status and sentence, and what nr.h says in its place. Last what docs/formats.md says: more of the cause, and the step of
    the order that begins with it."""

    name: str
    place: str
    cause: str
    remedy: str
    status: int
    sentence: str
    note: str
    more: str
    step: str

    @property
    def head(self) -> str:
        """The name, with N if a number is after it."""
        return f"{self.name} N" if self.place else self.name

    @property
    def line(self) -> str:
        """Cause and remedy."""
        return f"{self.cause}; {self.remedy}"


class Kind(typing.NamedTuple):
    """A file that the program reads: what it is, what it accepts, line by line, and its faults in the order of the
    tests. Then what is refused when it is used: how, and for which causes."""

    about: str
    accepted: typing.List[str]
    faults: typing.List[Fault]
    how: str
    later: typing.List[Fault]


def fault_of(first: str, lines: typing.List[str], step: str) -> Fault:
    """The fault of an entry of the list: its first line, and those that are indented."""
    named = ENTRY.fullmatch(first)
    assert named, first
    marked = {line[0]: line[2:] for line in lines if line[0] in "!+"}
    # A cause has no semicolon; a remedy may have some.
    cause, _, remedy = "".join(line for line in lines if line[0] not in "!+").partition("; ")
    place = PLACE.search(cause)
    return Fault(
        named[2], place[1] if place else "", cause, remedy, int(named[1] or 0), named[3] or "", marked.get("!", ""),
        marked.get("+", ""), step,
    )


def listed() -> typing.Dict[str, typing.List[Fault]]:
    """The faults of each section of the list."""
    sections: typing.Dict[str, typing.List[Fault]] = {}
    step = ""
    for first, more in LINES.findall(LIST.read_text().partition("\n[calls]\n")[0]):
        if first.startswith("["):
            found = sections.setdefault(first[1:-1], [])
        elif not first.startswith("> "):
            found.append(fault_of(first, [line.strip() for line in more.splitlines() if line], step))
        step = first[2:] if first.startswith("> ") else ""
    return sections


def errors_of_calls() -> typing.Dict[str, str]:
    """The errors of each call of nr.h in order, and of the lists that these name in capitals."""
    return {first.partition(": ")[0]: " ".join((first.partition(": ")[2] + more).split())
            for first, more in LINES.findall(LIST.read_text().partition("\n[calls]\n")[2])}


SECTIONS, CALLS = listed(), errors_of_calls()
OF_BLOCK = "ejected with status 1 and 'linksim: refused: block N' followed by"
LATER = {fault.name: fault for name in ("block", "transmission") for fault in SECTIONS[name] if fault.cause}
FILES = {
    "table": Kind(
        "The shift table, as comma-separated values (- for standard input)",
        [
            "The first record may be a header that begins with graph. Each other record has eleven numbers:",
            "the base graph, 1 or 2; the row, 0-45 (graph 2: 0-41); the column, 0-67 (graph 2: 0-51); and the shift",
            "values of the eight lifting-size sets, 0-65535.",
        ],
        SECTIONS["table"], "", [],
    ),
    "settings": Kind(
        "The code rate and the limit of the circular buffer, as TOML (- for standard input)",
        [
            "rate2048 = 1-2048: twice the target code rate x 1024 of the MCS tables of TS 38.214",
            "lbrm = 0-4294967295, optional: TBS_LBRM, which limits the circular buffer (TS 38.212, 5.4.2.1)",
        ],
        SECTIONS["settings"], f"Together with the blocks: r{OF_BLOCK}", [LATER["Graph"], LATER["NoBuffer"]],
    ),
    "blocks": Kind(
        "The transport blocks, one per line in hexadecimal (- for standard input)",
        ["At most 256 lines, with two hexadecimal digits of either case for each octet and at most 327,680 digits."],
        SECTIONS["blocks"], f"R{OF_BLOCK}", [LATER["Uneven"]],
    ),
    "schedule": Kind(
        "The transmissions, as comma-separated values (- for standard input)",
        [
            "The header is block,rv,g,qm,nl,erase, optionally followed by ,flip or ,flip,mask or",
            ",flip,mask,process,fresh. At most 4,096 records follow. block counts from 1; rv is 0-3;",
            "g is 1-4194304, a multiple of nl * qm; qm is 1, 2, 4, 6 or 8; nl is 1-4; erase is -, all, places or",
            "pcg:seed:threshold; flip is -, all or places; mask is all or code blocks; process is 0-15; fresh is 0 or 1.",
        ],
        SECTIONS["schedule"],
        "A rejected transmission does not end a run (status 0). It is a line 'refused' of send and run, which ends with",
        [fault for fault in SECTIONS["transmission"] if fault.cause],
    ),
}

(OUTPUT,), (MEMORY,) = SECTIONS["output"], SECTIONS["memory"]

# What each command reads, in the order in which it judges it.
READS = {
    "cut": ["blocks"],
    "check": ["table"],
    **dict.fromkeys(("send", "run", "audit"), ["table", "settings", "blocks", "schedule"]),
}

# What else each command can answer.
ALWAYS = [OUTPUT._replace(name="output Write"), MEMORY]


def aligned(faults: typing.List[Fault]) -> typing.List[str]:
    """A line for each fault, the causes below one another."""
    width = max(len(fault.head) for fault in faults)
    return [f"  {fault.head:<{width}}  {fault.line}" for fault in faults]


def of_file(name: str) -> str:
    """What the long help says of the option of a file."""
    kind = FILES[name]
    lines = [kind.about, "", *kind.accepted, "", f"Rejected with status 1 and 'linksim: refused: {name}' followed by"]
    lines += aligned(kind.faults)
    return "\n".join([*lines, "", kind.how, *aligned(kind.later)] if kind.later else lines)


def of_all() -> str:
    """What the long help of each command says of what is refused beside its files."""
    return "\n".join(["Fails with status 1 and 'linksim: refused:' followed by", *aligned(ALWAYS)])


def named(word: str) -> typing.List[typing.Tuple[str, Fault]]:
    """The faults of a name, whatever its case, each with what it is of."""
    found = [(name, fault) for name, kind in FILES.items() for fault in kind.faults]
    later = {"settings": "block", "blocks": "block", "schedule": "transmission"}
    found += [(later[name], fault) for name, kind in FILES.items() for fault in kind.later]
    found += [("output", OUTPUT), ("", MEMORY)]
    return [(of, fault) for of, fault in found if fault.name.lower() == word.lower()]
