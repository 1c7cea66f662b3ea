"""The texts that are made of tools/linksim_tools/common/faults.txt and of crates.txt, each a part of a file or all of it."""

from __future__ import annotations

import itertools
import pathlib
import re
import sys
import textwrap
import typing

ROOT = pathlib.Path(__file__).resolve().parent.parent
sys.path.insert(0, str(ROOT / "tools"))

import crate_list  # noqa: E402  (these are in folders that are named by now)
import generated_bindings  # noqa: E402
from linksim_tools.common import faults  # noqa: E402

Fault = faults.Fault
# The statuses of nr.h in groups, each from its first number on.
GROUPS = {0: "", 20: "shift table, as text", 31: "shift table, as entries; also 26 to 29", 40: "transport block", 50: "transmission"}
# The other names of version 0.2, which NR_SHORT_NAMES brings back, with those that nr.h has in their place.
SHORT_NAMES = [
    ("NR_ZERO", "NR_BIT_0"), ("NR_ONE", "NR_BIT_1"), ("NR_ERASED", "NR_BIT_ERASED"), ("NR_FILLER", "NR_BIT_FILLER"),
    *((f"NR_{name}", f"NR_OUTCOME_{name}") for name in ("OPEN", "DELIVERED", "CONTRADICTION")),
    *((f"NR_{name}", f"NR_POLY_{name}") for name in ("CRC24A", "CRC24B", "CRC16")),
]
# In Rust these cannot happen: a polynomial and a table are types. No call returns the others.
NOT_IN_RUST = {4, 31, 42, 43, 44}
MADE = "made by tests/generated from tools/linksim_tools/common/faults.txt"
MARKS = (r"<!-- made by tests/generated: faults of (\w+) -->\n", "<!-- end of what tests/generated made -->\n")


def by_status() -> list[Fault]:
    """The faults that have a status, by its number."""
    return sorted((fault for of in faults.SECTIONS.values() for fault in of if fault.status), key=lambda it: it.status)


def anywhere(sentence: str) -> str:
    """A sentence that names no record and no base graph."""
    return sentence.replace("record {place}", "a record").replace("base graph {place}", "a base graph")


def constant(fault: Fault) -> str:
    """The name of a status in nr.h."""
    return "NR_ERR_" + generated_bindings.upper(fault.name)


def header(text: str) -> str:
    """nr.h: the statuses in groups, each with its sentence; the names of version 0.2; and the errors of each call."""
    lines = ["typedef enum NrStatus {", "    NR_OK = 0,"]
    for first, group in itertools.groupby(by_status(), key=lambda it: max(it_ for it_ in GROUPS if it_ <= it.status)):
        members = [(f"{constant(it)} = {it.status},", it) for it in group]
        width = max(len(member) for member, _ in members)
        lines += [f"    /* {GROUPS[first]} */"] if GROUPS[first] else []
        lines += [f"    {member:<{width}} /* {it.note or anywhere(it.sentence).partition(':')[0]} */" for member, it in members]
    lines[-1] = lines[-1].replace(",", " ", 1)
    text = within(text, r"typedef enum NrStatus \{\n.*?\n(?=\} NrStatus;)", "\n".join(lines) + "\n")
    return generated_bindings.for_header(text)


def for_short_names(_text: str) -> str:
    """nr_short_names.h: what version 0.2 called the constants of nr.h."""
    short = [(constant(it).replace("_ERR", "", 1), constant(it)) for it in by_status()] + SHORT_NAMES
    pairs = textwrap.wrap(", ".join(f"{old}~=~{new}" for old, new in short), 128)
    about = f"""/* The names that nr.h had up to version 0.2, for programs that define NR_SHORT_NAMES before they include it. Linux's headers, for
   one, have NR_OPEN as a macro. {MADE.replace('made', 'Made')}. */
"""
    return about + "enum NrShortNames {\n" + "".join(f"    {line}\n" for line in pairs).replace("~", " ") + "};\n"


def for_c(_text: str) -> str:
    """nr_sentences.h: a row for each status, of which C makes the names, and Octave the words."""
    about = f"/* Each status with its name, and what it says in words; {MADE}. */\n"
    return about + "".join(f'SENTENCE({it.status}, {it.name}, "{anywhere(it.sentence)}")\n' for it in by_status())


def for_python(text: str) -> str:
    """The dictionary of _faults.py."""
    rows = "".join(f'    {it.status}: "{it.sentence}",\n' for it in by_status())
    return within(text, r'(?<=SENTENCES = \{\n    0: "nothing is wrong",\n).*?(?=\}\n)', rows)


def for_rust(text: str) -> str:
    """The rows of both enums in fault.rs."""
    of_text = [it for it in by_status() if 20 < it.status < 31 or it.status == 1]
    of_calls = [it for it in by_status() if it.status not in NOT_IN_RUST and not 20 <= it.status < 31]
    for name, listed in (("Fault", of_calls), ("TableCause", of_text)):
        rows = "".join(f'        {it.status} {it.name} "{it.sentence}",\n' for it in listed)
        text = within(text, rf"(?<=    {name} \{{\n).*?(?=    \}}\n)", rows)
    return text


def for_help(text: str) -> str:
    """texts.rt of nr_job: of each option that names a file the short text and the long one."""
    found = []
    for name, kind in faults.FILES.items():
        for constant_, said in ((name.upper(), kind.about), (f"{name.upper()}_LONG", faults.of_file(name))):
            head = f"pub(super) const {constant_}: &str ="
            literal = f'"{said}"'
            # As `rt fmt` has it: at most 100 columns.
            first = literal.partition("\n")[0] + ("" if "\n" in literal else ";")
            found.append(f"{head} {literal};" if len(f"{head} {first}") <= 100 else f"{head}\n    {literal};")
    return text.partition("pub(super)")[0] + "\n\n".join(found) + "\n"


def row(fault: Fault) -> str:
    """A row of a table of docs/formats.md."""
    letter = "g" if fault.place == "graph" else "n"
    name = fault.head.replace(" N", f" {letter}")
    cause = re.sub(rf"\b{fault.place} N", f"{fault.place} {letter}", fault.cause) if fault.place else fault.cause
    more = f"; {fault.more}" if fault.more else ""
    step = f"{fault.step}: " if fault.step else ""
    return f"| {step}`{name}` | {cause}{more} | {fault.remedy} |"


def for_page(text: str) -> str:
    """The tables of docs/formats.md, each between two marks."""

    def table(found: re.Match[str]) -> str:
        rows = [row(fault) for fault in faults.SECTIONS[found[2]] if fault.cause]
        return f"{found[1]}\n| Error | Cause | Remedy |\n|---|---|---|\n" + "\n".join(rows) + f"\n\n{found[3]}"

    return re.sub(f"({MARKS[0]}).*?({MARKS[1]})", table, text, flags=re.DOTALL)


def for_map(text: str) -> str:
    """The tables of layers in docs/architecture.md, of crates.txt. What a crate is, its README says in the first sentence."""
    lines: list[str] = []
    for name, (said, crates) in crate_list.layers().items():
        lines += ["", f"*{name}*: {said}", "", "| Crate | What it is |", "|---|---|"]
        for crate in crates:
            page = (ROOT / "crates" / crate / "README.md").read_text()
            first = re.split(r"\. ", page.partition("\n\n")[2].partition("\n\n")[0].replace("\n", " ") + " ")[0]
            plain = re.sub(r"\[([^\]]*)\]\([^)]*\)", r"\1", first)
            lines.append(f"| [{crate}](../crates/{crate}/README.md) | {plain} |")
    return within(text, f"(?<=<!-- made by tests/generated: layers -->\n).*?(?={MARKS[1]})", "\n".join([*lines, "", ""]))


def within(text: str, form: str, made: str) -> str:
    """A text with a made part in place of the one that has this form."""
    found = re.search(form, text, re.DOTALL)
    assert found, form
    return text[: found.start()] + made + text[found.end() :]


def version() -> str:
    return (ROOT / "VERSION").read_text().strip()


def versioned(form: str) -> typing.Callable[[str], str]:
    """A file where the version behind this form is that of the file VERSION."""
    return lambda text: re.sub(rf'(?m)^({form} "?)\d+\.\d+\.\d+(?:-dev)?', rf"\g<1>{version()}", text)


def with_numbers(text: str) -> str:
    """The header, with the three numbers of the version."""
    numbers = iter(version().partition("-")[0].split("."))
    return re.sub(r"(?m)^(#define NR_VERSION_(?:MAJOR|MINOR|PATCH) )\d+$", lambda found: found[1] + next(numbers), text)


def released(text: str) -> str:
    """A page whose names of packages have the number of the release that VERSION is, or that it is on the way to."""
    return re.sub(r"(?<=[-_])\d+\.\d+\.\d+(?=[-_])", version().partition("-")[0], text)


TEXTS: dict[str, typing.Callable[[str], str]] = {
    "c/nr.h": lambda text: with_numbers(versioned("#define NR_VERSION")(header(text))),
    "c/nr_short_names.h": for_short_names,
    "c/octave/nr_sentences.h": for_c,
    "c/nr/_faults.py": for_python,
    "c/rust/src/fault.rs": for_rust,
    "crates/nr_job/src/command_line/texts.rt": for_help,
    "crates/nr_job/src/command_line/apps.rt": versioned("const VERSION: &str ="),
    "c/rust/Cargo.toml": versioned("version ="),
    "CITATION.cff": versioned("version:"),
    "docs/install.md": released,
    "docs/formats.md": for_page,
    "docs/architecture.md": for_map,
    **generated_bindings.TEXTS,
}


def made(write: bool) -> list[str]:
    """The files whose part is not what the list makes of it; if wanted they are written."""
    wrong = []
    for name, make in TEXTS.items():
        path = ROOT / name
        before = path.read_text()
        if make(before) != before:
            wrong.append(name)
            if write:
                path.write_text(make(before))
    return [] if write else wrong
