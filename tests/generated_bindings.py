"""What is made of c/nr.h and of the errors of its calls in faults.txt: the lists of errors in nr.h, in the crate nr_c and in the Rust
crate, the declarations of the Rust crate, and the structs and argument types of the Python module."""

from __future__ import annotations

import pathlib
import re
import sys
import textwrap
import typing

ROOT = pathlib.Path(__file__).resolve().parent.parent
sys.path.insert(0, str(ROOT / "tools"))

from linksim_tools.common import faults  # noqa: E402  (its folder is named by now)

COLUMNS = 132
# C's types in Rust, and in ctypes. A pointer is a letter p in the argument types of Python.
IN_RUST = {"uint8_t": "u8", "uint16_t": "u16", "uint32_t": "u32", "uint64_t": "u64", "size_t": "usize", "char": "c_char",
           "NrStatus": "u32"}
IN_PYTHON = {"uint16_t": "c_uint16", "uint32_t": "c_uint32", "uint64_t": "c_uint64"}
LETTERS = {"uint32_t": "i", "uint64_t": "q", "size_t": "n"}
# Rust judges these by its types.
NOT_IN_RUST = re.compile(r"\b(TABLE|Entries|Poly)\b, |, Room\b|; Room\b")


class Call(typing.NamedTuple):
    """A function of nr.h: what it returns, its name, and its parameters with their types as C has them."""

    answer: str
    name: str
    takes: list[tuple[str, str]]


def uncommented() -> str:
    """nr.h without comments."""
    return re.sub(r"/\*.*?\*/", "", (ROOT / "c" / "nr.h").read_text(), flags=re.DOTALL)


def calls() -> list[Call]:
    """The functions of nr.h in their order."""
    found = []
    for answer, name, given in re.findall(r"(?m)^(?:NR_CHECKED )?([\w ]+?[ *]+)(nr_\w+)\(([^)]*)\);", uncommented()):
        split = [re.fullmatch(r"(.*?[ *])(\w+)", " ".join(it.split())) for it in given.split(",") if it.strip() != "void"]
        found.append(Call(answer.strip(), name, [(it[1].strip(), it[2]) for it in split if it]))
    return found


def structs() -> dict[str, list[tuple[str, str, int]]]:
    """The members of each struct of nr.h: type, name, and how many there are, 0 if it is no array."""
    found = {}
    for name, body in re.findall(r"typedef struct Nr(\w+) \{(.*?)\} Nr\1;", uncommented(), flags=re.DOTALL):
        members = re.findall(r"(\w+) (\w+)(?:\[(\d+)\])?;", body)
        found[name] = [(kind, member, int(many or 0)) for kind, member, many in members]
    return found


def upper(name: str) -> str:
    """The name of an error as nr.h has it, without its prefix."""
    return re.sub(r"(?<=[a-z])(?=[A-Z])", "_", name).upper()


def for_header(text: str) -> str:
    """nr.h: the errors at the end of each function's description."""

    def errors(found: re.Match[str]) -> str:
        listed = re.sub(r"\b[A-Z][a-z]\w*", lambda it: upper(it[0]), faults.CALLS[found[2]])
        lines = textwrap.wrap(f"Errors: {listed}.", COLUMNS - 3, initial_indent="   ", subsequent_indent="   ")
        return "\n".join(lines)[3:] + " */" + found[1]

    return re.sub(r"Errors: (?:(?!\*/).)*?\*/(\nNR_CHECKED NrStatus (nr_\w+)\()", errors, text, flags=re.DOTALL)


def for_crate(text: str) -> str:
    """A file of the Rust crate: the errors below `# Errors` of each function that calls one of nr.h."""

    def errors(found: re.Match[str]) -> str:
        listed = NOT_IN_RUST.sub("", faults.CALLS[found["call"]])
        if found["function"].endswith("send_into"):
            listed = listed.replace("TRANSMISSION", "TRANSMISSION, Room")
        listed = re.sub(r"\b[A-Z][a-z]\w*", r"`\g<0>`", listed)
        listed = listed.replace("for each transmission TRANSMISSION", "those of each transmission")
        listed = listed.replace("TRANSMISSION", "those of a transmission")
        indent = found["indent"]
        lines = textwrap.wrap(listed + ".", 120, initial_indent=f"{indent}/// ", subsequent_indent=f"{indent}/// ")
        return found["head"] + "\n".join(lines) + "\n" + found["rest"]

    form = (r"(?P<head>(?P<indent> *)/// # Errors\n)(?: */// [^\n]*\n)+"
            r"(?P<rest> *pub fn (?P<function>\w+)(?:(?!\n *\}\n).)*?call!\(\s*(?P<call>nr_\w+))")
    return re.sub(form, errors, text, flags=re.DOTALL)


def for_exports(text: str) -> str:
    """A file of the crate nr_c: the errors below `# Errors` of each call, with their statuses."""
    status = {fault.name: fault.status for of in faults.SECTIONS.values() for fault in of if fault.status}

    def errors(found: re.Match[str]) -> str:
        listed = re.sub(r"\b[A-Z]{2,}\b", lambda it: faults.CALLS[it[0]], faults.CALLS[found["call"]])
        listed = re.sub(r"\b[A-Z][a-z]\w*", lambda it: f"{status[it[0]]}~`{it[0]}`", listed)
        listed = listed.replace("any point", "any point, but not in place of 31")
        lines = textwrap.wrap(f"The first that applies: {listed}.", 120, initial_indent="/// ", subsequent_indent="/// ")
        return found["head"] + "\n".join(lines).replace("~", " ") + "\n" + found["rest"]

    form = (r"(?P<head>/// # Errors\n///\n)(?:/// [^\n]*\n)+"
            r'(?P<rest>(?:(?:///|#\[)[^\n]*\n)*pub extern "C" fn (?P<call>nr_\w+))')
    return re.sub(form, errors, text)


def rust_type(kind: str) -> str:
    """A type of nr.h in Rust."""
    name = re.sub(r"\bconst\b|\*", "", kind).strip()
    plain = IN_RUST.get(name, name[2:] if name.startswith("Nr") else name)
    return f"*{'const' if 'const' in kind else 'mut'} {plain}" if "*" in kind else plain


def for_raw(text: str) -> str:
    """raw.rs: the structs and functions of nr.h below its mark."""
    lines = ["structs! {"]
    for name, members in structs().items():
        if name != "Entry":  # (which is the crate's own, in table.rs)
            each = ", ".join(f"{it}: {f'[{rust_type(kind)}; {many}]' if many else rust_type(kind)}" for kind, it, many in members)
            lines.append(f"    {name} {{ {each} }}")
    lines += ["}", "", "#[rustfmt::skip]", 'extern "C" {']
    for call in calls():
        if call.name == "nr_fault_name":  # (an enum has the names)
            continue
        given = ", ".join(f"{name}: {rust_type(kind)}" for kind, name in call.takes)
        whole = f"    pub(crate) fn {call.name}({given}) -> {rust_type(call.answer)};"
        lines += textwrap.wrap(whole, 120, subsequent_indent="        ", break_on_hyphens=False)
    head, mark, _ = text.partition("// made by tests/generated from c/nr.h\n")
    return head + mark + "\n".join([*lines, "}", ""])


def for_ctypes(text: str) -> str:
    """_library.py: the structs, and what each call takes, a letter an argument."""
    lines = []
    for name, members in structs().items():
        lines += ["", "", f"class {name if name == 'Entry' else name + 'Struct'}(ctypes.Structure):"]
        each = []
        for kind, member, many in members:
            of = f"ctypes.{IN_PYTHON[kind]}"
            each.append(f'("{member}",~{of}{f"~*~{many}" if many else ""})')
        wrapped = textwrap.wrap(f"_fields_ = [{', '.join(each)}]", COLUMNS, initial_indent="    ", subsequent_indent=" " * 16)
        lines += [line.replace("~", " ") for line in wrapped]
    lines += ["", "", "# What each call takes, a letter an argument: a pointer, or a number of ctypes.", "TAKES = {"]
    for call in calls():
        letters = "".join("p" if "*" in kind else LETTERS[kind] for kind, _ in call.takes)
        lines.append(f'    "{call.name}": "{letters}",')
    made = "\n".join([*lines, "}", ""])
    form = r"(?<=# made by tests/generated from c/nr\.h\n).*?(?=# end of what tests/generated made\n)"
    return re.sub(form, lambda _: made, text, flags=re.DOTALL)


TEXTS: dict[str, typing.Callable[[str], str]] = {
    "c/rust/src/raw.rs": for_raw,
    "c/nr/_library.py": for_ctypes,
    **{f"crates/nr_c/src/{name}.rt": for_exports for name in ("link", "many", "packed", "soft", "stages", "table")},
    **{f"c/rust/src/{name}.rs": for_crate for name in ("calls", "many", "packed", "receiver", "simulation", "soft")},
}
