"""The definitions that some clauses rest on: those that they cite, those that these cite, and so on, in reading order.

`gate/believed-words --closure` prints them. A definition is a public word of a crate's `specs/`. It cites the words in
its lines that its own file has, or that its file brings in by `use`. Types of the sources (`specs.declared`) and std's
words end the walk.
"""

from __future__ import annotations

import dataclasses
import functools
import pathlib
import re
import typing

from crate_list import ROOT, crates_and_direct

USE = re.compile(r"^ *(?:ghost )?use Rattle\.(\w+)\.specs\.((?:inside\.)?\w+)\.(?:\{([^}]*)\}|([^\s;{}]+));?", re.MULTILINE)
# A `use` line that brings words of several modules, as `use A.{B.c, D.e}`.
OF_SEVERAL = re.compile(r"^( *(?:ghost )?use )([\w.]+\.)\{([^}]*\.[^}]*)\}", re.MULTILINE)
HEAD = re.compile(r"^(?:(?:abbrev|unfoldable|opaque) )*pub (?:(?:abbrev|unfoldable|record|data|class) )*(\S+)")
TOKEN = re.compile(r"(?<![\w.'])[A-Za-z_][\w'\-]*")
# A `use` line of a type that a crate's sources declare.
DECLARED = re.compile(r"^ *(?:ghost )?use Rattle\.(\w+)\.specs\.declared\.([\w.]+?)\.\{?(\w+)\}?$", re.MULTILINE)
OF_STD = re.compile(r"^use Rattle\.std\.specs\.[\w.]+\.(?:\{([^}]*)\}|([^\s;{}]+))", re.MULTILINE)
OWN_FIELD = re.compile(r"^  pub (\S+) :", re.MULTILINE)


@dataclasses.dataclass(frozen=True)
class Word:
    """A word and the specification that defines it, an internal one as inside/NAME."""

    crate: str
    module: str
    name: str


@dataclasses.dataclass
class Definition:
    """A definition: the lines of the comment above it, and its own."""

    word: Word
    above: list[str]
    lines: list[str]

    @property
    def comment(self) -> str:
        return " ".join(line[2:].strip() for line in self.above)


def specification(crate: str, module: str) -> pathlib.Path:
    """The path of a module of a crate's specifications."""
    return ROOT / "crates" / crate / "specs" / f"{module}.antt"


@functools.lru_cache(maxsize=None)
def definitions(crate: str, module: str) -> list[Definition]:
    """The definitions of a specification in their order, the constructors of a kind of data under its name."""
    path = specification(crate, module)
    found: list[Definition] = []
    comment: list[str] = []
    current: Definition | None = None
    for line in path.read_text().split("\n") if path.exists() else []:
        if head := HEAD.match(line):
            current = Definition(Word(crate, module, head[1]), comment, [line])
            found.append(current)
            comment = []
        elif line.startswith("--"):
            comment = [*comment, line] if current is None else [line]
            current = None
        elif not line:
            current, comment = None, []
        elif current is not None:
            current.lines.append(line)
    return found


@functools.lru_cache(maxsize=None)
def in_sight(crate: str, module: str) -> dict[str, Word]:
    """What the names of a specification stand for: its own words, their constructors, and what it brings in."""
    path = specification(crate, module)
    names = brought(path.read_text()) if path.exists() else {}
    for definition in definitions(crate, module):
        names[definition.word.name] = definition.word
        if re.match(r"(?:\w+ )*data ", definition.lines[0]):
            for constructor in re.findall(r"^  (\S+) :", "\n".join(definition.lines), re.MULTILINE):
                names[constructor] = definition.word
    return names


def one_by_one(text: str) -> str:
    """A text in which each `use` line of words of several modules is a line for each word."""
    def lines(found: re.Match[str]) -> str:
        paths = (f"{found[2]}{item}".rpartition(".") for item in found[3].split(", "))
        return ";\n".join(f"{found[1]}{module}.{{{name}}}" for module, _, name in paths)

    return OF_SEVERAL.sub(lines, text)


def brought(text: str) -> dict[str, Word]:
    """The words that a text brings in by `use`, by the names that it has for them."""
    names = {}
    for crate, path, several, one in USE.findall(one_by_one(text)):
        module = path.replace(".", "/")
        if module == "declared" or not specification(crate, module).exists():
            continue
        for item in filter(None, map(str.strip, (several or one).split(","))):
            word, _, name = item.partition(" as ")
            names[name or word] = Word(crate, module, word)
    return names


def owner(word: Word) -> Word:
    """The word itself, or the kind of data that it constructs."""
    return in_sight(word.crate, word.module).get(word.name, word)


def cited_in(text: str, names: dict[str, Word]) -> set[Word]:
    """The words that stand in a text, by these names."""
    bare = re.sub(r"--[^\n]*", "", text)
    own = set(OWN_FIELD.findall(bare))
    tokens = set(TOKEN.findall(re.sub(r"^  pub \S+ :|(?<=[{;])\s*[\w']+ =", "", bare, flags=re.MULTILINE))) - own
    found = {owner(names[token]) for token in tokens if token in names}
    for name, word in names.items():
        core = name.replace("◌", "")
        if core != name and (f" {core} " in bare or core == ">>=" and "←" in bare):
            found.add(word)
    return found


def closure(roots: typing.Iterable[Word]) -> set[Word]:
    """All words that these rest on, with them."""
    found, waiting = set(), list(roots)
    while waiting:
        word = owner(waiting.pop())
        if word in found:
            continue
        found.add(word)
        for definition in definitions(word.crate, word.module):
            if definition.word == word:
                waiting += cited_in("\n".join(definition.lines), in_sight(word.crate, word.module))
    return found


def reading_order(words: set[Word]) -> typing.Iterator[tuple[str, str, list[Definition]]]:
    """(crate, module, definitions) for the specifications that define these words, each after those that it cites."""
    for crate in (name for name in crates_and_direct() if any(word.crate == name for word in words)):
        for module in modules_in_order(crate):
            those = [it for it in definitions(crate, module) if it.word in words]
            if those:
                yield crate, module, those


def modules_in_order(crate: str) -> list[str]:
    """The modules of a crate's specifications, each after those of the crate that it brings words in from."""
    placed = []

    def place(module: str) -> None:
        if module not in placed and specification(crate, module).exists():
            for word in brought(specification(crate, module).read_text()).values():
                if word.crate == crate and word.module != module:
                    place(word.module)
            if module not in placed:
                placed.append(module)

    for module in re.findall(r"^(?:pub )?mod (\w+)", specification(crate, "Lib").read_text(), re.MULTILINE):
        place(module)
    return placed


# The clause that is the theorem, and those that carry it over to the program's `run`. Each line has a crate, a source file of
# it, a function, and the names of its clauses. The name "" means the clause without a name.
THEOREM = (("nr_theorem", "transfer.rt", "carry", ("theorem",)),)
PROGRAM = (
    ("nr_linkcommands", "run_command.rt", "run", ("",)),
    ("nr_linkcommands", "run_command/laws.rt", "runs_are_safe", ("",)),
)


class NoClause(Exception):
    """A function or a clause that the lists above name and the sources lack."""


def words_of_clauses(clauses: typing.Iterable[tuple[str, str, str, tuple[str, ...]]]) -> set[Word]:
    """The words that these clauses cite, and those that say what a clause sees of types that its file declares."""
    found = set()
    for crate, file, function, wanted in clauses:
        text = (ROOT / "crates" / crate / "src" / file).read_text()
        head = re.search(rf"^( *)pub fn {function}\b.*?^\1\{{", text, re.MULTILINE | re.DOTALL)
        parts = re.split(r"^\s*(?=ensures\b)", head[0] if head else "", flags=re.MULTILINE)[1:]
        by_name = {re.findall(r"^ensures\s*(\w*)", part)[0]: part for part in parts}
        for name in wanted:
            if name not in by_name:
                raise NoClause(f"{crate}/src/{file}: {function} has no clause {name or 'without a name'}")
            found |= cited_in(by_name[name], brought(text))
        for kind, model in re.findall(r"^impl Model for (\w+)[^\n]*\{\n(.*?)^\}", text, re.MULTILINE | re.DOTALL):
            if head and re.search(rf"\b{kind}\b", head[0]):
                for meaning in re.findall(r"^    ghost (?:Value|view) = \{(.*?)\};$", model, re.MULTILINE | re.DOTALL):
                    found |= cited_in(meaning, brought(text))
    return found


def declared(words: set[Word]) -> list[str]:
    """The types of the sources that these words cite, each as its source declares it, without comments."""
    found: dict[tuple[str, str, str], None] = {}
    for crate, module, those in reading_order(words):
        text = "\n".join(line for it in those for line in it.lines)
        for owner_crate, path, kind in DECLARED.findall(one_by_one(specification(crate, module).read_text())):
            if "TheVariants" not in path and re.search(rf"\b{kind}\b", text):
                found[owner_crate, path, kind] = None
    return [declaration(*it) for it in found]


def declaration(crate: str, path: str, kind: str) -> str:
    """A struct or an enum as a crate declares it, in one line, without comments and attributes."""
    source = ROOT / "crates" / crate / "src"
    for file in [source / f"{path.replace('.', '/')}.rt", *sorted(source.glob("**/*.rt"))]:
        text = file.read_text() if file.exists() else ""
        if found := re.search(rf"^pub (?:struct|enum) {kind}\b[^\n]*(?:;$|\{{.*?^\}})", text, re.MULTILINE | re.DOTALL):
            lines = [line.strip() for line in found[0].split("\n") if not re.match(r"\s*(//|#\[|$)", line)]
            return " ".join(lines).replace(", }", " }")
    raise NoClause(f"{crate} declares no type {kind}")


def specification_page() -> str:
    """What docs/specification.md has: the theorem's definitions, whole, and the types of the sources that they speak of."""
    theorem = closure(words_of_clauses(THEOREM))
    files = list(reading_order(theorem))
    lines = [f"These are {len(theorem)} definitions in {len(files)} files, lowest crate first."]
    for crate, module, those in files:
        path = specification(crate, module)
        about = re.match(r"(?:--[^\n]*\n)+", path.read_text())
        lines += ["", f"## {crate}: {module.rpartition('/')[2]}", ""]
        lines += [" ".join(line[2:].strip() for line in about[0].splitlines())] if about else []
        lines += ["", "```text"]
        for definition in those:
            lines += [*([""] if lines[-1] != "```text" else []), *definition.above, *definition.lines]
        lines += ["```"]
    lines += ["", "## Types of the sources", "", "```rust", *declared(theorem), "```"]
    return "\n".join(lines) + "\n"


def words_of_std() -> set[str]:
    """The words of the standard library that the theorem's definitions use."""
    found = set()
    for crate, module, those in reading_order(closure(words_of_clauses(THEOREM))):
        text = re.sub(r"--[^\n]*", "", "\n".join(line for it in those for line in it.lines))
        for several, one in OF_STD.findall(one_by_one(specification(crate, module).read_text())):
            for name in map(str.strip, (several or one).split(",")):
                parts = [re.escape(part) for part in name.split("◌") if part]
                exact = rf"(?<![\w.'])(?:{parts[0]})(?![\w'-])" if parts == [re.escape(name)] else r"[^\n]*".join(parts)
                found |= {name} if re.search(exact, text) else set()
    return found


def program_page() -> str:
    """What the README of nr_linkcommands lists: the names of the definitions that `run` needs besides."""
    besides = closure(words_of_clauses(PROGRAM)) - closure(words_of_clauses(THEOREM))
    lines = [f"The clause of `run` and the law `runs_are_safe` need {len(besides)} more:", ""]
    for crate, module, those in reading_order(besides):
        names = ", ".join(f"`{definition.word.name}`" for definition in those)
        lines.append(f"- `{crate}/specs/{module}.antt`: {names}")
    return "\n".join(lines) + "\n"
