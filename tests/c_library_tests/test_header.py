"""nr.h against the sources that the proofs are of: nr_c's exports, the structs and statuses of nr_calls, and a table's
entries. What the libraries show is tested too."""

from __future__ import annotations

import pathlib
import re
import typing
import unittest

import clib

HEADER = re.sub(r"/\*.*?\*/", "", (clib.C / "nr.h").read_text(), flags=re.DOTALL)
CRATES = clib.ROOT / "crates"
EXPORTS, SOURCES = (
    "".join(path.read_text() for path in sorted((CRATES / name / "src").glob("**/*.rt"))) for name in ("nr_c", "nr_calls")
)
# An entry as a caller keeps it is a struct of nr_shifttable, which nr_calls names NrEntry.
ENTRIES = (CRATES / "nr_shifttable" / "src" / "entry.rt").read_text()
# The calls that C has alone.
NAMES = ["nr_fault_name", "nr_version"]
VERSION = (clib.ROOT / "VERSION").read_text().strip()

# How C writes what Rattle passes.
ITEMS = {"u8": "uint8_t", "u16": "uint16_t", "u32": "uint32_t", "u64": "uint64_t", "usize": "size_t"}


def spaced(text: str) -> str:
    """A declaration with one space if there is any, and none beside a comma or a parenthesis."""
    return re.sub(r"\s*([(),;{}])\s*", r"\1", re.sub(r"\s+", " ", text)).strip()


def parameter(name: str, kind: str) -> str:
    """A parameter of an export as C declares it."""
    found = re.fullmatch(r"&(mut )?(?:\[(\w+)\]|(\w+))", kind)
    if not found:
        return f"{ITEMS[kind]} {name}"
    const, item = "" if found[1] else "const ", found[2] or found[3]
    return f"{const}{ITEMS.get(item, item)} *{name}" + (f",size_t {name}_len" if found[2] else "")


def exports() -> dict[str, typing.Any]:
    """The declarations of nr_c's exports, by name."""
    found: dict[str, typing.Any] = {}
    for name, given in re.findall(r'pub extern "C" fn (\w+)\((.*?)\) -> u32', EXPORTS, flags=re.DOTALL):
        pairs = re.findall(r"(\w+): ([^,]+)", given)
        found[name] = ",".join(parameter(it, kind.strip()) for it, kind in pairs if kind.strip() != "Global")
    return found


def structs() -> dict[str, typing.Any]:
    """The fields of the structs that nr_c's exports take, as C declares them: a struct within another is its fields."""
    found: dict[str, list[str]] = {}
    struct = r"#\[repr\(C\)\]\n(?:#[^\n]*\n)*pub struct (\w+) \{(.*?)\n\}"
    for name, body in re.findall(struct, ENTRIES + SOURCES, flags=re.DOTALL):
        found[name] = []
        for field, many, count, one in re.findall(r"pub (\w+): (?:\[(\w+); (\d+)\]|(\w+)),", body):
            found[name] += found.get(one) or [f"{ITEMS[many or one]} {field}{f'[{count}]' if many else ''}"]
    named = dict(re.findall(r"pub use nr_shifttable::(\w+) as (\w+);", SOURCES))
    return {named.get(name, name): fields for name, fields in found.items() if name in named or name.startswith("Nr")}


def statuses() -> dict[str, typing.Any]:
    """The number of each fault, by the name of its variant."""
    return {name: int(number) for name, number in re.findall(r"\w+Fault::(\w+)(?:\(_\))? => (\d+),|", SOURCES) if name} | {
        name: int(number) for name, number in re.findall(r" Fault::(\w+) => (\d+),", SOURCES)
    }


class Header(unittest.TestCase):
    """What stands in nr.h is what stands in the sources."""

    def test_calls(self) -> None:
        declared = re.findall(r"NrStatus (nr_\w+)\((.*?)\);", HEADER, flags=re.DOTALL)
        found = {name: spaced(given) for name, given in declared}
        self.assertEqual(found, exports())
        self.assertIn("nr_send", found)

    def test_structs(self) -> None:
        declared = re.findall(r"typedef struct (\w+) \{(.*?)\} (\w+);", HEADER, flags=re.DOTALL)
        found = {name: [spaced(field) for field in body.split(";") if field.strip()] for name, body, _ in declared}
        self.assertEqual(found, structs())
        self.assertTrue(all(name == again for name, _, again in declared))

    def test_statuses(self) -> None:
        listed = HEADER.partition("enum NrStatus {")[2].partition("}")[0]
        named = dict(re.findall(r"NR_ERR_(\w+) = (\d+)", listed))
        found = {name.title().replace("_", ""): int(number) for name, number in named.items()}
        self.assertEqual(found, statuses())

    def test_names(self) -> None:
        names = {name: number for number in range(1000) if (name := clib.module().fault_name(number)) != "unknown"}
        self.assertEqual(names, statuses() | {"Ok": 0})

    def test_version(self) -> None:
        """The header, the library and the module have the version of the file VERSION, and the name has the interface."""
        defined = dict(re.findall(r"#define (NR_VERSION\w*|NR_INTERFACE) (\S+)", HEADER))
        numbers = [defined[f"NR_VERSION_{part}"] for part in ("MAJOR", "MINOR", "PATCH")]
        self.assertEqual((defined["NR_VERSION"], ".".join(numbers)), (f'"{VERSION}"', VERSION.partition("-")[0]))
        self.assertEqual(clib.module().__version__, VERSION)
        self.assertEqual(f"libnr.so.{defined['NR_INTERFACE']}", clib.LIBRARY.name)


class Libraries(unittest.TestCase):
    """What the libraries show, and what they ask of the system."""

    def symbols(self, kind: str, path: pathlib.Path) -> set[str]:
        clib.needs("nm")
        dynamic = ["-D"] if path == clib.LIBRARY else []
        lines = clib.done(["nm", "-P", *dynamic, kind, path]).decode().splitlines()
        return {line.split()[0].partition("@")[0] for line in lines if line.split()[1:] and line.split()[1] not in "Aw"}

    def test_shared(self) -> None:
        self.assertEqual(self.symbols("--defined-only", clib.LIBRARY), {*exports(), *NAMES})

    def test_asks(self) -> None:
        allowed = {"malloc", "realloc", "free", "memcpy", "memmove", "memset", "memcmp"}
        self.assertLessEqual(self.symbols("--undefined-only", clib.LIBRARY), allowed)

    def test_static(self) -> None:
        shown = self.symbols("--extern-only", clib.STATIC) - self.symbols("--undefined-only", clib.STATIC)
        self.assertEqual(shown, {*exports(), *NAMES})
        self.assertIn("rattle_alloc", self.symbols("--defined-only", clib.STATIC))
