"""The names and arguments of what nr_dpi_pkg.sv imports: against nr_dpi.c, nr_vpi.c, nr_golden.h and nr.h."""

from __future__ import annotations

import re
import unittest

import simulators

HEADER = (simulators.C / "nr.h").read_text()
GOLDEN = (simulators.DPI / "nr_golden.h").read_text()
SHIM = (simulators.DPI / "nr_dpi.c").read_text()
VPI = (simulators.DPI / "nr_vpi.c").read_text()
PACKAGE = simulators.PACKAGE.read_text()

# How C takes what SystemVerilog passes, by direction and type.
IN_C = {
    "input int unsigned": "uint32_t", "inout int unsigned": "uint32_t *", "input string": "const char *", "input chandle": "void *",
    "inout chandle": "void **", "input bit": "svBit",
}
# An import is of its own name in the shim, or of a call of nr_golden.h that needs none.
HEAD = r'import "DPI-C" (?:pure )?(?:nr_golden_\w+ = )?function [\w ]+? nr_dpi_(\w+)'


def spaced(text: str) -> str:
    return " ".join(text.split())


def imports() -> dict[str, list[str]]:
    """The arguments of each import, each as `input int unsigned a`."""
    found = {}
    for name, given in re.findall(rf"{HEAD}\((.*?)\);", PACKAGE, re.S):
        found[name] = [spaced(one) for one in given.split(",")]
    return found


def calls(text: str, prefix: str) -> dict[str, list[str]]:
    """The arguments of each function of C that begins so."""
    form = rf"(?:uint32_t|const char \*|void) ?{prefix}(\w+)\(([^()]*)\)"
    return {name: [spaced(one) for one in given.split(",")] for name, given in re.findall(form, text)}


def in_c(one: str) -> str:
    """How C takes an argument of an import."""
    direction, _, rest = one.partition(" ")
    kind, _, name = rest.rpartition(" ")
    name = name.rstrip("_")
    packed = kind.endswith("_t") or kind.startswith("bit [")
    taken = IN_C.get(f"{direction} {kind}") or ("const svBitVecVal *" if direction == "input" else "svBitVecVal *")
    assert packed or f"{direction} {kind}" in IN_C, one
    return taken + name if taken.endswith("*") else f"{taken} {name}"


class Imports(unittest.TestCase):
    """Each import is what it is called after."""

    def test_calls_of_the_shim(self) -> None:
        said, golden, found = calls(SHIM, "nr_dpi_"), calls(GOLDEN, "nr_golden_"), imports()
        direct = re.findall(r"nr_golden_(\w+) = function [\w ]+? nr_dpi_(\w+)\(", PACKAGE)
        self.assertEqual(said.keys() & {name for _, name in direct}, set())
        said.update({name: golden[call] for call, name in direct})
        self.assertEqual(found.keys(), said.keys())
        for name, given in found.items():
            with self.subTest(name):
                self.assertEqual([in_c(one) for one in given], said[name])

    def test_no_result_is_output(self) -> None:
        """C need not write an `output`, and what it leaves is then undefined."""
        self.assertNotRegex(PACKAGE, r"(?m)^[^/\n]*\boutput\b")

    def test_calls_of_vpi(self) -> None:
        """VPI has the golden transmission and receiver, the tables and the names, with as many arguments."""
        found = {name: len(given) for name, given in imports().items() if re.match("table|golden|receiver|fault", name)}
        listed = {name: int(count) for name, count in re.findall(r'\{"\$nr_(\w+)", (\d+), \w+\}', VPI)}
        self.assertEqual(found, listed)

    def test_names(self) -> None:
        """Stages and outcomes have the same order in C and in the package, and faults the same numbers."""
        for c_text, name, prefix in ((GOLDEN, "NrStage", "NR_STAGE_"), (HEADER, "NrOutcome", "NR_OUTCOME_")):
            body = re.sub(r"/\*.*?\*/", "", re.search(rf"enum {name} \{{(.*?)\}}", c_text, re.S)[1], flags=re.S)  # type: ignore
            wanted = [it.replace(prefix, "NR_") for it in re.findall(r"NR_\w+", body) if it != "NR_STAGES"]
            with self.subTest(name):
                self.assertIn("{" + ", ".join(wanted) + "}", PACKAGE)
        numbers = dict(re.findall(r"NR_GOLDEN_(\w+) = (\d+)", GOLDEN))
        named = dict(re.findall(r'case NR_GOLDEN_(\w+): return "(\w+)"', (simulators.DPI / "nr_golden.c").read_text()))
        self.assertEqual({it: it.capitalize() for it in numbers}, named)
        self.assertIn(f"status == {numbers['DIFFERS']}", PACKAGE)

    def test_packed_structs(self) -> None:
        """The fields of a packed struct stand in the shim from the last to the first."""
        packed = (simulators.DPI / "nr_packed.c").read_text()
        plan = re.search(r"bit \[31:0\] ([\w, ]+);\n  \} nr_plan_t", PACKAGE)
        assert plan
        self.assertEqual(re.findall(r"plan->(\w+)", packed), plan[1].split(", ")[::-1])
        tx = re.findall(r"tx\.(\w+) = words", packed)
        self.assertEqual(tx, ["some", "nl", "qm", "g", "rv"])
