"""The public items of a crate's sources: their names by module, and their heads with the clauses."""

from __future__ import annotations

import pathlib
import re
import typing

ITEM = re.compile(r"^(?P<indent> *)(?P<head>(?:pub(?:\(crate\))? )?(?:const )?(?:extern \"C\" )?(?:fn|impl|trait|struct|enum|mod|use)\b.*)$")


def without_comments(text: str) -> str:
    """The text of a source file without its comments."""
    return re.sub(r"^\s*//.*$", "", text, flags=re.MULTILINE)


def public_names(crate: pathlib.Path) -> dict[str, set[str] | None]:
    """For each module of a crate the public names in it: None if the module itself is public, so that all are."""
    root = next((path for name in ("lib.rt", "main.rt") if (path := crate / "src" / name).exists()), None)
    if root is None:
        return {}
    text = without_comments(root.read_text())
    names: dict[str, set[str] | None] = {root.stem: None}
    tests = set(re.findall(r"#\[cfg\(test\)\]\s*(?:pub )?mod (\w+);", text))
    for public, module in re.findall(r"^(pub )?mod (\w+);", text, re.MULTILINE):
        if module not in tests:
            names[module] = None if public else set()
    for module, several, one in re.findall(r"^pub use (?:crate::)?(\w+)::(?:\{([^}]*)\}|(\w+));", text, re.MULTILINE):
        there = names.get(module)
        if there is not None:
            there |= {name.strip() for name in (several or one).split(",") if name.strip()}
    return names


def blocks(text: str) -> typing.Iterator[tuple[int, str]]:
    """The items of a file: (indent, head with its clauses up to the body), one after the other."""
    lines = text.split("\n")
    at = 0
    while at < len(lines):
        found = ITEM.match(lines[at])
        if not found:
            at += 1
            continue
        head = [lines[at]]
        if re.search(r"\bfn\b", found["head"]):
            # A signature and its clauses end at the line that opens the body, or at one that ends in a semicolon.
            depth_ends = re.compile(r"^" + found["indent"] + r"(\{.*|\}.*)$")
            while not (len(head) > 1 and depth_ends.match(head[-1])) and not head[-1].endswith(";") and not (
                len(head) == 1 and head[0].endswith(" {")
            ):
                at += 1
                if at == len(lines):
                    break
                head.append(lines[at])
        yield len(found["indent"]), "\n".join(head)
        at += 1


def head_type(first: str) -> tuple[str, str | None]:
    """(type, trait) that an `impl` or `trait` line speaks of."""
    if found := re.match(r"(?:pub )?trait (\w+)", first):
        return found[1], None
    plain = re.sub(r"<[^<>]*(?:<[^<>]*>[^<>]*)*>", "", first)
    if found := re.match(r"impl\s+([\w:]+)\s+for\s+([\w:]+)", plain):
        return found[2].split("::")[-1], found[1].split("::")[-1]
    found = re.match(r"impl\s+([\w:]+)", plain)
    return (found[1].split("::")[-1] if found else ""), None
