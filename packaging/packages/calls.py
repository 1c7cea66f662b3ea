"""The calls of the C library, of the Python module and of the Rust crate as pages: what their sources say of them."""

from __future__ import annotations

import ast
import pathlib
import re

# A comment of nr.h, and the declaration that it belongs to.
DECLARED = re.compile(
    r"/\* ((?:(?!\*/).)*?) \*/\n((?:NR_CHECKED |const char \*|typedef struct |enum )(?:(?!\n/\*|\n#).)*?[;}]\w*;?)\n\n", re.DOTALL
)
NAME = re.compile(r"(?:struct |enum |\b)(nr_\w+|Nr\w+)\b")
RUST = re.compile(r"((?:^ *///[^\n]*\n)+)(?: *#\[[^\n]*\n)*( *pub (?:const )?(?:fn|struct|enum) [^{;]*)", re.MULTILINE)


def paragraphs(comment: str) -> str:
    """A comment's text as Markdown: its errors and each list in a paragraph of their own."""
    lines = [line.strip() for line in comment.splitlines()]
    heads = [line.startswith("Errors:") or line.startswith("- ") and not line_before.startswith("- ")
             for line_before, line in zip(["", *lines], lines)]
    return "\n".join(f"\n{line}" if head else line for line, head in zip(lines, heads))


def of_c(header: str) -> str:
    """The page of nr.h."""
    parts = ["# Calls of nr.h", paragraphs(header.partition("*/")[0].partition("\n\n")[2])]
    for comment, declared in DECLARED.findall(header.partition("*/")[2]):
        name = NAME.search(declared)
        if name:
            code = declared.replace("NR_CHECKED ", "")
            parts += [f"## {name[1]}", paragraphs(comment), f"```c\n{code}\n```"]
    return "\n\n".join(parts) + "\n"


def head_of(node: ast.FunctionDef, source: str) -> str:
    """A function's head, as it is written: from its name to what it returns."""
    lines = source.splitlines()[node.lineno - 1 : node.body[0].lineno - 1]
    return "\n".join(line.strip() for line in lines).partition("def ")[2].rstrip().rstrip(":")


def public(nodes: list[ast.stmt]) -> list[ast.FunctionDef | ast.ClassDef]:
    found = [node for node in nodes if isinstance(node, (ast.FunctionDef, ast.ClassDef))]
    return [node for node in found if not node.name.startswith("_") and ast.get_docstring(node)]


def of_python(folder: pathlib.Path) -> str:
    """The page of the module nr: each call that its head lists, with its own text."""
    module = ast.parse((folder / "__init__.py").read_text())
    lists = {it.targets[0].id: it.value for it in module.body if isinstance(it, ast.Assign) and isinstance(it.targets[0], ast.Name)}
    results = ["Bler", *(it.id for it in ast.walk(lists["RESULTS"]) if isinstance(it, ast.Name))]
    names = [*ast.literal_eval(lists["__all__"]), *results]
    head, _, rest = (ast.get_docstring(module) or "").partition("\n\n")
    parts = ["# Calls of the Python module nr", head, rest]
    paths = [*sorted(folder.glob("*.py")), folder.parents[1] / "tools" / "linksim_tools" / "curve" / "bler.py"]
    sources = [path.read_text() for path in paths]
    nodes = {node.name: (node, source) for source in sources for node in public(ast.parse(source).body)}
    for name in sorted(set(names) & set(nodes), key=lambda it: (it.lower(), it)):
        node, source = nodes[name]
        text = ast.get_docstring(node) or ""
        if isinstance(node, ast.ClassDef):
            parts += [f"## {name}", text]
            for method in public(node.body):
                if isinstance(method, ast.FunctionDef):
                    head = head_of(method, source)
                    parts += [f"### {name}.{method.name}", f"```python\n{head}\n```", ast.get_docstring(method) or ""]
        else:
            parts += [f"## {name}", f"```python\n{head_of(node, source)}\n```", text]
    return "\n\n".join(parts) + "\n"


def of_rust(folder: pathlib.Path) -> str:
    """The page of the crate nr, each method with the type that it is of."""
    parts = ["# Calls of the Rust crate nr"]
    for path in sorted(folder.glob("*.rs")):
        if path.name == "raw.rs":
            continue
        source = path.read_text()
        for found in RUST.finditer(source):
            comment, head = found[1], found[2]
            name = re.search(r"pub (?:const )?(?:fn|struct|enum) (\w+)", head)
            owner = re.findall(r"(?m)^impl(?:<[^>]*>)? (\w+)", source[: found.start()]) if head.startswith(" ") else []
            text = "\n".join(line.strip()[3:].strip() for line in comment.splitlines())
            if name:
                text = re.sub(r"(?m)^# (.*)$", r"*\1:*", text)
                parts += [f"## {'::'.join([*owner[-1:], name[1]])}", f"```rust\n{head.strip()}\n```", text]
    return "\n\n".join(parts) + "\n"
