"""What made a result: the versions of the tools, of the library and of the program, digests, the table's, and the specification.

No host, no user and no date is part of it, so two machines that made the same things say the same.
"""

from __future__ import annotations

import dataclasses
import hashlib
import json
import os
import pathlib
import re
import subprocess

from linksim_tools.common.program import IN_CHECKOUT, ROOT, version_of

# The clauses are those of Release 15. Which version of it (V15.x.y) was read is not recorded, and none was compared.
SPECIFICATION = "3GPP TS 38.212 Release 15"
# What `make install` writes beside the installed tools: how the program was built.
BUILT = ROOT / "built.json"
# The prover's last lines on the program and on the library for C, each after the crate's name: `gate/trust --write` keeps them.
VERDICTS = pathlib.Path(__file__).with_name("verdicts.txt")


def digest_of(path: str | os.PathLike[str]) -> str:
    """The SHA-256 of a file, in hexadecimal."""
    digest = hashlib.sha256()
    with open(path, "rb") as file:
        for piece in iter(lambda: file.read(1 << 20), b""):
            digest.update(piece)
    return digest.hexdigest()


def version_of_tools() -> str:
    """The version of the project that the tools are of; `unknown` if no file says it."""
    path = ROOT / "VERSION"
    return path.read_text().strip() if IN_CHECKOUT and path.is_file() else built().get("version", "unknown")


def built() -> dict[str, str]:
    """How the installed program was built: version, kit, logic, commit and compiler, as far as it is known."""
    try:
        said = json.loads(BUILT.read_text())
    except (OSError, ValueError):
        return {}
    return {str(name): str(value) for name, value in said.items()} if isinstance(said, dict) else {}


def verdicts() -> list[str]:
    """The prover's verdicts on what is built for users, each after the name of its crate."""
    return VERDICTS.read_text().splitlines() if VERDICTS.exists() else []


def asked(words: list[str], form: str) -> str:
    """What a command says, by a form with one group; empty if it can't be asked."""
    try:
        said = subprocess.run(words, stdout=subprocess.PIPE, stderr=subprocess.DEVNULL, text=True, check=False).stdout
    except OSError:
        return ""
    match = re.search(form, said.strip())
    return match[1] if match else ""


def build_of_checkout() -> dict[str, str]:
    """The same of a checkout: what its kit and its commit are, if they can be asked."""
    found: dict[str, str] = {}
    for name, form in (("kit", r"\S*kit-(\S+)"), ("logic", r"logic (\w+)")):
        said = asked(["rt", "version"], form)
        if said:
            found[name] = said
    return {**found, **({"commit": commit()} if commit() else {})}


def commit() -> str:
    """The commit that the installed tools, or those of the checkout, are of; empty if it is not known. A repository around what
    was unpacked says nothing of it."""
    if built():
        return built().get("commit", "")
    git = ["git", "-C", str(ROOT), "rev-parse"]
    return asked([*git, "HEAD"], r"^(\w{40})$") if asked([*git, "--show-toplevel"], r"(.*)") == str(ROOT) else ""


@dataclasses.dataclass(frozen=True)
class Source:
    """What made a result: the library, and the program if that had a part in it."""

    tools: str
    library: str
    library_sha256: str
    program: str = ""
    program_sha256: str = ""
    table_sha256: str = ""
    specification: str = SPECIFICATION

    def words(self) -> dict[str, str]:
        """As JSON has it; what does not apply is left out."""
        return {name: value for name, value in dataclasses.asdict(self).items() if value}


def source_of(program: pathlib.Path | None = None, table: str | os.PathLike[str] | None = None) -> Source:
    """What makes results by the library, by this program and of this table."""
    import nr

    library = version_of_tools(), nr.__version__, digest_of(nr.library_base())
    made = (version_of(program), digest_of(program)) if program else ("", "")
    return Source(*library, *made, digest_of(table) if table is not None else "")
