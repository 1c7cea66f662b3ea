"""nr.h beside the headers of Linux and of the C library, and of DPDK if they are there.

A header can only clash with nr.h if it, or one that it includes, defines a macro of a name that nr.h uses, or declares a name of
nr.h. Reading all headers for these takes two seconds; compiling each of them before and after nr.h in two languages takes
minutes. So the test reads all, and compiles those in which it finds something and those that version 0.2 clashed with."""

from __future__ import annotations

import pathlib
import re
import shutil
import subprocess
import typing
import unittest

import clib

INCLUDE = pathlib.Path("/usr/include")
PLACES = [INCLUDE, INCLUDE / "x86_64-linux-gnu", INCLUDE / "dpdk", INCLUDE / "x86_64-linux-gnu" / "dpdk"]
FOLDERS = ["linux", "asm-generic", "asm", "sys", "net", "netinet", "arpa", "bits", "rpc", "scsi", "sound", "rdma", "mtd", "video"]
CLASHED = ["linux/limits.h", "linux/auto_fs.h", "linux/netfilter/xt_bpf.h", "linux/netfilter/xt_cgroup.h"]
LANGUAGES = {"c": "gnu11", "c++": "gnu++17"}
WORDS = {"define", "defined", "else", "endif", "extern", "if", "ifdef", "ifndef", "include", "__attribute__", "__cplusplus"}


def words_of(name: str) -> set[str]:
    """The words of a header of ours outside of comments."""
    text = re.sub(r'/\*.*?\*/|"[^"]*"', "", (clib.C / name).read_text(), flags=re.DOTALL)
    return set(re.findall(r"\b[A-Za-z_]\w*", text)) - WORDS


def headers() -> dict[str, pathlib.Path]:
    """The headers, by the names by which a program includes them."""
    found = {path.name: path for place in PLACES for path in place.glob("*.h")}
    for place in PLACES[:2]:
        found.update({str(path.relative_to(place)): path for name in FOLDERS for path in (place / name).glob("**/*.h")})
    return found


def touching(words: set[str]) -> list[str]:
    """The headers that define one of these words as a macro, or that have one of those that begin as nr.h's names do."""
    ours = {word for word in words if word.lower().startswith("nr")}
    found = []
    for name, path in headers().items():
        text = path.read_text(errors="replace")
        if words & set(re.findall(r"#\s*define\s+(\w+)", text)) or ours & set(re.findall(r"\b[Nn][Rr]\w+", text)):
            found.append(name)
    return sorted(found)


class Neighbours(unittest.TestCase):
    """Before and after other headers nr.h compiles, and its constants keep their values."""

    def compiles(self, language: str, lines: typing.Sequence[str]) -> bool:
        words = [clib.compiler(), "-x", language, f"-std={LANGUAGES[language]}", "-fsyntax-only", "-w", f"-I{clib.C}", "-msse4.2"]
        words += [f"-isystem{place}" for place in PLACES[2:] if place.exists()]
        text = "".join(f"#include <{line}>\n" if line.endswith(".h") else line for line in lines)
        return subprocess.run([*words, "-"], input=text.encode(), stderr=subprocess.DEVNULL, timeout=clib.SECONDS).returncode == 0

    def test_each(self) -> None:
        there, pairs = headers(), re.findall(r"\b(NR_\w+) = (\d+)", (clib.C / "nr.h").read_text())
        self.assertIn(("NR_OUTCOME_OPEN", "0"), pairs)
        says = "".join(f"typedef char nr_is_{name}[(int)({name}) == {value} ? 1 : -1];\n" for name, value in pairs)
        for name in [*touching(words_of("nr.h")), *(name for name in CLASHED if name in there)]:
            for language in LANGUAGES:
                if (language == "c++" and not shutil.which("c++")) or not self.compiles(language, [name]):
                    continue
                with self.subTest(name, language=language):
                    self.assertTrue(self.compiles(language, [name, "nr.h", says]))
                    self.assertTrue(self.compiles(language, ["nr.h", name, says]))

    def test_a_clash_is_found(self) -> None:
        """The names of version 0.2 are a macro of Linux's, which is found by reading and by compiling."""
        if CLASHED[0] not in headers():
            self.skipTest("no headers of Linux")
        self.assertIn(CLASHED[0], touching(words_of("nr_short_names.h")))
        self.assertTrue(self.compiles("c", ["#define NR_SHORT_NAMES\n", "nr.h"]))
        self.assertFalse(self.compiles("c", ["#define NR_SHORT_NAMES\n", CLASHED[0], "nr.h"]))
