"""A suite by unittest: its words, and how it begins, by a Python that has numpy if it wants it. It ends with a line for each
skipped test."""

from __future__ import annotations

import argparse
import collections
import concurrent.futures
import importlib.util
import os
import pathlib
import re
import subprocess
import sys
import typing
import unittest

from crate_list import ROOT, crates_and_below, newest_source

BUILT = ROOT / "crates" / "linksim" / "out" / "linksim"
# What the words of a suite may name a path of.
PATHS = {"program": (BUILT, "the built program"), "archive": (None, "what `rt lib` leaves of nr_c")}
# Debian's packages of Python belong to this one, and not to one that comes before it in PATH.
DEBIAN = "/usr/bin/python3"


def look_in(*folders: str) -> None:
    """Has Python look for modules in these folders of tests/, in tools/ and in c/."""
    places = [*(f"tests/{name}" for name in folders), "tests", "tools", "c"]
    sys.path[:0] = [str(ROOT / it) for it in places]
    sys.dont_write_bytecode = True


def ran(
    suite: str, about: str, begin: typing.Callable[..., object], end: typing.Callable[[], object] = list,
    paths: tuple[str, ...] = ("program",),
) -> int:
    """Runs the tests of a suite that its words name, after its beginning, which has the paths, and before its end."""
    parser = argparse.ArgumentParser(description=about)
    for name in paths:
        default, what = PATHS[name]
        parser.add_argument(f"--{name}", type=pathlib.Path, default=default, metavar="PATH", help=what)
    parser.add_argument("-v", "--verbose", action="store_true", help="a line for each test")
    parser.add_argument("-k", dest="parts", action="append", metavar="PART", help="a part of a test's name")
    parser.add_argument("-j", "--jobs", type=int, metavar="N", help="so many modules at a time, each in a process of its own")
    parser.add_argument("names", nargs="*", metavar="NAME", help="a module, a class or a test, as test_table.Reading")
    given = parser.parse_args()
    modules = ROOT / "tests" / f"{suite.replace('-', '_')}_tests"
    if given.jobs:
        words = [f"--{name}={getattr(given, name)}" for name in paths if getattr(given, name)]
        return side_by_side(suite, given.jobs, words, given.names or sorted(it.stem for it in modules.glob("test_*.py")))
    loader = unittest.TestLoader()
    loader.testNamePatterns = given.parts and [f"*{part}*" for part in given.parts]
    try:
        begin(*(getattr(given, name) for name in paths))
        tests = loader.loadTestsFromNames(given.names) if given.names else loader.discover(str(modules))
        result = unittest.TextTestRunner(verbosity=2 if given.verbose else 1).run(tests)
    finally:
        end()
    return told(suite, result)


def side_by_side(suite: str, jobs: int, words: list[str], names: list[str]) -> int:
    """Runs modules or tests so many at a time. Says what failing ones and skipped tests said, and how many ran in all."""
    def ended(name: str) -> subprocess.CompletedProcess[str]:
        command = [sys.executable, sys.argv[0], *words, name]
        return subprocess.run(command, stdout=subprocess.PIPE, stderr=subprocess.STDOUT, text=True, check=False)

    total: typing.Counter[str] = collections.Counter()
    with concurrent.futures.ThreadPoolExecutor(jobs) as pool:
        for one in pool.map(ended, names):
            lines = one.stdout.splitlines(keepends=True)
            print("".join(line for line in lines if one.returncode or line.startswith(f"{suite}: skipped")), end="", flush=True)
            total.update({kind: int(count) for count, kind in re.findall(r"(\d+) (tests|failed|skipped)\b", lines[-1])})
            total["faults"] += bool(one.returncode)
    print(f"{suite}: {total['tests']} tests, {total['failed']} failed, {total['skipped']} skipped, in {len(names)} processes")
    return 1 if total["faults"] else 0


def go_on_with_numpy() -> None:
    """Goes on by Debian's Python if it has numpy and this one has not."""
    if importlib.util.find_spec("numpy") or os.path.realpath(sys.executable) == os.path.realpath(DEBIAN):
        return
    if os.access(DEBIAN, os.X_OK) and not subprocess.run([DEBIAN, "-c", "import numpy"], stderr=subprocess.DEVNULL).returncode:
        os.execv(DEBIAN, [DEBIAN, *sys.argv])


def program_of(suite: str, path: pathlib.Path) -> pathlib.Path:
    """The program that a suite runs, or its end if there is none. If a source is newer than what was built, a line says so."""
    program = pathlib.Path(path).resolve()
    if not os.access(program, os.X_OK):
        sys.exit(f"{suite}: no program at {program}; tools/first-build builds it")
    source = newest_source(["linksim", *crates_and_below()["linksim"]])
    if program == BUILT and program.stat().st_mtime < source.stat().st_mtime:
        print(f"{suite}: the program is older than {source.relative_to(ROOT)}: tools/first-build makes it anew", flush=True)
    return program


def told(suite: str, result: unittest.TestResult) -> int:
    """Prints a line for each skipped test and one that counts; 0 if tests ran and none failed, else 1."""
    for test, why in result.skipped:
        print(f"{suite}: skipped: {test}: {why}")
    # A class or module that is skipped whole is not among those that ran.
    failed = len(result.failures) + len(result.errors) + len(result.unexpectedSuccesses)
    print(f"{suite}: {result.testsRun} tests, {failed} failed, {len(result.skipped)} skipped")
    if not result.testsRun and not result.skipped:
        print(f"{suite}: there was no test to run")
        return 1
    return 0 if result.wasSuccessful() else 1
