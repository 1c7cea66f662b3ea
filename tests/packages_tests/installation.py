"""What has to run wherever it is put: the program, the tools, C by pkg-config and by CMake, Python, the man page."""

from __future__ import annotations

import shlex
import typing

import layouts
import dist
import shared

EXAMPLES = dist.ROOT / "c" / "examples"
TABLE = dist.ROOT / "examples" / "practice.csv"
CMAKE = """cmake_minimum_required(VERSION 3.10)
project(erasures C)
find_package(nr 3 REQUIRED)
if(NOT nr_VERSION STREQUAL "{version}")
  message(FATAL_ERROR "nr_VERSION is ${{nr_VERSION}}")
endif()
foreach(target nr static)
  add_executable(by_${{target}} "{example}")
  target_link_libraries(by_${{target}} nr::${{target}})
endforeach()
"""


class Placed(dist.InFolder):
    """The checks of one package or of several together; a test says where their files are."""

    def program(self, bin_folder: typing.Any) -> None:
        """The program and what it makes of the block 01."""
        self.assertEqual(dist.done([bin_folder / "linksim", "--version"]), f"linksim {dist.VERSION}\n")
        answer = dist.done([bin_folder / "linksim", "cut", "--blocks", "-"], stdin=b"01\n")
        self.assertTrue(answer.endswith("code 1 0 011021\n"), answer)

    def tools(self, bin_folder: typing.Any, examples: typing.Any, **places: typing.Any) -> None:
        """Each tool, over the program beside it."""
        environment = dist.without_kit(**places)
        self.assertIn("near", dist.done([bin_folder / "linksim-vectors", "--help"], environment=environment))
        self.assertIn(" graph 1 ", dist.done([bin_folder / "linksim-vectors", "near", "100000"], environment=environment))
        words = [bin_folder / "linksim-table", "fingerprint", "--table", examples / "practice.csv"]
        prints = dist.done(words, environment=environment)
        self.assertEqual(prints.count("\n"), 8)
        words = [bin_folder / "linksim-curve", "point", examples / "curve.toml", "0", "0"]
        status, answer = dist.ran(words, environment=environment)
        if status and "tomli" in answer:
            return
        self.assertEqual(status, 0)
        self.assertRegex(answer, r"(?m)^0\.0,0,4000,1(,0){12},,,,(,[0-9a-f]{4}-[0-9a-f]{4}-[0-9a-f]{4})$")

    def delivered(self, output: str) -> None:
        """The outcomes of the examples: the block that was sent is delivered."""
        self.assertRegex(output, "(?s)open.*delivered.*123456789")

    def by_pkg_config(self, **places: typing.Any) -> None:
        """An example in C over the shared library, with the flags that pkg-config says."""
        dist.needs("pkg-config")
        environment = dist.without_kit(**places)
        version = dist.done(["pkg-config", "--modversion", "nr"], environment=environment)
        self.assertEqual(version, dist.VERSION + "\n")
        flags = shlex.split(dist.done(["pkg-config", "--cflags", "--libs", "nr"], environment=environment))
        dist.done([dist.compiler(), EXAMPLES / "erasures.c", *flags, "-o", self.folder / "erasures"])
        self.delivered(dist.done([self.folder / "erasures", TABLE], environment=environment))

    def by_cmake(self, prefix: typing.Any) -> None:
        """The same over both libraries, as find_package finds them."""
        dist.needs("cmake")
        dist.compiler()
        source = self.folder / "cmake"
        source.mkdir()
        (source / "CMakeLists.txt").write_text(CMAKE.format(version=dist.VERSION, example=EXAMPLES / "erasures.c"))
        dist.done(["cmake", "-S", source, "-B", source / "build", f"-DCMAKE_PREFIX_PATH={prefix}"])
        dist.done(["cmake", "--build", source / "build"])
        for target in ("nr", "static"):
            self.delivered(dist.done([source / "build" / f"by_{target}", TABLE]))

    def by_python(self, python: typing.Any, **places: typing.Any) -> None:
        """An example in Python."""
        environment = dist.without_kit(**places)
        words = [python, EXAMPLES / "erasures.py"]
        for given in (words, [*words, TABLE]):
            self.delivered(dist.done(given, environment=environment, folder=self.folder))
        version = dist.done([python, "-c", "import nr; print(nr.__version__)"], environment=environment, folder=self.folder)
        self.assertEqual(version, dist.VERSION + "\n")
        said = dist.done([python, "-m", "nr.table", "read", "--help"], environment=environment, folder=self.folder)
        self.assertIn("python -m nr.table read 38212-f20.docx --out table.csv", said)

    def reads_tables(self, python: typing.Any, **places: typing.Any) -> None:
        """The module alone makes a table of the standard's text; here the text has drawn numbers."""
        entries = {graph: shared.drawn_entries(graph) for graph in (1, 2)}
        text = "".join(layouts.text(graph, [layouts.side_by_side(layouts.halves(found))]) for graph, found in entries.items())
        (self.folder / "38212.txt").write_text(text)
        environment = dist.without_kit(**places)
        said = dist.done([python, "-m", "nr.table", "read", "38212.txt"], environment=environment, folder=self.folder)
        wanted = [f"{graph},{row},{col},{','.join(map(str, values))}" for graph in (1, 2)
                  for (row, col), values in sorted(entries[graph].items())]
        self.assertEqual([line for line in said.splitlines() if line[:1].isdigit()], wanted)

    def manual(self, folder: typing.Any) -> None:
        """The man pages, as man shows them."""
        dist.needs("man")
        for path in sorted(folder.glob("linksim*")):
            shown = dist.done(["man", "-P", "cat", "-l", path], environment=dist.without_kit(LC_ALL="C.UTF-8"))
            if "minimized" in shown:
                self.skipTest("man is left out of this system")
            self.assertRegex(shown, r"(?s)LINKSIM.*NAME.*linksim.*SYNOPSIS")
