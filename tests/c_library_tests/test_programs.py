"""Programs in C and in C++ over the library: each call, memory refused, four threads and the examples. What is installed is tried
too, by hand, by pkg-config and by CMake."""

from __future__ import annotations

import os
import pathlib
import re
import shutil
import sys
import typing

import archive as making
import clib

WARNINGS = ["-Wall", "-Wextra", "-pedantic", "-Werror"]
WRAPPED = [f"-Wl,--wrap={name}" for name in ("malloc", "calloc", "realloc", "free")]
SANITIZERS = ["-fsanitize=address,undefined", "-fno-sanitize-recover=all", "-g"]

DOCUMENT = """#include "{checked}"
int main(int words_len, char **words) {{
    size_t length;
    uint8_t bits[300], block[9] = {{0}}, *text = text_of(words_len > 1 ? words[1] : NULL, &length);
    NrSettings settings = {{2048, 0, {{0, 0}}}};
    NrTx tx = transmission(0, 300, 2);
{lines}
    printf("%u\\n", (unsigned)status);
    free(text);
    return wrong;
}}
"""


# The calls that take memory.
GROWING = ["nr_table_check", "nr_table_entries", "nr_crc", "nr_codeword", "nr_cut", "nr_encode", "nr_send", "nr_receive"]
GROWING += ["nr_select", "nr_interleave", "nr_match", "nr_simulate", "nr_receiver_start", "nr_receiver_take", "nr_send_many"]
GROWING += ["nr_receive_many", "nr_join", "nr_send_packed", "nr_receive_packed"]


class Compiled(clib.InFolder):
    """A test that compiles programs."""

    def compiled(
        self, source: str | pathlib.Path, *flags: str, compiler: str | None = None, ending: typing.Sequence[object] = (clib.STATIC,)
    ) -> pathlib.Path:
        """The program of a source, over the static library if no other ending is given."""
        program = self.folder / pathlib.Path(source).stem
        words = [compiler or clib.compiler(), "-O1", *WARNINGS, *flags, f"-I{clib.C}", clib.HERE / source]
        clib.done([*words, "-o", program, *(["-x", "none"] if "-x" in flags else []), *ending])
        return program

    def both_graphs(self) -> pathlib.Path:
        """The path of the practice table with one of base graph 1."""
        path = self.folder / "both.csv"
        path.write_bytes(clib.PRACTICE.read_bytes() + clib.DRAWN.read_bytes())
        return path


class Programs(Compiled):
    """The test programs."""

    def test_calls(self) -> None:
        clib.done([self.compiled("calls.c", "-std=c99"), clib.PRACTICE])

    def test_calls_in_cpp(self) -> None:
        compiler = os.environ.get("CXX") or clib.needs("c++", "g++", "clang++")
        for standard in ["-std=c++98", "-std=c++17"]:
            clib.done([self.compiled("calls.c", "-x", "c++", standard, compiler=compiler), clib.PRACTICE])

    def test_calls_of_the_shared_library(self) -> None:
        ending = [f"-L{clib.FOLDER}", f"-Wl,-rpath,{clib.FOLDER}", "-l:libnr.so.3"]
        clib.done([self.compiled("calls.c", ending=ending), clib.PRACTICE])

    def test_an_older_library(self) -> None:
        """A program that uses a function of a later release is not started with this library, rather than ended when it calls."""
        text = (clib.C / "nr.map").read_text()
        later = re.sub(r" +nr_match;\n", "", text) + "\nNR_99 {\n    global:\n        nr_match;\n} NR_0.3;\n"
        (self.folder / "later.map").write_text(later)
        words = ["-shared", "-Wl,-soname,libnr.so.3", "-Wl,--version-script,later.map", "-o", "libnr.so.3"]
        clib.done([clib.compiler(), *words, *sorted((clib.FOLDER / "objects").glob("*.o"))], self.folder)
        ending = [f"-L{self.folder}", "-l:libnr.so.3"]
        for name, call in {"older": "nr_version()", "later": "nr_match(0, 0, 0, 0, 0)"}.items():
            program = f'#include <stdio.h>\n#include <nr.h>\nint main(void) {{ return puts("starts") < 0 || !{call}; }}\n'
            (self.folder / f"{name}.c").write_text(program)
            path = self.compiled(self.folder / f"{name}.c", ending=ending)
            status, said = clib.ran([path], environment={**os.environ, "LD_LIBRARY_PATH": str(clib.FOLDER)})
            self.assertEqual((status == 0, b"starts" in said, b"NR_99" in said), (name == "older", name == "older", name == "later"))

    def test_calls_under_sanitizers(self) -> None:
        (self.folder / "nothing.c").write_text("int main(void) { return 0; }\n")
        words = [clib.compiler(), *SANITIZERS, "nothing.c", "-o", "nothing"]
        if clib.ran(words, self.folder)[0] or clib.ran(["./nothing"], self.folder)[0]:
            self.skipTest(f"{clib.compiler()} links no program with {SANITIZERS[0]}")
        for source, table in [("calls.c", clib.PRACTICE), ("threads.c", self.both_graphs())]:
            clib.done([self.compiled(source, *SANITIZERS, "-pthread"), table])

    def test_calls_under_valgrind(self) -> None:
        clib.needs("valgrind")
        words = ["valgrind", "-q", "--error-exitcode=9", "--leak-check=full", self.compiled("calls.c", "-g"), clib.PRACTICE]
        clib.done(words)

    def test_memory_refused(self) -> None:
        output = clib.done([self.compiled("refused.c", *WRAPPED), self.both_graphs()])
        for call in GROWING:
            self.assertRegex(output.decode(), rf"(?m)^{call}: [1-9]\d* growths refused$")

    def test_threads(self) -> None:
        output = clib.done([self.compiled("threads.c", "-pthread"), self.both_graphs()])
        self.assertRegex(output.decode(), r"^4 threads, ")


class Statuses(Compiled):
    """That a status is looked at."""

    def test_unused(self) -> None:
        """A program that looks at no status gets a warning for each call, in C and in C++."""
        header = (clib.C / "nr.h").read_text()
        calls = dict(re.findall(r"(?s)NrStatus (nr_\w+)\(([^)]*)\);", header))
        self.assertIn("nr_send", calls)
        lines = [f"    {name}({', '.join('0' for _ in given.split(','))});\n" for name, given in calls.items()]
        (self.folder / "unused.c").write_text("#include <nr.h>\nint main(void) {\n" + "".join(lines) + "    return 0;\n}\n")
        for words in [[clib.compiler()], [shutil.which("c++") or clib.compiler(), "-x", "c++"]]:
            said = clib.ran([*words, "-c", "-o", "unused.o", f"-I{clib.C}", "unused.c"], self.folder)[1].decode()
            self.assertEqual(said.count("[-Wunused-result]"), len(calls), said)

    def test_the_document(self) -> None:
        """The lines of C in docs/c-library.md, with a table and with a text that is none."""
        page = (clib.ROOT / "docs" / "c-library.md").read_text()
        lines = page.partition("```c\n")[2].partition("```")[0]
        self.assertIn("nr_send", lines)
        (self.folder / "document.c").write_text(DOCUMENT.format(checked=clib.HERE / "checked.h", lines=lines))
        program = self.compiled(self.folder / "document.c")
        self.assertEqual(clib.done([program, clib.PRACTICE]), b"0\n")
        self.assertEqual(clib.done([program, clib.ROOT / "README.md"]), b"error: Fields\n22\n")


class Examples(Compiled):
    """The examples, and the library as it is installed."""

    def check(self, output: bytes) -> None:
        """The outcomes of the examples: open at first, and then the block that was sent."""
        lines = output.decode().splitlines()
        self.assertRegex(lines[0], "open")
        self.assertRegex(output.decode(), "(?s)delivered.*123456789")

    def test_c(self) -> None:
        program = self.compiled(clib.C / "examples" / "erasures.c")
        self.check(clib.done([program, clib.PRACTICE]))
        self.assertEqual(clib.ran([program])[0], 2)
        for path in ("none", self.folder):
            self.assertEqual(clib.ran([program, path]), (1, b"refused: Read\n"))

    def test_python(self) -> None:
        self.check(clib.done([sys.executable, clib.C / "examples" / "erasures.py", clib.PRACTICE], environment=clib.for_python()))

    def make(self, *words: str) -> None:
        clib.needs("make")
        clib.done(["make", "-C", clib.C, f"NR_C={clib.archive()}", f"OUT={self.folder / 'made'}", *words])

    def test_installed(self) -> None:
        stage = self.folder / "a stage"
        self.make("install", f"DESTDIR={stage}", "PREFIX=/usr")
        found = {str(path.relative_to(stage / "usr")) for path in stage.glob("**/*") if not path.is_dir()}
        names = ["libnr.a", "libnr.so", "libnr.so.3", "pkgconfig/nr.pc", "cmake/nr/nrConfig.cmake"]
        names.append("cmake/nr/nrConfigVersion.cmake")
        if making.FASTER.exists() and clib.archive() == making.ARCHIVE:
            names += [f"glibc-hwcaps/{making.LEVEL}/{name}" for name in ("libnr.a", "libnr.so.3")]
        packages = {f"share/nr/{path.relative_to(top)}" for top in map(pathlib.Path, clib.PACKAGES)
                    for path in top.glob("*/**/*.*") if path.parts[len(top.parts)] in ("nr", "linksim_tools")
                    and path.suffix in (".py", ".typed", ".txt", ".js", ".css")}
        both = clib.DRAWN.read_bytes() + clib.PRACTICE.read_bytes()
        for name in ("nr", "rust", "octave"):
            self.assertEqual((stage / "usr" / "share" / "nr" / name / "practice.csv").read_bytes(), both)
        packages |= {"share/nr/nr/practice.csv"}
        # The sources of the Rust crate, of the calls for Octave and of those for testbenches have tests of their own.
        folders = tuple(f"share/nr/{name}/" for name in ("rust", "octave", "dpi"))
        sources = {name for name in found if name.startswith(folders)}
        self.assertLess({"share/nr/rust/Cargo.toml", "share/nr/octave/nr_send.m", "share/nr/dpi/nr_dpi_pkg.sv"}, sources)
        self.assertEqual(found - sources, {"include/nr.h", "include/nr_short_names.h", *packages, *(f"lib/{name}" for name in names)})
        self.assertIn("prefix=/usr\n", (stage / "usr" / "lib" / "pkgconfig" / "nr.pc").read_text())
        self.assertEqual((stage / "usr" / "lib" / "libnr.so.3").stat().st_mode & 0o777, 0o644)
        self.make("uninstall", f"DESTDIR={stage}", "PREFIX=/usr")
        self.assertEqual([path for path in stage.glob("**/*") if not path.is_dir()], [])

    def test_page(self) -> None:
        """The lines of docs/c-library.md that install, link and run."""
        lines = re.findall(r"(?ms)^```sh\n(.*?)^```$", (clib.ROOT / "docs" / "c-library.md").read_text())[0]
        self.assertIn("pkg-config", lines)
        for name in ("c", "examples", "VERSION"):
            (self.folder / name).symlink_to(clib.ROOT / name)
        flags = f"OUT={self.folder / 'made'} NR_C={clib.archive()}"
        environment = {**os.environ, "HOME": str(self.folder), "MAKEFLAGS": flags, "LD_LIBRARY_PATH": ""}
        clib.needs("make"), clib.needs("pkg-config")
        said = clib.done(["sh", "-e", "-c", lines], self.folder, environment).decode()
        self.assertEqual(said.count("123456789"), 3)

    def test_pkg_config(self) -> None:
        clib.needs("pkg-config")
        self.make("install", f"PREFIX={self.folder}")
        library = self.folder / "lib"
        environment = {**os.environ, "PKG_CONFIG_PATH": str(library / "pkgconfig"), "LD_LIBRARY_PATH": str(library)}
        flags = clib.done(["pkg-config", "--cflags", "--libs", "nr"], environment=environment).decode().split()
        program = self.folder / "erasures"
        clib.done([clib.compiler(), clib.C / "examples" / "erasures.c", "-o", program, *flags])
        self.check(clib.done([program, clib.PRACTICE], environment=environment))

    def test_installed_module(self) -> None:
        """The module finds the library that is installed with it."""
        self.make("install", f"PREFIX={self.folder}")
        environment = {**clib.for_python(), "NR_LIBRARY": "", "PYTHONPATH": str(self.folder / "share" / "nr")}
        self.check(clib.done([sys.executable, clib.C / "examples" / "erasures.py", clib.PRACTICE], environment=environment))


VERSION = (clib.ROOT / "VERSION").read_text().strip()
# Configures once, for the versions, the folder of the header and both targets.
LISTS = """cmake_minimum_required(VERSION 3.10)
project(erasures C)
foreach(version {versions})
  unset(nr_DIR CACHE)
  find_package(nr ${{version}} QUIET)
  message(STATUS "version ${{version}}: ${{nr_FOUND}} ${{nr_CONSIDERED_VERSIONS}}")
endforeach()
find_package(nr 3.0 REQUIRED)
get_target_property(included nr::nr INTERFACE_INCLUDE_DIRECTORIES)
message(STATUS "included: ${{included}}")
foreach(target nr static)
  add_executable(${{target}} {example})
  target_link_libraries(${{target}} nr::${{target}})
endforeach()
"""


class Installed(Compiled):
    """In folders of a name with a space."""

    def install(self, prefix: pathlib.Path, *words: str) -> None:
        clib.needs("make")
        given = [f"NR_C={clib.archive()}", f"KIT_C={clib.allocator()}", f"OUT={self.folder / 'made'}", f"PREFIX={prefix}"]
        clib.done(["make", "-C", clib.C, "install", *given, *words])

    def versions(self) -> typing.Any:
        """Versions that are asked for, and whether each is met: the interface's, the project's and others."""
        number = VERSION.partition("-")[0]
        major, minor, patch = map(int, number.split("."))
        met = ["3", "3.0", "3.0.0", number, f"{major}.{minor}"]
        others = ["2", "3.1", "4", f"{major}.{minor}.{patch + 1}", f"{major}.{minor + 1}"]
        return {**dict.fromkeys(met, "1"), **dict.fromkeys(others, "0")}

    def configured(self, search: typing.Any) -> typing.Any:
        """What CMake says of a project that finds the library by these prefixes, and the folder of what it builds."""
        clib.needs("cmake")
        source, asked = self.folder / "source", self.versions()
        source.mkdir()
        lists = LISTS.format(versions=" ".join(asked), example=clib.C / "examples" / "erasures.c")
        (source / "CMakeLists.txt").write_text(lists)
        prefixes = "-DCMAKE_PREFIX_PATH=" + ";".join(map(str, search))
        said = clib.done(["cmake", "-S", source, "-B", source / "build", prefixes]).decode()
        for version, is_met in asked.items():
            # One that is not met is answered by the interface's number too.
            self.assertIn(f"version {version}: {is_met} {VERSION}{'' if is_met == '1' else ' (interface 3)'}\n", said)
        return said, source / "build"

    def other_prefix(self) -> pathlib.Path:
        """A prefix with another nr.h."""
        other = self.folder / "other"
        (other / "include").mkdir(parents=True)
        (other / "include" / "nr.h").write_text("#error another header\n")
        return other

    def test_found(self) -> None:
        """The version, the header of this prefix though another has one of its name, and both libraries."""
        prefix = self.folder / "a prefix"
        self.install(prefix)
        said, folder = self.configured([self.other_prefix(), prefix])
        self.assertIn(f"included: {prefix / 'include'}\n", said)
        cache = (folder / "CMakeCache.txt").read_text()
        self.assertNotIn(str(prefix / "include"), cache)
        clib.done(["cmake", "--build", folder])
        for target in ["nr", "static"]:
            self.assertIn(b"123456789", clib.done([folder / target, clib.PRACTICE]))

    def test_other_folders(self) -> None:
        """Folders of the header and of the libraries that are named, and moved together afterwards."""
        first, moved = self.folder / "first", self.folder / "moved to here"
        self.install(first, f"INCLUDEDIR={first / 'headers' / 'of nr'}", f"LIBDIR={first / 'lib' / 'x86_64'}")
        first.rename(moved)
        said, _ = self.configured([self.other_prefix(), moved / "lib" / "x86_64" / "cmake" / "nr"])
        self.assertIn(f"included: {moved / 'headers' / 'of nr'}\n", said)

    def test_pkg_config(self) -> None:
        """The flags of a prefix with a space, as a shell reads them."""
        clib.needs("pkg-config")
        prefix = self.folder / "a prefix"
        self.install(prefix)
        program, source = self.folder / "erasures", clib.C / "examples" / "erasures.c"
        line = f'PKG_CONFIG_PATH="$1" && export PKG_CONFIG_PATH && eval {clib.compiler()} {source} -o {program} $(pkg-config --cflags --libs nr)'
        clib.done(["sh", "-c", line, "sh", prefix / "lib" / "pkgconfig"])
        environment = {"LD_LIBRARY_PATH": str(prefix / "lib")}
        self.assertIn(b"123456789", clib.done([program, clib.PRACTICE], environment=environment))


class Beside(Compiled):
    """The static library beside another one that has the kit's allocator too."""

    def test_allocators(self) -> None:
        names = ["rattle_alloc", "rattle_realloc", "rattle_dealloc"]
        other = self.folder / "other.c"
        other.write_text("".join(f"void *{name}(void) {{ return 0; }}\n" for name in names))
        clib.done([clib.compiler(), "-c", other, "-o", self.folder / "other.o"])
        program = self.compiled("calls.c", ending=(self.folder / "other.o", clib.STATIC))
        clib.done([program, clib.PRACTICE])
