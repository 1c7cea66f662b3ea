"""The bindings for Rust and for Octave, as `make install` puts them below a folder, and the ten lines of their
documents."""

import pathlib
import re
import shutil
import tempfile
import typing
import unittest

import dist
from installation import TABLE, Placed

RUST = dist.ROOT / "c" / "rust"
OCTAVE = dist.ROOT / "c" / "octave"
# A text or a comment of a file for Octave and MATLAB, and what only Octave reads outside of them.
QUOTED = re.compile(r"(?<![\w)\]}'])'(?:[^'\n]|'')*'|%.*")
OF_OCTAVE = re.compile(r"[\"#!]|\+\+|--|[-+*/|&^]=|\*\*|\b(?:end[a-z_]+|printf|puts|do|until|unwind_protect)\b")


def blocks(name: str) -> typing.List[typing.Tuple[str, str]]:
    """The blocks of a document, each with the word after its first fence."""
    text = (dist.ROOT / "docs" / name).read_text()
    return re.findall(r"(?ms)^```(\w*)\n(.*?)^```$", text)


class Declared(unittest.TestCase):
    """What the bindings repeat of nr.h and of the Python module is what stands there."""

    def test_syntax(self) -> None:
        """The files for Octave, and the lines of their document, have nothing that MATLAB would not read."""
        texts = {path.name: path.read_text() for path in OCTAVE.glob("**/*.m")}
        texts["octave.md"] = blocks("octave.md")[0][1]
        for name, text in texts.items():
            with self.subTest(name):
                self.assertEqual(OF_OCTAVE.findall(QUOTED.sub("''", text)), [])

    def test_heads(self) -> None:
        """docs/rust.md has the head of each call as it stands in the sources, with the type that a method is of."""
        text, found = (dist.ROOT / "docs" / "rust.md").read_text(), set()
        for name in ("calls", "many", "packed", "receiver", "simulation", "soft", "table"):
            owner = ""
            for line in re.sub(r"\(\n +", "(", (RUST / "src" / f"{name}.rs").read_text()).splitlines():
                owner = (re.findall(r"^impl (\w+) ", line) or [owner])[0]
                for indent, head in re.findall(r"^( *)pub (?:const )?fn (\w+\(.*) \{$", line):
                    found.add(f"{owner}::{head}" if indent else head)
        found -= {it for it in found if it.startswith(("version(", "Table::entries("))}
        self.assertGreater(len(found), 15)
        self.assertEqual([it for it in sorted(found) if f"`{it}`" not in text], [])

    def test_version(self) -> None:
        self.assertIn(f'version = "{dist.VERSION}"\n', (RUST / "Cargo.toml").read_text())


class Built(Placed):
    """The sources that were installed, built where they are used."""

    def setUp(self) -> None:
        super().setUp()
        dist.done(["make", "-s", "-C", dist.ROOT / "c", "install", f"PREFIX={self.folder / 'nr'}"])
        self.share = self.folder / "nr" / "share" / "nr"

    def cargo(self, folder: pathlib.Path, *words: str, **places: pathlib.Path) -> str:
        """What cargo says, without the network."""
        dist.compiler()
        environment = dist.without_kit(CARGO_TARGET_DIR=self.folder / "target", CARGO_NET_OFFLINE="true", **places)
        return dist.done([dist.needs("cargo"), *words, "--offline", "--quiet"], folder, environment)

    def test_cargo(self) -> None:
        """The crate's own tests, over the library that NR_DIR names."""
        crate = shutil.copytree(self.share / "rust", self.folder / "crate")
        said = self.cargo(crate, "test", NR_DIR=self.folder / "nr")
        self.assertRegex(said, "test result: ok. [1-9]")
        self.assertNotIn("FAILED", said)
        # Where it was installed, it finds the library beside it, and takes none of another version.
        (self.folder / "old").mkdir()
        (self.folder / "old" / "libnr.a").touch()
        (self.folder / "old" / "nr.pc").write_text("Name: nr\nDescription: old\nVersion: 0.0.1\nLibs: -L${pcfiledir} -lnr\n")
        for place in ({"PKG_CONFIG": self.folder / "none"}, {"PKG_CONFIG_PATH": self.folder / "old"}):
            self.cargo(self.share / "rust", "build", **place)

    def test_rust_document(self) -> None:
        """The lines of docs/rust.md, over the library that pkg-config names."""
        dist.needs("pkg-config")
        (_, manifest), (_, source), (_, wanted), *_ = blocks("rust.md")
        top = self.folder / "mine"
        (top / "src").mkdir(parents=True)
        (top / "examples").mkdir()
        shutil.copy(TABLE, top / "examples")
        head = '[package]\nname = "mine"\nversion = "0.0.0"\nedition = "2021"\n[workspace]\n'
        crate = shutil.copytree(self.share / "rust", self.folder / "crate")
        (top / "Cargo.toml").write_text(head + manifest.replace("/usr/local/share/nr/rust", str(crate)))
        (top / "src" / "main.rs").write_text(source)
        said = self.cargo(top, "run", PKG_CONFIG_PATH=self.folder / "nr" / "lib" / "pkgconfig")
        self.assertEqual(said, wanted)

    def octave(self, script: str) -> str:
        """What Octave writes."""
        dist.compiler()
        dist.needs("mkoctfile")
        words = [dist.needs("octave-cli"), "--norc", "--quiet", "--no-history", "--eval", script]
        (self.folder / "examples").mkdir()
        shutil.copy(TABLE, self.folder / "examples")
        return dist.done(words, self.folder)

    def test_octave(self) -> None:
        """Each call of the files for Octave."""
        here = pathlib.Path(__file__).parent
        folders = f"addpath('{self.share / 'octave'}', '{here}');"
        said = self.octave(f"{folders} nr_build; octave_calls('examples/practice.csv')")
        self.assertIn("octave_calls: ok\n", said)

    def test_rtl(self) -> None:
        """The units of examples/rtl in Icarus Verilog, over the package and the shim that were installed."""
        dist.needs("iverilog")
        dist.compiler()
        with tempfile.TemporaryDirectory() as name:
            # The simulator's words have no place for the space in this folder's name.
            folder = pathlib.Path(name)
            (folder / "nr").symlink_to(self.folder / "nr")
            makefile = dist.ROOT / "examples" / "rtl" / "Makefile"
            words = ["make", "-C", folder, "-f", makefile, f"SHARE={folder / 'nr' / 'share' / 'nr'}", "icarus"]
            said = dist.done(words)
        for unit in ("crc", "interleaver"):
            self.assertRegex(said, rf"(?m)^tb_{unit}: 60 .*, 0 faults$")

    def test_octave_document(self) -> None:
        """The lines of docs/octave.md."""
        (_, script), (_, wanted) = blocks("octave.md")
        said = self.octave(script.replace("/usr/local/share/nr/octave", str(self.share / "octave")))
        self.assertEqual(said, wanted)
