"""The archive and Debian's packages, unpacked below a folder, and the wheel in an environment of its own."""

from __future__ import annotations

import json
import os
import pathlib
import re
import shutil
import sys
import tarfile
import tempfile
import unittest.mock
import zipfile

import dist
import nr_version
import test_pages
from installation import Placed

NAME = f"linksim-{nr_version.for_archive()}-x86_64-linux"
TRIPLET = "x86_64-linux-gnu"


# A vector of the practice table, from the folder of examples.
VECTOR = ["one", "--table", "practice.csv", "--settings", "settings.toml", "--blocks", "blocks.txt", "--rv", "0", "--g", "24", "--qm", "1"]


def pythons() -> list[pathlib.Path]:
    """The oldest and the newest Python from 3.8 on that are here, in PATH or of pyenv."""
    named = [shutil.which(f"python3.{minor}") for minor in range(8, 20)]
    found: dict[tuple[int, ...], pathlib.Path] = {}
    for path in [*map(pathlib.Path, filter(None, named)), *pathlib.Path.home().glob(".pyenv/versions/*/bin/python3")]:
        status, said = dist.ran([path, "-c", "import sys; print(*sys.version_info[:2])"])
        if not status and tuple(map(int, said.split())) >= (3, 8):
            found[tuple(map(int, said.split()))] = path
    return [found[version] for version in sorted(found)][:: max(1, len(found) - 1)]


def glibc_of(path: pathlib.Path) -> tuple[int, ...]:
    """The newest version of glibc among the symbols that a program or a library takes from there."""
    said = dist.done([dist.needs("objdump"), "-T", path])
    return max(tuple(map(int, it)) for it in re.findall(r"\bGLIBC_(\d+)\.(\d+)", said))


class Archive(Placed):
    """linksim-VERSION-x86_64-linux.tar.gz."""

    def setUp(self) -> None:
        super().setUp()
        with tarfile.open(dist.DIST / f"{NAME}.tar.gz") as tar:
            self.members = tar.getmembers()
            tar.extractall(self.folder)
        self.top = self.folder / NAME

    def test_members(self) -> None:
        names = [member.name.split("/") for member in self.members]
        self.assertEqual(names, sorted(names))
        self.assertEqual({(member.uid, member.gid, member.uname) for member in self.members}, {(0, 0, "root")})
        self.assertEqual(len({member.mtime for member in self.members}), 1)
        self.assertEqual((self.top / "lib" / "libnr.so.3").stat().st_mode & 0o777, 0o644)
        for path in self.top.glob("**/*"):
            self.assertTrue(path.exists(), path)
            if path.is_file():
                self.assertNotIn(str(dist.ROOT).encode(), path.read_bytes(), path)

    def test_program_and_tools(self) -> None:
        self.program(self.top / "bin")
        self.tools(self.top / "bin", self.top / "examples")
        self.assertIn(" graph 1 ", dist.done(["tools/vectors", "near", "100000"], self.top))

    def test_pages(self) -> None:
        """The commands of these pages, as they stand there, run from the archive alone."""
        for name in ("certificates", "formats", "vectors"):
            of_page = [block._replace(text=block.text.replace("crates/linksim/out", "bin"))
                       for block in test_pages.blocks() if block.page.stem == name]
            with unittest.mock.patch.dict(os.environ, dist.without_kit(), clear=True):
                test_pages.follow(self, self.top, of_page, "share/nr")

    def test_commit(self) -> None:
        """The commit is that which was packed, and not that of a repository in which the archive was unpacked."""
        git = [dist.needs("git"), "-C", self.folder, "-c", "user.name=nobody", "-c", "user.email=nobody@example.com"]
        dist.done([*git, "init", "-q"])
        dist.done([*git, "commit", "-q", "--allow-empty", "-m", "nothing"])
        said = json.loads(dist.done([self.top / "bin" / "linksim-vectors", *VECTOR], self.top / "examples"))["made"]
        built = json.loads((self.top / "share" / "linksim" / "built.json").read_text())
        self.assertEqual(said.get("commit"), built.get("commit"))
        self.assertNotEqual(said.get("commit"), dist.done([*git, "rev-parse", "HEAD"]).strip())

    def test_pkg_config(self) -> None:
        library = self.top / "lib"
        self.by_pkg_config(PKG_CONFIG_PATH=library / "pkgconfig", LD_LIBRARY_PATH=library)

    def test_cmake(self) -> None:
        self.by_cmake(self.top)

    def test_python(self) -> None:
        self.by_python(sys.executable, PYTHONPATH=self.top / "share" / "nr")
        self.reads_tables(sys.executable, PYTHONPATH=self.top / "share" / "nr")

    def test_manual(self) -> None:
        self.manual(self.top / "share" / "man" / "man1")


class Debian(Placed):
    """The packages, unpacked together."""

    def setUp(self) -> None:
        super().setUp()
        dist.needs("dpkg-deb")
        self.packages = sorted(dist.DIST.glob("*.deb"))
        # pkg-config, given the folder of a root, takes no space in its name.
        self.root = pathlib.Path(tempfile.mkdtemp(prefix="root-", dir=dist.FOLDER))
        for path in self.packages:
            dist.done(["dpkg-deb", "-x", path, self.root])
        self.library = self.root / "usr" / "lib" / TRIPLET

    def test_one_program(self) -> None:
        """Program and library are the same octets in each package, so that a laptop and a cluster add up their curves. What
        packages say of glibc is what these want of it."""
        with tarfile.open(dist.DIST / f"{NAME}.tar.gz") as tar:
            tar.extractall(self.folder)
        with zipfile.ZipFile(next(dist.DIST.glob("*.whl"))) as wheel:
            wheel.extractall(self.folder)
        top = self.folder / NAME
        for one, others in {
            top / "bin" / "linksim": [self.root / "usr" / "bin" / "linksim"],
            top / "lib" / "libnr.so.3": [self.library / "libnr.so.3", self.folder / "nr" / "libnr.so.3"],
        }.items():
            self.assertEqual([it.read_bytes() == one.read_bytes() for it in others], [True] * len(others))
        wanted = [glibc_of(path) for path in (top / "bin" / "linksim", top / "lib" / "libnr.so.3")]
        for package, version in zip(("linksim", "libnr3"), wanted):
            control = dist.done(["dpkg-deb", "-f", next(dist.DIST.glob(f"{package}_*.deb")), "Depends"])
            self.assertIn("libc6 (>= {}.{})".format(*version), control)
        said = (dist.ROOT / "docs" / "install.md").read_text().replace("\n", " ")
        self.assertIn("program needs glibc {}.{}".format(*wanted[0]), said)
        self.assertIn("the libraries {}.{} and the wheel {}.{}.".format(*wanted[1], *max((2, 17), wanted[1])), said)

    def test_compiled(self) -> None:
        """What Python keeps of the module comes with the package, and goes with it."""
        control, log = self.folder / "control", self.folder / "log"
        dist.done(["dpkg-deb", "-e", next(dist.DIST.glob("python3-nr_*.deb")), control])
        for name in ("py3compile", "py3clean"):
            (self.folder / name).write_text(f'#!/bin/sh\necho {name} "$@" >> "{log}"\n')
            (self.folder / name).chmod(0o755)
        path = dist.without_kit(PATH=f"{self.folder}:/usr/bin:/bin")
        for script, word in (("postinst", "configure"), ("prerm", "remove")):
            dist.done([control / script, word], environment=path)
            dist.done([control / script, word], environment={**path, "DPKG_ROOT": "/elsewhere"})
        self.assertEqual(log.read_text(), "py3compile -p python3-nr\npy3clean -p python3-nr\n")

    def test_names(self) -> None:
        names = [path.name.split("_")[0] for path in self.packages]
        # The site is left out if mkdocs is not there.
        self.assertEqual([it for it in names if it != "linksim-doc"], ["libnr-dev", "libnr3", "linksim", "python3-nr"])

    def test_program_and_tools(self) -> None:
        self.program(self.root / "usr" / "bin")
        # Where Debian's Python looks for packages, and ld.so for libraries, if they are not installed at the root.
        places = {"PYTHONPATH": self.root / "usr" / "lib" / "python3" / "dist-packages", "LD_LIBRARY_PATH": self.library}
        self.tools(self.root / "usr" / "bin", self.root / "usr" / "share" / "linksim" / "examples", **places)

    def test_pkg_config(self) -> None:
        places = {"PKG_CONFIG_SYSROOT_DIR": self.root, "PKG_CONFIG_LIBDIR": self.library / "pkgconfig"}
        self.by_pkg_config(**places, LD_LIBRARY_PATH=self.library)

    def test_cmake(self) -> None:
        self.by_cmake(self.root / "usr")

    def test_python(self) -> None:
        module = self.root / "usr" / "lib" / "python3" / "dist-packages"
        self.by_python(sys.executable, PYTHONPATH=module, LD_LIBRARY_PATH=self.library)

    def test_manual(self) -> None:
        self.manual(self.root / "usr" / "share" / "man" / "man1")

    def test_dpkg(self) -> None:
        """dpkg installs them below a root, and takes them away again."""
        dist.needs("dpkg")
        root = self.folder / "other"
        for name in ("info", "updates", "triggers"):
            (root / "var" / "lib" / "dpkg" / name).mkdir(parents=True)
        (root / "var" / "lib" / "dpkg" / "status").touch()
        force = [f"--force-{it}" for it in ("not-root", "depends", "script-chrootless", "bad-path")]
        dpkg = ["dpkg", f"--root={root}", f"--log={self.folder / 'log'}", *force]
        dist.done([*dpkg, "--install", *self.packages])
        self.program(root / "usr" / "bin")
        dist.done([*dpkg, "--purge", *(path.name.split("_")[0] for path in self.packages)])
        self.assertFalse((root / "usr" / "bin" / "linksim").exists())

    def test_lintian(self) -> None:
        dist.needs("lintian")
        said = dist.ran(["lintian", *self.packages])[1]
        self.assertEqual([line for line in said.splitlines() if line.startswith("E:")], [])


class Wheel(Placed):
    """The wheel, and `pip install ./c`, in an environment of Python's own, without the network."""

    def test_tags(self) -> None:
        """Wherever glibc is as new as the library wants, and 2.17 at least, the wheel is taken."""
        wheel = next(dist.DIST.glob("*.whl"))
        with zipfile.ZipFile(wheel) as packed:
            packed.extractall(self.folder)
        wanted = max((2, 17), glibc_of(self.folder / "nr" / "libnr.so.3"))
        platforms = ["manylinux_{}_{}_x86_64".format(*wanted), *(["manylinux2014_x86_64"] if wanted == (2, 17) else [])]
        self.assertEqual(wheel.name, f"nr-{nr_version.for_python()}-py3-none-{'.'.join(platforms)}.whl")
        marks = next(self.folder.glob("*.dist-info/WHEEL")).read_text()
        self.assertEqual(re.findall(r"(?m)^Tag: py3-none-(.*)$", marks), platforms)

    def test_described(self) -> None:
        """As an index of packages asks for it."""
        said = dist.done([dist.needs("twine"), "check", "--strict", next(dist.DIST.glob("*.whl"))])
        self.assertIn("PASSED", said)

    def entry_points(self, folder: pathlib.Path) -> None:
        """Each tool says what it does; one that needs no program works, and one that does says in a line that it lacks it."""
        table = folder.parent / "share" / "linksim" / "examples" / "practice.csv"
        for tool in ("certify", "conform", "curve", "explain", "table", "vectors", "verify"):
            said = dist.done([folder / f"linksim-{tool}", "--help"], self.folder)
            self.assertIn(f"usage: linksim-{tool} ", said)
            self.assertNotIn("tools/", said)
        self.assertEqual(dist.done([folder / "linksim-explain", "Header"]).count("\n"), 3)
        status, said = dist.ran([folder / "linksim-explain", "check", "--table", table])
        self.assertEqual((status, said.count("\n")), (1, 1), said)
        self.assertIn("the package linksim has it, or --program names it", said)

    def test_oldest_and_newest(self) -> None:
        """The entry points run in empty environments of the oldest and of the newest Python."""
        for number, python in enumerate(pythons()):
            with self.subTest(str(python)):
                folder = self.folder / str(number)
                dist.done([python, "-m", "venv", folder])
                words = ["-m", "pip", "install", "--no-index", "--disable-pip-version-check", *dist.DIST.glob("*.whl")]
                dist.done([folder / "bin" / "python", *words])
                self.entry_points(folder / "bin")

    def test_wheel_and_folder(self) -> None:
        status, said = dist.ran([sys.executable, "-m", "venv", self.folder / "venv"])
        if status:
            self.skipTest(f"no venv: {(said.strip().splitlines() or ['?'])[-1]}")
        python = self.folder / "venv" / "bin" / "python"
        for given in [*dist.DIST.glob("*.whl"), dist.ROOT / "c"]:
            with self.subTest(given.name):
                dist.done([python, "-m", "pip", "install", "--no-index", "--disable-pip-version-check", given])
                self.by_python(python)
                self.reads_tables(python)
                self.entry_points(python.parent)
                dist.done([python, "-m", "pip", "uninstall", "--yes", "nr"])
                self.assertTrue(dist.ran([python, "-c", "import nr"], self.folder)[0])


class Page(dist.InFolder):
    """The lines of docs/install.md that unpack and install, in the folder of the packages."""

    def test_lines(self) -> None:
        lines = re.findall(r"(?ms)^```sh\n(tar xf .*?)^```$", (dist.ROOT / "docs" / "install.md").read_text())[0]
        self.assertEqual(set(re.findall(r"\d+\.\d+\.\d+", lines)), {re.sub("-.*", "", dist.VERSION)})
        # The page names a release, and the packages may be of a version that is not released yet.
        for name in re.findall(r"[\w.*-]+\.(?:tar\.gz|deb|whl)", lines):
            (found,) = dist.DIST.glob(re.sub(r"\d+\.\d+\.\d+", "*", name))
            lines = lines.replace(name, str(found)).replace(name.partition(".tar")[0], found.name.partition(".tar")[0])
        unpack, _, install = lines.replace("./", "").splitlines()
        self.assertTrue(dist.done(["sh", "-ec", unpack], self.folder).startswith("linksim "))
        environment = dist.without_kit(PIP_TARGET=self.folder / "site")
        dist.done(["sh", "-ec", install.replace("pip ", f"{sys.executable} -m pip ", 1)], self.folder, environment)
        self.assertTrue((self.folder / "site" / "nr" / "__init__.py").exists())
