"""How the packages are made: the same octets again from another folder; and what `make install` puts below a folder."""

from __future__ import annotations

import hashlib
import json
import os
import pathlib
import shutil
import subprocess
import sys
import tarfile

import dist
from installation import Placed

SOURCES = ["Makefile", "VERSION", "CHANGELOG.md", "CONTRIBUTING.md", "README.md", "SECURITY.md"]
SOURCES += ["docs", "c", "tools", "examples", "packaging"]

COMPLETIONS = [
    "bash-completion/completions/linksim",
    "zsh/site-functions/_linksim",
    "fish/vendor_completions.d/linksim.fish",
]
# One folder for each loop of both Makefiles.
BLOCKED = [
    "nr/linksim_tools/common", "linksim/examples/rtl", "doc/linksim/docs", "nr/nr", "nr/rust/src",
]


class Same(dist.InFolder):
    """The packages do not depend on where, when and by whom they are made."""

    def test_sums(self) -> None:
        lines = [line.split("  ") for line in (dist.DIST / "SHA256SUMS").read_text().splitlines()]
        self.assertEqual({name for _, name in lines}, {path.name for path in dist.DIST.iterdir()} - {"SHA256SUMS"})
        for digest, name in lines:
            self.assertEqual(hashlib.sha256((dist.DIST / name).read_bytes()).hexdigest(), digest)

    def test_again(self) -> None:
        """Libraries and packages, made anew in another folder by somebody with other habits, are the same octets."""
        if not shutil.which("rt"):
            self.skipTest("no kit, whose allocator the libraries have")
        top = self.folder / "another place"
        for name in SOURCES:
            if (dist.ROOT / name).is_dir():
                shutil.copytree(dist.ROOT / name, top / name, ignore=shutil.ignore_patterns("out", "__pycache__"))
            else:
                top.mkdir(exist_ok=True)
                shutil.copyfile(dist.ROOT / name, top / name)
        for path in (dist.PROGRAM, *dist.ROOT.glob("crates/nr_c/out/libnr_c*.a"), *dist.ROOT.glob("crates/*/README.md")):
            to = top / path.relative_to(dist.ROOT)
            to.parent.mkdir(parents=True, exist_ok=True)
            # With its time, because make takes the second archive only if it is newer than the first.
            shutil.copy2(path, to)
        (top / "dist" / "site").mkdir(parents=True)
        (top / "dist" / "site" / "index.html").touch()
        with tarfile.open(next(dist.DIST.glob("*.tar.gz"))) as tar:
            file = tar.extractfile(next(it for it in tar.getnames() if it.endswith("/built.json")))
            assert file
            built = json.load(file)
        commit = f"{built.get('commit', '')}@{built.get('time', '')}"
        environment = {**os.environ, "LINKSIM_COMMIT": commit, "TZ": "Asia/Tokyo", "LC_ALL": "C.UTF-8", "HOME": str(self.folder)}
        subprocess.run(
            ["sh", "-c", "umask 077; make -s dist"], cwd=top, env=environment, check=True, timeout=dist.SECONDS,
            stdout=subprocess.DEVNULL,
        )
        self.assertEqual((top / "dist" / "SHA256SUMS").read_text(), (dist.DIST / "SHA256SUMS").read_text())
        self.assertTrue((top / "dist" / "site" / "index.html").exists())

    def test_folders_of_others(self) -> None:
        """A folder with something of somebody else is refused as it is; what is of an earlier call goes, and a site stays."""
        thesis, ours = self.folder / "thesis", self.folder / "dist"
        (thesis / "text").mkdir(parents=True)
        (thesis / "text" / "chapter1.txt").write_text("all of it")
        shutil.copytree(dist.DIST, ours)
        (ours / "notes.txt").touch()
        for script, out in (("dist", thesis), ("site", thesis), ("dist", ours)):
            status, said = dist.ran([dist.ROOT / "packaging" / script, "--out", out], self.folder)
            self.assertEqual((status, said.count("\n")), (1, 1), said)
            self.assertRegex(said, r"(chapter1|notes)\.txt, which was not written there by this")
        self.assertEqual((thesis / "text" / "chapter1.txt").read_text(), "all of it")
        (ours / "notes.txt").unlink()
        (ours / "site").mkdir()
        (ours / "site" / "index.html").touch()
        clear = "import pathlib, sys; from packages import staging; staging.empty(pathlib.Path(sys.argv[1]), 'site')"
        path = os.pathsep.join(str(dist.ROOT / it) for it in ("packaging", "c"))
        dist.done([sys.executable, "-c", clear, ours], environment=dist.without_kit(PYTHONPATH=path))
        self.assertEqual([it.relative_to(ours).as_posix() for it in ours.glob("**/*")], ["site", "site/index.html"])


class Old(dist.InFolder):
    """What is older than its sources is built anew."""

    def test_wheel(self) -> None:
        for name, text in {"Makefile": "all: out/libnr.so.3\nout/libnr.so.3: nr.h\n\tcp nr.h $@\n", "nr.h": "new", "out/libnr.so.3": "old"}.items():
            (self.folder / name).parent.mkdir(exist_ok=True)
            (self.folder / name).write_text(text)
        os.utime(self.folder / "out" / "libnr.so.3", (0, 0))
        for name in ("nr_build.py", "nr_version.py"):
            shutil.copy(dist.ROOT / "c" / name, self.folder)
        said = dist.done([sys.executable, "-c", "import nr_build; print(*nr_build.libraries().values())"], self.folder)
        self.assertEqual(said, "b'new'\n")

    def test_library(self) -> None:
        words = ["make", "-n", "-C", dist.ROOT / "c", "-W", "octave/nr_sentences.h", "out/libnr.so.3"]
        self.assertIn("fault_name.o", dist.done(words))


class Installed(Placed):
    """`make install` and `make uninstall`, without the kit, to a folder with a space."""

    def make(self, *words: str | pathlib.Path) -> None:
        dist.done(["make", "-s", "-C", dist.ROOT, *words, "PREFIX=/opt/my linksim", f"DESTDIR={self.folder}"])

    def test_install(self) -> None:
        self.make("install")
        top = self.folder / "opt" / "my linksim"
        self.program(top / "bin")
        self.tools(top / "bin", top / "share" / "linksim" / "examples")
        self.assertTrue((top / "share" / "man" / "man1" / "linksim-curve.1").is_file())
        self.assertEqual((top / "lib" / "libnr.so.3").stat().st_mode & 0o777, 0o644)
        for name in COMPLETIONS:
            self.assertTrue((top / "share" / name).is_file(), name)
        self.make("uninstall")
        self.assertEqual([path for path in self.folder.glob("**/*") if not path.is_dir()], [])

    def test_failed_copy(self) -> None:
        """An installation stops if a file cannot be copied, here since another one stands in place of its folder."""
        for name in BLOCKED:
            with self.subTest(name):
                top = self.folder / name.replace("/", "-")
                (top / "opt" / "share" / name).parent.mkdir(parents=True)
                (top / "opt" / "share" / name).touch()
                status, said = dist.ran(["make", "-s", "-C", dist.ROOT, "install", "PREFIX=/opt", f"DESTDIR={top}"])
                self.assertEqual((status, said.count("install: cannot"), "Error 1" in said), (2, 1, True), said)
