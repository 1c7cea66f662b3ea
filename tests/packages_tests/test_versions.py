"""Packages of what is not released name their commit, so that a later one is installed over an earlier one."""

from __future__ import annotations

import pathlib
import shutil
import sys

import dist
import nr_version

EARLY, LATE = f"{'a' * 40}@203001010000", f"{'9' * 40}@203001020000"
SAID = "import nr_version as it; print(it.for_python(), it.for_debian(), it.for_archive())"
WHEEL = "import sys, nr_build; print(nr_build.build_wheel(sys.argv[1]))"


class Versions(dist.InFolder):
    """Of a tree whose VERSION ends in -dev, or of the release that it becomes."""

    def tree(self, number: str) -> pathlib.Path:
        """The folder of a tree of this version, as far as its packages' names ask it."""
        folder = self.folder / number / "c"
        folder.mkdir(parents=True)
        shutil.copy(dist.ROOT / "c" / "nr_version.py", folder)
        (folder.parent / "VERSION").write_text(f"{number}\n")
        return folder

    def said(self, number: str, commit: str) -> list[str]:
        folder = self.folder / number / "c"
        folder = folder if folder.exists() else self.tree(number)
        return dist.done([sys.executable, "-c", SAID], folder, dist.without_kit(LINKSIM_COMMIT=commit)).split()

    def test_names(self) -> None:
        self.assertEqual(self.said("1.2.0-dev", EARLY), ["1.2.0.dev0+gaaaaaaaa", "1.2.0~dev203001010000.aaaaaaaa", "1.2.0-dev.aaaaaaaa"])
        self.assertEqual(self.said("1.2.0-dev", "@"), ["1.2.0.dev0+glocal", "1.2.0~dev0.local", "1.2.0-dev.local"])
        self.assertEqual(self.said("1.2.0", EARLY), ["1.2.0"] * 3)

    def test_order_of_debian(self) -> None:
        """What has changed here is below every commit, a commit below a later one, and both below the release."""
        dpkg = dist.needs("dpkg")
        found = [self.said(number, commit)[1] for number, commit in (
            ("1.1.0", ""), ("1.2.0-dev", "@"), ("1.2.0-dev", EARLY), ("1.2.0-dev", LATE), ("1.2.0", ""))]
        for one, other in zip(found, found[1:]):
            dist.done([dpkg, "--compare-versions", one, "lt", other])

    def test_later_wheel(self) -> None:
        """pip installs the wheel of another commit over the one that is there."""
        python = self.folder / "venv" / "bin" / "python"
        dist.done([sys.executable, "-m", "venv", self.folder / "venv"])
        library = next(dist.ROOT.glob("c/out/libnr.so.?"))
        for commit in (EARLY, LATE):
            environment = dist.without_kit(LINKSIM_COMMIT=commit, NR_LIBRARY=library, PYTHONPATH=dist.ROOT / "c")
            name = dist.done([sys.executable, "-c", WHEEL, self.folder], self.folder, environment).strip()
            said = dist.done([python, "-m", "pip", "install", "--no-index", self.folder / name], self.folder)
            if nr_version.is_released():
                continue
            self.assertIn(f"Successfully installed nr-{nr_version.declared()[:-4]}.dev0+g{commit[:8]}", said)
