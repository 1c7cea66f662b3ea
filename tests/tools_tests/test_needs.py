"""tests/needs, over a list and tools of its own: what it says is missing, what it installs, and what it says if it can't."""

from __future__ import annotations

import os
import shutil
import subprocess
import sys
import unittest

import shared

NEEDS = shared.ROOT / "tests" / "needs"
# Debian as this test has it: what it has installed, and what it is asked for, stand in files.
TOOLS = {
    "dpkg-query": '#!/bin/sh\nfor it; do :; done\ngrep -qx "$it" "$HAS/installed" && printf installed\n',
    "apt-get": """#!/bin/sh
echo "$@" >> "$HAS/asked"
if [ -e "$HAS/locked" ]; then
    rm "$HAS/locked"; echo "E: Could not get lock /var/lib/dpkg/lock-frontend."; exit 100
fi
case " $* " in *" update "*) exit 0;; esac
case " $* " in *" nowhere"*) echo "E: Unable to locate package nowhere"; exit 100;; esac
for it; do :; done
echo "$it" >> "$HAS/installed"
if [ "$it" = daemon ]; then
    ln -s /dev/null "$HAS/units/multi-user.target.wants/daemon.service"
    ln -s /dev/null "$HAS/rc2.d/S01daemon"
    [ ! -x "$HAS/policy" ] || echo "$HAS/policy" >> "$HAS/asked_policy"
fi
""",
    "deb-systemd-helper": '#!/bin/sh\n[ -n "$DPKG_MAINTSCRIPT_PACKAGE" ] && rm "$HAS/units/multi-user.target.wants/$2"\n',
    "update-rc.d": '#!/bin/sh\n[ "$2" = disable ] && rm "$HAS/rc2.d/S01$1"\n',
}
HERE = "one | - | rtl\n"
AWAY = "two | no-such-program | tools rtl\n"
NOWHERE = "nowhere | - | curve\n"


class Needs(shared.InFolder):
    """Each over a copy of tests/needs beside a list."""

    def setUp(self) -> None:
        super().setUp()
        shutil.copy(NEEDS, self.folder / "needs")
        (self.folder / "bin").mkdir()
        for name, text in TOOLS.items():
            (self.folder / "bin" / name).write_text(text)
            (self.folder / "bin" / name).chmod(0o755)
        for name in ("sh", "grep", "rm", "ln"):
            os.symlink(shutil.which(name) or name, self.folder / "bin" / name)
        (self.folder / "installed").write_text("one\n")
        wants = self.folder / "units" / "multi-user.target.wants"
        wants.mkdir(parents=True)
        (wants / "older.service").symlink_to("/dev/null")
        (self.folder / "rc2.d").mkdir()
        (self.folder / "rc2.d" / "S01older").symlink_to("/dev/null")

    def run_needs(self, text: str, *words: str) -> tuple[int, list[str]]:
        (self.folder / "needs.txt").write_text(f"# some\n\n{text}")
        # No pause between the tries.
        script = (self.folder / "needs").read_text().replace("PATIENCE, PAUSE = 600, 5", "PATIENCE, PAUSE = 600, 0")
        script = script.replace("/etc/systemd/system", str(self.folder / "units")).replace('"/etc"', repr(str(self.folder)))
        script = script.replace("/usr/sbin/policy-rc.d", str(self.folder / "policy"))
        (self.folder / "needs").write_text(script)
        path = str(self.folder / "bin")
        ended = subprocess.run(
            [sys.executable, str(self.folder / "needs"), *words], env={"PATH": path, "HAS": str(self.folder)},
            stdout=subprocess.PIPE, stderr=subprocess.STDOUT, universal_newlines=True, check=False,
        )
        return ended.returncode, ended.stdout.splitlines()

    @staticmethod
    def said(*packages: str) -> str:
        return f"needs: installs {len(packages)} packages, which takes some minutes: {' '.join(packages)}"

    def asked(self) -> list[str]:
        """What apt-get was asked for, without its options."""
        path = self.folder / "asked"
        lines = path.read_text().splitlines() if path.exists() else []
        return [line[line.index("update" if "update" in line else "install") :] for line in lines]

    def test_all_is_there(self) -> None:
        self.assertEqual(self.run_needs(HERE + "three | sh | tools\n", "--install"), (0, ["needs: 2 of 2 packages are there"]))
        self.assertEqual(self.asked(), [])

    def test_modules_of_python(self) -> None:
        """A package of Python is there if the suites' python3 imports its module, whatever Debian has installed."""
        os.symlink(sys.executable, self.folder / "bin" / "python3")
        want = ["needs: one is missing: tests are skipped in tests/rtl", "needs: 1 of 2 packages are there"]
        self.assertEqual(self.run_needs("one | import no_such_module | rtl\ntwo | import json | tools\n"), (3, want))

    def test_missing(self) -> None:
        want = ["needs: two is missing: tests are skipped in tests/tools, tests/rtl", "needs: 1 of 2 packages are there"]
        self.assertEqual(self.run_needs(HERE + AWAY), (3, want))
        self.assertEqual(self.asked(), [])

    @unittest.skipUnless(os.geteuid() == 0, "only root installs")
    def test_installed_after_a_lock(self) -> None:
        (self.folder / "locked").write_text("")
        self.assertEqual(self.run_needs(HERE + AWAY, "--install"), (0, [self.said("two"), "needs: 2 of 2 packages are there"]))
        self.assertEqual(self.asked(), ["update", "update", "install -y --no-install-recommends --no-upgrade two"])

    @unittest.skipUnless(os.geteuid() == 0, "only root installs")
    def test_no_service_is_left_enabled(self) -> None:
        """What the package enables is disabled again, and Debian is told to start nothing meanwhile; what was enabled before stays."""
        status, lines = self.run_needs("daemon | - | engines\n", "--install")
        want = [self.said("daemon"), "needs: daemon.service is installed, and neither started nor enabled"]
        self.assertEqual((status, lines), (0, [*want, "needs: 1 of 1 packages are there"]))
        self.assertEqual([it.name for it in self.folder.glob("units/*/*")], ["older.service"])
        self.assertEqual([it.name for it in self.folder.glob("rc2.d/*")], ["S01older"])
        self.assertTrue((self.folder / "asked_policy").exists())
        self.assertFalse((self.folder / "policy").exists())

    @unittest.skipUnless(os.geteuid() == 0, "only root installs")
    def test_one_that_is_not_to_be_had_takes_none_along(self) -> None:
        want = [
            self.said("nowhere", "two"),
            "needs: nowhere could not be installed: Unable to locate package nowhere",
            "needs: nowhere is missing: tests are skipped in tests/curve",
            "needs: 1 of 2 packages are there",
        ]
        self.assertEqual(self.run_needs(NOWHERE + AWAY, "--install"), (3, want))

    def test_without_apt(self) -> None:
        (self.folder / "bin" / "apt-get").unlink()
        status, lines = self.run_needs(AWAY, "--install")
        self.assertEqual((status, lines[0]), (3, "needs: nothing is installed, there is no apt-get here: apt-get install two"))

    def test_a_broken_list(self) -> None:
        for line in ("one two | - | rtl", "one | rtl", "one | | rtl", "one | - |"):
            with self.subTest(line):
                said = "needs: needs.txt, line 3: not of the form package | program | suites"
                self.assertEqual(self.run_needs(line), (1, [said]))
