"""This machine's cores: what is killed, changed or refused in the middle of a run."""

from __future__ import annotations

import contextlib
import errno
import fcntl
import os
import pathlib
import shutil
import signal
import subprocess
import threading
import unittest
import unittest.mock

import shared
from runs import CHUNKS, CONF, Running, children_of, rows


def words_of(pid: int) -> str:
    """The command line of a process."""
    with contextlib.suppress(OSError):  # it ended
        return pathlib.Path(f"/proc/{pid}/cmdline").read_text().replace("\0", " ")
    return ""


class Local(Running):
    def test_whole(self) -> None:
        for jobs in (1, 3):
            self.run_whole("--jobs", jobs)
            self.out.unlink()

    def test_a_link_to_the_file(self) -> None:
        """The table is beside the link."""
        (self.folder / "there").mkdir()
        there = (self.folder / "table.csv").rename(self.folder / "there" / "table.csv").with_name("c.toml")
        there.symlink_to(self.conf)
        self.conf = there
        self.run_whole("--jobs", 1)

    def test_a_killed_process(self) -> None:
        """What it had not made is made by another one, also if the signal is one that it takes up."""
        for sent in (signal.SIGKILL, signal.SIGTERM):
            with self.begun(2, "--jobs", 2) as child:
                os.kill(children_of(child.pid)[0], sent)
                self.assertEqual(self.ended(child)[0], 0)
            self.assert_same()
            self.out.unlink()

    def test_a_killed_run(self) -> None:
        """The same command goes on; an interrupted one leaves no process behind."""
        for sent, status in ((signal.SIGKILL, -9), (signal.SIGTERM, 130)):
            with self.begun(2, "--jobs", 2) as child:
                below = children_of(child.pid)
                child.send_signal(sent)
                found, said = self.ended(child)
                self.assertEqual(found, status, said)
            if status > 0:
                self.assertEqual([pid for pid in below if children_of(pid)], [])
            self.run_whole("--jobs", 2)
            self.out.unlink()

    def test_an_interruption_between_two_threads(self) -> None:
        """The engine is closed all the same, though the second thread never started."""
        from linksim_tools.curve import engines, setting, source
        from linksim_tools.curve.engines.local import Local

        curve, starts = setting.read_setting(self.conf), [None, KeyboardInterrupt]
        call, engine = engines.Call(curve, self.program, source.source_of(curve, self.program)), Local(2)
        with unittest.mock.patch.object(threading.Thread, "start", side_effect=starts), self.assertRaises(KeyboardInterrupt):
            next(iter(engine.lines(call, [[(0.28, 0)], [(0.28, 1)]])))
        engine.close()

    def test_two_runs_on_one_file(self) -> None:
        """The test holds the lock as another run does, which might end before this one begins. NFS may have no locks."""
        from linksim_tools.curve import results

        with open(self.out, "a") as file:
            fcntl.flock(file, fcntl.LOCK_EX)
            self.assertIn("another run writes there", self.refused())
        fault = unittest.mock.patch("fcntl.flock", side_effect=OSError(errno.ENOLCK, "No locks available"))
        with fault, self.assertRaisesRegex(Exception, "cannot be locked there: No locks"), results.results_file(self.out):
            pass

    def test_what_changes_in_the_middle(self) -> None:
        """The run stops, with a word of what changed; what is kept is of the old source, and no run goes on with it."""
        def table() -> None:
            with open(self.folder / "table.csv", "a") as file:
                file.write("\n")

        def program() -> None:
            shutil.copy(shared.program(), self.folder / "other")
            text = (self.folder / "other").read_bytes()
            (self.folder / "other").write_bytes(text.replace(b"TS 38.212", b"TS 38.213"))
            (self.folder / "other").replace(self.program)

        def conf() -> None:
            self.conf.write_text(CONF.replace("seed = 3", "seed = 4"))

        for change, part, then in ((conf, "file", "one of the keys"), (table, "table", "the table"),
                                   (program, "program", "the library or program")):
            with self.subTest(part):
                if change is program:  # which makes no chunk where single bits are erased
                    self.conf.write_text(CONF.replace("rounds = 2000", "rounds = 40") + 'link = "flip"\n')
                with self.begun(2, "--jobs", 1) as child:
                    change()
                    status, said = self.ended(child)
                self.assertEqual(status, 1)
                self.assertIn(f"the {part} changed while the run went on", said)
                self.assertLess(self.count(), CHUNKS)
                self.assertEqual(len({line.split(",")[-1] for line in rows(self.out.read_text())[1:]}), 1)
                self.assertIn(f"{then} differs" if part != "file" else then, self.refused())
                self.out.unlink()
            self.tearDown()
            self.setUp()

    def test_a_full_disk(self) -> None:
        """It is named by the file that could not be written, and there is a status."""
        small = self.folder / "small"
        small.mkdir()
        self.out = small / "c.csv"
        script = f'mount -t tmpfs -o size=8k tmpfs {small} && shift 0 && exec "$@"'
        inside = ["unshare", "--user", "--map-root-user", "--mount", "sh", "-c", script, "sh"]
        if not shutil.which("unshare") or subprocess.run([*inside, "true"], capture_output=True).returncode:
            self.skipTest("no file system of its own can be mounted here (unshare)")
        status, said = self.told("--jobs", 1, inside=inside)
        self.assertEqual(status, 1, said)
        self.assertRegex(said, rf"{small}/c\.csv(\.log)?: No space left on device\n$")

    def test_nothing_to_do(self) -> None:
        """A finished file is not written again: a full disk or a folder that can only be read stops nothing, and no file is
        left."""
        self.run_whole("--jobs", 2)
        (self.folder / "c.csv.log").unlink()
        small, before = self.folder / "small", self.out
        small.mkdir()
        self.out = small / "c.csv"
        begin = f"mount -t tmpfs -o size=64k tmpfs {small} && cp {before} {self.out}"
        end = f'"$@"; status=$?; ls -A {small} >&2; exit $status'
        for change, there in (
            (f"cat /dev/zero > {small}/full 2> /dev/null", "c.csv\nfull\n"), (f"mount -o remount,ro {small}", "c.csv\n"),
        ):
            inside = ["unshare", "--user", "--map-root-user", "--mount", "sh", "-c", f"{begin} || exit 9; {change}; {end}", "sh"]
            if not shutil.which("unshare") or subprocess.run([*inside, "true"], capture_output=True).returncode:
                self.skipTest("no file system of its own can be mounted here (unshare)")
            status, said = self.told("--jobs", 1, inside=inside)
            self.assertEqual((status, said), (0, f"tools/curve: {CHUNKS} chunks are in {self.out}\n{there}"))
        self.out = before

    def test_a_full_disk_while_it_settles(self) -> None:
        """What is half written is taken away."""
        from linksim_tools.curve import results

        self.run_whole("--jobs", 2)
        lines = results.lines_from(self.out)
        full = unittest.mock.patch("os.fsync", side_effect=OSError(errno.ENOSPC, "No space left on device"))
        with full, self.assertRaisesRegex(Exception, "No space left on device"):
            results.rewrite(self.out, [], lines[:-1])
        self.assertEqual([path.name for path in self.folder.glob(".*")], [])
        self.assert_same()

    def test_a_process_that_is_stuck(self) -> None:
        """After a stated time it is named, with what it makes."""
        with self.begun(0, "--jobs", 1, "--silence", 1) as child:
            workers: list[int] = []
            while child.poll() is None and not workers:
                workers = [pid for pid in children_of(child.pid) if " point " in words_of(pid)]
            stuck = workers[0]
            os.kill(stuck, signal.SIGSTOP)
            assert child.stderr
            said = next((line for line in child.stderr if "no chunk came" in line), "")
            os.kill(stuck, signal.SIGCONT)
            self.assertRegex(said, rf"no chunk came for \d+ seconds: waiting for process {stuck}, which makes 0\.28")
            self.assertEqual(self.ended(child)[0], 0)
        self.assert_same()

    def test_another_source_at_the_other_end(self) -> None:
        """`point` refuses what it is told of another program, table or setting, and makes nothing."""
        from linksim_tools.curve import setting, source

        found = source.source_of(setting.read_setting(self.conf), self.program)
        parts = found.word().split("-")
        for seat, said in enumerate(("the library or program", "the table", "one of the keys")):
            told = "-".join(part if at != seat else "0" * 64 for at, part in enumerate(parts))
            words = ["point", self.conf, "0.28", "0", "--told", told]
            status, output, error = shared.tool("curve", *words, "--program", self.program, with_program=False)
            self.assertEqual((status, output), (1, ""))
            self.assertIn(f"{said}", error)
