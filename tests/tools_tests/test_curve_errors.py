"""Tests of `tools/curve`: a program that fails, and files of curves that are rejected."""

from __future__ import annotations

import shared
from test_curve import CONF, Conf


class Faults(Conf):
    def test_a_program_that_is_killed(self) -> None:
        """What it had written ends within a line."""
        text = f"#!/bin/sh\n[ $1 = run ] || exec {shared.program()} \"$@\"\nprintf 'left 1 1 0 9\\nleft 1 '\nkill -9 $$\n"
        program = self.file("linksim", text)
        program.chmod(0o755)
        self.conf.write_text(CONF + 'link = "flip"\n')
        said = shared.refused("curve", "point", self.conf, "0.2", "0", "--program", program, with_program=False)
        self.assertIn("linksim ended with status -9", said)

    def test_each_wrong_key_has_one_line(self) -> None:
        cases = [
            ("seed = 7", "", "the key seed is missing"),
            ("seed = 7", "seed = -1", "seed is not an integer from 0"),
            ("seed = 7", "seed = true", "seed is not an integer from 0"),
            ("a = 40", "a = 41", "a is not a multiple of 8"),
            ("rvs = [0, 2]", "rvs = [4]", "rvs is not a list of numbers from 0 to 3"),
            ("rvs = [0, 2]", "rvs = []", "rvs is not a list"),
            ("points = [0.2, 0.4]", "points = [1.5]", "points is not a list of numbers from 0 to 1"),
            ("nl = 1", "nl = 1\nnlx = 1", "there is no key nlx"),
            ("nl = 1", 'nl = 1\nlink = "noise"', "link is neither"),
            ("nl = 1", "nl = ", "not TOML"),
            ("nl = 1", 'nl = 1\nunit = "slot"', "unit is neither"),
            ("nl = 1", "nl = 1\nburst = [0.1]", "burst is not a list of two"),
            ("nl = 1", "nl = 1\nwave = 0", "wave is not an integer from 1"),
            ("errors = 20", "width = 0.3\nunit = 2", "width is for erasures of single bits"),
            ("g = 120", "g = 121", "g is not a multiple of qm * nl"),
            ("g = 120", "g = 120\nlbrm = 0", "lbrm is not an integer from 1"),
            ("qm = 2", "qm = 3", "qm is not 1, 2, 4, 6 or 8"),
            ("qm = 2", "qm = 10", "1024QAM (qm = 10) is of Release 17"),
        ]
        for old, new, said in cases:
            self.conf.write_text(CONF.replace(old, new))
            with self.subTest(new):
                self.assertIn(said, self.refused("point", self.conf, "0.2", "0"))
        self.assertIn("No such file", self.refused("point", self.folder / "none.toml", "0.2", "0"))
