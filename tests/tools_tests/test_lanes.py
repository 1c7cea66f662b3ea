"""What no worked example shows, since it does not compile: lanes of two lifting sizes are not added up."""

from __future__ import annotations

import re
import shutil
import unittest

import shared

CRATES = ("nr_bitvec", "nr_lifting")
LISTED = "nr_bitvec:\nnr_lifting: nr_bitvec\ntrial: nr_lifting\n"
TRIAL = """//! Adds lanes of one size, and lanes of two.
#![tactic(auto)]

use nr_lifting::Lane;

fn main() {
    let mut sum: Lane<5, 1> = Lane::zero();
    let five: Lane<5, 1> = Lane::zero();
    let seven: Lane<7, 1> = Lane::zero();
    sum.add_shifted(&five, 0);
    sum.add_shifted(&seven, 0);
}
"""


@unittest.skipUnless(shutil.which("rt"), "rt is not there")
class Lanes(shared.InFolder):
    """A program of its own over the crates."""

    def test_lanes_of_5_and_7_bits_are_two_types(self) -> None:
        crates = self.folder / "crates"
        for crate in CRATES:
            for part in ("src", "specs", "proofs"):
                shutil.copytree(shared.ROOT / "crates" / crate / part, crates / crate / part)
        source = crates / "trial" / "src"
        source.mkdir(parents=True)
        (source / "main.rt").write_text(TRIAL)
        (self.folder / "crates.txt").write_text(LISTED)
        status, output, error = shared.run(["rt", "try"], folder=crates / "trial")
        found = re.findall(r"error.*", (output + error).decode())
        self.assertEqual(found, ["error[mismatched-types]: expected `&Lane<5, 1>`, found `&Lane<7, 1>`"])
        self.assertEqual(status, 1)
