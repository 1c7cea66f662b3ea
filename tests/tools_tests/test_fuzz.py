"""The readers of the tools over some changed files; tests/fuzz-readers takes as many as are wanted."""

from __future__ import annotations

import json
import sys

import fuzz
import shared


class Fuzz(shared.InFolder):
    def test_some_files(self) -> None:
        """Each reader ends with one short line that names the file, within a gigabyte and ten seconds of a processor."""
        shared.program()
        status, output, error = shared.run([sys.executable, shared.ROOT / "tests" / "fuzz-readers", "--count", "2000"])
        self.assertEqual((status, error), (0, b""), output.decode())

    def test_numbers_of_other_kinds(self) -> None:
        """What was found: a seed that is a list, and a block of 10^30 bits, in a suite for receivers."""
        table = self.file("table.csv", shared.table_text({2: shared.drawn_entries(2)}))
        head, case, *_ = map(json.loads, fuzz.receiver_suite(table))
        for seed, bits in (([1], 24), (1, 10**30)):
            case["transmissions"][0]["a"] = bits
            path = self.file("suite.jsonl", json.dumps({**head, "seed": seed, "cases": 1}) + "\n" + json.dumps(case) + "\n")
            status, _, error = shared.tool("conform", "receiver", "check", path, self.file("answers.jsonl", ""), with_program=False)
            self.assertEqual((status, error.count("\n")), (1, int(seed != 1)), error)
