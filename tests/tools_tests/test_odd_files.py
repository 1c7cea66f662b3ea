"""Every tool over odd files and words, with a gigabyte of memory and ten seconds: it ends with one line that names the file."""

from __future__ import annotations

import json
import os
import pathlib
import signal
import subprocess
import sys

import odd_files
import shared

# What the tools load is there before they are called.
MODULES = ("conform.encoder.commands", "conform.receiver.commands", "curve.pool", "curve.making", "outcome.command", "rtl.vectors")

# A call of a tool. F is the odd file, S a suite, R one for receivers, N a new folder, {name} a file of the examples, P the program.
CALLS = """
explain check --table F P
explain run --table {table} --settings F --blocks {blocks} --schedule {schedule} P
explain run --table {table} --settings {settings} --blocks {blocks} --schedule F P
explain outcome --table {table} --settings F --blocks F --schedule {schedule} P
vectors one --table F --settings {settings} --blocks {blocks} --rv 0 --g 24
vectors one --table {table} --settings F --blocks {blocks} --rv 0 --g 24
vectors one --table {table} --settings {settings} --blocks F --rv 0 --g 24
vectors many --table {table} --cases F --out N
table read --graph 2 F
table fingerprint --table F
table rom --table F
curve point F 0 0 P
curve merge F
curve limits F P
conform suite --table F
conform suite --table {table} --cases F
conform check S F
conform check F S
conform plain F
conform export F --out N
conform receiver check R F
conform receiver check F R
"""


class Odd(shared.InFolder):
    """The corpus of odd_files."""

    caller: subprocess.Popen[str]

    @classmethod
    def setUpClass(cls) -> None:
        """A process that has loaded the tools' modules and nothing else: no library, and little memory."""
        words = [sys.executable, str(pathlib.Path(__file__).with_name("odd_caller.py")), *MODULES]
        environment = {**os.environ, "PYTHONPATH": os.pathsep.join(sys.path), "PYTHONDONTWRITEBYTECODE": "1"}
        cls.caller = subprocess.Popen(words, stdin=subprocess.PIPE, stdout=subprocess.PIPE, text=True, env=environment)
        cls.addClassCleanup(cls.caller.__exit__, None, None, None)

    def called(self, words: list[str]) -> tuple[int, str]:
        """How a tool ends, and what it says on both streams."""
        said = self.folder / "said"
        assert self.caller.stdin and self.caller.stdout
        print(json.dumps([str(said), words]), file=self.caller.stdin, flush=True)
        status = int(self.caller.stdout.readline())
        return status, said.read_text(errors="replace")

    def test_every_tool_over_every_file(self) -> None:
        paths = odd_files.write(self.folder)
        files = {**shared.INPUTS, "schedule": shared.EXAMPLES / "schedule.csv"}
        places = {f"{{{name}}}": str(path) for name, path in files.items()}
        places["P"] = f"--program={shared.program()}"
        head, *cases = shared.tool("conform", "suite", "--table", places["{table}"])[1].splitlines()[:3]
        for name, kind, count in (("S", "conform", 2), ("R", "receiver", 0)):
            first = json.dumps({**json.loads(head), kind: 1, "cases": count})
            places[name] = str(self.file(f"suite-{name}", "".join(line + "\n" for line in [first, *cases[:count]])))
        calls = list(enumerate(CALLS.split("\n")[1:-1]))
        # Every third of the calls in turn: each tool has three or more.
        both = ((call, path) for turn, path in enumerate(paths) for number, call in calls if (number + turn) % 3 == 0)
        for at, (call, path) in enumerate(both):
            places.update({"F": str(path), "N": str(self.folder / f"new-{at}")})
            with self.subTest(call, file=path.name):
                status, said = self.called([places.get(word, word) for word in call.split()])
                self.assertNotIn("Traceback", said)
                self.assertIn(status, (0, 1, 2), said)
                if status:
                    self.assertIn(path.name, said)
                    self.assertLess(len(said), 3000, said[:3000])

    def test_words(self) -> None:
        """Numbers without end, and digits of other scripts: refused at once."""
        shared.program()
        blocks, table = str(shared.INPUTS["blocks"]), str(shared.INPUTS["table"])
        for rate in ("1e999999999", "1e-999999999", "9" * 5000, "1/" + "9" * 5000, "\u0661"):
            self.assertEqual(self.called(["explain", "cut", "--rate", rate, "--blocks", blocks])[0], 2)
        self.assertEqual(self.called(["table", "rom", "--z", "\u0668", "--table", table])[0], 2)

    def test_closed_streams(self) -> None:
        """A closed standard output is said in one line, and only if something is written to it."""
        table = shared.INPUTS["table"]
        out = "standard output: it is closed\n"
        new, closed = self.folder / "new", "standard input cannot be read: "
        calls: list[tuple[list[object], str, str, int]] = [
            (["explain", "Core"], ">&-", f"tools/explain: {out}", 1), (["conform", "points"], ">&-", f"tools/conform: {out}", 1),
            (["table", "fingerprint", "--table", table], ">&-", f"tools/table: {out}", 1),
            (["vectors", "near", "1000"], ">&-", f"tools/vectors: {out}", 1), (["curve", "--help"], ">&-", f"tools/curve: {out}", 1),
            (["table", "read", "-"], "<&-", f"tools/table: {closed}", 1),
            (["vectors", "many", "--table", table, "--count", "1", "--out", new], ">&-", f"{new}: 1 vectors\n", 0),
        ]
        for words, stream, said, status in calls:
            line = " ".join(map(str, [sys.executable, shared.TOOLS / str(words[0]), *words[1:], stream]))
            ended = subprocess.run(["bash", "-c", line], capture_output=True, text=True)
            with self.subTest(line):
                self.assertTrue(ended.stderr.startswith(said), ended.stderr)
                self.assertEqual((ended.returncode, ended.stderr.count("\n")), (status, 1))

    def test_interrupts(self) -> None:
        """Ctrl-C while modules are loaded, from the first one after the module that takes it up: one line, status 130."""
        for tool in ("conform", "curve", "explain", "table", "vectors"):
            words = [sys.executable, "-X", "importtime", str(shared.TOOLS / tool), "--help"]
            with subprocess.Popen(words, stdout=subprocess.DEVNULL, stderr=subprocess.PIPE, text=True) as child:
                assert child.stderr
                while "linksim_tools.common.early" not in child.stderr.readline():
                    pass
                child.stderr.readline(), child.stderr.readline()  # the module that calls it, and the first one after that
                child.send_signal(signal.SIGINT)
                said = [line for line in child.stderr if not line.startswith("import time:")]
                with self.subTest(tool):
                    self.assertEqual((child.wait(), said), (130, [f"tools/{tool}: interrupted\n"]))
