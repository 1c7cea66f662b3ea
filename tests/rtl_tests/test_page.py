"""docs/rtl.md as a reader does it: each of its commands, taken out of the page, in a folder with its testbench."""

from __future__ import annotations

import re
import sys

import clib
import shared
import simulators

PAGE = simulators.ROOT / "docs" / "rtl.md"

# What the page leaves to its reader: a unit, and tasks that give it a code block and wait for a beat. This unit says its golden f,
# with one wrong bit of the code block that `wrong` counts.
UNIT = """
module dut;
endmodule
"""
TASKS = """
reg [31:0] m_tdata;
reg [3:0] m_tkeep;
reg m_tlast;
// A pin that is narrower than the `int unsigned` it is given.
reg [3:0] pin;
int unsigned block = 0, driven, at, wrong;
nr_beat_t beat;
dut unit();
initial if (!$value$plusargs("wrong=%d", wrong)) wrong = 0;
task drive(input int unsigned r);
  block = block + 1; driven = r; at = 0; pin = r;
endtask
task next_beat;
  void'(nr_ok("golden_beat", nr_dpi_golden_beat(board.golden, NR_F, driven, at, 32, NR_LSB, beat)));
  m_tdata = beat.data[31:0]; m_tkeep = beat.keep[3:0]; m_tlast = beat.last[0];
  if (block == wrong && at == 0) m_tdata[3] = !m_tdata[3];
  at = at + 1;
endtask
"""


class Page(clib.InFolder):
    """All of it."""

    def placed(self, line: str) -> str:
        """A command with the places of this checkout."""
        words = {
            "/usr/share/nr/dpi": simulators.DPI, "-l:libnr.a": f"{clib.STATIC} -CFLAGS -I{simulators.C}",
            "make -f /usr/share/linksim/examples/rtl/Makefile":
                f"make -f {simulators.EXAMPLES}/Makefile -j 4 DPI={simulators.DPI} NR_H={simulators.C} NR_A={clib.STATIC}",
        }
        for name, place in words.items():
            line = line.replace(name, str(place))
        return re.sub(r"(?<![\w/])tools/(\w+)", rf"{sys.executable} {shared.TOOLS}/\1", line)

    def test_every_command(self) -> None:
        for tool in ("verilator", "iverilog"):
            clib.needs(tool)
        text = PAGE.read_text()
        self.file("table.csv", simulators.tables())
        bench = re.findall(r"(?ms)^```systemverilog\n(.*?)^```", text)
        self.assertEqual(len(bench), 1)
        package, _, rest = bench[0].partition("\n")
        board = "".join(re.findall(r"(?m)^nr_\w+ \w+;\n", rest))
        self.file("tb.sv", f"module tb;\n{package}\n{board}{TASKS}{rest.replace(board, '')}endmodule\n")
        self.file("dut.sv", UNIT)
        lines = [line for part in re.findall(r"(?ms)^```sh\n(.*?)^```", text) for line in part.splitlines()]
        self.assertGreaterEqual(len(lines), 10)
        path = f"PATH={shared.program().parent}:$PATH"
        for line in lines:
            with self.subTest(line):
                status, said = simulators.ran(["bash", "-c", f"{path} {self.placed(line)}"], self.folder)
                self.assertEqual(status, 2 if "BUG=3" in line else 0, said[-2000:])
                if "BUG=3" in line:
                    self.assertRegex(said, "wrapped-late")
                if "obj_dir" in line:
                    self.assertRegex(said, r"nr_scoreboard: \d+ cases, 0 faults\n")
        said = self.simulated("+wrong=2")
        self.assertRegex(said, r"case [\w-]+, f of code block r = 0: bit 3 is [01], right is [01] \(beat 0, tdata\[3\]\)")
        self.assertIn(" cases, 1 faults\n", said)
        first = (self.folder / "cases.txt").read_text().split()[1]
        self.assertIn("nr_scoreboard: 1 cases, 0 faults\n", self.simulated(f"+only={first}"))
        self.odd_cases()

    def simulated(self, *words: str) -> str:
        """What the page's testbench says."""
        return simulators.ran(["obj_dir/Vtb", "+verilator+error+limit+1000", *words], self.folder)[1]

    def odd_cases(self) -> None:
        """The longest block goes through. A line that is no case, a block that cannot be cut, and a missing file are named."""
        long = f"id long rate2048 2048 g 24 mask 1{'0' * 155} a {'5a' * 163_836}\n"
        for text, said in (
            (f"# a comment\n\n{long}", "nr_scoreboard: 1 cases, 0 faults\n"), ("id a rate2048 7 g x a 01\n", "nr_golden_next is refused: Case"),
            (f"id a rate2048 512 g 24 a {'00' * 955}\n", "nr_golden_next is refused: Uneven"),
            (f"{long[:-1]}{'5a' * 5000}\n", "nr_golden_next is refused: Case"),
            (f"id a rate2048 2048 g {2**32 + 24} a 01\n", "nr_golden_next is refused: Case"),
        ):
            self.file("cases.txt", text)
            self.assertIn(said, self.simulated())
        (self.folder / "cases.txt").unlink()
        self.assertIn("nr_golden_open is refused: Read", self.simulated())
