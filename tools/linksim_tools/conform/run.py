"""Runs a command on a suite: questions to its standard input, a line each, and answers from its standard output. What is
asked of an encoder or a receiver, and how its lines are read, is said by what is built on this."""

from __future__ import annotations

import contextlib
import os
import select
import signal
import subprocess
import time
import typing

from linksim_tools.common.message import MOST
from linksim_tools.common.program import Failed
from linksim_tools.conform.answer_lines import Repeated, Wrong, is_answer, left_out, shown

Wanted = typing.TypeVar("Wanted")

# After so many lines that cannot be judged a run ends.
TROUBLES = 20

# How many seconds another line is waited for after one that answers a question again. The second number says how many
# times longer the first answer may take, which has the command's start in it.
GRACE, START = 1.0, 6

CHUNK = 1 << 16
# After so many lines that are no answers to a question none is waited for.
REMARKS = 300_000


class Stopped(Exception):
    """The command answers no more; its text says why."""


class Command:
    """A running command."""

    def __init__(self, words: list[str], most: int) -> None:
        self.most, self.rest, self.scanned, self.whole, self.left = most, b"", 0, b"", b""
        self.has_answered = False
        self.left_out: list[bytes] = []
        try:
            # With a session of its own it can be ended with all that it starts.
            self.process = subprocess.Popen(words, stdin=subprocess.PIPE, stdout=subprocess.PIPE, bufsize=0, start_new_session=True)
        except OSError as error:
            raise Failed(f"{words[0]} cannot be started: {error.strerror}") from None
        assert self.process.stdin and self.process.stdout
        self.input, self.output = self.process.stdin.fileno(), self.process.stdout.fileno()
        os.set_blocking(self.input, False)

    def ended(self) -> str:
        """Why there is no more output."""
        try:
            status = self.process.wait(1)
        except subprocess.TimeoutExpired:
            return "the command has closed its standard output"
        return f"the command was ended by signal {-status}" if status < 0 else f"the command ended with status {status}"

    def write(self) -> None:
        """Writes as much of the question as fits; a command that reads no more may still answer."""
        try:
            self.left = self.left[os.write(self.input, self.left[:CHUNK]) :]
        except BlockingIOError:
            pass
        except BrokenPipeError:
            self.left = b""

    def take(self) -> None:
        """Reads some output."""
        found = os.read(self.output, CHUNK)
        if not found:
            raise Stopped(self.ended())
        self.rest += found

    def line(self) -> bytes | None:
        """The first whole line of what was read and is left, or None."""
        end = self.rest.find(b"\n", self.scanned)
        self.scanned = len(self.rest)
        if max(end, len(self.rest) if end < 0 else 0) > self.most:
            raise Stopped(f"the command's line is longer than {self.most} octets, and no answer of this suite can be")
        if end < 0:
            return None
        line, self.rest, self.scanned = self.rest[:end], self.rest[end + 1 :], 0
        return line

    def ask(self, line: str) -> None:
        """Has a line to be written next."""
        self.whole = self.left = line.encode() + b"\n"

    def is_silent(self) -> bool:
        """Whether it runs, and has never answered."""
        return not self.has_answered and self.process.poll() is None

    def silent(self, seconds: float) -> str:
        """What is said of a command that gives no answer."""
        hint = "--seconds gives it longer" if self.has_answered else "it has written nothing at all: is its output flushed?"
        if self.rest:
            hint = f"its last line has no end: {shown(self.rest)}"
        elif self.left_out:
            hint = f"its last line is none: {shown(self.left_out[-1])}"
        return f"the command gave no answer for {seconds:g} s; {hint}"

    def answer(self, seconds: float, is_answer: typing.Callable[[bytes], bool]) -> bytes:
        """The next line of the command that is an answer, for which it has so long; others are left out. It is not given
        while a question is half written."""
        deadline, most = time.monotonic() + seconds, len(self.left_out) + REMARKS
        found = None
        while True:
            found = self.line() if found is None else found
            if found is not None and not is_answer(found):
                self.left_out.append(found[:MOST])
                if len(self.left_out) == most:
                    raise Stopped(f"the command wrote {REMARKS:,} lines that are no answers, the last one {shown(found)}")
                found = None
                continue
            if found is not None and self.left in (b"", self.whole):
                self.has_answered = True
                return found
            wait = deadline - time.monotonic()
            if wait <= 0:
                raise Stopped(self.silent(seconds))
            readable, writable, _ = select.select([self.output], [self.input] if self.left else [], [], wait)
            if writable:
                self.write()
            if readable:
                self.take()

    def end(self) -> None:
        """Closes its input, waits a little, and ends what of it goes on."""
        assert self.process.stdin and self.process.stdout
        self.process.stdin.close()
        with contextlib.suppress(subprocess.TimeoutExpired):
            self.process.wait(1)
        with contextlib.suppress(ProcessLookupError):
            os.killpg(self.process.pid, signal.SIGKILL)
        self.process.wait()
        self.process.stdout.close()


@contextlib.contextmanager
def until_interrupted(troubles: list[str]) -> typing.Iterator[None]:
    """Goes on until it is interrupted, which is a line more about what could not be judged."""
    try:
        yield
    except KeyboardInterrupt:
        Run.interrupted = True
        troubles.append("the run was interrupted; what was answered before is judged")


class Run(typing.Generic[Wanted]):
    """A run of a command: lines about what could not be judged. `skip` is how often it is started anew if it stops."""

    # Whether a run of this process was interrupted.
    interrupted = False

    def __init__(self, words: list[str], most: int, seconds: float, skip: int = 0) -> None:
        self.words, self.most, self.seconds, self.skip = words, most, seconds, skip
        self.troubles: list[str] = []
        self.left_out: list[bytes] = []
        self.command: Command | None = None

    def judge(self, line: bytes, wanted: Wanted) -> None:
        """Keeps what a line answers, or raises what is wrong with it."""
        raise NotImplementedError

    def place(self, wanted: Wanted) -> str:
        """What is asked, in words."""
        raise NotImplementedError

    def start(self) -> Command:
        """The command, started if it does not run."""
        if self.command is None:
            self.command = Command(self.words, self.most)
        return self.command

    def end(self) -> None:
        if self.command is not None:
            self.command.end()
            self.left_out += self.command.left_out
            self.command = None

    @contextlib.contextmanager
    def going_on(self) -> typing.Iterator[None]:
        """Asks until it is interrupted, and ends the command."""
        try:
            with until_interrupted(self.troubles):
                yield
        finally:
            self.end()

    def take(self, wanted: Wanted, seconds: float) -> bool:
        """Takes the answer to a question; says whether it was one to a question before, which another may follow."""
        line = self.start().answer(seconds, is_answer)
        try:
            self.judge(line, wanted)
        except Wrong as wrong:
            self.troubles.append(f"at {self.place(wanted)}: {wrong}")
            return isinstance(wrong, Repeated)
        return False

    def ask(self, wanted: Wanted, line: str) -> None:
        """Asks a question, and takes its answer."""
        if len(self.troubles) >= TROUBLES:
            raise Stopped(f"{TROUBLES} lines could not be judged")
        command = self.start()
        command.ask(line)
        if not self.take(wanted, self.seconds * (1 if command.has_answered else START)):
            return
        # A line too many: the question may be unwritten yet, else the answer comes soon.
        if command.left:
            self.take(wanted, self.seconds)
            return
        with contextlib.suppress(Stopped):
            self.take(wanted, min(self.seconds, GRACE))

    def stopped(self, place: str, why: Stopped, goes_on: bool = False) -> bool:
        """Ends the command where it has stopped, and says whether another may be started for what comes next. One that is
        silent from the beginning would be so again."""
        silent = self.command is not None and self.command.is_silent()
        self.end()
        goes_on = len(self.troubles) < TROUBLES and not silent and (goes_on or self.skip > 0)
        self.skip -= 1
        said = "the other cases are judged" if goes_on else "what it answered before is judged"
        self.troubles.append(f"at {place}: {why}; {said}")
        return goes_on

    def notes(self) -> list[str]:
        return left_out(self.left_out)
