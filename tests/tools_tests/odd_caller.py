"""Calls tools in processes with a gigabyte of memory and ten seconds of a processor, each forked from this small one.

It loads the modules that its arguments name. Then it reads a line of JSON for each call, a file's path and the tool's words,
and answers with the status. What the tool says on both streams is in that file.
"""

from __future__ import annotations

import importlib
import json
import os
import resource
import runpy
import signal
import sys
import time
import traceback
import typing

import shared

MEMORY, SECONDS = 1 << 30, 10


def become(said: str, words: list[str]) -> typing.NoReturn:
    """Is this tool, from here to its end."""
    status = 70
    try:
        resource.setrlimit(resource.RLIMIT_AS, (MEMORY, MEMORY))
        resource.setrlimit(resource.RLIMIT_CPU, (SECONDS, SECONDS))
        out = os.open(said, os.O_WRONLY | os.O_CREAT | os.O_TRUNC)
        os.dup2(out, 1), os.dup2(out, 2), os.dup2(os.open(os.devnull, os.O_RDONLY), 0)
        for number, name in enumerate(("stdin", "stdout", "stderr")):
            setattr(sys, name, open(number, "w" if number else "r", closefd=False))
        sys.argv = [str(shared.TOOLS / words[0]), *words[1:]]
        runpy.run_path(sys.argv[0], run_name="__main__")
        status = 0
    except SystemExit as ended:
        status = ended.code if isinstance(ended.code, int) else 1
    except BaseException:
        traceback.print_exc()
    finally:
        sys.stdout.flush()
        sys.stderr.flush()
        os._exit(status)


def status_of(said: str, words: list[str]) -> int:
    """How a tool ends. On a busy machine its seconds of a processor take longer; what hangs is killed."""
    child = os.fork()
    if not child:
        become(said, words)
    ended = time.monotonic() + shared.SECONDS
    while not (done := os.waitpid(child, os.WNOHANG))[0]:
        time.sleep(0.002)
        if time.monotonic() > ended:
            os.kill(child, signal.SIGKILL)
    return os.waitstatus_to_exitcode(done[1])


if __name__ == "__main__":
    for module in sys.argv[1:]:
        importlib.import_module(f"linksim_tools.{module}")
    for line in sys.stdin:
        print(status_of(*json.loads(line)), flush=True)
