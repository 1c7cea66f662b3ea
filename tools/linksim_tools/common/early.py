"""What each tool does before it loads its modules, so that an interrupt or a closed stream ends it with one line."""

import os
import signal
import sys
import typing


def interrupted(_signal: int, _frame: typing.Any) -> None:
    """Ends a tool whose modules are not loaded yet."""
    name = os.path.basename(sys.argv[0])
    shown = name if name.startswith("linksim-") else f"tools/{name}"
    os.write(2, f"{shown}: interrupted\n".encode())
    os._exit(130)


def begin() -> None:
    """Takes up interrupts. A stream that was closed is opened the wrong way round. Whoever uses it gets a fault, and no file that
    is opened later takes its number. What standard output cannot show is escaped, as on standard error."""
    signal.signal(signal.SIGINT, interrupted)
    for number, name in enumerate(("stdin", "stdout", "stderr")):
        if getattr(sys, name) is None:
            wrong = os.open(os.devnull, os.O_RDONLY if number == 1 else os.O_WRONLY)
            if wrong != number:
                os.dup2(wrong, number)
                os.close(wrong)
            setattr(sys, name, open(number, "w" if number else "r", closefd=False))
    typing.cast(typing.Any, sys.stdout).reconfigure(errors="backslashreplace")
