"""A watch over what makes chunks: if nothing comes for a while, it reports what is waited for."""

from __future__ import annotations

import threading
import time
import types
import typing

from linksim_tools.curve.results import note

# After this many seconds without a chunk a run reports what it waits for, and again after twice as many.
SILENCE = 600.0


class Silence:
    """Reports in a thread of its own, because the run itself waits."""

    def __init__(self, patience: float, waiting: typing.Callable[[], str]) -> None:
        self.patience, self.waiting = patience, waiting
        self.last, self.over = time.monotonic(), threading.Event()
        self.thread = threading.Thread(target=self.watch, daemon=True)

    def heard(self) -> None:
        """Something came."""
        self.last = time.monotonic()

    def watch(self) -> None:
        """Reports each silence."""
        patience = self.patience
        while not self.over.wait(min(1.0, self.patience / 4)):
            silent = time.monotonic() - self.last
            if silent < self.patience:
                patience = self.patience
            elif silent >= patience:
                passed = f"{silent / 60:.0f} minutes" if silent >= 120 else f"{silent:.0f} seconds"
                note(f"no chunk came for {passed}: waiting for {self.waiting()}")
                patience *= 2

    def __enter__(self) -> Silence:
        self.thread.start()
        return self

    def __exit__(
        self, kind: type[BaseException] | None, error: BaseException | None, trace: types.TracebackType | None
    ) -> None:
        self.over.set()
        self.thread.join()
