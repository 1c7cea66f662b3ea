"""dask: a scheduler with its workers. `subprocess.run` is sent, so that workers need no module of these tools."""

from __future__ import annotations

import subprocess
import time
import typing

from linksim_tools.common.program import Failed
from linksim_tools.curve.engines import TRIES, Call, Engine, first_fault
from linksim_tools.curve.packages import need
from linksim_tools.curve.tasks import word_of

if typing.TYPE_CHECKING:
    from linksim_tools.curve.making import Task

# So many seconds a scheduler may take to answer, and may go on without a worker.
ANSWER, ALONE = 20, 30


class Dask(Engine):
    """The engine of the scheduler at an address, all of whose workers see the files."""

    longest = 2.0

    def __init__(self, address: str) -> None:
        need("--engine dask", "distributed")
        import distributed

        self.distributed, self.address = distributed, address
        try:
            self.client: typing.Any = distributed.Client(address, timeout=ANSWER)
        except (OSError, ValueError, TimeoutError) as error:
            raise Failed(f"no dask scheduler at {address}: {str(error).splitlines()[0] if str(error) else 'no answer'}") from None
        if not self.slots():
            self.client.close()
            raise Failed(f"the dask scheduler at {address} has no worker")

    def slots(self) -> int:
        return sum(self.client.nthreads().values())

    def most(self) -> int:
        return 8 * max(1, self.slots())

    def lines(self, call: Call, batches: list[list[Task]]) -> typing.Iterator[str]:
        futures = [
            self.client.submit(
                subprocess.run, [*call.words(), word_of(batch)], capture_output=True, text=True, check=True, retries=TRIES - 1,
                key=f"curve-{time.time_ns()}-{number}", pure=False,
            )
            for number, batch in enumerate(batches)
        ]
        try:
            for future in self.finished(futures):
                try:
                    ended = future.result()
                except subprocess.CalledProcessError as error:
                    raise Failed(first_fault(error.stderr, f"point ended with status {error.returncode}")) from None
                except Exception as error:
                    raise Failed(f"dask: {type(error).__name__}: {str(error).splitlines()[0] if str(error) else ''}") from None
                yield from ended.stdout.splitlines(keepends=True)
        finally:
            self.client.cancel(futures)

    def finished(self, futures: list[typing.Any]) -> typing.Iterator[typing.Any]:
        """The futures as they end; a failure if all workers are gone."""
        waiting, alone = list(futures), 0.0
        while waiting:
            try:
                self.distributed.wait(waiting, timeout=1, return_when="FIRST_COMPLETED")
            except (TimeoutError, self.distributed.TimeoutError):
                alone = 0.0 if self.slots() else alone + 1
                if alone > ALONE:
                    raise Failed(f"the dask scheduler at {self.address} has no worker left") from None
            done = [future for future in waiting if future.done()]
            waiting = [future for future in waiting if not future.done()]
            yield from done

    def waiting(self) -> str:
        return f"the dask scheduler at {self.address}, with {self.slots()} threads of workers"

    def close(self) -> None:
        self.client.close()
