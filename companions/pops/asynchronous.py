"""The form of a run for asyncio."""

import asyncio
from collections.abc import AsyncIterator, Callable
from concurrent.futures import ThreadPoolExecutor
from typing import TypeVar

from pops.run import Result, Run
from pops_companions.report.events import Event

T = TypeVar("T")


class AsyncRun:
    """A run whose events are awaited. A thread of its own waits for the program.

    A task that is cancelled while it waits for an event cancels the run.
    """

    def __init__(self, run: Run):
        self._run = run
        self._thread = ThreadPoolExecutor(1, "pops")

    def __aiter__(self) -> AsyncIterator[Event]:
        return self

    async def __anext__(self) -> Event:
        """Waits for the next event. RunError and ReportError as of a run."""
        event = await self._awaited(lambda: next(self._run, None))
        if event is None:
            raise StopAsyncIteration
        return event

    async def __aenter__(self) -> "AsyncRun":
        return self

    async def __aexit__(self, *_: object) -> None:
        self.cancel()
        await self._awaited(self._run.close)

    def cancel(self) -> None:
        """Ends the run. The problem at hand ends unfinished."""
        self._run.cancel()

    async def result(self) -> Result:
        """Waits for what the run came to. RunError and ReportError as iterating."""
        return await self._awaited(lambda: self._run.result)

    async def _awaited(self, call: Callable[[], T]) -> T:
        loop = asyncio.get_running_loop()
        try:
            return await loop.run_in_executor(self._thread, call)
        except asyncio.CancelledError:
            self._run.cancel()
            raise
