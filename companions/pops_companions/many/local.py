"""Runs tasks on the processors of this machine."""

import threading
import time
from collections import deque
from collections.abc import Callable, Iterable, Sequence
from concurrent.futures import FIRST_COMPLETED, ThreadPoolExecutor, wait
from typing import TypeVar

from pops_companions import interrupts
from pops_companions.many.bundles import Bundles
from pops_companions.many.program import OutputRunError, Program, RunError
from pops_companions.many.tasks import Result, Task

# How often a run that fails is tried in all.
TRIES = 2
# After this many seconds without an end signals are heeded, and `wait_on` is called: time passes.
_SECONDS_OF_SILENCE = 0.5
Given = TypeVar("Given")
Found = TypeVar("Found")


def in_threads(
    work: Callable[[], None],
    number: int,
    stop: Callable[[], None],
    wait_on: Callable[[], None] = lambda: None,
) -> None:
    """Does a work in this many threads, and waits for their ends. If the work fails in one, or the wait is
    broken off, `stop` ends it in all.

    Signals are heeded between short waits: one that broke off a wait could leave locks taken.
    """
    with interrupts.held() as as_before, ThreadPoolExecutor(max(number, 1)) as threads:
        try:
            left = {threads.submit(work) for _ in range(number)}
            while left:
                ended, left = wait(left, _SECONDS_OF_SILENCE, FIRST_COMPLETED)
                for future in ended:
                    future.result()
                with as_before():
                    if not ended:
                        wait_on()
        except BaseException:
            stop()
            raise


def for_each(
    some: Iterable[Given],
    work: Callable[[Given], Found],
    jobs: int,
    stop: Callable[[], None],
    take: Callable[[Given, Found], None],
) -> None:
    """Does a work on each of some in threads, as `in_threads` does. `take` gets each with what was found;
    only one thread is in it at a time.
    """
    waiting, lock = deque(some), threading.Lock()

    def go_through() -> None:
        while True:
            with lock:
                if not waiting:
                    return
                one = waiting.popleft()
            found = work(one)
            with lock:
                take(one, found)

    in_threads(go_through, min(jobs, len(waiting)), stop)


class _Solving:
    """Solves bundles, in several threads, each with one run at a time."""

    def __init__(self, program: Program, bundles: Bundles, keep: Callable[[Result], None]):
        """`keep` takes each result; only one thread is in it at a time."""
        self._program = program
        self._bundles = bundles
        self._keep = keep
        self._lock = threading.Lock()
        # The tasks that came to no end, with the reasons.
        self.failed: list[tuple[Task, str]] = []

    def work(self) -> None:
        """Goes through bundles as long as there are any."""
        while (bundle := self._bundles.next()) is not None:
            try:
                self._solve(bundle)
            finally:
                self._bundles.end()

    def stop(self) -> None:
        """Ends all runs."""
        self._bundles.close()
        self._program.stop()

    def _solve(self, bundle: Sequence[Task]) -> None:
        if len(bundle) == 1:
            begun = time.monotonic()
            self._solve_alone(bundle[0])
            self._bundles.note(1, time.monotonic() - begun)
            return
        try:
            results, failed = self._program.solve_bundle(bundle, self._bundles)
        except RunError:
            self._bundles.give_back(bundle[1:])
            results, failed = [], bundle[0]
        for result in results:
            self._take(result)
        if failed is not None:
            self._solve_alone(failed)

    def _solve_alone(self, task: Task, tries: int = TRIES) -> None:
        try:
            result = self._program.solve(task)
        except RunError as error:
            if tries > 1 and not isinstance(error, OutputRunError):
                self._solve_alone(task, tries - 1)
            else:
                with self._lock:
                    self.failed.append((task, str(error)))
            return
        self._take(result)

    def _take(self, result: Result) -> None:
        with self._lock:
            self._keep(result)


def run_locally(
    program: Program,
    tasks: Sequence[Task],
    jobs: int,
    keep: Callable[[Result], None],
    wait_on: Callable[[], None] = lambda: None,
) -> list[tuple[Task, str]]:
    """Runs tasks, `jobs` at a time, and passes each result on as it comes, also those that come while
    the runs are stopped.

    A result is of some tasks in turn. Returns the tasks that failed, with the reasons.
    """
    solving = _Solving(program, Bundles(tasks, jobs), keep)
    in_threads(solving.work, min(jobs, len(tasks)), solving.stop, wait_on)
    return solving.failed
