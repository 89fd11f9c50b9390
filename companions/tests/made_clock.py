"""A clock for the progress of runs that goes on only when a test says so."""

from collections.abc import Iterator
from contextlib import contextmanager
from unittest import mock

from pops_companions.many.progress import Progress
from tests.six_problems import wait_for

_SECONDS_BETWEEN = 0.02


class Clock:
    """What progress takes for the time, and how often it showed meanwhile that time passes."""

    def __init__(self) -> None:
        self.now = 1000.0
        self.beats = 0

    def monotonic(self) -> float:
        return self.now

    def go(self, seconds: float) -> None:
        """Goes on, and waits until progress has seen it."""
        self.now += seconds
        # (the next beat may have looked before)
        wanted = self.beats + 2
        wait_for(lambda: self.beats >= wanted)


@contextmanager
def made_clock() -> Iterator[Clock]:
    """Gives all progress this clock."""
    clock = Clock()
    wait_on = Progress.wait_on

    def beat(progress: Progress) -> None:
        wait_on(progress)
        clock.beats += 1

    with mock.patch.object(Progress, "wait_on", beat):
        with mock.patch.multiple("pops_companions.many.progress", time=clock, _SECONDS_BETWEEN=_SECONDS_BETWEEN):
            yield clock
