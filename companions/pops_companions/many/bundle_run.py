"""A run of pops on a bundle: reads what it writes, and ends it once it has done what is wanted."""

import time
from collections.abc import Sequence
from contextlib import closing
from typing import NamedTuple, Optional

from pops_companions.many.bundles import MOMENT, Bundles, items_in, text_of
from pops_companions.many.child_process import ChildProcess
from pops_companions.many.tasks import UNFINISHED, Result, Task, whole_lines
from pops_companions.report import lines

# The most bytes of its report: a problem that has more is solved alone.
_MOST_WRITTEN = 1 << 26
# The statuses of runs that wrote every byte of their report.
_WELL = (0, 1)


class Came(NamedTuple):
    """What came of a bundle: results, and the problem at which pops failed, to be solved alone."""

    results: list[Result]
    failed: Optional[Task]


class BundleRun:
    """A run on a bundle, whose problems each have `seconds`, if there is a limit.

    What it doesn't solve goes back to the bundles.
    """

    def __init__(
        self,
        child: ChildProcess,
        tasks: Sequence[Task],
        seconds: Optional[float],
        bundles: Bundles,
    ):
        self._child = child
        self._tasks = tasks
        self._seconds = seconds
        self._bundles = bundles
        self._written: list[bytes] = []
        self._left = _MOST_WRITTEN
        # How many problems are whole in these, and since when the next one is at work.
        self._whole = 0
        self._begun = self._since = time.monotonic()
        # Whether problems were given back, and whether the one at work took too long.
        self._is_cut = False
        self._is_late = False

    def go(self) -> Came:
        """Reads until the end of the run."""
        text = text_of(self._tasks)
        with closing(self._child.pieces(text, self._milliseconds)) as pieces:
            for _, piece in pieces:
                if piece:
                    self._take(piece)
                if self._left < 0 or self._is_over():
                    self._child.kill()
        return self._came()

    def _take(self, piece: bytes) -> None:
        """Takes a piece, and notes which problem is at work."""
        last = self._written[-1][-1:] if self._written else b""
        ends = piece.count(lines.ITEM_END) + (last + piece[:1] == lines.ITEM_END)
        self._written.append(piece)
        self._left -= len(piece)
        if ends:
            self._whole += ends
            self._since = time.monotonic()

    def _is_over(self) -> bool:
        """Returns whether the run is to be ended; after a moment gives back what can be."""
        now = time.monotonic()
        if self._seconds is None and now - self._begun < MOMENT:
            return False
        if self._whole >= len(self._tasks):
            return self._is_cut or self._is_out_of_time(now)
        self._is_late = self._is_out_of_time(now)
        if self._is_late or now - self._begun >= MOMENT:
            self._give_back()
        return self._is_late

    def _is_out_of_time(self, now: float) -> bool:
        """Returns whether the problem at work, or the end after the last one, has had its time."""
        return self._seconds is not None and now - self._since >= self._seconds

    def _give_back(self) -> None:
        """Gives back the problems after the one at work."""
        rest = self._tasks[self._whole + 1 :]
        if rest:
            self._is_cut = True
            self._tasks = self._tasks[: self._whole + 1]
            self._bundles.give_back(rest)

    def _milliseconds(self) -> Optional[float]:
        """Returns how long nothing is to be done if nothing is written."""
        until = []
        if self._whole + 1 < len(self._tasks):
            until.append(self._begun + MOMENT)
        if self._seconds is not None:
            until.append(self._since + self._seconds)
        # (rounded up, so that then the time is over)
        return 1000 * max(min(until) - time.monotonic(), 0) + 1 if until else None

    def _note(self) -> None:
        """Notes how long its whole problems took; of one that took longer than a moment, that it did."""
        if self._whole:
            self._bundles.note(self._whole, self._since - self._begun)
        else:
            self._bundles.note(1, time.monotonic() - self._begun)

    def _came(self) -> Came:
        """Returns what the run came to; gives back what it didn't."""
        report = b"".join(self._written)
        status = self._child.run.returncode
        items = items_in(report, self._tasks, self._is_cut)
        self._note()
        is_ended = status in _WELL and not self._is_late
        if items is None or (is_ended and items.number < len(self._tasks)):
            self._bundles.give_back_apart(self._tasks[1:])
            return Came([], self._tasks[0])
        results = []
        if items.number:
            first = self._tasks[0]
            results.append(Result(first, items.status, items.report, None, items.number))
        left = self._tasks[items.number :]
        if left and self._is_late:
            results.append(self._unfinished(left[0], report))
            left = left[1:]
        self._bundles.give_back(left[1:])
        return Came(results, left[0] if left else None)

    def _unfinished(self, task: Task, report: bytes) -> Result:
        """Returns what is known of the problem at work, which took too long."""
        stop = report.rfind(lines.ITEM_END)
        begun = whole_lines(report[stop + len(lines.ITEM_END) :] if stop >= 0 else report)
        known = task.under_its_number(begun.partition(b"\n")[2])
        return Result(task, UNFINISHED, known, self._seconds)
