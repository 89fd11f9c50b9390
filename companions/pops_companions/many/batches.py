"""Batches: consecutive parts of a phase, which one run of pops-part goes through.

A run that is free takes over half of what is left of the longest batch. So each run goes through many
parts, which costs few processes, and in battle play each part's search goes on with the moves that
decided the tests of the part before it; and all runs end together.
"""

import threading
import time
from collections import deque
from collections.abc import Callable, Sequence
from typing import Optional

from pops_companions.many.parts import Part


class Batch:
    """The parts that a run still goes through; another run may take over all but the first."""

    def __init__(self, parts: Sequence[Part]):
        self._left: deque[Part] = deque(parts)
        self._lock = threading.Lock()
        # When work on the first part began.
        self.since = time.monotonic()

    def __len__(self) -> int:
        return len(self._left)

    @property
    def first(self) -> Part:
        """The part at work."""
        return self._left[0]

    @property
    def last(self) -> Part:
        """The last part that no other run took over."""
        return self._left[-1]

    @property
    def left(self) -> list[Part]:
        """All parts, in their order."""
        with self._lock:
            return list(self._left)

    def pass_first(self) -> Part:
        """Removes the first part, which is done, and returns it."""
        with self._lock:
            self.since = time.monotonic()
            return self._left.popleft()

    def half(self) -> list[Part]:
        """Removes the last half, never the first part, and returns it for another run."""
        with self._lock:
            return [self._left.pop() for _ in range(len(self._left) // 2)][::-1]


def numbers_of(parts: Sequence[Part]) -> str:
    """Returns the numbers of consecutive parts as pops-part takes them."""
    first, last = parts[0].number, parts[-1].number
    return str(first) if first == last else f"{first}..{last}"


class Batches:
    """Hands parts out in batches."""

    def __init__(self, parts: Sequence[Part], is_alone: Callable[[Part], bool]):
        """Makes batches of consecutive parts; `is_alone` says which parts are batches by themselves."""
        self._waiting: deque[Batch] = deque()
        self._running: list[Batch] = []
        batch: list[Part] = []
        for part in parts:
            if batch and (is_alone(part) or not _follows(batch[-1], part)):
                self._waiting.append(Batch(batch))
                batch = []
            batch.append(part)
        if batch:
            self._waiting.append(Batch(batch))

    def next(self, is_needless: Callable[[Part], bool]) -> Optional[Batch]:
        """Returns the next batch that still matters, or half of a running one; None where there is none."""
        while self._waiting:
            batch = self._waiting.popleft()
            if not is_needless(batch.first):
                batch.since = time.monotonic()
                self._running.append(batch)
                return batch
        half = max(self._running, key=len).half() if self._running else []
        if not half:
            return None
        self._running.append(Batch(half))
        return self._running[-1]

    @property
    def seconds_at_work(self) -> list[float]:
        """For how long the parts are at work that aren't done yet."""
        now = time.monotonic()
        # (a list: another thread may change them meanwhile)
        return [now - batch.since for batch in list(self._running) if len(batch)]

    @property
    def at_work(self) -> list[list[Part]]:
        """The parts that are left of each running batch."""
        return [batch.left for batch in self._running]

    def end(self, batch: Batch) -> None:
        """Notes that the run of a batch ended."""
        self._running.remove(batch)


def _follows(before: Part, part: Part) -> bool:
    return part.key == before.key._replace(number=before.number + 1)
