"""Bundles: neighbouring problems of an input that one run of pops solves.

A bundle has about a tenth of a second's work, by the time that the ones before it took. Where its
run takes much longer, the problem at work stays with it, and those after it are a bundle again.
"""

import threading
from collections import deque
from collections.abc import Iterator, Sequence
from typing import NamedTuple, Optional

from pops_companions.many.tasks import Input, Task, Tasks
from pops_companions.report import lines

# The seconds of work of a bundle, at most and at least; after MOMENT it gives the rest back.
_SECONDS = 0.1
_LEAST_SECONDS = 0.02
MOMENT = 0.5
# The problems of the first bundles, and how many bundles of each processor there are at least, unless
# they are of less work than the least.
_FIRST = 16
_BUNDLES_OF_A_JOB = 4
# How much a bundle may differ in size from the one before it, and how much its time counts.
_MOST_GROWTH = 8.0
_WEIGHT = 0.4
# The most bytes of a bundle: a pipe takes them at once.
_LONGEST = 1_000_000
_HEAD = b"problem "
_BETWEEN = lines.ITEM_END + _HEAD
# In each fault, and seldom elsewhere.
_FAULT = b": fault "


class Items(NamedTuple):
    """The whole problems at the beginning of a bundle's report, as one report.

    They are numbered as in their input, and faults have its lines.
    """

    number: int
    status: int
    report: bytes


def neighbours(tasks: Sequence[Task]) -> list[Sequence[Task]]:
    """Returns the tasks in runs of problems that follow each other in an input and are closed."""
    if isinstance(tasks, Tasks) and isinstance(tasks.places, range) and tasks.places.step == 1:
        return [tasks.only(places) for places in _places_of_runs(tasks.inputs, tasks.places)]
    runs: list[Sequence[Task]] = []
    begin = 0
    for place in range(1, len(tasks) + 1):
        if place == len(tasks) or not _follows(tasks[place - 1], tasks[place]):
            runs.append(tasks[begin:place])
            begin = place
    return runs


def _places_of_runs(inputs: Sequence[Input], places: range) -> Iterator[range]:
    """Yields the places of `neighbours` among places without a gap."""
    for of_input, pieces in ((it.places, it.pieces) for it in inputs):
        stop = last = min(of_input.stop, places.stop)
        begin = max(of_input.start, places.start)
        if pieces is not None and not pieces.is_closed(stop - 1 - of_input.start):
            last -= 1
        yield from (run for run in (range(begin, last), range(max(begin, last), stop)) if run)


def _follows(before: Task, task: Task) -> bool:
    if task.pieces is None or task.source is not before.source:
        return False
    return task.pieces.is_closed(task.at) and task.place == before.place + 1


def text_of(bundle: Sequence[Task]) -> bytes:
    """Returns the problems of a bundle as one input."""
    first, last, text = bundle[0], bundle[-1], bundle[0].source.text
    assert first.pieces is not None and text is not None
    begin = b"Beg" if first.at else b""
    problems = text[first.pieces.starts[first.at] : first.pieces.stops[last.at]]
    return b"".join([begin, problems, b"End"])


def items_in(report: bytes, bundle: Sequence[Task], may_go_on: bool = False) -> Optional[Items]:
    """Returns the whole problems that a report of a bundle begins with; None where it is no report of
    it. It may go on with problems that are no longer the bundle's.
    """
    stop = report.rfind(lines.ITEM_END)
    if stop < 0:
        return Items(0, 0, b"") if _HEAD.startswith(report[: len(_HEAD)]) else None
    bodies = report[:stop].split(_BETWEEN, len(bundle))
    if may_go_on:
        del bodies[len(bundle) :]
    if not bodies[0].startswith(_HEAD) or len(bodies) > len(bundle):
        return None
    bodies[0] = bodies[0][len(_HEAD) :]
    numbers = _number_lines(1, len(bodies))
    if not all(map(bytes.startswith, bodies, numbers)):
        return None
    bodies = list(map(bytes.removeprefix, bodies, numbers))
    is_faulty = _FAULT in report and _move_faults(bodies, bundle[0])
    pieces = [_BETWEEN] * (3 * len(bodies))
    pieces[1::3] = _number_lines(bundle[0].at + 1, len(bodies))
    pieces[2::3] = bodies
    pieces[0] = _HEAD
    return Items(len(bodies), int(is_faulty), b"".join([*pieces, lines.ITEM_END]))


def _number_lines(first: int, count: int) -> list[bytes]:
    """Returns the lines that this many numbers are alone on, from the first one on."""
    text = "%d\n" * count % tuple(range(first, first + count))
    return text.encode("ascii").splitlines(keepends=True)


def _move_faults(bodies: list[bytes], first: Task) -> bool:
    """Moves the faults among items down to their lines; returns whether there are any."""
    is_faulty = False
    line_ends = first.piece.line_ends if first.piece is not None else 0
    for place, body in enumerate(bodies):
        if body.startswith(b"line ") and (fault := lines.FAULT.match(body)) is not None:
            is_faulty = True
            bodies[place] = b"line %d%s" % (int(fault[1]) + line_ends, body[fault.end(1) :])
    return is_faulty


class Bundles:
    """Hands out tasks in bundles, to several threads; sizes follow from the time that bundles take."""

    def __init__(self, tasks: Sequence[Task], jobs: int):
        self._jobs = jobs
        self._most = len(tasks) // (_BUNDLES_OF_A_JOB * jobs)
        runs = neighbours(tasks) if self._most > 1 else [[task] for task in tasks]
        # Neighbours, of which the first ones are the next bundle.
        self._waiting = deque(runs)
        self._left = len(tasks)
        self._at_work = 0
        self._seconds_each: Optional[float] = None
        self._size = float(_FIRST)
        self._is_closed = False
        self._changed = threading.Condition()

    def next(self) -> Optional[Sequence[Task]]:
        """Returns the next bundle, once there is one; None where all problems are done."""
        with self._changed:
            while not self._waiting and self._at_work and not self._is_closed:
                self._changed.wait()
            if not self._waiting or self._is_closed:
                return None
            tasks = self._waiting.popleft()
            size = self._size_in(tasks)
            if size < len(tasks):
                self._waiting.appendleft(tasks[size:])
            self._at_work += 1
            self._left -= size
            return tasks[:size]

    def _size_in(self, tasks: Sequence[Task]) -> int:
        """Returns how many of some neighbours are the next bundle."""
        most = max(min(self._most, self._left // (2 * self._jobs)), self._least)
        size = max(min(int(self._size), len(tasks), most), 1)
        first = tasks[0]
        while size > 1:
            last = tasks[size - 1]
            assert first.pieces is not None
            if first.pieces.stops[last.at] - first.pieces.starts[first.at] <= _LONGEST:
                break
            size //= 2
        return size

    @property
    def _least(self) -> int:
        """The fewest problems for which a process is worth its while."""
        return int(_LEAST_SECONDS / self._seconds_each) if self._seconds_each else 1

    def note(self, count: int, seconds: float) -> None:
        """Notes how long some problems of a bundle took."""
        with self._changed:
            each = max(seconds / max(count, 1), 1e-6)
            before = self._seconds_each or each
            mean = before ** (1 - _WEIGHT) * each**_WEIGHT
            self._seconds_each, wanted = mean, _SECONDS / mean
            self._size = max(min(wanted, self._size * _MOST_GROWTH), self._size / _MOST_GROWTH, 1)

    def give_back(self, tasks: Sequence[Task]) -> None:
        """Takes back the problems of a bundle that its run doesn't solve."""
        if tasks:
            with self._changed:
                self._waiting.appendleft(tasks)
                self._left += len(tasks)
                self._changed.notify_all()

    def give_back_apart(self, tasks: Sequence[Task]) -> None:
        """Takes back problems that are no bundle again."""
        for task in reversed(tasks):
            self.give_back([task])

    def end(self) -> None:
        """Notes that a bundle is done, but for what was given back."""
        with self._changed:
            self._at_work -= 1
            self._changed.notify_all()

    def close(self) -> None:
        """Hands out nothing more."""
        with self._changed:
            self._is_closed = True
            self._changed.notify_all()
