"""A problem in parts: how far it is, and the report that its parts make.

The solutions of the parts, joined in their order, are the solutions of the phase. The limit of
MaxSolutions, which holds in each part by itself, cuts them again.
"""

import bisect
import math
from collections.abc import Callable, Iterable, Iterator, Sequence
from typing import NamedTuple, Optional

from pops_companions.many.parts import (
    Key,
    Part,
    Phase,
    count_in,
    lines_without_total,
    solutions_in,
    solutions_of,
    without_totals,
)
from pops_companions.many.tasks import Task
from pops_companions.report.lines import NOT_POSSIBLE, total_line

_BARRED = NOT_POSSIBLE + b"\n"

# Reads what is kept of a part.
Reader = Callable[[Part], bytes]


class Tally(NamedTuple):
    """How many parts are done, of how many that matter."""

    done: int
    of_all: int


def _total(tallies: Iterable[Tally]) -> Tally:
    """Returns how many are done of all."""
    done, of_all = zip(*tallies)
    return Tally(sum(done), sum(of_all))


class Cutting(NamedTuple):
    """How a problem is cut: its phases with their parts, and with their first moves."""

    phases: Sequence[Phase]
    moves: Sequence[Phase]
    depth: int


class _PhaseInParts:
    """The parts of a phase that are done, up to the last one that matters."""

    def __init__(self, parts: int, moves: int, limit: float):
        self._all = parts
        self._moves = moves
        self._limit = limit
        self._done: set[int] = set()
        # The parts that have solutions, in their order, and how many.
        self._counts: list[tuple[int, int]] = []
        self._found = 0
        # The parts up to it have as many solutions as are wanted.
        self._last = parts

    def keep(self, number: int, count: int) -> bool:
        """Notes a part with this many solutions; returns whether others no longer matter."""
        self._done.add(number)
        if count == 0:
            return False
        self._found += count
        bisect.insort(self._counts, (number, count))
        return self._found >= self._limit and self._end_at_limit()

    def _end_at_limit(self) -> bool:
        before = self._last
        found = 0
        for place, (number, count) in enumerate(self._counts):
            found += count
            if found >= self._limit:
                self._last = number
                del self._counts[place + 1 :]
                break
        return self._last < before

    def is_needless(self, number: int) -> bool:
        return number > self._last or number in self._done

    def is_done(self, number: int) -> bool:
        return number in self._done

    @property
    def tally(self) -> Tally:
        if self._last == self._all:
            return Tally(len(self._done), self._all)
        # (a list: another thread may add to them meanwhile)
        return Tally(sum(number <= self._last for number in list(self._done)), self._last)

    @property
    def first_moves(self) -> Tally:
        """The first moves that are done, of how many: by the parts that are, where these are more."""
        done, last = self.tally
        if self._moves == self._all:
            return Tally(done, last)
        each = max(self._all, 1)
        return Tally(done * self._moves // each, -(-last * self._moves // each))

    @property
    def found(self) -> int:
        """How many solutions are known, up to the limit."""
        return int(min(self._found, self._limit))

    @property
    def with_solutions(self) -> list[int]:
        """The parts that are done and have solutions."""
        return [number for number, _ in self._counts]


class SplitProblem:
    """A problem that is cut into parts, of which it knows how many solutions they have."""

    def __init__(self, task: Task, head: bytes, cut: Cutting, limit: Optional[int]):
        self.task = task
        self._head = head
        self._phases = cut.phases
        self._limit = math.inf if limit is None else limit
        self._depth = cut.depth
        self._of = {
            phase.name: _PhaseInParts(phase.parts or 0, moves.parts or 0, self._limit)
            for phase, moves in zip(cut.phases, cut.moves)
        }
        # Whether each part has a first move of its own.
        self.is_by_first_moves = list(cut.phases) == list(cut.moves)

    def _part(self, phase: Phase, number: int) -> Part:
        return Part(self.task, phase.name, number, self._depth)

    def parts(self) -> Iterator[Part]:
        """Yields all parts, in their order."""
        for phase in self._phases:
            for number in range(1, (phase.parts or 0) + 1):
                yield self._part(phase, number)

    def keep(self, part: Part, report: bytes) -> bool:
        """Takes note of a part that is done. Whether others matter no more by it."""
        return self._of[part.phase].keep(part.number, count_in(report) or 0)

    def is_needless(self, part: Part) -> bool:
        """Returns whether a part is done or can't matter any more."""
        return self._of[part.phase].is_needless(part.number)

    @property
    def is_limited(self) -> bool:
        """Whether parts can matter no more because others have enough solutions."""
        return self._limit != math.inf

    @property
    def tally(self) -> Tally:
        return _total(phase.tally for phase in self._of.values())

    @property
    def first_moves(self) -> Tally:
        """The first moves of all phases that are done, of how many."""
        return _total(phase.first_moves for phase in self._of.values())

    @property
    def is_done(self) -> bool:
        return self.tally.done == self.tally.of_all

    @property
    def found(self) -> int:
        """How many solutions are known, without those beyond the limit."""
        return sum(phase.found for phase in self._of.values())

    def report(self, read: Reader) -> bytes:
        """Returns the report of the whole problem, as pops writes it for an input of this problem."""
        return b"".join([*self._lines(read, {}, b""), b"\n"])

    def lines_found(self, read: Reader, begun: dict[Key, bytes], first: bytes) -> bytes:
        """Returns what is known of an unfinished problem, in its order: its first lines, the reports
        of its parts, and the lines of unfinished parts. An unfinished phase has no total."""
        return b"".join(self._lines(read, begun, first))

    def _lines(self, read: Reader, begun: dict[Key, bytes], first: bytes) -> Iterator[bytes]:
        yield self._head
        seen = _lines_by_phase(first[len(self._head) :])
        for phase in self._phases:
            yield phase.name.encode("ascii") + b"\n"
            tally = self._of[phase.name].tally
            if phase.parts is None:
                yield _BARRED
            elif tally.done == tally.of_all:
                yield from self._solutions(phase, read)
            else:
                yield from self._known(phase, read, begun, seen.get(phase.name, b""))

    def _solutions(self, phase: Phase, read: Reader) -> Iterator[bytes]:
        """Yields the solutions of a phase that is done, and their number."""
        of_phase = self._of[phase.name]
        reports = (read(self._part(phase, number)) for number in of_phase.with_solutions)
        if of_phase.found < self._limit:
            yield from map(lines_without_total, reports)
            yield total_line(of_phase.found, False)
            return
        solutions = [solution for report in reports for solution in solutions_of(report)]
        yield from self._up_to_limit(solutions)
        yield total_line(int(self._limit), True)

    def _known(
        self, phase: Phase, read: Reader, begun: dict[Key, bytes], first: bytes
    ) -> list[bytes]:
        """Returns the solutions that are known of a phase that isn't done."""
        # By their first lines: of a tree that is known twice, the longer text is the whole one.
        known: dict[bytes, bytes] = {}

        def add(solutions: list[bytes]) -> None:
            for solution in solutions:
                name = solution.split(b"\n", 1)[0]
                known[name] = max(known.get(name, b""), solution, key=len)

        add(solutions_in(first))
        numbers = {key.number for key in begun if key[:2] == (self.task.place, phase.name)}
        for number in sorted(numbers.union(self._of[phase.name].with_solutions)):
            part = self._part(phase, number)
            if self._of[phase.name].is_done(number):
                add(solutions_of(read(part)))
            else:
                add(solutions_of(begun[part.key]))
        return self._up_to_limit(list(known.values()))

    def _up_to_limit(self, solutions: list[bytes]) -> list[bytes]:
        return solutions if self._limit == math.inf else solutions[: int(self._limit)]


def _lines_by_phase(lines: bytes) -> dict[str, bytes]:
    """Returns the solutions of each phase that a report has below its head."""
    found: dict[str, bytes] = {}
    name = ""
    for line in without_totals(lines):
        if line in (b"set\n", b"play\n"):
            name = line[:-1].decode("ascii")
            found[name] = b""
        elif name and line not in (b"\n", _BARRED):
            found[name] += line
    return found
