"""Solves problems in parts, on this machine and on others, and puts their reports together."""

import threading
from collections.abc import Callable, Iterator, Sequence
from typing import Optional

from pops_companions.many.batches import Batch, Batches
from pops_companions.many.journal import Journal
from pops_companions.many.local import TRIES, in_threads
from pops_companions.many.machines import Machines
from pops_companions.many.parallel import MachinesError
from pops_companions.many.part_program import PartProgram
from pops_companions.many.parts import Key, Part, PartsError, head_of, limit_of
from pops_companions.many.program import SOUND, Program, RunError
from pops_companions.many.progress import HowFar, Progress
from pops_companions.many.remote_parts import RemoteParts
from pops_companions.many.split_problem import Cutting, SplitProblem
from pops_companions.many.tasks import Result, Task


class Splitting:
    """The problems of a run that took longer than a moment, cut into parts."""

    def __init__(
        self,
        checking: Program,
        program: PartProgram,
        journal: Journal,
        progress: Progress,
        finish: Callable[[Result], None],
    ):
        self._checking = checking
        self._program = program
        self._journal = journal
        self._progress = progress
        self._finish = finish
        self._problems: dict[int, SplitProblem] = {}
        self._failed: dict[int, tuple[Task, str]] = {}
        # The parts that are handed out on this machine: several threads go through them.
        self._batches = Batches([], self._is_alone)
        self._lock = threading.Lock()

    @property
    def failed(self) -> list[tuple[Task, str]]:
        """The problems that failed, with the reasons."""
        return list(self._failed.values())

    def cut(self, tasks: Sequence[Task]) -> None:
        """Cuts problems up that aren't yet. One that turned out faulty is done."""
        for task in tasks:
            if task.place not in self._problems and not self._journal.is_finished(task.place):
                try:
                    self._cut(task)
                except (PartsError, RunError) as error:
                    self._failed[task.place] = (task, str(error))

    def _cut(self, task: Task) -> None:
        """Lists a problem's parts, and takes up those that the journal has."""
        checked = self._checking.solve(task)
        if checked.status != SOUND:
            self._finish(checked)
            return
        text = task.text_without_line_ends
        head, phases = head_of(checked.report), self._program.phases(text)
        moves = phases if self._program.depth == 1 else self._program.phases(text, 1)
        cut = Cutting(phases, moves, self._program.depth)
        problem = SplitProblem(task, head, cut, limit_of(text))
        self._problems[task.place] = problem
        for part in problem.parts():
            if part.key in self._journal.parts:
                problem.keep(part, self._journal.part(part))
        self._join(problem)

    def run(self, there: Optional[RemoteParts], jobs: int) -> None:
        """Solves the parts: on other machines where there are any, else here, `jobs` at a time."""
        self._tell()
        with self._progress.beating():
            barred = self._run_there(there) if there is not None else set()
            self._run_here([part for part in self._left() if part.key not in barred], jobs)

    def _run_there(self, there: RemoteParts) -> set[Key]:
        """Solves parts on other machines; returns the ones that failed because no machine is left."""
        sent = [part for part in self._left() if Machines.takes(part.task)]
        try:
            there.run(sent, self._keep, self._is_needless)
            return set()
        except MachinesError as error:
            self._fail(sent, str(error))
            return {part.key for part in sent}

    def _fail(self, parts: Sequence[Part], reason: str) -> None:
        for part in parts:
            if not self._is_needless(part):
                message = f"part {part.number} of the {part.phase}: {reason}"
                self._failed.setdefault(part.task.place, (part.task, message))

    def _left(self) -> Iterator[Part]:
        for _, problem in sorted(self._problems.items()):
            for part in problem.parts():
                if not problem.is_needless(part):
                    yield part

    def _tell(self) -> None:
        """Shows how far the first unfinished problem is."""
        for _, problem in sorted(self._problems.items()):
            if not problem.is_done:
                self._progress.begin_parts(self._parts_left())
                self._show(problem)
                return

    def _show(self, problem: SplitProblem) -> None:
        """Shows how far a problem is."""

        def how_far() -> HowFar:
            done, moves = problem.first_moves
            left = self._parts_left()
            at_work = self._batches.seconds_at_work
            return HowFar(done, moves, problem.is_by_first_moves, problem.found, left, at_work)

        self._progress.part(problem.task.shown, how_far)

    def _parts_left(self) -> int:
        tallies = [problem.tally for problem in self._problems.values()]
        return sum(of_all - done for done, of_all in tallies)

    def _is_alone(self, part: Part) -> bool:
        return self._problems[part.task.place].is_limited

    def _is_needless(self, part: Part) -> bool:
        return self._problems[part.task.place].is_needless(part)

    def _keep(self, part: Part, report: bytes) -> bool:
        """Takes a part that is done; the problem's report is made with its last one.

        Returns whether others no longer matter.
        """
        if self._is_needless(part):
            return False
        problem = self._problems[part.task.place]
        self._journal.keep_part(part, report)
        fewer = problem.keep(part, report)
        self._show(problem)
        self._join(problem)
        return fewer

    def _join(self, problem: SplitProblem) -> None:
        """Hands on the report of a problem whose parts are done."""
        task = problem.task
        if not problem.is_done:
            return
        report = problem.report(self._journal.part)
        # What pops wrote in its first moments is how the report begins.
        if self._journal.has_unfinished(task.place):
            if not report.startswith(self._journal.report(task.place)):
                reason = "its parts don't make the report that pops begins"
                self._failed[task.place] = (task, reason)
                return
        self._finish(Result(task, SOUND, report))

    def _run_here(self, parts: Sequence[Part], jobs: int) -> None:
        self._batches = Batches(parts, self._is_alone)
        in_threads(self._work, min(jobs, len(parts)), self._program.stop)

    def _next_batch(self) -> Optional[Batch]:
        with self._lock:
            return None if self._program.is_stopped else self._batches.next(self._is_needless)

    def _work(self) -> None:
        """Goes through batches as long as there are any."""
        while (batch := self._next_batch()) is not None:
            self._go_through(batch)
            with self._lock:
                self._batches.end(batch)

    def _go_through(self, batch: Batch) -> None:
        """Takes what comes of the parts of a batch.

        A part that fails is tried again with the parts after it, and then skipped.
        """
        tried = 0
        while batch:
            try:
                for part, report in self._program.reports(batch):
                    self._take(part, report)
                    tried = 0
            except RunError as error:
                tried += 1
                is_over = self._program.is_over(batch.first)
                if tried < TRIES and not is_over:
                    self._progress.say(f"{batch.first.shown}: {error}; tried again")
                    continue
                with self._lock:
                    self._fail([batch.pass_first()], str(error))
                tried = 0
                if is_over:
                    return

    def _take(self, part: Part, report: bytes) -> None:
        """Keeps what came of a part, and stops the runs whose parts no longer matter by it."""
        with self._lock:
            if self._keep(part, report):
                for left in self._batches.at_work:
                    if left and all(map(self._is_needless, left)):
                        self._program.drop(left[0])

    def lines_found(self, place: int) -> Optional[tuple[bytes, str]]:
        """Returns what is known of an unfinished problem in parts, and how far it is, or None."""
        problem = self._problems.get(place)
        if problem is None:
            return None
        first = self._journal.report(place) if self._journal.has_unfinished(place) else b""
        lines = problem.lines_found(self._journal.part, self._program.begun, first)
        done, of_all = problem.tally
        return lines, f"stopped with {done} of {of_all} parts done"
