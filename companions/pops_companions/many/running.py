"""Solves the problems that the journal lacks."""

from collections.abc import Sequence
from typing import TYPE_CHECKING, NamedTuple, Optional

from pops_companions.many.joining import Joined
from pops_companions.many.journal import Journal
from pops_companions.many.local import run_locally
from pops_companions.many.program import Program
from pops_companions.many.progress import Progress
from pops_companions.many.tasks import Result, Task, Tasks

if TYPE_CHECKING:
    # (loaded only by runs that need them: they take longer than a small run)
    from pops_companions.many.machines import Machines
    from pops_companions.many.part_program import PartProgram
    from pops_companions.many.remote_parts import RemoteParts
    from pops_companions.many.splitting import Splitting

# At most this many failed problems are reported one by one.
_FAILURES_TOLD = 10


class Programs(NamedTuple):
    """The programs on this machine: pops, and for problems in parts pops with --check and pops-part."""

    whole: Program
    checking: Optional[Program] = None
    parts: "Optional[PartProgram]" = None


class Elsewhere(NamedTuple):
    """The programs on other machines."""

    machines: "Machines"
    parts: "Optional[RemoteParts]"


class Run:
    """A run over all tasks that the journal lacks.

    With programs of parts, problems that take long are cut up once all others are done.
    """

    def __init__(
        self,
        tasks: Tasks,
        programs: Programs,
        journal: Journal,
        joined: Joined,
        progress: Progress,
    ):
        self._journal = journal
        self._joined = joined
        self._progress = progress
        self._program = programs.whole
        self._splitting: "Optional[Splitting]" = None
        if programs.checking is not None and programs.parts is not None:
            from pops_companions.many.splitting import Splitting

            cutting = programs.checking, programs.parts
            self._splitting = Splitting(*cutting, journal, progress, self._settle)
            joined.in_parts = self._splitting.lines_found
        # (all where nothing is kept: then they are neighbours)
        left = tasks.places
        if journal.kept:
            left = [place for place in left if not journal.is_settled(place)]
        progress.begin(len(tasks) - len(left), len(tasks))
        long = list(filter(self._is_long, left)) if self._splitting and journal.kept else []
        self._long: list[Task] = list(tasks.only(long))
        if long:
            left = sorted(set(left).difference(long))
        self._left = tasks.only(left)

    def _is_long(self, place: int) -> bool:
        """Returns whether an earlier run found that a problem takes longer than a moment."""
        if not self._journal.has_unfinished(place):
            return False
        had, moment = self._journal.kept[place].seconds, self._program.seconds
        return had is not None and moment is not None and had >= moment

    def _settle(self, result: Result) -> None:
        self._journal.keep(result)
        self._joined.settle(result.task.place, result.tasks)
        self._progress.more(result.tasks)

    def _keep(self, result: Result) -> None:
        if result.seconds is not None and self._splitting is not None:
            self._journal.keep(result)
            self._long.append(result.task)
        else:
            self._settle(result)

    def go(self, elsewhere: Optional[Elsewhere], jobs: int) -> None:
        """Runs what is left, and reports what failed."""
        self._joined.begin()
        if self._splitting is not None:
            self._splitting.cut(self._long)
        here: Sequence[Task] = self._left
        failed: list[tuple[Task, str]] = []
        if elsewhere is not None:
            takes = elsewhere.machines.takes
            here = [task for task in self._left if not takes(task)]
            there = [task for task in self._left if takes(task)]
            failed.extend(elsewhere.machines.run(there, self._keep))
        failed.extend(run_locally(self._program, here, jobs, self._keep, self._progress.wait_on))
        if self._splitting is not None:
            self._splitting.cut(sorted(self._long, key=lambda task: task.place))
            self._splitting.run(elsewhere.parts if elsewhere else None, jobs)
            failed.extend(self._splitting.failed)
        for task, reason in failed[:_FAILURES_TOLD]:
            self._progress.say(f"{task.shown}: {reason}")
        if len(failed) > _FAILURES_TOLD:
            self._progress.say(f"and {len(failed) - _FAILURES_TOLD} more")
