"""The runs of a sheet: each problem by itself, some at a time, each with its seconds."""

import io
import os
from collections.abc import Sequence
from dataclasses import replace
from typing import Optional

from pops_companions.command import DeviceError
from pops_companions.input.pieces import cut
from pops_companions.many.child_process import MOST_OUTPUT, wrote_more
from pops_companions.many.local import for_each, run_locally
from pops_companions.many.program import Program
from pops_companions.many.progress import Progress
from pops_companions.many.tasks import UNFINISHED, Result, Source, tasks_of
from pops_companions.many.tries_program import TriesProgram
from pops_companions.report import lines
from pops_companions.report.items import AnyItem, FaultyItem
from pops_companions.report.reader import read_unfinished_report
from pops_companions.report.tries import TriesItem
from pops_companions.review.kept_text import tries_of_text


class Solving:
    """Runs of both programs on the problems of a text; on a terminal it shows how far they are."""

    def __init__(self, companion: str, text: bytes, jobs: Optional[int], seconds: Optional[float]):
        """A problem has `seconds` in each program, if there is a limit."""
        self._companion = companion
        self._text = text
        self._jobs = jobs or len(os.sched_getaffinity(0))
        self._seconds = seconds

    def items(self, pops: str) -> list[AnyItem]:
        """Returns the items of the report, also of problems that took too long."""
        program = Program(pops, [], self._seconds)
        tasks = tasks_of([Source(None, self._text)])
        results: list[Result] = []
        progress = Progress(self._companion)
        progress.begin(0, len(tasks))

        def keep(result: Result) -> None:
            results.append(result)
            progress.more(result.tasks)

        try:
            failed = run_locally(program, tasks, self._jobs, keep, progress.wait_on)
        finally:
            progress.end()
        for task, reason in failed:
            raise DeviceError(f"{task.shown}: {reason}")
        results.sort(key=lambda result: result.task.place)
        report = b"".join(map(_marked, results))
        return list(read_unfinished_report(io.BytesIO(report)))

    def tries(
        self, program: TriesProgram, wanted: Sequence[int]
    ) -> tuple[dict[int, TriesItem], list[int]]:
        """Returns the tries of these problems by their numbers, and those that took too long."""
        pieces = {piece.number: piece for piece in cut(self._text)}
        progress = Progress(f"{self._companion}: tries")
        progress.begin(0, len(wanted))
        texts: dict[int, Optional[bytes]] = {}

        def text_of(number: int) -> Optional[bytes]:
            return program.text_of(pieces[number].alone(self._text, False))

        def take(number: int, text: Optional[bytes]) -> None:
            texts[number] = text
            progress.more()

        try:
            with progress.beating():
                for_each(wanted, text_of, self._jobs, program.stop, take)
        finally:
            progress.end()
        found = {number: _item_of(text, number) for number, text in texts.items() if text is not None}
        return found, [number for number in wanted if texts[number] is None]


def _item_of(text: bytes, number: int) -> TriesItem:
    """Returns what pops-tries shows of a problem."""
    found = list(tries_of_text("the output of pops-tries", [text]))
    one = found[0] if len(found) == 1 else None
    if not isinstance(one, TriesItem):
        is_faulty = isinstance(one, FaultyItem)
        said = "calls it faulty, and pops sound" if is_faulty else "shows another problem"
        raise DeviceError(f"problem {number}: pops-tries {said}")
    return replace(one, number=number)


def _marked(result: Result) -> bytes:
    """Returns a problem's report; that of an unfinished one ends in a line that says so."""
    if result.spooled is not None:
        raise DeviceError(f"{result.task.shown}: {wrote_more(MOST_OUTPUT)}")
    if result.status != UNFINISHED:
        return result.report
    return result.report + lines.UNFINISHED + b"%g s\n\n" % (result.seconds or 0.0)
