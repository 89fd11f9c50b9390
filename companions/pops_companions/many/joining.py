"""Joins the reports in the order of the problems: on standard output, in a file, in many files."""

import os
from collections.abc import Callable, Iterator, Sequence
from typing import BinaryIO, NamedTuple, Optional

from pops_companions import files
from pops_companions.many.journal import Journal, Kept
from pops_companions.many.targets import Target, UnfinishedTarget
from pops_companions.many.tasks import Task, Tasks
from pops_companions.report import lines

_COLUMNS = ("start", "bytes", "status", "problem", "line", "file")


class Report(NamedTuple):
    """A report that is to be written, with a second file for its unfinished problems.

    Without a file it goes to standard output.
    """

    tasks: Tasks
    file: Optional[Target]
    unfinished: Optional[UnfinishedTarget]


def path_of_report(file: str, folder: Optional[str]) -> str:
    """Returns the report's file for a FILE: NAME.report for NAME.pop, next to it or in a folder."""
    path = (file[: -len(".pop")] if file.endswith(".pop") else file) + ".report"
    return path if folder is None else os.path.join(folder, os.path.basename(path))


class Joined:
    """The reports of a run. Each file is written once all of its problems are done or stopped.

    On standard output a problem is written once it and all before it are done or stopped.
    Unfinished problems are left out.
    """

    def __init__(self, journal: Journal, reports: Sequence[Report], output: BinaryIO):
        self._journal = journal
        self._reports = reports
        self._output = output
        # (one report needs no table)
        self._report_of: dict[int, Report] = {}
        for report in reports if len(reports) > 1 else ():
            self._report_of.update(dict.fromkeys(report.tasks.places, report))
        self._unsettled = {id(report): len(report.tasks) for report in reports}
        self._to_write = {id(report) for report in reports if report.tasks}
        self._streamed = 0
        # Returns what is known of an unfinished problem in parts, and how far it is.
        self.in_parts: Callable[[int], Optional[tuple[bytes, str]]] = lambda place: None
        # Whether files wait for `write_held`: other machines say only at the end what they had.
        self.holds_files = False
        # Raises what keeps a report from being written to its file.
        self.refuse: Callable[[], None] = lambda: None

    def begin(self) -> None:
        """Writes what is due before the first run."""
        for report in self._reports if self._journal.kept else ():
            for place in filter(self._journal.is_settled, report.tasks.places):
                self.settle(place)

    def settle(self, place: int, tasks: int = 1) -> None:
        """Writes what is due now that some tasks of a report are done or stopped."""
        report = self._report_of[place] if self._report_of else self._reports[0]
        self._unsettled[id(report)] -= tasks
        if report.file is None:
            self._stream(report)
        if self._is_due(report) and not (report.file is not None and self.holds_files):
            self._close(report)

    def write_held(self) -> None:
        """Writes the files that were held back."""
        self.holds_files = False
        for report in self._reports:
            if id(report) in self._to_write and self._is_due(report):
                self._close(report)

    def _close(self, report: Report) -> None:
        """Writes the file of a report, where it has one: nothing of the report is left to write."""
        if report.file is not None:
            self._write(report, report.file)
        self._to_write.remove(id(report))

    def _is_due(self, report: Report) -> bool:
        # (a report that lacks a task is never complete, so that the journal stays)
        is_counted = self._unsettled[id(report)] == 0
        return is_counted and all(map(self._journal.is_settled, report.tasks.places))

    def _stream(self, report: Report) -> None:
        before = self._streamed
        while self._streamed < len(report.tasks):
            place = report.tasks.places[self._streamed]
            if not self._journal.is_settled(place):
                break
            self._streamed += self._copy(place, self._output)
        if self._streamed > before:
            self._output.flush()

    def _copy(self, place: int, output: BinaryIO) -> int:
        """Writes the record that begins with a task; returns how many tasks it has."""
        if not self._journal.is_finished(place):
            return 1
        output.writelines(self._journal.pieces(place))
        return self._journal.kept[place].tasks

    def _write(self, report: Report, target: Target) -> None:
        self.refuse()
        if self._is_empty(report):
            return
        done = 0
        with target.opened() as file:
            while done < len(report.tasks):
                done += self._copy(report.tasks.places[done], file)

    def _is_empty(self, report: Report) -> bool:
        """Whether pops could open no FILE of the report, which then replaces nothing."""
        journal = self._journal
        return all(
            journal.is_finished(it) and it in journal.kept and not journal.kept[it].length
            for it in report.tasks.places
        )

    @property
    def complete(self) -> bool:
        """Whether all reports are written."""
        return not self._to_write

    def write_unfinished(self) -> list[str]:
        """Writes what is kept of unfinished problems; returns the files. Older files are removed.

        OSError if a file can't be written, or another program's file has got its name meanwhile.
        """
        written = []
        for report in self._reports:
            if report.unfinished is None:
                continue
            tasks = report.tasks.only(list(filter(self.has_unfinished, report.tasks.places)))
            if not tasks:
                report.unfinished.remove()
                continue
            if report.unfinished.is_foreign:
                raise FileExistsError(None, report.unfinished.refusal)
            with report.unfinished.opened() as file:
                if report.file is not None and not report.unfinished.is_device:
                    files.restrict(file.fileno(), report.file.path)
                for task in tasks:
                    file.writelines(self._marked(task))
            written.append(report.unfinished.path)
        return written

    def has_unfinished(self, place: int) -> bool:
        """Returns whether something is known of a problem that isn't done."""
        if self._journal.is_finished(place):
            return False
        return self._journal.has_unfinished(place) or self.in_parts(place) is not None

    def _marked(self, task: Task) -> Iterator[bytes]:
        """Yields the lines of an unfinished problem, with a last line that says so."""
        known = self.in_parts(task.place)
        if known is None:
            yield from self._journal.pieces(task.place)
            how_far = f"stopped after {self._journal.kept[task.place].seconds:g} s"
        else:
            text, how_far = known
            yield text
        yield lines.UNFINISHED + os.fsencode(f"{how_far} ({lines.in_a_line(task.where)})\n\n")


def write_index(target: Target, tasks: Tasks, journal: Journal) -> None:
    """Writes a table of the items of a report on all tasks: their places and their sources."""
    # (loaded only by runs that need it)
    from pops_companions.tables import row_of

    start = place = 0
    with target.opened() as file:
        file.write(row_of(_COLUMNS).encode("ascii"))
        while place < len(tasks):
            if not journal.is_finished(place):
                place += 1
                continue
            kept = journal.kept[place]
            for length, status in _items_of(journal, place, kept):
                task = tasks[place]
                piece = task.piece
                number, line = ("", "") if piece is None else (piece.number, piece.line)
                row = (start, length, status, number, line, task.source.shown)
                file.write(os.fsencode(row_of(row)))
                start += length
                place += 1


def _items_of(journal: Journal, place: int, kept: Kept) -> list[tuple[int, int]]:
    """Returns the lengths of the reports of the tasks of a record, and their exit statuses."""
    if kept.tasks == 1:
        return [(kept.length, kept.status)]
    items = journal.report(place).split(lines.ITEM_END)[:-1]
    return [(len(item) + len(lines.ITEM_END), _status_of(item)) for item in items]


def _status_of(item: bytes) -> int:
    """Returns the exit status of a task of a record, which has the greatest of all its tasks."""
    return int(lines.FAULT.match(item.partition(b"\n")[2]) is not None)
