"""Solves many problems on all processors, and on other machines, as one run of pops would."""

import hashlib
import os
import sys
from collections.abc import Callable, Sequence
from contextlib import ExitStack, suppress
from itertools import chain
from typing import TYPE_CHECKING, BinaryIO, Optional, Union

from pops_companions import command
from pops_companions.command import CommandError, DeviceError, Status
from pops_companions.commands.many_options import (
    NAME,
    SPLIT_AFTER,
    Settings,
    arguments,
    depth_of,
    moment_of,
)
from pops_companions.files import Links
from pops_companions.many.identity import Known
from pops_companions.many.joining import Joined, Report, path_of_report, write_index
from pops_companions.many.journal import DamagedError, Journal, Origin, fingerprint
from pops_companions.many.program import MissingError, Program, find, find_part_program
from pops_companions.many.progress import Progress
from pops_companions.many.running import Elsewhere, Programs, Run
from pops_companions.many.targets import Target, UnfinishedTarget
from pops_companions.many.tasks import Input, Source, Tasks, tasks_of
from pops_companions.places import folder_above

if TYPE_CHECKING:
    # (loaded only by runs that need it)
    from pops_companions.many.part_program import PartProgram

_FILES_TOLD = 3
# What the file's name ends in that has what was found of problems that aren't done.
UNFINISHED = ".unfinished"


def read_source(name: Optional[str], progress: Progress) -> Source:
    """Reads a whole input.

    One that can't be opened or read is reported and left to pops.
    """
    try:
        if name is None:
            source = Source(None, command.read_all(None))
        else:
            with open(name, "rb") as file:
                source = Source(name, b"".join(command.limited(file, name)))
    except OSError as error:
        if name is None:
            raise
        progress.say(f"cannot open {name}: {error.strerror}")
        return Source(name, None)
    return source


def say_of_rests(inputs: Sequence[Input], progress: Progress) -> None:
    """Says of each input what follows its EndProblem."""
    for source, pieces, _ in inputs:
        if pieces is not None and source.text is not None and not pieces.end_text:
            from pops_companions.input.pieces import rest_after

            rest = rest_after(source.text, pieces.at(len(pieces) - 1))
            if rest is not None:
                progress.say(f"{source.shown}: {rest.text}")


def reports_of(settings: Settings, tasks: Tasks, journal: str, run: bytes) -> list[Report]:
    """Returns the reports that are to be written, with their files."""
    limited = settings.seconds is not None or settings.split or settings.resume
    links = Links.REPLACED if settings.each else settings.links

    def report(tasks: Tasks, path: Optional[str]) -> Report:
        second = None
        if settings.unfinished and limited:
            second = UnfinishedTarget(settings.unfinished, run)
        elif path and limited and (settings.each or settings.report):
            second = UnfinishedTarget(path + UNFINISHED, run, Links.REPLACED)
        elif settings.split:
            second = UnfinishedTarget(journal + UNFINISHED, run, Links.REPLACED)
        return Report(tasks, Target(path, run, links) if path else None, second)

    if not settings.each:
        return [report(tasks, settings.output)]
    if settings.output:
        os.makedirs(settings.output, exist_ok=True)
    # What pops says of a FILE that can't be read goes to standard output.
    unread = [it.first for it in tasks.inputs if it.source.text is None]
    reports = {"": Report(tasks.only(unread), None, None)}
    for read in tasks.inputs:
        if read.source.text is not None:
            path = path_of_report(str(read.source.name), settings.output)
            if path in reports:
                raise CommandError(Status.USAGE, f"two FILEs have the report {path}")
            reports[path] = report(tasks.only(read.places), path)
    return list(reports.values())


def path_of_journal(settings: Settings) -> str:
    """Returns the journal that is named, else one beside the report, else a new one that is temporary."""
    if settings.journal is not None:
        return settings.journal
    if settings.report is not None:
        return settings.report.rstrip("/") + ".journal"
    folder = os.environ.get("TMPDIR", "")
    if not os.access(folder, os.W_OK | os.X_OK):
        folder = "/tmp"
    return os.path.join(os.path.abspath(folder), f"{NAME}-{os.urandom(6).hex()}.journal")


def open_journal(path: str, settings: Settings, origin: Origin, tasks: int) -> Journal:
    """Returns the run's journal; that of a run that stopped isn't overwritten."""
    try:
        if settings.journal is None and settings.report is None:
            # (only its owner reads it)
            new = os.O_CREAT | os.O_EXCL | os.O_NOFOLLOW | os.O_CLOEXEC
            os.close(os.open(path, new, 0o600))
        return Journal(path, origin, settings.resume, tasks, settings.seconds)
    except OSError as error:
        what = "open" if settings.resume else "write"
        raise DeviceError(f"cannot {what} {path}: {error.strerror}") from None


def name_of_run(journal: str, fingerprint: bytes) -> bytes:
    """Returns what the names of unfinished files end in: other runs, with other journals, have others."""
    name = os.fsencode(os.path.realpath(journal)) + b"\0" + fingerprint
    return hashlib.sha256(name).hexdigest().encode("ascii")


def note_programs(
    journal: Journal, programs: Sequence[Known], elsewhere: Optional[Elsewhere]
) -> None:
    """Notes the run's programs besides pops in its journal; refuses others than the journal has."""
    for part_program in programs[1:]:
        if not journal.is_from("pops-part", part_program.identity):
            raise CommandError(
                Status.USAGE,
                f"{journal.path} is of another pops-part: name that one with --pops-part, or remove it",
            )
    if elsewhere is not None:
        elsewhere.machines.keep_to(journal.is_from)


class StoppedError(CommandError):
    """Ends a run that a signal stopped."""


class ChangedError(CommandError):
    """Ends a run during which a program was changed: its reports may be of two."""

    def __init__(self, program: str, journal: Journal):
        to_do = f"the reports in {journal.path} may be of two programs, remove it"
        super().__init__(Status.UNFINISHED, f"{program} was changed during the run: {to_do}")
        self.program = program


def try_out(targets: Sequence[Target]) -> None:
    """Refuses a file that can't be written before anything is solved."""
    for target in targets:
        try:
            target.try_out()
        except OSError as error:
            raise DeviceError(f"cannot write {target.path}: {error.strerror}") from None


def refuse_foreign(reports: Sequence[Report]) -> None:
    """Refuses a file of unfinished problems that pops-many didn't write: it would be removed."""
    for report in reports:
        if report.unfinished is not None and report.unfinished.is_foreign:
            raise CommandError(Status.USAGE, report.unfinished.refusal)


def is_cut_unasked(settings: Settings, tasks: Tasks) -> bool:
    """Returns whether the run is of one problem alone, which is cut into parts without --split.

    The program of parts has to be of the same build as pops.
    """
    others = settings.check or settings.seconds is not None or settings.sshlogin
    if others or len(tasks) != 1 or tasks[0].pieces is None:
        return False
    try:
        pops = os.path.realpath(find(settings.pops))
        part_program = os.path.realpath(find_part_program(None, pops))
    except MissingError:
        return False
    # (in the folder of a release, or in crates/pops/out and crates/pops_part/out)
    return any(folder_above(part_program, it) == folder_above(pops, it) for it in (1, 3))


def programs_of(settings: Settings, options: list[str]) -> Programs:
    """Returns the programs on this machine."""
    pops = find(settings.pops)
    if not settings.split:
        return Programs(Program(pops, options, settings.seconds))
    from pops_companions.many.part_program import PartProgram

    part_program = PartProgram(find_part_program(settings.pops_part, pops), depth_of(settings))
    checking = Program(pops, options + ["--check"], None)
    return Programs(Program(pops, options, SPLIT_AFTER), checking, part_program)


def elsewhere_of(
    settings: Settings,
    options: list[str],
    programs: Programs,
    progress: Progress,
    opened: ExitStack,
) -> Optional[Elsewhere]:
    """Returns the programs on the machines that the command line names; `opened` closes connections."""
    if not settings.sshlogin:
        return None
    # (what small runs don't need is loaded only where it is needed)
    from pops_companions.many.machines import Machines
    from pops_companions.many.parallel import Parallel
    from pops_companions.many.remote_parts import RemoteParts

    say, parts = progress.say, programs.parts
    pops_part = settings.remote_pops_part or "pops-part"
    names = [settings.remote_pops, *([pops_part] if parts is not None else [])]
    parallel = Parallel(settings.jobs, settings.ssh, say)
    opened.callback(parallel.close)
    machines = Machines(settings.sshlogin, parallel, options, names, (programs.whole, parts), say)
    there = RemoteParts(machines, parallel, pops_part, parts, say) if parts is not None else None
    return Elsewhere(machines, there)


class Solving:
    """A run on what the command line asks for."""

    def __init__(self, settings: Settings, known: Sequence[Known], refuse: Callable[[], None]):
        """Reads the inputs and finds the programs, of which some may be known already.

        `refuse` raises what keeps the run from writing.
        """
        self._settings, self._refuse = settings, refuse
        self._options = ["--check"] * settings.check + ["--no-board"] * settings.no_board
        self._progress = Progress(NAME)
        sources = [read_source(it, self._progress) for it in command.inputs_of(settings.files)]
        self._tasks = tasks_of(sources)
        say_of_rests(self._tasks.inputs, self._progress)
        settings.split = settings.split or is_cut_unasked(settings, self._tasks)
        self._programs = programs_of(settings, self._options)
        # (pops, and pops-part where it is needed)
        whole, checking, parts = self._programs
        self._known = [known_of(it, known) for it in (whole, parts) if it is not None]
        if checking is not None:
            checking.look = whole.look
        self._jobs = settings.jobs or len(os.sched_getaffinity(0))
        if settings.split:
            whole.seconds = moment_of(settings, len(self._tasks), self._jobs)
        self._name = fingerprint(sources, self._options)

    def solve(self, output: BinaryIO) -> int:
        """Runs what is left to run; returns the exit status of the runs of pops."""
        settings = self._settings
        journal_path = path_of_journal(settings)
        name = name_of_run(journal_path, self._name)
        reports = reports_of(settings, self._tasks, journal_path, name)
        table = Target(settings.index, name) if settings.index else None
        files = [it.file for it in reports], [it.unfinished for it in reports], [table]
        targets = [target for target in chain(*files) if target is not None]
        written: list[Optional[str]] = [*(target.path for target in targets), journal_path]
        written += [None] * any(report.file is None for report in reports)
        command.refuse_shared(settings.files, written)
        refuse_foreign(reports)
        with ExitStack() as opened:
            programs, progress = self._programs, self._progress
            elsewhere = elsewhere_of(settings, self._options, programs, progress, opened)
            origin = Origin(self._name, self._known[0].identity.encode("ascii"))
            journal = open_journal(journal_path, settings, origin, len(self._tasks))
            try:
                note_programs(journal, self._known, elsewhere)
                try_out(targets)
            except CommandError:
                journal.close(kept=settings.resume)
                raise
            joined = Joined(journal, reports, output)
            status = self._solve(journal, joined, table, elsewhere)
        return status

    def _solve(
        self, journal: Journal, joined: Joined, index: Optional[Target], where: Optional[Elsewhere]
    ) -> int:
        journal.refuse = joined.refuse = lambda: self._refuse_changed(journal)
        joined.holds_files = where is not None
        try:
            return self._go(journal, joined, index, where)
        except ChangedError:
            self._progress.end()
            with suppress(OSError):
                journal.spoil()
            journal.close(kept=True)
            raise
        except DamagedError:
            self._progress.end()
            journal.close(kept=True)
            raise

    def _refuse_changed(self, journal: Journal, elsewhere: Optional[Elsewhere] = None) -> None:
        """Ends the run where one of its programs was changed meanwhile, here or on another machine."""
        self._refuse()
        changed = next((it.program for it in self._known if it.is_changed), None)
        if changed is None and elsewhere is not None:
            changed = elsewhere.machines.changed()
        if changed is not None:
            raise ChangedError(changed, journal)

    def _go(
        self, journal: Journal, joined: Joined, index: Optional[Target], where: Optional[Elsewhere]
    ) -> int:
        """Runs the tasks and writes the index; ends the command where not all is done."""
        kept_in: list[str] = []
        complete, error = False, CommandError
        try:
            try:
                run = Run(self._tasks, self._programs, journal, joined, self._progress)
                run.go(where, self._jobs)
            finally:
                kept_in = joined.write_unfinished()
            self._refuse_changed(journal, where)
            joined.write_held()
            if joined.complete and index is not None:
                write_index(index, self._tasks, journal)
            complete = joined.complete
        except KeyboardInterrupt:
            error = StoppedError
            self._progress.say("stopped")
        except BrokenPipeError:
            settings = self._settings
            journal.close(kept=settings.report is not None or settings.journal is not None)
            raise
        except OSError as fault:
            self._progress.say(f"cannot write: {command.said_of(fault)}")
        self._progress.end()
        if complete and journal.finished == len(self._tasks):
            worst = max(journal.statuses())
            journal.close(kept=False)
            return worst
        self._refuse_changed(journal)
        if kept_in:
            self._say_unfinished(joined, kept_in)
        what_is_kept = self._what_is_kept(journal, complete)
        journal.close(kept=True)
        raise error(Status.UNFINISHED, what_is_kept)

    def _say_unfinished(self, joined: Joined, kept_in: Sequence[str]) -> None:
        """Says how many problems are unfinished, and in which files their solutions are."""
        how = "aren't done" if self._settings.split else "took longer"
        unfinished = sum(map(joined.has_unfinished, self._tasks.places))
        more = f" and {len(kept_in) - _FILES_TOLD} more" if kept_in[_FILES_TOLD:] else ""
        self._progress.say(
            f"{unfinished} of {len(self._tasks)} problems {how}:"
            f" what was found of them is in {', '.join(kept_in[:_FILES_TOLD])}{more}"
        )

    def _what_is_kept(self, journal: Journal, complete: bool) -> str:
        """Returns how much is done, and how to go on."""
        more = ", and more --seconds or none" if complete else ""
        if not journal.is_there:
            return f"{journal.path} was removed while it was in use: nothing is kept"
        return (
            f"{journal.finished} of {len(self._tasks)} problems are done and kept in"
            f" {journal.path}: go on with --resume --journal {journal.path}{more}"
        )


def known_of(program: Union[Program, "PartProgram"], known: Sequence[Known]) -> Known:
    """Returns what a program is, to which it is compared after each start."""
    found = next((it for it in known if it.program == program.path), None) or Known(program.path)
    program.look = lambda: found.is_changed
    return found


def solve(
    settings: Settings,
    output: BinaryIO,
    known: Sequence[Known] = (),
    refuse: Callable[[], None] = lambda: None,
) -> int:
    """Runs all that the command line asks for; returns the exit status of the runs of pops."""
    return Solving(settings, known, refuse).solve(output)


def main(words: list[str]) -> int:
    settings = arguments(words)
    status = solve(settings, sys.stdout.buffer)
    sys.stdout.buffer.flush()
    return status
