"""The runs that a judge's sheet needs: solutions, shorter stipulations, tries and threats.

They are kept in a folder until all of them are done, so that a run that was stopped can go on.
"""

import io
import os
import sys
from collections.abc import Callable, Iterable, Iterator, Sequence
from contextlib import contextmanager, redirect_stderr, suppress
from dataclasses import dataclass, replace
from pathlib import Path
from typing import NamedTuple, NoReturn, Optional, TextIO

from pops_companions.chess.stipulation import Play
from pops_companions.command import CommandError, DeviceError, Status
from pops_companions.commands import many, many_options
from pops_companions.files import Links
from pops_companions.input.given import GivenProblem
from pops_companions.input.pieces import cut
from pops_companions.input.writing import text_of_problems
from pops_companions.many.identity import Known
from pops_companions.many.journal import is_begun
from pops_companions.many.local import for_each
from pops_companions.many.program import RunError
from pops_companions.many.tries_program import TriesProgram
from pops_companions.report.lines import in_a_line
from pops_companions.report.items import AnyItem, Board, FaultyItem, HeadlessItem, SoundItem
from pops_companions.report.reader import ReportError, read_unfinished_report
from pops_companions.report.source import UNFINISHED
from pops_companions.report.tries import TriesItem, is_of_item
from pops_companions.review.kept_text import tries_of_text
from pops_companions.review.posing import posed_problems
from pops_companions.review.work_folder import OthersError, WorkFolder
from pops_companions.sheet.boards import are_possible
from pops_companions.sheet.entries import boards_of


@dataclass(frozen=True)
class Runs:
    """How problems are solved: by which program, in how many processes, for how many seconds each.

    `tries` is the program pops-tries, if there is one.
    """

    pops: str
    tries: Optional[str]
    jobs: Optional[int]
    seconds: Optional[float]


class _Renaming(io.StringIO):
    """A terminal for what runs say, with other names of files."""

    def __init__(self, terminal: TextIO, named: Callable[[str], str]):
        super().__init__()
        self._terminal = terminal
        self._named = named

    def write(self, text: str) -> int:
        self._terminal.write(self._named(text))
        return len(text)

    def flush(self) -> None:
        self._terminal.flush()

    def isatty(self) -> bool:
        return True

    def fileno(self) -> int:
        return self._terminal.fileno()


class _Wanted(NamedTuple):
    """A problem whose tries are wanted, with its board and the input of it alone."""

    problem: GivenProblem
    board: Optional[Board]
    text: bytes

    def has(self, item: TriesItem) -> bool:
        """Returns whether an item asks for the same, on the same board if it shows one, and the men
        can make its moves.
        """
        if item.stipulation != self.problem.stipulation or item.board not in (None, self.board):
            return False
        return self.board is None or are_possible(self.board.men, item)


class Work:
    """A sheet's runs and the folder that keeps them; `collection` is its input as messages name it."""

    def __init__(self, folder: Path, runs: Runs, collection: str):
        self.folder = WorkFolder(folder)
        self._runs = runs
        self.input, self._short_input = folder / "input.pop", folder / "short.pop"
        self._collection = collection
        self.report = folder / "solutions.report"
        self.short = folder / "short.report"
        self.is_finished = True
        # The problems without tries, because pops-tries failed, with the reasons.
        self.failed: dict[int, str] = {}
        # The problems that pops-tries calls faulty.
        self._called_faulty: set[int] = set()

    def __enter__(self) -> "Work":
        return self

    def __exit__(self, *_: object) -> None:
        self.folder.close()

    def begin(self, text: bytes, resume: bool) -> None:
        """Makes the folder for an input, or takes up that of a run that was stopped."""
        tries = self._runs.tries
        programs = {"pops": Known(self._runs.pops), "pops-tries": Known(tries) if tries else None}
        self.folder.begin(text, programs, resume)

    def refuse_changed(self) -> None:
        """Ends the run where a program was changed meanwhile."""
        program = self.folder.changed
        if program is not None:
            self._drop(program)

    def _drop(self, program: str) -> NoReturn:
        """Ends the run, of which nothing is kept: its results may be of two programs."""
        self.folder.remove()
        message = f"{program} was changed during the run: nothing is kept, run it again"
        raise CommandError(Status.UNFINISHED, message)

    @contextmanager
    def read(self) -> Iterator[None]:
        """Keeps nothing of what the programs wrote, if it can't be read: a later run makes it again.

        CommandError where others changed the folder: then something else may have been read.
        """
        self.folder.refuse_others()
        try:
            yield
        except CommandError as error:
            self.folder.refuse_others()
            self.folder.empty()
            do = f"remove {self.folder.path}, and name other programs with --pops or --pops-tries"
            raise CommandError(error.status, f"{error}: {do}") from None
        self.folder.refuse_others()

    def solve(self) -> None:
        """Solves the problems."""
        self._many(self.input, self.report)

    def solve_shorter(self, given: Sequence[GivenProblem]) -> bool:
        """Looks for short solutions; returns whether any problem can have one."""
        posed = list(posed_problems(given))
        if not posed:
            return False
        text = text_of_problems(posed).encode("utf-8", "surrogateescape")
        self.folder.write(self._short_input, text)
        self._many(self._short_input, self.short)
        return True

    def named(self, text: str) -> str:
        """Returns what a run said, with the collection in place of the folder's inputs."""
        text = text.replace(str(self.input), self._collection)
        return text.replace(str(self._short_input), f"shorter stipulations of {self._collection}")

    def renamed(self, item: AnyItem) -> AnyItem:
        """Returns a problem whose reason for being unfinished names it by the collection."""
        if not isinstance(item, (HeadlessItem, SoundItem)) or item.unfinished is None:
            return item
        place = f"(problem {item.number} of {self._collection}, "
        kept = os.fsencode(in_a_line(str(self.input))).decode("utf-8", "replace")
        return replace(item, unfinished=item.unfinished.replace(f"({kept}, ", place))

    def _many(self, source: Path, report: Path) -> None:
        """Runs what pops-many runs, which goes on where it was stopped."""
        self.folder.refuse_others()
        journal = Path(f"{report}.journal")
        # (the journal has what is in it)
        self.folder.discard(Path(f"{report}{UNFINISHED}"))
        begun = self.folder.first_line(journal)
        if begun is None and self.folder.is_sealed(report):
            return
        self.folder.discard(report)
        goes_on = begun is not None and is_begun(begun)
        if not goes_on:
            # (one whose first line is cut or damaged keeps nothing)
            self.folder.discard(journal)
        self._run([*self._words(report), *["--resume"] * goes_on, "--", str(source)], report)

    def _words(self, report: Path) -> list[str]:
        """Returns the first words of a command line of pops-many."""
        # (the value of an option may begin with a dash, as the name of a sheet)
        words = [f"--pops={self._runs.pops}", f"--output={report}"]
        if self._runs.jobs is not None:
            words.append(f"--jobs={self._runs.jobs}")
        if self._runs.seconds is not None:
            words.append(f"--seconds={self._runs.seconds!r}")
        return words

    def _run(self, words: list[str], report: Path) -> None:
        """Runs pops-many with these words, for a report."""
        said = io.StringIO()
        # (on a terminal it shows how far it is)
        shown: io.StringIO = _Renaming(sys.stderr, self.named) if sys.stderr.isatty() else said
        try:
            with redirect_stderr(shown):
                settings = many_options.arguments(words)
                settings.links = Links.REPLACED
                many.solve(settings, io.BytesIO(), self.folder.programs, self.folder.refuse_moved)
            self.folder.seal(report)
        except many.StoppedError:
            raise KeyboardInterrupt from None
        except many.ChangedError as error:
            self._drop(error.program)
        except OthersError:
            raise
        except CommandError as error:
            if error.status == Status.UNFINISHED and report.is_file():
                self.is_finished = False
                return
            lines = self.named(said.getvalue()).strip().splitlines() or [str(error)]
            raise CommandError(
                Status.UNFINISHED if error.status == Status.UNFINISHED else Status.DEVICE,
                f"not all is solved; what is done is kept in {self.folder.path}:"
                f" go on with --resume ({lines[-1]})",
            ) from None

    @property
    def unfinished_problems(self) -> Optional[str]:
        """The file with what was found of problems that took too long."""
        file = f"{self.report}{UNFINISHED}"
        return file if os.path.isfile(file) else None

    def tries(self, text: bytes, given: Sequence[GivenProblem]) -> dict[int, TriesItem]:
        """Returns tries and threats of each problem of battle play, by its number."""
        if self._runs.tries is None:
            return {}
        program = TriesProgram(self._runs.tries, self._runs.seconds)
        program.look = lambda: self.folder.changed
        boards = boards_of(text)
        wanted = [
            _Wanted(problem, boards.get(problem.number), piece.alone(text, False))
            for problem, piece in zip(given, cut(text))
            if problem.stipulation is not None and problem.stipulation.play is not Play.HELP
        ]
        jobs = self._runs.jobs or len(os.sched_getaffinity(0))
        found: dict[int, TriesItem] = {}

        def take(one: _Wanted, item: Optional[TriesItem]) -> None:
            if item is not None:
                found[one.problem.number] = item

        for_each(wanted, lambda one: self._tries_of(program, one), jobs, program.stop, take)
        return found

    def _tries_of(self, program: TriesProgram, wanted: "_Wanted") -> Optional[TriesItem]:
        """Returns what pops-tries shows of a problem; its text is kept for a run that goes on.

        None where it is faulty, takes too long or fails.
        """
        number = wanted.problem.number
        path = self._text_of(number)
        name = f"the output of {self._runs.tries}"
        kept = self.folder.kept(path)
        try:
            text = program.text_of(wanted.text) if kept is None else kept
            if text is None:
                self.is_finished = False
                return None
            item, *others = tries_of_text(name, [text])
            if isinstance(item, FaultyItem):
                self._called_faulty.add(number)
                return None
            if others or not wanted.has(item):
                raise RunError("pops-tries shows another problem")
        except DeviceError as error:
            self.failed[number] = str(error)
            self.is_finished = False
            return None
        # (what can't be read, or is of another problem or program, isn't kept)
        if kept is None and self.folder.changed is None:
            self.folder.keep(path, text)
        return replace(item, number=number)

    def leave_out_others(self, tries: dict[int, TriesItem]) -> None:
        """Leaves out, and notes, the tries of each problem that has other keys in its report."""
        # (judging the report says where it can't be read)
        with open(self.report, "rb") as source, suppress(ReportError):
            for item in read_unfinished_report(source):
                shown = tries.get(item.number)
                if isinstance(item, SoundItem) and shown is not None and not is_of_item(shown, item):
                    del tries[item.number]
                    self.folder.discard(self._text_of(item.number))
                    self.failed[item.number] = "pops-tries shows other keys than pops"
                    self.is_finished = False

    def _text_of(self, number: int) -> Path:
        return self.folder.path / f"tries-{number}.txt"

    def compare(self, items: Iterable[Optional[AnyItem]]) -> None:
        """Notes the problems that only pops-tries calls faulty."""
        for item in items:
            if isinstance(item, SoundItem) and item.number in self._called_faulty:
                self.failed[item.number] = "pops-tries calls it faulty, and pops sound"
                self.is_finished = False

    def end(self) -> bool:
        """Removes the folder, unless a problem isn't finished; returns whether it left other files.
        """
        return self.is_finished and not self.folder.remove()
