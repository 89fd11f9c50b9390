"""Programs on this machine: where they are, and runs of them."""

import os
import signal
import subprocess
import sys
import threading
from collections.abc import Callable, Generator, Iterator, Sequence
from contextlib import ExitStack, closing
from typing import IO, NoReturn, Optional
from weakref import WeakSet

from pops_companions import places
from pops_companions.command import DeviceError
from pops_companions.many.bundle_run import BundleRun, Came
from pops_companions.many.bundles import Bundles
from pops_companions.many.child_process import (
    MOST_ROOM,
    MOST_SPOOLED,
    PAUSE,
    ChildProcess,
    Outcome,
    Stream,
    has_room,
    outcome_of,
    refuse_unlisted,
    wrote_more,
)
from pops_companions.many.tasks import (
    HEAD,
    UNFINISHED,
    Result,
    Task,
    has_ended,
    whole_lines,
)
from pops_companions.places import COMPANIONS, REPOSITORY, folder_above
from pops_companions.report import lines

# A run of pops ends with one of these where every byte of its report was written.
SOUND, FAULTY = 0, 1
# The bytes that a program may say into a file, where what it writes is read piece by piece.
MOST_ERRORS = 1 << 26
# How many of these are shown.
MOST_SHOWN = 1 << 12
# A run of pops on a file that it can't open ends with this.
UNREADABLE = 3

_PIECE = 1 << 16
# The most runs at a time that have room for what they write in a pause: pipes take little in all.
_MOST_WITH_ROOM = 16

LOOKED_FOR = (
    "the program (default: $POPS, the one built in this repository or released with its sources,"
    " the one installed with the companions (../../../bin/pops from their folder, or by pip), the one"
    " on the PATH); nothing is built"
)


class MissingError(DeviceError):
    """No program was found, with what to do."""


class RunError(DeviceError):
    """A run that came to no end, with the reason."""


class OutputRunError(RunError):
    """A run whose output can't be kept: another one would end in the same way."""


def first_found(
    name: str, named: Optional[str], others: Iterator[Optional[str]]
) -> Optional[str]:
    """Returns the program that is named, else the one of its variable, as $POPS_PART for pops-part, else
    the first of others. MissingError where one that is named is nowhere.
    """
    named = named or os.environ.get(name.upper().replace("-", "_"))
    found = places.found(named) if named else next(filter(None, others), None)
    if named and found is None:
        raise MissingError(f"there is no program {named}")
    return found and without_script(found, name)


def find(named: Optional[str]) -> str:
    """Finds the program as LOOKED_FOR says; builds none. MissingError where it is nowhere."""

    def others() -> Iterator[Optional[str]]:
        yield _of_sources(REPOSITORY, "pops")
        # (as ./install and pip install it)
        if COMPANIONS.endswith("/share/pops/companions"):
            yield places.found(os.path.join(folder_above(COMPANIONS, 3), "bin", "pops"))
        else:
            yield places.program("pops")
        yield places.found("pops")

    return first_found("pops", named, others()) or _missing("pops", "")


def find_part_program(named: Optional[str], pops: str) -> str:
    """Returns the program of parts: as named, $POPS_PART, from the repository of pops or beside it,
    from this repository, or on the PATH.
    """
    name = "pops-part"

    def others() -> Iterator[Optional[str]]:
        folder = folder_above(os.path.realpath(pops))
        # (built in crates/pops/out, or released in release)
        repositories = list(filter(_is_repository, (folder_above(folder, 3), folder_above(folder))))
        if not repositories:
            yield places.found(os.path.join(folder, name))
        for repository in (*repositories, REPOSITORY):
            yield _of_sources(repository, name)
        yield places.found(name)

    return first_found(name, named, others()) or _missing(name, ", for --split")


def _missing(name: str, use: str) -> NoReturn:
    if _is_repository(REPOSITORY):
        raise _unbuilt(REPOSITORY, name)
    raise MissingError(f"there is no program {name}{use}: name it with --{name}")


def _is_repository(folder: str) -> bool:
    return os.path.isdir(os.path.join(folder, "crates", "pops"))


def _of_sources(repository: str, name: str) -> Optional[str]:
    """Returns the program of a repository's sources, built or released, if there is one."""
    script = os.path.join(repository, "scripts", "find-program")
    if not _is_repository(repository) or not os.path.isfile(script):
        return None
    found = outcome_of([script, name])
    for line in os.fsdecode(found.errors).splitlines():
        # (where it can't start a process, bash says more)
        if line.startswith("pops: ") and sys.stderr is not None:
            print(line, file=sys.stderr)
    return os.fsdecode(found.output).removesuffix("\n") or None


def without_script(found: str, name: str) -> str:
    """Returns what was found; for a repository's script, which may build, the program of its
    sources.
    """
    folder = folder_above(os.path.realpath(found))
    if not _is_repository(folder):
        return found
    program = _of_sources(folder, name)
    if program is None:
        raise _unbuilt(folder, name)
    return program


def _unbuilt(repository: str, name: str) -> MissingError:
    words = [f"{repository}/{name}", f"{repository}/examples/mate_in_one.pop"]
    if name != "pops":
        words.insert(1, "--list")
    return MissingError(
        f"there is no {name} of these sources: build it by {' '.join(words)},"
        f" or name one with --{name}"
    )


class Runs:
    """Runs of a program; `stop` ends all runs and lets none begin."""

    def __init__(self, name: str, words: Sequence[str]):
        self._name = name
        self._words = list(words)
        # (who has read a run to its end drops it, and then it is none of these)
        self._running: WeakSet[ChildProcess] = WeakSet()
        self._lock = threading.Lock()
        self.is_stopped = False
        # Looks whether the program is another one now.
        self.look: Callable[[], object] = lambda: None

    def _started(
        self,
        words: Sequence[str],
        source: Stream,
        errors: Stream,
        output: Stream = subprocess.PIPE,
    ) -> ChildProcess:
        """Starts it with more words."""
        with self._lock:
            if self.is_stopped:
                raise RunError("stopped")
            try:
                refuse_unlisted(self._words[0])
                child = ChildProcess([*self._words, *words], source, errors, output=output)
            except OSError as error:
                raise RunError(f"{self._name} can't be run: {error.strerror}") from None
            self._running.add(child)
            self.look()
            return child

    def _ended(
        self,
        child: ChildProcess,
        text: Optional[bytes],
        seconds: Optional[float],
        spooled_if: Optional[bytes] = None,
    ) -> Outcome:
        """Returns how a run ended, at the latest after `seconds`. OutputRunError where it wrote more than
        can be kept.
        """
        try:
            return child.outcome(text, seconds, spooled_if)
        except OSError as error:
            raise OutputRunError(f"{self._name} was ended: {error.strerror}") from None

    def outcome(
        self,
        words: Sequence[str],
        text: bytes,
        seconds: Optional[float] = None,
        spooled_if: Optional[bytes] = None,
    ) -> Outcome:
        """Runs it with more words on a text, at most for `seconds`. RunError where it can't be run."""
        child = self._started(words, subprocess.PIPE, subprocess.PIPE)
        return self._ended(child, text, seconds, spooled_if)

    def in_time(self, words: Sequence[str], text: bytes, seconds: float) -> Outcome:
        """Runs it as `outcome` does. RunError where it takes more seconds."""
        run = self.outcome(words, text, seconds)
        if not run.in_time:
            raise RunError(f"{self._name} took more than {seconds:g} s")
        return run

    def begin(self, words: Sequence[str], errors: IO[bytes]) -> ChildProcess:
        """Starts a run that is read piece by piece; what it says goes to a file, up to MOST_ERRORS."""
        child = self._started(words, subprocess.PIPE, errors)
        child.limit_files(MOST_ERRORS)
        return child

    def output(
        self,
        child: ChildProcess,
        text: Optional[bytes] = None,
        pause: Callable[[], int] = lambda: PAUSE,
    ) -> Generator[bytes, None, None]:
        """Yields what a run writes, as `ChildProcess.pieces` does."""
        with closing(child.pieces(text, pause=pause)) as pieces:
            for _, piece in pieces:
                yield piece

    def why(self, child: ChildProcess, errors: IO[bytes]) -> str:
        """Returns why a run that was begun failed, with the first of what it said."""
        errors.seek(0)
        return self._reason(child.run.returncode, errors.read(MOST_SHOWN), MOST_ERRORS)

    def _reason(self, status: int, error: bytes, most: int = MOST_SPOOLED) -> str:
        """Returns why a run failed that could write `most` bytes into a file."""
        if status == -signal.SIGXFSZ:
            return f"{self._name} was ended: {wrote_more(most)}"
        if status < 0:
            return f"{self._name} was ended by signal {-status}"
        said = error.decode("utf-8", "replace").strip()
        return f"{self._name} ended with status {status}" + (f": {said}" if said else "")

    def stop(self) -> None:
        """Ends all runs at hand; later ones are refused."""
        with self._lock:
            self.is_stopped = True
            for child in self._running:
                child.kill()


class Program(Runs):
    """pops with the options of its runs.

    A run on one problem is stopped after `seconds`, if there is a limit.
    """

    def __init__(self, path: str, options: Sequence[str], seconds: Optional[float]):
        super().__init__("pops", [path, *options])
        self.path = path
        self.seconds = seconds

    def solve(self, task: Task) -> Result:
        """Runs a task. RunError where pops didn't come to its end, but for its time."""
        if task.pieces is None:
            return self._whole(task)
        run = self.outcome([], task.text, self.seconds, HEAD)
        if run.spooled is not None:
            return self._spooled(task, run, run.spooled)
        return self.told_anew(task, *self._of(run))

    def solve_bundle(self, bundle: Sequence[Task], bundles: Bundles) -> Came:
        """Runs a bundle in one process; what it doesn't solve goes back to the bundles."""
        child = self._started([], subprocess.PIPE, subprocess.DEVNULL)
        if len(self._running) <= _MOST_WITH_ROOM:
            has_room(child.run.stdout, MOST_ROOM)
        if self.seconds is not None:
            child.limit(self.seconds * len(bundle))
        return BundleRun(child, bundle, self.seconds, bundles).go()

    def told_anew(self, task: Task, status: int, report: bytes) -> Result:
        """Returns the result of a first run; for the line of a fault it runs the problem again, here.
        """
        if task.wants_line_ends(report):
            status, report = self._of(self.outcome([], task.text_with_line_ends, self.seconds))
        if status == UNFINISHED:
            return Result(task, status, task.numbered(whole_lines(report)), self.seconds)
        return Result(task, status, task.numbered(report))

    def report(self, text: bytes, seconds: float) -> bytes:
        """Returns the report of one problem. RunError where it takes more seconds."""
        return self._of(self.in_time([], text, seconds))[1]

    def _of(self, run: Outcome) -> tuple[int, bytes]:
        """Status and report of a run on one problem; UNFINISHED where its time was over."""
        if has_ended(run.status, run.output):
            return run.status, run.output
        if not run.in_time:
            return UNFINISHED, run.output
        raise RunError(self._reason(run.status, run.errors))

    def _spooled(self, task: Task, run: Outcome, file: IO[bytes]) -> Result:
        """Returns the result of a run on one problem whose report is in a file."""
        size = os.fstat(file.fileno()).st_size
        end = os.pread(file.fileno(), _PIECE, max(size - _PIECE, 0))
        status, seconds = run.status, None
        if run.status != SOUND or not end.endswith(lines.ITEM_END):
            if run.in_time:
                raise RunError(self._reason(run.status, run.errors))
            status, seconds = UNFINISHED, self.seconds
            os.ftruncate(file.fileno(), size - len(end) + len(whole_lines(end)))
        return Result(task, status, task.numbered(HEAD), seconds, spooled=file, skipped=len(HEAD))

    def _whole(self, task: Task) -> Result:
        """Returns a source that is left to pops, whose report is in a file without a name.

        What it says goes to standard error, unless the file was reported already.
        """
        # (loaded only by runs that need it)
        import tempfile

        name, text = task.source
        errors = subprocess.DEVNULL if text is None else None
        source = subprocess.PIPE
        if name is not None:
            # (pops takes no name that isn't UTF-8)
            try:
                source = os.open(name, os.O_RDONLY | os.O_CLOEXEC)
            except OSError:
                return Result(task, UNREADABLE, b"")
        with ExitStack() as opened:
            try:
                report = opened.enter_context(tempfile.TemporaryFile())
                child = self._started([], source, errors, report)
            finally:
                if name is not None:
                    os.close(source)
            child.limit_files(MOST_SPOOLED)
            run = self._ended(child, text, None)
            if run.status < 0:
                raise RunError(self._reason(run.status, b""))
            # (it stays open as long as the result)
            opened.pop_all()
        return Result(task, run.status, b"", spooled=report)
