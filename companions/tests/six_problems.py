"""Six problems for pops-many, a program in the place of pops, and what of it runs still."""

import os
import signal
import subprocess
import sys
import time
import unittest
from collections.abc import Callable
from pathlib import Path

from pops_companions.many import sessions
from tests import support
from tests.stand_ins import stand_in

SIX = (
    b"BeginProblem"
    + b"NextProblem".join(
        b"\nTitle number %d\nPieces White Kg6 R%s1 Black Kg8\nStipulation #1\n" % (number, file)
        for number, file in enumerate((b"a", b"b", b"c", b"d", b"e", b"g"), start=1)
    )
    + b"EndProblem\n"
)

# A program in the place of pops that notes each run, and does something else on one problem.
_STAND_IN = """text=$(cat)
echo run >> "{room}/runs"
case $text in
  *"number 4"*) {then} ;;
esac
printf '%s' "$text" | "{pops}" "$@"
"""


def wait_for(seen: Callable[[], object]) -> None:
    """Waits until something is seen."""
    until = time.monotonic() + support.PATIENCE
    while not seen():
        assert time.monotonic() < until, "it never came"
        time.sleep(0.02)


def _fields(folder: Path) -> list[bytes]:
    """What the system knows of a process, from its state on; nothing where it is gone."""
    try:
        return (folder / "stat").read_bytes().rpartition(b")")[2].split()
    except OSError:
        return []


def _started_by(process: int) -> list[Path]:
    folders = Path("/proc").glob("[0-9]*")
    wanted = str(process).encode()
    return [folder for folder in folders if _fields(folder)[1:2] == [wanted]]


def _words(folder: Path) -> bytes:
    """The words of a process; nothing where it has ended."""
    try:
        return (folder / "cmdline").read_bytes()
    except OSError:
        return b""


def children(process: int) -> list[int]:
    """The programs that a process started and that run, but for watchers."""
    # (what was started has the words of its parent until it becomes a program)
    none = (b"", _words(Path(f"/proc/{process}")))
    return [int(it.name) for it in _started_by(process) if _words(it) not in none and not _is_watcher(it)]


def watchers(process: int) -> list[int]:
    """The watchers that a process started."""
    return [int(it.name) for it in _started_by(process) if _is_watcher(it)]


def _is_watcher(folder: Path) -> bool:
    return os.fsencode(sessions.__file__) in _words(folder)


def has_worked(process: int) -> bool:
    """Whether a process has used a tenth of a second of processor time by itself."""
    fields = _fields(Path(f"/proc/{process}"))
    return bool(fields) and int(fields[11]) >= os.sysconf("SC_CLK_TCK") // 10


def _begun(process: int) -> list[bytes]:
    """When a process began; nothing where it is gone."""
    return _fields(Path(f"/proc/{process}"))[19:20]


def end_later(test: unittest.TestCase, session: int) -> None:
    """Ends a session after a test, unless another process has its number by then."""
    begun = _begun(session)

    def end() -> None:
        if _begun(session) in ([], begun):
            sessions.end(session)

    test.addCleanup(end)


def heed_hangup() -> None:
    """A hangup ends what is started, also where these tests run under nohup."""
    signal.signal(signal.SIGHUP, signal.SIG_DFL)


class SixProblems(support.InRoom):
    """A room with an input of six problems."""

    def setUp(self) -> None:
        super().setUp()
        self.input = self.room / "six.pop"
        self.input.write_bytes(SIX)
        self.report = self.room / "six.report"
        self.journal = self.room / "six.report.journal"
        self.wanted = support.run([support.pops(), str(self.input)]).output

    def stand_in(self, then: str) -> str:
        """A program that does so on the fourth problem, and on all others what pops does."""
        return stand_in(self.room / "stand_in", self._does(then))

    def _does(self, then: str) -> str:
        return _STAND_IN.format(room=self.room, then=then, pops=support.pops())

    def stand_in_does(self, then: str) -> None:
        """Lets a stand-in, which may have been moved, do something else."""
        (self.room / "stand_in.sh").write_text(self._does(then))

    def words(self, pops: str, *more: str) -> list[str]:
        return ["--pops", pops, "--jobs", "1", "-o", str(self.report), str(self.input), *more]

    def many(self, pops: str, *more: str) -> support.Outcome:
        return support.companion("pops-many", *self.words(pops, *more))

    def started(
        self,
        *words: str,
        errors: int = subprocess.PIPE,
        before: Callable[[], None] = heed_hangup,
    ) -> "subprocess.Popen[bytes]":
        """A run of pops-many that goes on meanwhile; the test ends it with its children."""
        run = subprocess.Popen(
            [sys.executable, str(support.COMPANIONS / "pops-many"), *words],
            stdin=subprocess.DEVNULL,
            stdout=subprocess.DEVNULL,
            stderr=errors,
            preexec_fn=before,
        )
        self.addCleanup(self.ended, run)
        return run

    def ended(self, run: "subprocess.Popen[bytes]") -> None:
        if run.poll() is None:
            for child in children(run.pid):
                sessions.end(child)
            run.kill()
        run.communicate()

    def programs(self, run: "subprocess.Popen[bytes]", number: int) -> list[int]:
        """The programs that a run of pops-many has at work, once there are as many as wanted."""
        found: list[int] = []

        def are_there() -> bool:
            found[:] = children(run.pid)
            return len(found) == number

        wait_for(are_there)
        for program in found:
            end_later(self, program)
        return found

    def wait_for_end(self, session: int) -> None:
        """Waits until nothing of a session runs."""
        wait_for(lambda: not sessions.members(session))

    def kept(self) -> int:
        """How many reports the journal keeps."""
        return self.journal.read_bytes().count(b"\ntask ") if self.journal.exists() else 0

    def runs(self) -> int:
        """How many runs the stand-in noted."""
        return (self.room / "runs").read_text().count("run")

    def files(self) -> list[str]:
        """What lies in the room beside the input and the stand-in."""
        own = {"six.pop", "stand_in", "stand_in.sh", "runs"}
        return sorted(path.name for path in self.room.iterdir() if path.name not in own)
