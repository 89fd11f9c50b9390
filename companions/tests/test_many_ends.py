"""pops-many that is stopped or killed: what ends, what is left, what --resume takes up."""

import errno
import io
import os
import pty
import re
import select
import signal
import subprocess
import sys
import tempfile
import threading
import time
import unittest
from pathlib import Path
from unittest import mock

from pops_companions.commands.many import name_of_run
from pops_companions.many import sessions
from pops_companions.many.local import in_threads, run_locally
from pops_companions.many.program import Program, RunError
from pops_companions.many.progress import Progress
from pops_companions.many.tasks import Source, tasks_of
from tests import run_here, support
from tests.made_clock import made_clock
from tests.six_problems import SIX, SixProblems, end_later, has_worked, wait_for

WAITS = "sleep 6000 & sleep 6001"

# No run on it ends while a test waits, and none writes a line: a lone knight never mates.
LONG = b"""BeginProblem
Pieces White Ke1 Sb1 Black Ke8
Stipulation #16
EndProblem
"""


def ignore_hangup() -> None:
    """What nohup does."""
    signal.signal(signal.SIGHUP, signal.SIG_IGN)


class Signals(SixProblems):
    def waiting(self, *more: str, **settings: object) -> "subprocess.Popen[bytes]":
        """A run that waits on the fourth problem."""
        run = self.started(*self.words(self.stand_in(WAITS), *more), **settings)  # type: ignore
        wait_for(lambda: self.kept() == 3)
        return run

    def test_a_run_that_is_stopped_is_resumed(self) -> None:
        for sign in (signal.SIGTERM, signal.SIGHUP, signal.SIGINT):
            with self.subTest(sign.name):
                run = self.waiting()
                (child,) = self.programs(run, 1)
                run.send_signal(sign)
                error = run.communicate(timeout=support.PATIENCE)[1].decode()
                self.assertEqual(run.returncode, 6)
                self.assertEqual(
                    error,
                    "pops-many: stopped\n"
                    f"pops-many: 3 of 6 problems are done and kept in {self.journal}:"
                    f" go on with --resume --journal {self.journal}\n",
                )
                self.wait_for_end(child)
                self.assertEqual(self.files(), ["six.report.journal"])
                refused = self.many(support.pops())
                self.assertEqual(refused.status, 2)
                self.assertIn("is the journal of a run that stopped", refused.error)
                self.assertEqual(self.many(self.stand_in(":"), "--resume"), (0, b"", ""))
                self.assertEqual(self.report.read_bytes(), self.wanted)
                self.report.unlink()

    def test_children_end_with_a_run_that_is_killed(self) -> None:
        for sign in (signal.SIGKILL, signal.SIGQUIT):
            with self.subTest(sign.name):
                run = self.waiting()
                (child,) = self.programs(run, 1)
                wait_for(lambda: len(sessions.members(child)) >= 3)
                run.send_signal(sign)
                run.communicate(timeout=support.PATIENCE)
                self.assertEqual(run.returncode, -sign)
                self.wait_for_end(child)
                self.assertEqual(self.files(), ["six.report.journal"])
                self.assertEqual(self.many(self.stand_in(":"), "--resume"), (0, b"", ""))
                self.assertEqual(self.report.read_bytes(), self.wanted)
                self.report.unlink()

    def test_all_searches_end_with_a_run_that_is_killed(self) -> None:
        paths = [self.room / f"{name}.pop" for name in ("one", "two")]
        for path in paths:
            path.write_bytes(LONG)
        words = ["--pops", support.pops(), "--jobs", "2", "-o", str(self.report)]
        run = self.started(*words, *map(str, paths))
        searches = self.programs(run, 2)
        wait_for(lambda: all(map(has_worked, searches)))
        run.kill()
        run.communicate(timeout=support.PATIENCE)
        for search in searches:
            self.wait_for_end(search)

    def test_an_ignored_hangup_stays_ignored(self) -> None:
        run = self.waiting(before=ignore_hangup)
        # (a signal that is ignored leaves no trace that could be waited for)
        ignored = re.search("SigIgn:\t(.*)", Path(f"/proc/{run.pid}/status").read_text())
        assert ignored is not None
        self.assertTrue(int(ignored[1], 16) >> (signal.SIGHUP - 1) & 1)
        run.send_signal(signal.SIGHUP)
        self.assertIsNone(run.poll())
        run.send_signal(signal.SIGTERM)
        run.communicate(timeout=support.PATIENCE)
        self.assertEqual(run.returncode, 6)

    def test_a_reader_that_reads_nothing(self) -> None:
        problems, fifo = self.room / "many.pop", self.room / "fifo"
        body = SIX.removeprefix(b"BeginProblem").removesuffix(b"EndProblem\n")
        problems.write_bytes(b"BeginProblem" + b"NextProblem".join([body] * 300) + b"EndProblem\n")
        os.mkfifo(fifo)
        pipes = {"standard output": os.pipe(), "a pipe with a name": (os.open(fifo, os.O_RDWR), os.open(fifo, os.O_WRONLY))}
        for name, (reading, writing) in pipes.items():
            self.addCleanup(os.close, reading)
            self.addCleanup(os.close, writing)
            words = [sys.executable, str(support.COMPANIONS / "pops-many"), "--pops", support.pops()]
            words += ["--journal", str(self.journal), *(["-o", str(fifo)] if "name" in name else []), str(problems)]
            with self.subTest(name), subprocess.Popen(words, stdout=writing, stderr=subprocess.PIPE) as run:
                wait_for(lambda writing=writing: not select.select([], [writing], [], 0)[1])  # type: ignore[misc]
                run.send_signal(signal.SIGTERM)
                self.assertIn(b"stopped\n", run.communicate(timeout=support.PATIENCE)[1])
                self.assertEqual(run.returncode, 6)
            self.journal.unlink()

    def test_a_terminal_that_was_closed_takes_no_message_and_harms_nothing(self) -> None:
        terminal, other_side = pty.openpty()
        run = self.waiting(errors=other_side)
        os.close(other_side)
        os.close(terminal)
        run.send_signal(signal.SIGHUP)
        run.communicate(timeout=support.PATIENCE)
        self.assertEqual(run.returncode, 6)
        self.assertEqual(self.kept(), 3)
        self.assertEqual(self.files(), ["six.report.journal"])


class Journals(SixProblems):
    @unittest.skipIf(os.geteuid(), "only the superuser gives files away")
    def test_a_journal_of_another_user(self) -> None:
        self.many(self.stand_in("kill -9 $$"))
        os.chown(self.journal, 65534, -1)
        kept = self.journal.read_bytes()
        outcome = self.many(support.pops(), "--resume")
        said = f"pops-many: {self.journal} is another user's: remove it, or name another journal\n"
        self.assertEqual(outcome, (2, b"", said))
        self.assertEqual(self.journal.read_bytes(), kept)

    def test_resuming_without_a_journal_is_a_mistake(self) -> None:
        outcome = self.many(self.stand_in(":"), "--resume")
        self.assertEqual(
            outcome,
            (3, b"", f"pops-many: cannot open {self.journal}: No such file or directory\n"),
        )
        self.assertEqual(self.files(), [])
        self.journal.write_bytes(b"no journal\n")
        outcome = self.many(self.stand_in(":"), "--resume")
        self.assertEqual(
            outcome, (2, b"", f"pops-many: {self.journal} is no journal of pops-many\n")
        )
        self.assertEqual(self.journal.read_bytes(), b"no journal\n")
        self.assertEqual(self.files(), ["six.report.journal"])

    def test_a_journal_that_cannot_be_locked(self) -> None:
        """The system refuses locks, as on some file systems of a network; a run without a report has a journal too."""
        self.many(self.stand_in("kill -9 $$"))
        kept, words = self.journal.read_bytes(), self.words(support.pops())
        for number in (errno.ENOLCK, errno.ENOSYS, errno.EOPNOTSUPP):
            with self.subTest(errno.errorcode[number]):
                self.journal.write_bytes(kept)
                refused = OSError(number, os.strerror(number))
                alone = {"TMPDIR": str(self.room)}
                with mock.patch("fcntl.flock", side_effect=refused), mock.patch.dict(os.environ, alone):
                    resumed = run_here.companion("pops-many", *words, "--resume")
                    self.assertEqual(self.journal.read_bytes(), kept)
                    self.journal.unlink()
                    outcomes = resumed, *(run_here.companion("pops-many", *it) for it in (words, [str(self.input)]))
                self.assertEqual([(it.status, it.output) for it in outcomes], [(3, b"")] * 3)
                for outcome in outcomes:
                    self.assertRegex(outcome.error, rf"^pops-many: .*\.journal can't be locked: {refused.strerror}\n$")
                self.assertEqual(self.files(), [])

    def test_a_run_that_ended_before_it_kept_anything_is_resumed(self) -> None:
        self.many(self.stand_in("kill -9 $$"))
        head = self.journal.read_bytes().partition(b"\n")[0]
        for kept in (b"", head[:9]):
            self.journal.write_bytes(kept)
            self.assertEqual(self.many(self.stand_in(":"), "--resume").status, 0)
            self.assertEqual(self.files(), ["six.report"])
            (self.room / "six.report").unlink()

    def test_what_a_killed_run_left_behind_is_swept(self) -> None:
        self.many(self.stand_in("kill -9 $$"))
        run = name_of_run(str(self.journal), self.journal.read_bytes().split()[3]).decode()
        left = self.room / f"six.report.{run[:12]}"
        others = self.room / "six.report.original"
        for path in (left, others):
            path.write_bytes(b"half a repo")
        outcome = self.many(self.stand_in("kill -9 $$"), "--resume")
        self.assertEqual(outcome.status, 6)
        self.assertEqual(self.files(), ["six.report.journal", "six.report.original"])

    def test_two_runs_never_share_a_journal(self) -> None:
        first = self.started(*self.words(self.stand_in("exec sleep 6000")))
        wait_for(lambda: self.kept() == 3)
        # (until it sleeps it may read what it does, which is changed now)
        (program,) = self.programs(first, 1)
        wait_for(lambda: Path(f"/proc/{program}/cmdline").read_bytes().startswith(b"sleep"))
        outcome = self.many(self.stand_in(":"), "--resume")
        self.assertEqual(
            outcome, (2, b"", f"pops-many: {self.journal} is in use by another run\n")
        )
        first.send_signal(signal.SIGTERM)
        first.communicate(timeout=support.PATIENCE)
        self.assertEqual(self.many(self.stand_in(":"), "--resume"), (0, b"", ""))


# Watches a session, two of whose processes are in groups of their own, until it is killed.
WATCHED = """
import os, subprocess, sys, time
from pops_companions.many import sessions
code = "import os, subprocess; " + "subprocess.Popen(['sleep', '6000'], preexec_fn=os.setpgrp); " * 2
run = subprocess.Popen([sys.executable, "-c", code + "import time; time.sleep(6000)"],
    start_new_session=True)
with sessions.Watcher(run.pid, {folder!r}):
    print(run.pid, flush=True)
    {then}
"""


class Sessions(unittest.TestCase):
    def watching(self, folder: str, then: str) -> "subprocess.Popen[bytes]":
        code = WATCHED.format(folder=folder, then=then)
        words = [sys.executable, "-c", code]
        return subprocess.Popen(words, stdout=subprocess.PIPE, cwd=support.COMPANIONS)

    def session(self, run: "subprocess.Popen[bytes]") -> int:
        """The session that is watched, once its processes are there."""
        assert run.stdout is not None
        session = int(run.stdout.readline())
        end_later(self, session)
        wait_for(lambda: len(sessions.members(session)) == 3)
        return session

    def test_a_session_ends_with_the_program_that_is_killed(self) -> None:
        with tempfile.TemporaryDirectory() as room:
            folder = Path(room) / "left"
            folder.mkdir()
            (folder / "file").write_bytes(b"")
            run = self.watching(str(folder), "time.sleep(6000)")
            session = self.session(run)
            run.kill()
            run.communicate()
            wait_for(lambda: not sessions.members(session))
            wait_for(lambda: not folder.exists())

    def test_a_program_that_ends_by_itself_leaves_them(self) -> None:
        with tempfile.TemporaryDirectory() as room:
            run = self.watching(room, "pass")
            session = self.session(run)
            self.assertEqual(run.wait(support.PATIENCE), 0)
            self.assertEqual(len(sessions.members(session)), 3)
            self.assertTrue(os.path.exists(room))
            sessions.end(session)
            # (what is killed ends a little later on a busy machine)
            wait_for(lambda: not sessions.members(session))
            run.communicate()


class Threads(unittest.TestCase):
    def test_a_stop_while_they_are_started_ends_those_that_were(self) -> None:
        stopped, solving = threading.Event(), threading.Event()
        self.addCleanup(stopped.set)

        def solve(_: object) -> None:
            solving.set()
            stopped.wait(support.PATIENCE)
            raise RunError("stopped")

        program = mock.create_autospec(Program, instance=True)
        program.solve.side_effect = solve
        program.stop.side_effect = stopped.set
        start = threading.Thread.start

        def start_one(thread: threading.Thread) -> None:
            if solving.is_set():
                raise KeyboardInterrupt
            start(thread)
            solving.wait(support.PATIENCE)

        with mock.patch.object(threading.Thread, "start", start_one), self.assertRaises(KeyboardInterrupt):
            run_locally(program, tasks_of([Source("x.pop", LONG)] * 2), 2, lambda _: None)
        self.assertTrue(stopped.is_set())


class Waits(unittest.TestCase):
    def test_a_signal_that_comes_as_a_wait_begins(self) -> None:
        """Here another thread takes it, so that it breaks off no wait either."""
        heard = threading.Event()
        before = signal.signal(signal.SIGUSR1, lambda *_: heard.set())
        self.addCleanup(signal.signal, signal.SIGUSR1, before)
        mask = signal.pthread_sigmask(signal.SIG_BLOCK, [signal.SIGUSR1])
        self.addCleanup(signal.pthread_sigmask, signal.SIG_SETMASK, mask)

        def send() -> None:
            time.sleep(0.2)
            signal.pthread_sigmask(signal.SIG_UNBLOCK, [signal.SIGUSR1])
            os.kill(os.getpid(), signal.SIGUSR1)
            heard.wait(support.PATIENCE)

        in_threads(send, 1, heard.set)
        self.assertTrue(heard.is_set())


class LastLine(unittest.TestCase):
    def test_nothing_is_shown_after_it(self) -> None:
        with made_clock() as clock, mock.patch("sys.stderr", io.StringIO()) as shown:
            progress = Progress("pops-many")
            progress.is_shown = True
            progress.begin(0, 1)
            progress.more()
            clock.now += 1
            progress.wait_on()
        self.assertEqual(shown.getvalue(), "\rpops-many: 1 of 1 problems")
