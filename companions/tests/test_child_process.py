"""Programs that a companion starts: how they are ended, and what isn't waited for."""

import os
import re
import shutil
import signal
import subprocess
import sys
import threading
import time
import unittest
from pathlib import Path
from subprocess import PIPE
from typing import Any, NoReturn
from unittest import mock

from pops_companions.many import sessions
from pops_companions.many.bundle_run import BundleRun
from pops_companions.many.bundles import Bundles
from pops_companions.many.child_process import ChildProcess, Outcome, rest_of
from pops_companions.many.linked import starts_none
from pops_companions.many.program import RunError, Runs
from tests import support
from tests.six_problems import end_later, wait_for, watchers
from tests.test_bundles import MATE, input_of, steady, tasks

# Leaves its session, its environment and the program that started it; its number is in a file.
_LEAVES = "env -i setsid sleep 9000 & echo $! > '{noted}'; {end}"
# Runs a program until it is killed.
_RUNS = """
import subprocess, sys
from pops_companions.many.child_process import ChildProcess
ChildProcess(sys.argv[1:], subprocess.PIPE, subprocess.PIPE).outcome(b"")
"""
# Has a thread that watches the program, and others that feed it, limit its time and show progress.
_THREADS = """
import pops, sys
from pops_companions.many.progress import Progress
with Progress("it").beating():
    pops.Engine(sys.argv[1]).solve(bytes(1 << 22), pops.Limits(seconds=9000)).result
"""
# Runs a program, but this one is killed as soon as that runs.
_DIES = """
import os, pathlib, signal, subprocess, sys, time
from pops_companions.many import child_process
def die(*_):
    while not pathlib.Path(sys.argv[2]).is_file():
        time.sleep(0.05)
    os.kill(os.getpid(), signal.SIGKILL)
child_process.killed_with_holder = die
child_process.ChildProcess(sys.argv[1:2], subprocess.PIPE, subprocess.PIPE)
"""
# A signal breaks off the start of what watches a program; this one ends slowly what was started, and goes on.
_BREAKS_OFF = """
import subprocess, sys
from pops_companions.many import child_process, sessions
begun = []
class Watcher(sessions.Watcher):
    def _started(self):
        begun.append(super()._started())
        begun[0].stdin.close()
        raise KeyboardInterrupt
sessions.Watcher, sessions.end = Watcher, lambda *_: begun[0].wait()
try:
    child_process.ChildProcess(["/bin/sh"], subprocess.PIPE, subprocess.PIPE)
except KeyboardInterrupt:
    sys.exit(7)
"""
# A process group of its own, that `timeout` makes.
_GROUP = "timeout 9000 sleep 9000"


class Linked(support.InRoom):
    @unittest.skipUnless(shutil.which("cc"), "cc isn't installed")
    def test_a_program_that_may_start_another(self) -> None:
        starting = ("fork", "_Fork", "forkpty", "daemon", "wordexp", "posix_spawn", "dlvsym", "_IO_proc_open")
        # (the last may be of a program that calls the system without the library)
        for name in ("close", *starting, "pause"):
            words = ["cc", "-fno-builtin", "-x", "c", "-", "-o", str(self.room / name)]
            made = support.run(words, f"int {name}(void); int main(void) {{ return {name}(); }}".encode())
            # (an older library lacks some)
            if made.status == 0:
                self.assertEqual(starts_none(str(self.room / name)), name == "close", name)


class Ended(support.InRoom):
    def begun(self, text: str, as_script: bool) -> ChildProcess:
        """A shell that does so, or a script."""
        words = ["/bin/sh", "-c", text]
        if as_script:
            words = [self.write_program("program", f"#!/bin/sh\n{text}\n")]
        child = ChildProcess(words, PIPE, PIPE)
        end_later(self, child.run.pid)
        return child

    def killed(self, child: ChildProcess, number: int) -> Outcome:
        """The outcome of a program that is killed once it has this number of processes."""
        found: list[Outcome] = []
        waits = threading.Thread(target=lambda: found.append(child.outcome(b"")))
        waits.start()
        wait_for(lambda: len(sessions.members(child.run.pid)) == number)
        child.kill()
        waits.join()
        self.assertEqual(sessions.members(child.run.pid), [])
        return found[0]

    def test_what_is_in_other_process_groups(self) -> None:
        for as_script in (False, True):
            for text in (f"{_GROUP}; exit", f"exec >&- 2>&-; {_GROUP}; exit"):
                with self.subTest(text, as_script=as_script):
                    outcome = self.killed(self.begun(text, as_script), 3)
                    self.assertEqual((outcome.status, outcome.in_time), (-signal.SIGKILL, True))

    def test_what_is_over_its_time(self) -> None:
        for as_script in (False, True):
            child = self.begun(f"echo well; {_GROUP}; exit", as_script)

            def left(child: ChildProcess, until: object) -> float:
                return 0.05 * (len(sessions.members(child.run.pid)) < 3)

            with mock.patch.object(ChildProcess, "_left", left):
                outcome = child.outcome(b"", 1800)
            self.assertEqual((outcome.output, outcome.in_time), (b"well\n", False))
            self.assertEqual(sessions.members(child.run.pid), [])

    def test_no_shell_goes_on_when_its_child_is_killed(self) -> None:
        shells = f"(sleep 9000; touch '{self.room}/went_on') &" * 8
        child = self.begun(f"{shells} wait", as_script=False)
        wait_for(lambda: len(sessions.members(child.run.pid)) == 1 + 2 * 8)

        def youngest_first(session: int) -> list[int]:
            return sorted(members(session), reverse=True)

        def send_slowly(process: int, sign: int) -> bool:
            time.sleep(0.05)
            return send(process, sign)

        members, send = sessions.members, sessions._send
        with mock.patch.multiple(sessions, members=youngest_first, _send=send_slowly):
            sessions.end(child.run.pid)
        self.assertEqual(os.listdir(self.room), [])

    def test_what_left_its_session_is_not_waited_for(self) -> None:
        for end in ("exit 0", "wait"):
            with self.subTest(end):
                noted = self.room / f"noted {end}"
                child = self.begun(f"echo well; setsid sleep 9000 & echo $! > '{noted}'; {end}", True)
                wait_for(lambda noted=noted: noted.is_file() and noted.read_bytes().endswith(b"\n"))  # type: ignore[misc]
                stranger = int(noted.read_bytes())
                end_later(self, stranger)
                wait_for(lambda stranger=stranger: os.getsid(stranger) == stranger)  # type: ignore[misc]
                outcome = self.killed(child, 0 if end == "exit 0" else 1)
                self.assertEqual(outcome.output, b"well\n")

    def noted(self, noted: Path) -> int:
        """The process that is noted, once it has a session of its own."""
        wait_for(lambda: noted.is_file() and noted.read_bytes().endswith(b"\n"))
        process = int(noted.read_bytes())
        end_later(self, process)
        wait_for(lambda: os.getsid(process) == process)
        return process

    def test_what_left_its_session_and_its_environment(self) -> None:
        for end in ("exit 0", "wait"):
            with self.subTest(end):
                noted = self.room / f"noted {end}"
                child = self.begun(_LEAVES.format(noted=noted, end=end), True)
                process = self.noted(noted)
                self.killed(child, 0 if end == "exit 0" else 1)
                wait_for(lambda process=process: not sessions.members(process))  # type: ignore[misc]

    def test_what_left_them_where_the_companion_is_killed(self) -> None:
        noted = self.room / "noted"
        program = self.write_program("program", f"#!/bin/sh\n{_LEAVES.format(noted=noted, end='wait')}\n")
        run = subprocess.Popen([sys.executable, "-c", _RUNS, program], cwd=support.COMPANIONS)
        process = self.noted(noted)
        run.kill()
        run.communicate()
        wait_for(lambda: not sessions.members(process))

    def test_a_program_that_begins_as_the_companion_is_killed(self) -> None:
        noted = self.room / "noted"
        closed = " ".join(f"{it}>&-" for it in range(3, 10))
        text = f"env -i sh -c 'exec sleep 9000 {closed}' & echo $$ > '{noted}.new'; mv '{noted}.new' '{noted}'; wait"
        program = self.write_program("program", f"#!/bin/sh\n{text}\n")
        words = [sys.executable, "-c", _DIES, program, str(noted)]
        self.assertEqual(subprocess.run(words, cwd=support.COMPANIONS).returncode, -signal.SIGKILL)
        process = int(noted.read_bytes())
        end_later(self, process)
        wait_for(lambda: not sessions.members(process))

    def test_a_start_that_a_signal_breaks_off(self) -> None:
        """It comes before the number of the program is known, or before the program ends with this process."""
        begin = subprocess.Popen

        def interrupted(words: list[str], **how: Any) -> NoReturn:
            begin(words, **how)
            self.noted(self.room / "noted")
            raise KeyboardInterrupt

        def hold(*_: int) -> NoReturn:
            self.noted(self.room / "noted")
            raise KeyboardInterrupt

        text = f"sleep 9000 & echo $$ > '{self.room}/new'; mv '{self.room}/new' '{self.room}/noted'; wait"
        program = self.write_program("program", f"#!/bin/sh\n{text}\n")
        start = "pops_companions.many.child_process."
        for name, instead in (("killed_with_holder", hold), ("subprocess.Popen", interrupted)):
            with self.subTest(name):
                (self.room / "noted").unlink(missing_ok=True)
                watcher = mock.patch("pops_companions.many.sessions.Watcher")
                with watcher, mock.patch(start + name, instead), self.assertRaises(KeyboardInterrupt):
                    ChildProcess([program], PIPE, PIPE)
                process = int((self.room / "noted").read_bytes())
                wait_for(lambda process=process: not sessions.members(process))  # type: ignore[misc]

    def test_a_watch_whose_start_a_signal_breaks_off(self) -> None:
        words = [sys.executable, "-c", _BREAKS_OFF]
        self.assertEqual(subprocess.run(words, cwd=support.COMPANIONS).returncode, 7)

    def test_a_watcher_that_is_killed_is_replaced(self) -> None:
        program = self.write_program("program", f"#!/bin/sh\n{_LEAVES.format(noted=self.room / 'noted', end='wait')}\n")
        run = subprocess.Popen([sys.executable, "-c", _RUNS, program], cwd=support.COMPANIONS)
        process = self.noted(self.room / "noted")
        end_later(self, process)
        wait_for(lambda: watchers(run.pid))
        (first,) = watchers(run.pid)
        os.kill(first, signal.SIGKILL)
        wait_for(lambda: set(watchers(run.pid)) - {first})
        run.kill()
        run.communicate()
        wait_for(lambda: not sessions.members(process))

    def test_other_threads_leave_signals_to_the_main_one(self) -> None:
        """A stopped process that goes on may give a signal to any thread that takes it."""
        program = self.write_program("program", "#!/bin/sh\nexec sleep 9000\n")
        run = subprocess.Popen([sys.executable, "-c", _THREADS, program], cwd=support.COMPANIONS)
        self.addCleanup(run.communicate)
        self.addCleanup(run.kill)
        tasks = Path(f"/proc/{run.pid}/task")
        wanted = sum(1 << sign - 1 for sign in (signal.SIGINT, signal.SIGTERM, signal.SIGHUP))

        def left_by(thread: str) -> int:
            """The signals that a thread leaves to others."""
            found = re.search("SigBlk:\t(.*)", (tasks / thread / "status").read_text())
            assert found is not None
            return int(found[1], 16) & wanted

        # (the main one leaves them while it starts another)
        wait_for(lambda: len(os.listdir(tasks)) == 1 + 4 and not left_by(str(run.pid)))
        others = set(os.listdir(tasks)) - {str(run.pid)}
        self.assertEqual({left_by(it) for it in others}, {wanted})

    def test_what_a_companion_starts_meanwhile_stays(self) -> None:
        """It holds the pipe for the moment before it becomes another program."""
        reading, writing = os.pipe()
        child = subprocess.Popen(["sleep", "9000"], pass_fds=(reading,))
        self.addCleanup(child.communicate)
        self.addCleanup(child.kill)
        sessions.end(0, pipe=sessions.name_of_pipe(reading))
        self.assertIsNone(child.poll())
        os.close(reading)
        os.close(writing)

    def test_a_process_that_closes_files_meanwhile(self) -> None:
        """It holds the pipe still, although the first of its files is gone when it is looked at."""
        reading, writing = os.pipe()
        child = subprocess.Popen(["sh", "-c", "sleep 9000 & wait"], pass_fds=(reading,), start_new_session=True)
        self.addCleanup(child.communicate)
        end_later(self, child.pid)
        wait_for(lambda: len(sessions.members(child.pid)) == 2)
        (process,) = set(sessions.members(child.pid)) - {child.pid}
        readlink = os.readlink

        def but_the_first(path: str) -> str:
            if path.endswith("/fd/0"):
                raise FileNotFoundError
            return readlink(path)

        with mock.patch("os.readlink", but_the_first):
            self.assertIn(process, sessions.of_run(0, "", sessions.name_of_pipe(reading)))
        os.close(reading)
        os.close(writing)

    def test_where_the_system_lists_no_processes(self) -> None:
        """What may start others isn't started."""
        script = self.write_program("program", f"#!/bin/sh\ntouch '{self.room}/begun'\n")
        why = "program can't be run: /proc isn't mounted: what it starts may outlive it"
        with mock.patch.object(sessions, "are_listed", return_value=False):
            with self.assertRaisesRegex(RunError, why):
                Runs("program", [script]).outcome([], b"")
            self.assertEqual(Runs("pops", [support.pops()]).outcome([], b"").status, 1)
        self.assertFalse((self.room / "begun").exists())
        with mock.patch("os.listdir", side_effect=FileNotFoundError):
            child = self.begun("exec sleep 9000", as_script=False)
            child.end()
        self.assertEqual(child.run.returncode, -signal.SIGKILL)

    def test_what_is_in_a_pipe_that_is_open(self) -> None:
        reading, writing = os.pipe()
        try:
            self.assertEqual(rest_of(reading), b"")
            os.write(writing, b"x" * 1000)
            self.assertEqual(rest_of(reading), b"x" * 1000)
            os.write(writing, b"y" * 65536)
            self.assertEqual(rest_of(reading), b"y" * 65536)
        finally:
            os.close(reading)
            os.close(writing)

    def test_a_bundle_that_is_whole_and_does_not_end(self) -> None:
        """It has its seconds after the last problem, and its output is taken."""
        bundle = tasks(input_of(MATE, MATE))
        child = self.begun(f"'{support.pops()}'; {_GROUP}", True)

        def is_out_of_time(run: BundleRun, now: float) -> bool:
            return run._whole == 2

        with steady(), mock.patch.object(BundleRun, "_is_out_of_time", is_out_of_time):
            with mock.patch.object(BundleRun, "_milliseconds", lambda run: 50):
                came = BundleRun(child, bundle, 1.0, Bundles(bundle, 1)).go()
        self.assertEqual([it.tasks for it in came.results], [2])
        self.assertIsNone(came.failed)
        self.assertEqual(sessions.members(child.run.pid), [])

    def test_a_bundle_whose_output_is_closed(self) -> None:
        bundle = tasks(input_of(MATE, MATE))
        child = self.begun(f"exec >&-; {_GROUP}", True)
        bundles = Bundles(bundle, 1)
        with mock.patch("pops_companions.many.bundle_run.MOMENT", 0.0):
            came = BundleRun(child, bundle, 0.05, bundles).go()
        (result,) = came.results
        self.assertEqual((result.seconds, came.failed), (0.05, None))
        self.assertEqual(sessions.members(child.run.pid), [])


if __name__ == "__main__":
    unittest.main()
