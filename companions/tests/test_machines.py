"""Whole problems on other machines, with a command in the place of ssh: bundles, shared connections."""

import os
import shutil
import signal
import subprocess
import sys
import tempfile
import unittest
from pathlib import Path
from typing import Optional
from unittest import mock

from pops_companions.many import sessions
from pops_companions.many.connections import Connections
from pops_companions.many.machines import PROBE, bundles_of
from pops_companions.many.parallel import _LOGIN, Ended, Jobs, MachinesError, Parallel
from pops_companions.many.part_program import PartProgram
from pops_companions.many.parts import Part
from pops_companions.many.program import RunError
from pops_companions.many.tasks import Source, tasks_of
from tests import run_here, support
from tests.six_problems import wait_for
from tests.stand_ins import stand_in
from tests.test_split_machines import has_gnu_parallel

MATE = "Title {}\nPieces White Kg6 Ra1 Black Kg8\nStipulation #1\n"
NEXT = "NextProblem\n"
# What is said of machines whose program has other bytes than the one here.
ANOTHER = "pops-many: pops on {} is another program than pops here\n"
# In the place of ssh: notes its words, and runs the command here, for its machine.
_SSH = """#!/bin/bash
echo "$*" >> '{room}/logins'
while [ $# -gt 0 ]; do case $1 in -o|-l|-p|-S) shift 2 ;; -*) shift ;; *) break ;; esac; done
export MACHINE=$1; shift
[ "$1" = -- ] && shift
exec bash -c "$*"
"""
# Its title is the one of an ssh that holds a connection in a folder.
_HOLDS = "import os, sys; os.execv('/bin/sleep', ['ssh: ' + sys.argv[1] + '/x [mux]', '6000'])"
# Holds connections until it is killed.
_OPEN = """
import subprocess, sys, time
from pops_companions.many.connections import Connections
connections = Connections("ssh")
folder = connections.options.split("ControlPath=")[1].split("/%C")[0]
held = subprocess.Popen([sys.executable, "-c", {holds!r}, folder])
print(folder, held.pid, flush=True)
time.sleep(6000)
"""


def setUpModule() -> None:
    """Puts temporary files where the paths of sockets are short enough, wherever others are."""
    environment = mock.patch.dict(os.environ, {"TMPDIR": "/tmp"})
    folder = mock.patch.object(tempfile, "tempdir", "/tmp")
    environment.start()
    unittest.addModuleCleanup(environment.stop)
    folder.start()
    unittest.addModuleCleanup(folder.stop)


def input_of(*problems: str) -> bytes:
    return f"BeginProblem\n{NEXT.join(problems)}EndProblem\n".encode()


def folder_of(connections: Connections) -> Path:
    """The folder that the options name."""
    return Path(connections.options.split("ControlPath=")[1].split("/%C")[0])


def command_of(process: int) -> bytes:
    """The words of a process; nothing where it has ended."""
    try:
        return Path(f"/proc/{process}/cmdline").read_bytes()
    except OSError:
        return b""


def end_sleep(process: int) -> None:
    """Ends a process that sleeps still."""
    if command_of(process).startswith(b"sleep"):
        os.kill(process, signal.SIGKILL)


class SharedConnections(unittest.TestCase):
    def test_only_of_ssh_itself(self) -> None:
        for command in ("ssh", "/usr/bin/ssh -p 22 -o BatchMode=yes"):
            connections = Connections(command)
            self.assertIn("-o ControlMaster=auto", connections.options)
            folder = folder_of(connections)
            self.assertEqual(folder.stat().st_mode & 0o777, 0o700)
            connections.close()
            self.assertFalse(folder.exists())
        for command in ("sh script", "sshpass ssh", ""):
            self.assertEqual(Connections(command).options, "")

    def test_no_path_that_ssh_would_refuse(self) -> None:
        with tempfile.TemporaryDirectory() as room:
            for name in ("x" * 80, "a b"):
                folder = Path(room) / name
                folder.mkdir()
                with mock.patch.object(tempfile, "tempdir", str(folder)):
                    self.assertEqual(Connections("ssh").options, "")
                self.assertEqual(list(folder.iterdir()), [])

    def test_they_end_when_they_are_closed(self) -> None:
        connections = Connections("ssh")
        words = [sys.executable, "-c", _HOLDS]
        held = subprocess.Popen([*words, str(folder_of(connections))])
        other = subprocess.Popen([*words, "/nowhere"])
        self.addCleanup(other.communicate)
        self.addCleanup(other.kill)
        wait_for(lambda: command_of(held.pid).startswith(b"ssh: "))
        connections.close()
        self.assertEqual(held.wait(support.PATIENCE), -signal.SIGKILL)
        self.assertIsNone(other.poll())

    def test_they_end_with_a_program_that_is_killed(self) -> None:
        words = [sys.executable, "-c", _OPEN.format(holds=_HOLDS)]
        run = subprocess.Popen(words, stdout=subprocess.PIPE, cwd=support.COMPANIONS)
        assert run.stdout is not None
        folder, held = run.stdout.readline().decode().split()
        wait_for(lambda: command_of(int(held)).startswith(b"ssh: "))
        run.kill()
        run.communicate()
        wait_for(lambda: not command_of(int(held)))
        wait_for(lambda: not Path(folder).exists())
        self.assertEqual(sessions.members(int(held)), [])


class Bundles(unittest.TestCase):
    def test_small_neighbours_together(self) -> None:
        """166 problems for two machines, which take eight logins at a time each."""
        tasks = list(tasks_of([Source("x", input_of(*[MATE.format(it) for it in range(166)]))]))
        bundles = bundles_of(tasks, 16)
        self.assertEqual([task for bundle in bundles for task in bundle], tasks)
        self.assertEqual({len(bundle) for bundle in bundles}, {5, 1})
        self.assertEqual(max(map(len, bundles_of(tasks * 1, 1))), 50)
        apart = bundles_of(tasks[::2], 1)
        self.assertEqual({len(bundle) for bundle in apart}, {1})
        large = [MATE.format("x" * 20_000)] * 8
        self.assertEqual({len(it) for it in bundles_of(tasks_of([Source("x", input_of(*large))]), 1)}, {2})


@unittest.skipUnless(has_gnu_parallel(), "GNU parallel isn't installed")
class OnMachines(support.InRoom):
    def many(self, text: bytes, pops: Optional[str] = None) -> support.Outcome:
        """A run on two machines, whose pops is this one."""
        (self.room / "x.pop").write_bytes(text)
        ssh = self.write_program("ssh", _SSH.format(room=self.room))
        words = ["--pops", support.pops(), "--remote-pops", pops or support.pops(), "--ssh", ssh]
        words += ["--sshlogin", "one,two", "--jobs", "2", str(self.room / "x.pop")]
        # (a busy machine takes no bundle to the end of this time)
        with mock.patch("pops_companions.many.machines._SECONDS_OF_A_BUNDLE", float(support.PATIENCE)):
            return run_here.companion("pops-many", *words)

    def logins(self) -> list[str]:
        return (self.room / "logins").read_text().splitlines()

    def test_bundles_share_connections(self) -> None:
        """Faults keep their lines, and a long problem is alone."""
        problems = [MATE.format(number) for number in range(60)]
        problems[20] = "\n\nPieces White Kg6\nx\n"
        problems[40] = "\n" + MATE.format("h").replace("#1", "h#3")
        problems[50] = ""
        text = input_of(*problems)
        wanted = support.run([support.pops()], text)
        self.assertEqual(self.many(text), (wanted.status, wanted.output, ""))
        self.assertLess(len(self.logins()), 20)
        for login in self.logins():
            self.assertRegex(login, r"-o ControlMaster=auto -o ControlPath=\S+/%C -o ControlPersist=\d+")
        folder = self.logins()[0].split("ControlPath=")[1].split("/%C")[0]
        self.assertFalse(os.path.exists(folder))

    def test_a_problem_at_which_pops_fails_in_a_bundle_is_solved_alone(self) -> None:
        failing = self.write_program(
            "failing",
            "#!/bin/sh\ntext=$(cat)\n"
            f"printf '%s' \"$text\" | '{support.pops()}' \"$@\" > '{self.room}'/out.$$\n"
            "case $text in *Bad*Next*|*Next*Bad*) "
            f"sed '/title: Bad/,$d' '{self.room}'/out.$$; exit 9 ;; esac\n"
            f"cat '{self.room}'/out.$$\n",
        )
        problems = [MATE.format("Bad" if number % 10 == 7 else number) for number in range(40)]
        text = input_of(*problems)
        wanted = support.run([support.pops()], text)
        said = ANOTHER.format("one, two")
        self.assertEqual(self.many(text, failing), (0, wanted.output, said))

    def test_what_a_user_wants_of_gnu_parallel_elsewhere(self) -> None:
        text = input_of(*[MATE.format(number) for number in range(3)])
        wanted = support.run([support.pops()], text).output
        for wants in ("--tag", f"--results {self.room}/results", "--dry-run", "--pipe", "--sshlogin :"):
            variables = {"PARALLEL": wants, "PARALLEL_ENV": "exit 9;"}
            with self.subTest(wants), mock.patch.dict(os.environ, variables):
                self.assertEqual(self.many(text), (0, wanted, ""))
        self.assertFalse((self.room / "results").exists())

    def test_a_machine_without_the_program_is_left_out(self) -> None:
        script = f'[ "$MACHINE" = one ] || exit 127\nexec \'{support.pops()}\' "$@"\n'
        there = self.write_program("there", f"#!/bin/sh\n{script}")
        text = input_of(*[MATE.format(number) for number in range(40)])
        outcome = self.many(text, there)
        self.assertEqual((outcome.status, outcome.output), (0, support.run([support.pops()], text).output))
        self.assertRegex(outcome.error, rf"^pops-many: machine two left out: .*\n{ANOTHER.format('one')}$")

    def test_a_program_here_that_fails(self) -> None:
        """Nothing can be compared with what it reports."""
        (self.room / "x.pop").write_bytes(input_of(MATE.format(1)))
        fails = self.write_program("fails", "#!/bin/sh\nexit 9\n")
        words = ["--pops", fails, "--sshlogin", ":", str(self.room / "x.pop")]
        said = "pops-many: pops ended with status 9\n"
        self.assertEqual(run_here.companion("pops-many", *words), (3, b"", said))

    def test_a_machine_that_floods_is_left_out(self) -> None:
        """It writes lines without end."""
        flood = self.write_program("flood", "#!/bin/sh\nexec yes '1 eAow'\n")
        (self.room / "x.pop").write_bytes(input_of(MATE.format(1)))
        words = ["--pops", support.pops(), "--remote-pops", "pops", "--ssh", flood]
        words += ["--sshlogin", "one", "--jobs", "1", str(self.room / "x.pop")]
        outcome = run_here.companion("pops-many", *words)
        left_out = "pops-many: machine one left out: no report came back\n"
        said = left_out + "pops-many: no machine is left\n"
        self.assertEqual(outcome, (3, b"", said))

    def test_a_machine_that_floods_later_is_left_out(self) -> None:
        """It reports the probe, and writes without end of other problems, or says so."""
        for flood in ("exec yes", "exec yes >&2"):
            with self.subTest(flood):
                script = f'text=$(cat)\ncase $MACHINE-$text in two*Title*) {flood} ;; esac\n'
                script += f'printf "%s" "$text" | \'{support.pops()}\' "$@"\n'
                there = self.write_program("there", f"#!/bin/sh\n{script}")
                text = input_of(*[MATE.format(number) for number in range(400)])
                with mock.patch("pops_companions.many.parallel._MOST_OF_A_LOGIN", 1 << 20):
                    outcome = self.many(text, there)
                wanted = support.run([support.pops()], text).output
                self.assertEqual((outcome.status, outcome.output), (0, wanted))
                said = rf"^{ANOTHER.format('one, two')}pops-many: machine two failed and is left out: .*\n$"
                self.assertRegex(outcome.error, said)

    def resumed(self, pops: str, there: str) -> support.Outcome:
        """A run on a machine that begins a journal or goes on with it."""
        ssh = self.write_program("ssh", _SSH.format(room=self.room))
        report = self.room / "x.report"
        words = ["--pops", pops, "--remote-pops", there, "--ssh", ssh, "--sshlogin", "one", "--jobs", "1"]
        words += ["--resume"] * Path(f"{report}.journal").exists()
        return run_here.companion("pops-many", *words, "-o", str(report), str(self.room / "x.pop"))

    def begun(self) -> str:
        """A run that a program ended; the program, which now does well and has the same bytes."""
        does = f'text=$(cat)\ncase $text in *Bad*) {{}} ;; esac\nexec \'{support.pops()}\' "$@" << END\n$text\nEND\n'
        pops = stand_in(self.room / "pops", does.format("exit 9"))
        (self.room / "x.pop").write_bytes(input_of(MATE.format("Good"), MATE.format("Bad")))
        self.assertEqual(self.resumed(pops, pops).status, 6)
        Path(f"{pops}.sh").write_text(does.format(":"))
        return pops

    def is_solved(self) -> None:
        wanted = support.run([support.pops()], (self.room / "x.pop").read_bytes()).output
        self.assertEqual((self.room / "x.report").read_bytes(), wanted)

    def test_a_machine_with_another_program_than_before_is_left_out(self) -> None:
        pops = self.begun()
        other = self.write_program("other", f"{Path(pops).read_text()}\n")
        journal = (self.room / "x.report.journal").read_bytes()
        left_out = "pops-many: machine one left out: pops isn't the one that the run had there\n"
        said = f"{ANOTHER.format('one')}{left_out}pops-many: no machine is left\n"
        self.assertEqual(self.resumed(pops, other), (3, b"", said))
        self.assertEqual((self.room / "x.report.journal").read_bytes(), journal)
        self.assertEqual(self.resumed(pops, pops), (0, b"", ""))
        self.is_solved()

    def test_a_program_on_a_machine_that_is_changed_during_the_run(self) -> None:
        """The reports may be of two programs: they are no report, and no run goes on with them."""
        there = self.room / "there"
        changes = f"sed '$s/$/ #/' '{there}' > '{there}.new'; chmod +x '{there}.new'; mv '{there}.new' '{there}'"
        stand_in(there, f'text=$(cat)\ncase $text in *Title*) {changes} ;; esac\n'
                        f'printf "%s" "$text" | \'{support.pops()}\' "$@"\n')
        (self.room / "x.pop").write_bytes(input_of(MATE.format(1)))
        journal = self.room / "x.report.journal"
        to_do = f"the reports in {journal} may be of two programs, remove it"
        said = f"{ANOTHER.format('one')}pops-many: pops on one was changed during the run: {to_do}\n"
        self.assertEqual(self.resumed(support.pops(), str(there)), (6, b"", said))
        self.assertFalse((self.room / "x.report").exists())
        outcome = self.resumed(support.pops(), str(there))
        self.assertEqual((outcome.status, outcome.output), (2, b""))
        self.assertIn(f"{journal} is of a run during which a program was changed", outcome.error)

    def test_a_machine_without_sha256sum_is_taken(self) -> None:
        """It isn't known which program it has."""
        pops = self.begun()
        (self.room / "bin").mkdir()
        self.write_program("bin/sha256sum", "#!/bin/sh\nexit 127\n")
        said = "pops-many: pops on one can't be compared with pops here\n"
        with mock.patch.dict(os.environ, {"PATH": f"{self.room}/bin:{os.environ['PATH']}"}):
            self.assertEqual(self.resumed(pops, pops), (0, b"", said))
        self.is_solved()

    def test_a_job_that_is_stopped_ends_in_sessions_of_its_own(self) -> None:
        """Also what it started there without an environment. Another job goes on."""
        sleeps = f'sh -c "echo \\$\\$ >> {self.room}/$1; exec /bin/sleep 6000"'
        jobs = Jobs([f"(setsid {sleeps} &); setsid env -i {sleeps}", "job"], ["one", "two"])
        parallel = Parallel(2, None, print)
        left: dict[str, list[bytes]] = {}

        def begun(job: str) -> list[int]:
            path = self.room / job
            return [int(it) for it in path.read_text().split()] if path.exists() else []

        def look(_: list[Ended]) -> bool:
            found = {job: begun(job) for job in ("one", "two")}
            sleeping = [command_of(it).startswith(b"/bin/sleep") for it in sum(found.values(), [])]
            if len(sleeping) < 4 or not all(sleeping):
                return True
            parallel.stop([1])
            left.update((job, [command_of(it)[:10] for it in of]) for job, of in found.items())
            return False

        parallel.run([":"], jobs, lambda line: None, look)
        parallel.close()
        self.assertEqual(left, {"one": [b""] * 2, "two": [b"/bin/sleep"] * 2})

    def test_a_machine_that_says_nothing_is_left_out(self) -> None:
        """It takes a login and hangs, also where GNU parallel first asks it how many jobs it takes."""
        (self.room / "x.pop").write_bytes(input_of(MATE.format(1)))
        hangs = self.write_program("hangs", "#!/bin/sh\nsleep 6000\n")
        words = ["--pops", support.pops(), "--sshlogin", "one", "--ssh", hangs, str(self.room / "x.pop")]
        left_out = "machine one left out: no report came back in 1 s"
        said = f"pops-many: {left_out}\npops-many: no machine is left\n"
        for many in (words, ["--jobs", "2", *words]):
            with self.subTest(many), mock.patch("pops_companions.many.machines.SECONDS_OF_A_PROBE", 1.0):
                self.assertEqual(run_here.companion("pops-many", *many), (3, b"", said))

    def test_programs_that_hang_here(self) -> None:
        (self.room / "x.pop").write_bytes(input_of(MATE.format(1)))
        hangs = self.write_program("hangs", "#!/bin/sh\nexec sleep 6000\n")
        limit = mock.patch("pops_companions.many.machines.SECONDS_OF_A_PROBE_HERE", 1.0)
        with limit:
            outcome = run_here.companion("pops-many", "--pops", hangs, "--sshlogin", "one", str(self.room / "x.pop"))
        self.assertEqual(outcome, (3, b"", "pops-many: pops took more than 1 s\n"))
        with self.assertRaisesRegex(RunError, "^pops-part took more than 1 s$"):
            PartProgram(hangs, 1).report(Part(tasks_of([Source(None, PROBE)])[0], "play", 1, 1), 1)

    def test_a_parallel_that_hangs_here(self) -> None:
        self.write_program("parallel", "#!/bin/sh\nexec sleep 6000\n")
        limit = mock.patch("pops_companions.many.parallel._SECONDS_OF_A_VERSION", 0.5)
        with limit, mock.patch.dict(os.environ, {"PATH": f"{self.room}:{os.environ['PATH']}"}):
            with self.assertRaisesRegex(MachinesError, "needs GNU parallel"):
                Parallel(None, None, print)

    def test_a_machine_that_hangs_later_is_left_out(self) -> None:
        """It reports the probe, and each login after it has no end, with its reports or without."""
        text = input_of(*[MATE.format(number) for number in range(2)])
        (self.room / "x.pop").write_bytes(text)
        for before in ("", 'bash -c "$*"; '):
            with self.subTest(before):
                (self.room / "logins").unlink(missing_ok=True)
                hangs = f'[ $(wc -l < "{self.room}/logins") = 1 ] || {{ {before}exec sleep 6000; }}\nexec bash'
                ssh = self.write_program("hangs", _SSH.format(room=self.room).replace("exec bash", hangs))
                words = ["--pops", support.pops(), "--remote-pops", support.pops(), "--ssh", ssh, "--jobs", "1"]
                words += ["--seconds", "1", "--sshlogin", "one", "-o", str(self.room / "x.report"), str(self.room / "x.pop")]
                with mock.patch("pops_companions.many.machines._SECONDS_OF_A_LOGIN", 1):
                    outcome = run_here.companion("pops-many", *words)
                self.assertIn("machine one failed and is left out: no report came back in 2 s\n", outcome.error)
                self.assertIn(outcome.status, (0, 6) if before else (6,))
                (self.room / "x.report.journal").unlink(missing_ok=True)

    def test_jobs_of_a_parallel_that_is_killed_end(self) -> None:
        """What it had at hand is handed out again."""
        (self.room / "x.pop").write_bytes(input_of(MATE.format("Slow"), MATE.format("other").replace("#1", "h#3")))
        ended = f"[ -e '{self.room}/again' ] || {{ touch '{self.room}/again'; echo $$ > '{self.room}/at-work'; exec sleep 6000; }}"
        slow = self.write_program(
            "slow",
            f"#!/bin/sh\ntext=$(cat)\ncase $text in *Slow*) {ended} ;; esac\n"
            f"printf '%s\\n' \"$text\" | exec '{support.pops()}' \"$@\"\n",
        )
        ssh = self.write_program("ssh", _SSH.format(room=self.room))
        words = [sys.executable, str(support.COMPANIONS / "pops-many"), "--pops", support.pops(), "--remote-pops", slow]
        words += ["--ssh", ssh, "--sshlogin", "one", "--jobs", "2", str(self.room / "x.pop")]
        run = subprocess.Popen(words, stdout=subprocess.PIPE, stderr=subprocess.PIPE)
        at_work = self.room / "at-work"
        wait_for(lambda: at_work.exists() and bool(at_work.read_text()))
        job = int(at_work.read_text())
        self.addCleanup(end_sleep, job)
        wait_for(lambda: command_of(job).startswith(b"sleep"))
        os.kill(os.getsid(job), signal.SIGKILL)
        output, errors = run.communicate(timeout=support.PATIENCE)
        self.assertEqual(command_of(job), b"")
        self.assertEqual((run.returncode, output), (0, support.run([support.pops(), str(self.room / "x.pop")]).output))
        self.assertIn(b"GNU parallel was ended by signal 9\n", errors)

    def test_a_search_in_a_session_of_its_own_ends_with_the_run(self) -> None:
        (self.room / "x.pop").write_bytes(input_of(MATE.format("Slow")))
        at_work = self.room / "at-work"
        script = f"text=$(cat)\ncase $text in *Slow*) setsid sh -c \"echo \\$\\$ > '{at_work}'; exec sleep 6000\" ;; esac\n"
        apart = self.write_program("apart", f"#!/bin/sh\n{script}printf '%s\\n' \"$text\" | exec '{support.pops()}' \"$@\"\n")
        words = [sys.executable, str(support.COMPANIONS / "pops-many"), "--pops", support.pops(), "--remote-pops", apart]
        words += ["--sshlogin", ":", "--jobs", "1", "-o", str(self.room / "x.report"), str(self.room / "x.pop")]
        with subprocess.Popen(words, stderr=subprocess.PIPE) as run:
            wait_for(lambda: at_work.exists() and bool(at_work.read_text()))
            job = int(at_work.read_text())
            self.addCleanup(end_sleep, job)
            wait_for(lambda: command_of(job).startswith(b"sleep"))
            run.terminate()
            run.communicate(timeout=support.PATIENCE)
        self.assertEqual((run.returncode, command_of(job)), (6, b""))

    def test_the_number_of_jobs_that_a_machine_takes(self) -> None:
        """What a machine says without end is cut short."""
        end = self.room / "whole"
        ssh = self.write_program(
            "many_ssh",
            "#!/bin/sh\ncase $* in *--number-of-*)\n"
            f"  head -c 100000000 /dev/zero | tr '\\0' 9 && head -c 100000000 /dev/zero && touch '{end}'\n"
            "  exit 0 ;;\nesac\n" + _SSH.format(room=self.room).partition("\n")[2],
        )
        text = input_of(*[MATE.format(number) for number in range(3)])
        (self.room / "x.pop").write_bytes(text)
        words = ["--pops", support.pops(), "--remote-pops", support.pops(), "--sshlogin", "one"]
        outcome = run_here.companion("pops-many", *words, "--ssh", f"bash {ssh}", str(self.room / "x.pop"))
        self.assertEqual(outcome, (0, support.run([support.pops()], text).output, ""))
        self.assertFalse(end.exists())

    def test_the_answers_that_are_taken(self) -> None:
        for answer, taken in {"8": "8", "64": "64", "999": "256", "1024": "256", "9" * 30: "", "": "", "no": "", "-1": ""}.items():
            login = _LOGIN.format(unless="", limit="cat", ssh=f"sh -c 'echo {answer}' sh")
            words = ["sh", "-c", login, "sh", "one", "--", "exec", "parallel --number-of-threads"]
            self.assertEqual(support.run(words).output.decode().rstrip("\n"), taken)

    def test_a_command_whose_name_is_no_text(self) -> None:
        folder = self.room / "\udcff"
        folder.mkdir()
        text = input_of(MATE.format(1))
        (self.room / "x.pop").write_bytes(text)
        words = ["--pops", support.pops(), "--remote-pops", support.pops(), "--sshlogin", "one"]
        ssh = self.write_program("\udcff/ssh", _SSH.format(room=self.room))
        outcome = support.companion("pops-many", *words, "--ssh", ssh, str(self.room / "x.pop"))
        self.assertEqual(outcome, (0, support.run([support.pops()], text).output, ""))

    def test_the_default_command_is_ssh(self) -> None:
        """Found on the PATH; the parts of problems don't share connections, so that each can be ended."""
        self.write_program("ssh", _SSH.format(room=self.room))
        text = input_of(*[MATE.format(number) for number in range(3)])
        (self.room / "x.pop").write_bytes(text)
        words = ["--pops", support.pops(), "--remote-pops", support.pops(), "--sshlogin", "one"]
        path = f"{self.room}:{os.environ['PATH']}"
        with mock.patch.dict(os.environ, {"PATH": path}):
            outcome = support.companion("pops-many", *words, str(self.room / "x.pop"))
        self.assertEqual(outcome, (0, support.run([support.pops()], text).output, ""))
        self.assertTrue(all("ControlMaster" in login for login in self.logins()))
        self.assertEqual(shutil.which("ssh", path=path), str(self.room / "ssh"))
