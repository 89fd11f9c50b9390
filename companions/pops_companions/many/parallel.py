"""Runs of GNU parallel, which hands jobs out to machines through ssh.

A job is a line of words for a script. A job that no longer matters is stopped, or never begins:
each job knows its number from GNU parallel, and a file of this number stops it.
"""

import os
import re
import shlex
import shutil
import signal
import subprocess
import tempfile
import threading
import time
from collections.abc import Callable, Iterable, Iterator, Sequence
from pathlib import Path
from typing import IO, NamedTuple, Optional

from pops_companions import interrupts
from pops_companions.command import DeviceError
from pops_companions.many import sessions
from pops_companions.many.child_process import (
    MOST_OUTPUT,
    ChildProcess,
    outcome_of,
    refuse_unlisted,
)
from pops_companions.many.connections import Connections

_SECONDS_BETWEEN_LOOKS = 0.3
_SECONDS_TO_END = 3.0
# Only against hanging: it takes a moment.
_SECONDS_OF_A_VERSION = 300.0
# How often jobs that are stopped are looked for, until none is left.
_LOOKS = 100
_SECONDS_BETWEEN_KILLS = 0.02
# The last bytes of what ssh and GNU parallel said: only the last line is shown.
_MOST_OF_ERRORS = 1 << 16
# The most bytes that come from a login, of which GNU parallel keeps a line in memory.
_MOST_OF_A_LOGIN = 1 << 29
# The most bytes of a line that comes back, which is a report in base64; a longer one is dropped.
_LONGEST_LINE = MOST_OUTPUT // 3 * 4
_SSH = "ssh -o BatchMode=yes -o ConnectTimeout=10 -o ServerAliveInterval=5 -o ServerAliveCountMax=3"
# Ends a job that isn't to begin, before its login and, on this machine, before its script.
UNLESS_OVER = '[ ! -e "$PARALLEL_HOME/over-$PARALLEL_SEQ" ] || exit 0; '
_NUMBER = "PARALLEL_SEQ"
_OF_A_JOB = re.compile(rb"%s=" % _NUMBER.encode("ascii"))
# In place of ssh. Where GNU parallel asks a machine how many jobs it takes, five bytes are read, and
# more than 256 are as many as 256: it tries that many logins at once. (What ssh says there, it says
# again at the first login.) Other logins have a limit, and
# what ssh says is a file of at most 2048 blocks: one more byte ends ssh. A line that is cut has an end.
_LOGIN = """case $* in *"parallel --number-of-"*)
  number=$({ssh} "$@" < /dev/null 2> /dev/null | head -c 5)
  case $number in "" | *[!0-9]* | ?????*) exit 0 ;; esac
  [ "$number" -le 256 ] || number=256
  echo "$number"
  exit 0 ;;
esac
{unless}
said=$PARALLEL_HOME/said-$PARALLEL_SEQ
ulimit -f 2048
exec 4>&1
status=$({{ {{ {ssh} "$@" 2> "$said" 3>&- 4>&-; echo $? >&3; }} | {limit} >&4 3>&-; }} 3>&1)
echo
tail -c 1000 "$said" >&2
rm -f "$said"
exit "$status"
"""


class MachinesError(DeviceError):
    """Other machines can't be used, with the reason."""


class Jobs(NamedTuple):
    """A script with its own words and a line's words, once for each line. A job that takes more
    `seconds` is ended.
    """

    script: Sequence[str]
    lines: Iterable[str]
    seconds: Optional[int] = None


class Ended(NamedTuple):
    """A job that ended: its number, from 1, its machine, whether it did well, and the seconds that it
    took.
    """

    job: int
    machine: str
    well: bool
    seconds: float = 0.0


def machine_of(login: str) -> str:
    """Returns a machine as GNU parallel names it: without how many jobs at a time it takes."""
    number, slash, rest = login.partition("/")
    return rest if slash and number.isdigit() else login


class _Log:
    """GNU parallel's log of its jobs, read as it grows."""

    def __init__(self, path: Path):
        self._path = path
        self._read = 0

    def news(self) -> list[Ended]:
        """Returns the jobs that ended since the last look."""
        try:
            with open(self._path, "rb") as log:
                log.seek(self._read)
                text = log.read()
        except FileNotFoundError:
            return []
        whole = text[: text.rfind(b"\n") + 1]
        self._read += len(whole)
        ended = []
        for line in whole.decode("utf-8", "replace").splitlines():
            fields = line.split("\t")
            if len(fields) > 7 and fields[0].isdigit():
                well = fields[6:8] == ["0", "0"]
                ended.append(Ended(int(fields[0]), fields[1], well, float(fields[3])))
        return ended


class Parallel:
    """GNU parallel, with `jobs` jobs at a time on each machine."""

    def __init__(self, jobs: Optional[int], ssh: Optional[str], say: Callable[[str], None]):
        """Finds GNU parallel. MachinesError where it isn't installed: another program has its name."""
        self._say = say
        parallel = shutil.which("parallel")
        if parallel is None or not _is_gnu(parallel):
            raise MachinesError("--sshlogin needs GNU parallel: install Debian's package parallel")
        self.jobs = jobs
        self._words = [parallel, "--plain", "--will-cite", "--line-buffer"]
        self._words += ["--jobs", str(jobs)] if jobs else []
        self._ssh = ssh or _SSH
        self._connections = Connections(self._ssh)
        # About the run at hand.
        self._room: Optional[Path] = None
        self._child: Optional[ChildProcess] = None
        # What ssh and GNU parallel say.
        self._said = tempfile.TemporaryFile(buffering=0)

    def run(
        self,
        logins: list[str],
        jobs: Jobs,
        take: Callable[[bytes], None],
        look: Callable[[list[Ended]], bool] = lambda ended: True,
        shared: bool = False,
    ) -> None:
        """Runs jobs.

        `take` gets each line that comes back, at once. `look` gets the jobs that ended now and
        then; it may take logins out of their list, and ends the run where it returns False.
        Where connections are `shared`, what a job runs on its machine isn't ended by `stop`.
        """
        with sessions.passing_folder("pops-many-") as name:
            room = Path(name)
            (room / "tasks").write_text("".join(line + "\n" for line in jobs.lines), "ascii")
            _write_logins(room, logins)
            child = self._started(room, jobs, self._connections.options if shared else "")
            is_stopped = threading.Event()
            with interrupts.held() as as_before, sessions.Watcher(child.run.pid, name):
                looks = threading.Thread(target=_look, args=(child, room, logins, look, is_stopped))
                with interrupts.quiet():
                    looks.start()
                try:
                    with as_before():
                        _take_all(child, take)
                finally:
                    looks.join()
                    assert child.run.stdout is not None
                    child.run.stdout.close()
                    child.release()
                    self._room = self._child = None
            if child.run.returncode < 0 and not is_stopped.is_set():
                self._say(f"GNU parallel was ended by signal {-child.run.returncode}")

    def _started(self, room: Path, jobs: Jobs, options: str) -> ChildProcess:
        """Starts GNU parallel, with more options of ssh."""
        # (it hands each piece on at once)
        limit = f"dd bs=65536 iflag=count_bytes count={_MOST_OF_A_LOGIN} status=none"
        command = _LOGIN.format(unless=UNLESS_OVER, limit=limit, ssh=self._ssh + options)
        (room / "ssh").write_bytes(os.fsencode(command))
        words = self._command(room, jobs)
        refuse_unlisted(words[0])
        self._said.seek(0)
        self._said.truncate()
        child = ChildProcess(words, subprocess.DEVNULL, self._said, _environment(room))
        self._room, self._child = room, child
        return child

    def close(self) -> None:
        """Ends the connections that logins share."""
        self._connections.close()
        self._said.close()

    def _command(self, room: Path, jobs: Jobs) -> list[str]:
        limit = [] if jobs.seconds is None else ["--timeout", str(jobs.seconds)]
        words = [*self._words, *limit, "--sshloginfile", str(room / "machines")]
        words += ["--joblog", str(room / "log"), "-a", str(room / "tasks")]
        return [*words, " ".join(map(shlex.quote, ["sh", "-c", *jobs.script])) + " {}"]

    def stop(self, jobs: Sequence[int]) -> None:
        """Stops jobs of the run at hand; those that aren't begun never are."""
        assert self._room is not None
        for job in jobs:
            (self._room / f"over-{job}").touch()
        marks = {f"{_NUMBER}={job}".encode("ascii") for job in jobs}
        # (what a process starts meanwhile is seen at the next look)
        for _ in range(_LOOKS):
            if not self._kill(marks):
                return
            time.sleep(_SECONDS_BETWEEN_KILLS)

    def _kill(self, marks: set[bytes]) -> bool:
        """Kills the processes with one of these marks, and what they started without it; returns whether
        others may be left.
        """
        assert self._child is not None
        environments = dict(filter(None, map(_environment_of, set(self._child.processes()))))
        marked = {it for it, own in environments.items() if not marks.isdisjoint(own)}
        others = {it for it, own in environments.items() if not any(map(_OF_A_JOB.match, own))}
        found = marked | sessions.below(marked, others)
        sessions.kill(found)
        # (one that is about to become another program has no environment)
        return bool(found) or [b""] in environments.values()

    @property
    def last_error(self) -> str:
        """The last line that ssh or GNU parallel said in the last run or the one at hand."""
        handle = self._said.fileno()
        begin = max(os.fstat(handle).st_size - _MOST_OF_ERRORS, 0)
        said = os.pread(handle, _MOST_OF_ERRORS, begin).decode("utf-8", "replace").strip().splitlines()
        return said[-1] if said else "no report came back"


def _is_gnu(parallel: str) -> bool:
    run = outcome_of([parallel, "--version"], seconds=_SECONDS_OF_A_VERSION)
    return run.output.startswith(b"GNU parallel")


def _environment_of(process: int) -> Optional[tuple[int, list[bytes]]]:
    """Returns a process with the entries of its environment, if it hasn't ended."""
    try:
        return process, Path(f"/proc/{process}/environ").read_bytes().split(b"\0")
    except OSError:
        return None


def _environment(room: Path) -> dict[str, str]:
    # (what the user wants of GNU parallel elsewhere)
    environment = {name: it for name, it in os.environ.items() if not name.startswith("PARALLEL")}
    environment["PARALLEL_HOME"] = str(room)
    environment["PARALLEL_SSH"] = f"sh {shlex.quote(str(room / 'ssh'))}"
    # (without it, jobs on machines where SHELL isn't set do nothing, and say nothing)
    environment["PARALLEL_SHELL"] = "/bin/sh"
    return environment


def _write_logins(room: Path, logins: Sequence[str]) -> None:
    (room / "machines.new").write_text("".join(login + "\n" for login in logins))
    os.replace(room / "machines.new", room / "machines")


def _take_all(child: ChildProcess, take: Callable[[bytes], None]) -> None:
    """Hands each line on; also those that came before the run was ended."""
    assert child.run.stdout is not None
    lines = _short_lines(child.run.stdout)
    try:
        for line in lines:
            take(line)
        child.run.wait()
    except BaseException:
        _end(child)
        # (others may hold it open)
        os.set_blocking(child.run.stdout.fileno(), False)
        for line in _short_lines(child.run.stdout):
            take(line)
        raise


def _short_lines(source: IO[bytes]) -> Iterator[bytes]:
    """Yields the lines that aren't too long."""
    while line := source.readline(_LONGEST_LINE):
        if line.endswith(b"\n") or len(line) < _LONGEST_LINE:
            yield line
            continue
        while line and not line.endswith(b"\n"):
            line = source.readline(_LONGEST_LINE)


def _look(
    child: ChildProcess,
    room: Path,
    logins: list[str],
    look: Callable[[list[Ended]], bool],
    is_stopped: threading.Event,
) -> None:
    """Calls `look` until GNU parallel ends, or is stopped. Nothing of its session goes on then."""
    log = _Log(room / "log")
    before = len(logins)
    while True:
        ended = child.run.poll() is not None
        if not look(log.news()):
            is_stopped.set()
            child.end()
            return
        if len(logins) < before:
            before = len(logins)
            _write_logins(room, logins)
        if child.run.returncode is not None and child.run.returncode < 0:
            child.end()
            return
        if ended:
            # (what has its mark may hold a connection for later logins)
            sessions.end(child.run.pid)
            return
        try:
            child.run.wait(_SECONDS_BETWEEN_LOOKS)
        except subprocess.TimeoutExpired:
            pass


def _end(child: ChildProcess) -> None:
    """Ends GNU parallel; at its second signal it ends its jobs too."""
    for _ in range(2):
        if child.run.poll() is None:
            child.send(signal.SIGTERM)
            try:
                child.run.wait(_SECONDS_TO_END)
            except subprocess.TimeoutExpired:
                pass
    child.end()
