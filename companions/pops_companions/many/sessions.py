"""Ends sessions with all their processes, in any process group, and what left them with its mark.

GNU parallel and `timeout` put what they start into a process group of its own, but all of it is in
their session. What begins a session of its own still has a mark in its environment, unless it was
emptied, or holds a pipe that it inherited, unless it closed that. Run as a program, this module ends a
session and removes a folder; a shell waits for the moment at which the program that started it is
killed.
"""

import os
import signal
import subprocess
import sys
import threading
import time
from collections.abc import Callable, Collection, Iterable, Iterator
from contextlib import contextmanager, suppress
from types import ModuleType

_SECONDS_BETWEEN = 0.05
_ROUNDS = 100
# Becomes another program at the end of its input, unless it is killed before, with one word more: the session
# of which its input says, or its first word.
_WAITS = 'session=$1; shift; while read -r it; do session=$it; done; exec "$@" "$session"'
_MARK = "POPS_RUN_"


def new_mark() -> str:
    """Returns the name of a variable that no other run has."""
    return _MARK + os.urandom(8).hex()


def are_listed() -> bool:
    """Returns whether the system lists processes."""
    return os.path.exists(f"/proc/{os.getpid()}/stat")


def members(session: int) -> list[int]:
    """Returns the processes of a session that haven't ended."""

    def is_member(process: int) -> bool:
        fields = _fields(process)
        return int(fields[3]) == session and fields[0] not in (b"Z", b"X")

    return _those(is_member)


def _those(is_one: Callable[[int], bool]) -> list[int]:
    """Returns the processes of which this holds, but those that ended meanwhile or are another user's; none
    where the system doesn't list them.
    """
    found = []
    with suppress(FileNotFoundError):
        for name in filter(str.isdigit, os.listdir("/proc")):
            with suppress(OSError):
                if is_one(int(name)):
                    found.append(int(name))
    return found


def _read(process: int, name: str) -> bytes:
    """Returns a file of what the system knows of a process."""
    with open(f"/proc/{process}/{name}", "rb") as file:
        return file.read()


def _fields(process: int) -> list[bytes]:
    """Returns what the system knows of a process: its state, its parent and more."""
    # The name is in brackets and may hold anything; the fields follow it.
    return _read(process, "stat").rpartition(b")")[2].split()


def _parent(process: int) -> int:
    return int(_fields(process)[1])


def has_children(process: int) -> bool:
    """Returns whether a process has started others that run, or whether that isn't known."""
    try:
        threads = os.listdir(f"/proc/{process}/task")
        return any(_read(process, f"task/{thread}/children") for thread in threads)
    except OSError:
        return True


def end_connections(folder: str) -> None:
    """Kills the ssh processes that hold shared connections in a folder: they name it in their titles."""
    title = b"ssh: " + os.fsencode(folder) + b"/"
    for process in _those(lambda process: _read(process, "cmdline").startswith(title)):
        with suppress(OSError):
            os.kill(process, signal.SIGKILL)


def name_of_pipe(handle: int) -> str:
    """Returns the name by which the system lists who holds a pipe."""
    return f"pipe:[{os.fstat(handle).st_ino}]"


def _holding(pipe: str) -> list[int]:
    """Returns the processes that hold a pipe, but for this one and the ones that it started itself: these
    hold it for the moment in which they become other programs.
    """
    own = os.getpid()

    def holds(process: int) -> bool:
        folder = f"/proc/{process}/fd"
        is_other = process != own and _parent(process) != own
        return is_other and pipe in (_linked(f"{folder}/{it}") for it in os.listdir(folder))

    return _those(holds)


def _linked(path: str) -> str:
    """Returns what a link names; nothing where it is gone, as of a file that was closed meanwhile."""
    with suppress(OSError):
        return os.readlink(path)
    return ""


def _marked(mark: str) -> list[int]:
    """Returns the processes with a mark in their environment."""
    entry = b"\0" + mark.encode("ascii") + b"="
    return _those(lambda process: entry in b"\0" + _read(process, "environ"))


def of_run(session: int, mark: str, pipe: str) -> list[int]:
    """Returns all processes of a session, with a mark, and that hold a pipe. If the session is 0, it is that
    of those with the mark.
    """
    marked = _marked(mark) if mark else []
    found = [it for one in ({session} if session else _sessions(marked)) for it in members(one)]
    return found + marked + (_holding(pipe) if pipe else [])


def _sessions(processes: Iterable[int]) -> set[int]:
    """Returns the sessions of processes, but of those that ended meanwhile."""
    found = set()
    for process in processes:
        with suppress(OSError):
            found.add(int(_fields(process)[3]))
    return found


def below(begun: set[int], others: set[int]) -> set[int]:
    """Returns which of the other processes were started by some, or by what these started."""
    parents = {}
    for process in others:
        with suppress(OSError):
            parents[process] = _parent(process)
    found = set(begun)
    while more := {it for it, parent in parents.items() if parent in found} - found:
        found |= more
    return found - begun


def end(session: int, mark: str = "", pipe: str = "") -> None:
    """Kills all processes of a session, if it isn't 0, with a mark, and that hold a pipe, new ones too;
    other users' processes stay.
    """
    for _ in range(_ROUNDS):
        if not kill(of_run(session, mark, pipe)):
            return
        time.sleep(_SECONDS_BETWEEN)


def kill(found: Collection[int]) -> bool:
    """Kills processes; returns whether this process may kill any of them. All are stopped first, since a
    shell whose child is killed goes on with its next command.
    """
    for process in found:
        _send(process, signal.SIGSTOP)
    return any([_send(process, signal.SIGKILL) for process in found])


def _send(process: int, sign: int) -> bool:
    """Sends a process a signal; returns whether this process may do that."""
    try:
        os.kill(process, sign)
    except ProcessLookupError:
        pass
    except PermissionError:
        return False
    return True


@contextmanager
def passing_folder(prefix: str) -> Iterator[str]:
    """A new folder that goes with the block, also if a signal comes while it goes."""
    # (loaded only by runs that need them)
    import shutil
    import tempfile

    with _interrupts().held() as as_before:
        folder = tempfile.mkdtemp(prefix=prefix)
        try:
            with as_before():
                yield folder
        finally:
            shutil.rmtree(folder, ignore_errors=True)


def _interrupts() -> ModuleType:
    # (the package isn't found where this module is run as a program)
    from pops_companions import interrupts

    return interrupts


class Watcher:
    """A process that ends a session, unless it is 0, what has a mark, what holds a pipe and the
    connections in a folder, and removes this, if this process is killed before `close` or the end of a
    block. If it is killed alone, another takes its place.
    """

    def __init__(self, session: int, folder: str = "", mark: str = "", pipe: str = ""):
        """Starts it. OSError where it can't be started."""
        # (a shell takes less to wait than Python)
        self._words = ["/bin/sh", "-c", _WAITS, "sh"]
        self._more = [sys.executable, "-I", __file__, folder, mark, pipe]
        self._session = session
        self._lock = threading.Lock()
        self._is_over = False
        interrupts = _interrupts()
        with interrupts.held():
            self._run = self._started()
            # (where there are no more threads, nobody sees to it)
            with interrupts.quiet(), suppress(RuntimeError):
                threading.Thread(target=self._replace, daemon=True).start()

    def __enter__(self) -> None:
        pass

    def __exit__(self, *_: object) -> None:
        self.close()

    def _started(self) -> "subprocess.Popen[bytes]":
        return subprocess.Popen(
            [*self._words, str(self._session), *self._more],
            stdin=subprocess.PIPE,
            stdout=subprocess.DEVNULL,
            start_new_session=True,
            # (what ends this process with its mark leaves the watcher)
            env={name: value for name, value in os.environ.items() if not name.startswith(_MARK)},
        )

    def watch(self, session: int) -> None:
        """Names the session, which begins after the watch."""
        # (one that is killed just now is replaced)
        with self._lock, suppress(OSError, ValueError):
            self._session = session
            assert self._run.stdin is not None
            os.write(self._run.stdin.fileno(), b"%d\n" % session)

    def _replace(self) -> None:
        """Starts the process again whenever it ends before `close`."""
        for _ in range(_ROUNDS):
            self._run.wait()
            with self._lock, suppress(OSError):
                if self._is_over:
                    return
                self._run.communicate()
                self._run = self._started()

    def close(self) -> None:
        """Ends the watch. (Killed before its input ends, the process does nothing.)"""
        with _interrupts().held(), self._lock:
            self._is_over = True
            self._run.kill()
            self._run.communicate()


def main() -> None:
    folder, mark, pipe, session = sys.argv[1:]
    sys.stdin.buffer.read()
    end(int(session), mark, pipe)
    if folder:
        import shutil

        end_connections(folder)
        shutil.rmtree(folder, ignore_errors=True)


if __name__ == "__main__":
    main()
