"""Programs that end when this one does, however it ends.

Each gets the reading end of a pipe whose writing end this process alone holds. The kernel closes
that end with the process, also where it is killed, and then sends SIGKILL to the owner that is set
for the reading end: the program's process group. Nothing runs between fork and exec, so threads do
no harm. pops, which is fed by a pipe, has no window between its start and the setting of the owner:
without its input it ends by itself.

A program may start others in groups or sessions of their own, unless it surely starts none: a `Watcher`
that begins before it ends these. What has left the session and its environment and has closed the pipe
isn't ended, and isn't waited for once the program is killed.
"""

import errno
import fcntl
import io
import math
import os
import resource
import select
import signal
import subprocess
import threading
import time
from collections.abc import Callable, Generator, Iterator, Sequence
from contextlib import closing, suppress
from typing import IO, NamedTuple, Optional, Union

from pops_companions import interrupts
from pops_companions.many import sessions
from pops_companions.many.linked import starts_none

Stream = Union[None, int, IO[bytes]]
# The bytes that a pipe takes at once, and the most that it can be made to take (F_SETPIPE_SZ).
_ROOM = 1 << 16
MOST_ROOM = 1 << 20
_SET_ROOM, _GET_ROOM = 1031, 1032

# What a run writes is read after pauses of this many milliseconds, unless it ends sooner or writes
# much: it writes line by line, and waking for each line would cost more than the search.
PAUSE = 20
# After this many milliseconds of a wait signals are heeded.
_MOMENT = 500
# The number of standard error.
_LAST_STREAM = 2
# The processor time after which a program ends that outlives its seconds, in seconds beyond them.
_SECONDS_MORE = 2
# The most bytes of a program's output that are kept in memory, and of its words on standard error.
MOST_OUTPUT = 1 << 28
MOST_SAID = 1 << 16
# The most bytes of a file that a program writes its output to.
MOST_SPOOLED = 1 << 34
_PIECE = 1 << 16


class OutputError(OSError):
    """A program writes more than is kept, in memory or in a file, and was ended."""

    def __init__(self, most: Optional[int] = None) -> None:
        super().__init__(errno.EFBIG, wrote_more(MOST_OUTPUT if most is None else most))


def wrote_more(most: int) -> str:
    """Returns what is said of a program that writes more bytes than it may."""
    return f"it wrote more than {most >> 20} MiB"


class Outcome(NamedTuple):
    """How a program ended, what it wrote and what it said; whether it ended in its time.

    Output that is too long for memory is in a file without a name.
    """

    status: int
    output: bytes
    errors: bytes
    in_time: bool
    spooled: Optional[IO[bytes]] = None


class _Output:
    """What a program writes: in memory, and a longer one that begins as expected in a file."""

    def __init__(self, spooled_if: Optional[bytes]):
        """Without an expected beginning, none is in a file."""
        self._spooled_if = spooled_if
        self._memory = io.BytesIO()
        self.file: Optional[IO[bytes]] = None

    def write(self, piece: bytes) -> None:
        """OutputError where it is more than is kept; OSError where the file can't be written."""
        kept = self.file or self._memory
        kept.write(piece)
        if kept.tell() > MOST_OUTPUT and self.file is None:
            self._spool()
        if kept.tell() > MOST_SPOOLED:
            raise OutputError(MOST_SPOOLED)

    def _spool(self) -> None:
        begun, self._memory = self._memory.getvalue(), io.BytesIO()
        if self._spooled_if is None or not begun.startswith(self._spooled_if):
            raise OutputError
        # (loaded only by runs that need it)
        import tempfile

        self.file = tempfile.TemporaryFile()
        self.file.write(begun)

    def value(self) -> bytes:
        """Returns what is in memory, and lets the file be read."""
        if self.file is not None:
            self.file.flush()
        return self._memory.getvalue()


class _Said(io.BytesIO):
    """What a program says, of which only the first is kept."""

    def write(self, piece: bytes) -> int:  # type: ignore[override]
        return super().write(piece[: MOST_SAID - self.tell()])


class ChildProcess:
    """A program in a session of its own, which ends when this process does, until `release`."""

    def __init__(
        self,
        words: Sequence[str],
        source: Stream,
        errors: Stream,
        environment: Optional[dict[str, str]] = None,
        output: Stream = subprocess.PIPE,
    ):
        """Starts the program. OSError where it can't be started."""
        self._watched, self._held = pipe_of_others()
        self._lock = threading.RLock()
        self._watcher: Optional[sessions.Watcher] = None
        # Whether it may have started others in groups of their own, and the mark of those in sessions.
        self._has_others = not starts_none(words[0])
        self._mark = sessions.new_mark() if self._has_others else ""
        self._pipe = sessions.name_of_pipe(self._watched)
        self.is_killed = self._is_released = False
        try:
            with interrupts.held():
                # (it may start others before its session is named)
                if self._has_others:
                    self._watcher = sessions.Watcher(0, "", self._mark, self._pipe)
                self.run = subprocess.Popen(
                    [_plain(words[0]), *words[1:]],
                    executable=words[0],
                    stdin=source,
                    stdout=output,
                    stderr=errors,
                    env={**(environment or os.environ), self._mark: "1"} if self._mark else environment,
                    pass_fds=(self._watched,),
                    start_new_session=True,
                )
                killed_with_holder(self._watched, -self.run.pid)
                if self._watcher is not None:
                    self._watcher.watch(self.run.pid)
        except BaseException:
            self._break_off()
            raise

    def outcome(
        self,
        text: Optional[bytes],
        seconds: Optional[float] = None,
        spooled_if: Optional[bytes] = None,
    ) -> Outcome:
        """Feeds the program and waits for its end. After `seconds`, or if the wait is broken off, it
        is ended. OutputError where it writes too much: more than memory takes, if it doesn't begin with
        `spooled_if`.
        """
        until = left = None
        if seconds is not None:
            self.limit(seconds)
            until = time.monotonic() + seconds

        def wait() -> Optional[float]:
            nonlocal left
            left = self._left(until)
            return None if left is None else 1000 * left

        output, errors, in_time = _Output(spooled_if), _Said(), True
        written_to: dict[bool, Union[_Output, _Said]] = {False: output, True: errors}
        with closing(self.pieces(text or b"", wait)) as pieces:
            for stream, piece in pieces:
                written_to[stream is self.run.stderr].write(piece)
                if left == 0:
                    in_time = False
                    self.kill()
        written, said = output.value(), errors.getvalue()
        return Outcome(self.run.returncode, written, said, in_time, output.file)

    def pieces(
        self,
        text: Optional[bytes] = None,
        wait: Callable[[], Optional[float]] = lambda: None,
        pause: Callable[[], int] = lambda: PAUSE,
    ) -> Generator[tuple[Stream, bytes], None, None]:
        """Feeds the program, and yields the pieces that it writes and their streams, after pauses; an
        empty piece where nothing came for as long as `wait` says. Both are in milliseconds. At the end
        the program has ended: it is killed where it isn't read on.
        """
        streams = {it.fileno(): it for it in (self.run.stdout, self.run.stderr) if it is not None}
        ready, end = select.poll(), select.poll()
        ready.register(self._watched, select.POLLIN)
        for handle in streams:
            ready.register(handle, select.POLLIN)
            # (without an event of its own it reports only the end)
            end.register(handle, 0)
        is_read = False
        try:
            if self.run.stdin is not None and text is not None:
                self.feed(text)
            while not self.is_killed and (streams or self.run.returncode is None):
                came = _polled(ready, wait()) if streams else self._end_in(wait())
                if self.is_killed:
                    break
                if not came and self.run.returncode is None:
                    yield None, b""
                is_short = True
                for handle, _ in came:
                    if piece := os.read(handle, _PIECE):
                        is_short = is_short and len(piece) < _PIECE // 2
                        yield streams[handle], piece
                    else:
                        ready.unregister(handle)
                        end.unregister(handle)
                        del streams[handle]
                if came and is_short and streams:
                    end.poll(pause())
            if self.is_killed:
                self.end()
                yield from ((stream, rest_of(handle)) for handle, stream in streams.items())
            is_read = True
        finally:
            with interrupts.held():
                if not is_read or self.is_killed:
                    self.end()
                for opened in (self.run.stdout, self.run.stderr):
                    if opened is not None:
                        opened.close()
                self.release()

    def _end_in(self, milliseconds: Optional[float]) -> list[tuple[int, int]]:
        """Waits for the program's end, for some time at most; nothing has come then."""
        for moment in _moments(milliseconds):
            with interrupts.held(), suppress(subprocess.TimeoutExpired):
                self.run.wait(moment / 1000)
                break
        return []

    def _left(self, until: Optional[float]) -> Optional[float]:
        """Returns the seconds that the program has left, if it has a limit."""
        return None if until is None else max(until - time.monotonic(), 0)

    def limit(self, seconds: float) -> None:
        """Limits the processor time, so that the program ends even if nobody can end it."""
        self._limit(resource.RLIMIT_CPU, math.ceil(seconds) + _SECONDS_MORE)

    def limit_files(self, most: int) -> None:
        """Limits the bytes of a file that the program writes: one more ends it."""
        self._limit(resource.RLIMIT_FSIZE, most)

    def _limit(self, kind: int, most: int) -> None:
        try:
            resource.prlimit(self.run.pid, kind, (most, most))
        except (OSError, ValueError, OverflowError):
            # It has ended, or has less already.
            pass

    def feed(self, text: bytes) -> None:
        """Writes the program's standard input, a pipe, and closes it.

        A text that the pipe doesn't take is written in a thread, so that the output can be read
        meanwhile.
        """
        if len(text) <= _ROOM or has_room(self.run.stdin, len(text)):
            self._feed(text)
        else:
            with interrupts.held(), interrupts.quiet():
                threading.Thread(target=self._feed, args=(text,), daemon=True).start()

    def _feed(self, text: bytes) -> None:
        assert self.run.stdin is not None
        try:
            with self.run.stdin:
                self.run.stdin.write(text)
        except BrokenPipeError:
            pass

    def processes(self) -> list[int]:
        """Returns the processes of its session, and those that left it with its mark or its pipe."""
        return sessions.of_run(self.run.pid, self._mark, self._pipe)

    def send(self, sign: int) -> None:
        """Sends a signal to the program's process group, unless the program has ended."""
        if self.run.returncode is None:
            try:
                os.killpg(self.run.pid, sign)
            except (ProcessLookupError, PermissionError):
                pass

    def kill(self) -> None:
        """Kills the program's process group, from any thread, and wakes who waits; he calls `end`."""
        with self._lock:
            if self._is_released:
                return
            if self.run.returncode is None and not self._has_others:
                self._has_others = sessions.has_children(self.run.pid)
            # (who sees that it has ended sees then that it was killed)
            self.is_killed = True
            self.send(signal.SIGKILL)
            os.write(self._held, b".")

    def end(self) -> None:
        """Kills the program and its whole session, and waits for the program's end."""
        self.kill()
        if self._has_others:
            # (until it is waited for, no other process gets its number)
            with suppress(ChildProcessError):
                os.waitid(os.P_PID, self.run.pid, os.WEXITED | os.WNOWAIT)
            sessions.end(self.run.pid, self._mark, self._pipe)
        self.run.wait()

    def _break_off(self) -> None:
        """Kills what was started before a signal came, maybe before its number was known.

        The pipe is closed first: a watcher whose start was broken off kills all that hold it.
        """
        begun: Optional["subprocess.Popen[bytes]"] = getattr(self, "run", None)
        os.close(self._watched)
        os.close(self._held)
        if self._has_others:
            sessions.end(0 if begun is None else begun.pid, self._mark, self._pipe)
        elif begun is not None:
            self.send(signal.SIGKILL)
        if self._watcher is not None:
            self._watcher.close()

    def release(self) -> None:
        """Gives up the hold on the program, once it has ended."""
        with self._lock:
            self._is_released = True
            self._close()

    def _close(self) -> None:
        os.close(self._watched)
        os.close(self._held)
        if self._watcher is not None:
            self._watcher.close()


def _moments(milliseconds: Optional[float]) -> Iterator[float]:
    """Yields short waits, in milliseconds, that take as long together, or have no end.

    Python heeds a signal that comes just as a wait begins only after that wait.
    """
    left = math.inf if milliseconds is None else milliseconds
    yield min(left, _MOMENT)
    while (left := left - _MOMENT) > 0:
        yield min(left, _MOMENT)


def _polled(ready: "select.poll", milliseconds: Optional[float]) -> list[tuple[int, int]]:
    """Returns what is ready as soon as anything is; nothing after some time at most."""
    return next(filter(None, map(ready.poll, _moments(milliseconds))), [])


def rest_of(pipe: int) -> bytes:
    """Returns what is in a pipe now, whoever else holds it open."""
    left = fcntl.fcntl(pipe, _GET_ROOM)
    ready = select.poll()
    ready.register(pipe, select.POLLIN)
    pieces = []
    while left > 0 and ready.poll(0) and (piece := os.read(pipe, min(left, _PIECE))):
        pieces.append(piece)
        left -= len(piece)
    return b"".join(pieces)


def refuse_unlisted(program: str) -> None:
    """Refuses a program that may start others where nobody finds these. OSError, with the reason."""
    if not sessions.are_listed() and not starts_none(program):
        raise OSError(errno.ENOSYS, "/proc isn't mounted: what it starts may outlive it")


def killed_with_holder(watched: int, process: int) -> None:
    """Lets the kernel kill a process, or the group of a negative number, once nobody holds the writing end
    of a pipe.
    """
    fcntl.fcntl(watched, fcntl.F_SETOWN, process)
    fcntl.fcntl(watched, fcntl.F_SETSIG, signal.SIGKILL)
    fcntl.fcntl(watched, fcntl.F_SETFL, os.O_ASYNC)


def pipe_of_others() -> tuple[int, int]:
    """Returns the ends of a pipe. The reading one isn't 0, 1 or 2, which are free where a standard stream
    is closed: a program that is started has its own streams there.
    """
    reading, writing = os.pipe()
    if reading > _LAST_STREAM:
        return reading, writing
    moved = fcntl.fcntl(reading, fcntl.F_DUPFD_CLOEXEC, _LAST_STREAM + 1)
    os.close(reading)
    return moved, writing


def has_room(pipe: Optional[IO[bytes]], length: int) -> bool:
    """Lets an empty pipe take this many bytes at once; returns whether it does."""
    assert pipe is not None
    try:
        return length <= fcntl.fcntl(pipe.fileno(), _SET_ROOM, length)
    except OSError:
        return False


def _plain(path: str) -> str:
    """Returns the name by which a program is called: pops refuses one that isn't UTF-8."""
    return os.path.basename(path).encode("utf-8", "replace").decode("utf-8")


def outcome_of(
    words: Sequence[str],
    text: bytes = b"",
    errors: Stream = subprocess.PIPE,
    seconds: Optional[float] = None,
) -> Outcome:
    """Runs a program on a text. OSError where it can't be started or writes too much."""
    return ChildProcess(words, subprocess.PIPE, errors).outcome(text, seconds)
