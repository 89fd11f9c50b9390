"""Copies of this process that each do a piece of its work, and end when it does."""

import fcntl
import gc
import os
import select
import signal
from collections import deque
from collections.abc import Callable, Iterator
from contextlib import ExitStack, suppress
from dataclasses import dataclass
from functools import partial
from multiprocessing import Pipe
from multiprocessing.connection import Connection, wait
from typing import Any, Optional

from pops_companions.interrupts import SIGNALS
from pops_companions.many.child_process import killed_with_holder, pipe_of_others

# The pieces for each copy that may be done before an earlier one is.
_MOST_AHEAD = 4
# On how many copies a piece is tried that ends them.
_TRIES = 2

Work = Callable[[Any], bytes]


def can_fork() -> bool:
    """Returns whether copies can be made that surely end with this process."""
    return hasattr(os, "fork") and hasattr(fcntl, "F_SETSIG")


@dataclass
class _Task:
    """A piece, on how many copies it may still be tried, and its result."""

    piece: Any
    tries: int = _TRIES
    result: Optional[bytes] = None


class _Copy:
    """A copy of this process, with the pipes to it and from it, and what it does."""

    def __init__(self, work: Work, others: "list[_Copy]"):
        """Makes the copy. OSError where none can be made."""
        self.task: Optional[_Task] = None
        with ExitStack() as own, ExitStack() as handed:
            watched, self._held = pipe_of_others()
            own.callback(os.close, self._held)
            handed.callback(os.close, watched)
            self.pieces, given = Pipe()
            own.callback(self.pieces.close)
            handed.callback(given.close)
            self._process = _forked(partial(_serve, work, watched, given, [self, *others]))
            own.pop_all()

    def close(self) -> None:
        """Closes this process's ends of the pipes, the first of which ends the copy."""
        os.close(self._held)
        self.pieces.close()

    def end(self) -> None:
        """Ends the process, and closes the pipes."""
        os.kill(self._process, signal.SIGKILL)
        os.waitpid(self._process, 0)
        self.close()


def _forked(serve: Callable[[], None]) -> int:
    """Returns the process of a copy that does nothing but this, and whose signals end it at once."""
    before = signal.pthread_sigmask(signal.SIG_BLOCK, SIGNALS)
    try:
        process = os.fork()
        if process == 0:
            try:
                for sign in SIGNALS:
                    if signal.getsignal(sign) is not signal.SIG_IGN:
                        signal.signal(sign, signal.SIG_DFL)
                signal.pthread_sigmask(signal.SIG_SETMASK, before)
                serve()
            finally:
                os._exit(0)
        return process
    finally:
        signal.pthread_sigmask(signal.SIG_SETMASK, before)


def _serve(work: Work, watched: int, pieces: Connection, copies: list[_Copy]) -> None:
    """Does the work of a copy. (It has the handles of the others, which would keep them.)"""
    for copy in copies:
        copy.close()
    killed_with_holder(watched, os.getpid())
    # (what is there stays there: looking through it would copy it)
    gc.freeze()
    ended = select.poll()
    ended.register(watched, select.POLLIN)
    if not ended.poll(0):
        _work_off(work, pieces)


def _work_off(work: Work, pieces: Connection) -> None:
    """Does the work on each piece, until there is none."""
    with suppress(EOFError, OSError):
        while True:
            piece, result = pieces.recv(), None
            with suppress(Exception):
                result = work(piece)
            pieces.send(result)


class Copies:
    """Copies of this process for one kind of work."""

    def __init__(self, work: Work, number: int):
        self._copies: list[_Copy] = []
        self._waiting: deque[_Task] = deque()
        with suppress(OSError):
            for _ in range(number):
                self._copies.append(_Copy(work, self._copies))

    def __enter__(self) -> "Copies":
        return self

    def __exit__(self, *_: object) -> None:
        self.stop()

    def stop(self) -> None:
        """Ends all copies; the pieces that are left have no results."""
        while self._copies:
            self._copies.pop().end()

    def results(self, pieces: Iterator[Any]) -> Iterator[tuple[Any, Optional[bytes]]]:
        """Yields each piece with its result in their order; without one, where the work failed on it, or
        two copies were ended on it, or none is left.
        """
        given: deque[_Task] = deque()
        most = _MOST_AHEAD * len(self._copies)
        for piece in pieces:
            given.append(_Task(piece))
            self._waiting.append(given[-1])
            self._hand_out()
            if len(given) > most:
                yield self._done(given.popleft())
        yield from map(self._done, given)

    def _done(self, task: _Task) -> tuple[Any, Optional[bytes]]:
        """Waits until a piece is done, or no copy is left for it; the others go on meanwhile."""
        while task.tries and self._copies:
            ready = wait([it.pieces for it in self._copies if it.task is not None])
            for copy in [it for it in self._copies if it.pieces in ready]:
                self._take(copy)
            self._hand_out()
        return task.piece, task.result

    def _hand_out(self) -> None:
        """Gives pieces to the copies that have none."""
        for copy in [it for it in self._copies if it.task is None]:
            if self._waiting:
                copy.task = self._waiting.popleft()
                try:
                    copy.pieces.send(copy.task.piece)
                except OSError:
                    self._drop(copy, copy.task)

    def _take(self, copy: _Copy) -> None:
        """Takes the result of a copy's piece."""
        task, copy.task = copy.task, None
        assert task is not None
        try:
            task.result, task.tries = copy.pieces.recv(), 0
        except (EOFError, OSError):
            self._drop(copy, task)

    def _drop(self, copy: _Copy, task: _Task) -> None:
        """Ends a copy that failed on a piece, which is tried again, if it may be."""
        self._copies.remove(copy)
        copy.end()
        task.tries -= 1
        if task.tries:
            self._waiting.appendleft(task)
