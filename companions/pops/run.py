"""A run of a program: its events as they come, its limits, its result."""

import math
import tempfile
import threading
import time
import weakref
from collections.abc import Generator, Iterator
from dataclasses import dataclass
from enum import Enum
from signal import SIGKILL
from typing import Optional, Union

from pops_companions.interrupts import quiet
from pops_companions.many.program import FAULTY, SOUND, RunError, Runs
from pops_companions.report import events
from pops_companions.report.item_builder import ItemBuilder
from pops_companions.report.items import AnyItem
from pops_companions.report.reader import Allowed, ReportReader
from pops_companions.report.tries import AnyTriesItem, TriesBuilder, TriesReader


class TextKind(Enum):
    """What a program writes."""

    REPORT = "report"
    TRIES = "tries"


class Ending(Enum):
    """Why a run ended; its value is what the end of an unfinished problem says."""

    COMPLETE = "complete"
    CANCELLED = "cancelled"
    SECONDS = "the time is over"
    BYTES = "the text is too long"
    SOLUTIONS = "enough solutions"
    FAILED = "the program failed"


# These end a run although the program has written more.
_AT_ONCE = (Ending.CANCELLED, Ending.BYTES, Ending.SOLUTIONS)


@dataclass(frozen=True)
class Limits:
    """When a run is stopped: the most seconds, bytes of text, and solutions.

    It is stopped right after a line of help play; a key comes with everything below it.
    """

    seconds: Optional[float] = None
    bytes: Optional[int] = None
    solutions: Optional[int] = None

    def __post_init__(self) -> None:
        """ValueError where the seconds are no number."""
        if self.seconds is not None and math.isnan(self.seconds):
            raise ValueError("the seconds of a run are no number")


@dataclass(frozen=True)
class Result:
    """What a run came to: its text, and the problems in it, the last one maybe unfinished.

    `status` is the exit status of a complete run: 0, or 1 if a problem is faulty.
    """

    ending: Ending
    status: Optional[int]
    text: bytes
    items: tuple[Union[AnyItem, AnyTriesItem], ...]


class Run:
    """A run of a program on a text; iterating gives its events as they come.

    It goes on by itself until what it writes fills a pipe. Leaving a `with` block cancels it, and so
    does the end of this process.
    """

    def __init__(self, program: Runs, text: bytes, kind: TextKind, limits: Limits):
        self._program = program
        self._limits = limits
        self._lock = threading.Lock()
        self._reading = threading.Lock()
        self._ending: Optional[Ending] = None
        self._status: Optional[int] = None
        self._text: list[bytes] = []
        self._room = limits.bytes
        self._items: list[Union[AnyItem, AnyTriesItem]] = []
        is_report = kind is TextKind.REPORT
        self._reader = (ReportReader if is_report else TriesReader)(Allowed.UNFINISHED)
        self._builder: Union[ItemBuilder, TriesBuilder]
        self._builder = ItemBuilder() if is_report else TriesBuilder()
        self._counted = 0
        self._errors = tempfile.TemporaryFile()
        self._begun = time.monotonic()
        self._child = program.begin([], self._errors)
        self._child.feed(text)
        self._timer = self._started_timer()
        self._events = self._read()

    def _started_timer(self) -> Optional[threading.Timer]:
        if self._limits.seconds is None:
            return None
        # (no thread waits longer, and no run takes as long)
        seconds = min(self._limits.seconds, threading.TIMEOUT_MAX)
        self._child.limit(seconds)
        stop = weakref.WeakMethod(self._stop)

        def end() -> None:
            found = stop()
            if found is not None:
                found(Ending.SECONDS)

        timer = threading.Timer(seconds, end)
        timer.daemon = True
        with quiet():
            timer.start()
        return timer

    def __iter__(self) -> Iterator[events.Event]:
        return self

    def __next__(self) -> events.Event:
        """Waits for the next event.

        RunError at the end of a run that failed, ReportError where the program writes something
        else than pops does.
        """
        with self._reading:
            return next(self._events)

    def __enter__(self) -> "Run":
        return self

    def __exit__(self, *_: object) -> None:
        self.close()

    def __del__(self) -> None:
        if hasattr(self, "_events"):
            self.close()

    def cancel(self) -> None:
        """Ends the run, from any thread. The problem at hand ends unfinished."""
        self._stop(Ending.CANCELLED)

    def close(self) -> None:
        """Cancels the run if it goes on, and drops the events that weren't taken."""
        self.cancel()
        self._drop_events()

    @property
    def result(self) -> Result:
        """What the run came to; waits for its end. RunError and ReportError as iterating."""
        self._drop_events()
        assert self._ending is not None
        return Result(self._ending, self._status, b"".join(self._text), tuple(self._items))

    def _drop_events(self) -> None:
        for _ in self:
            pass

    def _stop(self, ending: Ending) -> None:
        with self._lock:
            if self._ending is None:
                self._ending = ending
                self._child.kill()

    def _read(self) -> Generator[events.Event, None, None]:
        output = self._program.output(self._child)
        try:
            for piece in output:
                yield from self._events_of(piece)
                if self._ending in _AT_ONCE:
                    break
        finally:
            output.close()
            if self._timer is not None:
                self._timer.cancel()
        failure = self._ended()
        assert self._ending is not None
        for event in self._reader.close(self._ending.value):
            self._build(event)
            yield event
        if failure is not None:
            raise RunError(failure)

    def _ended(self) -> Optional[str]:
        """Notes how the run ended; returns why it failed, if it did."""
        status = self._child.run.returncode
        with self._errors, self._lock:
            is_whole = status in (SOUND, FAULTY) and self._reader.is_whole
            if is_whole and self._ending not in _AT_ONCE:
                self._ending, self._status = Ending.COMPLETE, status
            if self._ending is None and self._is_out_of_time(status):
                self._ending = Ending.SECONDS
            if self._ending is not None:
                return None
            self._ending = Ending.FAILED
            return self._program.why(self._child, self._errors)

    def _is_out_of_time(self, status: int) -> bool:
        """Returns whether the limit of processor time ended the program, since the timer is late on a busy machine."""
        seconds = self._limits.seconds
        return status == -SIGKILL and seconds is not None and time.monotonic() >= self._begun + seconds

    def _events_of(self, piece: bytes) -> Iterator[events.Event]:
        """Yields what a piece of the text says, as far as the limits let it."""
        if self._room is not None:
            is_over = len(piece) > self._room
            piece = piece[: self._room]
            self._room -= len(piece)
        else:
            is_over = False
        self._text.append(piece)
        for event in self._reader.feed(piece):
            is_solution = _is_solution(event)
            if is_solution and self._has_enough():
                self._stop(Ending.SOLUTIONS)
            if self._ending in _AT_ONCE:
                return
            self._counted += is_solution
            self._build(event)
            yield event
            if isinstance(event, events.LineEvent) and self._has_enough():
                self._stop(Ending.SOLUTIONS)
        if is_over:
            self._stop(Ending.BYTES)

    def _has_enough(self) -> bool:
        return self._limits.solutions is not None and self._counted >= self._limits.solutions

    def _build(self, event: events.Event) -> None:
        item = self._builder.take(event)
        if item is not None:
            self._items.append(item)


def _is_solution(event: events.Event) -> bool:
    """Returns whether an event is a solution, or begins one."""
    if isinstance(event, events.NodeEvent):
        return event.place is events.Place.SOLUTION and event.level == 0
    if isinstance(event, events.FirstMoveEvent):
        return event.kind is events.FirstMoveKind.KEY
    return isinstance(event, events.LineEvent)
