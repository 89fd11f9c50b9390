"""Shows how far a run is on a terminal; elsewhere only of a long problem, now and then."""

import os
import sys
import threading
import time
from collections.abc import Callable, Iterator, Sequence
from contextlib import contextmanager
from typing import BinaryIO, NamedTuple, Optional, TypeVar

from pops_companions import interrupts

Read = TypeVar("Read")
_SECONDS_BETWEEN = 0.5
# Where standard error is no terminal.
SECONDS_ELSEWHERE = 30.0


class HowFar(NamedTuple):
    """How far a problem in parts is: the first moves that are done, of how many, its solutions, how
    many parts of all problems are left, and for how many seconds those are at work that are known.
    """

    done: int
    moves: int
    # Whether each part has a first move of its own: otherwise those done are reckoned.
    is_exact: bool
    solutions: int
    parts_left: int
    at_work: Sequence[float] = ()


# How much longer a part takes that takes longer than others, of the time that it took so far.
_SHARE_LEFT = 0.25


def duration(seconds: float) -> str:
    """Returns a time as `0:05`, `1:02:03` or `2 days 3:04:05`."""
    whole = int(seconds + 0.5)
    days, rest = divmod(whole, 86400)
    hours, rest = divmod(rest, 3600)
    minutes, rest = divmod(rest, 60)
    clock = f"{hours}:{minutes:02}:{rest:02}" if days or hours else f"{minutes}:{rest:02}"
    return f"{days} days {clock}" if days else clock


class Progress:
    """One line that is rewritten: how much is done, and the time left.

    It counts problems, and once problems are in parts, the parts of the problem that got on last.
    """

    def __init__(self, name: str):
        self._name = name
        self._before = self._done = self._total = 0
        self._parts_before = self._parts_left = self._most_at_work = 0
        # Makes the line of the problem in parts that got on last.
        self._line_of_parts: Optional[Callable[[float], str]] = None
        self._lock = threading.Lock()
        self._began = self._next = 0.0
        # Whether the last line is shown: a line that comes late isn't then.
        self._is_over = False
        # Whether standard error is a terminal.
        self.is_shown = sys.stderr.isatty()
        self._width = 0

    def reading(self, name: str, done: int, total: int) -> None:
        """Shows how much of a file is read."""
        percent = 100 * done // max(total, 1)
        self._tell(lambda seconds: f"{self._name}: {percent} % of {name} is read", False)

    def while_read(self, some: Iterator[Read], name: str, source: BinaryIO) -> Iterator[Read]:
        """Yields what is made of a file, and shows meanwhile how much of the file is read."""
        size = os.fstat(source.fileno()).st_size
        for one in some:
            yield one
            self.reading(name, source.tell(), size)
        self.end()

    def begin(self, done: int, total: int) -> None:
        """Begins a run of `total` problems, of which `done` are done."""
        self._is_over = False
        self._before = self._done = done
        self._total = total
        self._began = self._next = time.monotonic()

    def more(self, number: int = 1) -> None:
        """Counts this many problems more as done."""
        self._done += number
        is_last = self._done == self._total
        if is_last or self._line_of_parts is None:
            self._tell(self.line, is_last)

    def wait_on(self) -> None:
        """Shows that time passes while nothing is done."""
        self._tell(self._line_of_parts or self.line, False)

    @contextmanager
    def beating(self) -> Iterator[None]:
        """Shows meanwhile that time passes, without calls of `wait_on`."""
        ended = threading.Event()

        def beat() -> None:
            while not ended.wait(_SECONDS_BETWEEN):
                self.wait_on()

        heart = threading.Thread(target=beat, daemon=True)
        with interrupts.held() as as_before:
            with interrupts.quiet():
                heart.start()
            try:
                with as_before():
                    yield
            finally:
                ended.set()
                heart.join()

    def line(self, seconds: float) -> str:
        """Returns the line after `seconds` of this run."""
        text = f"{self._name}: {self._done} of {self._total} problems"
        left = self._total - self._done
        if left and self._done > self._before:
            text += f", about {duration(seconds / (self._done - self._before) * left)} left"
        elif left:
            text += f", {duration(seconds)} so far"
        return text

    def begin_parts(self, left: int) -> None:
        """Begins to count the `left` parts of all problems in parts."""
        self._parts_before = self._parts_left = left
        self._most_at_work = 0
        self._began = self._next = time.monotonic()
        if not self.is_shown:
            self._next += SECONDS_ELSEWHERE

    def part(self, problem: str, how_far: Callable[[], HowFar]) -> None:
        """Shows how far a problem is; `how_far` is called only when a line is due."""

        def line(seconds: float) -> str:
            now = how_far()
            self._parts_left = now.parts_left
            text = self.line_of_parts(problem, now, seconds)
            # In a narrow terminal without the FILE: a broken line can't be rewritten.
            if len(text) < _columns() or not _columns():
                return text
            return self.line_of_parts(problem.partition(" (")[0], now, seconds)

        self._line_of_parts = line
        self._tell(line, False)

    def line_of_parts(self, problem: str, now: HowFar, seconds: float) -> str:
        """Returns the line of a problem in parts after `seconds`."""
        about = "" if now.is_exact else "about "
        plural = "" if now.solutions == 1 else "s"
        text = f"{self._name}: {problem}: {about}{now.done} of {now.moves} first moves"
        text += f", {now.solutions} solution{plural}"
        done = self._parts_before - now.parts_left
        if done > 0 and now.parts_left > 0:
            text += f", about {duration(self._seconds_left(now, seconds))} left"
        elif now.parts_left > 0 and seconds >= 1:
            text += f", {duration(seconds)} so far"
        return text

    def _seconds_left(self, now: HowFar, seconds: float) -> float:
        """Returns how long the other parts take, if each takes as long as those that are done did: so
        the time goes down from second to second while parts are at work.
        """
        done = self._parts_before - now.parts_left
        if not now.at_work:
            return seconds / done * now.parts_left
        jobs = self._most_at_work = max(self._most_at_work, len(now.at_work))
        each = max(seconds * jobs - sum(now.at_work), 0) / done
        lacking = [max(each - it, it * _SHARE_LEFT) for it in now.at_work]
        waiting = max(now.parts_left - len(lacking), 0)
        return max((sum(lacking) + waiting * each) / jobs, *lacking)

    def _tell(self, line: Callable[[float], str], is_last: bool) -> None:
        """Writes a line, but where the one before is new."""
        with self._lock:
            now = time.monotonic()
            if self.is_shown and not self._is_over and (now >= self._next or is_last):
                self._is_over = is_last
                self._next = now + _SECONDS_BETWEEN
                text = line(now - self._began)
                _tell("\r" + text.ljust(self._width))
                self._width = len(text)
            elif not self.is_shown and self._line_of_parts and now >= self._next:
                self._next = now + SECONDS_ELSEWHERE
                _tell(line(now - self._began) + "\n")

    def say(self, message: str) -> None:
        """A message of its own line."""
        with self._lock:
            cleared = "\r" + " " * self._width + "\r" if self._width else ""
            self._width = 0
            _tell(f"{cleared}{self._name}: {message}\n")

    def end(self) -> None:
        """Ends the line."""
        if self._width:
            _tell("\n")
            self._width = 0


def _columns() -> int:
    """Returns how wide the terminal is; 0 where nobody knows."""
    try:
        return os.get_terminal_size(sys.stderr.fileno()).columns
    except OSError:
        return 0


def _tell(text: str) -> None:
    """Writes on standard error. If nobody reads it, as on a closed terminal, no later write fails."""
    try:
        sys.stderr.write(text)
        sys.stderr.flush()
    except OSError:
        os.dup2(os.open(os.devnull, os.O_WRONLY), sys.stderr.fileno())
