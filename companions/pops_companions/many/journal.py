"""The journal of a run: the reports of all its problems, in the order in which they came.

Its first line is a fingerprint of the run's inputs and options, and one of pops. Each report follows
a line with its task, status, length, and a checksum of all of it, so that a cut or changed record is
noticed; an unfinished report's line also has the seconds that its run took. The reports of tasks in
turn may be one record. Parts of a problem are kept in the same way, each with its phase, its number
and the number of moves by which the problem was cut. A record without a report notes another program
of the run, as pops-part or the pops of a machine: checksums of its name and of what it is.
"""

import fcntl
import hashlib
import mmap
import os
import re
import stat
import zlib
from collections.abc import Callable, Iterable, Iterator, Sequence
from typing import TYPE_CHECKING, NamedTuple, Optional, Union

from pops_companions.command import CommandError, DeviceError, Status
from pops_companions.many.tasks import UNFINISHED, Result, Source
from pops_companions.report import lines

if TYPE_CHECKING:
    # (loaded only by runs that need them: they take longer than a small run)
    from pops_companions.many.parts import Key, Part

_ANY_HEAD = b"pops-many journal "
_HEAD = _ANY_HEAD + b"4 "
_RECORD = re.compile(
    rb"tasks? (\d+)(?: number (\d+))? status (\d+)(?: seconds (\d+\.\d+))? bytes (\d+)"
)
_PART = re.compile(rb"part (\d+) (set|play) (\d+) depth (\d+) bytes (\d+)")
_PROGRAM = re.compile(rb"program ([0-9a-f]{64}) ([0-9a-f]{64}) bytes (0)")
_SUM = b" sum "
# In place of a program's name: notes that one was changed during the run.
_CHANGED = "a changed program"
_LONGEST_HEAD = 200
_PIECE = 1 << 20
# (its name is made of the report's: a link by that name isn't followed)
_OPEN = os.O_RDWR | os.O_NOFOLLOW | os.O_CLOEXEC
_Report = Union[bytes, memoryview]


class JournalError(CommandError):
    """A journal that isn't there, is in use, or belongs to no run or to another one."""

    def __init__(self, message: str):
        super().__init__(Status.USAGE, message)


class DamagedError(CommandError):
    """A journal that somebody else changed while it was in use."""

    def __init__(self, path: str):
        super().__init__(Status.UNFINISHED, f"{path} was changed while it was in use: remove it")


class Record(NamedTuple):
    """Where a report is in the journal, and how long its line before it is."""

    start: int
    length: int
    line: int


class Kept(NamedTuple):
    """A report in the journal, of how many tasks, and the seconds of an unfinished problem."""

    status: int
    seconds: Optional[float]
    record: Record
    tasks: int = 1

    @property
    def length(self) -> int:
        """The bytes of the report."""
        return self.record.length


class Origin(NamedTuple):
    """What the reports come from: fingerprints of the inputs with the options, and of pops."""

    run: bytes
    pops: bytes


def fingerprint(sources: Sequence[Source], options: Sequence[str]) -> bytes:
    """Returns a checksum of a run's inputs and options."""
    total = hashlib.sha256(repr(list(options)).encode("utf-8", "surrogateescape"))
    for source in sources:
        text = source.text
        own = b"left to pops" if text is None else hashlib.sha256(text).digest()
        total.update(hashlib.sha256(own).digest())
    return total.hexdigest().encode("ascii")


def _digest(text: str) -> bytes:
    return hashlib.sha256(text.encode("utf-8", "surrogateescape")).hexdigest().encode("ascii")


def is_begun(line: bytes) -> bool:
    """Returns whether a journal's first line is whole: otherwise it keeps nothing."""
    return line.startswith(_ANY_HEAD) and line.endswith(b"\n")


def _with_sum(head: bytes, report: Iterable[_Report]) -> bytes:
    """Returns a record's line with the checksum of the line and the report."""
    total = zlib.crc32(head)
    for piece in report:
        total = zlib.crc32(piece, total)
    return _line_of(head, total)


def _line_of(head: bytes, total: int) -> bytes:
    return b"%s%s%d\n" % (head, _SUM, total)


def _has_items(report: bytes, number: int) -> bool:
    """Returns whether a report has this number of items and nothing else."""
    *items, rest = report.split(lines.ITEM_END)
    return (len(items), rest) == (number, b"") and all(map(lines.PROBLEM.match, items))


def _report_of(result: Result) -> list[_Report]:
    """Returns the parts of a result's report; what is in a file isn't read into memory."""
    if result.spooled is None or os.fstat(result.spooled.fileno()).st_size == 0:
        return [result.report]
    file = mmap.mmap(result.spooled.fileno(), 0, access=mmap.ACCESS_READ)
    return [result.report, memoryview(file)[result.skipped :]]


def _why_foreign(known: os.stat_result) -> Optional[str]:
    """Returns why a file isn't one that a run of this user made: another could have written anything in it."""
    if not stat.S_ISREG(known.st_mode):
        return "a device or a pipe: a journal is a file"
    return None if known.st_uid == os.geteuid() else "another user's: remove it, or name another journal"


class Journal:
    """An open journal, new or of a run that goes on. `tasks` is how many tasks the run has, `seconds` the
    time limit of each problem.
    """

    def __init__(self, path: str, origin: Origin, resume: bool, tasks: int, seconds: Optional[float]):
        """Opens the journal. JournalError where it isn't there to be gone on with, or is another's.

        No other run opens it meanwhile.
        """
        self.path = path
        # By their first tasks.
        self.kept: dict[int, Kept] = {}
        self._finished: set[int] = set()
        self.parts: dict[Key, Kept] = {}
        # Raises what keeps a report from being kept.
        self.refuse: Callable[[], None] = lambda: None
        # What other programs are, by their names, both as checksums.
        self._programs: dict[bytes, bytes] = {}
        self._tasks = tasks
        self._seconds = seconds
        self._origin = origin
        self._head = b"%s%s %s\n" % (_HEAD, *origin)
        # (it has the reports, whoever may read the file that they are for)
        opened = os.open(path, _OPEN | (0 if resume else os.O_CREAT), 0o600)
        if foreign := _why_foreign(os.fstat(opened)):
            os.close(opened)
            raise JournalError(f"{path} is {foreign}")
        self._file = os.fdopen(opened, "r+b")
        try:
            self._begin(resume)
        except BaseException:
            self._file.close()
            raise
        self._end = self._file.tell()

    def _begin(self, resume: bool) -> None:
        try:
            fcntl.flock(self._file, fcntl.LOCK_EX | fcntl.LOCK_NB)
        except BlockingIOError:
            raise JournalError(f"{self.path} is in use by another run") from None
        except OSError as error:
            # (an empty one keeps nothing)
            if self.is_there and not os.fstat(self._file.fileno()).st_size:
                os.unlink(self.path)
            raise DeviceError(f"{self.path} can't be locked: {error.strerror}") from None
        if not self.is_there:
            # (it ended just now, and removed its journal)
            raise JournalError(f"{self.path} was removed by another run: try again")
        start = self._file.read(len(self._head) + 1)
        self._file.seek(0)
        if self._head.startswith(start):
            # (new, or of a run that ended before it kept anything, maybe within this line)
            self._file.write(self._head)
            self._file.flush()
        elif resume:
            self._read_all()
        else:
            raise JournalError(
                f"{self.path} is the journal of a run that stopped: go on with --resume,"
                " or remove it"
            )

    def _read_all(self) -> None:
        """Reads what is kept; a last record that was cut is dropped."""
        head = self._file.readline(len(self._head))
        if not head.startswith(_ANY_HEAD):
            raise JournalError(f"{self.path} is no journal of pops-many")
        if not head.startswith(_HEAD):
            raise JournalError(f"{self.path} is of another version of pops-many: remove it")
        if not head.startswith(b"%s%s " % (_HEAD, self._origin.run)):
            raise JournalError(f"{self.path} belongs to other problems or options")
        if head != self._head:
            raise JournalError(
                f"{self.path} is of another pops: name that one with --pops, or remove it"
            )
        end = self._file.tell()
        while self._read_record():
            end = self._file.tell()
        self._file.seek(end)
        self._file.truncate()
        if _digest(_CHANGED) in self._programs:
            raise JournalError(
                f"{self.path} is of a run during which a program was changed: remove it"
            )

    def _read_record(self) -> bool:
        """Reads a record; False at the end of those that are whole."""
        line = self._file.readline(_LONGEST_HEAD)
        head = line.rpartition(_SUM)[0]
        of_tasks = _RECORD.fullmatch(head)
        of_part, of_program = _PART.fullmatch(head), _PROGRAM.fullmatch(head)
        found = of_tasks or of_part or of_program
        if found is None:
            return False
        start, length = self._file.tell(), int(found.groups()[-1])
        if length > os.fstat(self._file.fileno()).st_size - start:
            return False
        if line != _with_sum(head, self._pieces(start, length)):
            return False
        self._file.seek(start + length)
        at = Record(start, length, len(line))
        if of_tasks:
            place, number, status, seconds, _ = of_tasks.groups()
            if number and not _has_items(b"".join(self._pieces(start, length)), int(number)):
                return False
            had = float(seconds) if seconds else None
            return self._note(int(place), Kept(int(status), had, at, int(number or 1)))
        if of_part:
            from pops_companions.many.parts import Key

            phase = of_part[2].decode("ascii")
            key = Key(int(of_part[1]), phase, int(of_part[3]), int(of_part[4]))
            self.parts[key] = Kept(0, None, at)
        if of_program:
            self._programs[of_program[1]] = of_program[2]
        return True

    def _note(self, place: int, kept: Kept) -> bool:
        """Notes a record; unfinished reports of its tasks no longer count. False where the run has no
        task like it.
        """
        if place + kept.tasks > self._tasks or kept.status > UNFINISHED:
            return False
        places = range(place, place + kept.tasks)
        if not self._finished.isdisjoint(places):
            # (a journal that somebody changed: a task is finished once)
            return True
        self.kept[place] = kept
        if kept.seconds is None:
            self._finished.update(places)
            for of_task in range(place + 1, place + kept.tasks):
                self.kept.pop(of_task, None)
        return True

    def keep(self, result: Result) -> None:
        """Adds a report; it takes the place of an unfinished one of the same problem. Its file is closed.
        """
        self.refuse()
        place, report = result.task.place, _report_of(result)
        of = b"tasks %d number %d" % (place, result.tasks) if result.tasks > 1 else b"task %d" % place
        seconds = b"" if result.seconds is None else b" seconds %f" % result.seconds
        head = b"%s status %d%s" % (of, result.status, seconds)
        at = self._add(head, report)
        self._note(place, Kept(result.status, result.seconds, at, result.tasks))
        if result.spooled is not None:
            result.spooled.close()

    def keep_part(self, part: "Part", report: bytes) -> None:
        """Adds the report of a part."""
        self.refuse()
        place, phase, number, depth = part.key
        head = b"part %d %s %d depth %d" % (place, phase.encode("ascii"), number, depth)
        self.parts[part.key] = Kept(0, None, self._add(head, [report]))

    def is_from(self, name: str, program: str) -> bool:
        """Returns whether a program is the one that the run had by this name, and notes a new one."""
        key, found = _digest(name), _digest(program)
        if key not in self._programs:
            self._add(b"program %s %s" % (key, found), [])
            self._programs[key] = found
        return self._programs[key] == found

    def spoil(self) -> None:
        """Notes that reports may be of two programs: no run goes on with them."""
        self.is_from(_CHANGED, "")

    def _add(self, head: bytes, report: list[_Report]) -> Record:
        """Writes a record; returns where its report is."""
        length = sum(map(len, report))
        head = _with_sum(b"%s bytes %d" % (head, length), report)
        end = self._end
        parts = [head, *report] if length > _PIECE else [b"".join([head, *report])]
        for left in map(memoryview, parts):
            while left:
                written = os.pwrite(self._file.fileno(), left, end)
                left, end = left[written:], end + written
        self._end = end
        return Record(end - length, length, len(head))

    def pieces(self, place: int) -> Iterator[bytes]:
        """Yields the kept report of a task, with the tasks that share its record."""
        return self._unchanged(self.kept[place].record)

    def report(self, place: int) -> bytes:
        """Returns the kept report of a task, with the tasks that share its record."""
        return b"".join(self.pieces(place))

    def part(self, part: "Part") -> bytes:
        """Returns the kept report of a part."""
        return b"".join(self._unchanged(self.parts[part.key].record))

    def _unchanged(self, record: Record) -> Iterator[bytes]:
        """Yields a report. DamagedError at the end if the record isn't what was written."""
        line = os.pread(self._file.fileno(), record.line, record.start - record.line)
        head = line.rpartition(_SUM)[0]
        total = zlib.crc32(head)
        for piece in self._pieces(record.start, record.length):
            total = zlib.crc32(piece, total)
            yield piece
        if line != _line_of(head, total):
            raise DamagedError(self.path)

    def _pieces(self, place: int, length: int) -> Iterator[bytes]:
        end = place + length
        while piece := os.pread(self._file.fileno(), min(end - place, _PIECE), place):
            yield piece
            place += len(piece)

    @property
    def finished(self) -> int:
        """How many tasks have their whole report kept."""
        return len(self._finished)

    def is_finished(self, place: int) -> bool:
        """Returns whether the whole report of a task is kept."""
        return place in self._finished

    def is_settled(self, place: int) -> bool:
        """Returns whether a task needs no run: it is finished, or had as much time as runs have
        now.
        """
        if place in self._finished:
            return True
        had = self.kept[place].seconds if place in self.kept else None
        return had is not None and self._seconds is not None and self._seconds <= had

    def has_unfinished(self, place: int) -> bool:
        """Returns whether an unfinished report of a task is kept."""
        return place in self.kept and not self.is_finished(place)

    def statuses(self) -> list[int]:
        return [kept.status for kept in self.kept.values()]

    @property
    def is_there(self) -> bool:
        """Returns whether the journal still has its name: not where somebody removed or replaced it."""
        try:
            return os.path.samestat(os.lstat(self.path), os.fstat(self._file.fileno()))
        except FileNotFoundError:
            return False

    def close(self, kept: bool) -> None:
        """Ends the journal; that of a run that is complete isn't kept."""
        if not kept and self.is_there:
            os.unlink(self.path)
        self._file.close()
