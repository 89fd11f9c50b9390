"""What is to be run, and what came of it."""

from bisect import bisect
from collections.abc import Sequence
from typing import IO, TYPE_CHECKING, NamedTuple, Optional, Union, overload

from pops_companions.command import Status
from pops_companions.many.cutting import Pieces
from pops_companions.report import lines

if TYPE_CHECKING:
    from pops_companions.input.pieces import Piece

# The most bytes that pops reads of an input. A longer one is left to one run of pops.
LONGEST_INPUT = 1 << 30

# The most line ends that a first run gets before its problem. A problem further down first runs
# without them, and only a faulty one runs again with them: reports of sound problems name no lines.
LINE_ENDS_AT_ONCE = 4096
# In place of an exit status of pops: the run was stopped when its time was over.
UNFINISHED = int(Status.UNFINISHED)

# A run on one problem numbers it 1.
HEAD = lines.problem_line(1)


class Source(NamedTuple):
    """An input: a file by its name, or standard input. Without text it is left to pops itself."""

    name: Optional[str]
    text: Optional[bytes]

    @property
    def shown(self) -> str:
        return self.name or "standard input"


class Task(NamedTuple):
    """One run of pops: a problem of a source, or all of a source that is left to pops."""

    place: int
    source: Source
    # The problems of its input, and its place among these; None where it is all of them.
    pieces: Optional[Pieces]
    at: int = 0

    @property
    def piece(self) -> "Optional[Piece]":
        """The problem; None where the source is left to pops."""
        return None if self.pieces is None else self.pieces.at(self.at)

    @property
    def shown(self) -> str:
        """The problem as messages name it."""
        if self.pieces is None:
            return self.source.shown
        return f"problem {self.at + 1} ({self.where})"

    @property
    def where(self) -> str:
        """Where a problem begins. For a problem alone."""
        return f"{self.source.shown}, line {self._alone[0].line}"

    @property
    def _alone(self) -> "tuple[Piece, bytes]":
        """The problem, and the text of its source. For a problem alone."""
        assert self.pieces is not None and self.source.text is not None
        return self.pieces.at(self.at), self.source.text

    @property
    def text(self) -> bytes:
        """The input of the first run. For a problem alone."""
        piece, text = self._alone
        return piece.alone(text, piece.line_ends <= LINE_ENDS_AT_ONCE)

    @property
    def text_with_line_ends(self) -> bytes:
        """The input that gives a fault its right line. For a problem alone."""
        piece, text = self._alone
        return piece.alone(text, True)

    @property
    def text_without_line_ends(self) -> bytes:
        """The shortest input, for a problem that is known to be sound."""
        piece, text = self._alone
        return piece.alone(text, False)

    def wants_line_ends(self, report: bytes) -> bool:
        """Returns whether the report of the first run is a fault with a wrong line."""
        piece = self._alone[0]
        lacking = piece.number > 1 and piece.line_ends > LINE_ENDS_AT_ONCE
        line = report[len(HEAD) :].partition(b"\n")[0]
        return lacking and lines.FAULT.fullmatch(line) is not None

    def numbered(self, report: bytes) -> bytes:
        """Returns the report with the problem's number in its input."""
        return report if self.pieces is None else self.under_its_number(report[len(HEAD) :])

    def under_its_number(self, rest: bytes) -> bytes:
        """Returns the lines of a report after their first one, which has the problem's number."""
        assert self.pieces is not None
        return lines.problem_line(self.at + 1) + rest


class Result(NamedTuple):
    """The report of a task, or of some in turn, with their numbers, and the exit status of their run.

    The report of an unfinished problem is the lines that were written in `seconds`.
    """

    task: Task
    status: int
    report: bytes
    seconds: Optional[float] = None
    # How many tasks it is of, from `task` on.
    tasks: int = 1
    # A file with the rest of the report, after some bytes that are skipped: where it is long.
    spooled: Optional[IO[bytes]] = None
    skipped: int = 0


def has_ended(status: int, report: bytes) -> bool:
    """Returns whether a run on one problem came to its end: its report is one item, with this status."""
    if not (report.startswith(HEAD) and report.endswith(lines.ITEM_END)):
        return False
    return status == (Status.GOOD if lines.FAULT.match(report, len(HEAD)) is None else Status.FAULTY)


def whole_lines(report: bytes) -> bytes:
    """Returns what a run that was stopped had written, without a last line that was cut."""
    return report[: report.rfind(b"\n") + 1]


class Input(NamedTuple):
    """An input with its problems, the first of which has this place among all tasks."""

    source: Source
    # None where the input is left to pops: it is one task then.
    pieces: Optional[Pieces]
    first: int

    @property
    def places(self) -> range:
        """The places of its tasks."""
        return range(self.first, self.first + (1 if self.pieces is None else len(self.pieces)))


class Tasks(Sequence[Task]):
    """Some tasks of the inputs, by their places among all; each made on demand."""

    def __init__(self, inputs: Sequence[Input], firsts: Sequence[int], places: Sequence[int]):
        """`firsts` are the places of the inputs' first tasks."""
        self.inputs = inputs
        self.places = places
        self._firsts = firsts

    def __len__(self) -> int:
        return len(self.places)

    @overload
    def __getitem__(self, at: int) -> Task: ...

    @overload
    def __getitem__(self, at: slice) -> "Tasks": ...

    def __getitem__(self, at: Union[int, slice]) -> "Union[Task, Tasks]":
        if isinstance(at, slice):
            return self.only(self.places[at])
        place = self.places[at]
        source, pieces, first = self.inputs[bisect(self._firsts, place) - 1]
        return Task(place, source, pieces, place - first)

    def only(self, places: Sequence[int]) -> "Tasks":
        """Returns only the tasks at these places among all."""
        return Tasks(self.inputs, self._firsts, places)


def tasks_of(sources: Sequence[Source]) -> Tasks:
    """Returns all tasks of the inputs, in their order."""
    inputs: list[Input] = []
    number = 0
    for source in sources:
        is_left = source.text is None or len(source.text) > LONGEST_INPUT
        pieces = None if is_left or source.text is None else Pieces(source.text)
        inputs.append(Input(source, pieces, number))
        number = inputs[-1].places.stop
    return Tasks(inputs, [it.first for it in inputs], range(number))
