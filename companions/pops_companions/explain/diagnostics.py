"""What is wrong with a text of problems, as data: where it is, why, and what mends it."""

from bisect import bisect_right
from collections.abc import Iterable, Iterator, Mapping, Sequence
from dataclasses import dataclass
from typing import Any, Optional

from pops_companions.explain.explaining import ExplainedFault, explain
from pops_companions.explain.mending import edit_for, further_faults
from pops_companions.explain.near import near_of
from pops_companions.explain.notices import notices
from pops_companions.input.pieces import Piece, cut
from pops_companions.input.words import Span, line_bounds
from pops_companions.report.items import Fault, Item


@dataclass(frozen=True)
class Range:
    """Some characters of a text: line and column, from 1, and how many they are.

    A byte that isn't UTF-8 counts as a character.
    """

    line: int
    column: int
    length: int


@dataclass(frozen=True)
class Fix:
    """What to write in place of some characters."""

    range: Range
    text: str


@dataclass(frozen=True)
class Diagnostic:
    """What is wrong with a problem. Without `fault` it is no fault, and may not be meant.

    `ranges` are the places that `cause` speaks of, the faulty word first. `problem` is None for text
    that is of no problem. The fault is certain; the cause and the fix are guesses.
    """

    problem: Optional[int]
    fault: Optional[Fault]
    ranges: tuple[Range, ...]
    cause: str
    fix: Optional[Fix]

    @property
    def line(self) -> int:
        return self.ranges[0].line

    @property
    def column(self) -> int:
        return self.ranges[0].column

    @property
    def length(self) -> int:
        return self.ranges[0].length


def diagnostic_object(file: str, found: Diagnostic) -> dict[str, Any]:
    """Returns a diagnostic of a file as a JSON object."""
    fault = found.fault
    return {
        "file": file,
        **vars(found.ranges[0]),
        "problem": found.problem,
        "fault": None if fault is None else {"number": fault.number, "text": fault.text},
        "cause": found.cause,
        "fix": None if found.fix is None else {**vars(found.fix.range), "text": found.fix.text},
        "related": [{**vars(it)} for it in found.ranges[1:]],
    }


class _Positions:
    """Where the bytes of a text stand."""

    def __init__(self, text: bytes):
        self._text = text
        self._bounds = line_bounds(text)

    def range(self, span: Span) -> Range:
        line = bisect_right(self._bounds, span.start)
        column = 1 + self._length(self._bounds[line - 1], span.start)
        return Range(line, column, self._length(span.start, span.stop))

    def whole_line(self, line: int) -> Range:
        return self.range(Span(self._bounds[line - 1], self._bounds[line] - 1))

    def _length(self, start: int, stop: int) -> int:
        return len(self._text[start:stop].decode("utf-8", "surrogateescape"))

    def ranges(self, explained: ExplainedFault) -> tuple[Range, ...]:
        """Returns the marks of an explained fault, first the one on the line of the fault."""
        marks = [self.range(mark) for mark in explained.explanation.marks]
        line = min(explained.fault.line, len(self._bounds) - 1)
        first = next((it for it in marks if it.line == explained.fault.line), None)
        if first is None:
            # (what is missing is missing at the end of a line)
            last = self.whole_line(line)
            first = Range(line, last.column + last.length, 0)
        return (first, *(it for it in marks if it != first))


def diagnostics(
    text: bytes,
    items: Iterable[Item],
    every: bool,
    places: Optional[Mapping[int, Span]] = None,
) -> Iterator[Diagnostic]:
    """Yields what is wrong with a text whose report has these items, problem by problem, then what
    may not be meant.

    `every` is whether the faults after the first one of a problem are found too; `places` has where
    pops finds the first ones, as far as that is known. OtherText where the report isn't of this
    text.
    """
    positions, pieces = _Positions(text), cut(text)

    def told(explained: ExplainedFault, fix: Optional[Fix]) -> Diagnostic:
        ranges = positions.ranges(explained)
        cause = explained.explanation.text
        return Diagnostic(explained.problem, explained.fault, ranges, cause, fix)

    for explained in explain(text, items, places):
        yield told(explained, _fix(text, pieces, explained.problem, positions))
        for other in further_faults(text, pieces, explained.problem) if every else ():
            yield told(other, None)
    for notice in notices(text):
        yield Diagnostic(
            notice.problem, None, (positions.whole_line(notice.line),), notice.text, None
        )


def _fix(
    text: bytes, pieces: Sequence[Piece], problem: int, positions: _Positions
) -> Optional[Fix]:
    if problem > len(pieces):
        return None
    near = near_of(text, pieces, problem)
    reading = near.read()
    if reading is None or reading.number is None:
        return None
    edit = edit_for(near.text, near.number, reading)
    if edit is None:
        return None
    span = near.in_whole(edit.span)
    return Fix(positions.range(span), edit.text.decode("utf-8", "surrogateescape"))
