"""Parts of a problem, and what the program pops-part says of them.

A phase is cut by its first moves, one or a few of them. pops-part lists how many parts there are
and solves each; in their order they make the phase.
"""

import re
from collections.abc import Iterable, Iterator
from typing import NamedTuple, Optional

from pops_companions.input.pieces import cut
from pops_companions.many.tasks import Task
from pops_companions.report import lines

# A phase of more parts than that is cut too small.
MOST_PARTS = 100_000
# The longest line that is looked at as a whole: a total is short.
_LONGEST_LINE = 1 << 16

_SOUND = lines.SOUND + b"\n\n"
# A total between the line ends: other lines aren't looked at one by one.
_TOTAL_LINE = re.compile(rb"\n%s(?=\n)" % lines.TOTAL.pattern)
_LIST = re.compile(
    rb"1: (?:set (?:(?P<set>[0-9]{1,18})|(?P<barred>not possible)), )?play (?P<play>[0-9]{1,18})\n"
)


class PartsError(Exception):
    """A problem that can't be cut into parts, with the reason."""


class Phase(NamedTuple):
    """A phase and how many parts it has; None where it isn't possible."""

    name: str
    parts: Optional[int]


class Key(NamedTuple):
    """Identifies a part in a run. `place` is its problem's, `depth` the moves by which it is cut."""

    place: int
    phase: str
    number: int
    depth: int


class Part(NamedTuple):
    """One part of a phase of a problem, numbered from 1."""

    task: Task
    phase: str
    number: int
    depth: int

    @property
    def key(self) -> Key:
        return Key(self.task.place, self.phase, self.number, self.depth)

    @property
    def text(self) -> bytes:
        """The problem as an input of its own."""
        return self.task.text_without_line_ends

    @property
    def shown(self) -> str:
        """The part as messages name it."""
        return f"part {self.number} of the {self.phase} of {self.task.shown}"


def phases_listed(listed: bytes) -> list[Phase]:
    """Returns the phases that pops-part lists of one problem."""
    found = _LIST.fullmatch(listed)
    if found is None:
        raise PartsError(f"pops-part lists no parts but {listed[:80]!r}")
    phases = [Phase("play", int(found["play"]))]
    if found["barred"]:
        phases.insert(0, Phase("set", None))
    elif found["set"]:
        phases.insert(0, Phase("set", int(found["set"])))
    if any((phase.parts or 0) > MOST_PARTS for phase in phases):
        raise PartsError("more than 100,000 parts: a smaller --split-depth makes fewer")
    return phases


def limit_of(text: bytes) -> Optional[int]:
    """Returns the limit of the last MaxSolutions of a sound problem, where it has one."""
    # (loaded only here: it takes longer than a small run)
    from pops_companions.input.reading import FaultKind, read_piece

    reading = read_piece(text, cut(text)[0])
    if reading.number is FaultKind.BAD_LIMIT:
        raise PartsError("no number after MaxSolutions")
    return reading.limit


def head_of(checked: bytes) -> bytes:
    """Returns the head of a sound problem's report, from that of `pops --check`."""
    if not checked.endswith(b"\n" + _SOUND):
        raise PartsError("pops --check doesn't call it sound")
    return checked[: -len(_SOUND)]


def solutions_in(text: bytes) -> list[bytes]:
    """Returns the solutions: each a line, with the lines below it that stand further in."""
    solutions: list[list[bytes]] = []
    for line in text.splitlines(keepends=True):
        if line.startswith(b" ") and solutions:
            solutions[-1].append(line)
        else:
            solutions.append([line])
    return [b"".join(solution) for solution in solutions]


def without_totals(text: bytes) -> list[bytes]:
    """Returns the lines that don't say how many solutions there are."""
    return [line for line in text.splitlines(keepends=True) if not lines.is_total(line)]


def up_to_totals(pieces: Iterable[bytes]) -> Iterator[tuple[bytes, bool]]:
    """Yields the text in other pieces, each with at most one total, at its end, and whether it has."""
    rest = b""
    for piece in pieces:
        whole, end, rest = (rest + piece).rpartition(b"\n")
        whole, begin = whole + end, 0
        for found in _TOTAL_LINE.finditer(b"\n" + whole):
            # (its line end has the place before this one)
            yield whole[begin : found.end()], True
            begin = found.end()
        if begin < len(whole):
            yield whole[begin:], False
        if len(rest) > _LONGEST_LINE:
            yield rest, False
            rest = b""
    if rest:
        yield rest, False


def lines_without_total(report: bytes) -> bytes:
    """Returns the lines of a whole part's report but the last, which is its total."""
    return report[: report.rfind(b"\n", 0, -1) + 1]


def solutions_of(report: bytes) -> list[bytes]:
    """Returns the solutions of a part's report."""
    return solutions_in(b"".join(without_totals(report)))


def count_in(report: bytes) -> Optional[int]:
    """Returns how many solutions a part has; None where its report is cut or has another number."""
    start = report.rfind(b"\n", 0, -1) + 1
    total = lines.TOTAL.fullmatch(report, start, len(report) - 1) if report.endswith(b"\n") else None
    above = report[:start]
    begun = above.count(b"\n") - above.count(b"\n ") - above.startswith(b" ")
    return begun if total is not None and int(total[1]) == begun else None
