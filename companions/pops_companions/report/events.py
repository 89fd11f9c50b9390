"""What a report or a text of tries says, piece by piece, in the order in which it comes."""

from dataclasses import dataclass
from enum import Enum
from typing import Optional

from pops_companions.chess.stipulation import Condition, Stipulation
from pops_companions.report.items import Board, Fault, HelpLine, PhaseKind, Total
from pops_companions.report.moves import PlayedMove


Head = tuple[int, Optional[bytes], Optional[bytes], Optional[Board], Stipulation, Optional[Condition]]


class FirstMoveKind(Enum):
    """What a first move of a text of tries is; its value is the sign after the move."""

    KEY = "!"
    TRY = "?"


class Menace(Enum):
    """What a first move menaces; its value is the printed word."""

    THREAT = "threat"
    ZUGZWANG = "zugzwang"
    CHECK = "check"


class Place(Enum):
    """What a node belongs to: a phase of a report, or what a text of tries shows below a first move."""

    SOLUTION = "solution"
    THREAT = "threat"
    DEFENCE = "defence"


@dataclass(frozen=True)
class Event:
    """What a line, or a part of one, says; `problem` is the number of its problem."""

    problem: int


@dataclass(frozen=True)
class _OfPhase(Event):
    """What is said of a phase."""

    phase: PhaseKind


class ProblemEvent(Event):
    """A problem begins."""


@dataclass(frozen=True)
class FaultEvent(Event):
    """The problem is faulty."""

    fault: Fault


@dataclass(frozen=True)
class HeadEvent(Event):
    """The head of a sound problem. Title and author are bytes as the problem gave them."""

    title: Optional[bytes]
    author: Optional[bytes]
    board: Optional[Board]
    stipulation: Stipulation
    condition: Optional[Condition]

    @property
    def parts(self) -> Head:
        """The number of the problem, and what its head says."""
        return (self.problem, self.title, self.author, self.board, self.stipulation, self.condition)


class CheckedEvent(Event):
    """The problem was checked, is sound, and isn't solved."""


class PhaseEvent(_OfPhase):
    """A phase begins."""


class NotPossibleEvent(_OfPhase):
    """The phase isn't possible, and ends."""


@dataclass(frozen=True)
class LineEvent(_OfPhase):
    """A solution of help play."""

    line: HelpLine


@dataclass(frozen=True)
class NodeEvent(_OfPhase):
    """A move of battle play, below the last node before it that has one level less.

    `text` is its line with its number and without the blanks before it.
    """

    place: Place
    level: int
    text: str
    move: PlayedMove


@dataclass(frozen=True)
class TotalEvent(_OfPhase):
    """The phase ends with the number of its solutions."""

    total: Total


class NoTriesEvent(Event):
    """Help play, of which there are no tries."""


@dataclass(frozen=True)
class FirstMoveEvent(Event):
    """A key or a try. `text` is its line."""

    kind: FirstMoveKind
    text: str
    move: PlayedMove


@dataclass(frozen=True)
class MenaceEvent(Event):
    """What the first move before it menaces."""

    menace: Menace


@dataclass(frozen=True)
class RefutationEvent(Event):
    """A reply that refutes the try before it. `text` is its line without the blanks before it."""

    text: str
    move: PlayedMove


class StalemateEvent(Event):
    """The try before it stalemates, which refutes it."""


class TriesEvent(Event):
    """The tries begin."""


@dataclass(frozen=True)
class TriesTotalEvent(Event):
    """The tries end with their number."""

    count: int


@dataclass(frozen=True)
class EndEvent(Event):
    """The problem ends. `unfinished` says why it ends early, and is None for a finished one."""

    unfinished: Optional[str]
