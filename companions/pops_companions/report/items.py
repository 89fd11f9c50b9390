"""What a report says of each problem."""

from collections.abc import Iterable, Iterator, Mapping
from dataclasses import dataclass
from enum import Enum
from typing import Optional, TypeVar, Union

from pops_companions.chess.men import Man, Square
from pops_companions.chess.stipulation import Condition, Stipulation
from pops_companions.report import lines
from pops_companions.report.moves import PlayedMove


class PhaseKind(Enum):
    """A phase of the solutions; its value is the printed word."""

    SET = "set"
    PLAY = "play"


@dataclass
class HelpLine:
    """A solution of help play: all its moves."""

    # (a report may have many)
    __slots__ = ("text", "moves")
    text: str
    moves: tuple[PlayedMove, ...]


@dataclass
class Node:
    """A move of battle play with what the report shows below it."""

    # (a report may have many)
    __slots__ = ("text", "move", "below")
    text: str
    move: PlayedMove
    below: "list[Node]"


@dataclass(frozen=True)
class Total:
    """How many solutions a phase has, and whether the limit of solutions ended it."""

    count: int
    stopped: bool


@dataclass(frozen=True)
class Phase:
    """Set play or play: its solutions, help lines or nodes.

    It has no total if it isn't possible, or if its problem is unfinished.
    """

    kind: PhaseKind
    solutions: tuple[Union[HelpLine, Node], ...]
    lines: tuple[str, ...]
    total: Optional[Total]
    last_line: str

    @property
    def is_possible(self) -> bool:
        return self.last_line != lines.NOT_POSSIBLE.decode("ascii")

    @property
    def nodes(self) -> list[Node]:
        """The moves of battle play of the first level."""
        return [it for it in self.solutions if isinstance(it, Node)]

    @property
    def help_lines(self) -> list[HelpLine]:
        return [it for it in self.solutions if isinstance(it, HelpLine)]

    @property
    def texts(self) -> tuple[str, ...]:
        """The help lines, or the moves of the first level, as the report has them."""
        return tuple(it.text.strip() for it in self.solutions)


@dataclass(frozen=True)
class Board:
    """A printed board: eight ranks, rank 8 first, of eight letters or points."""

    ranks: tuple[str, ...]

    @staticmethod
    def of_letters(letters: str) -> "Board":
        """Returns the board of the letters and points of all ranks."""
        return Board(tuple(letters[place : place + 8] for place in range(0, 64, 8)))

    @staticmethod
    def of_men(men: Mapping[Square, Man]) -> "Board":
        letters = (men[it].letter if it in men else "." for it in Square.of_diagram())
        return Board.of_letters("".join(letters))

    @property
    def letters(self) -> str:
        """The letters and points of all ranks."""
        return "".join(self.ranks)

    @property
    def men(self) -> dict[Square, Man]:
        """The men by their squares, in the order of the diagram."""
        return {
            square: Man.of_letter(letter)
            for square, letter in zip(Square.of_diagram(), self.letters)
            if letter != "."
        }


@dataclass(frozen=True)
class Fault:
    """The fault of a problem, with the faulty line of the input."""

    line: int
    number: int
    text: str


@dataclass(frozen=True)
class FaultyItem:
    """The report of a faulty problem."""

    number: int
    fault: Fault


@dataclass(frozen=True)
class SoundItem:
    """The report of a sound problem. Without phases the problem was checked and not solved.

    Title and author are bytes as the problem gave them, in whatever encoding. `unfinished` says why
    the report of the problem ends before its last total.
    """

    number: int
    title: Optional[bytes]
    author: Optional[bytes]
    board: Optional[Board]
    stipulation: Stipulation
    condition: Optional[Condition]
    phases: Optional[tuple[Phase, ...]]
    unfinished: Optional[str] = None

    @property
    def asked(self) -> str:
        """The line of stipulation and condition, as `h#2.5 Circe`."""
        condition = f" {self.condition.value}" if self.condition is not None else ""
        return self.stipulation.text + condition

    def phase(self, kind: PhaseKind) -> Optional[Phase]:
        """Returns a phase; None where the report doesn't show it."""
        return next((it for it in self.phases or () if it.kind is kind), None)


@dataclass(frozen=True)
class HeadlessItem:
    """An unfinished problem of which the report doesn't even show the stipulation."""

    number: int
    unfinished: str


Item = Union[FaultyItem, SoundItem]
AnyItem = Union[FaultyItem, SoundItem, HeadlessItem]
NamedItem = TypeVar("NamedItem", FaultyItem, SoundItem, Item, AnyItem)


def named_items(items: Iterable[NamedItem]) -> Iterator[tuple[str, NamedItem]]:
    """Yields each item with a unique name: its number, and from the second report on also the report's.

    Where reports follow each other, the items of the second are `2-1`, `2-2` and so on.
    """
    report = 1
    last = 0
    for item in items:
        if item.number <= last:
            report += 1
        last = item.number
        yield (f"{report}-{item.number}" if report > 1 else str(item.number)), item
