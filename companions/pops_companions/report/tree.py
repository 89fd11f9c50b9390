"""The checks of a tree of battle play, move by move: its levels, its leaves, moves twice, the men on the board."""

from dataclasses import dataclass, field
from enum import Enum
from typing import Optional

from pops_companions.report.known_lines import KnownNode
from pops_companions.report.steps import Step

# More than the half-moves of any stipulation that pops takes.
_MOST_LEVELS = 64


class Detail(Enum):
    """How deep the trees of a problem go."""

    UNKNOWN = "not known yet"
    # The line that follows the last move shows it.
    SHOWN_NEXT = "shown by the next line"
    # In set play with White's continuations, in a text of tries with continuations of threats and defences.
    FIRST_MOVES = "the first moves"
    TO_THE_GOAL = "to the goal"


@dataclass
class TreeState:
    """Where in a tree the reading is: the levels that the next move may have, for each level the board
    before its moves and the number of the move above.

    `first_levels` is the deepest level that is shown without Variation.
    """

    detail: Detail = Detail.UNKNOWN
    first_levels: int = 0
    least: int = 0
    most: int = 0
    serial: int = 0
    # None where no board is printed.
    boards: Optional[list[int]] = None
    parents: list[int] = field(default_factory=lambda: [0] * (_MOST_LEVELS + 2))

    def begin(self, board: Optional[int], first_levels: int) -> None:
        """Begins a phase on a board."""
        self.first_levels = first_levels
        self.serial += 1
        self.least = self.most = 0
        self.parents[0] = self.serial
        self.boards = None if board is None else [board] * (_MOST_LEVELS + 2)

    def begin_below(self, level: int) -> None:
        """Goes on with moves of a level that follow the first move of the phase, whose level is 0."""
        self.least = self.most = level
        self.serial += 1
        self.parents[level] = self.serial
        if self.boards is not None:
            self.boards[level] = self.boards[1]

    @property
    def watched(self) -> int:
        """The level of the moves that may end what is shown short of the goal, or -1."""
        return -1 if self.detail is Detail.TO_THE_GOAL else self.first_levels

    def watch(self) -> None:
        """Takes a move of the level that is watched, and not to the goal, as the last one added."""
        if self.detail is Detail.FIRST_MOVES:
            self.least, self.most = 0, self.first_levels
        else:
            self.detail = Detail.SHOWN_NEXT

    def decide(self, line: bytes) -> None:
        """Notes how deep the trees go, if the line before had to show it."""
        if self.detail is Detail.SHOWN_NEXT:
            self.detail = Detail.TO_THE_GOAL
            if not line.startswith(b"  " * (self.first_levels + 1)):
                self.detail = Detail.FIRST_MOVES
                self.watch()

    def is_possible(self, step: Step, level: int) -> bool:
        """Returns whether the men on the board of a level can make a move."""
        return self.boards is None or self.boards[level] & step.mask == step.value

    def plays(self, step: Step, level: int) -> bool:
        """Plays a move of a level; returns whether it is possible."""
        if self.boards is not None:
            self.boards[level + 1] = self.boards[level] & step.kept | step.put
        return self.is_possible(step, level)

    def refusal(self, node: KnownNode) -> Optional[str]:
        """Returns what is expected in place of a move; None for one that may stand here."""
        level = node.level
        if not self.least <= level <= self.most:
            if level > self.most:
                return "a move, or the number of solutions"
            return "a move below the one above"
        if node.parent[0] == self.parents[level]:
            return "another move than the ones before"
        if not self.is_possible(node.step, level):
            return "a move that the men on the board can make"
        return None

    def add(self, node: KnownNode) -> None:
        """Adds a move that isn't refused."""
        level = node.level
        node.parent[0] = self.parents[level]
        self.serial += 1
        self.parents[level + 1] = self.serial
        self.plays(node.step, level)
        self.least, self.most = node.least, node.most
        if level == self.watched and node.least:
            self.watch()
