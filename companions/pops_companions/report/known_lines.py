"""What lines of solutions say, each read once: a move of battle play, or the moves of a line of help play."""

from typing import NamedTuple, Optional

from pops_companions.chess.stipulation import Stipulation
from pops_companions.report.moves import Mark, PlayedMove, prefix
from pops_companions.report.steps import Step, read_step

# So that the memory is bounded.
MOST_KNOWN = 1 << 14


class Form(NamedTuple):
    """What decides, beside the board, what a line of a phase says."""

    stipulation: Stipulation
    is_circe: bool
    first_half: int

    @property
    def halves(self) -> int:
        """How many half-moves the longest play has."""
        stipulation = self.stipulation
        return stipulation.first_half + stipulation.half_moves - self.first_half

    def has_reached(self, move: PlayedMove) -> Optional[bool]:
        """Returns whether a move reaches the goal; None if it has a sign that it can't have here."""
        if move.rebirth is not None and not self.is_circe:
            return None
        if move.mark in (None, Mark.CHECK):
            return False
        is_goal = move.mark is not None and move.mark.value == self.stipulation.goal.value
        return True if is_goal and move.side is self.stipulation.last_side else None


class KnownNode(NamedTuple):
    """What a line of a tree says: its level, the whole line, its move, which levels the next move may
    have, and what the move needs and changes on the board.

    `parent` has the number of the move below which the line was seen last.
    """

    level: int
    text: str
    move: PlayedMove
    least: int
    most: int
    parent: list[int]
    step: Step


class KnownNodes(dict[bytes, Optional[KnownNode]]):
    """Lines of battle play. It has None for another line."""

    def __init__(self, form: Form):
        super().__init__()
        self._form = form
        halves = range(form.first_half, form.first_half + form.halves)
        # How the lines of each level begin, their half-move, and who makes it.
        self._levels = [
            ("  " * level + prefix(half), half, form.stipulation.side(half))
            for level, half in enumerate(halves)
        ]

    def __missing__(self, line: bytes) -> Optional[KnownNode]:
        node = self._node(line.decode("latin-1"))
        if node is not None:
            if len(self) >= MOST_KNOWN:
                self.clear()
            self[line] = node
        return node

    def _node(self, text: str) -> Optional[KnownNode]:
        deepest = len(self._levels) - 1
        level = (len(text) - len(text.lstrip(" "))) // 2
        found = read_step(text, *self._levels[level]) if level <= deepest else None
        if found is None:
            return None
        move, step = found
        has_reached = self._form.has_reached(move)
        if has_reached:
            return KnownNode(level, text, move, 0, level, [0], step)
        if has_reached is None or level == deepest:
            return None
        return KnownNode(level, text, move, level + 1, level + 1, [0], step)


class KnownMoves(dict[str, tuple[PlayedMove, Step]]):
    """The moves at a place of lines of help play, with their numbers. KeyError for another word."""

    def __init__(self, form: Form, place: int):
        super().__init__()
        self._form = form
        half = form.first_half + place
        lead = prefix(half) if half % 2 == 1 or place == 0 else ""
        self._read_as = lead, half, form.stipulation.side(half)
        self._is_last = place == form.halves - 1

    def __missing__(self, word: str) -> tuple[PlayedMove, Step]:
        found = read_step(word, *self._read_as)
        if found is None or self._form.has_reached(found[0]) is not self._is_last:
            raise KeyError(word)
        if len(self) >= MOST_KNOWN:
            self.clear()
        self[word] = found
        return found
