"""Choices that a problem shouldn't leave: duals in trees, and help lines that part late."""

from collections.abc import Iterable, Iterator, Sequence
from dataclasses import dataclass
from enum import Enum

from pops_companions.report.items import HelpLine, Node
from pops_companions.report.moves import PlayedMove, prefix


class Place(Enum):
    """Where a choice stands: at the move that reaches the goal, or before it."""

    AT_THE_END = "at the end"
    EARLIER = "earlier"


@dataclass(frozen=True)
class Dual:
    """A choice after some moves. The last of its half-moves, by number, reaches the goal."""

    before: tuple[PlayedMove, ...]
    choices: tuple[PlayedMove, ...]
    last_half: int
    place: Place

    @property
    def move(self) -> int:
        return move_number(self.choices[0].half)

    @property
    def end(self) -> int:
        """The number of the move that reaches the goal."""
        return move_number(self.last_half)

    @property
    def by_promotion(self) -> bool:
        """Whether the same pawn's step is left, and only what it becomes is the choice."""
        steps = {(move.origin, move.arrival) for move in self.choices}
        return len(steps) == 1

    @property
    def text(self) -> str:
        """The moves before, then the choices: `1.Ra1-a6 b7*a6 2.b6-b7# | c6-c7#`."""
        lead = prefix(self.choices[0].half) if self.choices[0].half % 2 == 1 else ""
        choices = " | ".join(move.text for move in self.choices)
        return f"{line_text(self.before)} {lead}{choices}"

    def __str__(self) -> str:
        """The line of a finding, made when it is shown: a tree may have many thousands."""
        return self.text if self.place is Place.AT_THE_END else f"{self.text} (ends on move {self.end})"


def move_number(half: int) -> int:
    """Returns the number of the move that a half-move belongs to."""
    return (half + 1) // 2


def line_text(moves: Sequence[PlayedMove]) -> str:
    """Moves in one line, numbered as the report numbers help lines."""
    return " ".join(
        (prefix(move.half) if place == 0 or move.half % 2 == 1 else "") + move.text
        for place, move in enumerate(moves)
    )


def tree_duals(keys: Iterable[Node]) -> Iterator[Dual]:
    """Yields the duals of battle play: more than one continuation of White after a move of Black.

    White's last move is the one at the end, in a selfmate too, where it forces the goal.
    """
    for key in keys:
        duals: list[Dual] = []
        for defence in key.below:
            _add_duals(defence, [key.move], duals)
        yield from duals


def _add_duals(node: Node, path: list[PlayedMove], duals: list[Dual]) -> int:
    """Adds the duals after a move of Black and below it; returns the half-move of its deepest node.
    """
    if not node.below:
        return node.move.half
    path.append(node.move)
    place, last = len(duals), 0
    for white in node.below:
        half = white.move.half
        if white.below:
            path.append(white.move)
            half = max([_add_duals(black, path, duals) for black in white.below])
            path.pop()
        last = max(last, half)
    if len(node.below) > 1:
        choices = tuple([choice.move for choice in node.below])
        at_the_end = move_number(last) == move_number(choices[0].half)
        where = Place.AT_THE_END if at_the_end else Place.EARLIER
        duals.insert(place, Dual(tuple(path), choices, last, where))
    path.pop()
    return last


def reaches(node: Node, half: int) -> bool:
    """Returns whether a tree goes on to a half-move."""
    return node.move.half >= half or any(reaches(below, half) for below in node.below)


def late_partings(lines: Sequence[HelpLine]) -> Iterator[Dual]:
    """Yields the choices in help lines that begin alike: all but that of the first half-move."""
    if lines:
        yield from _partings([line.moves for line in lines], 0)


def _partings(lines: list[tuple[PlayedMove, ...]], depth: int) -> Iterator[Dual]:
    if depth == len(lines[0]) or len(lines) == 1:
        return
    groups: "dict[str, list[tuple[PlayedMove, ...]]]" = {}
    for line in lines:
        groups.setdefault(line[depth].text, []).append(line)
    if depth > 0 and len(groups) > 1:
        choices = tuple(group[0][depth] for group in groups.values())
        place = Place.AT_THE_END if depth == len(lines[0]) - 1 else Place.EARLIER
        yield Dual(lines[0][:depth], choices, lines[0][-1].half, place)
    for group in groups.values():
        yield from _partings(group, depth + 1)
