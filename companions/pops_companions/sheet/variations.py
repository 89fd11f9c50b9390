"""Trees of moves as lines: one line a variation, defences with the same continuations together."""

from collections.abc import Sequence
from dataclasses import dataclass, replace
from typing import Optional

from pops_companions.chess.attacks import Men
from pops_companions.chess.stipulation import Condition
from pops_companions.report.items import HelpLine, Node
from pops_companions.report.moves import prefix
from pops_companions.sheet.boards import after
from pops_companions.sheet.short import short

_Key = tuple[object, ...]


@dataclass(frozen=True)
class Line:
    """A line of a solution, with marks for the men, and how far it is set in."""

    text: str
    level: int = 0

    def set_in(self, levels: int = 1) -> "Line":
        return replace(self, level=self.level + levels)


@dataclass(frozen=True)
class Variations:
    """Lines of a problem under a condition."""

    condition: Optional[Condition]

    def short(self, men: Men, node: Node) -> str:
        return short(men, node.move, self.condition)

    def help_line(self, men: Men, line: HelpLine) -> Line:
        """Returns a line of help play."""
        parts: list[str] = []
        for move in line.moves:
            number = prefix(move.half) if move.half % 2 == 1 or not parts else ""
            parts.append(number + short(men, move, self.condition))
            men = after(men, move)
        return Line(" ".join(parts))

    def continuations(self, men: Men, nodes: Sequence[Node]) -> list[Line]:
        """Returns the lines of White's moves; moves with nothing below them share a line."""
        if not nodes:
            return []
        number = prefix(nodes[0].move.half)
        if not any(node.below for node in nodes):
            return [Line(number + "/".join(self.short(men, node) for node in nodes))]
        lines: list[Line] = []
        for node in nodes:
            below = self.defences(after(men, node.move), node.below)
            lines += _joined(number + self.short(men, node), below, prefix(node.move.half + 1))
        return lines

    def defences(self, men: Men, nodes: Sequence[Node]) -> list[Line]:
        """Returns the lines of Black's moves, those with the same continuations together."""
        groups: dict[_Key, list[Node]] = {}
        for node in nodes:
            groups.setdefault(_key(node.below), []).append(node)
        lines: list[Line] = []
        for group in groups.values():
            head = prefix(group[0].move.half) + ",".join(self.short(men, node) for node in group)
            # (where a move needs more of its square after one defence, all of them show it)
            below = max(
                (self.continuations(after(men, node.move), node.below) for node in group),
                key=lambda found: sum(len(line.text) for line in found),
            )
            lines += _joined(head, below, "")
        return lines


def _key(nodes: Sequence[Node]) -> _Key:
    return tuple((node.move.text, _key(node.below)) for node in nodes)


def _joined(head: str, below: Sequence[Line], number: str) -> list[Line]:
    """Returns a move with what is below it: in its line where only one line is, without its number.
    """
    if sum(line.level == 0 for line in below) != 1:
        return [Line(head), *(line.set_in() for line in below)]
    first, *more = below
    return [Line(f"{head} {first.text[len(number) :]}"), *more]
