"""Solutions in Popeye's layout, in the order in which Popeye shows moves.

Layout and order are as in the solutions by Popeye that YACPDB publishes; the board is from memory. White's men come from h8
to a1, Black's from a1 to h8; of a man's moves those along a line from the farthest on.
"""

from collections.abc import Iterable, Iterator, Mapping
from dataclasses import replace
from enum import Flag, auto
from typing import Optional

from pops_companions.chess.men import Colour, Kind, Man, Square
from pops_companions.chess.stipulation import Stipulation
from pops_companions.report.events import Menace
from pops_companions.report.items import HelpLine, Node, Phase
from pops_companions.report.moves import PlayedMove, prefix
from pops_companions.report.tries import FirstMove, TriesItem

_BISHOP = ((-1, -1), (1, -1), (1, 1), (-1, 1))
_ROOK = ((0, -1), (-1, 0), (0, 1), (1, 0))
_KNIGHT = ((-2, -1), (-1, -2), (1, -2), (2, -1), (2, 1), (1, 2), (-1, 2), (-2, 1))
_DIRECTIONS = {
    (Kind.PAWN, Colour.WHITE): ((1, 1), (-1, 1), (0, 1)),
    (Kind.PAWN, Colour.BLACK): ((0, -1), (1, -1), (-1, -1)),
    (Kind.KNIGHT, Colour.WHITE): _KNIGHT,
    (Kind.KNIGHT, Colour.BLACK): _KNIGHT,
}
_PROMOTIONS = (None, Kind.QUEEN, Kind.KNIGHT, Kind.ROOK, Kind.BISHOP)


class Shown(Flag):
    """What Popeye's options ask for beside the keys."""

    KEYS = auto()
    VARIATIONS = auto()
    TRIES = auto()


def _step(move: PlayedMove) -> tuple[int, int]:
    """Returns the direction of a move: the step of a knight, and a unit for other men."""
    files, ranks = move.arrival.file - move.origin.file, move.arrival.rank - move.origin.rank
    if move.kind is Kind.KNIGHT:
        return files, ranks
    return (files > 0) - (files < 0), (ranks > 0) - (ranks < 0)


def _order(move: PlayedMove) -> tuple[int, int, int, int]:
    """Returns a key by which Popeye's order sorts moves of a side."""
    place = 8 * move.origin.rank + move.origin.file
    directions = _DIRECTIONS.get((move.kind, move.side), _BISHOP + _ROOK)
    step = _step(move)
    direction = directions.index(step) if step in directions else len(directions)
    reach = max(
        abs(move.arrival.file - move.origin.file), abs(move.arrival.rank - move.origin.rank)
    )
    promotion = _PROMOTIONS.index(move.promotion) if move.promotion in _PROMOTIONS else 9
    return (-place if move.side is Colour.WHITE else place), direction, -reach, promotion


def _in_order(nodes: Iterable[Node]) -> list[Node]:
    return sorted(nodes, key=lambda node: _order(node.move))


def shown_move(move: PlayedMove) -> str:
    """Returns a move as Popeye writes it: its mark stands apart."""
    if move.mark is None:
        return move.text
    return f"{move.text[: -len(move.mark.value)]} {move.mark.value}"


def _line(level: int, half: int, text: str) -> str:
    return f"{'':{2 + 4 * level}}{prefix(half)}{text}"


def _tree(nodes: Iterable[Node], level: int) -> Iterator[str]:
    for node in _in_order(nodes):
        yield _line(level, node.move.half, shown_move(node.move))
        yield from _tree(node.below, level + 1)


def with_all_defences(first: FirstMove, key: Node) -> FirstMove:
    """Returns a key with the defences that Popeye shows: with all its threats those that meet one.

    `key` is the key with all defences and their continuations, as pops shows it; pops-tries shows
    the defences that meet all threats.
    """
    threats = {_same(node.move) for node in first.threats}
    defences = (
        node
        for node in key.below
        if first.menace is not Menace.THREAT or threats - {_same(it.move) for it in node.below}
    )
    return replace(first, defences=tuple(defences))


def _same(move: PlayedMove) -> tuple[Square, Square, Optional[Kind]]:
    """Returns what a move has in common with itself after another reply."""
    return move.origin, move.arrival, move.promotion


def solution_lines(item: TriesItem, shown: Shown) -> Iterator[str]:
    """Yields the lines of a problem of battle play."""
    if item.set_play is not None and item.set_play.nodes:
        yield from _tree(item.set_play.nodes, 1)
        yield ""
    firsts = [(one, "!") for one in item.keys]
    if Shown.TRIES in shown:
        firsts += [(one, "?") for one in item.tries]
    for first, sign in sorted(firsts, key=lambda it: _order(it[0].move)):
        yield from _first_move(first, sign, shown)
        yield ""


def _first_move(first: FirstMove, sign: str, shown: Shown) -> Iterator[str]:
    menaces = {Menace.THREAT: " threat:", Menace.ZUGZWANG: " zugzwang."}
    says = menaces.get(first.menace, "") if first.menace is not None else ""
    has_more = Shown.VARIATIONS in shown
    text = f"{shown_move(first.move)} {sign}{says if has_more else ''}"
    yield _line(0, 1, text)
    if has_more:
        yield from _tree(first.threats, 2)
        yield from _tree(first.defences, 1)
    if first.refutations and has_more:
        yield "    but"
    for node in _in_order(first.refutations) if has_more else ():
        yield _line(1, node.move.half, f"{shown_move(node.move)} !")


def help_lines(phase: Phase) -> Iterator[str]:
    """Yields the lines of a phase of help play."""
    for line in phase.help_lines:
        yield "  " + _help_line(line)


def _help_line(line: HelpLine) -> str:
    words: list[str] = []
    for move in line.moves:
        lead = prefix(move.half) if move.half % 2 or not words else ""
        between = "   " if move.half % 2 and words else " " if words else ""
        words.append(f"{between}{lead}{shown_move(move)}")
    return "".join(words)


_EDGE = "+---a---b---c---d---e---f---g---h---+"
_BETWEEN = "|                                   |"


def board_lines(men: Mapping[Square, Man]) -> Iterator[str]:
    """Yields the lines of a board; Black's men have a minus sign."""
    yield _EDGE
    for rank in range(8, 0, -1):
        yield _BETWEEN
        cells = (_cell(men.get(Square(file, rank))) for file in range(1, 9))
        yield f"{rank}{''.join(cells)}   {rank}"
    yield _BETWEEN
    yield _EDGE


def _cell(man: Optional[Man]) -> str:
    if man is None:
        return "   ."
    return f"  {'-' if man.colour is Colour.BLACK else ' '}{man.kind.value}"


def asked_line(stipulation: Stipulation, men: Mapping[Square, Man]) -> str:
    """Returns the line below a board: the stipulation, and how many men each side has."""
    white = sum(man.colour is Colour.WHITE for man in men.values())
    counts = f"{white} + {len(men) - white}"
    return f"  {stipulation.text:<23}{counts:>10}"
