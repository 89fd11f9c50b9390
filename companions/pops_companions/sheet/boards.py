"""Men before and after a printed move, and which other men could have made it."""

from collections.abc import Iterator, Sequence
from dataclasses import replace
from typing import Optional, Union

from pops_companions.chess.attacks import Men, attackers
from pops_companions.chess.men import Kind, Man, Square
from pops_companions.chess.stipulation import Condition
from pops_companions.report.items import Board, HelpLine, Node, SoundItem
from pops_companions.report.moves import Castling, PlayedMove
from pops_companions.report.steps import board_after, board_of
from pops_companions.report.tries import TriesItem

# Where the rook of a castling comes from, and where it goes.
_FILES_OF_ROOK = {Castling.SHORT: (8, 6), Castling.LONG: (1, 4)}


def after(men: Men, move: PlayedMove) -> Men:
    """Returns the men after a move."""
    return _moved(men, move, move.origin)


def _moved(men: Men, move: PlayedMove, origin: Square) -> Men:
    moved = dict(men)
    man = moved.pop(origin)
    if move.en_passant:
        moved.pop(Square(move.arrival.file, origin.rank), None)
    moved[move.arrival] = man if move.promotion is None else Man(man.colour, move.promotion)
    if move.castling is not None:
        corner, crossed = _FILES_OF_ROOK[move.castling]
        moved[Square(crossed, origin.rank)] = moved.pop(Square(corner, origin.rank))
    if move.rebirth is not None:
        moved[move.rebirth.square] = move.rebirth.man
    return moved


def are_possible(men: Men, item: Union[SoundItem, TriesItem]) -> bool:
    """Returns whether the men can make all moves that an item shows."""
    board = board_of(Board.of_men(men).letters)
    if isinstance(item, SoundItem):
        return all(_are_playable(board, phase.solutions) for phase in item.phases or ())
    nodes = [
        Node(it.text, it.move, [*it.threats, *it.defences, *it.refutations])
        for it in (*item.keys, *item.tries)
    ]
    set_play = () if item.set_play is None else item.set_play.solutions
    return _are_playable(board, nodes) and _are_playable(board, set_play)


def _are_playable(board: int, solutions: Sequence[Union[HelpLine, Node]]) -> bool:
    """Returns whether the men of a board can make the moves of solutions, also those below them."""
    for solution in solutions:
        moves = solution.moves if isinstance(solution, HelpLine) else [solution.move]
        moved = board_after(board, moves)
        below = () if isinstance(solution, HelpLine) else solution.below
        if moved is None or not _are_playable(moved, below):
            return False
    return True


def rivals(men: Men, move: PlayedMove, condition: Optional[Condition]) -> list[Square]:
    """Returns where other men of the same kind are that could legally move to the same square.

    Pawns have none: a capture by a pawn names its file.
    """
    if move.kind is Kind.PAWN or move.castling is not None:
        return []
    is_madrasi = condition is Condition.MADRASI
    man = men[move.origin]
    others = attackers(men, move.arrival, man.colour, is_madrasi)
    return [
        other
        for other in others
        if other != move.origin
        and men[other] == man
        and not _leaves_king(men, move, other, is_madrasi)
    ]


def arrivals(men: Men, move: PlayedMove, condition: Optional[Condition]) -> Iterator[Square]:
    """Yields where the man of a move could legally go: every square, and under Circe perhaps more.

    The man isn't a pawn; castling is left out.
    """
    is_madrasi = condition is Condition.MADRASI
    for target in Square.of_diagram():
        taken = men.get(target)
        if taken is not None and taken.colour is move.side:
            continue
        # (what is reborn may stand between the king and a check)
        is_reborn = taken is not None and condition is Condition.CIRCE
        other = replace(move, arrival=target, en_passant=False, promotion=None, rebirth=None)
        if move.origin in attackers(men, target, move.side, is_madrasi) and (
            is_reborn or not _leaves_king(men, other, move.origin, is_madrasi)
        ):
            yield target


def _leaves_king(men: Men, move: PlayedMove, origin: Square, is_madrasi: bool) -> bool:
    """Returns whether the man's own king is in check after it moves from another square."""
    moved = _moved(men, move, origin)
    king = Man(move.side, Kind.KING)
    return any(
        attackers(moved, place, move.side.opponent, is_madrasi)
        for place, man in moved.items()
        if man == king
    )
