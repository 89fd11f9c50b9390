"""Short algebraic notation: `Sbd2`, `exd6 ep.`, `b8=Q#`, with marks for the men."""

from typing import Optional

from pops_companions.chess.attacks import Men
from pops_companions.chess.men import Kind, Square
from pops_companions.chess.stipulation import Condition
from pops_companions.report.moves import PlayedMove
from pops_companions.sheet.boards import rivals
from pops_companions.sheet.languages import COLOUR_MARKS, MARKS


def short(men: Men, move: PlayedMove, condition: Optional[Condition]) -> str:
    """Returns a move of a position with these men."""
    mark = "" if move.mark is None else move.mark.value
    if move.castling is not None:
        return move.castling.value + mark
    parts = [_origin(men, move, condition), "x" * move.capture, move.arrival.name]
    parts.append(" ep." * move.en_passant)
    if move.promotion is not None:
        parts.append("=" + MARKS[move.promotion])
    if move.rebirth is not None:
        reborn = move.rebirth.man
        where = COLOUR_MARKS[reborn.colour] + MARKS[reborn.kind] + move.rebirth.square.name
        parts.append(f"[+{where}]")
    return "".join(parts) + mark


def _origin(men: Men, move: PlayedMove, condition: Optional[Condition]) -> str:
    """Returns the man, with so much of its square that no other man is meant."""
    if move.kind is Kind.PAWN:
        return move.origin.name[0] * move.capture
    others = rivals(men, move, condition)
    return MARKS[move.kind] + (_told_apart(move.origin, others) if others else "")


def _told_apart(origin: Square, others: list[Square]) -> str:
    if all(other.file != origin.file for other in others):
        return origin.name[0]
    return origin.name[1] if all(other.rank != origin.rank for other in others) else origin.name
