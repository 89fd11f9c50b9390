"""Finds the legal move that a published solution means, in short or long algebraic notation."""

import re
from collections.abc import Iterable

from tests.plain_chess import EMPTY, Move, Position, square

_CASTLING = {"0-0": 2, "0-0-0": -2}
_PARTS = re.compile(
    r"(?P<man>[KQRBSNP]?)(?P<file>[a-h]?)(?P<rank>[1-8]?)(?P<step>[-x*:]?)"
    r"(?P<arrival>[a-h][1-8])=?(?P<promoted>[QRBSN]?)"
)


def meant(text: str, position: Position, moves: Iterable[Move]) -> list[Move]:
    """The moves of a position that a text may mean: one, more where it is vague, or none."""
    text = text.replace("O", "0")
    if text in _CASTLING:
        return [it for it in moves if _is_castling(position, it, _CASTLING[text])]
    parts = _PARTS.fullmatch(text)
    assert parts is not None, text
    found = [it for it in moves if _fits(parts, position, it)]
    return _with_step(parts["step"], position, found)


def _is_castling(position: Position, move: Move, files: int) -> bool:
    is_king = position.men[move.origin].upper() == "K"
    return is_king and move.arrival - move.origin == files


def _fits(parts: "re.Match[str]", position: Position, move: Move) -> bool:
    kind = position.men[move.origin].upper()
    promoted = parts["promoted"].replace("N", "S")
    file, rank = "abcdefgh"[move.origin % 8], str(move.origin // 8 + 1)
    return (
        kind == (parts["man"].replace("N", "S") or "P")
        and move.arrival == square(parts["arrival"])
        and promoted in ("", move.promoted)
        and parts["file"] in ("", file)
        and parts["rank"] in ("", rank)
        and not _is_castling(position, move, 2)
        and not _is_castling(position, move, -2)
    )


def _with_step(step: str, position: Position, found: list[Move]) -> list[Move]:
    """Keeps the moves that capture if the text says so; many texts leave out the sign."""
    if len(found) < 2:
        return found
    captures = step not in ("", "-")
    fitting = [it for it in found if _captures(position, it) == captures]
    return fitting or found


def _captures(position: Position, move: Move) -> bool:
    is_pawn = position.men[move.origin].upper() == "P"
    return position.men[move.arrival] != EMPTY or is_pawn and move.origin % 8 != move.arrival % 8
