"""Moves as a report prints them."""

import re
from dataclasses import dataclass
from enum import Enum
from typing import Optional

from pops_companions.chess.men import LETTERS, Colour, Kind, Man, Square


class Castling(Enum):
    """Castling by its printed text: to the h side or to the a side."""

    SHORT = "0-0"
    LONG = "0-0-0"


class Mark(Enum):
    """What a move does to the king; its value is the sign after the move."""

    CHECK = "+"
    MATE = "#"
    STALEMATE = "="


@dataclass(frozen=True)
class Rebirth:
    """A man put back on the board by a capture under Circe."""

    man: Man
    square: Square


@dataclass(frozen=True)
class PlayedMove:
    """A move of a solution. `text` is what the report prints, without the number.

    A castling has the king's kind, origin and arrival.
    """

    text: str
    half: int
    side: Colour
    kind: Kind
    origin: Square
    arrival: Square
    capture: bool = False
    en_passant: bool = False
    promotion: Optional[Kind] = None
    castling: Optional[Castling] = None
    rebirth: Optional[Rebirth] = None
    mark: Optional[Mark] = None


_REBORN = LETTERS.replace("K", "")
_PROMOTED = _REBORN.replace("P", "")
_MOVE = re.compile(
    r"(?:(?P<castling>0-0-0|0-0)"
    rf"|(?P<man>[K{_PROMOTED}]?)(?P<origin>[a-h][1-8])(?P<step>[-*])(?P<arrival>[a-h][1-8])"
    rf"(?P<en_passant> ep\.)?(?:=(?P<promotion>[{_PROMOTED}]))?"
    rf"(?:\[\+(?P<reborn_colour>[wb])(?P<reborn_kind>[{_REBORN}])(?P<reborn_square>[a-h][1-8])\])?)"
    r"(?P<mark>[#+=]?)(?= |$)",
    re.ASCII,
)


def prefix(half: int) -> str:
    """Returns the number printed before a half-move: `2.` for half-move 3, `2...` for half-move 4."""
    return f"{(half + 1) // 2}." if half % 2 == 1 else f"{half // 2}..."


def read_move(text: str, place: int, half: int, side: Colour) -> Optional[tuple[PlayedMove, int]]:
    """Returns the move at a place of a line and where it ends; None where there is none."""
    parts = _MOVE.match(text, place)
    return None if parts is None else (_played(parts, half, side), parts.end())


def _played(parts: "re.Match[str]", half: int, side: Colour) -> PlayedMove:
    mark = Mark(parts["mark"]) if parts["mark"] else None
    if parts["castling"]:
        castling = Castling(parts["castling"])
        rank = 1 if side is Colour.WHITE else 8
        king, arrival = Square(5, rank), Square(7 if castling is Castling.SHORT else 3, rank)
        return PlayedMove(
            parts[0], half, side, Kind.KING, king, arrival, castling=castling, mark=mark
        )
    rebirth = None
    if parts["reborn_kind"]:
        colour = Colour.WHITE if parts["reborn_colour"] == "w" else Colour.BLACK
        reborn = Man(colour, Kind(parts["reborn_kind"]))
        rebirth = Rebirth(reborn, Square.of_name(parts["reborn_square"]))
    return PlayedMove(
        parts[0],
        half,
        side,
        Kind(parts["man"] or "P"),
        Square.of_name(parts["origin"]),
        Square.of_name(parts["arrival"]),
        parts["step"] == "*",
        parts["en_passant"] is not None,
        Kind(parts["promotion"]) if parts["promotion"] else None,
        None,
        rebirth,
        mark,
    )
