"""Positions of chess games and problems in FEN and EPD.

FEN and EPD as the PGN Standard defines them (sections 16.1 and 16.2), with orthodox men only.
"""

import re
from dataclasses import dataclass, field
from typing import Optional

from pops_companions.chess.men import Colour, Kind, Man, Square


class FenError(ValueError):
    """A text that is no FEN, with what is wrong."""


_KINDS = dict(zip("kqrbnp", Kind))
_ROOKS = {"K": "h1", "Q": "a1", "k": "h8", "q": "a8"}
_TURNS = {"w": Colour.WHITE, "b": Colour.BLACK}
# An operation's name and its values, apart: as one, every shorter name would be tried where the
# values have no end.
_NAME = re.compile(r"\s*([A-Za-z][A-Za-z0-9_]*)\s*")
_VALUES = re.compile(r'((?:"[^"]*"|[^";])*);')


@dataclass(frozen=True)
class Position:
    """A position. `rooks` are the corners of the castling rights, None where the text is silent."""

    men: dict[Square, Man]
    turn: Optional[Colour] = None
    rooks: Optional[frozenset[Square]] = None
    crossed: Optional[Square] = None
    operations: dict[str, str] = field(default_factory=dict)

    @property
    def turned(self) -> "Position":
        """Returns the position with colours and ranks reversed."""
        men = {
            square.mirrored: Man(man.colour.opponent, man.kind) for square, man in self.men.items()
        }
        return Position(
            men,
            None if self.turn is None else self.turn.opponent,
            None if self.rooks is None else frozenset(square.mirrored for square in self.rooks),
            None if self.crossed is None else self.crossed.mirrored,
            self.operations,
        )


def read_position(text: str) -> Position:
    """Returns the position of a FEN (six fields, the last ones may lack) or of an EPD with
    operations.

    FenError where a field isn't of its form. Whether the position can be played is left to pops.
    """
    fields = text.split(None, 4)
    men = _men(fields[0] if fields else "")
    turn = _turn(fields[1]) if len(fields) > 1 else None
    rooks = _rooks(fields[2]) if len(fields) > 2 else None
    crossed = _crossed(fields[3]) if len(fields) > 3 else None
    operations = _operations(fields[4]) if len(fields) > 4 else {}
    return Position(men, turn, rooks, crossed, operations)


def _men(placement: str) -> dict[Square, Man]:
    ranks = placement.split("/")
    if len(ranks) != 8:
        ranks_given = "1 rank" if len(ranks) == 1 else f"{len(ranks)} ranks"
        raise FenError(f"{ranks_given} in {placement!r} instead of 8")
    men = {}
    for rank, row in zip(range(8, 0, -1), ranks):
        file = 1
        for letter in row:
            if letter in "12345678":
                file += int(letter)
            elif letter.lower() in _KINDS:
                colour = Colour.WHITE if letter.isupper() else Colour.BLACK
                if file <= 8:
                    men[Square(file, rank)] = Man(colour, _KINDS[letter.lower()])
                file += 1
            else:
                raise FenError(f"{letter!r} in {row!r} is no man: K Q R B N P or small letters are")
        if file != 9:
            raise FenError(f"{file - 1} squares in rank {rank}, {row!r}, instead of 8")
    return men


def _turn(text: str) -> Colour:
    if text not in _TURNS:
        raise FenError(f"{text!r} isn't a side to move, w or b")
    return _TURNS[text]


def _rooks(text: str) -> frozenset[Square]:
    if text == "-":
        return frozenset()
    if not set(text) <= set(_ROOKS):
        raise FenError(f"{text!r} aren't castling rights, letters of KQkq or -")
    return frozenset(Square.of_name(_ROOKS[letter]) for letter in text)


def _crossed(text: str) -> Optional[Square]:
    if text == "-":
        return None
    try:
        return Square.of_name(text)
    except ValueError:
        raise FenError(f"{text!r} isn't an en passant square, as d6, or -") from None


def _operations(text: str) -> dict[str, str]:
    """Returns the operations of an EPD by their names. The two numbers that end a FEN are none."""
    if re.fullmatch(r"\d+(\s+\d+)?\s*", text):
        return {}
    text = text.rstrip()
    operations = {}
    place = 0
    while place < len(text):
        name = _NAME.match(text, place)
        values = None if name is None else _VALUES.match(text, name.end())
        if name is None or values is None:
            raise FenError(
                f"{text[place:].strip()!r} is neither the end of a FEN nor an operation of an EPD"
            )
        operations[name[1]] = values[1].strip().strip('"')
        place = values.end()
    return operations
