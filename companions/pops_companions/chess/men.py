"""Colours, men and squares, by the names and letters that pops uses."""

from collections.abc import Iterator, Mapping
from enum import Enum
from typing import Any, NamedTuple

from pops_companions.stored import stored


class Colour(Enum):
    """A side."""

    WHITE = "white"
    BLACK = "black"

    # (a member is its own only equal; Enum's hash takes longer)
    __hash__ = object.__hash__

    @property
    def opponent(self) -> "Colour":
        return Colour.BLACK if self is Colour.WHITE else Colour.WHITE


class Gait(Enum):
    """How a man moves by its steps: by one, by several over empty squares, or so to the first man
    and over it."""

    LEAPER = "leaper"
    RIDER = "rider"
    HOPPER = "hopper"

    __hash__ = object.__hash__


class Kind(Enum):
    """A kind of man; its value is the letter that pops reads and prints for it."""

    KING = "K"
    QUEEN = "Q"
    ROOK = "R"
    BISHOP = "B"
    KNIGHT = "S"
    PAWN = "P"
    GRASSHOPPER = "G"
    NIGHTRIDER = "N"

    __hash__ = object.__hash__

    @property
    def word(self) -> str:
        """The kind's English name, as `nightrider`."""
        return self.name.lower()


_TABLE: list[dict[str, Any]] = stored("chess/men.json")
LETTERS = "".join(kind.value for kind in Kind)
FAIRY_KINDS = tuple(Kind(it["letter"]) for it in _TABLE if it["fairy"])
GAITS = {Kind(it["letter"]): Gait(it["gait"]) for it in _TABLE}
# Steps in files to the right and ranks up; a pawn's are the captures of a white pawn.
STEPS = {Kind(it["letter"]): [(step[0], step[1]) for step in it["steps"]] for it in _TABLE}


class Man(NamedTuple):
    """A man of a colour."""

    colour: Colour
    kind: Kind

    @property
    def letter(self) -> str:
        """Its letter on a printed board: capital for White, small for Black."""
        return self.kind.value if self.colour is Colour.WHITE else self.kind.value.lower()

    def on(self, square: "Square") -> str:
        """As `white Ra1`."""
        return f"{self.colour.value} {self.kind.value}{square.name}"

    @staticmethod
    def of_letter(letter: str) -> "Man":
        """Returns the man of a printed board's letter. ValueError for any other letter."""
        man = _MEN.get(letter)
        if man is None:
            raise ValueError(f"not a man: {letter!r}")
        return man


class Square(NamedTuple):
    """A square; file and rank run from 1 to 8, the file a being 1."""

    file: int
    rank: int

    @property
    def name(self) -> str:
        """As `e4`."""
        return "abcdefgh"[self.file - 1] + str(self.rank)

    @property
    def mirrored(self) -> "Square":
        """The square that it becomes when the board is turned over, rank 1 to rank 8."""
        return Square(self.file, 9 - self.rank)

    @staticmethod
    def of_name(name: str) -> "Square":
        """Returns the square of a name from a1 to h8. ValueError for any other text."""
        square = _SQUARES.get(name)
        if square is None:
            raise ValueError(f"not a square: {name!r}")
        return square

    @staticmethod
    def of_names(names: str) -> "list[Square]":
        """Returns the squares of names without blanks, as `e4d5`."""
        return [Square.of_name(names[place : place + 2]) for place in range(0, len(names), 2)]

    @staticmethod
    def of_diagram() -> "Iterator[Square]":
        """Yields all squares as a diagram shows them: rank 8 first, each rank from a to h."""
        yield from _DIAGRAM


_MEN = {man.letter: man for man in (Man(colour, kind) for colour in Colour for kind in Kind)}
_SQUARES = {square.name: square for square in (Square(file, rank) for file in range(1, 9) for rank in range(1, 9))}
_DIAGRAM = [Square(file, rank) for rank in range(8, 0, -1) for file in range(1, 9)]


class Changes:
    """The men that one position has and another one lacks, and the other way round."""

    def __init__(self, before: Mapping[Square, Man], now: Mapping[Square, Man]):
        self.gone = {square: man for square, man in before.items() if now.get(square) != man}
        self.new = {square: man for square, man in now.items() if before.get(square) != man}

    def moved(self) -> Iterator[tuple[Man, Square, Square]]:
        """Yields the men that are elsewhere now, from where and to where, and takes them out."""
        for square, man in list(self.gone.items()):
            target = next((it for it, other in self.new.items() if other == man), None)
            if target is not None:
                yield man, square, target
                del self.gone[square], self.new[target]
