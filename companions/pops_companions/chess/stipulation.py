"""Stipulations and conditions, as a problem gives them and a report repeats them."""

import re
from dataclasses import dataclass
from enum import Enum

from pops_companions.chess.men import Colour


class Play(Enum):
    """How the two sides play."""

    DIRECT = "direct"
    SELF = "self"
    HELP = "help"

    # (a member is its own only equal; Enum's hash takes longer)
    __hash__ = object.__hash__


class Goal(Enum):
    """What the play is about; its value is the sign in the stipulation."""

    MATE = "#"
    STALEMATE = "="

    @property
    def word(self) -> str:
        return self.name.lower()


class Condition(Enum):
    """A condition of a problem; its value is the word that pops reads and prints."""

    CIRCE = "Circe"
    MADRASI = "Madrasi"


_STIPULATION = re.compile(r"([sh]?)([#=])(0|[1-9][0-9]{0,2})(\.5)?", re.ASCII)
MOST_MOVES = 16
_PLAYS = {"": Play.DIRECT, "s": Play.SELF, "h": Play.HELP}
_LETTERS = {play: letter for letter, play in _PLAYS.items()}


@dataclass(frozen=True)
class Stipulation:
    """A stipulation: `#2`, `s=3`, `h#2.5`. `moves` leaves out the half-move that `.5` adds."""

    play: Play
    goal: Goal
    moves: int
    half_more: bool

    @staticmethod
    def of_text(text: str) -> "Stipulation":
        """Returns the stipulation of a word in small letters. ValueError for any other word.

        How large the number may be is left to pops.
        """
        parts = _STIPULATION.fullmatch(text)
        if parts is None:
            raise ValueError(f"not a stipulation: {text!r}")
        play = _PLAYS[parts[1]]
        half_more = parts[4] is not None
        if half_more and play is not Play.HELP:
            raise ValueError(f"only help play has half a move more: {text!r}")
        return Stipulation(play, Goal(parts[2]), int(parts[3]), half_more)

    @property
    def text(self) -> str:
        return f"{_LETTERS[self.play]}{self.goal.value}{self.moves}{'.5' if self.half_more else ''}"

    @property
    def least_moves(self) -> int:
        """The least number of moves of its kind that pops takes."""
        return 0 if self.half_more else 1

    @property
    def most_moves(self) -> int:
        """The greatest number of moves of its kind that pops takes."""
        return MOST_MOVES - 1 if self.half_more else MOST_MOVES

    @property
    def is_in_range(self) -> bool:
        """Whether pops takes its number of moves."""
        return self.least_moves <= self.moves <= self.most_moves

    @property
    def half_moves(self) -> int:
        """The number of half-moves of the longest play."""
        if self.play is Play.DIRECT:
            return max(2 * self.moves - 1, 0)
        return 2 * self.moves + (1 if self.half_more else 0)

    @property
    def first_half(self) -> int:
        """The number of the first half-move of the play; set play begins one later."""
        return 2 if self.half_more else 1

    def side(self, half: int) -> Colour:
        """Returns who makes a half-move: Black the odd ones of help play, White of battle play."""
        odd = Colour.BLACK if self.play is Play.HELP else Colour.WHITE
        return odd if half % 2 == 1 else odd.opponent

    @property
    def last_side(self) -> Colour:
        """The side that reaches the goal."""
        return Colour.BLACK if self.play is Play.SELF else Colour.WHITE

    @property
    def starter(self) -> Colour:
        """The side that makes the first half-move of the play."""
        return self.side(self.first_half)
