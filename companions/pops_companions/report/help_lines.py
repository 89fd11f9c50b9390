"""The checks of lines of help play, in turn: lines twice, and men that aren't on the board."""

import re
from collections.abc import Sequence
from typing import Optional

from pops_companions.report.known_lines import KnownMoves
from pops_companions.report.moves import PlayedMove

Moves = tuple[PlayedMove, ...]
# How the last line begins up to a place: its last word, its moves, the board after them, and the words
# that followed them so far.
_Begun = tuple[str, Moves, int, set[str]]
_POSSIBLE = "moves that the men on the board can make"
# Parts the moves of a line; a move en passant has a blank itself.
_BLANK = re.compile(r" (?!ep\.)")


class LineRefused(Exception):
    """A line can't stand where it is; says what is expected in its place."""


class HelpState:
    """Where in the lines of a phase the reading is. Lines that begin alike follow each other."""

    def __init__(self) -> None:
        self.begin((), None)

    def begin(self, known: Sequence[KnownMoves], board: Optional[int]) -> None:
        """Begins a phase, with what is known of the words of each place, on a board."""
        self._known = known
        self._has_board = board is not None
        self._begun: list[_Begun] = [("", (), board or 0, set())]

    def moves_of(self, text: str) -> Moves:
        """Takes the next line and returns its moves. LineRefused where it can't stand here."""
        words = _BLANK.split(text) if " ep." in text else text.split(" ")
        length = f"a line of {len(self._known)} half-moves"
        if len(words) != len(self._known):
            raise LineRefused(length)
        # (the place where it parts from the line before)
        place, last = 0, len(self._begun) - 1
        while place < last and words[place] == self._begun[place + 1][0]:
            place += 1
        words = words[place:]
        try:
            found = [known[word] for known, word in zip(self._known[place:], words)]
        except KeyError:
            raise LineRefused(length) from None
        _, moves, board, followed = self._begun[place]
        if words[0] in followed:
            raise LineRefused("another line than the ones before")
        followed.add(words[0])
        del self._begun[place + 1 :]
        for word, (move, (mask, value, kept, put)), following in zip(words, found, words[1:]):
            if self._has_board:
                if board & mask != value:
                    raise LineRefused(_POSSIBLE)
                board = board & kept | put
            moves = (*moves, move)
            self._begun.append((word, moves, board, {following}))
        move, step = found[-1]
        if self._has_board and board & step.mask != step.value:
            raise LineRefused(_POSSIBLE)
        return (*moves, move)
