"""Positions as strings of 64 letters, how they are moved over the board, and how they differ.

The letters come from a printed board without line ends: rank 8 first, a point for an empty
square. The square of a letter is its place in the string, 0 for a8 to 63 for h1.
"""

import random
from collections.abc import Callable, Iterator
from functools import lru_cache
from typing import NamedTuple

from pops_companions.chess.men import LETTERS as KIND_LETTERS
from pops_companions.chess.men import Changes, Man, Square
from pops_companions.report.items import Board

EMPTY = "."
LETTERS = KIND_LETTERS + KIND_LETTERS.lower()
_KEY_BITS = 63
# Where the keys of men come from: hashes that a file keeps depend on it.
_SEED = 1836


# Where a file and a rank go, 0 to 7, when a whole board is moved.
Turn = Callable[[int, int], tuple[int, int]]
_TURNS: dict[str, Turn] = {
    "": lambda file, rank: (file, rank),
    "mirrored left to right": lambda file, rank: (7 - file, rank),
    "mirrored top to bottom": lambda file, rank: (file, 7 - rank),
    "turned by 180 degrees": lambda file, rank: (7 - file, 7 - rank),
    "turned by 90 degrees": lambda file, rank: (rank, 7 - file),
    "turned by 270 degrees": lambda file, rank: (7 - rank, file),
    "mirrored in the diagonal a1-h8": lambda file, rank: (rank, file),
    "mirrored in the diagonal h1-a8": lambda file, rank: (7 - rank, 7 - file),
}


class Variant(NamedTuple):
    """A position that another one becomes, and how: nothing for the position itself."""

    board: str
    how: tuple[str, ...]


def board_of(men: dict[Square, Man]) -> str:
    """Returns the position of these men."""
    return Board.of_men(men).letters


def men_of(board: str) -> dict[Square, Man]:
    """Returns the men of a position."""
    return Board.of_letters(board).men


@lru_cache(maxsize=None)
def _keys() -> dict[tuple[int, str], int]:
    chance = random.Random(_SEED)
    return {
        (place, letter): chance.getrandbits(_KEY_BITS) for place in range(64) for letter in LETTERS
    }


def hashes(board: str) -> list[int]:
    """Returns the hash of a position, then one hash for each man: of the position without it."""
    keys = _keys()
    own = [keys[place, letter] for place, letter in enumerate(board) if letter != EMPTY]
    whole = 0
    for key in own:
        whole ^= key
    return [whole, *(whole ^ key for key in own)]


def variants(board: str) -> Iterator[Variant]:
    """Returns the position itself, mirrored, turned, shifted, with colours reversed, and all of
    these.

    Where two ways lead to one position, the simpler one comes.
    """
    best: dict[str, tuple[str, ...]] = {}
    for reversed_colours in (False, True):
        letters = board.swapcase() if reversed_colours else board
        for name, turn in _TURNS.items():
            men = _moved(letters, turn)
            for files, ranks in _shifts(men):
                shift = [_shift_in_words(files, ranks)] if files or ranks else []
                colours = ["colours reversed"] if reversed_colours else []
                how = tuple(filter(None, [name, *shift, *colours]))
                shifted = _placed(men, files, ranks)
                if shifted not in best or len(how) < len(best[shifted]):
                    best[shifted] = how
    return (Variant(one, how) for one, how in best.items())


def _moved(board: str, turn: Turn) -> list[tuple[int, int, str]]:
    """Returns the men of a board by file and rank, 0 to 7, after a turn or a reflection."""
    return [
        (*turn(place % 8, 7 - place // 8), letter)
        for place, letter in enumerate(board)
        if letter != EMPTY
    ]


def _shifts(men: list[tuple[int, int, str]]) -> Iterator[tuple[int, int]]:
    """Returns all shifts by files and ranks that keep the men on the board."""
    if not men:
        return iter(())
    files, ranks = [man[0] for man in men], [man[1] for man in men]
    return (
        (right, up)
        for right in range(-min(files), 8 - max(files))
        for up in range(-min(ranks), 8 - max(ranks))
    )


def _placed(men: list[tuple[int, int, str]], files: int, ranks: int) -> str:
    letters = [EMPTY] * 64
    for file, rank, letter in men:
        letters[8 * (7 - rank - ranks) + file + files] = letter
    return "".join(letters)


def _shift_in_words(files: int, ranks: int) -> str:
    parts = []
    for number, forwards, backwards in ((files, "right", "left"), (ranks, "up", "down")):
        if number:
            parts.append(f"{abs(number)} {forwards if number > 0 else backwards}")
    return f"shifted {' and '.join(parts)}"


def differences(board: str, other: str) -> list[str]:
    """Returns what makes another position of a board, in words; the men that go and come are
    paired.
    """
    squares = zip(Square.of_diagram(), board, other) if board != other else ()
    changed = [(square, one, two) for square, one, two in squares if one != two]
    changes = Changes(
        {square: Man.of_letter(one) for square, one, _ in changed if one != EMPTY},
        {square: Man.of_letter(two) for square, _, two in changed if two != EMPTY},
    )
    texts = [f"{man.on(square)} on {target.name}" for man, square, target in changes.moved()]
    gone = [man.on(square) for square, man in changes.gone.items()]
    new = [man.on(square) for square, man in changes.new.items()]
    paired = min(len(gone), len(new))
    texts += [f"{one} for {other}" for one, other in zip(new, gone)]
    texts += [f"without {man}" for man in gone[paired:]]
    return texts + [f"with {man}" for man in new[paired:]]
