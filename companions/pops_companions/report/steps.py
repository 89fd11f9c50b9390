"""What a move needs on the board and changes on it, so that each move of a report is tried on its board.

A board is one number, with the bytes of its eight printed lines (`8 ........`), so that one comparison
tries a move and one change plays it, whatever the move is.
"""

from collections.abc import Iterable, Sequence
from functools import lru_cache
from typing import NamedTuple, Optional, Union

from pops_companions.chess.attacks import squares_between
from pops_companions.chess.men import GAITS, Colour, Gait, Kind, Man, Square
from pops_companions.report.items import HelpLine, Node, Phase
from pops_companions.report.moves import Castling, PlayedMove, Rebirth, read_move

# The bits by which a man differs from the point of an empty square, and with them the bit of its colour.
_IS_MAN = 0x40
_OF_COLOUR = {Colour.WHITE: (0x60, 0x40), Colour.BLACK: (0x60, 0x60)}
_ALL = 0xFF
_EMPTY = ord(".")
# How many bytes the line of a rank has.
_LINE = 11
# The squares between king and rook, by their files, then the files that the rook leaves and comes to.
_CASTLINGS = {Castling.SHORT: ((6, 7), 8, 6), Castling.LONG: ((2, 3, 4), 1, 4)}
_PROMOTION_RANKS = (1, 8)
# The memory for known moves and steps is bounded.
_MOST_KNOWN = 1 << 14


class Step(NamedTuple):
    """The bits `mask` of a board are `value` before the move; it keeps the bits `kept` and adds `put`."""

    mask: int
    value: int
    kept: int
    put: int


class _Wanted:
    """What a move needs and changes, square by square."""

    def __init__(self) -> None:
        self.mask = self.value = self.changed = self.put = 0

    def need(self, square: Square, mask: int, value: int) -> None:
        shift = _shift(square)
        self.mask |= mask << shift
        self.value |= value << shift

    def need_man(self, square: Square, man: Man) -> None:
        self.need(square, _ALL, ord(man.letter))

    def need_empty(self, squares: Iterable[Square]) -> None:
        for square in squares:
            self.need(square, _ALL, _EMPTY)

    def change(self, square: Square, man: Optional[Man]) -> None:
        """Puts a man on a square, or nothing."""
        shift = _shift(square)
        letter = _EMPTY if man is None else ord(man.letter)
        self.changed |= _ALL << shift
        self.put = self.put & ~(_ALL << shift) | letter << shift

    @property
    def step(self) -> Step:
        return Step(self.mask, self.value, ~self.changed, self.put)


class Needs:
    """What the moves of some phases need on the board that they begin on."""

    def __init__(self, phases: Sequence[Phase]):
        self._solutions = [it for phase in phases for it in phase.solutions]
        self._mask = self._value = 0

    def are_met(self, lines_of_ranks: bytes) -> bool:
        """Returns whether a board meets them, where another board met all of them."""
        while self._solutions:
            self._add(self._solutions.pop(), 0)
        return board_number(lines_of_ranks) & self._mask == self._value

    def _add(self, solution: Union[HelpLine, Node], changed: int) -> None:
        """Adds what a solution needs on squares that no move changed before."""
        if isinstance(solution, HelpLine):
            for move in solution.moves:
                changed = self._add_move(move, changed)
            return
        changed = self._add_move(solution.move, changed)
        for node in solution.below:
            self._add(node, changed)

    def _add_move(self, move: PlayedMove, changed: int) -> int:
        """Adds what a move needs; returns which bits were changed after it."""
        step = step_of(move)
        assert step is not None
        self._mask |= step.mask & ~changed
        self._value |= step.value & ~changed
        return changed | ~step.kept


def _shift(square: Square) -> int:
    """Returns the place of a square's bits: each line has a digit, a blank, eight squares and its end."""
    return 8 * ((8 - square.rank) * _LINE + 1 + square.file)


def board_number(lines_of_ranks: bytes) -> int:
    """Returns the board of eight lines as `8 ........`, each with its end."""
    return int.from_bytes(lines_of_ranks, "little")


def board_of(letters: str) -> int:
    """Returns the board of the letters and points of all ranks, rank 8 first."""
    ranks = (f"{8 - place // 8} {letters[place : place + 8]}\n" for place in range(0, 64, 8))
    return board_number("".join(ranks).encode("ascii"))


def letters_of(board: int) -> str:
    """Returns the letters and points of all ranks of a board."""
    lines = board.to_bytes(8 * _LINE, "little").decode("ascii").splitlines()
    return "".join(line[2:] for line in lines)


def board_after(board: int, moves: Iterable[PlayedMove]) -> Optional[int]:
    """Returns the board after some moves; None where the men on it can't make them."""
    for move in moves:
        step = step_of(move)
        if step is None or board & step.mask != step.value:
            return None
        board = board & step.kept | step.put
    return board


_KNOWN: dict[tuple[str, Colour], Optional[Step]] = {}


def step_of(move: PlayedMove) -> Optional[Step]:
    """Returns the step of a move; None for one that the man can't make on any board."""
    key = (move.text.rstrip("+#=") if move.mark else move.text, move.side)
    if key not in _KNOWN:
        if len(_KNOWN) >= _MOST_KNOWN:
            _KNOWN.clear()
        _KNOWN[key] = _step(move)
    return _KNOWN[key]


def read_step(text: str, lead: str, half: int, side: Colour) -> Optional[tuple[PlayedMove, Step]]:
    """Returns the move that makes up a text after its lead, with its step; None for another text, and
    for a move that the man can't make.
    """
    return _read_word(text[len(lead) :], half, side) if text.startswith(lead) else None


@lru_cache(maxsize=_MOST_KNOWN)
def _read_word(word: str, half: int, side: Colour) -> Optional[tuple[PlayedMove, Step]]:
    found = read_move(word, 0, half, side)
    step = None if found is None or found[1] != len(word) else step_of(found[0])
    return None if found is None or step is None else (found[0], step)


def _step(move: PlayedMove) -> Optional[Step]:
    if move.castling is not None:
        return _castling_step(move, move.castling)
    wanted = _Wanted()
    man = Man(move.side, move.kind)
    is_possible = _need_pawn(wanted, move) if move.kind is Kind.PAWN else _need_way(wanted, man, move)
    if not is_possible:
        return None
    wanted.need_man(move.origin, man)
    taken = Square(move.arrival.file, move.origin.rank) if move.en_passant else move.arrival
    if move.capture:
        wanted.need(taken, *_OF_COLOUR[move.side.opponent])
    else:
        wanted.need_empty([move.arrival])
    wanted.change(move.origin, None)
    wanted.change(taken, None)
    wanted.change(move.arrival, man if move.promotion is None else Man(move.side, move.promotion))
    if move.rebirth is not None and not _add_rebirth(wanted, move, move.rebirth, taken):
        return None
    return wanted.step


def _castling_step(move: PlayedMove, castling: Castling) -> Step:
    between, corner, crossed = _CASTLINGS[castling]
    rank = move.origin.rank
    king, rook = Man(move.side, Kind.KING), Man(move.side, Kind.ROOK)
    wanted = _Wanted()
    wanted.need_man(move.origin, king)
    wanted.need_man(Square(corner, rank), rook)
    wanted.need_empty(Square(file, rank) for file in between)
    wanted.change(move.origin, None)
    wanted.change(Square(corner, rank), None)
    wanted.change(move.arrival, king)
    wanted.change(Square(crossed, rank), rook)
    return wanted.step


def _need_way(wanted: _Wanted, man: Man, move: PlayedMove) -> bool:
    """Adds what stands between the squares of a move; returns whether the man can make it."""
    between = squares_between(man, move.origin, move.arrival)
    if between is None or move.promotion is not None or move.en_passant:
        return False
    if GAITS[man.kind] is Gait.HOPPER:
        if not between:
            return False
        wanted.need(between[-1], _IS_MAN, _IS_MAN)
        between = between[:-1]
    wanted.need_empty(between)
    return True


def _need_pawn(wanted: _Wanted, move: PlayedMove) -> bool:
    """Adds what a pawn's move needs beyond its squares; returns whether a pawn can make it."""
    forward, first = (1, 2) if move.side is Colour.WHITE else (-1, 7)
    files, ranks = move.arrival.file - move.origin.file, move.arrival.rank - move.origin.rank
    if move.origin.rank in _PROMOTION_RANKS:
        return False
    if (move.arrival.rank in _PROMOTION_RANKS) != (move.promotion is not None):
        return False
    if move.en_passant:
        # (its pawn came by a double step from its first rank)
        if not move.capture or move.origin.rank != first + 3 * forward:
            return False
        wanted.need_empty([move.arrival, Square(move.arrival.file, move.arrival.rank + forward)])
        wanted.need_man(Square(move.arrival.file, move.origin.rank), Man(move.side.opponent, Kind.PAWN))
    if move.capture:
        return abs(files) == 1 and ranks == forward
    if files or ranks not in (forward, 2 * forward):
        return False
    if ranks == 2 * forward:
        wanted.need_empty([Square(move.origin.file, move.origin.rank + forward)])
        return move.origin.rank == first
    return True


def _add_rebirth(wanted: _Wanted, move: PlayedMove, rebirth: Rebirth, taken: Square) -> bool:
    """Adds that a captured man is reborn; returns whether it is where Circe lets it be."""
    man, square = rebirth.man, rebirth.square
    if not move.capture or man.colour is move.side or square == move.arrival:
        return False
    if square != rebirth_square(man, taken):
        return False
    wanted.need_man(taken, man)
    if square not in (move.origin, taken):
        wanted.need_empty([square])
    wanted.change(square, man)
    return True


def rebirth_square(man: Man, taken: Square) -> Square:
    """Returns where Circe lets a captured man be reborn, by the square that it is captured on."""
    back, other = (1, 8) if man.colour is Colour.WHITE else (8, 1)
    if man.kind is Kind.PAWN:
        return Square(taken.file, 2 if man.colour is Colour.WHITE else 7)
    if man.kind in (Kind.GRASSHOPPER, Kind.NIGHTRIDER):
        return Square(taken.file, other)
    if man.kind is Kind.QUEEN:
        return Square(4, back)
    is_light = (taken.file + taken.rank) % 2 == 1
    is_left = is_light == (man.colour is Colour.BLACK)
    files = {Kind.ROOK: (1, 8), Kind.KNIGHT: (7, 2), Kind.BISHOP: (3, 6)}[man.kind]
    return Square(files[0] if is_left else files[1], back)
