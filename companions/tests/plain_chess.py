"""Chess for tests, written from docs/MANUAL.md ("The rules in force"): slow, plain, and sharing
nothing with the proved programs or with the companions' own attacks.

Squares are numbers: a1 is 0, b1 is 1, h8 is 63. Men are letters, White's capital, as on a printed
board; an empty square is a point.
"""

from collections.abc import Iterator
from dataclasses import dataclass
from functools import lru_cache
from typing import NamedTuple, Optional

from pops_companions.chess.men import Colour
from pops_companions.chess.stipulation import Condition

EMPTY = "."
# What a pawn becomes, in the order of moves; the fairy men only where the diagram has one.
PROMOTIONS = "QRBSGN"
_LINES = ((1, 0), (-1, 0), (0, 1), (0, -1))
_DIAGONALS = ((1, 1), (1, -1), (-1, 1), (-1, -1))
_ALL_EIGHT = _LINES + _DIAGONALS
_LEAPS = tuple((x, y) for x in (-2, -1, 1, 2) for y in (-2, -1, 1, 2) if abs(x) != abs(y))
_RIDES = {"R": _LINES, "B": _DIAGONALS, "Q": _ALL_EIGHT, "N": _LEAPS}
_STEPS = {"K": _ALL_EIGHT, "S": _LEAPS}


class Move(NamedTuple):
    """A move. Moves compare by their order: origin, arrival, then what the pawn becomes."""

    origin: int
    arrival: int
    promotion: int = -1

    @property
    def promoted(self) -> str:
        """The letter that the pawn becomes; empty for other moves."""
        return PROMOTIONS[self.promotion] if self.promotion >= 0 else ""


@dataclass(frozen=True)
class Rules:
    """The condition, and what pawns may become."""

    condition: Optional[Condition] = None
    promotions: str = PROMOTIONS[:4]

    @property
    def is_madrasi(self) -> bool:
        return self.condition is Condition.MADRASI


class Position(NamedTuple):
    """A position: 64 men, who is to move, unmoved castling squares, the en passant square."""

    men: str
    turn: Colour
    unmoved: frozenset[int] = frozenset()
    crossed: Optional[int] = None

    @property
    def passed(self) -> "Position":
        """The position with the other side to move and no en passant square."""
        return self._replace(turn=self.turn.opponent, crossed=None)


class Played(NamedTuple):
    """What a move does: the position after it, what it captured and where, and the rebirth."""

    position: Position
    captured: str
    capture_square: int
    reborn_on: Optional[int]


def square(name: str) -> int:
    return "abcdefgh".index(name[0]) + 8 * (int(name[1]) - 1)


def name_of(place: int) -> str:
    return "abcdefgh"[place % 8] + str(place // 8 + 1)


def colour_of(man: str) -> Colour:
    return Colour.WHITE if man.isupper() else Colour.BLACK


@lru_cache(maxsize=None)
def _beside(place: int, step: tuple[int, int]) -> Optional[int]:
    """The square a step away; None over the edge."""
    file, rank = place % 8 + step[0], place // 8 + step[1]
    return file + 8 * rank if 0 <= file < 8 and 0 <= rank < 8 else None


@lru_cache(maxsize=None)
def _line(place: int, step: tuple[int, int]) -> tuple[int, ...]:
    """The squares in a direction up to the edge."""
    found: list[int] = []
    after = _beside(place, step)
    while after is not None:
        found.append(after)
        after = _beside(after, step)
    return tuple(found)


@lru_cache(maxsize=None)
def _leaps(place: int, steps: tuple[tuple[int, int], ...]) -> tuple[int, ...]:
    return tuple(it for it in (_beside(place, step) for step in steps) if it is not None)


def _pawn_captures(white: bool, place: int) -> tuple[int, ...]:
    rank = 1 if white else -1
    return _leaps(place, ((-1, rank), (1, rank)))


def attacked(men: str, place: int) -> Iterator[int]:
    """The squares that the man on this square attacks, whether or not anything is there."""
    man = men[place]
    kind = man.upper()
    if kind == "P":
        yield from _pawn_captures(man.isupper(), place)
    elif kind in _STEPS:
        yield from _leaps(place, _STEPS[kind])
    elif kind == "G":
        for step in _ALL_EIGHT:
            hurdle = next((it for it in _line(place, step) if men[it] != EMPTY), None)
            landing = None if hurdle is None else _beside(hurdle, step)
            if landing is not None:
                yield landing
    else:
        for step in _RIDES[kind]:
            for it in _line(place, step):
                yield it
                if men[it] != EMPTY:
                    break


@lru_cache(maxsize=None)
def _ever_attacked(man: str, place: int) -> frozenset[int]:
    """The squares that a man could attack from this one, whatever else is on the board."""
    kind = man.upper()
    if kind == "P":
        return frozenset(_pawn_captures(man.isupper(), place))
    if kind in _STEPS:
        return frozenset(_leaps(place, _STEPS[kind]))
    rides = _RIDES["Q" if kind == "G" else kind]
    return frozenset(it for step in rides for it in _line(place, step))


def _attacks(men: str, origin: int, place: int) -> bool:
    return place in _ever_attacked(men[origin], origin) and place in attacked(men, origin)


def _places(men: str, man: str) -> Iterator[int]:
    """The squares of all men like this one."""
    place = men.find(man)
    while place >= 0:
        yield place
        place = men.find(man, place + 1)


def is_paralysed(men: str, place: int) -> bool:
    """Madrasi: an enemy man of its kind attacks the man, which is no king."""
    like = men[place].swapcase()
    return like not in "Kk" and any(_attacks(men, it, place) for it in _places(men, like))


@lru_cache(maxsize=None)
def _origins(place: int, colour: Colour) -> tuple[tuple[int, str], ...]:
    """The squares from which men of a colour could attack this one, each with their letters."""
    own = "KQRBSPGN" if colour is Colour.WHITE else "kqrbspgn"
    letters = ("".join(it for it in own if place in _ever_attacked(it, from_)) for from_ in range(64))
    return tuple((origin, own) for origin, own in enumerate(letters) if own)


def is_attacked(rules: Rules, men: str, place: int, colour: Colour) -> bool:
    """Whether a man of this colour that can move attacks the square."""
    for origin, letters in _origins(place, colour):
        if men[origin] in letters and place in attacked(men, origin):
            if not (rules.is_madrasi and is_paralysed(men, origin)):
                return True
    return False


def in_check(rules: Rules, men: str, colour: Colour) -> bool:
    king = men.find("K" if colour is Colour.WHITE else "k")
    return king >= 0 and is_attacked(rules, men, king, colour.opponent)


def put(men: str, place: int, man: str) -> str:
    return men[:place] + man + men[place + 1 :]


def rebirth_square(man: str, place: int) -> int:
    """Circe: where a man captured on this square is reborn."""
    file, is_white = place % 8, man.isupper()
    is_dark = (file + place // 8) % 2 == 0
    kind = man.upper()
    if kind == "P":
        return file + 8 * (1 if is_white else 6)
    if kind in "GN":
        return file + 8 * (7 if is_white else 0)
    # On the home rank a man's file is that of the home square with the colour of the capture's.
    if kind == "Q":
        home_file = "d"
    elif is_white:
        home_file = {"R": "ah", "B": "cf", "S": "gb"}[kind][0 if is_dark else 1]
    else:
        home_file = {"R": "ha", "B": "fc", "S": "bg"}[kind][0 if is_dark else 1]
    return square(home_file + ("1" if is_white else "8"))


def play(rules: Rules, position: Position, move: Move) -> Played:
    """Plays a move, and Circe's rebirth after it."""
    men = list(position.men)
    man = men[move.origin]
    is_pawn = man in "Pp"
    capture_square = move.arrival
    if is_pawn and move.arrival == position.crossed and move.origin % 8 != move.arrival % 8:
        capture_square = move.arrival % 8 + move.origin // 8 * 8
    captured = men[capture_square]
    promoted = move.promoted if man.isupper() else move.promoted.lower()
    men[capture_square] = men[move.origin] = EMPTY
    men[move.arrival] = promoted or man
    unmoved = position.unmoved - {move.origin, move.arrival}
    if _is_castling(man, move):
        corner, crossed = _castling_rook(move)
        men[corner], men[crossed] = EMPTY, "R" if man == "K" else "r"
        unmoved -= {corner}
    reborn_on = None
    if captured != EMPTY and rules.condition is Condition.CIRCE:
        place = rebirth_square(captured, capture_square)
        if men[place] == EMPTY:
            reborn_on = place
            men[place] = captured
            unmoved |= {place} if captured.upper() == "R" else set()
    is_double = is_pawn and abs(move.arrival - move.origin) == 16
    passed = (move.origin + move.arrival) // 2 if is_double else None
    after = Position("".join(men), position.turn.opponent, unmoved, passed)
    return Played(after, captured, capture_square, reborn_on)


def _is_castling(man: str, move: Move) -> bool:
    return man in "Kk" and abs(move.origin % 8 - move.arrival % 8) == 2


def _castling_rook(move: Move) -> tuple[int, int]:
    """The corner that the rook leaves, and the square that the king crosses."""
    rank = move.origin // 8 * 8
    return rank + (7 if move.arrival > move.origin else 0), (move.origin + move.arrival) // 2


def _pawn_arrivals(position: Position, place: int) -> Iterator[int]:
    men, white = position.men, position.men[place].isupper()
    forward = 8 if white else -8
    if men[place + forward] == EMPTY:
        yield place + forward
        if place // 8 == (1 if white else 6) and men[place + 2 * forward] == EMPTY:
            yield place + 2 * forward
    for arrival in _pawn_captures(white, place):
        there = men[arrival]
        if there != EMPTY and there.isupper() != white and there.upper() != "K":
            yield arrival
        elif there == EMPTY and arrival == position.crossed:
            yield arrival


def _castlings(rules: Rules, position: Position, king: int) -> Iterator[Move]:
    men, turn = position.men, position.turn
    home, rook = (4, "R") if turn is Colour.WHITE else (60, "r")
    if king != home or king not in position.unmoved or in_check(rules, men, turn):
        return
    for arrival in (king + 2, king - 2):
        move = Move(king, arrival)
        corner, crossed = _castling_rook(move)
        between = range(min(king, corner) + 1, max(king, corner))
        is_free = all(men[it] == EMPTY for it in between)
        if corner not in position.unmoved or men[corner] != rook or not is_free:
            continue
        if rules.is_madrasi and is_paralysed(men, corner):
            continue
        if not in_check(rules, put(put(men, king, EMPTY), crossed, men[king]), turn):
            yield move


def _candidates(rules: Rules, position: Position) -> Iterator[Move]:
    """The moves of the side to move, legal but for checks to its own king."""
    men, turn = position.men, position.turn
    for place, man in enumerate(men):
        if man == EMPTY or colour_of(man) is not turn:
            continue
        if rules.is_madrasi and is_paralysed(men, place):
            continue
        if man.upper() == "P":
            for arrival in _pawn_arrivals(position, place):
                if arrival // 8 in (0, 7):
                    numbers = map(PROMOTIONS.index, rules.promotions)
                    yield from (Move(place, arrival, it) for it in numbers)
                else:
                    yield Move(place, arrival)
            continue
        for arrival in attacked(men, place):
            there = men[arrival]
            if there == EMPTY or colour_of(there) is not turn and there.upper() != "K":
                yield Move(place, arrival)
        if man.upper() == "K":
            yield from _castlings(rules, position, place)


@lru_cache(maxsize=200_000)
def legal_moves(rules: Rules, position: Position) -> tuple[Move, ...]:
    """The legal moves in order."""
    return tuple(
        move
        for move in sorted(_candidates(rules, position))
        if not in_check(rules, play(rules, position, move).position.men, position.turn)
    )


def is_mate(rules: Rules, position: Position) -> bool:
    return in_check(rules, position.men, position.turn) and not legal_moves(rules, position)


def is_stalemate(rules: Rules, position: Position) -> bool:
    return not in_check(rules, position.men, position.turn) and not legal_moves(rules, position)


def move_text(rules: Rules, position: Position, move: Move) -> str:
    """A move as a report prints it, without number and mark."""
    man = position.men[move.origin]
    if _is_castling(man, move):
        return "0-0" if move.arrival > move.origin else "0-0-0"
    played = play(rules, position, move)
    is_pawn = man.upper() == "P"
    parts = ["" if is_pawn else man.upper(), name_of(move.origin)]
    parts += ["-" if played.captured == EMPTY else "*", name_of(move.arrival)]
    if played.captured != EMPTY and played.capture_square != move.arrival:
        parts.append(" ep.")
    if move.promoted:
        parts.append(f"={move.promoted}")
    if played.reborn_on is not None:
        side = "w" if played.captured.isupper() else "b"
        parts.append(f"[+{side}{played.captured.upper()}{name_of(played.reborn_on)}]")
    return "".join(parts)
