"""Finds the men that attack a square, and so the men that give check."""

from typing import Optional

from pops_companions.chess.men import GAITS, STEPS, Colour, Gait, Kind, Man, Square

Step = tuple[int, int]
Men = dict[Square, Man]

# What `squares_between` found: it is looked for often, and differs in few cases.
_BETWEEN: dict[tuple[Man, Square, Square], Optional[tuple[Square, ...]]] = {}


def attackers(men: Men, target: Square, colour: Colour, madrasi: bool) -> list[Square]:
    """Returns where the men of a colour attack a square from; men that Madrasi paralyses don't."""
    return [
        square
        for square, man in men.items()
        if man.colour is colour
        and _reaches(men, square, target)
        and not (madrasi and _paralysed(men, square))
    ]


def _paralysed(men: Men, square: Square) -> bool:
    man = men[square]
    return man.kind is not Kind.KING and any(
        other == Man(man.colour.opponent, man.kind) and _reaches(men, place, square)
        for place, other in men.items()
    )


def _reaches(men: Men, origin: Square, target: Square) -> bool:
    """Returns whether a man could capture on a square, whether it may or not."""
    man = men[origin]
    key = (man, origin, target)
    if key not in _BETWEEN:
        _BETWEEN[key] = squares_between(man, origin, target)
    between = _BETWEEN[key]
    if between is None:
        return False
    if GAITS[man.kind] is Gait.HOPPER:
        if not between or between[-1] not in men:
            return False
        between = between[:-1]
    return not any(square in men for square in between)


def squares_between(man: Man, origin: Square, target: Square) -> Optional[tuple[Square, ...]]:
    """Returns the squares between two that a man's move joins; None for all others."""
    step = (target.file - origin.file, target.rank - origin.rank)
    if man.kind is Kind.PAWN and man.colour is Colour.BLACK:
        step = (step[0], -step[1])
    if GAITS[man.kind] is Gait.LEAPER:
        return () if step in STEPS[man.kind] else None
    shortest = _shortest(step)
    if shortest not in STEPS[man.kind]:
        return None
    squares = [Square(origin.file + shortest[0], origin.rank + shortest[1])]
    while squares[-1] != target:
        squares.append(Square(squares[-1].file + shortest[0], squares[-1].rank + shortest[1]))
    return tuple(squares[:-1])


def _shortest(step: Step) -> Step:
    """Returns the shortest step whose repetition makes a step."""
    times, rest = abs(step[0]), abs(step[1])
    while rest:
        times, rest = rest, times % rest
    return (step[0] // times, step[1] // times) if times else step
