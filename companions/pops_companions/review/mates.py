"""Pure, model and ideal mates, and echoes, among the mates of help play: Black is mated.

Only for orthodox men without a condition. Pins aren't looked at: a mate that needs a pin counts by
its squares alone.
"""

from collections.abc import Iterable, Iterator
from functools import lru_cache
from typing import NamedTuple, Optional

from pops_companions.chess.attacks import squares_between
from pops_companions.chess.men import FAIRY_KINDS, Man, Square
from pops_companions.chess.stipulation import Goal, Play
from pops_companions.report.items import HelpLine, PhaseKind, SoundItem
from pops_companions.report.moves import Mark
from pops_companions.report.steps import board_after, board_of, letters_of

# The men of a board by their places in its letters: 0 is a8, 63 is h1.
Men = dict[int, str]
# A position with the mated king at 0,0: the men that take part, by their places from there.
Picture = frozenset[tuple[int, int, str]]

# What a mate is called; each is also what the names after it say.
_NAMES = ("ideal", "model", "pure")
_KING = "k"
_OFFICERS = frozenset("QRBS")
_FAIRY = frozenset(letter for kind in FAIRY_KINDS for letter in (kind.value, kind.value.lower()))
_SQUARES = list(Square.of_diagram())
_PLACES = {square: place for place, square in enumerate(_SQUARES)}


class Mate(NamedTuple):
    """A mate: what it is called, as `ideal`, its picture, and the king's place.

    One that isn't pure has no name and an empty picture.
    """

    name: str
    picture: Picture
    king: int


def men_of(letters: str) -> Men:
    """Returns the men of a board."""
    return {place: letter for place, letter in enumerate(letters) if letter != "."}


def mate_of(men: Men) -> Optional[Mate]:
    """Returns what a position of mate is; None with fairy men, or without a black king."""
    king = next((place for place, letter in men.items() if letter == _KING), None)
    if king is None or not _FAIRY.isdisjoint(men.values()):
        return None
    taking_part = _taking_part(men, king)
    if taking_part is None:
        return Mate("", frozenset(), king)
    idle = {men[place] for place in men.keys() - taking_part - {king}}
    name = "ideal" if not idle else "model" if _OFFICERS.isdisjoint(idle) else "pure"
    rank, file = divmod(king, 8)
    picture = frozenset([(it % 8 - file, it // 8 - rank, men[it]) for it in taking_part])
    return Mate(name, picture, king)


def _taking_part(men: Men, king: int) -> Optional[set[int]]:
    """Returns the places of the men that take part in a mate; None if it isn't pure.

    In a pure mate one man gives check, and each square beside the king has one guard, or a black man
    on it and none.
    """
    occupied = sum([1 << place for place in men if place != king])
    guards: dict[int, list[int]] = {}
    for place, letter in men.items():
        if letter.isupper():
            for target, between in _guarded(letter, place, king):
                if not between & occupied:
                    guards.setdefault(target, []).append(place)
    taking_part: set[int] = set()
    for place in _field(king):
        own = guards.get(place, [])
        is_blocked = place != king and men.get(place, "").islower()
        if len(own) != (0 if is_blocked else 1):
            return None
        taking_part.add(place if is_blocked else own[0])
    return taking_part


@lru_cache(maxsize=None)
def _field(king: int) -> list[int]:
    """Returns the places of a king and beside him."""
    rank, file = divmod(king, 8)
    return [it for it in range(64) if abs(it // 8 - rank) <= 1 and abs(it % 8 - file) <= 1]


@lru_cache(maxsize=None)
def _guarded(letter: str, origin: int, king: int) -> list[tuple[int, int]]:
    """Returns the places of a king's field that a man may guard, and the places between as bits."""
    man, begin = Man.of_letter(letter), _SQUARES[origin]
    found: list[tuple[int, int]] = []
    for place in _field(king):
        between = squares_between(man, begin, _SQUARES[place])
        if between is not None:
            found.append((place, sum(1 << _PLACES[square] for square in between)))
    return found


def mates_of(men: Men, lines: Iterable[HelpLine]) -> Iterator[Mate]:
    """Yields the mates that lines of help play end in; none of a line of other men."""
    begin = board_of("".join(men.get(place, ".") for place in range(64)))
    # (many lines end in the same position)
    known: dict[int, Optional[Mate]] = {}
    for line in lines:
        last = board_after(begin, line.moves) if line.moves[-1].mark is Mark.MATE else None
        if last is None:
            continue
        if last not in known:
            known[last] = mate_of(men_of(letters_of(last)))
        mate = known[last]
        if mate is not None:
            yield mate


def keywords_of(mates: Iterable[Mate]) -> list[str]:
    """Returns what all mates are, as `model mates`, and whether two are the same picture moved.

    Mates that aren't pure have no names, and make no echoes: after one, no other is looked at.
    """
    pure: dict[Mate, None] = {}
    for mate in mates:
        if not mate.name:
            return []
        pure[mate] = None
    if not pure:
        return []
    found = [f"{max((mate.name for mate in pure), key=_NAMES.index)} mates"]
    shades = [{(king % 8 + king // 8) % 2 for king, _ in it} for it in _echoes(pure)]
    if any(len(it) == 2 for it in shades):
        found.append("chameleon echo")
    elif shades:
        found.append("echo")
    return found


def _echoes(mates: Iterable[Mate]) -> Iterator[set[tuple[int, Picture]]]:
    """Yields the pictures, with the kings' places, that are one picture moved."""
    alike: dict[tuple[tuple[int, str], ...], set[tuple[int, Picture]]] = {}
    for mate in mates:
        # (the men's distances stay, however a picture is turned)
        far = tuple(sorted([(x * x + y * y, letter) for x, y, letter in mate.picture]))
        alike.setdefault(far, set()).add((mate.king, mate.picture))
    for some in alike.values():
        places: dict[tuple[tuple[int, int, str], ...], set[tuple[int, Picture]]] = {}
        for king, picture in some if len(some) > 1 else ():
            places.setdefault(min(_turned(picture)), set()).add((king, picture))
        yield from (it for it in places.values() if len(it) > 1)


def mates_in(item: SoundItem, letters: str) -> list[str]:
    """Returns what the mates of a help mate are; nothing for other problems, or under a condition.

    `letters` is the board of its diagram.
    """
    is_help_mate = item.stipulation.play is Play.HELP and item.stipulation.goal is Goal.MATE
    if not is_help_mate or item.condition is not None:
        return []
    play = item.phase(PhaseKind.PLAY)
    lines = [] if play is None else play.help_lines
    return keywords_of(mates_of(men_of(letters), lines)) if lines else []


def _turned(picture: Picture) -> Iterator[tuple[tuple[int, int, str], ...]]:
    """Yields a picture mirrored and turned in all eight ways, each in an order that all share."""
    for one in (1, -1):
        for other in (1, -1):
            yield tuple(sorted([(x * one, y * other, letter) for x, y, letter in picture]))
            yield tuple(sorted([(y * one, x * other, letter) for x, y, letter in picture]))
