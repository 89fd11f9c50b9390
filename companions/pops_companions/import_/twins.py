"""The changes that make twins."""

import re
from collections.abc import Callable
from dataclasses import replace

from pops_companions.chess.men import Colour, Kind, Man, Square
from pops_companions.import_.draft import Change, Impossible, Placed, Setting, Twin
from pops_companions.import_.language import meaning
from pops_companions.import_.men import PlacedMan, read_men, take_pair, take_squares
from pops_companions.import_.sections import take_conditions, take_stipulation
from pops_companions.import_.words import Unreadable, Words

Moved = Callable[[int, int], tuple[int, int]]
Men = dict[Square, Placed]
# The words of a change of men, and what it makes of them: as in a Change.
ChangeOfMen = tuple[str, Callable[[Men, list[str]], Men]]

# Where a square of a file and a rank goes; a quarter is clockwise, as a1 to a8.
_TURNS: dict[str, tuple[Moved, str]] = {
    "90": (lambda file, rank: (rank, 9 - file), "clockwise, a1 to a8"),
    "180": (lambda file, rank: (9 - file, 9 - rank), ""),
    "270": (lambda file, rank: (9 - rank, file), "clockwise, a1 to h1"),
}
_MIRRORS: dict[str, Moved] = {
    "a1h1": lambda file, rank: (9 - file, rank),
    "a1a8": lambda file, rank: (file, 9 - rank),
    "a1h8": lambda file, rank: (9 - rank, 9 - file),
    "a8h1": lambda file, rank: (rank, file),
}
_MIRROR = re.compile("([ah][18])<?[-=]*>?([ah][18])")


def read_twin(words: Words, twin: Twin) -> None:
    """Reads the changes of a twin, up to the first word that is none."""
    words.of_twin = True
    try:
        for word in words.ahead():
            twinning = meaning(word.key, words.language.twinnings)
            if twinning is None:
                return
            words.take()
            if twinning == "Continued":
                twin.continued = True
            else:
                twin.changes.append(_change(words, twinning))
    finally:
        words.of_twin = False


def _change(words: Words, name: str) -> Change:
    line = words.line
    if name == "Stipulation":
        text = take_stipulation(words)
        return Change(f"{name} {text}", line, lambda setting, _: replace(setting, stipulation=text))
    if name == "Condition":
        given = take_conditions(words)
        text = " ".join((name, *given))
        return Change(text, line, lambda setting, _: replace(setting, conditions=given))
    if name not in _CHANGES_OF_MEN:
        raise Unreadable(line, f"pops knows no {name}")
    text, changed = _CHANGES_OF_MEN[name](words, name)

    def made(setting: Setting, said: list[str]) -> Setting:
        return replace(setting, men=changed(dict(setting.men), said))

    return Change(f"{name} {text}".rstrip(), line, made)


def _value(words: Words, what: str) -> str:
    word = words.peek()
    if word is None:
        raise Unreadable(words.line, f"something is missing after {what}")
    return words.take().key


def _replaced(square: Square, said: list[str]) -> None:
    said.append(f"the man on {square.name} is replaced")


def _move(words: Words, name: str) -> ChangeOfMen:
    origin, arrival = take_pair(words, name)

    def changed(men: Men, said: list[str]) -> Men:
        if origin not in men:
            raise Impossible(f"there is no man on {origin.name} to move")
        if arrival in men and arrival != origin:
            _replaced(arrival, said)
        men[arrival] = men.pop(origin)
        return men

    return f"{origin.name} {arrival.name}", changed


def _exchange(words: Words, name: str) -> ChangeOfMen:
    one, other = take_pair(words, name)

    def changed(men: Men, _: list[str]) -> Men:
        for square in (one, other):
            if square not in men:
                raise Impossible(f"there is no man on {square.name} to exchange")
        men[one], men[other] = men[other], men[one]
        return men

    return f"{one.name} {other.name}", changed


def _remove(words: Words, name: str) -> ChangeOfMen:
    squares = take_squares(words, name)

    def changed(men: Men, _: list[str]) -> Men:
        for square in squares:
            if men.pop(square, None) is None:
                raise Impossible(f"there is no man on {square.name} to remove")
        return men

    return "".join(one.name for one in squares), changed


def _add(words: Words, _: str) -> ChangeOfMen:
    line = words.line
    added = read_men(words)
    if not added:
        raise Unreadable(line, "a colour and men are missing after Add")

    def changed(men: Men, said: list[str]) -> Men:
        for one in added:
            if one.square in men:
                _replaced(one.square, said)
            men[one.square] = one.man
        return men

    return ", ".join(_named(one) for one in added), changed


def _named(one: PlacedMan) -> str:
    if isinstance(one.man, Man):
        return one.man.on(one.square)
    return f"{one.man}{one.square.name}"


def _substitute(words: Words, name: str) -> ChangeOfMen:
    line = words.line
    letters = words.language.letters
    texts = [_value(words, name) for _ in range(2)]
    kinds = [letters.get(text) for text in texts]
    if None in kinds:
        raise Unreadable(line, f"pops knows no Substitute {' '.join(texts).upper()}")
    one, other = [kind for kind in kinds if kind is not None]

    def changed(men: Men, _: list[str]) -> Men:
        return {square: _of_kind(man, one, other) for square, man in men.items()}

    return f"{one.value} {other.value}", changed


def _of_kind(man: Placed, one: Kind, other: Kind) -> Placed:
    return Man(man.colour, other) if isinstance(man, Man) and man.kind is one else man


def _polish(_: Words, __: str) -> ChangeOfMen:
    return "", lambda men, _: {square: with_other_colour(man) for square, man in men.items()}


def with_other_colour(man: Placed) -> Placed:
    """Returns a man with its colour turned round; neutral men stay."""
    if isinstance(man, Man):
        return Man(man.colour.opponent, man.kind)
    for colour in Colour:
        if man.startswith(colour.value):
            return colour.opponent.value + man[len(colour.value) :]
    return man


def _rotate(words: Words, name: str) -> ChangeOfMen:
    line = words.line
    angle = _value(words, name)
    if angle not in _TURNS:
        raise Unreadable(line, f"Rotate {angle} isn't one of 90, 180 and 270")
    moved, direction = _TURNS[angle]

    def changed(men: Men, said: list[str]) -> Men:
        if direction:
            said.append(f"Rotate {angle} is {direction}")
        return _each_square(men, moved)

    return angle, changed


def _mirror(words: Words, name: str) -> ChangeOfMen:
    line = words.line
    text = _value(words, name)
    corners = _MIRROR.fullmatch(text)
    key = "".join(sorted(corners.groups())) if corners else ""
    if key not in _MIRRORS:
        raise Unreadable(
            line, f"Mirror {text} isn't one of a1<-->h1, a1<-->a8, a1<-->h8 and h1<-->a8"
        )
    moved = _MIRRORS[key]
    return f"{key[:2]}<-->{key[2:]}", lambda men, _: _each_square(men, moved)


def _shift(words: Words, name: str) -> ChangeOfMen:
    origin, arrival = take_pair(words, name)
    files, ranks = arrival.file - origin.file, arrival.rank - origin.rank

    def changed(men: Men, _: list[str]) -> Men:
        for square in men:
            if not (1 <= square.file + files <= 8 and 1 <= square.rank + ranks <= 8):
                raise Impossible(f"Shift moves the man on {square.name} off the board")
        return _each_square(men, lambda file, rank: (file + files, rank + ranks))

    return f"{origin.name} {arrival.name}", changed


def _each_square(men: Men, moved: Moved) -> Men:
    return {Square(*moved(square.file, square.rank)): man for square, man in men.items()}


_CHANGES_OF_MEN: dict[str, Callable[[Words, str], ChangeOfMen]] = {
    "Move": _move,
    "Exchange": _exchange,
    "Remove": _remove,
    "Add": _add,
    "Substitute": _substitute,
    "PolishType": _polish,
    "Rotate": _rotate,
    "Mirror": _mirror,
    "Shift": _shift,
}
