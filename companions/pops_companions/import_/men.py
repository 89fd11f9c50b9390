"""Men and squares among the words of a text."""

import re
from collections.abc import Mapping, Sequence
from typing import NamedTuple

from pops_companions.chess.men import Colour, Kind, Man, Square
from pops_companions.import_.draft import Placed
from pops_companions.import_.language import ATTRIBUTES, meaning
from pops_companions.import_.words import Unreadable, Word, Words

_PAIR = re.compile("([a-h][1-8])<?[-=]+>?([a-h][1-8])")
_SQUARES = re.compile("(?:[a-h][1-8])+")
_MAN = re.compile("([a-z0-9]{1,2})((?:[a-h][1-8])+)")


class PlacedMan(NamedTuple):
    """A man with its square and the line where it stands."""

    square: Square
    man: Placed
    line: int


def is_of_squares(word: Word) -> bool:
    return _SQUARES.fullmatch(word.key) is not None


def take_squares(words: Words, what: str) -> list[Square]:
    """Returns the squares of the next word, which belong to `what`."""
    word = words.peek()
    if word is None or not is_of_squares(word):
        found = "the end" if word is None else word.text
        raise Unreadable(words.line, f"{what} wants squares, as e4, and {found} follows")
    return Square.of_names(words.take().key)


def take_pair(words: Words, what: str) -> tuple[Square, Square]:
    """Returns two squares, in a word or in two, also with a sign between them as YACPDB has it."""
    word = words.peek()
    pair = None if word is None else _PAIR.fullmatch(word.key)
    if pair is not None:
        words.take()
        return Square.of_name(pair[1]), Square.of_name(pair[2])
    squares = take_squares(words, what)
    if len(squares) == 1:
        squares += take_squares(words, what)
    if len(squares) != 2:
        raise Unreadable(words.line, f"{what} wants two squares")
    return squares[0], squares[1]


def read_men(words: Words) -> list[PlacedMan]:
    """Colours and men, up to the first word that is neither."""
    language = words.language
    men: list[PlacedMan] = []
    colour = ""
    attributes: list[str] = []
    for word in words.ahead():
        named = meaning(word.key, language.colours)
        if named is not None:
            words.take()
            colour, attributes = named, []
        elif word.key in ATTRIBUTES:
            # (each once: every man is named by all of them)
            attribute = words.take().text.title()
            attributes += [attribute] * (attribute not in attributes)
        else:
            letters, squares = _man_word(words, word)
            if not letters:
                break
            if not colour:
                raise Unreadable(word.line, f"a colour is missing before {word.text}")
            man = _man(colour, attributes, letters, language.letters)
            men.extend(PlacedMan(square, man, word.line) for square in squares)
    return men


def _man_word(words: Words, word: Word) -> tuple[str, list[Square]]:
    """Takes a man's letters with its squares; nothing where the next word is none."""
    if word.key in words.language.letters:
        words.take()
        return word.key, take_squares(words, word.text)
    found = _MAN.fullmatch(word.key)
    if found is None:
        return "", []
    words.take()
    return found[1], Square.of_names(found[2])


def _man(
    colour: str, attributes: Sequence[str], letters: str, kinds: Mapping[str, Kind]
) -> Placed:
    kind = kinds.get(letters)
    if kind is not None and colour != "neutral" and not attributes:
        return Man(Colour(colour), kind)
    return " ".join((colour, *attributes, letters.upper()))


def read_forsyth(text: str, kinds: Mapping[str, Kind]) -> dict[Square, Placed]:
    """Returns the men of a position in Popeye's form of Forsyth. ValueError, with why, for another
    text.

    The letters are the language's own, small for Black. `=` stands before a neutral man, a point
    before a man of two letters. Where no strokes part the ranks, a number above 9 is one number.
    """
    diagram = list(Square.of_diagram())
    has_strokes = "/" in text
    one = re.compile(
        rf"(?P<empty>{'[1-9]' if has_strokes else '[1-9][0-9]?'})|(?P<stroke>/)"
        r"|(?P<neutral>=?)(?:\.(?P<two>[A-Za-z0-9]{2})|(?P<one>[A-Za-z]))"
    )
    men: dict[Square, Placed] = {}
    place = at = rank = 0
    while place < len(text):
        found = one.match(text, place)
        if found is None:
            raise ValueError(f"{text[place:]} begins with no man")
        place = found.end()
        if found["stroke"]:
            if at - rank != 8:
                raise ValueError(f"a rank of {at - rank} squares")
            rank = at
        elif found["empty"]:
            at += int(found["empty"])
        else:
            letters = found["two"] or found["one"]
            colour = "white" if letters[0].isupper() else "black"
            if at < 64:
                shown = "neutral" if found["neutral"] else colour
                men[diagram[at]] = _man(shown, (), letters.lower(), kinds)
            at += 1
    if at != 64:
        raise ValueError(f"{at} squares instead of 64")
    return men
