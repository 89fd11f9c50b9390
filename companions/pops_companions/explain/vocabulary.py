"""Words of Popeye that pops doesn't read, German and French ones, and what to write instead."""

from collections.abc import Mapping
from typing import Any, NamedTuple, Optional

from pops_companions.chess.men import Kind
from pops_companions.explain.sentences import DATA, sentence
from pops_companions.import_.language import ForeignWord, folded, foreign_words

_KNOWN: dict[str, Any] = DATA["popeye"]
# Words that shorten none: colours, and `not`, without which `not Circe` would be Circe.
_NO_SHORT_FORMS = ("white", "black", "not")


class Unread(NamedTuple):
    """A word of Popeye that pops doesn't read: what it is, and what to do instead."""

    what: str
    name: str
    instead: str


def _unread(kind: str, instead: Mapping[str, str]) -> dict[str, Unread]:
    what = sentence(kind)
    return {name.lower(): Unread(what, name, text) for name, text in instead.items()}


_UNREAD: dict[str, Unread] = {
    **_unread("a_command", _KNOWN["commands"]),
    **_unread("an_option", _KNOWN["options"]),
    **_unread("a_kind_of_men", dict.fromkeys(_KNOWN["kinds"], sentence("two_colours"))),
}
_FOREIGN: dict[str, ForeignWord] = {
    folded(it.word): it for it in reversed(list(foreign_words()))
}


def unread(word: str) -> Optional[Unread]:
    """Returns the word of Popeye of which this is a short form, of three letters or more."""
    small = word.lower()
    if small in _UNREAD:
        return _UNREAD[small]
    if len(small) < 3 or small in _NO_SHORT_FORMS:
        return None
    return next((it for name, it in _UNREAD.items() if name.startswith(small)), None)


def is_unread_command(word: str) -> bool:
    """Returns whether this is a command of Popeye that pops lacks, in full."""
    return any(word.lower() == name.lower() for name in _KNOWN["commands"])


def foreign(word: str) -> Optional[ForeignWord]:
    """Returns the German or French word that this is, in full; accents may stand or lack."""
    return _FOREIGN.get(folded(word))


class Alphabet(NamedTuple):
    """The letters of languages for king, queen, rook, bishop, knight and pawn, and for grasshopper
    and nightrider where Popeye has them."""

    languages: tuple[str, ...]
    letters: str

    def kind(self, letter: str) -> Optional[Kind]:
        place = self.letters.find(letter.upper())
        return tuple(Kind)[place] if place >= 0 else None


_ALPHABETS = tuple(Alphabet(tuple(it["languages"]), it["letters"]) for it in DATA["alphabets"])


def alphabets_of(letters: str) -> list[Alphabet]:
    """Returns the languages in whose letters these men may be written, the likeliest first."""
    return [it for it in _ALPHABETS if all(letter in it.letters for letter in letters.upper())]


def alphabets_with(letter: str) -> list[Alphabet]:
    """Returns the languages that have this letter."""
    return [it for it in _ALPHABETS if letter.upper() in it.letters]
