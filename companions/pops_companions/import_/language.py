"""The words of Popeye's inputs in English, German and French."""

import unicodedata
from collections.abc import Iterable, Iterator, Mapping
from dataclasses import dataclass
from typing import AbstractSet, Any, NamedTuple, Optional

from pops_companions.chess.men import Kind
from pops_companions.input.reading import OPTIONS
from pops_companions.stored import stored

# What follows these is the rest of their line.
TEXT_COMMANDS = frozenset(("Title", "Author", "Origin", "Remark", "Award"))
# The options that pops reads. A short form that fits several options means one of these.
OWN_OPTIONS = frozenset(OPTIONS)
# Words that have to differ from others have this many letters or more.
_LEAST_LETTERS = 3

# What each word means, by its English name, with the words in English, German and French.
_WORDS: dict[str, Any] = stored("import_/words.json")
# Options without which a problem is the same, with why.
LEFT_OUT: Mapping[str, str] = _WORDS["left_out"]


def folded(word: str) -> str:
    """Returns a word as it is looked up: in small letters, and without the accents that Popeye
    lacks.
    """
    word = word.lower()
    if word.isascii():
        return word
    for letter, letters in (("ä", "ae"), ("ö", "oe"), ("ü", "ue"), ("ß", "ss")):
        word = word.replace(letter, letters)
    return "".join(one for one in unicodedata.normalize("NFD", word) if ord(one) < 0x300)


# What each word, and each beginning of one, may mean.
Table = Mapping[str, frozenset[str]]


@dataclass(frozen=True)
class Language:
    """A language of Popeye's inputs, its words as they are looked up."""

    name: str
    commands: Table
    options: Table
    twinnings: Table
    colours: Table
    letters: Mapping[str, Kind]


def meaning(
    word: str, table: Table, preferred: Optional[AbstractSet[str]] = None
) -> Optional[str]:
    """Returns what a word of a table, or one that is short for it, means. None where that isn't
    certain.

    Where it is short for several, it means the preferred one.
    """
    meanings = table.get(word, frozenset())
    if len(meanings) > 1 and preferred is not None:
        meanings = meanings & preferred
    return next(iter(meanings)) if len(meanings) == 1 else None


def meaning_of_three(
    word: str, table: Table, preferred: Optional[AbstractSet[str]] = None
) -> Optional[str]:
    """Returns what a word means that has three letters or more; None for a shorter one."""
    return meaning(word, table, preferred) if len(word) >= _LEAST_LETTERS else None


def table_of(words: Iterable[tuple[str, str]]) -> Table:
    """Returns the table of words with their meanings. A whole word means nothing else."""
    forms: dict[str, frozenset[str]] = {}
    whole: dict[str, frozenset[str]] = {}
    for word, what in words:
        key = word.lower()
        whole[key] = frozenset((what,))
        for length in range(1, len(key)):
            forms[key[:length]] = forms.get(key[:length], frozenset()) | whole[key]
    return {**forms, **whole}


def _words(which: str, place: int) -> Iterator[tuple[str, str]]:
    for what, words in _WORDS[which].items():
        for word in words[place].split():
            yield word, what


def _language(place: int, name: str) -> Language:
    return Language(
        name,
        table_of(_words("commands", place)),
        table_of(_words("options", place)),
        table_of(_words("twinnings", place)),
        table_of(_words("colours", place)),
        {letter.lower(): Kind(kind) for letter, kind in _words("letters", place)},
    )


# Words before men that give them other powers.
ATTRIBUTES = frozenset(_WORDS["attributes"].lower().split())
_NAMES = ("English", "German", "French")
ENGLISH, GERMAN, FRENCH = LANGUAGES = tuple(
    _language(place, name) for place, name in enumerate(_NAMES)
)


class ForeignWord(NamedTuple):
    """A German or French word for a command, an option or a colour, and the English one."""

    language: str
    word: str
    english: str


def foreign_words() -> Iterator[ForeignWord]:
    """Yields the words that are German or French and not English too, the German ones first."""
    for place in (1, 2):
        for name in ("commands", "options", "colours"):
            for words in _WORDS[name].values():
                own, english = words[place].split(), words[0].split()
                yield from (
                    ForeignWord(_NAMES[place], it, english[0]) for it in own if it not in english
                )
