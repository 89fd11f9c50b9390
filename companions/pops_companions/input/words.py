"""The words and text lines of an input, as pops parts them."""

import re
from collections.abc import Iterator, Sequence
from dataclasses import dataclass
from itertools import accumulate
from typing import Optional, Union

# The bytes between words.
BLANKS = rb"\t\n\x0b\x0c\r "
LONGEST_WORD = 160

_WORD = re.compile(rb"[^" + BLANKS + rb"]+")
_LEAST_LETTERS = 3


# The words that make the rest of their line text.
TEXT_WORDS = ("Title", "Author", "Origin", "Remark")


@dataclass(frozen=True)
class Span:
    """Some bytes of an input."""

    start: int
    stop: int


@dataclass(frozen=True)
class Word:
    """A word of an input: its bytes, where it begins, and its line, from 1."""

    bytes: bytes
    start: int
    line: int

    @property
    def span(self) -> Span:
        return Span(self.start, self.start + len(self.bytes))

    def part(self, start: int, stop: int) -> Span:
        """Returns where a part of the word is."""
        return Span(self.start + start, self.start + stop)


@dataclass(frozen=True)
class TextLine:
    """A text word, its name in full, and the rest of its line."""

    word: Word
    name: str
    text: bytes

    @property
    def span(self) -> Span:
        return Span(self.word.start, self.word.start + len(self.word.bytes) + len(self.text))


Token = Union[Word, TextLine]


def named(word: bytes, names: Sequence[str], least: int = _LEAST_LETTERS) -> Optional[str]:
    """Returns the first name that the word is or is short for; short forms have three letters."""
    if len(word) < least:
        return None
    small = word.lower()
    return next((it for it in names if it.lower().encode("ascii").startswith(small)), None)


def forms_of(names: Sequence[str], least: int = _LEAST_LETTERS) -> dict[bytes, str]:
    """Returns what each name and each short form means, in small letters: the first name that it fits.
    """
    forms: dict[bytes, str] = {}
    for name in names:
        small = name.lower().encode("ascii")
        for length in range(least, len(small) + 1):
            forms.setdefault(small[:length], name)
    return forms


_TEXT_FORMS = forms_of(TEXT_WORDS)


def is_short_for(word: bytes, name: str) -> bool:
    """Returns whether a word is this name or a short form of it."""
    return named(word, (name,)) is not None


def short_forms(name: str) -> bytes:
    """Returns a pattern of a name and its short forms, the longer ones first."""
    forms = (name[:length] for length in range(len(name), _LEAST_LETTERS - 1, -1))
    return b"|".join(form.encode("ascii") for form in forms)


def line_bounds(text: bytes) -> list[int]:
    """Returns where each line of a text begins, and where one after the last would."""
    return [0, *accumulate(len(line) + 1 for line in text.split(b"\n"))]


def tokens_in(text: bytes, start: int, stop: int, line: int) -> Iterator[Token]:
    """Yields the words and text lines between two places; the first place is on the line given."""
    place = start
    while True:
        found = _WORD.search(text, place, stop)
        if found is None:
            return
        line += text.count(b"\n", place, found.start())
        word = Word(found[0], found.start(), line)
        place = found.end()
        name = _TEXT_FORMS.get(word.bytes.lower())
        if name is None:
            yield word
            continue
        end = text.find(b"\n", place, stop)
        end = stop if end < 0 else end
        yield TextLine(word, name, text[place:end])
        place = end
