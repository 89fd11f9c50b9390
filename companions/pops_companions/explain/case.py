"""A fault with all that is known of its problem, and what an explanation is made of."""

import re
from collections.abc import Callable, Iterator, Sequence
from dataclasses import dataclass, replace
from typing import Optional, TypeVar

from pops_companions.explain.characters import beginning, decoded
from pops_companions.explain.sentences import DATA, sentence
from pops_companions.input.reading import COMMANDS, CONDITIONS, OPTIONS, Reading, step
from pops_companions.input.words import LONGEST_WORD, TEXT_WORDS, Span, TextLine, Word, named

_LONGEST_QUOTED = 48
# The word before is looked for in this many bytes.
_NEAR = 400
_LAST_WORD = re.compile(rb"(?:^|[\t\n\x0b\x0c\r ])([^\t\n\x0b\x0c\r ]+)([\t\n\x0b\x0c\r ]+)$")
NAMES = (*COMMANDS, *TEXT_WORDS, *CONDITIONS, *OPTIONS, "White", "Black")
Value = TypeVar("Value")


def _form(text: str) -> "re.Pattern[str]":
    """Returns the pattern of a form; one without capital letters holds of them too."""
    return re.compile(text, 0 if re.search("[A-Z]", text) else re.IGNORECASE)


# Forms of words, each with the sentence that explains it, and what the word is.
_FORMS = {
    which: [(_form(it[0]), it[1], it[2]) for it in rows] for which, rows in DATA["forms"].items()
}


@dataclass(frozen=True)
class Explanation:
    """What is wrong and what to do, with the places to look at, in the order of the text."""

    text: str
    marks: tuple[Span, ...]


@dataclass(frozen=True)
class Case:
    """The fault of a problem of an input."""

    text: bytes
    reading: Reading

    @property
    def word(self) -> Word:
        return self.reading.word

    @property
    def plain(self) -> str:
        """The faulty word as text."""
        return decoded(self.word.bytes)

    @property
    def quoted(self) -> str:
        return quoted(self.word)

    @property
    def before(self) -> Optional[Word]:
        return self.reading.word_before

    @property
    def after(self) -> Optional[Word]:
        return next(self.reading.words_after(), None)

    def rest_of_line(self, most: int) -> list[Word]:
        """Returns the faulty word and the words after it on its line, at most `most`, up to one that is
        too long.
        """
        found = [self.word] if len(self.word.bytes) <= LONGEST_WORD else []
        for word in self.reading.words_after() if found else ():
            if len(found) == most or word.line != self.word.line or len(word.bytes) > LONGEST_WORD:
                break
            found.append(word)
        return found

    @property
    def span_before(self) -> Optional[Span]:
        """Where the word before the faulty one stands, also where it ends the problem before."""
        start = max(self.word.start - _NEAR, 0)
        found = _LAST_WORD.search(self.text[start : self.word.start])
        if found is None:
            return None
        stop = start + found.end() - len(found[2])
        return Span(stop - len(found[1]), stop)

    @property
    def line_above(self) -> Optional[TextLine]:
        """The text line right before the faulty word."""
        tokens = self.reading.tokens
        token = tokens[-2] if len(tokens) > 1 else None
        return token if isinstance(token, TextLine) else None

    def says(self, text: str, *marks: Span) -> Explanation:
        """Returns an explanation that marks the faulty word, and these places too."""
        return at(text, self.word.span, *marks)

    def tells(self, which: str, *marks: Span, **values: object) -> Explanation:
        """Returns a sentence with these values as an explanation; `word` is the faulty word as it is
        named, `plain` the whole of it.
        """
        return self.says(sentence(which, word=self.quoted, plain=self.plain, **values), *marks)

    def mends(self, which: str, mended: str) -> Optional[Explanation]:
        """Returns a sentence with what the faulty word is to be; None where that doesn't fit."""
        return self.tells(which, mended=mended) if self.fits(mended) else None

    def by_form(self, which: str) -> Optional[Explanation]:
        """Returns what the table of forms says of the faulty word; `first` is the part in brackets."""
        for form, name, what in _FORMS[which]:
            found = form.fullmatch(self.plain)
            if found is not None:
                return self.tells(name, first=found[1], what=what, forms=sentence("forms"))
        return None

    def fits(self, text: str) -> bool:
        """Returns whether these words could stand in place of the faulty one."""
        # (nothing that is read later depends on the words of colours and commands)
        reading = replace(self.reading, colours=[], men=dict(self.reading.men), openers=[])
        words = text.encode("utf-8").split()
        # (a list of all words would be made again for each name that could stand here)
        first = next(it for it in self.reading.tokens if isinstance(it, Word))
        begun = not self.reading.first or self.word is not first
        for word in words:
            if named(word, TEXT_WORDS):
                return True
            if not begun:
                if named(word, ["BeginProblem"]) is None:
                    return False
            elif step(reading, Word(word, 0, 0)) is not None:
                return False
            begun = True
        return bool(words)

    def names_here(self) -> list[str]:
        """Returns the words of pops that could stand in place of the faulty one."""
        return [name for name in NAMES if self.fits(name)]

    def openers_of(self, section: str) -> list[Word]:
        """Returns the commands that open sections of this kind in the problem."""
        return [it for it in self.reading.openers if named(it.bytes, [section])]


def known(value: Optional[Value]) -> Value:
    """Returns what there is for certain with the fault at hand."""
    assert value is not None
    return value


def at(text: str, *marks: Span) -> Explanation:
    """Returns an explanation with the places that it speaks of."""
    return Explanation(text, tuple(sorted(set(marks), key=lambda mark: mark.start)))


def quoted(word: Word) -> str:
    """Returns a word as explanations name it; only the beginning of a long word."""
    return f"`{beginning(word.bytes, _LONGEST_QUOTED)}`"


def listed(names: Sequence[str], last: str = "and") -> str:
    """Returns the names as `a, b and c`."""
    if len(names) < 2:
        return "".join(names)
    return f"{', '.join(names[:-1])} {last} {names[-1]}"


def first_cause(
    causes: Callable[[Case], Iterator[Optional[Explanation]]],
) -> Callable[[Case], Explanation]:
    """Makes a function of causes return the first explanation that there is."""
    return lambda case: next(it for it in causes(case) if it is not None)
