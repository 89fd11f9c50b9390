"""The words of a text, one after another, as Popeye parts them."""

import re
from collections.abc import Iterator
from typing import NamedTuple, Optional

from pops_companions.import_.language import (
    TEXT_COMMANDS,
    Language,
    folded,
    meaning,
    meaning_of_three,
)

# Beside letters and digits these belong to words; what begins with another character is skipped.
_SIGNS = r"#=+\-.<>/*!~()\[\]&"
_BLANKS = re.compile("[\\s,\ufeff\u200b]*")
_WORD = re.compile(rf"(?:[^\W_]|[{_SIGNS}])+")
_OTHER = re.compile(r"\S+")
# What is cut off at both ends of a line of text, as pops does.
_ENDS = " \t\v\f\r"


class Message(NamedTuple):
    """A message about a line of the text."""

    line: int
    text: str


class Unreadable(Exception):
    """What can't be read, with its line and what is wrong."""

    def __init__(self, line: int, text: str):
        super().__init__(text)
        self.message = Message(line, text)


class Word(NamedTuple):
    """A word, as it stands there and as it is looked up."""

    text: str
    key: str
    line: int
    end: int


class TextLine(NamedTuple):
    """A line of text: its command and what follows."""

    command: str
    text: str


class Words:
    """The words of a text. Lines of text among them, and what Popeye skips, are put aside."""

    def __init__(self, text: str, language: Language, start: int = 0, line: int = 1):
        self.language = language
        self.texts: list[TextLine] = []
        self.skipped: list[Message] = []
        # Among the words of a twin, Rem is short for Remove.
        self.of_twin = False
        self._text = text
        self._at = start
        self._line = line
        self._next: Optional[Word] = None

    @property
    def line(self) -> int:
        """The line of the word taken last."""
        return self._line

    def peek(self) -> Optional[Word]:
        """Returns the next word, None at the end."""
        if self._next is None:
            self._next = self._found()
        return self._next

    def ahead(self) -> Iterator[Word]:
        """Yields the word that is next then, up to the end of the text."""
        word = self.peek()
        while word is not None:
            yield word
            word = self.peek()

    def take(self) -> Word:
        """Takes the next word; there has to be one."""
        word = self.peek()
        assert word is not None
        self._at, self._line, self._next = word.end, word.line, None
        return word

    def take_rest(self) -> str:
        """Returns the rest of the line after the word taken last."""
        stop = self._text.find("\n", self._at)
        stop = len(self._text) if stop < 0 else stop
        rest = self._text[self._at : stop]
        self._at, self._next = stop, None
        return (rest[1:] if rest.startswith(":") else rest).strip(_ENDS)

    def take_all(self) -> str:
        """Returns all that follows the word taken last."""
        rest = self._text[self._at :]
        self._at, self._next = len(self._text), None
        return rest

    def put_text_line_aside(self, command: str) -> None:
        """Keeps the rest of the line as the text of a command whose word was taken."""
        self.texts.append(TextLine(command, self.take_rest()))

    def _found(self) -> Optional[Word]:
        while True:
            word = self._word()
            if word is None:
                return None
            command = meaning_of_three(word.key, self.language.commands)
            twinning = meaning(word.key, self.language.twinnings) if self.of_twin else None
            if command not in TEXT_COMMANDS or twinning is not None:
                return word
            self._at, self._line = word.end, word.line
            self.put_text_line_aside(command)

    def _word(self) -> Optional[Word]:
        at, line = self._at, self._line
        while True:
            blanks = _BLANKS.match(self._text, at)
            assert blanks is not None
            line += blanks[0].count("\n")
            at = blanks.end()
            if at == len(self._text):
                return None
            found = _WORD.match(self._text, at)
            if found is not None:
                return Word(found[0], folded(found[0]), line, found.end())
            other = _OTHER.match(self._text, at)
            assert other is not None
            at = other.end()
            self._at, self._line = at, line
            if any(letter.isalnum() for letter in other[0]):
                self.skipped.append(Message(line, other[0]))
