"""What an input of pops says of its problems: the words that pops reads, and the text lines."""

import re
from dataclasses import dataclass
from typing import NamedTuple, Optional

from pops_companions.chess.stipulation import Stipulation
from pops_companions.input.pieces import Piece, cut
from pops_companions.input.reading import SECTIONS
from pops_companions.input.words import TextLine, Word, is_short_for, named

# The most bytes of a title or an author in a report, and what is cut off at both ends.
LONGEST_TEXT = 200
_BLANKS = b" \t\v\f\r"
_WANTED = re.compile(
    rb"(?:solutions?\s*(?::\s*)?([0-9]{1,9})|([0-9]{1,9})\s+solutions?)(?:\s*\.)?", re.IGNORECASE
)


class GivenSection(NamedTuple):
    """A command with the words after it; words before the first command make a section of none."""

    command: Optional[str]
    words: list[bytes]


@dataclass(frozen=True)
class GivenProblem:
    """A problem of an input. `words` are those between its first and its last word, text lines
    left out; there are none where the first or the last word is missing. `line` is the line of the
    input on which it begins, from 1.
    """

    number: int
    line: int
    words: tuple[bytes, ...]
    texts: tuple[TextLine, ...]

    def lines_of(self, name: str) -> list[bytes]:
        """Returns the text lines of a word, without the blanks at both ends, empty ones left out.
        """
        texts = (line.text.strip(_BLANKS) for line in self.texts if line.name == name)
        return [text for text in texts if text]

    @property
    def title(self) -> Optional[bytes]:
        """Its title, the last one as in a report."""
        return _last(self.lines_of("Title"))

    @property
    def author(self) -> Optional[bytes]:
        """Its author, the last one as in a report."""
        return _last(self.lines_of("Author"))

    @property
    def origin(self) -> Optional[bytes]:
        """Where it was published: its Origin lines, joined."""
        return b"; ".join(self.lines_of("Origin")) or None

    @property
    def remarks(self) -> list[bytes]:
        return self.lines_of("Remark")

    @property
    def stipulation(self) -> Optional[Stipulation]:
        """Its stipulation; None where pops would find a fault in it."""
        for section in self.sections:
            if section.command == "Stipulation" and len(section.words) > 1:
                try:
                    return Stipulation.of_text(section.words[1].decode("latin-1").lower())
                except ValueError:
                    return None
        return None

    @property
    def sections(self) -> list[GivenSection]:
        """Its sections, in order."""
        sections: list[GivenSection] = []
        for word in self.words:
            command = named(word, SECTIONS)
            if command is not None:
                sections.append(GivenSection(command, [word]))
            elif sections:
                sections[-1].words.append(word)
            else:
                sections.append(GivenSection(None, [word]))
        return sections

    @property
    def has_variations(self) -> bool:
        """Whether it has the option Variation."""
        options = (it for it in self.sections if it.command == "Option")
        return any(is_short_for(word, "Variation") for it in options for word in it.words[1:])

    @property
    def wanted(self) -> Optional[int]:
        """The number of solutions that a Remark asks for, as `Remark solutions 2`; the last one."""
        wanted = None
        for remark in self.remarks:
            parts = _WANTED.fullmatch(remark.strip())
            if parts is not None:
                wanted = int(parts[1] or parts[2])
        return wanted


def _last(texts: list[bytes]) -> Optional[bytes]:
    return texts[-1][:LONGEST_TEXT] if texts else None


def given_problems(text: bytes) -> list[GivenProblem]:
    """Returns the problems of an input, numbered as pops numbers them."""
    return [_given(text, piece) for piece in cut(text)]


def _given(text: bytes, piece: Piece) -> GivenProblem:
    tokens = piece.tokens(text)
    framed = piece.closed
    if piece.number == 1:
        # Text lines before BeginProblem have no effect.
        begin = next((place for place, it in enumerate(tokens) if isinstance(it, Word)), None)
        tokens = tokens if begin is None else tokens[begin:]
        first = tokens.pop(0) if begin is not None else None
        framed = framed and isinstance(first, Word) and is_short_for(first.bytes, "BeginProblem")
    words = tuple(token.bytes for token in tokens if isinstance(token, Word))
    texts = tuple(token for token in tokens if isinstance(token, TextLine))
    return GivenProblem(piece.number, piece.line, words if framed else (), texts)
