"""What is no fault of a text, and may not be meant: nightriders, names in Latin-1, text that is lost,
an input of Popeye."""

import codecs
from collections.abc import Iterator
from typing import NamedTuple, Optional

from pops_companions.chess.men import Kind
from pops_companions.explain.characters import decoded
from pops_companions.explain.vocabulary import foreign, unread
from pops_companions.input.pieces import Piece, cut, rest_of
from pops_companions.input.reading import read_piece
from pops_companions.input.words import TextLine
from pops_companions.show.titles import is_text

_NIGHTRIDERS = "`N` is a nightrider, and there is no knight: knights are `S`"
_OF_POPEYE = "is a word of Popeye: `pops-import FILE` makes an input of pops of Popeye's inputs"


class Notice(NamedTuple):
    """What is said of a line of a text, and of a problem, if it is of one."""

    line: int
    problem: Optional[int]
    text: str

    def shown(self, name: str) -> str:
        """Returns the notice as a line of text, for a text of this name."""
        problem = "" if self.problem is None else f"problem {self.problem}: "
        return f"{name}:{self.line}: {problem}{self.text}\n"


def notices(text: bytes) -> Iterator[Notice]:
    """Yields the notices of a text, problem by problem."""
    for piece in cut(text):
        yield from _of_problem(text, piece)
    yield from _of_popeye(text.removeprefix(codecs.BOM_UTF8))
    rest = rest_of(text)
    if rest is not None:
        yield Notice(rest.line, None, rest.text)


def _of_problem(text: bytes, piece: Piece) -> Iterator[Notice]:
    for token in piece.tokens(text):
        if isinstance(token, TextLine) and token.name in ("Title", "Author"):
            if not is_text(token.text, "utf-8"):
                said = f"`{token.name}` isn't UTF-8: the companions read it as Latin-1"
                yield Notice(token.word.line, piece.number, said)
    placed = list(read_piece(text, piece).men.values())
    riders = [it.word.line for it in placed if it.man.kind is Kind.NIGHTRIDER]
    if riders and not any(it.man.kind is Kind.KNIGHT for it in placed):
        yield Notice(min(riders), piece.number, _NIGHTRIDERS)


def _of_popeye(text: bytes) -> Iterator[Notice]:
    """Yields a notice of the first faulty word that is Popeye's, and could be read by pops-import."""
    for piece in cut(text):
        reading = read_piece(text, piece)
        if reading.number is None or reading.at is None:
            continue
        word = decoded(reading.word.bytes)
        if unread(word) is not None or foreign(word) is not None:
            yield Notice(reading.word.line, piece.number, f"`{word}` {_OF_POPEYE}")
            return
