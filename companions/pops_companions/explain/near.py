"""A problem with what follows it, as a text of its own: what is done there costs no look at all the others."""

import re
from collections.abc import Sequence
from typing import NamedTuple, Optional

from pops_companions.input.pieces import Piece, cut, stop_after
from pops_companions.input.reading import Reading, read_on
from pops_companions.input.words import Span

# What begins a text in which the problem at hand isn't the first one.
_BEGIN = b"Beg "
_WORD = re.compile(rb"\S*")


class Edit(NamedTuple):
    """Some bytes of a text, and what stands there instead."""

    span: Span
    text: bytes

    def of(self, text: bytes) -> bytes:
        return text[: self.span.start] + self.text + text[self.span.stop :]

    def before(self, place: int) -> int:
        """Returns where a place of the changed text was."""
        start, by = self.span.start, self.span.stop - self.span.start - len(self.text)
        return max(place + by, start) if place > start else place


class Near:
    """A problem of a text, up to a word that begins or ends another one, as a text of its own.

    There it has the number `number`. The first `begin` bytes stand for what is before it; the others
    begin at `start` in the whole text, and end at `stop`. `line_ends` are those before it. What was
    read is kept: after a change the reading goes on where the change is.
    """

    def __init__(self, whole: bytes, start: int, closing: bytes, line_ends: int = 0):
        """Takes the problem that begins after `closing`, the word that closes the one before it."""
        self.text = _BEGIN + closing if closing else b""
        self.number = 2 if closing else 1
        self.begin = len(self.text)
        self.start = self.stop = start
        self.line_ends = line_ends
        self._whole = whole
        self._edits: list[Edit] = []
        self._known: Optional[Reading] = self._unread(self.begin, line_ends)
        self.grow()

    @property
    def is_all(self) -> bool:
        """Whether it ends with the whole text."""
        return self.stop == len(self._whole)

    def grow(self, only_ends: bool = False) -> bool:
        """Takes in what follows, up to the next word that ends a problem, or begins one.

        Returns whether anything does.
        """
        if self.is_all:
            return False
        stop = stop_after(self._whole, self.stop, only_ends)
        self.text += self._whole[self.stop : stop]
        self.stop = stop
        return True

    def _unread(self, start: int, line_ends: int) -> Reading:
        return Reading(self.text, start, line_ends + 1, self.number == 1)

    def widen(self, before: bytes, number: int) -> None:
        """Becomes the whole text, of which this is before the problem."""
        self.text = before + self.text[self.begin :] + self._whole[self.stop :]
        self.number, self.stop = number, len(self._whole)
        self.begin = self.start = self.line_ends = 0
        self._edits = []
        self._forget()

    def _forget(self) -> None:
        """Forgets what was read. The text of its own may have lost the problem."""
        piece = self._piece()
        self._known = None
        if piece is not None:
            self._known = self._unread(piece.start, piece.line_ends + self.line_ends)

    def read(self) -> Optional[Reading]:
        """Reads the problem, and takes in as much as it needs; None where no problem has its number."""
        while self._known is not None:
            self._known = reading = read_on(self.text, self._known)
            if reading.number is None or reading.at is not None or not self.grow():
                return reading
        return None

    def change(self, edit: Edit) -> None:
        """Makes an edit. What was read before it stays."""
        self.text = edit.of(self.text)
        self._edits.append(edit)
        if self._known is not None and not self._known.before_fault().stays(self.text, edit.span.start):
            self._forget()

    def closing(self) -> Optional[Span]:
        """Returns where the word is that closes the problem; None where the text ends first."""
        piece = self._piece()
        while piece is not None and not piece.closed and self.grow(only_ends=True):
            piece = self._piece()
        if piece is None or not piece.closed:
            return None
        word = _WORD.match(self.text, piece.stop)
        assert word is not None
        return Span(piece.stop, word.end())

    def _piece(self) -> Optional[Piece]:
        pieces = cut(self.text)
        return pieces[self.number - 1] if self.number <= len(pieces) else None

    def in_whole(self, span: Span) -> Span:
        """Returns where some bytes are in the whole text, or were before they were edited."""
        start, stop = span.start, span.stop
        for edit in reversed(self._edits):
            start, stop = edit.before(start), edit.before(stop)
        by = self.start - self.begin
        start, stop = min(start + by, self.stop), min(max(stop, start) + by, self.stop)
        return Span(max(start, 0), max(stop, 0))


def near_of(text: bytes, pieces: Sequence[Piece], number: int) -> Near:
    """Returns a problem with the one after it. What is said of the first problem and of one that nothing
    closes is said of the whole text."""
    piece = pieces[number - 1]
    if number == 1 or not piece.closed:
        near = Near(text, 0, b"")
        near.widen(b"", number)
        return near
    closing = text[pieces[number - 2].stop : piece.start]
    near = Near(text, piece.start, closing, piece.line_ends)
    near.grow()
    return near
