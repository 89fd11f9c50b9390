"""Cuts an input into its problems as `input.pieces` does, quickly: by searches for bytes.

A word with only blanks before it on its line is in no text line. Other lines that may have a word
that ends a problem are few, and left to `input.pieces`, which is loaded only where it is needed: that
takes longer than a small run.
"""

import re
from bisect import bisect
from collections.abc import Iterator
from functools import cached_property
from itertools import accumulate, repeat
from typing import TYPE_CHECKING, NamedTuple

if TYPE_CHECKING:
    from pops_companions.input.pieces import Piece

_NEXT, _END = b"nextproblem", b"endproblem"
# A short form of a word has this many letters or more.
_LEAST_LETTERS = 3
# The end of most inputs is no longer: a word and a line end.
_USUAL_END = 20
# Some lines at a time are looked through, of this many bytes or more: a cache holds them.
_LINES_AT_ONCE = 1 << 18


class _Words(NamedTuple):
    """Where words begin, and where the text after each does."""

    starts: list[int]
    afters: list[int]


class Pieces:
    """The problems of an input by their numbers; each made on demand.

    An empty input has one, a faulty one.
    """

    def __init__(self, text: bytes):
        self._text = text
        words, self._is_closed = _words_that_end_problems(text)
        # Where the block of each problem begins and ends.
        self.starts = [0, *words.afters]
        self.stops = [*words.starts, len(text)]
        if self._is_closed:
            del self.starts[-1], self.stops[-1]

    def __len__(self) -> int:
        return len(self.starts)

    def __iter__(self) -> "Iterator[Piece]":
        return map(self.at, range(len(self)))

    def at(self, place: int) -> "Piece":
        """Returns the problem with this place among them, from 0."""
        from pops_companions.input.pieces import Piece

        start, stop, line_ends = self.starts[place], self.stops[place], self._line_ends[place]
        return Piece(place + 1, start, stop, line_ends, self.is_closed(place))

    def is_closed(self, place: int) -> bool:
        """Returns whether a word ends a problem: otherwise the end of the input does."""
        return self._is_closed or place < len(self) - 1

    @property
    def end_text(self) -> bool:
        """Whether the input plainly ends with the last problem, or with the word that ends it."""
        stop = self.stops[-1]
        rest = self._text[stop : stop + _USUAL_END + 1]
        return not self._is_closed or (len(rest) <= _USUAL_END and len(rest.split()) == 1)

    @cached_property
    def _line_ends(self) -> list[int]:
        """How many line ends are before each problem: a word that ends a problem has none."""
        counts = map(self._text.count, repeat(b"\n"), self.starts, self.stops)
        return list(accumulate(counts, initial=0))


def _words_that_end_problems(text: bytes) -> tuple[_Words, bool]:
    """Returns where the words are that end problems, and whether the last one ends the input too."""
    words = _Words([], [])
    begin = 0
    while begin < len(text):
        stop = text.find(b"\n", begin + _LINES_AT_ONCE) + 1 or len(text)
        # (with the line end before them: so the first line is as the others)
        before = max(begin - 1, 0)
        small = text[before:stop].lower()
        end = next(_words_of(small, _END), None) if _END[:_LEAST_LETTERS] in small else None
        starts, afters = _all_words_of(small, _NEXT)
        if end is not None:
            number = bisect(starts, end[0])
            starts[number:], afters[number:] = [end[0]], [end[1]]
        words.starts.extend([before + start for start in starts] if before else starts)
        words.afters.extend([before + after for after in afters] if before else afters)
        if end is not None:
            return words, True
        begin = stop
    return words, False


def _all_words_of(small: bytes, word: bytes) -> _Words:
    """Returns all that `_words_of` yields. Where each is in full and alone on its line, no line needs
    to be looked at.
    """
    starts = [found.start() + 1 for found in re.finditer(b"\n" + word + b"\n", small)]
    if len(starts) == small.count(word[:_LEAST_LETTERS]):
        return _Words(starts, [start + len(word) for start in starts])
    words = list(_words_of(small, word))
    return _Words([start for start, _ in words], [after for _, after in words])


def _words_of(small: bytes, word: bytes) -> Iterator[tuple[int, int]]:
    """Yields where a word, or one that is short for it, is among whole lines in small letters, but in
    text lines.
    """
    seen = 0
    for found in re.finditer(word[:_LEAST_LETTERS] + rb"\S*", small):
        start, after = found.span()
        if start < seen or not word.startswith(found[0]):
            continue
        if start and not small[start - 1 : start].isspace():
            continue
        line = small.rfind(b"\n", 0, start) + 1
        before = small[line:start]
        if not before or before.isspace():
            yield start, after
        else:
            seen = small.find(b"\n", after) + 1 or len(small)
            for place, past in _words_of_line(small[line:seen], word):
                if line + place >= start:
                    yield line + place, line + past


def _words_of_line(line: bytes, word: bytes) -> Iterator[tuple[int, int]]:
    """Yields where a word is in one line, up to a word that ends an input."""
    from pops_companions.input.pieces import cut

    pieces = cut(line)
    for piece, following in zip(pieces, pieces[1:]):
        if word is _NEXT:
            yield piece.stop, following.start
    if word is _END and pieces[-1].closed:
        yield pieces[-1].stop, pieces[-1].stop
