"""Cuts an input into its problems.

A problem ends with its NextProblem or EndProblem, whatever faults it has: these words count
everywhere but in the text of Title, Author, Origin and Remark. pops reads nothing after EndProblem.
"""

import re
from typing import NamedTuple, Optional

from pops_companions.input.words import BLANKS, TEXT_WORDS, Token, short_forms, tokens_in

_BEFORE = rb"(^|[" + BLANKS + rb"])"
_WORD_ENDS = rb"(?![^" + BLANKS + rb"])"
_MARKS = re.compile(
    _BEFORE
    + rb"(?:(?:"
    + b"|".join(map(short_forms, TEXT_WORDS))
    + rb")"
    + _WORD_ENDS
    + rb"[^\n]*|(?P<next>"
    + short_forms("NextProblem")
    + rb")"
    + _WORD_ENDS
    + rb"|(?P<end>"
    + short_forms("EndProblem")
    + rb")"
    + _WORD_ENDS
    + rb")",
    re.IGNORECASE,
)
# Marks, and words that begin a problem.
_STOPS = re.compile(
    _MARKS.pattern[:-1] + rb"|(?P<begin>" + short_forms("BeginProblem") + rb")" + _WORD_ENDS + rb")",
    re.IGNORECASE,
)
_NO_BLANK = re.compile(rb"[^" + BLANKS + rb"]")
# A BeginProblem that begins a line.
_BLOCK = re.compile(
    rb"^[\t\x0b\x0c\r ]*(?:" + short_forms("BeginProblem") + rb")" + _WORD_ENDS,
    re.IGNORECASE | re.MULTILINE,
)


class Piece(NamedTuple):
    """A problem of an input: the bytes of its block, and how many line ends are before it.

    The block of a later problem begins after NextProblem. It is closed where NextProblem or
    EndProblem ends it, and open where the input does.
    """

    number: int
    start: int
    stop: int
    line_ends: int
    closed: bool

    @property
    def line(self) -> int:
        """The line of the input on which the block begins, from 1."""
        return self.line_ends + 1

    def alone(self, text: bytes, with_line_ends: bool) -> bytes:
        """Returns the problem as an input of its own, with the same fault or none.

        With the line ends before it the fault also has the same line. Short words keep the input
        no longer than the part of the whole input that pops would read for the problem.
        """
        parts = []
        if self.number > 1:
            if with_line_ends:
                parts.append(b"\n" * self.line_ends)
            parts.append(b"Beg")
        parts.append(text[self.start : self.stop])
        if self.closed:
            parts.append(b"End")
        return b"".join(parts)

    def tokens(self, text: bytes) -> list[Token]:
        """Returns the words and text lines of the block."""
        return list(tokens_in(text, self.start, self.stop, self.line))


def cut(text: bytes) -> list[Piece]:
    """Returns the problems of an input by their numbers. An empty input has one, a faulty one."""
    pieces: list[Piece] = []
    start = 0
    line_ends = 0
    for mark in _MARKS.finditer(text):
        if mark.lastgroup is None:
            continue
        stop = mark.start() + len(mark[1])
        pieces.append(Piece(len(pieces) + 1, start, stop, line_ends, True))
        if mark.lastgroup == "end":
            return pieces
        line_ends += text.count(b"\n", start, stop)
        start = mark.end()
    pieces.append(Piece(len(pieces) + 1, start, len(text), line_ends, False))
    return pieces


class Rest(NamedTuple):
    """What follows the EndProblem of an input, which `pops` doesn't read.

    `line` is the line of its first word, from 1, `problems` how many problems it holds.
    """

    line: int
    problems: int

    @property
    def text(self) -> str:
        """What is lost, and what to write instead."""
        said = (
            f"nothing after the first EndProblem is read, and the text goes on in line {self.line}"
        )
        if not self.problems:
            return said
        lost = "1 problem is" if self.problems == 1 else f"{self.problems} problems are"
        return (
            f"{said}: {lost} lost. Write NextProblem for EndProblem and the BeginProblem after it"
        )


def rest_of(text: bytes) -> Optional[Rest]:
    """Returns what follows the EndProblem of an input; None where only blanks do."""
    return rest_after(text, cut(text)[-1])


def rest_after(text: bytes, last: Piece) -> Optional[Rest]:
    """Returns what follows the last problem of an input; None where only blanks do."""
    if not last.closed:
        return None
    end = _MARKS.match(text, max(last.stop - 1, 0))
    assert end is not None
    first = _NO_BLANK.search(text, end.end())
    if first is None:
        return None
    problems = len(_BLOCK.findall(text, end.end()))
    if problems:
        marks = _MARKS.finditer(text, end.end())
        problems += sum(mark.lastgroup == "next" for mark in marks)
    return Rest(text.count(b"\n", 0, first.start()) + 1, problems)


def stop_after(text: bytes, start: int, only_ends: bool) -> int:
    """Returns where the next word ends that begins a problem, or ends one; without any the text's end.

    The search begins in no word and in no text line.
    """
    marks = (_MARKS if only_ends else _STOPS).finditer(text, start)
    return next((mark.end() for mark in marks if mark.lastgroup is not None), len(text))


def last_block(text: bytes) -> int:
    """Returns where the last BeginProblem is that begins a line; -1 where none does."""
    return max((block.start() for block in _BLOCK.finditer(text)), default=-1)
