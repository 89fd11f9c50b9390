"""Mends all faults of a text, problem by problem, as far as their explanations say how."""

import re
from dataclasses import dataclass
from typing import Optional

from pops_companions.explain.mending import MOST_FAULTS, edit_for
from pops_companions.explain.near import Edit, Near
from pops_companions.input.pieces import last_block
from pops_companions.input.reading import Reading
from pops_companions.input.words import Span, named, short_forms

_NEXT = b"NextProblem"
_BEGIN_AFTER = re.compile(rb"(?i)\s+(?:" + short_forms("BeginProblem") + rb")(?!\S)")
_CLOSING_AFTER = re.compile(
    rb"(?i)\s+(" + short_forms("NextProblem") + rb"|" + short_forms("EndProblem") + rb")(?!\S)"
)


@dataclass
class Mended:
    """A text with the faults mended that could be; how many were, and how many could not be."""

    text: bytes
    mended: int = 0
    left: int = 0


def mend(text: bytes) -> Mended:
    """Mends all faults of a text as far as their explanations say how; a line is mended whole or left.

    A block after the first EndProblem is joined once those before it are mended.
    """
    mender = _Mender(text)
    while mender.mend_next():
        pass
    return mender.made


@dataclass
class _Line:
    """The line of a fault, which is mended whole or not at all: where it is, with what is mended of
    it, what it was before, and how many of its faults are mended."""

    span: Span
    was: bytes
    mended: int = 0

    @classmethod
    def of(cls, text: bytes, reading: Reading) -> "_Line":
        """Returns the line of a reading's fault, which for a fault at the end has nothing in it."""
        at = reading.fault_span
        start, end = text.rfind(b"\n", 0, at.start) + 1, text.find(b"\n", at.stop)
        span = Span(start if reading.at is not None else at.start, len(text) if end < 0 else end)
        return cls(span, text[span.start : span.stop])

    def has(self, reading: Reading) -> bool:
        """Returns whether the fault of a reading is in the line."""
        return reading.at is not None and self.span.start <= reading.word.start < self.span.stop

    def note(self, edit: Edit) -> None:
        """Notes a mend of the line, or of what stands before it."""
        by = len(edit.text) - (edit.span.stop - edit.span.start)
        is_before = edit.span.start < self.span.start
        self.span = Span(self.span.start + (by if is_before else 0), self.span.stop + by)
        self.mended += 1


class _Mender:
    """A text on the way: what is done is kept apart, so that no step costs a look at the whole."""

    def __init__(self, text: bytes):
        self.made = Mended(text)
        self._done: list[bytes] = []
        # The rest of the text is this from a place on, which is after a word that closed a problem.
        self._text = text
        self._place = 0
        self._closing = b""
        self._number = 1
        self._last_block = last_block(text)

    def mend_next(self) -> bool:
        """Mends the next problem. Returns whether there is another one."""
        near = Near(self._text, self._place, self._closing)
        reading = near.read()
        if reading is None or reading.number is not None:
            near.grow()
            self._mend(near)
        closing = near.closing()
        if closing is None:
            self._finish(near.text[near.begin :] + self._text[near.stop :])
            return False
        self._pass_on(near, closing.stop)
        self._done.append(near.text[near.begin : closing.start])
        self._closing = near.text[closing.start : closing.stop]
        self._number += 1
        if not self._goes_on():
            self._finish(self._closing + self._text[self._place :])
            return False
        self._done.append(self._closing)
        return True

    def _mend(self, near: Near) -> None:
        """Mends the faults of a problem, up to one that can't be mended. Its line stays as it was."""
        mended = 0
        line: Optional[_Line] = None
        while mended < MOST_FAULTS:
            reading = near.read()
            if reading is None or reading.number is None:
                return
            if near.begin and reading.at is None or not (near.begin or near.is_all):
                # What is said of the first problem and of the end is said of the whole text.
                self._widen(near)
                line = None
                continue
            edit = edit_for(near.text, near.number, reading)
            if edit is None:
                self.made.left += 1
                if line is not None and line.has(reading):
                    start, stop = line.span.start, line.span.stop
                    near.text = near.text[:start] + line.was + near.text[stop:]
                    self.made.mended -= line.mended
                return
            if not edit.text and edit.span.start < near.begin:
                # (the word that closes the problem before is left out)
                self._widen(near)
                line = None
                continue
            if line is None or not line.has(reading):
                line = _Line.of(near.text, reading)
            line.note(edit)
            near.change(edit)
            self.made.mended += 1
            mended += 1

    def _widen(self, near: Near) -> None:
        near.widen(b"".join(self._done), self._number)
        self._done.clear()

    def _pass_on(self, near: Near, after: int) -> None:
        """Goes on after a problem: in the text as it was, unless it was changed there too."""
        rest = near.text[after:]
        self._place = near.stop - len(rest)
        if self._place < 0 or self._text[self._place : near.stop] != rest:
            self._text = rest + self._text[near.stop :]
            self._place = 0
            self._last_block = last_block(self._text)

    def _goes_on(self) -> bool:
        """Joins the block after an EndProblem, and leaves out a NextProblem that nothing follows. Returns
        whether a problem follows."""
        while True:
            if named(self._closing, ["EndProblem"]) is not None:
                if not self._joins():
                    return False
            elif not self._leaves_out():
                return True

    def _leaves_out(self) -> bool:
        """Leaves out the word that closes a problem, where only blanks part it from the next one."""
        after = _CLOSING_AFTER.match(self._text, self._place)
        if after is None:
            return False
        self._closing, self._place = after[1], after.end()
        self.made.mended += 1
        return True

    def _joins(self) -> bool:
        """Joins the block after an EndProblem, where there is one. Returns whether it does."""
        begin = _BEGIN_AFTER.match(self._text, self._place)
        if begin is None or self._last_block < self._place:
            return False
        self._place = begin.end()
        self._closing = _NEXT
        self.made.mended += 1
        return True

    def _finish(self, rest: bytes) -> None:
        self._done.append(rest)
        self.made.text = b"".join(self._done)
