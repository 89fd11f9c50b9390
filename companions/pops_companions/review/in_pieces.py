"""Cuts a large report at the ends of problems into pieces that can be judged apart."""

import os
import re
import stat
from collections.abc import Iterator, Sequence
from typing import BinaryIO, NamedTuple, Optional

from pops_companions.input.given import GivenProblem
from pops_companions.show.titles import shown
from pops_companions.show.twins import label_and_title

# Smaller reports are read as fast by one process.
LEAST_BYTES = 1 << 20
PIECE_BYTES = 1 << 17
# More bytes that no problem ends are left to one process, which refuses what is no report.
MOST_BYTES = 1 << 26
_READ = 1 << 17
# How many bytes reading all of a report takes at a time.
_CHUNK = 1 << 16
_BORDER = b"\n\nproblem "
_HEAD = re.compile(rb"problem ([1-9][0-9]{0,17})\n(?:title: (.*)|.*)\n")
_DUPLEX = "duplex"


class Place(NamedTuple):
    """A place in a report between two problems: the bytes, the lines and the last problem before it."""

    offset: int
    line: int
    last: int


class Piece(NamedTuple):
    """Some whole problems of a report, where they begin, and the number of the last one, if it is known."""

    place: Place
    text: bytes
    last: Optional[int] = None

    def chunks(self) -> Iterator[bytes]:
        """Yields the text as reading all of the report yields it."""
        at = 0
        while at < len(self.text):
            end = at + _CHUNK - (self.place.offset + at) % _CHUNK
            yield self.text[at:end]
            at = end


def is_large(source: BinaryIO) -> bool:
    """Returns whether a report is a file, and large enough to be cut."""
    try:
        status = os.fstat(source.fileno())
        return stat.S_ISREG(status.st_mode) and status.st_size - source.tell() >= LEAST_BYTES
    except OSError:
        return False


class Cutter:
    """Reads a report and cuts it. No piece ends between twins, unless each is judged by itself."""

    def __init__(
        self,
        source: BinaryIO,
        given: Sequence[GivenProblem],
        encoding: str,
        apart: bool,
        has_gaps_filled: bool = False,
    ):
        """`has_gaps_filled` says that problems which the report lacks are known, so that they may be twins."""
        self._source = source
        self._given = given
        self._encoding = encoding
        self._apart = apart
        self._follow = bool(given) or has_gaps_filled
        self._text = bytearray()
        self._place = Place(0, 0, 0)

    def pieces(self) -> Iterator[Piece]:
        """Yields pieces as long as there are any; `rest` has what follows them."""
        looked = PIECE_BYTES
        while len(self._text) < MOST_BYTES:
            end, last = self._border(looked)
            if end:
                yield self._cut(end, last)
                looked = PIECE_BYTES
                continue
            last = self._text.rfind(_BORDER, looked)
            looked = max(looked, len(self._text) - len(_BORDER)) if last < 0 else last
            more = self._source.read(_READ)
            if not more:
                return
            self._text += more

    def rests(self) -> Iterator[Piece]:
        """Yields what was read and not cut; more may follow in the source."""
        yield Piece(self._place, bytes(self._text))

    def _cut(self, end: int, last: int) -> Piece:
        piece = Piece(self._place, bytes(self._text[:end]), last)
        del self._text[:end]
        offset, line, _ = self._place
        self._place = Place(offset + end, line + piece.text.count(b"\n"), last)
        return piece

    def _border(self, start: int) -> tuple[int, int]:
        """Returns where a piece can end, from a place on, and the number of the problem before; zeros
        where it can't.
        """
        at = self._text.find(_BORDER, start)
        while at >= 0:
            last = self._text.rfind(_BORDER, 0, at)
            before = _HEAD.match(self._text, 0 if last < 0 else last + 2)
            after = _HEAD.match(self._text, at + 2)
            if after is not None and before is not None and self._part(before, after):
                return at + 2, int(before[1])
            at = self._text.find(_BORDER, at + 1)
        return 0, 0

    def _part(self, before: "re.Match[bytes]", after: "re.Match[bytes]") -> bool:
        """Returns whether two problems surely are no twins, nor problems between them that are missing.
        """
        if self._apart:
            return True
        if self._follow and int(after[1]) != int(before[1]) + 1:
            return False
        places = [label_and_title(it)[1].place for it in self._titles(after)]
        if any(it.endswith(_DUPLEX) for it in self._titles(before)):
            return max(places) == 0
        # (a first twin goes on with no other, unless that has no letter)
        return max(places) == 0 or max(places) == 2 and 1 not in places

    def _titles(self, head: "re.Match[bytes]") -> list[str]:
        """Returns the titles that a problem may have, by the report and by its input."""
        number = int(head[1])
        known = self._given[number - 1].title if number <= len(self._given) else None
        return [shown(it or b"", self._encoding) for it in (head[2], known)]
