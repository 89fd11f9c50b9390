"""A report that is judged as it is read: a large one in pieces, by all processors."""

import os
import pickle
from bisect import bisect
from collections.abc import Callable, Iterable, Iterator, Sequence
from functools import partial
from itertools import chain, islice
from typing import BinaryIO, NamedTuple, Optional

from pops_companions.many.forked import Copies, can_fork
from pops_companions.report.items import AnyItem
from pops_companions.report.reader import pieces_of, read_unfinished_report
from pops_companions.report.source import NamedText, merged_items
from pops_companions.review.beside import Beside, Course
from pops_companions.review.in_pieces import Cutter, Piece, Place, is_large
from pops_companions.review.judged_groups import JudgedGroup, judged_groups
from pops_companions.review.judgement_text import Tally
from pops_companions.review.judging import Judgement

# More take more memory, and one process can't keep them busy.
_MOST_COPIES = 8


class Form(NamedTuple):
    """How the problems of a report are grouped and shown."""

    encoding: str
    apart: bool
    text_of: Callable[[JudgedGroup], str]


class _Known(NamedTuple):
    """What a copy of this process knows of a piece; twins of its last group may follow."""

    last: int
    lacking: int
    tally: Tally
    undecodable: list[int]
    texts: bytes
    last_text: bytes


class JudgedReport:
    """A report, with what is known beside it; `tally` counts its problems as they are judged.

    `more` are unfinished problems between its own, by their numbers; None where there can't be any.
    """

    def __init__(
        self,
        report: NamedText,
        beside: Beside,
        form: Form,
        tally: Tally,
        more: Optional[Sequence[AnyItem]] = None,
    ):
        self._report = report
        self._beside = beside
        self._form = form
        self._tally = tally
        self._course = Course()
        self._may_be_empty = more is not None
        self._more = more or ()
        self._numbers = [item.number for item in self._more]

    def groups_of(self, items: Iterator[AnyItem]) -> Iterator[JudgedGroup]:
        """Yields the problems of items that are read elsewhere."""
        return self._counted(self._beside.judgements(items))

    def groups(self, source: BinaryIO) -> Iterator[JudgedGroup]:
        """Yields all problems."""
        return self._counted(self._judgements_to_end(pieces_of(source), Place(0, 0, 0)))

    def texts_of(self, groups: Iterator[JudgedGroup]) -> Iterator[bytes]:
        return (self._form.text_of(one).encode("utf-8", "replace") for one in groups)

    def texts(self, source: BinaryIO) -> Iterator[bytes]:
        """Yields the texts of all problems."""
        processors = len(os.sched_getaffinity(0)) if can_fork() else 1
        if processors == 1 or not is_large(source):
            return self.texts_of(self.groups(source))
        form = self._form
        cutter = Cutter(source, self._beside.given, form.encoding, form.apart, bool(self._more))
        return self._texts_in_pieces(cutter, source, min(processors, _MOST_COPIES))

    def _texts_in_pieces(self, cutter: Cutter, source: BinaryIO, number: int) -> Iterator[bytes]:
        """Yields the texts of pieces by copies of this process. Where one fails on a piece, all that
        is left is judged here.

        The last text of a piece comes after the next problem is judged, as without pieces.
        """
        held = b""
        with Copies(self._result, number) as copies:
            results = copies.results(cutter.pieces())
            for piece, result in results:
                known: Optional[_Known] = pickle.loads(result) if result else None
                if known is None or not self._add(known):
                    copies.stop()
                    left = chain([piece], (other for other, _ in results))
                    yield from self._texts_to_end(held, left, cutter, source)
                    return
                yield held + known.texts
                held = known.last_text
        yield from self._texts_to_end(held, iter(()), cutter, source)

    def _texts_to_end(
        self, held: bytes, left: Iterator[Piece], cutter: Cutter, source: BinaryIO
    ) -> Iterator[bytes]:
        """Yields what was held back, then the texts of pieces that are left and all that follows them."""
        pieces = chain(left, cutter.rests())
        first = next(pieces)
        chunks = chain.from_iterable(piece.chunks() for piece in chain([first], pieces))
        judgements = self._judgements_to_end(chain(chunks, pieces_of(source)), first.place)
        judged = list(islice(judgements, 1))
        yield held
        yield from self.texts_of(self._counted(chain(judged, judgements)))

    def _result(self, piece: Piece) -> bytes:
        """Returns what is known of a piece, with its texts."""
        self._course, self._tally = Course(piece.place.last), Tally()
        self._report.undecodable.clear()
        items = self._items(piece.chunks(), piece.place, piece.last)
        judgements = self._beside.judgements_of_piece(items, self._course)
        texts = [*self.texts_of(self._counted(judgements)), *[b""] * self._form.apart]
        course, undecodable = self._course, self._report.undecodable
        known = (course.last, course.lacking, self._tally, undecodable, b"".join(texts[:-1]), texts[-1])
        return pickle.dumps(_Known(*known))

    def _add(self, known: _Known) -> bool:
        """Adds what is known of a piece, unless it lacks too many problems; returns whether it did."""
        if not self._beside.may_lack(self._course.lacking + known.lacking):
            return False
        self._course.last = known.last
        self._course.lacking += known.lacking
        self._tally.add(known.tally)
        self._report.undecodable.extend(known.undecodable)
        return True

    def _items(
        self, chunks: Iterable[bytes], place: Place, last: Optional[int]
    ) -> Iterator[AnyItem]:
        """Yields the items from a place on, up to the last one's number, with the unfinished ones between."""
        items = self._report.items(chunks, partial(read_unfinished_report, line=place.line))
        end = len(self._more) if last is None else bisect(self._numbers, last)
        return merged_items(items, self._more[bisect(self._numbers, place.last) : end])

    def _judgements_to_end(self, chunks: Iterable[bytes], place: Place) -> Iterator[Judgement]:
        items = self._report.all_of(self._items(chunks, place, None), self._may_be_empty)
        yield from self._beside.judgements_of_piece(items, self._course)
        yield from self._beside.missing_at_end(self._course)

    def _counted(self, judgements: Iterable[Judgement]) -> Iterator[JudgedGroup]:
        form = self._form
        groups = judged_groups(judgements, self._beside.given, form.encoding, form.apart)
        return self._tally.counted(groups)
