"""A report as a companion reads it, and what the companion says if it isn't one."""

import os
import re
import sys
from collections.abc import Callable, Iterable, Iterator, Sequence
from contextlib import contextmanager
from enum import Enum
from functools import partial
from heapq import merge
from itertools import chain
from typing import Any, BinaryIO, Optional, TypeVar, Union

from pops_companions import command
from pops_companions.command import CommandError, Status
from pops_companions.input.words import is_short_for
from pops_companions.report.events import Event
from pops_companions.report.items import AnyItem, Item, SoundItem
from pops_companions.report.reader import (
    Allowed,
    ReportError,
    ReportReader,
    pieces_of,
    read_events,
    read_report,
    read_unfinished_report,
)
from pops_companions.report.tries import (
    AnyTriesItem,
    TriesItem,
    TriesReader,
    read_tries,
    read_unfinished_tries,
)
from pops_companions.show.titles import is_text

# What the name of the file ends in that pops-many writes for unfinished problems.
UNFINISHED = ".unfinished"
_HEAD = re.compile(rb"problem ([1-9][0-9]{0,17})\n?")
_LONGEST_LINE = 1 << 16

Read = TypeVar("Read", Item, AnyItem, AnyTriesItem)


class Text(Enum):
    """What a text is, as messages name it."""

    REPORT = "report of pops"
    TRIES = "text of pops-tries"


@contextmanager
def opened_report(companion: str, file: Optional[str], encoding: str) -> Iterator[Iterator[Item]]:
    """The items of a report in a file, or on standard input where no file is named.

    A text that is no report ends the companion, and so does a report without any problem. Titles
    and authors that aren't in the encoding are reported on standard error after the last item.
    """
    with command.opened(file) as source:
        yield items_of_report(companion, file or "standard input", source, encoding)


def items_of_report(
    companion: str, name: str, source: BinaryIO, encoding: str
) -> Iterator[Item]:
    """Yields the items of a report that is open, and refuses it as `opened_report` does."""
    return NamedText(companion, name, encoding).whole(source, read_report)


@contextmanager
def opened_unfinished_report(
    companion: str, file: Optional[str], unfinished: Optional[str], encoding: str
) -> Iterator[Iterator[AnyItem]]:
    """As `opened_report`; the report may hold unfinished problems or end inside a problem.

    The problems of `unfinished`, by default of a file next to the report with its name and
    UNFINISHED, are added at the places of their numbers. If no problem was finished, the report is
    empty.
    """
    with command.opened(file) as source:
        yield items_with_unfinished(companion, file, source, unfinished, encoding)


def items_with_unfinished(
    companion: str,
    file: Optional[str],
    source: BinaryIO,
    unfinished: Optional[str],
    encoding: str,
) -> Iterator[AnyItem]:
    """Returns the items of a report that is open, with unfinished ones as `opened_unfinished_report` has
    them.
    """
    may_be_empty = unfinished_beside(file, unfinished) is not None
    text = NamedText(companion, file or "standard input", encoding)
    items = text.whole(source, read_unfinished_report, may_be_empty)
    whole = list(items) if may_be_empty and not source.seekable() else None
    more = fitting_unfinished(companion, file, source, unfinished, encoding, whole)
    return merged_items(items if whole is None else whole, more)


def fitting_unfinished(
    companion: str,
    file: Optional[str],
    source: BinaryIO,
    unfinished: Optional[str],
    encoding: str,
    whole: Optional[Sequence[AnyItem]] = None,
) -> Sequence[AnyItem]:
    """Returns the unfinished problems of a report that is open, by their numbers: none where a file beside it
    doesn't fit. One that is named has to.

    The report can be read again, unless its items are given.
    """
    beside = unfinished_beside(file, unfinished)
    if beside is None:
        return ()
    with command.opened(beside) as rest:
        other = NamedText(companion, beside, encoding)
        more = sorted(other.whole(rest, read_unfinished_report), key=lambda item: item.number)
    if whole is None:
        begin = source.tell()
        fits = _fit(_numbers_in(source), more)
        source.seek(begin)
    else:
        fits = _fit((item.number for item in whole), more)
    if fits or unfinished is None:
        return more if fits else ()
    name = file or "standard input"
    message = f"--unfinished isn't of {name}: both have a problem, or a file holds several reports"
    raise CommandError(Status.DEVICE, message)


def merged_items(items: Iterable[AnyItem], more: Sequence[AnyItem]) -> Iterator[AnyItem]:
    """Returns items with more ones at the places of their numbers."""
    return iter(merge(items, more, key=lambda item: item.number) if more else items)


def _numbers_in(source: BinaryIO) -> Iterator[int]:
    """Yields the numbers of a report's problems, without reading these."""
    for line in iter(partial(source.readline, _LONGEST_LINE), b""):
        found = _HEAD.fullmatch(line)
        if found is not None:
            yield int(found[1])


def _fit(numbers: Iterable[int], more: Sequence[AnyItem]) -> bool:
    """Returns whether problems of these numbers and others are of one report."""
    others, last = {item.number for item in more}, 0
    for number in numbers:
        if number <= last or number in others:
            return False
        last = number
    return len(others) == len(more)


def unfinished_beside(file: Optional[str], unfinished: Optional[str]) -> Optional[str]:
    """Returns the file of a report's unfinished problems: the one named, else one next to the report."""
    if unfinished is None and file is not None and os.path.isfile(file + UNFINISHED):
        return file + UNFINISHED
    return unfinished


@contextmanager
def opened_tries(
    companion: str, file: Optional[str], encoding: str, allowed: Allowed
) -> Iterator[Iterator[AnyTriesItem]]:
    """The items of a text of tries, as `opened_report` gives a report's."""
    read: Callable[[Iterable[bytes]], Iterator[AnyTriesItem]] = read_unfinished_tries
    if allowed is Allowed.FINISHED:
        read = read_tries
    with command.opened(file) as source:
        text = NamedText(companion, file or "standard input", encoding, Text.TRIES)
        yield text.whole(source, read)


@contextmanager
def opened_events(
    companion: str, file: Optional[str], text: Text, allowed: Allowed
) -> Iterator[Iterator[Event]]:
    """The events of a text, each as soon as its line has come.

    A text of another form, or an empty one, ends the companion.
    """
    reader = ReportReader(allowed) if text is Text.REPORT else TriesReader(allowed)
    with command.opened(file) as source:
        named = NamedText(companion, file or "standard input", "", text)
        yield named.all_of(named.read(pieces_of(source), partial(read_events, reader)))


def is_input(line: bytes) -> bool:
    """Returns whether a text's first line shows that it is an input of pops."""
    words = line.split(None, 1)
    return bool(words) and is_short_for(words[0], "BeginProblem")


class NamedText:
    """A text as messages name it, read as a whole or from some of its pieces."""

    def __init__(self, companion: str, name: str, encoding: str, text: Text = Text.REPORT):
        self._companion = companion
        self._name = name
        self._encoding = encoding
        self._text = text
        self._is_empty = True
        # The numbers of the problems whose title or author isn't in the encoding.
        self.undecodable: list[int] = []

    def items(
        self, pieces: Iterable[bytes], read: Callable[[Iterable[bytes]], Iterator[Read]]
    ) -> Iterator[Read]:
        """Yields the items of some pieces. A text of another form ends the companion."""
        for item in self.read(pieces, read):
            if not _has_names_in(self._encoding, item):
                self.undecodable.append(item.number)
            yield item

    def read(
        self, pieces: Iterable[bytes], read: Callable[[Iterable[bytes]], Iterator[Any]]
    ) -> Iterator[Any]:
        """Yields what is read of some pieces. A text of another form ends the companion."""
        left = iter(pieces)
        first = next(left, b"")
        try:
            for one in read(chain([first], left)):
                self._is_empty = False
                yield one
        except ReportError as error:
            message = _refusal(self._name, first.split(b"\n", 1)[0], error, self._text)
            raise CommandError(Status.DEVICE, message) from None

    def whole(
        self,
        source: BinaryIO,
        read: Callable[[Iterable[bytes]], Iterator[Read]],
        may_be_empty: bool = False,
    ) -> Iterator[Read]:
        """Yields the items of all of the text."""
        return self.all_of(self.items(pieces_of(source), read), may_be_empty)

    def all_of(self, some: Iterator[Any], may_be_empty: bool = False) -> Iterator[Any]:
        """Yields all that is read of the text. Refuses one without items, and says whose names aren't in
        the encoding.
        """
        yield from some
        if self._is_empty and not may_be_empty:
            raise CommandError(Status.DEVICE, f"{self._name} is empty: no {self._text.value}")
        _warn_of_names(self._companion, self._name, self.undecodable, self._encoding)


def warn_of_names(companion: str, name: str, items: Iterable[AnyItem], encoding: str) -> None:
    """Says on standard error which titles and authors of these items aren't in the encoding."""
    undecodable = [item.number for item in items if not _has_names_in(encoding, item)]
    _warn_of_names(companion, name, undecodable, encoding)


def _has_names_in(encoding: str, item: Union[AnyItem, AnyTriesItem]) -> bool:
    if not isinstance(item, (SoundItem, TriesItem)):
        return True
    title, author = item.title or b"", item.author or b""
    return is_text(title, encoding) and is_text(author, encoding)


def _refusal(name: str, first_line: bytes, error: ReportError, text: Text) -> str:
    if is_input(first_line):
        solved = name if os.path.isfile(name) else "FILE"
        return (
            f"{name} is an input of pops, no report: solve it first, as in `pops {solved} > REPORT`,"
            " or give it to pops-judge"
        )
    return f"{name} is no {text.value}: {error}"


def _warn_of_names(companion: str, name: str, undecodable: list[int], encoding: str) -> None:
    if not undecodable:
        return
    more = f", and of {len(undecodable) - 1} more," if len(undecodable) > 1 else ""
    print(
        f"{companion}: {name}: title or author of problem {undecodable[0]}{more} isn't {encoding}"
        " and is read as latin-1; --encoding names another",
        file=sys.stderr,
    )
