"""Reports and texts of tries of which one problem is in memory at a time: each is read again where it is asked for."""

import os
import stat
import tempfile
from array import array
from collections.abc import Callable, Iterable, Iterator, Mapping, Sequence
from contextlib import ExitStack, contextmanager
from typing import BinaryIO, Generic, NoReturn, Optional, TypeVar, Union, cast

from pops_companions import command
from pops_companions.command import DeviceError
from pops_companions.report.items import FaultyItem, Item
from pops_companions.report.reader import ReportError, read_report
from pops_companions.report.source import items_of_report
from pops_companions.report.tries import TriesItem, TriesReportItem, read_tries
from pops_companions.review.matching import Heads

_BEGIN = b"problem "
Kept = TypeVar("Kept")
# Takes how many bytes of how many are read.
Told = Callable[[int, int], None]


class KeptText(Generic[Kept]):
    """A text in a file, of which all was read. Copies of this process may read it at the same time."""

    def __init__(
        self, name: str, source: BinaryIO, number: int, read: Callable[[Iterable[bytes]], Iterator[Kept]]
    ):
        """Looks where its problems begin, as many as were read."""
        self._name = name
        self._handle = source.fileno()
        self._read = read
        self._starts = array("q", _starts(source))
        if len(self) != number:
            self._refuse_changed()

    def __len__(self) -> int:
        return len(self._starts) - 1

    def text(self, place: int) -> bytes:
        """Returns the lines of the item in a place."""
        start, end = self._starts[place : place + 2]
        return os.pread(self._handle, end - start, start)

    def item(self, text: bytes) -> Kept:
        """Returns the item of these lines."""
        try:
            (item,) = self._read([text])
        except (ReportError, ValueError):
            self._refuse_changed()
        return item

    def _refuse_changed(self) -> NoReturn:
        raise DeviceError(f"{self._name} was changed while it was read")


class KeptReport(KeptText[Item]):
    """A whole report."""

    def __init__(self, name: str, source: BinaryIO, heads: Heads):
        super().__init__(name, source, len(heads), read_report)
        self.heads = heads


class KeptTries(KeptText[TriesReportItem]):
    """A text of tries."""

    def __init__(self, name: str, source: BinaryIO):
        """Reads all of it. CommandError where it is of another form."""
        numbers = [item.number for item in tries_of_text(name, source)]
        refuse_numbers_twice(name, numbers)
        super().__init__(name, source, len(numbers), read_tries)
        self._places = {number: place for place, number in enumerate(numbers)}

    def get(self, number: int, /) -> Union[TriesItem, FaultyItem, None]:
        """Returns what the text shows of a problem."""
        place = self._places.get(number)
        return None if place is None else self.item(self.text(place))


# What is known of problems in a text of tries, by their numbers.
KnownTries = Union[Mapping[int, TriesItem], KeptTries]


def tries_of_text(name: str, source: Iterable[bytes]) -> Iterator[TriesReportItem]:
    """Yields the items of a text of tries that messages name so. CommandError where it isn't one."""
    is_empty = True
    try:
        for item in read_tries(source):
            is_empty = False
            yield item
    except ReportError as error:
        raise DeviceError(f"{name} is no text of pops-tries: {error}") from None
    if is_empty:
        raise DeviceError(f"{name} is empty: no text of pops-tries")


def refuse_numbers_twice(name: str, numbers: Sequence[int]) -> None:
    """Raises CommandError where a text has two problems with one number."""
    seen: set[int] = set()
    for number in numbers:
        if number in seen:
            raise DeviceError(f"{name} has problem {number} twice")
        seen.add(number)


def _starts(source: BinaryIO) -> Iterator[int]:
    """Yields where the items of a text begin, and its end."""
    source.seek(0)
    place = 0
    for line in source:
        if line.startswith(_BEGIN):
            yield place
        place += len(line)
    yield place


@contextmanager
def _opened(file: Optional[str]) -> Iterator[BinaryIO]:
    """Opens a file that can be read again, from its begin: itself, or a copy of a pipe or a device."""
    with ExitStack() as stack:
        source = stack.enter_context(command.opened(file))
        if not _is_file(source):
            copy = cast(BinaryIO, stack.enter_context(tempfile.TemporaryFile()))
            copy.writelines(command.limited(source, file))
            copy.flush()
            source = copy
        source.seek(0)
        yield source


def _is_file(source: BinaryIO) -> bool:
    try:
        return stat.S_ISREG(os.fstat(source.fileno()).st_mode)
    except OSError:
        return False


@contextmanager
def kept_report(
    companion: str, file: Optional[str], encoding: str, told: Told
) -> Iterator[KeptReport]:
    """Opens a report, or standard input where no file is named; refuses what isn't one."""
    name = file or "standard input"
    with _opened(file) as source:
        size = os.fstat(source.fileno()).st_size
        heads = Heads()
        for item in items_of_report(companion, name, source, encoding):
            heads.add(item)
            told(source.tell(), size)
        yield KeptReport(name, source, heads)


@contextmanager
def kept_tries(file: Optional[str]) -> Iterator[KnownTries]:
    """Opens a text of tries; there are none where none is named."""
    if file is None:
        yield {}
        return
    with _opened(file) as source:
        yield KeptTries(file, source)
