"""Twins as one problem: the problems that pops-import makes of one, by the labels of their titles.

A label is `a)`, `b)` .. or a number, with or without `duplex`, at the end of the title.
"""

import re
from collections.abc import Iterable, Iterator, Sequence
from typing import NamedTuple, Optional

from pops_companions.chess.men import Changes
from pops_companions.input.given import GivenProblem
from pops_companions.report.items import AnyItem, Board, SoundItem
from pops_companions.show.titles import shown

_LABEL = re.compile(r"(?:(.*?) )??(?:([a-z]|[0-9]{2,3})\)( duplex)?|(duplex))", re.DOTALL)
_ENDS = (")", "duplex")
# A twin with more changed squares is shown by a diagram of its own.
_MOST_CHANGES = 4


class Label(NamedTuple):
    """A label, as text and by its place among the twins."""

    text: str
    number: int
    is_duplex: bool

    @property
    def place(self) -> int:
        return 2 * self.number + self.is_duplex


_NONE = Label("", 0, False)


class Twin(NamedTuple):
    """A problem of a group: its item, its input if that is known, and its label.

    `change` says what makes it of the first problem of the group; it is empty if that is unknown.
    `has_own_diagram` says that it differs too much from the first one.
    """

    item: AnyItem
    given: Optional[GivenProblem]
    label: Label
    change: str = ""
    has_own_diagram: bool = False

    @property
    def heading(self) -> str:
        """As `b) Move a1 b2`."""
        return " ".join(filter(None, (self.label.text, self.change)))


class Group(NamedTuple):
    """A problem with its twins, or a problem alone."""

    title: Optional[str]
    author: Optional[bytes]
    twins: tuple[Twin, ...]

    @property
    def first(self) -> AnyItem:
        return self.twins[0].item

    @property
    def is_alone(self) -> bool:
        return len(self.twins) == 1

    @property
    def numbers(self) -> str:
        """As `problem 3`, or `problems 3 to 5`."""
        if self.is_alone:
            return f"problem {self.first.number}"
        return f"problems {self.first.number} to {self.twins[-1].item.number}"


class _Named(NamedTuple):
    """A problem with its title divided into the group's part and the label."""

    item: AnyItem
    given: Optional[GivenProblem]
    whole_title: Optional[str]
    title: Optional[str]
    author: Optional[bytes]
    label: Label

    def continues(self, other: "_Named") -> bool:
        """Returns whether it is the next twin of another problem."""
        if self.item.number != other.item.number + 1 or self.label.place <= other.label.place:
            return False
        if not other.label.text and not (self.label.is_duplex and self.label.number == 0):
            return False
        same_names = (self.title or "", self.author) == (other.title or "", other.author)
        return same_names and (self.title is not None or bool(other.label.text))


def label_and_title(title: Optional[str]) -> tuple[Optional[str], Label]:
    """Returns a title without its label, and the label; that is empty where there is none."""
    may_have_one = title is not None and title.endswith(_ENDS)
    parts = _LABEL.fullmatch(title or "") if may_have_one else None
    if parts is None:
        return title, _NONE
    if parts[4] is not None:
        return parts[1], Label("duplex", 0, True)
    number = ord(parts[2]) - ord("a") + 1 if parts[2].isalpha() else int(parts[2])
    text = f"{parts[2]}){parts[3] or ''}"
    return parts[1], Label(text, number, parts[3] is not None)


def groups(
    items: Iterable[AnyItem], given: Sequence[GivenProblem], encoding: str, apart: bool
) -> Iterator[Group]:
    """Yields the problems of a report with their twins; `apart` leaves each one alone.

    `given` are the problems of the input by their numbers; there may be none.
    """
    run: list[_Named] = []
    for item in items:
        known = given[item.number - 1] if item.number <= len(given) else None
        one = _named(item, known, encoding)
        if apart:
            yield _group([one])
            continue
        if run and not one.continues(run[-1]):
            yield _group(run)
            run = []
        run.append(one)
    if run:
        yield _group(run)


def _named(item: AnyItem, given: Optional[GivenProblem], encoding: str) -> _Named:
    source = item if isinstance(item, SoundItem) else given
    title = None if source is None or source.title is None else shown(source.title, encoding)
    author = None if source is None else source.author
    own, label = label_and_title(title)
    return _Named(item, given, title, own, author, label)


def _group(run: list[_Named]) -> Group:
    first = run[0]
    if len(run) == 1:
        return Group(first.whole_title, first.author, (Twin(first.item, first.given, _NONE),))
    twins = [Twin(first.item, first.given, first.label, _said(first))]
    twins.extend(_twin(one, first.item) for one in run[1:])
    return Group(first.title, first.author, tuple(twins))


def _said(one: _Named) -> str:
    """Returns what the input's Remark says of a twin, as `Move a1 b2`."""
    label = one.label.text.partition(" ")[0]
    for remark in one.given.remarks if one.given is not None else ():
        text = remark.decode("utf-8", "replace")
        if label.endswith(")") and text.startswith(label + " "):
            return text[len(label) + 1 :]
    return ""


def _twin(one: _Named, first: AnyItem) -> Twin:
    item = one.item
    changes, is_large = _changes(item, first)
    said = _said(one)
    if one.label.is_duplex:
        said = ", ".join(filter(None, (said, "colours reversed")))
    is_large = is_large or one.label.is_duplex
    return Twin(item, one.given, one.label, said or ("" if is_large else changes), is_large)


def _changes(item: AnyItem, first: AnyItem) -> tuple[str, bool]:
    """Returns what a twin changes, in words, and whether it changes many men."""
    if not isinstance(item, SoundItem) or not isinstance(first, SoundItem):
        return "", False
    texts: list[str] = []
    is_large = False
    if item.board is not None and first.board is not None:
        texts, is_large = _changes_of_men(item.board, first.board)
    if item.asked != first.asked:
        texts.append(item.asked)
    return ", ".join(texts), is_large


def _changes_of_men(board: Board, first: Board) -> tuple[list[str], bool]:
    changes = Changes(first.men, board.men)
    texts = [f"{man.on(square)} to {target.name}" for man, square, target in changes.moved()]
    texts += [f"without {man.on(square)}" for square, man in changes.gone.items()]
    texts += [f"with {man.on(square)}" for square, man in changes.new.items()]
    return texts, len(texts) > _MOST_CHANGES
