"""Which problem of one report is which of another, also where the numbers moved."""

from array import array
from collections.abc import Callable, Hashable, Iterator
from itertools import groupby
from typing import NamedTuple, Optional

from pops_companions.report.items import Item, SoundItem

# In place of the checksum of what a problem lacks, and of the place of a problem that isn't found.
_NOTHING = 0
_NOWHERE = -1

_MayBeOne = Callable[[int, int], bool]


class Places(NamedTuple):
    """The places of a problem in both reports, or in one alone."""

    old: Optional[int]
    new: Optional[int]


class Heads:
    """What is kept of a report's problems to find them in another one: some checksums of each.

    They are equal within this process alone. A faulty problem has none.
    """

    def __init__(self) -> None:
        # What each is of: title, author, board, stipulation and condition; title and author; the title;
        # the board.
        self.wholes, self.names = array("q"), array("q")
        self.titles, self.boards = array("q"), array("q")

    def add(self, item: Item) -> None:
        """Adds the next problem."""
        keys: tuple[Optional[Hashable], ...] = (None, None, None, None)
        if isinstance(item, SoundItem):
            names = None if item.title is None else (item.title, item.author)
            whole = item.title, item.author, item.board, item.stipulation, item.condition
            keys = (whole, names, item.title, item.board)
        for sums, key in zip((self.wholes, self.names, self.titles, self.boards), keys):
            sums.append(_NOTHING if key is None else hash(key) or 1)

    def is_faulty(self, place: int) -> bool:
        """Returns whether the problem in a place is faulty."""
        return self.wholes[place] == _NOTHING

    def __len__(self) -> int:
        return len(self.wholes)


class Pairs:
    """The problems of both reports, each once, in the order of the new report. Problems that only the
    old report has keep their places.

    Problems with the same title, author, board, stipulation and condition are paired first, the
    ones with the same number before others. Then follow problems with a title and author that no
    other has, then with a board that no other has. The rest is paired by place, right after or
    right before a pair, unless both title and board differ.
    """

    def __init__(self, old: Heads, new: Heads):
        self._old = old
        self._new = new
        self._to_new = array("q", [_NOWHERE]) * len(old)
        self._to_old = array("q", [_NOWHERE]) * len(new)
        self._by_number()
        self._in_order()
        self._unique(old.names, new.names)
        self._unique(old.boards, new.boards)
        self._by_place(lambda one, other: old.is_faulty(one) and new.is_faulty(other))
        self._by_place(self._may_be_one)

    def _pair(self, old: int, new: int) -> None:
        self._to_new[old] = new
        self._to_old[new] = old

    def _by_number(self) -> None:
        """Pairs whole problems at the same place."""
        for place, (old, new) in enumerate(zip(self._old.wholes, self._new.wholes)):
            if old == new != _NOTHING:
                self._pair(place, place)

    def _alike(self, old: "array[int]", new: "array[int]") -> Iterator[tuple[list[int], list[int]]]:
        """Yields the places in both reports of all that are left over with the same checksum."""
        olds, news = _groups(old, self._to_new), _groups(new, self._to_old)
        one, other = next(olds, None), next(news, None)
        while one is not None and other is not None:
            if one[0] == other[0]:
                yield one[1], other[1]
            is_one_less = one[0] <= other[0]
            if one[0] >= other[0]:
                other = next(news, None)
            if is_one_less:
                one = next(olds, None)

    def _in_order(self) -> None:
        """Pairs whole problems in their order."""
        for olds, news in self._alike(self._old.wholes, self._new.wholes):
            for old, new in zip(olds, news):
                self._pair(old, new)

    def _unique(self, old: "array[int]", new: "array[int]") -> None:
        """Pairs problems whose checksum no other of the ones left over has."""
        for olds, news in self._alike(old, new):
            if len(olds) == len(news) == 1:
                self._pair(olds[0], news[0])

    def _by_place(self, may_be_one: _MayBeOne) -> None:
        """Pairs the neighbours of problems that belong together, forwards, then backwards."""
        for old in range(len(self._old)):
            before = self._to_new[old - 1] if old else _NOWHERE
            if old == 0 or before != _NOWHERE:
                self._pair_if_left(old, before + 1, may_be_one)
        for old in reversed(range(len(self._old))):
            is_last = old == len(self._old) - 1
            after = len(self._new) if is_last else self._to_new[old + 1]
            self._pair_if_left(old, after - 1, may_be_one)

    def _pair_if_left(self, old: int, new: int, may_be_one: _MayBeOne) -> None:
        if not 0 <= new < len(self._new) or self._to_new[old] != _NOWHERE:
            return
        if self._to_old[new] == _NOWHERE and may_be_one(old, new):
            self._pair(old, new)

    def _may_be_one(self, one: int, other: int) -> bool:
        """Returns whether title and board don't both differ."""
        old, new = self._old, self._new
        if old.is_faulty(one) or new.is_faulty(other):
            return True
        titles, boards = (old.titles[one], new.titles[other]), (old.boards[one], new.boards[other])
        return not all(_NOTHING not in it and it[0] != it[1] for it in (titles, boards))

    def __len__(self) -> int:
        return len(self._new) + self._to_new.count(_NOWHERE)

    def __iter__(self) -> Iterator[Places]:
        next_old = 0
        for new, old in enumerate(self._to_old):
            if old != _NOWHERE:
                yield from self._lost(next_old, old)
                next_old = max(next_old, old + 1)
            yield Places(None if old == _NOWHERE else old, new)
        yield from self._lost(next_old, len(self._old))

    def _lost(self, begin: int, end: int) -> Iterator[Places]:
        """Yields the problems between two places that only the old report has."""
        for old in range(begin, end):
            if self._to_new[old] == _NOWHERE:
                yield Places(old, None)


def _groups(sums: "array[int]", taken: "array[int]") -> Iterator[tuple[int, list[int]]]:
    """Yields each checksum of the problems that are left over, with their places; the least one first.
    """
    left = [place for place, one in enumerate(sums) if one != _NOTHING and taken[place] == _NOWHERE]
    left.sort(key=sums.__getitem__)
    for one, places in groupby(left, sums.__getitem__):
        yield one, list(places)
