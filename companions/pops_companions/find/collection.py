"""A collection in an SQLite file: problems are added, and found by words, men and positions.

A position one man apart is found by hashes: the file has a hash of each position, and of the position
without each of its men; a search looks up the hashes of all variants of a position.
"""

import errno
import os
import re
import sqlite3
import time
from collections.abc import Iterable, Iterator, Sequence
from contextlib import closing, contextmanager
from dataclasses import astuple, dataclass, field, fields
from typing import Any, NamedTuple, NoReturn, Optional

from pops_companions import interrupts
from pops_companions.chess.men import Man, Square
from pops_companions.files import is_device
from pops_companions.find.boards import (
    EMPTY,
    LETTERS,
    Variant,
    differences,
    hashes,
    variants,
)
from pops_companions.find.entries import Entry, mirrored_play
from pops_companions.find.on_disk import (
    FORM,
    SCHEMA,
    CollectionError,
    is_made,
    refuse_foreign,
    refuse_other,
)
from pops_companions.report.items import Board
from pops_companions.show.diagram import numbers_of_men

_KEYWORDS = "ALTER TABLE problems ADD COLUMN keywords TEXT NOT NULL DEFAULT ''"
# An ideal mate is a model mate, and a model mate is pure.
_NARROWER = (("model mates", ("ideal mate",)), ("pure mates", ("ideal mate", "model mate")))
# A board, as `board_of` makes it.
_BOARD = re.compile(rf"[{EMPTY}{LETTERS}]{{64}}")
_COLUMNS = ", ".join(one.name for one in fields(Entry))
_TYPES: tuple[Any, ...] = tuple(
    {"number": int, "play": (str, type(None))}.get(one.name, str) for one in fields(Entry)
)
# More than the ids of any collection.
_MOST_ID = 1 << 53
# How many hashes one question names.
_HASHES_AT_ONCE = 500
# SQLite's steps between two looks at a question, and how many a question may take: a scan takes
# fewer for each byte of the file.
_STEPS_AT_ONCE = 100_000
_LEAST_STEPS, _STEPS_OF_A_BYTE, _STEPS_OF_AN_ENTRY = 1_000_000, 20, 10_000
# The seconds that a run waits for another that writes: at a time, and at most.
_SECONDS_AT_ONCE, _MOST_SECONDS = 1, 600
@dataclass(frozen=True)
class Wanted:
    """What found problems have: these words in author and title, these men, this stipulation.

    `counts` are the numbers of White's and Black's men, `dates` the first and the last date,
    `fragment` the men that stand somewhere, as they are or moved.
    """

    author: str = ""
    title: str = ""
    stipulation: str = ""
    condition: str = ""
    men: dict[Square, Man] = field(default_factory=dict)
    counts: Optional[tuple[int, int]] = None
    source: str = ""
    keyword: str = ""
    dates: Optional[tuple[str, str]] = None
    fragment: str = ""


class Found(NamedTuple):
    """A problem with what makes its position of the one in question, the nearest ones first.

    `how` is how the position was moved, `changes` what differs then, both in words.
    """

    entry: Entry
    how: tuple[str, ...]
    changes: tuple[str, ...]

    @property
    def text(self) -> str:
        return "; ".join([*self.how, *self.changes]) or "the same position"


class Collection:
    """An SQLite file of problems."""

    def __init__(self, path: str, new: bool):
        """Opens a file; `new` makes it where it isn't there. CollectionError for other files."""
        if not new and not os.path.exists(path):
            reason = os.strerror(errno.ENOENT)
            raise CollectionError(f"cannot open {path}: {reason}: --add makes a collection")
        if is_device(path):
            raise CollectionError(f"cannot open {path}: a collection is a file")
        refuse_foreign(path)
        # (what a killed run left half written is taken back where the file may be written)
        mode = "rwc" if new else "rw" if os.access(path, os.W_OK) else "ro"
        self._path = path
        self._left = 0
        try:
            # (what a killed run left is taken back, which reads no table)
            self._open(mode)
            self._asked("PRAGMA application_id")
            self._data.close()
            if not is_made(path) and not new:
                refuse_other(path)
            self._open(mode)
            if new:
                with self._whole("IMMEDIATE"):
                    if not self._asked("SELECT 1 FROM sqlite_master").fetchone():
                        self._make()
        except sqlite3.Error as error:
            raise CollectionError(f"cannot open {path}: {self.reason(error)}") from None
        self._add_keywords(path)

    def _open(self, mode: str) -> None:
        uri = f"{_uri(self._path)}?mode={mode}"
        self._data = sqlite3.connect(uri, _SECONDS_AT_ONCE, isolation_level=None, uri=True)
        self._data.set_progress_handler(self._is_over, _STEPS_AT_ONCE)
        self._data.create_function("folded", 1, _folded)

    def _is_over(self) -> bool:
        """Returns whether a question has taken too many steps. (Here signals are heeded too.)"""
        self._left -= _STEPS_AT_ONCE
        return self._left < 0

    def _asked(self, question: str, values: Sequence[Any] = ()) -> sqlite3.Cursor:
        """Asks a question, which may take the steps of a scan: pages that name each other have no end.

        It waits while another run writes.
        """
        end = time.monotonic() + _MOST_SECONDS
        while True:
            self._left = _LEAST_STEPS + _STEPS_OF_A_BYTE * os.path.getsize(self._path)
            try:
                return self._data.execute(question, values)
            except sqlite3.OperationalError as error:
                if str(error) != "database is locked" or time.monotonic() > end:
                    raise

    @contextmanager
    def _whole(self, kind: str) -> Iterator[None]:
        """What is read is of one state of the file, and all that is written comes at once, or nothing.

        No other run writes meanwhile, if it is IMMEDIATE.
        """
        self._asked(f"BEGIN {kind}")
        try:
            yield
            self._asked("COMMIT")
        except BaseException:
            self._data.rollback()
            raise

    def reason(self, error: sqlite3.Error) -> str:
        """Returns why a question failed. KeyboardInterrupt where a signal ended it."""
        # (SQLite hides a signal that came in a function that it calls)
        if interrupts.is_raised():
            raise KeyboardInterrupt
        if str(error) != "interrupted":
            return str(error)
        return "it is damaged: a question has no end"

    def _add_keywords(self, path: str) -> None:
        """Makes room for keywords in a collection that an older version made."""
        if self._has_keywords():
            return
        try:
            with self._whole("IMMEDIATE"):
                if not self._has_keywords():
                    self._data.execute(_KEYWORDS)
        except sqlite3.Error as error:
            raise CollectionError(f"cannot make room for keywords in {path}: {error}") from None

    def _has_keywords(self) -> bool:
        return any(row[1] == "keywords" for row in self._asked("PRAGMA table_info(problems)"))

    def _make(self) -> None:
        """Makes the tables and the mark, all or nothing, within the transaction at hand."""
        for statement in filter(str.strip, SCHEMA.split(";")):
            self._data.execute(statement)
        self._data.execute(f"PRAGMA application_id = {FORM}")

    def close(self) -> None:
        self._data.close()

    def __len__(self) -> int:
        # (without a condition SQLite counts in one step, which nothing ends)
        return int(self._asked("SELECT count(*) FROM problems WHERE id > 0").fetchone()[0])

    def add(self, source: str, entries: Iterable[Entry]) -> int:
        """Adds the problems of a source, whose older ones go; returns their number."""
        added = list(entries)
        places = sorted((one, at) for at, entry in enumerate(added) for one in hashes(entry.board))
        try:
            with self._whole("IMMEDIATE"):
                self._remove(source)
                (last,) = self._asked("SELECT max(id) FROM problems").fetchone()
                first = (last or 0) + 1
                if first > _MOST_ID:
                    self._refuse_row()
                self._left += _STEPS_OF_AN_ENTRY * len(added)
                marks = ", ".join("?" * (1 + len(fields(Entry))))
                self._data.executemany(
                    f"INSERT INTO problems (id, {_COLUMNS}) VALUES ({marks})",
                    ((number, *astuple(entry)) for number, entry in enumerate(added, first)),
                )
                rows = ((one, first + at) for one, at in places)
                self._data.executemany("INSERT OR IGNORE INTO positions VALUES (?, ?)", rows)
        except sqlite3.Error as error:
            reason = self.reason(error)
            raise CollectionError(f"cannot write the collection: {reason}") from None
        return len(added)

    def _remove(self, source: str) -> None:
        rows = self._asked("SELECT id, board FROM problems WHERE source = ?", (source,))
        keys = [(one, number) for number, board in rows for one in hashes(self._board(board))]
        self._data.executemany("DELETE FROM positions WHERE hash = ? AND problem = ?", keys)
        self._data.execute("DELETE FROM problems WHERE source = ?", (source,))

    def matching(self, wanted: Wanted) -> Iterator[Entry]:
        """Yields the problems that have all that is wanted, in the order in which they were added.
        """
        conditions, values = _conditions(wanted)
        where = f" WHERE {' AND '.join(conditions)}" if conditions else ""
        question = f"SELECT {_COLUMNS} FROM problems{where} ORDER BY id"
        for row in self._asked(question, values):
            entry = self._entry_of(row)
            counts = wanted.counts
            if counts is not None and counts != numbers_of_men(Board.of_letters(entry.board)):
                continue
            if wanted.dates is None or _is_within(entry.date, wanted.dates):
                yield entry

    def with_fragment(self, wanted: Wanted) -> Iterator[Found]:
        """Yields the matching problems that have a fragment's men, moved over the board or not."""
        ways = [
            ([(place, it) for place, it in enumerate(one.board) if it != EMPTY], one.how)
            for one in sorted(variants(wanted.fragment), key=lambda one: len(one.how))
        ]
        for entry in self.matching(wanted):
            board = entry.board
            for men, how in ways:
                if all(board[place] == letter for place, letter in men):
                    yield Found(entry, how, ("with these men",))
                    break

    def near(self, board: str) -> list[Found]:
        """Returns the problems of which at most one man differs, moved over the board or not."""
        by_hash: dict[int, list[Variant]] = {}
        for variant in sorted(variants(board), key=lambda one: len(one.how)):
            for one in hashes(variant.board):
                by_hash.setdefault(one, []).append(variant)
        best: dict[int, Found] = {}
        for one, number, row in self._with_hashes(list(by_hash)):
            if one not in by_hash:
                self._refuse_row()
            if number in best and _rank(best[number]) == (0, 0):
                continue
            found = _simplest(by_hash[one], self._entry_of(row))
            if found is not None and (number not in best or _rank(found) < _rank(best[number])):
                best[number] = found
        return [best[number] for number in sorted(best, key=lambda it: (*_rank(best[it]), it))]

    def _with_hashes(self, wanted: Sequence[int]) -> Iterator[tuple[int, int, Sequence[Any]]]:
        """Yields the rows of the problems of these hashes, with hash and number.

        (Older versions left hashes of problems that are gone.)
        """
        for start in range(0, len(wanted), _HASHES_AT_ONCE):
            some = wanted[start : start + _HASHES_AT_ONCE]
            marks = ", ".join("?" * len(some))
            question = (
                f"SELECT hash, problem, {_COLUMNS} FROM positions CROSS JOIN problems"
                f" WHERE hash IN ({marks}) AND id = problem"
            )
            with closing(self._asked(question, some)) as rows:
                for one, problem, *row in rows:
                    yield one, problem, row

    def _entry_of(self, row: Sequence[Any]) -> Entry:
        """Returns the problem of a row. CollectionError where `add` didn't write it."""
        if not all(map(isinstance, row, _TYPES)):
            self._refuse_row()
        entry = Entry(*row)
        self._board(entry.board)
        return entry

    def _board(self, board: object) -> str:
        if not isinstance(board, str) or not _BOARD.fullmatch(board):
            self._refuse_row()
        return board

    def _refuse_row(self) -> NoReturn:
        raise CollectionError(f"{self._path} is damaged: it has a problem that isn't one")

    def same_play(self, play: str) -> list[Found]:
        """Returns the problems with the same keys and mates, or help lines, mirrored or not."""
        found: list[Found] = []
        for one in dict.fromkeys((play, mirrored_play(play))):
            how = () if one == play else ("mirrored left to right",)
            question = f"SELECT {_COLUMNS} FROM problems WHERE play = ? ORDER BY id"
            for row in self._asked(question, (one,)):
                found.append(Found(self._entry_of(row), how, ("the same key and mates",)))
        return found


def _uri(path: str) -> str:
    # (two slashes at the beginning would begin the name of a host)
    before = "//" if path.startswith("//") else ""
    return f"file:{before}" + path.replace("%", "%25").replace("?", "%3f").replace("#", "%23")


def _conditions(wanted: Wanted) -> tuple[list[str], list[str]]:
    conditions: list[str] = []
    values: list[str] = []
    for column, text in (
        ("author", wanted.author),
        ("title", wanted.title),
        ("origin", wanted.source),
    ):
        if text:
            conditions.append(_alike(column))
            values.append(f"%{_escaped(text)}%")
    if wanted.keyword:
        keywords = _with_narrower(wanted.keyword)
        alike = [_alike("keywords")] * len(keywords)
        conditions.append(f"({' OR '.join(alike)})")
        values += [f"%{_escaped(text)}%" for text in keywords]
    for column, text in (("stipulation", wanted.stipulation), ("condition", wanted.condition)):
        if text:
            conditions.append(f"{column} = ? COLLATE NOCASE")
            values.append(text)
    for place, square in enumerate(Square.of_diagram(), start=1):
        if square in wanted.men:
            conditions.append(f"substr(board, {place}, 1) = ?")
            values.append(wanted.men[square].letter)
    return conditions, values


def _alike(column: str) -> str:
    return f"folded({column}) LIKE folded(?) ESCAPE '\\'"


def _folded(text: object) -> str:
    """Returns a text in small letters of all languages: SQLite's LIKE only knows English ones."""
    return str(text).casefold()


def _with_narrower(keyword: str) -> list[str]:
    """Returns a keyword, and the kinds of mates that are of the kind that it names."""
    narrower = {kind for name, kinds in _NARROWER if keyword.lower() in name for kind in kinds}
    return [keyword, *sorted(narrower)]


def _is_within(date: str, dates: tuple[str, str]) -> bool:
    """Returns whether a date is from the first to the last one, which may name less of it."""
    first, last = dates
    return bool(date) and date >= first and date[: len(last)] <= last


def _escaped(text: str) -> str:
    return re.sub(r"[\\%_]", r"\\\g<0>", text)


def _simplest(variants: Iterable[Variant], entry: Entry) -> Optional[Found]:
    """Returns the first variant, the simplest one, that a problem differs from by at most a man.

    (All variants of one man have a hash in common: the one without it.)
    """
    for variant in variants:
        changes = tuple(differences(variant.board, entry.board))
        if len(changes) <= 1:
            return Found(entry, variant.how, changes)
    return None


def _rank(found: Found) -> tuple[int, int]:
    return len(found.changes), len(found.how)
