"""A collection's file, looked at before SQLite reads its tables: with their schema it computes whatever that
says, and it removes files beside the collection.
"""

import os
import stat
from collections.abc import Iterator
from typing import NoReturn

# The mark that the file is a collection of this form.
FORM = 0x706F7031
SCHEMA = """
CREATE TABLE problems (
  id INTEGER PRIMARY KEY, source TEXT NOT NULL, number INTEGER NOT NULL, title TEXT NOT NULL,
  author TEXT NOT NULL, origin TEXT NOT NULL, stipulation TEXT NOT NULL, condition TEXT NOT NULL,
  board TEXT NOT NULL, play TEXT, keywords TEXT NOT NULL DEFAULT '');
CREATE TABLE positions (hash INTEGER NOT NULL, problem INTEGER NOT NULL,
  PRIMARY KEY (hash, problem)) WITHOUT ROWID;
CREATE INDEX problems_by_source ON problems (source);
CREATE INDEX problems_by_play ON problems (play) WHERE play IS NOT NULL;
"""
_JOURNAL = b"\xd9\xd5\x05\xf9\x20\xa1\x63\xd7"
# What SQLite's files beside a collection begin with, by what their names end in.
_BESIDE = {
    "-journal": (_JOURNAL,),
    "-wal": (b"\x37\x7f\x06\x82", b"\x37\x7f\x06\x83"),
    "-shm": (b"\x18\xe2\x2d\x00", b"\x00\x2d\xe2\x18"),
}


def _without_blanks(statement: bytes) -> bytes:
    return b"".join(statement.split())


# The statements that made the tables, also in older versions, and the ones by which ANALYZE makes its own.
_STATISTICS = "CREATE TABLE sqlite_stat1(tbl,idx,stat); CREATE TABLE sqlite_stat4(tbl,idx,neq,nlt,ndlt,sample)"
_OWN = {
    _without_blanks(statement.encode("ascii"))
    for schema in (SCHEMA, SCHEMA.replace(", keywords TEXT NOT NULL DEFAULT ''", ""), _STATISTICS)
    for statement in filter(str.strip, schema.split(";"))
}
# The first page (SQLite's "Database File Format"): its longest size, where its own size, its unused end and
# the mark of a form are, then the kind of a page without others below, the number of its rows, their places.
_LONGEST_PAGE = 1 << 16
_SIZE, _UNUSED, _MARK, _KIND, _ROWS, _PLACES = slice(16, 18), 20, slice(68, 72), 100, slice(103, 105), 108
_LEAF = 13
# What a row needs on its page beside what it says, so that it doesn't go on elsewhere.
_LEAST_BESIDE = 35
# The bytes of values by their kinds, up to the kinds of texts and of other bytes.
_SIZES = (0, 1, 2, 3, 4, 6, 8, 8, 0, 0, 0, 0)
# Where a row of the schema has the statement, and the most bytes of a number in it.
_STATEMENT, _LONGEST_NUMBER = 4, 4


class CollectionError(Exception):
    """A file that is no collection, or can't be read or written, with the reason."""


def refuse_foreign(path: str) -> None:
    """Refuses files of others that have the names of SQLite's files beside a collection: it removes them.
    """
    for end, heads in _BESIDE.items():
        name = os.path.realpath(path) + end
        try:
            handle = os.open(name, os.O_RDONLY | os.O_NONBLOCK | os.O_NOFOLLOW | os.O_CLOEXEC)
        except FileNotFoundError:
            continue
        except OSError as error:
            raise CollectionError(f"cannot open {name}: {error.strerror}") from None
        with os.fdopen(handle, "rb") as file:
            is_file = stat.S_ISREG(os.fstat(handle).st_mode)
            head = file.read(len(heads[0])) if is_file else b""
            is_journal = head == _JOURNAL
            tail = file.read() if is_journal and file.seek(-len(head), os.SEEK_END) else b""
        # (it begins with zeros while it is written)
        if not is_file or any(head) and head not in heads:
            raise CollectionError(f"{name} isn't a file of SQLite: move it away")
        # (a journal of several databases ends so, and SQLite removes the file that it names)
        if tail == _JOURNAL:
            raise CollectionError(f"{name} isn't of one collection: move it away")


def is_made(path: str) -> bool:
    """Returns whether a file has a collection's tables; False for one without any table.

    CollectionError for tables of others: they may compute anything, have no end, or change what is added.
    """
    with open(path, "rb") as file:
        page = file.read(_LONGEST_PAGE)
    # (SQLite makes and removes this one, which may have another first page)
    if os.path.lexists(os.path.realpath(path) + "-wal"):
        raise CollectionError(f"cannot open {path}: another program uses it")
    try:
        found = list(_statements(page)) if page else []
    except IndexError:
        refuse_other(path)
    if found and page[_MARK] != FORM.to_bytes(4, "big"):
        refuse_other(path)
    if not _OWN.issuperset(map(_without_blanks, found)):
        raise CollectionError(f"{path} has tables of others than pops-find")
    return bool(found)


def refuse_other(path: str) -> NoReturn:
    """Refuses a file that is no collection."""
    raise CollectionError(f"{path} is no collection of pops-find")


def _statements(page: bytes) -> Iterator[bytes]:
    """Yields the statements of a schema that is all on its file's first page. IndexError for another one."""
    size = int.from_bytes(page[_SIZE], "big")
    size = _LONGEST_PAGE if size < 2 else size
    if page[_KIND] != _LEAF:
        raise IndexError
    for row in range(int.from_bytes(page[_ROWS], "big")):
        place = _PLACES + 2 * row
        length, at = _number(page, int.from_bytes(page[place : place + 2], "big") % size)
        _, at = _number(page, at)
        if length > size - page[_UNUSED] - _LEAST_BESIDE:
            raise IndexError
        yield _statement(page[at : at + length])


def _statement(row: bytes) -> bytes:
    """Returns the statement of a row: the row begins with the kinds of its values."""
    (start, at), sizes = _number(row, 0), []
    while at < start:
        kind, at = _number(row, at)
        sizes.append(_SIZES[kind] if kind < len(_SIZES) else (kind - len(_SIZES)) // 2)
    start += sum(sizes[:_STATEMENT])
    return row[start : start + sizes[_STATEMENT]]


def _number(data: bytes, at: int) -> tuple[int, int]:
    """Returns the number in a place, of seven bits a byte, and where it ends."""
    number = 0
    for place in range(at, at + _LONGEST_NUMBER):
        number = number << 7 | data[place] & 0x7F
        if data[place] < 0x80:
            return number, place + 1
    raise IndexError
