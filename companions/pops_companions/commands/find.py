"""Keeps a collection of problems in one file, and finds anticipations, authors, men in it."""

import os
import re
import sqlite3
import sys
from collections.abc import Iterable, Iterator
from functools import lru_cache
from pathlib import Path
from typing import Optional

from pops_companions import command
from pops_companions.command import DeviceError, Status, option, word
from pops_companions.find.boards import board_of
from pops_companions.find.collection import Collection, Found, Wanted
from pops_companions.find.dates import whole_date
from pops_companions.find.entries import EntriesError, Entry, entries_of, items_of
from pops_companions.find.on_disk import CollectionError
from pops_companions.find.showing import Answer, as_page, as_text
from pops_companions.input.writing import men_in
from pops_companions.many.progress import Progress
from pops_companions.review.naming import counted
from pops_companions.show.titles import other_lines, printable

NAME = "pops-find"
MOST = 50
_WORDS = (
    *("author", "title", "source", "date", "keyword", "stipulation", "condition"),
    *("men", "count", "fragment"),
)
_DATE = re.compile("[0-9]{4}(?:-[0-9]{2}){0,2}")


# What is done with a collection, but to look for words and men in it.
_ACTIONS = command.OneOf()


class Settings(
    command.Settings,
    prog=NAME,
    description="Keeps problems in COLLECTION, an SQLite file, and finds them again: by words and men, by\n"
    "key and mates, and by positions that are the same or one man apart, mirrored, turned,\n"
    "shifted or with colours reversed. FILEs are inputs of pops, Popeye inputs, collections in\n"
    "YAML and reports with boards.",
    epilog="examples: pops-find mine.db --add *.pop\n"
    "          pops-find mine.db --near new.pop -o anticipations.html\n"
    "          pops-find mine.db --author Loyd --stipulation '#3' --men 'White Kh1'\n"
    "exit status: 0 if something was found or added, 1 if nothing was, or a problem is left\n"
    "out, 2 for a mistake in the command line, 3 if a file can't be read or written.",
):
    """The words of the command line."""

    collection: str = word("COLLECTION", "the file; --add makes it if it doesn't exist")
    add: Optional[list[str]] = option(
        "--add",
        "FILE",
        "add the problems of FILEs; a FILE added again replaces its older problems",
        nargs="+",
        one_of=_ACTIONS,
    )
    near: Optional[str] = option(
        "--near", "FILE", "find positions near each one in FILE", one_of=_ACTIONS
    )
    play: Optional[str] = option(
        "--play", "REPORT", "find problems with the keys and mates of a report", one_of=_ACTIONS
    )
    report: Optional[str] = option(
        "--report", "REPORT", "with --add of one FILE: its report, for key and mates"
    )
    author: Optional[str] = option("--author", "TEXT", "find this in authors")
    title: Optional[str] = option("--title", "TEXT", "find this in titles")
    source: Optional[str] = option("--source", "TEXT", "find this in origins")
    date: Optional[str] = option(
        "--date", "D[..D]", "find this date, or from one to another: 1977-08, 1950..1959"
    )
    keyword: Optional[str] = option(
        "--keyword", "TEXT", "find this in keywords, also `ideal mates`, `echo`"
    )
    stipulation: Optional[str] = option("--stipulation", "S", "find this stipulation, such as h#2")
    condition: Optional[str] = option("--condition", "C", "find this condition")
    men: Optional[str] = option(
        "--men", "MEN", "find positions with these men, as 'White Kg6 Black Pa7'"
    )
    count: Optional[str] = option("--count", "W+B", "find positions by numbers of men, such as 3+4")
    fragment: Optional[str] = option(
        "--fragment",
        "MEN",
        "find positions with these men anywhere: as they are, shifted, mirrored, turned or with"
        " colours reversed",
    )
    most: int = option(
        "--most",
        "N",
        f"show at most N problems for each question ({MOST})",
        type=command.number_from_one,
        default=MOST,
    )
    output: Optional[str] = option(
        "-o --output", "PAGE", "an HTML page with the diagrams of what was found"
    )
    encoding: str = command.encoding()
    wanted: Wanted


def arguments(words: list[str]) -> Settings:
    """Reads the words of the command line."""
    settings = Settings.read(words)
    is_search = any(getattr(settings, name) is not None for name in _WORDS)
    actions_given = [settings.add, settings.near, settings.play]
    if is_search == any(it is not None for it in actions_given):
        settings.refuse("give one of --add, --near and --play, or what to look for, as --author TEXT")
    if settings.report is not None and (settings.add is None or len(settings.add) != 1):
        settings.refuse("--report goes with --add of one FILE")
    settings.wanted = wanted_of(settings)
    return settings


def typed(text: Optional[str]) -> str:
    """Returns a word of the command line as text: it may be in another encoding than the terminal's."""
    return os.fsencode(text or "").decode("utf-8", "replace")


def wanted_of(settings: Settings) -> Wanted:
    """Returns what found problems have to have."""
    try:
        men = dict(men_in(settings.men or ""))
        fragment = dict(men_in(settings.fragment or ""))
    except ValueError:
        settings.refuse("--men and --fragment need a colour and men, as 'White Kg6 Ra1 Black Kg8'")
    counts: Optional[tuple[int, int]] = None
    if settings.count is not None:
        parts = re.fullmatch(r"([0-9]{1,2})\+([0-9]{1,2})", settings.count)
        if parts is None:
            settings.refuse("--count needs two numbers, as 3+4")
        counts = int(parts[1]), int(parts[2])
    return Wanted(
        typed(settings.author),
        typed(settings.title),
        typed(settings.stipulation),
        typed(settings.condition),
        men,
        counts,
        typed(settings.source),
        typed(settings.keyword),
        dates_of(settings),
        board_of(fragment) if fragment else "",
    )


def dates_of(settings: Settings) -> Optional[tuple[str, str]]:
    """Returns the first and the last date."""
    if settings.date is None:
        return None
    dates = [one if _DATE.fullmatch(one) else whole_date(one) for one in settings.date.split("..")]
    if not all(dates) or len(dates) > 2:
        settings.refuse("--date needs a date, as 1977, 1977-08 or 8/1977, or two, as 1950..1959")
    return dates[0], dates[-1]


def kept_name(file: str) -> str:
    """Returns the name of a file as a collection keeps it, which is text."""
    return os.fsencode(file).decode("utf-8", "backslashreplace")


def entries_in(file: str, encoding: str) -> tuple[list[Entry], bool]:
    """Returns the problems of a file, and whether all of them could be taken."""
    data = command.read_all(file)
    other = other_lines(file, data, encoding)
    if other:
        print(f"{NAME}: {other}", file=sys.stderr)
    try:
        entries, left_out = entries_of(kept_name(file), data, encoding)
    except EntriesError as error:
        raise DeviceError(f"{file}: {error}") from None
    for text in left_out:
        print(f"{NAME}: {file}, {text}", file=sys.stderr)
    return entries, not left_out


def add(collection: Collection, files: list[str], settings: Settings) -> Status:
    """Adds the problems of FILEs."""
    status = Status.GOOD
    items = {}
    if settings.report is not None:
        try:
            items = items_of(command.read_all(settings.report))
        except EntriesError as error:
            raise DeviceError(f"{settings.report}: {error}") from None
    for file in files:
        entries, is_whole = entries_in(file, settings.encoding)
        status = status if is_whole else Status.FAULTY
        whole = (entry.with_item(items.get(entry.number)) for entry in entries)
        count = collection.add(kept_name(file), whole)
        print(f"{printable(file)}: {counted(count, 'problem')} added")
    print(f"{printable(settings.collection)}: {counted(len(collection), 'problem')}")
    return status


def answers(collection: Collection, settings: Settings) -> Iterator[Answer]:
    """Yields what is found for each question."""

    def answer(heading: str, asked: Optional[Entry], hits: list[Found]) -> Answer:
        return Answer(heading, asked, hits[: settings.most], len(hits))

    file = settings.near or settings.play
    if file is None:
        asked = ", ".join(
            f"{name} {getattr(settings, name)}"
            for name in _WORDS
            if getattr(settings, name) is not None
        )
        if settings.wanted.fragment:
            fragment = Entry("", 0, "", "", "", "", "", settings.wanted.fragment, None)
            hits = list(collection.with_fragment(settings.wanted))
            yield answer(asked, fragment, hits)
            return
        found = [Found(entry, (), ()) for entry in collection.matching(settings.wanted)]
        yield answer(asked, None, found)
        return
    entries, _ = entries_in(file, settings.encoding)
    near = lru_cache(maxsize=8)(collection.near)
    progress = Progress(NAME)
    # (on a terminal what is found shows it, unless a page waits for it)
    progress.is_shown &= settings.output is not None or not sys.stdout.isatty()
    progress.begin(0, len(entries))
    for entry in entries:
        if settings.near is not None:
            hits = near(entry.board)
        else:
            hits = [] if entry.play is None else collection.same_play(entry.play)
        others = [it for it in hits if it.entry != entry]
        heading = f"problem {entry.number}: {entry.name}" if entry.name else f"{entry.number}"
        yield answer(heading, entry, others)
        progress.more()
    progress.end()


def find(collection: Collection, settings: Settings) -> Status:
    """Prints what is found, and writes the page."""
    found: Iterable[Answer] = answers(collection, settings)
    if settings.output is not None:
        found = list(found)
        page = as_page(found, Path(settings.collection).stem)
        command.write(settings.output, page.encode("utf-8", "replace"))
    status = Status.FAULTY
    for answer in found:
        sys.stdout.buffer.write(as_text(answer).encode("utf-8", "replace"))
        status = Status.GOOD if answer.found else status
    return status


def main(words: list[str]) -> Status:
    settings = arguments(words)
    try:
        collection = Collection(settings.collection, new=settings.add is not None)
        try:
            command.note_read(settings.collection)
            if settings.add is None:
                return find(collection, settings)
            return add(collection, settings.add, settings)
        except sqlite3.Error as error:
            message = f"cannot read {settings.collection}: {collection.reason(error)}"
            raise DeviceError(message) from None
        finally:
            collection.close()
    except CollectionError as error:
        raise DeviceError(str(error)) from None
    except sqlite3.Error as error:
        raise DeviceError(f"cannot read {settings.collection}: {error}") from None
    except UnicodeDecodeError:
        # (SQLite's message quotes a statement that isn't UTF-8)
        raise DeviceError(f"cannot read {settings.collection}: it is damaged") from None
