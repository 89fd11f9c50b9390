"""Problems as a collection keeps them, from inputs of pops and Popeye, YAML and reports."""

import io
import re
from collections.abc import Iterable, Iterator, Sequence
from dataclasses import dataclass, replace
from typing import Optional

from pops_companions.export.problems import Problem, read_problems
from pops_companions.find.boards import board_of
from pops_companions.find.dates import date_of
from pops_companions.import_.words import Unreadable
from pops_companions.input.writing import men_in
from pops_companions.report.items import Item, Node, PhaseKind, SoundItem
from pops_companions.report.moves import Mark
from pops_companions.report.reader import ReportError, read_report
from pops_companions.review.mates import mates_in
from pops_companions.review.naming import joined_name
from pops_companions.show.titles import shown, text_of

_REPORT = re.compile(rb"problem [1-9][0-9]*\r?\n")
_FILES = str.maketrans("abcdefgh", "hgfedcba")
_KEYWORD = re.compile(r"keywords?: (.+)", re.IGNORECASE)
_SQUARE = re.compile("[a-h](?=[1-8])")


class EntriesError(ValueError):
    """A text that holds no problems, with the reason."""


@dataclass(frozen=True)
class Entry:
    """A problem of a collection. `source` is the file it is from, `number` its place there.

    `play` is its key and mates, or its help lines, where a report shows them. `keywords` come
    from the input and from what the mates of help play are, parted by semicolons.
    """

    source: str
    number: int
    title: str
    author: str
    origin: str
    stipulation: str
    condition: str
    board: str
    play: Optional[str]
    keywords: str = ""

    def with_item(self, item: Optional[SoundItem]) -> "Entry":
        """Returns the problem with the play of an item of a report, and with what its mates are."""
        if item is None:
            return self
        known = filter(None, (self.keywords, *mates_in(item, self.board)))
        return replace(self, play=play_of(item) or self.play, keywords="; ".join(known))

    @property
    def date(self) -> str:
        """The date of its origin, as `1977-08`; empty where there is none."""
        return date_of(self.origin)

    @property
    def name(self) -> str:
        """As `#2, Excelsior (Sam Loyd), London Era 1861`."""
        asked = " ".join(filter(None, (self.stipulation, self.condition)))
        named = joined_name(asked, self.title, self.author)
        return ", ".join(filter(None, (named, self.origin)))


def entries_of(source: str, data: bytes, encoding: str) -> tuple[list[Entry], list[str]]:
    """Returns the problems of a file, and what was left out, in words. EntriesError for other
    texts.
    """
    if _REPORT.match(data):
        return _of_report(source, data, encoding)
    text = text_of(data, encoding)
    try:
        reading = read_problems(text)
    except Unreadable as error:
        raise EntriesError(f"line {error.message.line}: {error}") from None
    left_out = [one.text for one in reading.left_out]
    return [_of_problem(source, problem) for problem in reading.problems], left_out


def _of_problem(source: str, problem: Problem) -> Entry:
    return Entry(
        source,
        problem.number,
        problem.title,
        problem.author,
        "; ".join(problem.origins),
        problem.stipulation,
        problem.condition,
        board_of(dict(men_in(problem.pieces))),
        None,
        "; ".join(found[1] for found in map(_KEYWORD.fullmatch, problem.remarks) if found),
    )


def _of_report(source: str, data: bytes, encoding: str) -> tuple[list[Entry], list[str]]:
    entries, left_out = [], []
    for item in _items(data):
        if isinstance(item, SoundItem) and item.board is not None:
            entries.append(_of_item(source, item, encoding))
        else:
            left_out.append(f"problem {item.number}: left out: the report shows no board")
    return entries, left_out


def _of_item(source: str, item: SoundItem, encoding: str) -> Entry:
    assert item.board is not None
    return Entry(
        source,
        item.number,
        shown(item.title or b"", encoding),
        shown(item.author or b"", encoding),
        "",
        item.stipulation.text,
        "" if item.condition is None else item.condition.value,
        "".join(item.board.ranks),
        None,
    ).with_item(item)


def items_of(data: bytes) -> dict[int, SoundItem]:
    """Returns the sound problems of a report by their numbers. EntriesError for another text."""
    return {item.number: item for item in _items(data) if isinstance(item, SoundItem)}


def _items(data: bytes) -> Iterator[Item]:
    try:
        yield from read_report(io.BytesIO(data))
    except ReportError as error:
        raise EntriesError(f"it is no report of pops: {error}") from None


def play_of(item: SoundItem) -> Optional[str]:
    """Returns the keys of a problem and the moves that mate below them, or its help lines, in
    order.

    None where the report doesn't show them.
    """
    play = item.phase(PhaseKind.PLAY)
    if play is None or not play.solutions:
        return None
    if play.help_lines:
        return " | ".join(sorted(play.texts))
    keys = ", ".join(sorted(node.move.text for node in play.nodes))
    mates = sorted(set(_mates(play.nodes)))
    return f"{keys}: {', '.join(mates)}" if mates else None


def _mates(nodes: Iterable[Node]) -> Iterator[str]:
    for node in nodes:
        if node.move.mark in (Mark.MATE, Mark.STALEMATE):
            yield node.move.text
        yield from _mates(node.below)


def mirrored_play(play: str) -> str:
    """Returns a play with all squares mirrored left to right, its moves in order again."""
    text = _SQUARE.sub(lambda found: found[0].translate(_FILES), play)
    if " | " in text or ": " not in text:
        return " | ".join(sorted(text.split(" | ")))
    keys, mates = text.split(": ", 1)
    return f"{_sorted(keys)}: {_sorted(mates)}"


def _sorted(moves: str) -> str:
    texts: Sequence[str] = sorted(moves.split(", "))
    return ", ".join(texts)
