"""The problems of a sheet: what is said above and below each diagram, and the solutions."""

import re
from collections.abc import Iterable, Iterator, Mapping, Sequence
from dataclasses import dataclass
from typing import Optional

from pops_companions.input.given import GivenProblem
from pops_companions.input.pieces import cut
from pops_companions.input.reading import read_piece
from pops_companions.report.items import AnyItem, Board, FaultyItem, SoundItem
from pops_companions.report.tries import TriesItem
from pops_companions.sheet.languages import Language
from pops_companions.sheet.solution import Block, Solution, TriesShown, shortened
from pops_companions.sheet.twin_changes import change_of
from pops_companions.show.authors import Person, persons
from pops_companions.show.diagram import numbers_of_men
from pops_companions.show.titles import printable, shown
from pops_companions.show.twins import Group, Twin

# Why a problem has no solution that a report lacks.
NOT_IN_REPORT = "not in the report"
# What pops-import makes of an award: `Award 1st Prize`, `award: 1st Prize`,
# `award.distinction: 1st Prize`.
_AWARD = re.compile(r"award(?:\.([\w.]+))?:? +([^ ].*)|distinction: +([^ ].*)", re.IGNORECASE)


@dataclass(frozen=True)
class Part:
    """The solution of a problem, or of a twin under its heading; a faulty problem has its fault.

    The men of `heading` are marked as in lines. `note` says that it isn't solved to the end.
    """

    heading: str
    blocks: tuple[Block, ...]
    fault: str = ""
    note: str = ""


@dataclass(frozen=True)
class Entry:
    """A problem of a sheet, with its twins. `number` is `3`, of a twin alone `3b`.

    `asked` is its stipulation with the condition, in the language of the sheet.
    """

    number: str
    group: Group
    authors: tuple[Person, ...]
    title: str
    source: str
    award: str
    asked: str
    board: Optional[Board]
    parts: tuple[Part, ...]

    @property
    def anchor(self) -> str:
        """The number as part of a link."""
        return self.number.replace(" ", "-")

    @property
    def count(self) -> str:
        """The numbers of white and black men: `8 + 5`."""
        return "" if self.board is None else "%d + %d" % numbers_of_men(self.board)

    @property
    def origin(self) -> str:
        """Source and award in one line."""
        return ", ".join(filter(None, (self.source, self.award)))

    @property
    def twins(self) -> list[str]:
        """What makes the twins, below the diagram: `b) Ra1→b2`."""
        return [part.heading for part in self.parts[1:]]


@dataclass(frozen=True)
class Sheet:
    """What a sheet is made of: boards and tries by the numbers of their problems, the language."""

    boards: Mapping[int, Board]
    tries: Mapping[int, TriesItem]
    language: Language
    encoding: str
    shown: TriesShown = TriesShown.ALL

    def entries(self, groups: Iterable[Group], first: int, apart: bool) -> Iterator[Entry]:
        """Yields the problems of the sheet, numbered from `first`; `apart` numbers twins 1a, 1b."""
        for number, group in enumerate(groups, start=first):
            parts = list(self._parts(group))
            award = self._award(group.twins[0].given)
            if apart and not group.is_alone:
                for twin, part in zip(group.twins, parts):
                    alone = Group(group.title, group.author, (twin,))
                    yield self._entry(f"{number}{_letter(twin)}", alone, award, [part])
            else:
                yield self._entry(str(number), group, award, parts)

    def _entry(self, number: str, group: Group, award: str, parts: Sequence[Part]) -> Entry:
        given = group.twins[0].given
        author = "" if group.author is None else self._text(group.author)
        origin = None if given is None else given.origin
        return Entry(
            number,
            group,
            tuple(persons(author)),
            "" if group.title is None else printable(group.title),
            "" if origin is None else self.language.dated(self._text(origin)),
            award,
            self.language.asked(_asked(group)),
            self.boards.get(group.first.number),
            tuple(parts),
        )

    def _text(self, text: bytes) -> str:
        return printable(shown(text, self.encoding))

    def _award(self, given: Optional[GivenProblem]) -> str:
        """Returns the award that Remarks name; the distinction comes first."""
        remarks = () if given is None else given.remarks
        found = [_AWARD.fullmatch(self._text(remark)) for remark in remarks]
        parts = [(it[1] or "distinction", it[2] or it[3]) for it in found if it is not None]
        parts = sorted(parts, key=lambda part: part[0].lower() != "distinction")
        return ", ".join(text for _, text in parts)

    def _parts(self, group: Group) -> Iterator[Part]:
        """Yields the solution of each twin."""
        first = before = group.twins[0]
        for twin in group.twins:
            heading = "" if group.is_alone else twin.label.text
            if twin is not first:
                change = change_of(twin, first, before, self.boards, self.language)
                heading = f"{heading} {change}".rstrip()
            yield self._part(twin.item, printable(heading))
            before = twin

    def _part(self, item: AnyItem, heading: str) -> Part:
        words = self.language
        if isinstance(item, FaultyItem):
            return Part(heading, (), words.line.format(item.fault.line, words.fault(item.fault)))
        board = self.boards.get(item.number)
        notes = []
        if item.unfinished == NOT_IN_REPORT:
            notes.append(words.not_in_report)
        elif item.unfinished is not None:
            notes.append(words.unfinished.format(item.unfinished))
        if not isinstance(item, SoundItem) or board is None:
            return Part(heading, (), note="; ".join(notes))
        item, left_out = shortened(item)
        notes += [words.left_out.format(left_out)] * bool(left_out)
        solution = Solution(board.men, item.condition, self.language, self.shown)
        blocks = tuple(solution.blocks(item, self.tries.get(item.number)))
        return Part(heading, blocks, note="; ".join(notes))


def _asked(group: Group) -> str:
    """Returns stipulation and condition, of a problem that isn't in the report as the input has it.
    """
    if isinstance(group.first, SoundItem):
        return group.first.asked
    given = group.twins[0].given
    return "" if given is None or given.stipulation is None else given.stipulation.text


def _letter(twin: Twin) -> str:
    """Returns a twin's label as part of a number: `b`, ` duplex`."""
    text = twin.label.text.replace(")", "")
    return text if text[:1] != "d" or len(text) == 1 else f" {text}"


def boards_of(text: bytes) -> dict[int, Board]:
    """Returns the boards of an input's problems without a fault, also of those with NoBoard."""
    readings = ((piece.number, read_piece(text, piece)) for piece in cut(text))
    return {
        number: Board.of_men({square: placed.man for square, placed in reading.men.items()})
        for number, reading in readings
        if reading.number is None
    }


def index_of(entries: Iterable[Entry]) -> list[tuple[str, list[Entry]]]:
    """Returns the index of authors: each person once, with the problems, in order of surnames."""
    found: dict[str, list[Entry]] = {}
    for entry in entries:
        for person in entry.authors:
            own = found.setdefault(person.entry, [])
            # (a person may be named twice above one diagram)
            if not own or own[-1] is not entry:
                own.append(entry)
    return sorted(found.items(), key=lambda one: one[0].casefold())
