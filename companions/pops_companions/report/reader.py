"""Reads reports of pops as they come, by their grammar (docs/report.ebnf).

The reading is strict: a report that departs from the grammar, that was cut, or that has a move which
the men on its printed board can't make, is refused with the line where it does. Numbers may have gaps, as pops-many leaves them where it stopped problems.
Several reports may follow each other: a number that doesn't grow begins the next one.
Where unfinished problems are allowed, a problem may also have been stopped, and the report may end
inside a problem.
"""

import io
import re
from collections.abc import Callable, Iterable, Iterator, Sequence
from enum import Enum
from functools import lru_cache
from sys import intern
from typing import Optional

from pops_companions.chess.men import Colour
from pops_companions.chess.stipulation import Condition, Goal, Play, Stipulation
from pops_companions.report import events, items, lines
from pops_companions.report.help_lines import HelpState, LineRefused
from pops_companions.report.item_builder import GrowingPhase, ItemBuilder
from pops_companions.report.known_lines import MOST_KNOWN, Form, KnownMoves, KnownNodes
from pops_companions.report.steps import Needs, board_number, board_of
from pops_companions.report.tree import Detail, TreeState
from pops_companions.stored import stored


class ReportError(ValueError):
    """A text that is no report of pops, with the line, counted from 1, where it shows."""

    def __init__(self, line: int, message: str):
        super().__init__(f"line {line}: {message}")
        self.line = line


class Allowed(Enum):
    """Which problems a text may hold."""

    FINISHED = "finished ones"
    UNFINISHED = "also unfinished ones"


# Why a problem is unfinished if the report ends in it.
CUT = "the report ends here"
_LONGEST_SHOWN = 60
_FAULT_TEXTS: Sequence[str] = stored("input/fault_texts.json")["en"]
# No line of a report is as long; so a text without line ends isn't read to its end, if it has one.
_LONGEST_LINE = 1 << 20
_PIECE = 1 << 16
# The most bytes that an item has after its board, of the ones that are kept for others that say the
# same, and how many are kept.
_LONGEST_TAIL = 512
_MOST_TAILS = 1024
# What a state makes of a line.
State = Callable[[bytes], Sequence[events.Event]]
# What an item says after its board.
_Tail = tuple[Stipulation, Optional[Condition], Optional[tuple[items.Phase, ...]]]
# What short items say after their boards, and what it needs on them, in all readings.
_TAILS: dict[bytes, tuple[_Tail, Needs]] = {}


@lru_cache(maxsize=1000)
def asked_of(line: bytes) -> tuple[Stipulation, Optional[Condition]]:
    """Returns what the line of the stipulation asks, by its first two words. ValueError where it asks
    nothing.
    """
    words = line.decode("latin-1").split(" ")
    stipulation = Stipulation.of_text(words[0])
    if not stipulation.is_in_range:
        raise ValueError(f"no stipulation of pops: {words[0]}")
    return stipulation, Condition(words[1]) if len(words) > 1 else None


class ReportReader:
    """Reads a report. Its state is the method that takes the next line; a line that ends a list passes it
    on to the next state.
    """

    def __init__(self, allowed: Allowed, line: int = 0):
        """Begins a text, or a piece of one, which follows `line` lines."""
        self._allowed = allowed
        self._state: State = self._problem
        self._begun = b""
        self._line = line
        self._number = 0
        self._unfinished: Optional[str] = None
        self._title: Optional[bytes] = None
        self._author: Optional[bytes] = None
        self._ranks: list[str] = []
        self._stipulation = Stipulation.of_text("#1")
        self._kind = items.PhaseKind.PLAY
        self._condition: Optional[Condition] = None
        self._board: Optional[int] = None
        self._count = 0
        self._tree = TreeState()
        # Whether the problem goes on after set play without a total, so that it must be unfinished.
        self._is_set_cut = False
        self._known: dict[Form, KnownNodes] = {}
        self._known_here = KnownNodes(self._form)
        self._help = HelpState()
        # The moves of lines of help play, for each of their places.
        self._known_moves: dict[Form, list[KnownMoves]] = {}

    def feed(self, data: bytes) -> Iterator[events.Event]:
        """Takes some bytes of the text, cut anywhere, and yields what they say.

        Take all events before the next call. ReportError where the text departs from the grammar,
        after the events before.
        """
        *whole, self._begun = (self._begun + data).split(b"\n")
        self._refuse_long_line(len(whole))
        for line in whole:
            yield from self.take(line)

    def _refuse_long_line(self, before: int) -> None:
        """Refuses a line that has begun after this many others."""
        if len(self._begun) > _LONGEST_LINE:
            raise ReportError(self._line + before + 1, "this line is too long")

    def close(self, reason: str = CUT) -> Iterator[events.Event]:
        """Ends the text and yields the end of a problem that it is cut in, with the reason.

        A cut line is left out. ReportError where unfinished problems aren't allowed.
        """
        if self._allowed is Allowed.FINISHED:
            if self._begun:
                raise ReportError(self._line + 1, "the report is cut inside this line")
            if self._state != self._problem:
                raise ReportError(self._line + 1, "the report is cut inside a problem")
        if self._state != self._problem:
            lacks = self._state != self._end or self._is_set_cut and self._unfinished is None
            yield events.EndEvent(self._number, reason if lacks else self._unfinished)
        self._begun, self._state = b"", self._problem
        # (a reader refers to itself, so that its memory is free only later)
        self._known.clear()
        self._known_here.clear()
        self._known_moves.clear()

    @property
    def is_whole(self) -> bool:
        """Whether what was taken so far ends where a problem does."""
        return self._state == self._problem and not self._begun

    def take(self, line: bytes) -> Sequence[events.Event]:
        """Takes the next line and returns what it says."""
        self._line += 1
        is_marked = line.startswith(lines.UNFINISHED) and self._state != self._problem
        if is_marked and self._allowed is Allowed.UNFINISHED:
            self._unfinished = line[len(lines.UNFINISHED) :].decode("utf-8", "replace")
            self._state = self._end
            return ()
        return self._state(line)

    def refused(self, expected: str, line: bytes) -> ReportError:
        """Returns what is said of a line in place of what the grammar has there."""
        text = line.decode("latin-1")
        shown = text if len(text) <= _LONGEST_SHOWN else text[:_LONGEST_SHOWN] + ".."
        return ReportError(self._line, f"expected {expected}, found {shown!r}")

    def _problem(self, line: bytes) -> Sequence[events.Event]:
        found = lines.PROBLEM.fullmatch(line)
        if found is None:
            raise self.refused("a line 'problem' with its number", line)
        self._number = int(found[1])
        self._unfinished = self._title = self._author = None
        self._ranks = []
        self._state = self._fault_or_title
        return (events.ProblemEvent(self._number),)

    def _fault_or_title(self, line: bytes) -> Sequence[events.Event]:
        found = lines.FAULT.fullmatch(line)
        if found is None:
            return self._title_line(line)
        self._state = self._end
        fault = items.Fault(int(found[1]), int(found[2]), found[3].decode("latin-1"))
        # (a later program may have more faults)
        if _FAULT_TEXTS[fault.number - 1 : fault.number] not in ([fault.text], []):
            raise self.refused("the text of this fault", line)
        return (events.FaultEvent(self._number, fault),)

    def _title_line(self, line: bytes) -> Sequence[events.Event]:
        self._state = self._author_line
        if not line.startswith(lines.TITLE):
            return self._author_line(line)
        self._title = self._text(line, len(lines.TITLE))
        return ()

    def _author_line(self, line: bytes) -> Sequence[events.Event]:
        self._state = self._board_line
        if not line.startswith(lines.AUTHOR):
            return self._board_line(line)
        self._author = self._text(line, len(lines.AUTHOR))
        return ()

    def _text(self, line: bytes, start: int) -> bytes:
        """Returns the title or author that begins at a place of a line."""
        if lines.TEXT.fullmatch(line, start) is None:
            raise self.refused("a text of at most 200 bytes without blanks around it", line)
        return line[start:]

    def _board_line(self, line: bytes) -> Sequence[events.Event]:
        self._state = self._rank if line.startswith(b"8 ") else self._stipulation_line
        return self._state(line)

    def _rank(self, line: bytes) -> Sequence[events.Event]:
        rank = 8 - len(self._ranks)
        found = lines.RANK.fullmatch(line)
        is_wrong = found is not None and rank in lines.EDGES and b"p" in found[2].lower()
        if found is None or is_wrong or int(found[1]) != rank:
            raise self.refused(f"rank {rank} of a board", line)
        self._ranks.append(intern(found[2].decode("ascii")))
        if rank == 1:
            self._state = self._files
        return ()

    def _files(self, line: bytes) -> Sequence[events.Event]:
        if line != lines.FILES:
            raise self.refused("the line of files below a board", line)
        if any("".join(self._ranks).count(king) > 1 for king in "Kk"):
            raise self.refused("a board with one king of each colour at most", line)
        self._state = self._stipulation_line
        return ()

    def _stipulation_line(self, line: bytes) -> Sequence[events.Event]:
        try:
            stipulation, condition = asked_of(line)
        except ValueError:
            raise self.refused("a stipulation", line) from None
        if line.count(b" ") > 1:
            raise self.refused("a stipulation and at most one condition", line)
        if self._ranks and _lacks_king(stipulation, "".join(self._ranks).encode()):
            raise self.refused("a stipulation whose mated king is on the board", line)
        board = items.Board(tuple(self._ranks)) if self._ranks else None
        self._board = None if board is None else board_of(board.letters)
        self._begin(stipulation, condition)
        names = (self._title, self._author, board)
        return (events.HeadEvent(self._number, *names, stipulation, condition),)

    def _end(self, line: bytes) -> Sequence[events.Event]:
        if line != b"":
            raise self.refused("an empty line", line)
        if self._is_set_cut and self._unfinished is None:
            raise self.refused("why the problem is unfinished", line)
        self._state, self._is_set_cut = self._problem, False
        return (events.EndEvent(self._number, self._unfinished),)

    def feed_builder(self, data: bytes, builder: ItemBuilder) -> Iterator[items.AnyItem]:
        """Takes some bytes as `feed` does, and yields the items that end in them.

        Plain heads and solutions make no events; of small items those that say the same after their
        boards share it.
        """
        text = self._begun + data
        whole = text.rfind(b"\n") + 1
        self._begun = text[whole:]
        self._refuse_long_line(text.count(b"\n"))
        at = 0
        while at < whole:
            found = text.find(lines.ITEM_END, at, whole)
            end = whole if found < 0 else found + len(lines.ITEM_END)
            head = lines.HEAD.match(text, at, end) if self._state == self._problem else None
            if head is None or not _has_few_kings(head[4]):
                yield from self._items_of(text[at:end], builder)
            else:
                yield from self._item_after(head, end, builder)
            at = end

    def _item_after(
        self, head: "re.Match[bytes]", end: int, builder: ItemBuilder
    ) -> Iterator[items.AnyItem]:
        """Takes a head with a board, and what follows it in its text up to a place; yields the item that
        ends there, if one does.
        """
        text, (number, title, author, ranks) = head.string, head.groups()
        tail = text[head.end() : end]
        known = _TAILS.get(tail)
        if known is not None and known[1].are_met(ranks) and not _lacks_king(known[0][0], ranks):
            self._line += text.count(b"\n", head.start(), end)
            yield items.SoundItem(int(number), title, author, _board_of(ranks), *known[0])
            return
        taken = self._take_head(head, end, builder)
        for item in self._items_of(text[taken:end], builder):
            _note_tail(tail, item)
            yield item

    def _take_head(self, head: "re.Match[bytes]", end: int, builder: ItemBuilder) -> int:
        """Takes a head with a board and the line of its first phase; returns where they end, at most in this
        place. It takes none where another line follows the board.
        """
        found = lines.FIRST_PHASE.match(head.string, head.end(), end)
        try:
            stipulation, condition = asked_of(found[1] if found else b"")
        except ValueError:
            return head.start()
        assert found is not None
        number, title, author, ranks = head.groups()
        if _lacks_king(stipulation, ranks):
            return head.start()
        self._number, self._unfinished = int(number), None
        self._board = board_number(ranks)
        self._begin(stipulation, condition)
        builder.head = self._number, title, author, _board_of(ranks), stipulation, condition
        kind = items.PhaseKind(found[2].decode("ascii"))
        self._phase(kind)
        builder.begin_phase(kind)
        self._line += head.string.count(b"\n", head.start(), found.end())
        return found.end()

    def _items_of(self, text: bytes, builder: ItemBuilder) -> Iterator[items.AnyItem]:
        """Takes whole lines, and yields the items that end in them."""
        lines_left, at = text.split(b"\n"), 0
        lines_left.pop()
        while at < len(lines_left):
            at += self._take_solutions(lines_left, at, builder)
            if at == len(lines_left):
                return
            for event in self.take(lines_left[at]):
                item = builder.take(event)
                if item is not None:
                    yield item
            at += 1

    def _take_solutions(self, lines_left: list[bytes], at: int, builder: ItemBuilder) -> int:
        """Takes the solutions from a line on, as far as they are plain; returns how many lines."""
        if self._state not in (self._solution, self._first_solution) or at == len(lines_left):
            return 0
        if lines_left[at] == lines.NOT_POSSIBLE:
            return 0
        self._state = self._solution
        before = self._line
        growing = builder.growing
        if self._stipulation.play is Play.HELP:
            taken = self._take_help_lines(lines_left, at, growing)
        else:
            self._tree.decide(lines_left[at])
            taken = growing.add_known(lines_left, at, self._known_here, self._tree)
        self._line = before + taken
        self._count = len(growing.solutions)
        return taken

    def _take_help_lines(self, lines_left: list[bytes], at: int, growing: GrowingPhase) -> int:
        """Takes lines of help play; returns how many."""
        for place in range(at, len(lines_left)):
            line = lines_left[place]
            if not line[:1].isdigit():
                return place - at
            self._line += 1
            growing.add_line(self._help_line(line))
        return len(lines_left) - at

    def _begin(self, stipulation: Stipulation, condition: Optional[Condition]) -> None:
        """Sets the state that takes the first line after the head."""
        self._stipulation, self._condition = stipulation, condition
        self._tree.detail = Detail.UNKNOWN
        self._state = self._first_phase

    def _first_phase(self, line: bytes) -> Sequence[events.Event]:
        if line == lines.SOUND:
            self._state = self._end
            return (events.CheckedEvent(self._number),)
        if line == items.PhaseKind.SET.value.encode("ascii"):
            return self._phase(items.PhaseKind.SET)
        return self._play(line)

    def _play(self, line: bytes) -> Sequence[events.Event]:
        if line != items.PhaseKind.PLAY.value.encode("ascii"):
            raise self.refused("'play'", line)
        return self._phase(items.PhaseKind.PLAY)

    def _phase(self, kind: items.PhaseKind) -> Sequence[events.Event]:
        self._kind, self._count = kind, 0
        form = self._form
        if self._stipulation.play is Play.HELP:
            if form not in self._known_moves:
                self._known_moves[form] = [KnownMoves(form, place) for place in range(form.halves)]
            self._help.begin(self._known_moves[form], self._board)
        else:
            self._tree.begin(self._board, self._first_levels)
            if sum(map(len, self._known.values())) >= MOST_KNOWN:
                self._known.clear()
            if form not in self._known:
                self._known[form] = KnownNodes(form)
            self._known_here = self._known[form]
        self._state = self._first_solution
        return (events.PhaseEvent(self._number, kind),)

    @property
    def _form(self) -> Form:
        first_half = self._stipulation.first_half + (1 if self._kind is items.PhaseKind.SET else 0)
        return Form(self._stipulation, self._condition is Condition.CIRCE, first_half)

    def _first_solution(self, line: bytes) -> Sequence[events.Event]:
        if line != lines.NOT_POSSIBLE or self._kind is not items.PhaseKind.SET:
            self._state = self._solution
            return self._solution(line)
        self._state = self._play
        return (events.NotPossibleEvent(self._number, self._kind),)

    def _solution(self, line: bytes) -> Sequence[events.Event]:
        is_set = self._kind is items.PhaseKind.SET
        if self._allowed is Allowed.UNFINISHED and is_set and line == b"play":
            # (as pops-many writes an unfinished problem of which parts of both phases were solved)
            self._is_set_cut = True
            return self._play(line)
        total = lines.TOTAL.fullmatch(line)
        if total is not None:
            self._refuse_open_tree(line)
            if int(total[1]) != self._count:
                raise self.refused(f"'solutions: {self._count}', the number of solutions above", line)
            self._state = self._play if is_set else self._end
            counted = items.Total(self._count, total[2] is not None)
            return (events.TotalEvent(self._number, self._kind, counted),)
        if self._stipulation.play is Play.HELP:
            self._count += 1
            return (events.LineEvent(self._number, self._kind, self._help_line(line)),)
        return (self._node(line, events.Place.SOLUTION),)

    def _refuse_open_tree(self, line: bytes) -> None:
        """Refuses a line in place of a move that has to follow the one above."""
        self._tree.decide(line)
        if self._tree.least > 0:
            raise self.refused("a move below the one above", line)

    def _help_line(self, line: bytes) -> items.HelpLine:
        text = line.decode("latin-1")
        try:
            return items.HelpLine(text, self._help.moves_of(text))
        except LineRefused as refused:
            raise self.refused(str(refused), line) from None

    @property
    def _first_levels(self) -> int:
        """The deepest level that is shown without Variation."""
        return 1 if self._kind is items.PhaseKind.SET else 0

    def _node(self, line: bytes, place: events.Place) -> events.NodeEvent:
        """Returns the node of a line."""
        self._tree.decide(line)
        node = self._known_here[line]
        expected = "a move, or the number of solutions" if node is None else self._tree.refusal(node)
        if node is None or expected is not None:
            raise self.refused(expected or "", line)
        self._tree.add(node)
        level, text, move = node[:3]
        self._count += level == 0
        return events.NodeEvent(self._number, self._kind, place, level, text[2 * level :], move)


def _note_tail(tail: bytes, item: items.AnyItem) -> None:
    """Notes what a finished item says after its board."""
    if len(tail) <= _LONGEST_TAIL and isinstance(item, items.SoundItem) and item.unfinished is None:
        if len(_TAILS) >= _MOST_TAILS:
            _TAILS.clear()
        said = item.stipulation, item.condition, item.phases
        _TAILS[tail] = said, Needs(item.phases or ())


def _has_few_kings(lines_of_ranks: bytes) -> bool:
    """Returns whether each colour has one king at most."""
    return lines_of_ranks.count(b"K") < 2 and lines_of_ranks.count(b"k") < 2


def _lacks_king(stipulation: Stipulation, lines_of_ranks: bytes) -> bool:
    """Returns whether a board has no king that the stipulation wants mated."""
    king = b"k" if stipulation.last_side is Colour.WHITE else b"K"
    return stipulation.goal is Goal.MATE and king not in lines_of_ranks


def _board_of(lines_of_ranks: bytes) -> items.Board:
    """Returns the board of eight lines as `8 ........`."""
    # (other boards have most ranks too)
    ranks = lines_of_ranks.translate(None, b" 12345678").decode("ascii").split()
    return items.Board(tuple(map(intern, ranks)))


def read_events(reader: ReportReader, source: Iterable[bytes]) -> Iterator[events.Event]:
    """Yields what a text says, whose bytes come in pieces of any size, as from a binary file."""
    for data in pieces_of(source):
        yield from reader.feed(data)
    yield from reader.close()


def read_report(source: Iterable[bytes]) -> Iterator[items.Item]:
    """Yields the items of a report, whose bytes come in pieces, as from a binary file.

    ReportError where the text departs from the grammar, after the items before.
    """
    for item in _items(Allowed.FINISHED, source):
        assert not isinstance(item, items.HeadlessItem)
        yield item


def read_unfinished_report(source: Iterable[bytes], line: int = 0) -> Iterator[items.AnyItem]:
    """Yields items as `read_report` does, also of stopped problems and of a report that is cut.

    These problems have what the report shows of them. A cut line is left out. `line` lines of the
    report are before the source.
    """
    return _items(Allowed.UNFINISHED, source, line)


def _items(
    allowed: Allowed, source: Iterable[bytes], line: int = 0
) -> Iterator[items.AnyItem]:
    reader, builder = ReportReader(allowed, line), ItemBuilder()
    for data in pieces_of(source):
        yield from reader.feed_builder(data, builder)
    for event in reader.close():
        item = builder.take(event)
        if item is not None:
            yield item


def pieces_of(source: Iterable[bytes]) -> Iterator[bytes]:
    """Yields the bytes of a source, of a binary file in pieces, each as soon as it has come."""
    # (a read gives what has come, and waits only for the first byte)
    if not isinstance(source, io.BufferedIOBase):
        yield from source
        return
    while piece := source.read1(_PIECE):
        yield piece
