"""What a text of pops-tries says of each problem, and its reading: keys, threats, defences, tries.

The reading is strict, as that of reports (docs/tries.ebnf).
"""

import re
from collections.abc import Callable, Iterable, Iterator, Sequence
from dataclasses import dataclass
from typing import Any, Optional, Union

from pops_companions.chess.stipulation import Condition, Goal, Play, Stipulation
from pops_companions.report import events, items, lines
from pops_companions.report.item_builder import Builder, GrowingPhase, total_text
from pops_companions.report.moves import Mark, PlayedMove, prefix
from pops_companions.report.reader import Allowed, ReportReader, State, read_events
from pops_companions.report.steps import Step, read_step

NO_TRIES = "no tries in help play"
_TRIES = "tries"
_BUT = "  but"
_STALEMATE = "    stalemate"
_TRIES_TOTAL = re.compile(r"tries: (0|[1-9][0-9]{0,17})", re.ASCII)
_NODE = re.compile(r"( *)[0-9]", re.ASCII)
# The levels of the moves right below a first move: those that follow a pass, and replies.
_LEVELS = {events.Place.THREAT: 2, events.Place.DEFENCE: 1}


@dataclass(frozen=True)
class FirstMove:
    """A key or a try. One after which Black has no reply has no menace and nothing below it.

    `defences` are those that don't refute it; a key has no refutations. A try that stalemates is
    refuted by that alone.
    """

    text: str
    move: PlayedMove
    menace: Optional[events.Menace] = None
    threats: tuple[items.Node, ...] = ()
    defences: tuple[items.Node, ...] = ()
    refutations: tuple[items.Node, ...] = ()
    is_stalemate: bool = False


@dataclass(frozen=True)
class TriesItem:
    """A sound problem in a text of tries. Help play and a checked problem have neither keys nor a
    total, an unfinished problem has what the text shows of it.

    `lines` are all lines below the stipulation.
    """

    number: int
    title: Optional[bytes]
    author: Optional[bytes]
    board: Optional[items.Board]
    stipulation: Stipulation
    condition: Optional[Condition]
    set_play: Optional[items.Phase] = None
    keys: tuple[FirstMove, ...] = ()
    total: Optional[items.Total] = None
    tries: tuple[FirstMove, ...] = ()
    lines: tuple[str, ...] = ()
    unfinished: Optional[str] = None


TriesReportItem = Union[items.FaultyItem, TriesItem]


def is_of_item(tries: TriesItem, item: items.SoundItem) -> bool:
    """Returns whether a text of tries has the title, the author and the keys that the report of the problem
    has, the keys where both show all of them.
    """
    if (tries.title, tries.author) != (item.title, item.author):
        return False
    play = item.phase(items.PhaseKind.PLAY)
    if play is None or play.total is None or tries.total is None:
        return True
    keys = tuple([key.text[:-1] for key in tries.keys])
    return keys == play.texts and tries.total == play.total


AnyTriesItem = Union[items.FaultyItem, TriesItem, items.HeadlessItem]


class TriesReader(ReportReader):
    """Reads a text of tries as it comes."""

    def __init__(self, allowed: Allowed):
        super().__init__(allowed)
        self._sign = events.FirstMoveKind.KEY
        self._has_ended = False
        # The first moves so far, and the replies to the last one, without what they do to a king.
        self._first_moves: set[str] = set()
        self._replies: set[str] = set()

    def _begin(self, stipulation: Stipulation, condition: Optional[Condition]) -> None:
        super()._begin(stipulation, condition)
        if stipulation.play is Play.HELP:
            self._state = self._no_tries
        self._sign = events.FirstMoveKind.KEY
        self._first_moves.clear()

    def _no_tries(self, line: bytes) -> Sequence[events.Event]:
        if line == lines.SOUND:
            return self._first_phase(line)
        self._refuse_other(line, NO_TRIES)
        self._state = self._end
        return (events.NoTriesEvent(self._number),)

    def _refuse_other(self, line: bytes, wanted: str) -> None:
        if line.decode("latin-1") != wanted:
            raise self.refused(repr(wanted), line)

    @property
    def _first_levels(self) -> int:
        return 2 if self._kind is items.PhaseKind.PLAY else super()._first_levels

    def _phase(self, kind: items.PhaseKind) -> Sequence[events.Event]:
        begun = super()._phase(kind)
        if kind is items.PhaseKind.PLAY:
            self._state = self._first_move
        return begun

    def _first_move(self, line: bytes) -> Sequence[events.Event]:
        if not line[:1].isdigit():
            return self._total(line)
        text, sign = line.decode("latin-1"), self._sign.value
        move, step = self._signed_move(text, self._stipulation.first_half, prefix(1), sign)
        self._tree.begin(self._board, self._first_levels)
        self._has_ended = self._play_move(line, move, step)
        is_try = self._sign is events.FirstMoveKind.TRY
        is_last = self._stipulation.half_moves == 1
        if self._has_ended and is_try or is_last and not (self._has_ended or is_try):
            raise self.refused(f"a move with {sign}", line)
        if not _added(self._first_moves, move):
            raise self.refused("another first move than the ones before", line)
        self._replies.clear()
        self._count += 1
        self._state = self._first_move if self._has_ended else self._menace
        return (events.FirstMoveEvent(self._number, self._sign, text, move),)

    def _signed_move(self, text: str, half: int, lead: str, sign: str) -> tuple[PlayedMove, Step]:
        """Returns the move of a line that has this sign after it."""
        found = None
        if text.endswith(sign):
            found = read_step(text[: -len(sign)], lead, half, self._stipulation.side(half))
        if found is None:
            raise self.refused(f"a move with {sign}", text.encode("latin-1"))
        return found

    def _play_move(self, line: bytes, move: PlayedMove, step: Step) -> bool:
        """Plays a first move; returns whether it reaches the goal."""
        has_reached = self._form.has_reached(move)
        if has_reached is None or not self._tree.plays(step, 0):
            raise self.refused("a move that the men on the board can make", line)
        return has_reached

    def _menace(self, line: bytes) -> Sequence[events.Event]:
        text = line.decode("latin-1")
        menace = next((it for it in events.Menace if text == f"  {it.value}"), None)
        if menace is None and self._sign is events.FirstMoveKind.TRY:
            self._refuse_other(line, _BUT)
            self._state = self._stalemate
            return ()
        if menace is None:
            raise self.refused("what the key threatens", line)
        if menace is events.Menace.THREAT:
            self._tree.begin_below(_LEVELS[events.Place.THREAT])
            self._state = self._threat
        else:
            self._go_to_defences()
        return (events.MenaceEvent(self._number, menace),)

    def _go_to_defences(self) -> State:
        self._tree.begin_below(_LEVELS[events.Place.DEFENCE])
        self._tree.least = 0
        self._state = self._defence
        return self._state

    def _threat(self, line: bytes) -> Sequence[events.Event]:
        if _is_node(line, events.Place.THREAT):
            return (self._node(line, events.Place.THREAT),)
        self._refuse_open_tree(line)
        return self._go_to_defences()(line)

    def _defence(self, line: bytes) -> Sequence[events.Event]:
        if _is_node(line, events.Place.DEFENCE):
            node = self._node(line, events.Place.DEFENCE)
            if node.level == 1:
                _added(self._replies, node.move)
            return (node,)
        self._refuse_open_tree(line)
        if self._sign is events.FirstMoveKind.KEY:
            return self._first_move(line)
        self._refuse_other(line, _BUT)
        self._state = self._first_refutation
        return ()

    def _first_refutation(self, line: bytes) -> Sequence[events.Event]:
        text, lead = line.decode("latin-1"), f"    {prefix(2)}"
        move, step = self._signed_move(text, self._stipulation.first_half + 1, lead, "!")
        if not self._may_refute(move) or not self._tree.is_possible(step, 1):
            raise self.refused("a reply that the men on the board can make", line)
        if not _added(self._replies, move):
            raise self.refused("another reply than the ones before", line)
        self._state = self._refutation
        return (events.RefutationEvent(self._number, text.lstrip(" "), move),)

    def _may_refute(self, move: PlayedMove) -> bool:
        """Returns whether the signs of a reply let it refute a try."""
        if move.rebirth is not None and self._condition is not Condition.CIRCE:
            return False
        if move.mark in (None, Mark.CHECK):
            return True
        goal = self._stipulation.goal
        is_goal = move.mark is not None and move.mark.value == goal.value
        if self._stipulation.play is Play.SELF and is_goal:
            return False
        return move.mark is Mark.MATE or goal is Goal.STALEMATE

    def _refutation(self, line: bytes) -> Sequence[events.Event]:
        is_refutation = line.startswith(b"    ")
        return self._first_refutation(line) if is_refutation else self._first_move(line)

    def _stalemate(self, line: bytes) -> Sequence[events.Event]:
        self._refuse_other(line, _STALEMATE)
        if self._stipulation.play is Play.SELF or self._stipulation.goal is not Goal.MATE:
            raise self.refused("a refutation", line)
        self._state = self._first_move
        return (events.StalemateEvent(self._number),)

    def _total(self, line: bytes) -> Sequence[events.Event]:
        if self._sign is events.FirstMoveKind.TRY:
            return self._total_of_tries(line)
        total = lines.TOTAL.fullmatch(line)
        if total is None or int(total[1]) != self._count:
            raise self.refused(f"'solutions: {self._count}', the number of keys above", line)
        self._state = self._tries
        counted = items.Total(self._count, total[2] is not None)
        return (events.TotalEvent(self._number, items.PhaseKind.PLAY, counted),)

    def _tries(self, line: bytes) -> Sequence[events.Event]:
        self._refuse_other(line, _TRIES)
        self._sign, self._count, self._state = events.FirstMoveKind.TRY, 0, self._first_move
        return (events.TriesEvent(self._number),)

    def _total_of_tries(self, line: bytes) -> Sequence[events.Event]:
        count = _TRIES_TOTAL.fullmatch(line.decode("latin-1"))
        if count is None or int(count[1]) != self._count:
            raise self.refused(f"'tries: {self._count}', the number of tries above", line)
        self._state = self._end
        return (events.TriesTotalEvent(self._number, self._count),)


def _is_node(line: bytes, place: events.Place) -> bool:
    """Returns whether a line begins as a node of at least the first level of a place."""
    found = _NODE.match(line.decode("latin-1"))
    return found is not None and len(found[1]) >= 2 * _LEVELS[place]


def _added(moves: set[str], move: PlayedMove) -> bool:
    """Adds a move without what it does to a king; returns whether it wasn't there."""
    text = move.text if move.mark is None else move.text[:-1]
    is_new = text not in moves
    moves.add(text)
    return is_new


class TriesBuilder(Builder[TriesItem]):
    """Makes the items of a text of tries of its events."""

    def _begin(self) -> None:
        super()._begin()
        # The first moves, each with what is below it.
        self._moves: list[tuple[events.FirstMoveEvent, list[events.Event]]] = []
        self._lines: list[str] = []

    def take(self, event: events.Event) -> Optional[AnyTriesItem]:
        """Takes the next event; returns the item that it ends, if it ends one."""
        if isinstance(event, events.FirstMoveEvent):
            self._moves.append((event, []))
        elif self._moves:
            below = self._moves[-1][1]
            refutes = isinstance(event, (events.RefutationEvent, events.StalemateEvent))
            if refutes and not (below and isinstance(below[-1], events.RefutationEvent)):
                self._lines.append(_BUT)
            below.append(event)
        self._lines.extend(lines_of(event))
        return super().take(event)

    def _made(self, head: events.Head, unfinished: Optional[str]) -> TriesItem:
        phases = {it.kind: it for it in self._phases}
        play = phases.get(items.PhaseKind.PLAY)
        keys, tries = (
            tuple(_first_move(*it) for it in self._moves if it[0].kind is kind)
            for kind in events.FirstMoveKind
        )
        total = None if play is None else play.total
        shown = (phases.get(items.PhaseKind.SET), keys, total, tries, tuple(self._lines))
        return TriesItem(*head, *shown, unfinished)


def _first_move(first: events.FirstMoveEvent, below: Sequence[events.Event]) -> FirstMove:
    """Returns a first move with what the events say that is below it."""
    trees = {it: GrowingPhase(items.PhaseKind.PLAY, level) for it, level in _LEVELS.items()}
    menace, is_stalemate = None, False
    refutations: list[items.Node] = []
    for event in below:
        if isinstance(event, events.MenaceEvent):
            menace = event.menace
        elif isinstance(event, events.NodeEvent):
            trees[event.place].add_node(event)
        elif isinstance(event, events.RefutationEvent):
            refutations.append(items.Node(f"    {event.text}", event.move, []))
        elif isinstance(event, events.StalemateEvent):
            is_stalemate = True
    threats, defences = (it.nodes for it in trees.values())
    below_it = (menace, threats, defences, tuple(refutations), is_stalemate)
    return FirstMove(first.text, first.move, *below_it)


_LINES: dict[type[events.Event], Callable[[Any], object]] = {
    events.NoTriesEvent: lambda _: NO_TRIES,
    events.CheckedEvent: lambda _: lines.SOUND.decode("ascii"),
    events.PhaseEvent: lambda it: it.phase.value,
    events.NotPossibleEvent: lambda _: lines.NOT_POSSIBLE.decode("ascii"),
    events.NodeEvent: lambda it: "  " * it.level + it.text,
    events.FirstMoveEvent: lambda it: it.text,
    events.MenaceEvent: lambda it: f"  {it.menace.value}",
    events.RefutationEvent: lambda it: f"    {it.text}",
    events.StalemateEvent: lambda _: _STALEMATE,
    events.TotalEvent: lambda it: total_text(it.total),
    events.TriesEvent: lambda _: _TRIES,
    events.TriesTotalEvent: lambda it: f"tries: {it.count}",
}


def lines_of(event: events.Event) -> list[str]:
    """Returns the lines below a stipulation that an event stands for; `but` has no event."""
    line = _LINES.get(type(event))
    return [] if line is None else [str(line(event))]


def read_tries(source: Iterable[bytes]) -> Iterator[TriesReportItem]:
    """Yields the items of a text of tries, whose bytes come in pieces, as from a binary file.

    ReportError where the text isn't of the form, after the items before.
    """
    for item in _items(Allowed.FINISHED, source):
        assert not isinstance(item, items.HeadlessItem)
        yield item


def read_unfinished_tries(source: Iterable[bytes]) -> Iterator[AnyTriesItem]:
    """Yields items as `read_tries` does, also of stopped problems and of a text that is cut."""
    return _items(Allowed.UNFINISHED, source)


def _items(allowed: Allowed, source: Iterable[bytes]) -> Iterator[AnyTriesItem]:
    return filter(None, map(TriesBuilder().take, read_events(TriesReader(allowed), source)))
