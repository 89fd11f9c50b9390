"""Makes the items of a report of its events."""

from collections.abc import Sequence
from dataclasses import dataclass, field
from typing import Any, Generic, Optional, TypeVar, Union

from pops_companions.report import events, items, lines
from pops_companions.report.known_lines import KnownNodes
from pops_companions.report.tree import Detail, TreeState


@dataclass
class GrowingPhase:
    """A phase whose solutions come one by one."""

    kind: items.PhaseKind
    # The level of its first moves.
    first_level: int = 0
    solutions: list[Union[items.HelpLine, items.Node]] = field(default_factory=list)
    lines: list[str] = field(default_factory=list)
    _below: list[list[Any]] = field(init=False)

    def __post_init__(self) -> None:
        # (where the next move of each level goes)
        self._below = [self.solutions]

    def add_line(self, line: items.HelpLine) -> None:
        self.solutions.append(line)
        self.lines.append(line.text)

    def add_node(self, event: events.NodeEvent) -> None:
        node = items.Node("  " * event.level + event.text, event.move, [])
        level = event.level - self.first_level
        self._below[level].append(node)
        self._below[level + 1 :] = [node.below]
        self.lines.append(node.text)

    def add_known(
        self, source: Sequence[bytes], start: int, known: KnownNodes, tree: TreeState
    ) -> int:
        """Adds the nodes of the lines from a place on, as far as the tree doesn't refuse them, and up to one
        after which the next line shows how deep it goes. Returns how many they are.
        """
        below, texts = self._below, self.lines
        before = len(texts)
        least, most, serial = tree.least, tree.most, tree.serial
        parents, boards = tree.parents, tree.boards
        watched, is_cut = tree.watched, tree.detail is Detail.FIRST_MOVES
        # (what `tree.refusal` and `tree.add` do, without their calls)
        for place in range(start, len(source)):
            found = known[source[place]]
            if found is None:
                break
            level, text, move, next_least, next_most, parent, (mask, value, kept, put) = found
            above = parents[level]
            if not least <= level <= most or parent[0] == above:
                break
            if boards is not None:
                board = boards[level]
                if board & mask != value:
                    break
                if next_least:
                    boards[next_least] = board & kept | put
            parent[0] = above
            serial += 1
            parents[level + 1] = serial
            nodes: list[items.Node] = []
            below[level].append(items.Node(text, move, nodes))
            below[level + 1 :] = (nodes,)
            texts.append(text)
            least, most = next_least, next_most
            if level == watched and least:
                if not is_cut:
                    tree.detail = Detail.SHOWN_NEXT
                    break
                least, most = 0, level
        tree.least, tree.most, tree.serial = least, most, serial
        return len(texts) - before

    @property
    def nodes(self) -> tuple[items.Node, ...]:
        """The moves of battle play of its first level."""
        return tuple(it for it in self.solutions if isinstance(it, items.Node))

    def ended(self, total: Optional[items.Total], last_line: str) -> items.Phase:
        return items.Phase(self.kind, tuple(self.solutions), tuple(self.lines), total, last_line)


def total_text(total: items.Total) -> str:
    """Returns the line of a phase's total."""
    return lines.total_line(total.count, total.stopped).decode("ascii").rstrip("\n")


# What a sound problem becomes.
Made = TypeVar("Made")


class Builder(Generic[Made]):
    """Collects the events of one problem after another."""

    def __init__(self) -> None:
        self._begin()

    def _begin(self) -> None:
        self._fault: Optional[items.Fault] = None
        # What the head of the problem says.
        self.head: Optional[events.Head] = None
        self._is_checked = False
        self._phases: list[items.Phase] = []
        self._growing: Optional[GrowingPhase] = None

    def take(self, event: events.Event) -> Union[items.FaultyItem, items.HeadlessItem, Made, None]:
        """Takes the next event; returns the item that it ends, if it ends one."""
        if isinstance(event, events.EndEvent):
            item = self._item(event)
            self._begin()
            return item
        if isinstance(event, events.FaultEvent):
            self._fault = event.fault
        elif isinstance(event, events.HeadEvent):
            self.head = event.parts
        elif isinstance(event, events.CheckedEvent):
            self._is_checked = True
        elif isinstance(event, events.PhaseEvent):
            self.begin_phase(event.phase)
        elif isinstance(event, events.NotPossibleEvent):
            self._end_phase(None, lines.NOT_POSSIBLE.decode("ascii"))
        elif isinstance(event, events.TotalEvent):
            self._end_phase(event.total, total_text(event.total))
        elif self._growing is not None:
            if isinstance(event, events.LineEvent):
                self._growing.add_line(event.line)
            elif isinstance(event, events.NodeEvent) and event.place is events.Place.SOLUTION:
                self._growing.add_node(event)
        return None

    def begin_phase(self, kind: items.PhaseKind) -> None:
        """Begins a phase, and ends one before it that has no total."""
        self._end_phase(None, "unfinished")
        self._growing = GrowingPhase(kind)

    def _end_phase(self, total: Optional[items.Total], last_line: str) -> None:
        if self._growing is not None:
            self._phases.append(self._growing.ended(total, last_line))
            self._growing = None

    def _item(self, end: events.EndEvent) -> Union[items.FaultyItem, items.HeadlessItem, Made]:
        if self._fault is not None:
            return items.FaultyItem(end.problem, self._fault)
        if self.head is None:
            return items.HeadlessItem(end.problem, end.unfinished or "")
        self._end_phase(None, f"unfinished: {end.unfinished}")
        return self._made(self.head, end.unfinished)

    def _made(self, head: events.Head, unfinished: Optional[str]) -> Made:
        """Returns a sound problem with this head."""
        raise NotImplementedError


class ItemBuilder(Builder[items.SoundItem]):
    """Makes the items of a report."""

    def _made(self, head: events.Head, unfinished: Optional[str]) -> items.SoundItem:
        phases = None if self._is_checked else tuple(self._phases)
        return items.SoundItem(*head, phases, unfinished)

    @property
    def growing(self) -> GrowingPhase:
        """The phase at hand, which takes more solutions than its events say."""
        assert self._growing is not None
        return self._growing
