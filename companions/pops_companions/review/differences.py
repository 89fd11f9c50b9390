"""What two reports of one problem differ in: solutions, totals, faults and the problem itself."""

from collections import Counter
from collections.abc import Sequence
from dataclasses import dataclass, field
from typing import Optional

from pops_companions.report.items import (
    Board,
    FaultyItem,
    Item,
    Node,
    Phase,
    PhaseKind,
    SoundItem,
)
from pops_companions.report.moves import PlayedMove
from pops_companions.review.duals import line_text
from pops_companions.review.naming import described, shown


@dataclass(frozen=True)
class Pair:
    """A problem in both reports, or in one alone."""

    old: Optional[Item]
    new: Optional[Item]


@dataclass
class Counts:
    """How many problems, solutions, variations and faults were gained and lost.

    A solution is a line, a key or a first move of set play, a variation a move below one.
    """

    gained: "Counter[str]" = field(default_factory=Counter)
    lost: "Counter[str]" = field(default_factory=Counter)
    totals_changed: int = 0

    def add(self, other: "Counts") -> None:
        self.gained.update(other.gained)
        self.lost.update(other.lost)
        self.totals_changed += other.totals_changed


@dataclass
class Differences:
    """The differences of a problem in words, - for what OLD alone has and + for NEW; and counted.

    A problem's number, the line of a fault and a board that one report alone shows don't count.
    """

    lines: list[str] = field(default_factory=list)
    counts: Counts = field(default_factory=Counts)

    def change(self, name: str, old: str, new: str) -> None:
        """Says what changed, if anything did."""
        if old != new:
            self.lines.append(f"  {name}: {old or 'none'} -> {new or 'none'}")

    def gain(self, text: str, what: str = "") -> None:
        """Says what only NEW has; `what` counts it."""
        self.lines.append(f"    + {text}")
        self.counts.gained.update([what] if what else [])

    def lose(self, text: str, what: str = "") -> None:
        """As `gain`, for OLD."""
        self.lines.append(f"    - {text}")
        self.counts.lost.update([what] if what else [])

    def compare(self, old: Sequence[str], new: Sequence[str], what: str = "") -> None:
        """Says which texts only one of both has; `what` counts them."""
        before, after = set(old), set(new)
        for text in old:
            if text not in after:
                self.lose(text, what)
        for text in new:
            if text not in before:
                self.gain(text, what)


def heading(pair: Pair, encoding: str) -> str:
    """Returns the line above a problem's differences."""
    item = pair.new or pair.old
    assert item is not None
    sign, number = "", f"problem {item.number}"
    if pair.old is None or pair.new is None:
        sign = "+ " if pair.old is None else "- "
    elif pair.old.number != pair.new.number:
        number = f"problem {pair.old.number}, now {pair.new.number}"
    return sign + ": ".join(filter(None, (number, described(item, encoding))))


def differences_of(pair: Pair, encoding: str) -> Differences:
    """Returns all differences of a pair. One report's problem alone is a difference without lines.
    """
    found = Differences()
    old, new = pair.old, pair.new
    if old is None:
        found.counts.gained["problems"] += 1
    elif new is None:
        found.counts.lost["problems"] += 1
    elif isinstance(old, FaultyItem) or isinstance(new, FaultyItem):
        _compare_faults(found, old, new)
    else:
        _compare_problems(found, old, new, encoding)
        _compare_phases(found, old, new)
    return found


def _fault_texts(item: Item) -> list[str]:
    if isinstance(item, FaultyItem):
        return [f"fault {item.fault.number}: {item.fault.text}"]
    return []


def _compare_faults(found: Differences, old: Item, new: Item) -> None:
    before, after = _fault_texts(old), _fault_texts(new)
    if before != after:
        found.lines.append("  fault")
        found.compare(before, after, "faults")


def _compare_problems(found: Differences, old: SoundItem, new: SoundItem, encoding: str) -> None:
    found.change("title", shown(old.title, encoding), shown(new.title, encoding))
    found.change("author", shown(old.author, encoding), shown(new.author, encoding))
    if old.board is not None and new.board is not None and old.board != new.board:
        found.lines.append("  board")
        found.compare(_men(old.board), _men(new.board))
    found.change("stipulation", old.asked, new.asked)


def _men(board: Board) -> list[str]:
    """Returns the men of a board, as `White Ra1`."""
    men = board.men.items()
    return [f"{man.colour.name.title()} {man.kind.value}{square.name}" for square, man in men]


def _compare_phases(found: Differences, old: SoundItem, new: SoundItem) -> None:
    if old.phases is None or new.phases is None:
        found.change("solved", _said(old.phases is not None), _said(new.phases is not None))
        return
    for kind in PhaseKind:
        before, after = old.phase(kind), new.phase(kind)
        if before is not None and after is not None:
            _compare_phase(found, before, after)
        else:
            found.change(f"{kind.value} play", _said(before is not None), _said(after is not None))


def _said(true: bool) -> str:
    return "yes" if true else "no"


def _compare_phase(found: Differences, old: Phase, new: Phase) -> None:
    if old.lines == new.lines and old.last_line == new.last_line:
        return
    inside = Differences(counts=found.counts)
    inside.compare([it.text for it in old.help_lines], [it.text for it in new.help_lines], "solutions")
    deeper = _compare_nodes(inside, old.nodes, new.nodes, ())
    inside.lines.extend(f"    variations in {report} only" for report in sorted(deeper))
    if old.last_line != new.last_line:
        inside.counts.totals_changed += 1
        inside.lines.append(f"    {old.last_line} -> {new.last_line}")
    if inside.lines:
        found.lines.extend([f"  {old.kind.value}", *inside.lines])


def _compare_nodes(
    found: Differences, old: Sequence[Node], new: Sequence[Node], path: tuple[PlayedMove, ...]
) -> set[str]:
    """Compares trees node by node; returns which report alone shows moves below a node."""
    before = {node.move.text: node for node in old}
    after = {node.move.text: node for node in new}
    what = "variations" if path else "solutions"
    deeper: set[str] = set()
    for text, node in before.items():
        other = after.get(text)
        if other is None:
            found.lose(line_text((*path, node.move)), what)
        elif bool(node.below) != bool(other.below):
            deeper.add("OLD" if node.below else "NEW")
        else:
            deeper |= _compare_nodes(found, node.below, other.below, (*path, node.move))
    for text, node in after.items():
        if text not in before:
            found.gain(line_text((*path, node.move)), what)
    return deeper
