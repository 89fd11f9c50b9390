"""The solution of a problem in blocks: set play, tries, keys."""

from collections.abc import Iterable, Iterator, Sequence
from dataclasses import dataclass, replace
from enum import Enum
from typing import Optional

from pops_companions.chess.attacks import Men
from pops_companions.chess.men import Kind, Square
from pops_companions.chess.stipulation import Condition
from pops_companions.report.events import Menace
from pops_companions.report.items import Phase, PhaseKind, SoundItem, Total
from pops_companions.report.moves import Mark, prefix
from pops_companions.report.tries import FirstMove, TriesItem
from pops_companions.sheet.boards import after, arrivals
from pops_companions.sheet.languages import MARKS, Language
from pops_companions.sheet.short import short
from pops_companions.sheet.variations import Line, Variations


# How many solutions of a phase a sheet shows: a cooked help mate may have a million.
MOST_SOLUTIONS = 1000


def shortened(item: SoundItem) -> tuple[SoundItem, int]:
    """Returns a problem with at most `MOST_SOLUTIONS` in a phase, and how many are left out."""
    phases = item.phases or ()
    left_out = sum(max(len(it.solutions) - MOST_SOLUTIONS, 0) for it in phases)
    if not left_out:
        return item, 0
    kept = tuple(replace(it, solutions=it.solutions[:MOST_SOLUTIONS]) for it in phases)
    return replace(item, phases=kept), left_out


@dataclass(frozen=True)
class Block:
    """A part of a solution under its heading."""

    heading: str
    lines: tuple[Line, ...]


def lines_of(blocks: Sequence[Block], marks: dict[int, str]) -> list[str]:
    """Returns the lines of blocks, each block under its heading if there are several."""
    lines: list[str] = []
    for block in blocks:
        lines += [block.heading] * (len(blocks) > 1)
        for line in block.lines:
            indent = "  " * (line.level + (len(blocks) > 1))
            lines.append(indent + line.text.translate(marks))
    return lines


class TriesShown(Enum):
    """Which tries are shown; a try with variations has a threat, or a defence that doesn't refute."""

    ALL = "all"
    WITH_VARIATIONS = "variations"
    NONE = "none"


# Three moves of a man with the same refutation, or more, are shown as any of its moves.
_ANY_MOVE = 3


# The square of a man, and the mark of its moves, as of those that check.
_ManAndMark = tuple[Square, Optional[Mark]]


def _moves_of_men(moves: Iterable[FirstMove]) -> dict[_ManAndMark, list[FirstMove]]:
    """Returns the moves of each man with the same mark."""
    found: dict[_ManAndMark, list[FirstMove]] = {}
    for one in moves:
        found.setdefault((one.move.origin, one.move.mark), []).append(one)
    return found


def _largest_of_each_man(
    groups: Iterable[Sequence[FirstMove]],
) -> dict[_ManAndMark, list[FirstMove]]:
    """Returns the moves of each man in the group where it has the most."""
    largest: dict[_ManAndMark, list[FirstMove]] = {}
    for group in groups:
        for which, own in _moves_of_men(group).items():
            if len(own) > len(largest.get(which, [])):
                largest[which] = own
    return largest


@dataclass(frozen=True)
class Solution:
    """How a solution is made: the men of the diagram, the condition, the language, which tries."""

    men: Men
    condition: Optional[Condition]
    language: Language
    shown: TriesShown = TriesShown.ALL

    def blocks(self, item: SoundItem, tries: Optional[TriesItem]) -> list[Block]:
        """Returns the blocks of a problem, by its tries where they are known."""
        set_play, play = item.phase(PhaseKind.SET), item.phase(PhaseKind.PLAY)
        found: list[Block] = []
        if set_play is not None and set_play.solutions:
            found.append(Block(self.language.set_play, self._phase(set_play)))
        if tries is not None and tries.total is not None:
            attempts = tuple(self._tries(tries))
            if attempts:
                found.append(Block(self.language.tries, attempts))
            keys = [line for it in tries.keys for line in self._first_move(it, "!")]
            keys += self._remark(tries.total)
            found.append(Block(self.language.solution, tuple(keys)))
        elif play is not None:
            found.append(Block(self.language.solution, self._phase(play)))
        return found

    def _tries(self, tries: TriesItem) -> Iterator[Line]:
        """Yields the lines of tries, those with the same refutations and variations together."""
        groups: dict[tuple[str, tuple[Line, ...]], list[FirstMove]] = {}
        for one in tries.tries if self.shown is not TriesShown.NONE else ():
            has_variations = bool(one.threats or one.defences)
            said, below = self._below(one)
            if not has_variations and one.refutations:
                said, below = f" {self._refuting(one)}", []
            if has_variations or self.shown is TriesShown.ALL:
                groups.setdefault((said, tuple(below)), []).append(one)
        any_moves = self._any_moves(list(groups.values()), tries.keys)
        for (said, lines), group in groups.items():
            yield Line(f"{prefix(1)}{'/'.join(self._first_moves(group, any_moves))}?{said}")
            yield from (line.set_in() for line in lines)

    def _any_moves(
        self, groups: Sequence[Sequence[FirstMove]], keys: Sequence[FirstMove]
    ) -> dict[_ManAndMark, list[FirstMove]]:
        """Returns the moves that any move of a man stands for: many moves of a group, where the sheet
        shows all others too. A move with more refutations than wanted isn't shown."""
        shown = {
            (it.move.origin, it.move.arrival) for group in (*groups, keys) for it in group
        }
        return {
            which: own
            for which, own in _largest_of_each_man(groups).items()
            if len(own) >= _ANY_MOVE
            and own[0].move.kind is not Kind.PAWN
            and all(one.move.castling is None for one in own)
            and all(
                (own[0].move.origin, arrival) in shown
                for arrival in arrivals(self.men, own[0].move, self.condition)
            )
        }

    def _first_moves(
        self, group: Sequence[FirstMove], any_moves: dict[_ManAndMark, list[FirstMove]]
    ) -> Iterator[str]:
        """Yields the moves of a group; any move of a man is `K~`, or any that checks, `R~+`."""
        for (origin, mark), own in _moves_of_men(group).items():
            if any_moves.get((origin, mark)) != own:
                yield from (short(self.men, one.move, self.condition) for one in own)
                continue
            man = self.men[origin]
            is_alone = all(other != man or it == origin for it, other in self.men.items())
            sign = "" if mark is None else mark.value
            yield MARKS[man.kind] + ("" if is_alone else origin.name) + "~" + sign

    def _phase(self, phase: Phase) -> tuple[Line, ...]:
        """Returns the lines of a phase of the report; its keys have a sign."""
        variations = Variations(self.condition)
        if not phase.is_possible:
            return (Line(self.language.impossible),)
        lines = [variations.help_line(self.men, it) for it in phase.help_lines]
        if phase.kind is PhaseKind.SET:
            lines += variations.defences(self.men, phase.nodes)
        else:
            keys = (FirstMove(it.text, it.move, defences=tuple(it.below)) for it in phase.nodes)
            lines += [line for key in keys for line in self._first_move(key, "!")]
        return (*lines, *self._remark(phase.total))

    def _remark(self, total: Optional[Total]) -> list[Line]:
        """Returns what is to be said of the number of solutions; without a total there may be more.
        """
        if total is None or total.stopped:
            return [Line(f"({self.language.stopped})")]
        return [] if total.count else [Line(self.language.no_solution)]

    def _first_move(self, one: FirstMove, sign: str) -> list[Line]:
        head = prefix(1) + short(self.men, one.move, self.condition) + sign
        said, lines = self._below(one)
        return [Line(head + said), *(line.set_in() for line in lines)]

    def _below(self, one: FirstMove) -> tuple[str, list[Line]]:
        """Returns what is said after a first move, and the lines below it."""
        variations = Variations(self.condition)
        moved = after(self.men, one.move)
        said = ""
        lines: list[Line] = []
        if one.menace is Menace.ZUGZWANG:
            said = f" {self.language.zugzwang}"
        elif one.menace is Menace.THREAT:
            lines = variations.continuations(moved, one.threats)
            if sum(line.level == 0 for line in lines) == 1:
                said = f" {self.language.threat} {lines.pop(0).text}"
            else:
                said = f" {self.language.threat}"
        lines += variations.defences(moved, one.defences)
        lines += self._refutations(one)
        return said, lines

    def _refutations(self, one: FirstMove) -> list[Line]:
        if one.is_stalemate:
            return [Line(f"{self.language.but} {self.language.stalemate}")]
        if not one.refutations:
            return []
        return [Line(f"{self.language.but} {prefix(2)}{self._refuting(one)}")]

    def _refuting(self, one: FirstMove) -> str:
        """Returns the refutations of a try, with nothing else below it: `Kg2!`."""
        men = after(self.men, one.move)
        return ", ".join(short(men, it.move, self.condition) + "!" for it in one.refutations)
