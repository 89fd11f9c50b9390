"""Compares pops-tries with published solutions of two-movers, in collections of YACPDB.

`python3 -m tests.published POPS-TRIES FILE..`, called in companions/, prints what agrees, and each
difference; where the plain solver doesn't agree with pops-tries, a line FAULT. A published try has
to be one of pops-tries, with just the published refutations. Published texts leave tries out, and
show replies after which all threats work.
"""

import io
import sys
from collections import Counter
from collections.abc import Iterable, Iterator, Sequence
from dataclasses import dataclass, field
from pathlib import Path
from typing import NamedTuple

import pops
from pops_companions.chess.men import Kind, Man
from pops_companions.import_.draft import Draft
from pops_companions.import_.posing import posed
from pops_companions.import_.sources import read_drafts
from pops_companions.input.given import given_problems
from pops_companions.input.writing import text_of_problems
from pops_companions.report.events import Menace
from pops_companions.report.items import Node
from pops_companions.report.moves import PlayedMove
from pops_companions.report.tries import FirstMove, TriesItem, read_tries
from tests.plain_battle import FirstMove as PlainFirstMove
from tests.plain_chess import PROMOTIONS, Move, Position, square
from tests.plain_tries import Asked, Writer
from tests.published_moves import meant
from tests.published_text import Published, read_solution
from tests.published_tries import solution_of

# With this many refutations pops-tries shows all first moves.
_MOST = 200
_FAIRY = {Kind.GRASSHOPPER, Kind.NIGHTRIDER}


class Difference(NamedTuple):
    kind: str
    problem: str
    text: str


@dataclass
class Found:
    """What agrees, what was left out, the differences, and faults of pops-tries."""

    counts: Counter[str] = field(default_factory=Counter)
    left_out: Counter[str] = field(default_factory=Counter)
    differences: list[Difference] = field(default_factory=list)
    faults: list[str] = field(default_factory=list)

    def lines(self) -> Iterator[str]:
        yield from (f"{number} {kind}" for kind, number in sorted(self.counts.items()))
        yield from (f"left out: {number} {kind}" for kind, number in sorted(self.left_out.items()))
        for kind, number in Counter(it.kind for it in self.differences).most_common():
            yield f"difference: {number} {kind}"
        yield from ("\t".join(it) for it in sorted(self.differences))
        yield from (f"FAULT {it}" for it in self.faults)


class Problem(NamedTuple):
    """Where a problem stands, and its lines for pops, with the solution in remarks."""

    name: str
    lines: list[str]


def read_problems(files: Iterable[Path], found: Found) -> Iterator[Problem]:
    """Yields the orthodox two-movers without twins."""
    for file in files:
        for draft in read_drafts(file.read_text("utf-8")):
            if draft.setting.stipulation == "#2":
                yield from _posed(f"{file.name}:{draft.line}", draft, found)


def _posed(name: str, draft: Draft, found: Found) -> Iterator[Problem]:
    made = posed(draft)
    kinds = {it.kind for it in draft.setting.men.values() if isinstance(it, Man)}
    if draft.twins or len(made) > 1:
        found.left_out["with twins"] += 1
    elif made[0].faults:
        found.left_out["that pops can't read"] += 1
    elif draft.setting.conditions or kinds & _FAIRY:
        found.left_out["with fairy men or conditions"] += 1
    elif not any(it.startswith("Remark solution:") for it in made[0].lines):
        found.left_out["without a solution"] += 1
    else:
        yield Problem(name, made[0].lines)


def _move(move: PlayedMove) -> Move:
    promotion = -1 if move.promotion is None else PROMOTIONS.index(move.promotion.value)
    return Move(square(move.origin.name), square(move.arrival.name), promotion)


def _moves(nodes: Iterable[Node]) -> list[Move]:
    return [_move(it.move) for it in nodes]


class _Compared:
    """A problem with its solution, beside its item of pops-tries, which has all first moves."""

    def __init__(self, name: str, item: TriesItem, asked: Asked, found: Found):
        self._name = name
        self._asked = asked
        self._battle = asked.battle
        self._found = found
        self._keys = {_move(it.move): it for it in item.keys}
        self._own = {**self._keys, **{_move(it.move): it for it in item.tries}}

    def compare(self, solution: Sequence[Published]) -> None:
        self._agree("problems")
        is_whole = not any(it.unknown for it in solution)
        if not is_whole:
            self._agree("problems of whose text only the keys are read")
        keys: set[Move] = set()
        for one in solution:
            for move in self._meant(one.move, self._asked.start):
                keys.update(set() if one.is_try else {move})
                if is_whole or not one.is_try:
                    self._compare_first(one, move, is_whole)
        for move in self._keys.keys() - keys:
            self._differ("a key that isn't published", self._keys[move].text)
            self._judge(move)

    def _agree(self, kind: str, number: int = 1) -> None:
        self._found.counts[kind] += number

    def _differ(self, kind: str, text: str) -> None:
        self._found.differences.append(Difference(kind, self._name, text))

    def _meant(self, text: str, position: Position) -> list[Move]:
        """The move that a text means; none where it means none, or several."""
        moves = meant(text, position, self._battle.moves(position))
        if len(moves) != 1:
            self._differ("an illegal move" if not moves else "a vague move", text)
        return moves if len(moves) == 1 else []

    def _set(self, texts: Iterable[str], position: Position) -> set[Move]:
        return {it for text in texts for it in self._meant(text, position)}

    def _compare_first(self, one: Published, move: Move, is_whole: bool) -> None:
        own = self._own.get(move)
        before = len(self._found.differences)
        kind = "try" if one.is_try else "key"
        if own is None or (move in self._keys) == one.is_try:
            self._differ(f"a {kind} that is none", f"{one.move}; {own and _refuted(own)}")
        else:
            self._agree(kind)
        if own is not None and is_whole:
            after = self._battle.after(self._asked.start, move)
            if one.is_try:
                self._compare_refutations(one, own, after)
            self._compare_menace(one, own, after, kind)
            self._compare_replies(one, own, after)
        if len(self._found.differences) > before:
            self._judge(move)

    def _compare_refutations(self, one: Published, own: FirstMove, after: Position) -> None:
        published, ours = self._set(one.refutations, after), set(_moves(own.refutations))
        if published == ours:
            self._agree("refutations of a try")
        else:
            is_less = published < ours
            kind = f"a refutation that {'is not published' if is_less else 'is none'}"
            self._differ(kind, f"{one.move} but {' '.join(one.refutations)}; {_refuted(own)}")

    def _compare_menace(
        self, one: Published, own: FirstMove, after: Position, kind: str
    ) -> None:
        menaces = {it.value for it in one.menaces}
        ours = own.menace.value if own.menace is not None else "mate"
        if not menaces:
            is_check = own.menace is Menace.CHECK
            self._agree(f"check by a {kind}" if is_check else "menaces that aren't published")
        elif menaces != {ours}:
            self._differ("another menace", f"{one.move} {'+'.join(sorted(menaces))}; {ours}")
        elif own.menace is Menace.ZUGZWANG:
            self._agree(f"zugzwang of a {kind}")
        else:
            self._compare_threats(one, own, after, kind)

    def _compare_threats(
        self, one: Published, own: FirstMove, after: Position, kind: str
    ) -> None:
        published, ours = self._set(one.threats, after.passed), set(_moves(own.threats))
        if published == ours:
            self._agree(f"threats of a {kind}")
            self._agree("single threats", len(ours))
        else:
            is_less = published < ours
            texts = " ".join(it.move.text for it in own.threats)
            what = f"a threat that {'is not published' if is_less else 'is none'}"
            self._differ(what, f"{one.move} {' '.join(one.threats)}; {texts}")

    def _compare_replies(self, one: Published, own: FirstMove, after: Position) -> None:
        """A defence has the published mates; after another published reply all threats work."""
        ours = {_move(it.move): set(_moves(it.below)) for it in own.defences}
        threats = _moves(own.threats)
        seen: set[Move] = set()
        for replies in one.replies:
            text = f"{one.move} {'/'.join(replies.defences)} {'/'.join(replies.mates)}"
            for reply in self._set(replies.defences, after):
                seen.add(reply)
                position = self._battle.after(after, reply)
                mates = ours[reply] if reply in ours else self._mates(position)
                if reply in ours or mates.issuperset(threats):
                    self._agree("defences" if reply in ours else "replies that stop no threat")
                else:
                    self._differ("a defence that is none", text)
                self._compare_mates(self._set(replies.mates, position), mates, text)
        self._agree("defences that aren't published", len(ours.keys() - seen))

    def _mates(self, position: Position) -> set[Move]:
        moves = self._battle.moves(position)
        return {it for it in moves if self._battle.is_goal(self._battle.after(position, it))}

    def _compare_mates(self, published: set[Move], mates: set[Move], text: str) -> None:
        if published == mates:
            self._agree("replies with the same mates")
        elif published < mates:
            self._agree("replies of which some mates aren't published")
        else:
            self._differ("a mate that is none", text)

    def _judge(self, move: Move) -> None:
        """Asks the plain solver what it finds of a first move."""
        own = self._own.get(move)
        plain = PlainFirstMove(self._battle, self._asked.moves, self._asked.start, move)
        if own is None:
            agrees = not plain.is_key and not plain.is_try(_MOST)
        else:
            agrees = plain.is_key == (move in self._keys)
            agrees = agrees and plain.refutations == _moves(own.refutations)
            agrees = agrees and plain.threats == _moves(own.threats)
        if not agrees:
            shown = self._battle.shown(self._asked.start, move)
            self._found.faults.append(f"{self._name}: 1.{shown}")


def _refuted(own: FirstMove) -> str:
    return "but " + (" ".join(it.move.text for it in own.refutations) or "nothing")


def compare(program: str, problems: Sequence[Problem], found: Found) -> None:
    """Runs the program on the problems and compares."""
    text = text_of_problems([it.lines for it in problems]).encode()
    output = pops.Engine(program, True, _MOST).solve(text).result.text
    asked = Writer(text).problems()
    items = read_tries(io.BytesIO(output))
    for problem, given, item in zip(problems, given_problems(text), items):
        if isinstance(item, TriesItem):
            _, *solution = read_solution(solution_of(given.remarks))
            _Compared(problem.name, item, next(asked), found).compare(solution)
        else:
            found.left_out["with a fault"] += 1


def main() -> None:
    found = Found()
    compare(sys.argv[1], list(read_problems(map(Path, sys.argv[2:]), found)), found)
    print("\n".join(found.lines()))


if __name__ == "__main__":
    main()
