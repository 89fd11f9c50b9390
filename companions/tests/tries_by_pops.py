"""The text of tries made from reports of `pops`: for problems too large for the plain solver.

`python3 -m tests.tries_by_pops POPS FILE [N]`, called in companions/, writes the text of an input
without fairy men. The plain rules of chess give the first moves, the replies and what is check;
`pops` says which positions after them White wins, and his shortest continuations.
"""

import re
import subprocess
import sys
from collections.abc import Iterator, Sequence
from pathlib import Path
from typing import NamedTuple

from pops_companions.chess.men import Colour, Man, Square
from pops_companions.chess.stipulation import Goal, Play
from pops_companions.input.reading import CASTLING_SQUARES
from pops_companions.input.writing import pieces_line, text_of_problems
from tests.plain_chess import EMPTY, Move, Position, name_of
from tests.plain_tries import Asked, Writer

# How many problems one call of `pops` is given.
_AT_ONCE = 500
_NODE = re.compile(r"( *)(\d+)(\.+)(.*)")
_SQUARES = re.compile(r"([a-h][1-8])[-*]([a-h][1-8])(?: ep\.)?(?:=(\w))?")


class Answer(NamedTuple):
    """What `pops` shows of a position: lines of the play; within how many moves, 0 if none."""

    moves: int
    lines: Sequence[str]

    @property
    def firsts(self) -> list[str]:
        """The first moves, by their squares and what a pawn becomes."""
        return [_squares(it) for it in self.lines if not it.startswith(" ")]

    def shown(self) -> Iterator[str]:
        """The lines two levels further below, their numbers one higher."""
        for line in self.lines:
            found = _NODE.fullmatch(line)
            assert found is not None, line
            yield f"    {found[1]}{int(found[2]) + 1}{found[3]}{found[4]}"


def _squares(line: str) -> str:
    found = _SQUARES.search(line)
    if found is None:
        return "0-0-0" if "0-0-0" in line else "0-0"
    return found[1] + found[2] + (found[3] or "")


class Asker:
    """Asks `pops` about positions of a problem."""

    def __init__(self, pops: str, asked: Asked):
        self._pops = pops
        self._asked = asked

    def wins(self, moves: int, positions: Sequence[Position]) -> list[bool]:
        """Whether White, to move, wins within this number of moves."""
        if moves == 0:
            return [False] * len(positions)
        return [bool(it) for it in self._play(moves, positions, ["MaxSolutions 1"])]

    def shortest(self, moves: int, positions: Sequence[Position]) -> list[Answer]:
        """White's shortest ways to win within this number of moves."""
        options = ["Variation"] if self._asked.is_deep else []
        found = [Answer(0, ())] * len(positions)
        for length in range(1, moves + 1):
            left = [place for place, it in enumerate(found) if it.moves == 0]
            plays = self._play(length, [positions[it] for it in left], options)
            for place, lines in zip(left, plays):
                if lines:
                    found[place] = Answer(length, lines)
        return found

    def winning(self, moves: int, positions: Sequence[Position]) -> list[Answer]:
        """All first moves that win within this number of moves."""
        return [Answer(moves, it) for it in self._play(moves, positions, [])]

    def _play(
        self, moves: int, positions: Sequence[Position], options: list[str]
    ) -> Iterator[list[str]]:
        for start in range(0, len(positions), _AT_ONCE):
            few = positions[start : start + _AT_ONCE]
            text = text_of_problems([self._posed(moves, it, options) for it in few]).encode()
            done = subprocess.run([self._pops], input=text, capture_output=True, check=True)
            items = done.stdout.decode().split("\n\n")[:-1]
            assert len(items) == len(few)
            for item in items:
                yield item.split("\nplay\n")[1].split("\n")[:-1]

    def _posed(self, moves: int, position: Position, options: list[str]) -> list[str]:
        assert position.turn is Colour.WHITE
        battle = self._asked.battle
        men = {
            Square(place % 8 + 1, place // 8 + 1): Man.of_letter(man)
            for place, man in enumerate(position.men)
            if man != EMPTY
        }
        form = "s" if battle.form is Play.SELF else ""
        goal = "#" if battle.goal is Goal.MATE else "="
        given = ["NoBoard", *options]
        if position.crossed is not None:
            given.append(f"EnPassant {name_of(position.crossed)}")
        unmoved = {name_of(it) for it in position.unmoved}
        barred = [it for it in CASTLING_SQUARES if it not in unmoved]
        given += [f"NoCastling {' '.join(barred)}"] if barred else []
        lines = [pieces_line(men), f"Stipulation {form}{goal}{moves}"]
        condition = battle.rules.condition
        lines += [] if condition is None else [f"Condition {condition.value}"]
        return [*lines, "Option " + " ".join(given)]


class First:
    """A first move, its replies, and which of them White wins against."""

    def __init__(self, asker: Asker, asked: Asked, move: Move):
        self._asker = asker
        self._asked = asked
        battle = asked.battle
        self.move = move
        self.after = battle.after(asked.start, move)
        self.is_over = battle.form is Play.DIRECT and battle.is_goal(self.after)
        self.replies = battle.moves(self.after)
        is_direct_mate = battle.form is Play.DIRECT and battle.goal is Goal.MATE
        self.is_stalemate = is_direct_mate and not self.replies and not self.is_over
        self.met = self._met()

    @property
    def is_key(self) -> bool:
        if self._asked.battle.form is Play.DIRECT and (self._asked.moves == 1 or self.is_over):
            return self.is_over
        return bool(self.replies) and all(self.met)

    @property
    def number(self) -> int:
        """How many refutations a move has that is no key; stalemate is one."""
        return 1 if self.is_stalemate else len(self.refutations)

    @property
    def refutations(self) -> list[Move]:
        return [reply for reply, is_met in zip(self.replies, self.met) if not is_met]

    def _met(self) -> list[bool]:
        battle = self._asked.battle
        positions = [battle.after(self.after, it) for it in self.replies]
        is_self = battle.form is Play.SELF
        over = [is_self and battle.is_goal(it) for it in positions]
        left = [it for it, is_over in zip(positions, over) if not is_over]
        won = iter(self._asker.wins(self._asked.moves - 1, left))
        return [is_over or next(won) for is_over in over]

    def below(self) -> Iterator[str]:
        """The lines below it, down to its refutations."""
        if not self.replies:
            return
        battle, asker, most = self._asked.battle, self._asker, self._asked.moves - 1
        threats = Answer(0, ())
        if battle.is_check(self.after):
            yield "  check"
        else:
            (threats,) = asker.shortest(most, [self.after.passed])
            yield "  threat" if threats.moves else "  zugzwang"
        yield from threats.shown()
        replies = [reply for reply, is_met in zip(self.replies, self.met) if is_met]
        positions = [battle.after(self.after, it) for it in replies]
        if threats.moves:
            keeping = asker.winning(threats.moves, positions)
            # (a reply that reaches the goal ends a selfmate: nothing works after it)
            stops = [not {*threats.firsts} <= {*it.firsts} for it in keeping]
            replies = [reply for reply, it in zip(replies, stops) if it]
            positions = [position for position, it in zip(positions, stops) if it]
        over = [battle.form is Play.SELF and battle.is_goal(it) for it in positions]
        left = [position for position, is_over in zip(positions, over) if not is_over]
        answers = iter(asker.shortest(most, left))
        for reply, is_over in zip(replies, over):
            yield f"  1...{battle.shown(self.after, reply)}"
            if not is_over:
                yield from next(answers).shown()


def tries_by_pops(pops: str, text: bytes, most: int) -> bytes:
    """The text of tries of an input of one sound problem of battle play, by reports of `pops`."""
    (asked,) = Writer(text).problems()
    battle = asked.battle
    asker = Asker(pops, asked)
    report = subprocess.run([pops], input=text, capture_output=True, check=True).stdout.decode()
    # Head and set play come from pops; its keys have to be found again.
    before, play = report.split("play\n")
    firsts = [First(asker, asked, it) for it in battle.moves(asked.start)]
    keys = [it for it in firsts if it.is_key][: asked.limit]
    told = [it for it in play.split("\n") if it.startswith("1.")]
    assert [f"1.{battle.shown(asked.start, it.move)}" for it in keys] == told, (told, keys)
    lines = [*before.split("\n")[:-1], "play"]
    for key in keys:
        lines += [f"1.{battle.shown(asked.start, key.move)}!", *key.below()]
    lines += [f"solutions: {len(keys)}{', stopped' * (len(keys) == asked.limit)}", "tries"]
    tries = [it for it in firsts if not it.is_key and 1 <= it.number <= most]
    for one in tries:
        lines += [f"1.{battle.shown(asked.start, one.move)}?", *one.below(), "  but"]
        lines += ["    stalemate"] * one.is_stalemate
        lines += [f"    1...{battle.shown(one.after, it)}!" for it in one.refutations]
    return "".join(f"{it}\n" for it in [*lines, f"tries: {len(tries)}", ""]).encode()


if __name__ == "__main__":
    sys.stdout.buffer.write(
        tries_by_pops(sys.argv[1], Path(sys.argv[2]).read_bytes(), int((*sys.argv, "1")[3]))
    )
