"""Battle play for tests, by the definitions of keys, tries, refutations, threats and defences.

Direct play and selfmates alike: White, to move, wins within n moves. All of it is searched in full
and kept, so that it is for small problems only.
"""

from collections.abc import Iterable
from dataclasses import dataclass, field
from functools import cached_property

from pops_companions.chess.men import Colour
from pops_companions.chess.stipulation import Goal, Play
from tests.plain_chess import (
    Move,
    Position,
    Rules,
    in_check,
    is_mate,
    is_stalemate,
    legal_moves,
    move_text,
    play,
)


@dataclass(frozen=True)
class Battle:
    """The play of a problem: its rules, its goal, and which side reaches it."""

    rules: Rules
    goal: Goal
    form: Play
    _won: dict[tuple[int, Position], bool] = field(default_factory=dict, compare=False)

    def moves(self, position: Position) -> tuple[Move, ...]:
        return legal_moves(self.rules, position)

    def after(self, position: Position, move: Move) -> Position:
        return play(self.rules, position, move).position

    def is_goal(self, position: Position) -> bool:
        """Whether the side to move is mated, or stalemated."""
        is_reached = is_mate if self.goal is Goal.MATE else is_stalemate
        return is_reached(self.rules, position)

    def is_check(self, position: Position) -> bool:
        return in_check(self.rules, position.men, position.turn)

    def shown(self, position: Position, move: Move) -> str:
        """A move with its mark: stalemate is marked only where it is the goal."""
        after = self.after(position, move)
        mark = "+" if self.is_check(after) else ""
        if is_mate(self.rules, after):
            mark = "#"
        elif self.goal is Goal.STALEMATE and is_stalemate(self.rules, after):
            mark = "="
        return move_text(self.rules, position, move) + mark

    def wins(self, moves: int, position: Position) -> bool:
        """Whether White, to move, wins within this number of moves."""
        if moves == 0:
            return False
        key = (moves, position)
        if key not in self._won:
            self._won[key] = any(
                self.keeps_win(moves, self.after(position, it)) for it in self.moves(position)
            )
        return self._won[key]

    def keeps_win(self, moves: int, position: Position) -> bool:
        """Whether White wins after his first move of this number, which led here."""
        if self.form is Play.DIRECT and (moves == 1 or self.is_goal(position)):
            return self.is_goal(position)
        replies = self.moves(position)
        return bool(replies) and all(self.is_met(moves, position, it) for it in replies)

    def refutations(self, moves: int, position: Position) -> list[Move]:
        """The replies to White's first move of this number that he doesn't win against."""
        return [it for it in self.moves(position) if not self.is_met(moves, position, it)]

    def is_met(self, moves: int, position: Position, reply: Move) -> bool:
        """Whether White wins after a reply, which is Black's forced goal in a selfmate."""
        after = self.after(position, reply)
        if self.form is Play.SELF and self.is_goal(after):
            return True
        return self.wins(moves - 1, after)

    def least(self, moves: int, position: Position) -> int:
        """The least number of moves within which White wins, one more than `moves` if he doesn't."""
        return next((k for k in range(moves + 1) if self.wins(k, position)), moves + 1)

    def best_moves(self, moves: int, position: Position) -> list[Move]:
        """White's moves that win in the least number of moves; none where he doesn't win."""
        least = self.least(moves, position)
        if least > moves:
            return []
        legal = self.moves(position)
        return [it for it in legal if self.keeps_win(least, self.after(position, it))]


@dataclass(frozen=True)
class FirstMove:
    """A first move of White in a problem of `moves` moves."""

    battle: Battle
    moves: int
    start: Position
    move: Move

    @cached_property
    def after(self) -> Position:
        return self.battle.after(self.start, self.move)

    @property
    def has_reply(self) -> bool:
        return bool(self.battle.moves(self.after))

    @property
    def is_stalemate(self) -> bool:
        """Stalemate refutes in a direct mate, and only there."""
        is_direct_mate = self.battle.form is Play.DIRECT and self.battle.goal is Goal.MATE
        return is_direct_mate and is_stalemate(self.battle.rules, self.after)

    @property
    def is_key(self) -> bool:
        return self.battle.keeps_win(self.moves, self.after)

    @cached_property
    def refutations(self) -> list[Move]:
        return self.battle.refutations(self.moves, self.after)

    def is_try(self, most: int) -> bool:
        """No key, but refuted by stalemate, or by one reply at least and at most this many."""
        number = 1 if self.is_stalemate else len(self.refutations)
        return not self.is_key and 1 <= number <= most

    @cached_property
    def threats(self) -> list[Move]:
        """The best moves if Black could pass; none where he is in check or wouldn't lose."""
        if self.battle.is_check(self.after):
            return []
        return self.battle.best_moves(self.moves - 1, self.after.passed)

    @property
    def defences(self) -> list[Move]:
        """The replies that stop a threat: it becomes illegal, or no longer wins in its length.

        Without threats, all replies.
        """
        threats = self.threats
        replies = list(self.battle.moves(self.after))
        if not threats:
            return replies
        length = self.battle.least(self.moves - 1, self.after.passed)
        return [it for it in replies if not self._all_work(threats, length, it)]

    def _all_work(self, threats: Iterable[Move], length: int, reply: Move) -> bool:
        """Whether each threat still wins in this length after a reply."""
        position = self.battle.after(self.after, reply)
        legal = self.battle.moves(position)
        return all(
            it in legal and self.battle.keeps_win(length, self.battle.after(position, it))
            for it in threats
        )


def first_moves(battle: Battle, moves: int, start: Position) -> list[FirstMove]:
    """All legal first moves, in order."""
    assert start.turn is Colour.WHITE
    return [FirstMove(battle, moves, start, it) for it in battle.moves(start)]
