"""Makes the text of pops-tries of published solutions, which have to be complete.

`python3 -m tests.published_tries FILE [N]`, called in companions/, writes the text of an input
whose problems have their published solutions in lines `Remark solution:`, as pops-import writes
them.

The rules of chess say how a move is written and ordered; all else comes from the published text:
which moves are keys and tries, threats, refutations, defences and continuations. A published reply
after which all published threats are played isn't a defence.
"""

import sys
from collections.abc import Iterable, Iterator
from pathlib import Path

from pops_companions.input.given import given_problems
from tests.plain_chess import Move, Position
from tests.plain_tries import Asked, Writer
from tests.published_moves import meant
from tests.published_text import Menace, Published, read_solution

_SOLUTION = b"solution:"
Below = list[tuple[Move, list[Move]]]


class VagueError(ValueError):
    """A published move that is none, or one of several."""


def solution_of(remarks: Iterable[bytes]) -> str:
    """The published solution among the remarks of a problem."""
    texts = (it.removeprefix(_SOLUTION) for it in remarks if it.startswith(_SOLUTION))
    return b"\n".join(texts).decode()


class Converted:
    """A published solution as the text of pops-tries, with tries of this many refutations."""

    def __init__(self, asked: Asked, solution: str, refutations: int):
        self._asked = asked
        self._set_play, *first_moves = read_solution(solution)
        moves = sorted(
            ((self._move(asked.start, it.move), it) for it in first_moves), key=lambda it: it[0]
        )
        tries = [it for it in moves if it[1].is_try]
        self._keys = [it for it in moves if not it[1].is_try]
        self._tries = [it for it in tries if len(it[1].refutations) <= refutations]

    def lines(self) -> Iterator[str]:
        if "SetPlay" in self._asked.options:
            start = self._asked.start.passed
            replies = self._replies(self._set_play, start)
            yield "set"
            yield from self._shown_replies(start, replies, 0)
            yield f"solutions: {len(replies)}"
        yield "play"
        for move, one in self._keys:
            yield f"1.{self._shown(self._asked.start, move)}!"
            yield from self._below(self._after(self._asked.start, move), one)
        yield f"solutions: {len(self._keys)}"
        yield "tries"
        for move, one in self._tries:
            after = self._after(self._asked.start, move)
            yield f"1.{self._shown(self._asked.start, move)}?"
            yield from self._below(after, one)
            yield "  but"
            for reply in self._moves(after, one.refutations):
                yield f"    1...{self._shown(after, reply)}!"
        yield f"tries: {len(self._tries)}"

    def _below(self, after: Position, one: Published) -> Iterator[str]:
        """Check, zugzwang or threats, then the defences."""
        threats = self._moves(after.passed, one.threats)
        if Menace.ZUGZWANG in one.menaces:
            yield "  zugzwang"
        else:
            yield "  threat" if threats else "  check"
        for threat in threats:
            yield f"    2.{self._shown(after.passed, threat)}"
        replies = self._replies(one, after)
        defences = [it for it in replies if not threats or set(threats) - set(it[1])]
        yield from self._shown_replies(after, defences, 1)

    def _replies(self, one: Published, position: Position) -> Below:
        found: dict[Move, list[Move]] = {}
        for replies in one.replies:
            for text in replies.defences:
                reply = self._move(position, text)
                found[reply] = self._moves(self._after(position, reply), replies.mates)
        return sorted(found.items())

    def _shown_replies(self, position: Position, replies: Below, level: int) -> Iterator[str]:
        for reply, mates in replies:
            after = self._after(position, reply)
            yield f"{'  ' * level}1...{self._shown(position, reply)}"
            yield from (f"{'  ' * level}  2.{self._shown(after, it)}" for it in mates)

    def _moves(self, position: Position, texts: Iterable[str]) -> list[Move]:
        return sorted({self._move(position, it) for it in texts})

    def _move(self, position: Position, text: str) -> Move:
        found = meant(text, position, self._asked.battle.moves(position))
        if len(found) != 1:
            raise VagueError(text)
        return found[0]

    def _after(self, position: Position, move: Move) -> Position:
        return self._asked.battle.after(position, move)

    def _shown(self, position: Position, move: Move) -> str:
        return self._asked.battle.shown(position, move)


def published_tries(text: bytes, refutations: int = 1) -> bytes:
    """The text of tries of an input of battle play without faults, by its published solutions."""
    lines: list[str] = []
    heads = iter(Writer(text, is_checked=True).tries(0))
    for given, asked in zip(given_problems(text), Writer(text).problems()):
        lines += iter(heads.__next__, "sound")
        next(heads)
        lines += [*Converted(asked, solution_of(given.remarks), refutations).lines(), ""]
    return "".join(f"{it}\n" for it in lines).encode("latin-1")


if __name__ == "__main__":
    most = int((*sys.argv, "1")[2])
    sys.stdout.buffer.write(published_tries(Path(sys.argv[1]).read_bytes(), most))
