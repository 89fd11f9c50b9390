"""A slow, plain `pops-tries` for tests: the text of tries and threats of an input.

`python3 -m tests.plain_tries [--refutations N] [--check] [--no-board] [FILE]`, called in
companions/. It shares the reading of inputs with the companions, and nothing with the proved
programs. `plain_report` gives the solutions of battle play as `pops` prints them.
"""

import argparse
import sys
from collections.abc import Iterator
from dataclasses import dataclass
from pathlib import Path

from pops_companions.chess.men import Colour, Square
from pops_companions.chess.stipulation import Play
from pops_companions.explain.fault_texts import FAULT_TEXTS
from pops_companions.input.given import GivenProblem, given_problems
from pops_companions.input.pieces import Piece, cut
from pops_companions.input.reading import CASTLING_SQUARES, OPTIONS, read_piece, squares_of
from pops_companions.input.words import named
from tests.plain_battle import Battle, FirstMove, first_moves
from tests.plain_chess import EMPTY, PROMOTIONS, Move, Position, Rules, square

MOST_REFUTATIONS = 200
_ROOKS = {"a1": "R", "h1": "R", "e1": "K", "a8": "r", "h8": "r", "e8": "k"}


@dataclass(frozen=True)
class Asked:
    """A problem of battle play with its options."""

    battle: Battle
    moves: int
    start: Position
    options: frozenset[str]
    limit: int

    @property
    def is_deep(self) -> bool:
        """Whether all levels are shown."""
        return "Variation" in self.options


class Options:
    """The options of a problem by name, and the squares of NoCastling."""

    def __init__(self, given: GivenProblem):
        found: list[str] = []
        barred: list[str] = []
        for section in given.sections:
            if section.command == "Option":
                for word in section.words[1:]:
                    name = None if squares_of(word) else named(word, OPTIONS)
                    if name is not None:
                        found.append(name)
                    elif found and found[-1] == "NoCastling":
                        barred.extend(it.name for it in squares_of(word))
        self.names = frozenset(found)
        self.barred = frozenset(barred)


def _unmoved(men: str, barred: frozenset[str]) -> frozenset[int]:
    there = (it for it in CASTLING_SQUARES if men[square(it)] == _ROOKS[it])
    return frozenset(square(it) for it in there if it not in barred)


def _board(men: str) -> list[str]:
    ranks = [f"{rank} {men[8 * rank - 8 : 8 * rank]}" for rank in range(8, 0, -1)]
    return [*ranks, "  abcdefgh"]


class Writer:
    """Writes the items of an input. `refutations` is how many a try may have."""

    def __init__(self, text: bytes, is_checked: bool = False, has_boards: bool = True):
        self._text = text
        self._is_checked = is_checked
        self._has_boards = has_boards
        # (what was searched is kept for another number of refutations)
        self._items = [
            self._item(piece, given) for piece, given in zip(cut(text), given_problems(text))
        ]

    def tries(self, refutations: int) -> Iterator[str]:
        """The lines of the text of tries."""
        for head, asked in self._items:
            yield from head
            if asked is not None:
                yield from _set_play(asked)
                yield from _keys(asked)
                yield from _tries(asked, refutations)
            elif head[-1].startswith("h"):
                yield "no tries in help play"
            yield ""

    def report(self) -> Iterator[str]:
        """The lines of the report of pops; only the head of help play."""
        for head, asked in self._items:
            yield from head
            if asked is not None:
                yield from _set_play(asked)
                yield from _play(asked)
            yield ""

    def problems(self) -> Iterator[Asked]:
        """The problems of battle play that have no fault."""
        return (asked for _, asked in self._items if asked is not None)

    def _item(self, piece: Piece, given: GivenProblem) -> "tuple[list[str], Asked | None]":
        reading = read_piece(self._text, piece)
        head = [f"problem {piece.number}"]
        if reading.number is not None:
            end = self._text.count(b"\n") + 1
            line = end if reading.at is None else reading.word.line
            fault = f"fault {reading.number.value}: {FAULT_TEXTS[reading.number]}"
            return [*head, f"line {line}: {fault}"], None
        placed = {it: reading.men[it].man.letter for it in reading.men}
        men = "".join(placed.get(Square(it % 8 + 1, it // 8 + 1), EMPTY) for it in range(64))
        options = Options(given)
        assert reading.stipulation is not None
        for label, text in (("title", given.title), ("author", given.author)):
            if text is not None:
                head.append(f"{label}: {text.decode('latin-1')}")
        if self._has_boards and "NoBoard" not in options.names:
            head.extend(_board(men))
        condition = "" if reading.condition is None else f" {reading.condition.value}"
        head.append(reading.stipulation.text + condition)
        if self._is_checked:
            return [*head, "sound"], None
        if reading.stipulation.play is Play.HELP:
            return head, None
        promotions = "".join(it for it in PROMOTIONS if it in "QRBS" or it in men.upper())
        rules = Rules(reading.condition, promotions)
        crossed = None if reading.crossed is None else square(reading.crossed.name)
        start = Position(men, Colour.WHITE, _unmoved(men, options.barred), crossed)
        battle = Battle(rules, reading.stipulation.goal, reading.stipulation.play)
        limit = reading.limit or sys.maxsize
        return head, Asked(battle, reading.stipulation.moves, start, options.names, limit)


def _line(asked: Asked, position: Position, move: Move, half: int, level: int) -> str:
    number = f"{(half + 1) // 2}{'.' if half % 2 else '...'}"
    return f"{'  ' * level}{number}{asked.battle.shown(position, move)}"


def _below_white(asked: Asked, position: Position, half: int, level: int) -> Iterator[str]:
    """The nodes below a move of White: every defence."""
    if asked.battle.is_goal(position):
        return
    for reply in asked.battle.moves(position):
        yield _line(asked, position, reply, half, level)
        after = asked.battle.after(position, reply)
        yield from _below_black(asked, after, half + 1, level + 1, asked.is_deep)


def _below_black(
    asked: Asked, position: Position, half: int, level: int, deep: bool
) -> Iterator[str]:
    """The nodes below a move of Black: the best continuations."""
    if asked.battle.is_goal(position):
        return
    for move in asked.battle.best_moves(asked.moves, position):
        yield _line(asked, position, move, half, level)
        if deep:
            after = asked.battle.after(position, move)
            yield from _below_white(asked, after, half + 1, level + 1)


def _total(count: int, limit: int) -> str:
    return f"solutions: {count}{', stopped' if count == limit else ''}"


def _set_play(asked: Asked) -> Iterator[str]:
    if "SetPlay" not in asked.options:
        return
    yield "set"
    start = asked.start.passed
    if asked.battle.is_check(asked.start):
        yield "not possible"
        return
    replies = asked.battle.moves(start)
    provided = [it for it in replies if asked.battle.is_met(asked.moves, start, it)]
    if asked.battle.form is Play.DIRECT and asked.moves == 1:
        provided = []
    for reply in provided[: asked.limit]:
        yield _line(asked, start, reply, 2, 0)
        yield from _below_black(asked, asked.battle.after(start, reply), 3, 1, asked.is_deep)
    yield _total(min(len(provided), asked.limit), asked.limit)


def _first_moves(asked: Asked) -> list[FirstMove]:
    return first_moves(asked.battle, asked.moves, asked.start)


def _play(asked: Asked) -> Iterator[str]:
    """The play as pops shows it."""
    yield "play"
    keys = [it for it in _first_moves(asked) if it.is_key][: asked.limit]
    for key in keys:
        yield _line(asked, key.start, key.move, 1, 0)
        if asked.is_deep:
            yield from _below_white(asked, key.after, 2, 1)
    yield _total(len(keys), asked.limit)


def _keys(asked: Asked) -> Iterator[str]:
    yield "play"
    keys = [it for it in _first_moves(asked) if it.is_key][: asked.limit]
    for key in keys:
        yield _line(asked, key.start, key.move, 1, 0) + "!"
        yield from _below_first(asked, key)
    yield _total(len(keys), asked.limit)


def _tries(asked: Asked, refutations: int) -> Iterator[str]:
    yield "tries"
    tries = [it for it in _first_moves(asked) if it.is_try(refutations)]
    for one in tries:
        yield _line(asked, one.start, one.move, 1, 0) + "?"
        yield from _below_first(asked, one)
        yield "  but"
        if one.is_stalemate:
            yield "    stalemate"
        for reply in one.refutations:
            yield _line(asked, one.after, reply, 2, 2) + "!"
    yield f"tries: {len(tries)}"


def _below_first(asked: Asked, one: FirstMove) -> Iterator[str]:
    """What is below a first move: check, threats or zugzwang; then the defences that it meets."""
    if not one.has_reply:
        return
    threats = one.threats
    if asked.battle.is_check(one.after):
        yield "  check"
    else:
        yield "  threat" if threats else "  zugzwang"
    for move in threats:
        yield _line(asked, one.after.passed, move, 3, 2)
        if asked.is_deep:
            after = asked.battle.after(one.after.passed, move)
            yield from _below_white(asked, after, 4, 3)
    refutations = one.refutations
    for reply in one.defences:
        if reply not in refutations:
            yield _line(asked, one.after, reply, 2, 1)
            after = asked.battle.after(one.after, reply)
            yield from _below_black(asked, after, 3, 2, asked.is_deep)


def plain_tries(text: bytes, refutations: int = 1) -> bytes:
    """The text of tries of an input."""
    return _joined(Writer(text).tries(refutations))


def plain_report(text: bytes) -> bytes:
    """The report of an input of battle play."""
    return _joined(Writer(text).report())


def _joined(lines: Iterator[str]) -> bytes:
    return "".join(f"{line}\n" for line in lines).encode("latin-1")


def main() -> int:
    parser = argparse.ArgumentParser(prog="plain_tries", description=__doc__)
    parser.add_argument("--refutations", type=int, default=1)
    parser.add_argument("--check", action="store_true")
    parser.add_argument("--no-board", action="store_true")
    parser.add_argument("file", nargs="?")
    words = parser.parse_args()
    text = sys.stdin.buffer.read() if words.file is None else Path(words.file).read_bytes()
    writer = Writer(text, words.check, not words.no_board)
    written = _joined(writer.tries(words.refutations))
    sys.stdout.buffer.write(written)
    return 1 if b": fault " in written else 0


if __name__ == "__main__":
    sys.exit(main())
