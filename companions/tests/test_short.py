"""Short notation beside the plain chess of the tests: positions after moves, ambiguous moves."""

import random
import unittest
from collections import Counter
from collections.abc import Iterator

from pops_companions.chess.attacks import Men
from pops_companions.chess.men import Colour, Kind, Man, Square
from pops_companions.chess.stipulation import Condition
from pops_companions.report.moves import PlayedMove, read_move
from pops_companions.sheet.boards import after
from pops_companions.sheet.languages import LANGUAGES, marked_as
from pops_companions.sheet.short import short
from tests.made_battles import made_text
from tests.plain_chess import EMPTY, Position, Rules, in_check, legal_moves, move_text, play
from tests.plain_tries import Writer


def men_of(position: Position) -> Men:
    squares = {it: Square(it % 8 + 1, it // 8 + 1) for it in range(64)}
    men = enumerate(position.men)
    return {squares[place]: Man.of_letter(letter) for place, letter in men if letter != EMPTY}


def positions(seed: int, number: int) -> Iterator[tuple[Rules, Position]]:
    """The first positions of made problems, and those after each legal move."""
    for asked in Writer(made_text(seed, number)).problems():
        rules = asked.battle.rules
        for start in (asked.start, asked.start.passed):
            yield rules, start
            for move in legal_moves(rules, start):
                yield rules, play(rules, start, move).position


def crowded(number: int) -> Iterator[tuple[Rules, Position]]:
    """Positions with several men of each kind, under each condition in turn."""
    chance = random.Random(43)
    while number:
        board = [EMPTY] * 64
        for place, man in zip(chance.sample(range(64), 18), "KQQRRRBBSSSGGNNkrq"):
            board[place] = man
        rules = Rules(chance.choice([None, *Condition]))
        position = Position("".join(board), Colour.WHITE)
        if not in_check(rules, position.men, Colour.BLACK):
            number -= 1
            yield rules, position


def played(rules: Rules, position: Position) -> Iterator[tuple[PlayedMove, Position]]:
    """The legal moves as a report's reader has them, each with the position after it."""
    half = 1 if position.turn is Colour.WHITE else 2
    for move in legal_moves(rules, position):
        found = read_move(move_text(rules, position, move), 0, half, position.turn)
        assert found is not None
        yield found[0], play(rules, position, move).position


class Short(unittest.TestCase):
    def test_men_after_each_move(self) -> None:
        for rules, position in positions(41, 12):
            men = men_of(position)
            for move, following in played(rules, position):
                self.assertEqual(after(men, move), men_of(following), (position, move.text))

    def test_each_legal_move_has_its_own_text(self) -> None:
        """And no more of the square than is needed: without it another legal move has that text."""
        marks = marked_as(LANGUAGES["en"], {})
        tried = 0
        for rules, position in crowded(60):
            men = men_of(position)
            moves = [move for move, _ in played(rules, position)]
            texts = [short(men, move, rules.condition).translate(marks) for move in moves]
            self.assertEqual(max(Counter(texts).values(), default=1), 1, (position, texts))
            ends = Counter((move.kind, move.arrival) for move in moves if move.castling is None)
            for move, text in zip(moves, texts):
                if move.kind is not Kind.PAWN and move.castling is None:
                    whole = text.split("[")[0].replace("x", "")
                    is_told_apart = len(whole) > 1 + len(move.arrival.name)
                    self.assertEqual(is_told_apart, ends[move.kind, move.arrival] > 1, text)
                    tried += is_told_apart
        self.assertGreater(tried, 400)
