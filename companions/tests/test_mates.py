"""Pure, model and ideal mates and echoes, worked out by hand."""

import random
import unittest
from collections import Counter
from collections.abc import Iterator
from unittest import mock

from pops_companions.chess.attacks import attackers
from pops_companions.chess.men import Colour, Kind, Man, Square
from pops_companions.input.writing import men_in
from pops_companions.report.items import Board, HelpLine, SoundItem
from pops_companions.report.reader import read_report
from pops_companions.review.mates import Mate, Men, keywords_of, mate_of, mates_in, mates_of, men_of
from tests import run_here, support


def men(text: str) -> Men:
    return men_of(Board.of_men(dict(men_in(text))).letters)


def mate(text: str) -> Mate:
    found = mate_of(men(text))
    assert found is not None
    return found


def plain_name(board: dict[Square, Man], king: Square) -> str:
    """The name of a mate, by looking at each square beside the king for itself."""
    others = {square: man for square, man in board.items() if square != king}
    checks = attackers(others, king, Colour.WHITE, False)
    taking_part = set(checks)
    if len(checks) != 1:
        return ""
    for square in Square.of_diagram():
        if square == king or max(abs(square.file - king.file), abs(square.rank - king.rank)) > 1:
            continue
        guards = attackers(others, square, Colour.WHITE, False)
        is_blocked = square in others and others[square].colour is Colour.BLACK
        if len(guards) != (0 if is_blocked else 1):
            return ""
        taking_part.update([square] if is_blocked else guards)
    idle = [man for square, man in others.items() if square not in taking_part]
    if not idle:
        return "ideal"
    officers = (Kind.QUEEN, Kind.ROOK, Kind.BISHOP, Kind.KNIGHT)
    is_model = not any(it.colour is Colour.WHITE and it.kind in officers for it in idle)
    return "model" if is_model else "pure"


class Mates(unittest.TestCase):
    def test_a_position_is_looked_at_once(self) -> None:
        """However many lines end in it."""
        text = b"BeginProblem Pieces White Kc3 Ra1 Black Kb8 Stipulation h#3.5 EndProblem"
        (item,) = read_report([support.run([support.pops()], text).output])
        assert isinstance(item, SoundItem) and item.phases and item.board
        lines = [it for it in item.phases[0].solutions if isinstance(it, HelpLine)]
        with mock.patch("pops_companions.review.mates.mate_of", wraps=mate_of) as looked:
            mates = list(mates_of(men_of(item.board.letters), lines))
        self.assertEqual(len(mates), len(lines))
        positions = [frozenset(call.args[0].items()) for call in looked.call_args_list]
        self.assertEqual(len(set(positions)), len(positions))
        self.assertLess(len(positions), len(lines))

    def test_names(self) -> None:
        for text, wanted in (
            # The king guards a7 and b7, the rook b8 and, through the king, gives check.
            ("White Kb6 Rh8 Black Ka8", "ideal"),
            # A pawn and black men may be idle in a model mate, a white officer may not.
            ("White Kb6 Rh8 Ph2 Black Ka8", "model"),
            ("White Kb6 Rh8 Black Ka8 Sh3", "model"),
            ("White Kb6 Rh8 Sh1 Black Ka8", "pure"),
            # The second rook guards a7 and b7 as the king does.
            ("White Kb6 Rh8 Rh7 Black Ka8", ""),
            # Black's own pawn blocks a7, the king guards b7 and b8, the knight gives check.
            ("White Kc7 Sb6 Black Ka8 Pa7", "ideal"),
            # The bishop guards a7, which the pawn blocks.
            ("White Kc7 Sb6 Bg1 Black Ka8 Pa7", "pure"),
            ("White Kc7 Sb6 Bd4 Black Ka8 Pa7", "pure"),
            # Two men give check.
            ("White Kb6 Rh8 Bd5 Black Ka8", ""),
        ):
            with self.subTest(text):
                self.assertEqual(mate(text).name, wanted)

    def test_names_of_many_positions(self) -> None:
        """They are what a look at each square says; many positions are near to mates."""
        chance = random.Random(8)
        seen: Counter[str] = Counter()
        for _ in range(4000):
            places = [it for it in range(64) if it // 8 < 4 and it % 8 < 4] + [63, 7, 56]
            chance.shuffle(places)
            letters = ["."] * 64
            letters[chance.choice([0, 1, 10])] = "k"
            for letter in "K" + "".join(chance.choices("QRBSPpprbs", k=chance.randint(1, 6))):
                place = places.pop()
                if letters[place] == ".":
                    letters[place] = letter
            board = Board.of_letters("".join(letters))
            (king,) = [it for it, man in board.men.items() if man == Man(Colour.BLACK, Kind.KING)]
            found = mate_of(men_of(board.letters))
            assert found is not None
            self.assertEqual(found.name, plain_name(board.men, king), board)
            seen[found.name] += 1
        self.assertTrue(all(seen[name] > 4 for name in ("ideal", "model", "pure", "")), seen)

    def test_a_line_of_other_men_has_no_mate(self) -> None:
        """Where a move has no man, or a castling no rook."""
        for men_text, line in (
            ("White Ke1 Rh1 Black Ka8", b"1.Ka8-a7 0-0-0#"),
            ("White Ke1 Black Ka8", b"1.Ka8-a7 0-0#"),
            ("White Ke1 Rh1 Black Ka8", b"1.Kb8-b7 0-0#"),
        ):
            board = Board.of_men(dict(men_in(men_text)))
            # (a report with its board is refused when it is read)
            (item,) = read_report([b"problem 1\nh#1\nplay\n" + line + b"\nsolutions: 1\n\n"])
            assert isinstance(item, SoundItem)
            with self.subTest(line):
                self.assertEqual(mates_in(item, board.letters), [])

    def test_no_names_with_fairy_men(self) -> None:
        self.assertIsNone(mate_of(men("White Kb6 Rh8 Gh1 Black Ka8")))
        self.assertIsNone(mate_of(men("White Kb6 Rh8")))

    def test_none_is_looked_at_after_one_that_is_not_pure(self) -> None:
        seen: list[str] = []

        def found() -> Iterator[Mate]:
            for text in ("White Kb6 Rh8 Black Ka8", "White Kb6 Rh8 Rh7 Black Ka8", "White Kg6 Ra8 Black Kh8"):
                seen.append(text)
                yield mate(text)

        self.assertEqual(keywords_of(found()), [])
        self.assertEqual(len(seen), 2)

    def test_keywords(self) -> None:
        left, right, up = (
            mate("White Kb6 Rh8 Black Ka8"),
            mate("White Kg6 Ra8 Black Kh8"),
            mate("White Kc7 Sb6 Black Ka8 Pa7"),
        )
        one = mate("White Kc6 Rf8 Black Kc8")
        shifted = mate("White Ke6 Rh8 Black Ke8")
        model = mate("White Kb6 Rh8 Ph2 Black Ka8")
        cases: list[tuple[list[Mate], list[str]]] = [
            ([], []),
            ([left], ["ideal mates"]),
            ([left, up], ["ideal mates"]),
            ([left, model], ["model mates"]),
            # Mirrored; a8 is light, h8 dark.
            ([left, right], ["ideal mates", "chameleon echo"]),
            # A mate that comes again is no echo, a shifted one is: c8 and e8 are both light.
            ([left, left], ["ideal mates"]),
            ([one, shifted], ["ideal mates", "echo"]),
            ([mate("White Kb6 Rh8 Rh7 Black Ka8")], []),
        ]
        for mates, wanted in cases:
            self.assertEqual(keywords_of(mates), wanted)


class Programs(support.InRoom):
    """pops-test says what the mates are, and pops-find finds them as keywords."""

    def setUp(self) -> None:
        super().setUp()
        self.text = self.room / "some.pop"
        problem = "Pieces White Kg6 Ra1 Black Kh8\nStipulation h#1\n"
        self.text.write_text(
            f"BeginProblem\nOrigin Die Schwalbe, August 1977\nRemark keywords: Letztform\n{problem}"
            f"NextProblem\nOrigin Шахматы 1860\n{problem.replace('Ra1', 'Ra1 Sb1')}EndProblem\n",
            "utf-8",
        )
        self.report = self.room / "some.report"
        self.report.write_bytes(support.run([support.pops(), str(self.text)]).output)

    def test_pops_test(self) -> None:
        """1.Kg8 Ra8: king and rook guard each square once; the knight on b1 is idle."""
        told = run_here.companion("pops-test", str(self.report)).output.decode()
        self.assertEqual(told.count("all mates: "), 2)
        self.assertIn("  all mates: ideal mates\n", told.split("problem 2")[0])
        self.assertIn("  all mates: pure mates\n", told.split("problem 2")[1])

    def numbers(self, *words: str) -> list[str]:
        told = run_here.companion("pops-find", str(self.room / "some.db"), *words)
        lines = told.output.decode().splitlines()
        return [line.split("problem ")[1][0] for line in lines if ".pop, problem " in line]

    def test_pops_find(self) -> None:
        words = ("--add", str(self.text), "--report", str(self.report))
        added = run_here.companion("pops-find", str(self.room / "some.db"), *words)
        self.assertEqual((added.status, added.error), (0, ""))
        for asked, wanted in (
            (("--keyword", "ideal"), ["1"]),
            # Problem 1 has only ideal mates, which are model mates and pure.
            (("--keyword", "Model"), ["1"]),
            (("--keyword", "pure mates"), ["1", "2"]),
            (("--keyword", "echo"), []),
            (("--keyword", "mates"), ["1", "2"]),
            (("--keyword", "letztform"), ["1"]),
            (("--source", "schwalbe"), ["1"]),
            (("--source", "1860"), ["2"]),
            (("--source", "шахматы"), ["2"]),
            (("--date", "1977"), ["1"]),
            (("--date", "1977-08"), ["1"]),
            (("--date", "8/1977"), ["1"]),
            (("--date", "1977-09"), []),
            (("--date", "1860..1977"), ["1", "2"]),
            (("--date", "1861..1977-07"), []),
            (("--date", "1850..August 1899", "--source", "ШАХ"), ["2"]),
        ):
            with self.subTest(asked):
                self.assertEqual(self.numbers(*asked), wanted)
        for date in ("soon", "1860-1977", "about 1860", "1860..1977..1978"):
            wrong = run_here.companion("pops-find", str(self.room / "some.db"), "--date", date)
            self.assertEqual(wrong.status, 2)

    def test_a_fragment(self) -> None:
        """Anywhere on the board, mirrored, turned or with colours reversed, also with other men."""
        run_here.companion("pops-find", str(self.room / "some.db"), "--add", str(self.text))
        for men_asked, wanted in (
            ("White Kg6 Black Kh8", ["1", "2"]),
            ("White Sb1 Black Kh8", ["2"]),
            # One down and one to the left; mirrored left to right; colours reversed.
            ("White Kf5 Black Kg7", ["1", "2"]),
            ("White Kb6 Black Ka8", ["1", "2"]),
            ("White Kh8 Black Kg6", ["1", "2"]),
            ("White Kg5 Black Kh8", []),
        ):
            with self.subTest(men_asked):
                self.assertEqual(self.numbers("--fragment", men_asked), wanted)
        words = ("--fragment", "White Kb6 Black Ka8", "--count", "2+1")
        self.assertEqual(self.numbers(*words), ["1"])
        told = run_here.companion("pops-find", str(self.room / "some.db"), *words).output.decode()
        self.assertIn("mirrored left to right; with these men", told)
