"""Positions in FEN and EPD: the problem made of each, and what pops says of it."""

import random
import tempfile
import time
import unittest
from pathlib import Path
from typing import Optional

from pops_companions.chess.fen import FenError, read_position
from tests import support

Place = tuple[int, int]
# The most processor time for a long line, of which it takes little; one that grows by the square takes more.
SECONDS = 60.0

TURNED = ": colours turned round, since the other side starts; --keep-colours leaves them"


def made(*words: str, text: bytes = b"") -> str:
    outcome = support.companion("fen2pop", *words, text=text)
    problems = outcome.output.decode("utf-8")
    turned = [TURNED] if ": colours turned round\n" in problems else []
    told = [line[-len(TURNED) :] for line in outcome.error.splitlines()]
    assert outcome.status == 0 and told == turned, outcome
    return problems


def report(problems: str, *words: str) -> list[support.PlainItem]:
    """What pops says of problems."""
    outcome = support.run([support.pops(), *words], problems.encode("utf-8"))
    assert outcome.status in (0, 1), outcome
    return support.plain_items(outcome.output)


class Texts(unittest.TestCase):
    def test_a_problem_in_full(self) -> None:
        self.assertEqual(
            made(
                "--stipulation",
                "#2",
                "--title",
                "A study",
                "--author",
                "N. N.",
                "--set-play",
                "--variation",
                "--max-solutions",
                "3",
                "--no-board",
                "--condition",
                "Madrasi",
                "kbK5/pp6/1P6/8/8/8/8/R7 w - - 0 1",
            ),
            "BeginProblem\n"
            "Title A study\n"
            "Author N. N.\n"
            "Remark FEN kbK5/pp6/1P6/8/8/8/8/R7 w - - 0 1\n"
            "Pieces White Kc8 Ra1 Pb6 Black Ka8 Bb8 Pa7b7\n"
            "Stipulation #2\n"
            "Condition Madrasi\n"
            "Option SetPlay Variation NoBoard MaxSolutions 3\n"
            "EndProblem\n",
        )

    def test_black_to_move_turns_the_colours_round(self) -> None:
        self.assertEqual(
            made("-s", "#2", "r3k2r/8/8/8/3pP3/8/8/1N2K3 b kq e3 0 1"),
            "BeginProblem\n"
            "Remark FEN r3k2r/8/8/8/3pP3/8/8/1N2K3 b kq e3 0 1\n"
            "Remark Black is to move in the FEN, and White starts in a problem of this form:"
            " colours turned round\n"
            "Pieces White Ke1 Ra1h1 Pd5 Black Ke8 Sb8 Pe5\n"
            "Stipulation #2\n"
            "Option EnPassant e6\n"
            "EndProblem\n",
        )

    def test_the_side_that_starts_decides(self) -> None:
        for stipulation, turn, turned in [
            ("#2", "w", False),
            ("#2", "b", True),
            ("s#2", "w", False),
            ("s=2", "b", True),
            ("h#2", "b", False),
            ("h#2", "w", True),
            ("h=2.5", "w", False),
            ("h#2.5", "b", True),
        ]:
            with self.subTest(stipulation, turn=turn):
                problem = made("-s", stipulation, f"k7/8/8/8/8/8/8/7K {turn} - -")
                pieces = "White Kh1 Black Ka8" if not turned else "White Ka1 Black Kh8"
                self.assertIn(f"Pieces {pieces}\nStipulation {stipulation}\n", problem)
                self.assertEqual("turned round" in problem, turned)

    def test_turned_colours_are_told(self) -> None:
        white, black = "k7/8/8/8/8/8/8/7K w - -", "k7/8/8/8/8/8/8/7K b - -"
        outcome = support.companion("fen2pop", "-s", "#2", white, black)
        self.assertEqual(outcome.error, f"fen2pop: position 2{TURNED}\n")
        text = "\n".join([black, white] + [black] * 4).encode()
        outcome = support.companion("fen2pop", "-s", "#2", text=text)
        places = "; ".join(f"standard input, line {line}" for line in (1, 3, 4))
        self.assertEqual(outcome.error, f"fen2pop: {places}; and 2 more{TURNED}\n")

    def test_colours_can_be_kept(self) -> None:
        problem = made("-s", "#2", "--keep-colours", "k7/8/8/8/3pP3/8/8/7K b - e3")
        self.assertIn("Pieces White Kh1 Pe4 Black Ka8 Pd4\nStipulation #2\nEndProblem", problem)
        self.assertIn("colours kept", problem)

    def test_a_text_without_turn_is_taken_as_it_is(self) -> None:
        problem = made("-s", "h#2", "r3k3/8/8/8/8/8/8/4K3")
        self.assertEqual(
            problem,
            "BeginProblem\nRemark FEN r3k3/8/8/8/8/8/8/4K3\nPieces White Ke1 Black Ke8 Ra8\n"
            "Stipulation h#2\nEndProblem\n",
        )

    def test_castling_rights(self) -> None:
        for rights, wanted in [
            ("KQkq", None),
            ("KQ", "e8"),
            ("kq", "e1"),
            ("-", "e1e8"),
            ("Kq", "a1h8"),
            ("Qkq", "h1"),
            ("Q", "h1e8"),
        ]:
            with self.subTest(rights):
                problem = made("-s", "#2", f"r3k2r/8/8/8/8/8/8/R3K2R w {rights} -")
                option = f"Option NoCastling {wanted}\n" if wanted else ""
                self.assertIn(f"Stipulation #2\n{option}EndProblem\n", problem)

    def test_without_rooks_nobody_can_castle_but_under_circe(self) -> None:
        fen = "4k3/8/8/8/8/8/8/4K3 w - -"
        self.assertNotIn("NoCastling", made("-s", "#2", fen))
        self.assertIn("NoCastling e1e8\n", made("-s", "#2", "-c", "Circe", fen))

    def test_a_right_without_its_men_is_told_in_a_remark(self) -> None:
        problem = made("-s", "#2", "4k3/8/8/8/8/8/8/4K2R w KQ -")
        self.assertIn(
            "Remark the castling right for a1 has no king on e1 or no rook on a1: left out\n",
            problem,
        )
        self.assertNotIn("NoCastling", problem)

    def test_operations_of_an_epd(self) -> None:
        problem = made(text=b'k7/8/8/8/8/8/8/7K w - - dm 3; id "Mate; in 3";\n')
        self.assertIn("BeginProblem\nTitle Mate; in 3\n", problem)
        self.assertIn("Stipulation #3\n", problem)
        problem = made("-s", "s#2", text=b"k7/8/8/8/8/8/8/7K w - - dm 3;\n")
        self.assertIn("Stipulation s#2\n", problem)


class Sources(unittest.TestCase):
    def test_quoted_and_unquoted_words(self) -> None:
        quoted = made("-s", "#2", "k7/8/8/8/8/8/8/7K w - -", "8/8/8/8/8/8/8/K6k b - - 0 1")
        words = "k7/8/8/8/8/8/8/7K w - - 8/8/8/8/8/8/8/K6k b - - 0 1".split()
        self.assertEqual(made("-s", "#2", *words), quoted)
        self.assertEqual(quoted.count("NextProblem"), 1)

    def test_files_and_standard_input(self) -> None:
        lines = b"\xef\xbb\xbfk7/8/8/8/8/8/8/7K w - -\r\n\n# mine\n8/8/8/8/8/8/8/K6k w - -\n"
        piped = made("-s", "#2", text=lines)
        self.assertEqual(piped.count("Pieces"), 2)
        with tempfile.TemporaryDirectory() as room:
            source, target = Path(room) / "some.fen", Path(room) / "some.pop"
            source.write_bytes(lines)
            self.assertEqual(made("-s", "#2", "--file", str(source)), piped)
            self.assertEqual(made("-s", "#2", "-f", str(source), "-o", str(target)), "")
            self.assertEqual(target.read_text(), piped)

    def test_bad_lines_are_told_and_the_good_ones_made(self) -> None:
        bad = [
            ("8/8/8/8/8/8/8 w - -", "7 ranks in '8/8/8/8/8/8/8' instead of 8"),
            ("no-position", "1 rank in 'no-position' instead of 8"),
            ("9/8/8/8/8/8/8/8 w - -", "'9' in '9' is no man: K Q R B N P or small letters are"),
            ("k6/8/8/8/8/8/8/8 w - -", "7 squares in rank 8, 'k6', instead of 8"),
            ("ppppppppp/8/8/8/8/8/8/8 w - -", "9 squares in rank 8, 'ppppppppp', instead of 8"),
            ("8/8/8/8/8/8/8/8 x - -", "'x' isn't a side to move, w or b"),
            ("8/8/8/8/8/8/8/8 w HAha -", "'HAha' aren't castling rights, letters of KQkq or -"),
            ("8/8/8/8/8/8/8/8 w - e9", "'e9' isn't an en passant square, as d6, or -"),
            (
                "8/8/8/8/8/8/8/8 w - - zero",
                "'zero' is neither the end of a FEN nor an operation of an EPD",
            ),
        ]
        good = "k7/8/8/8/8/8/8/7K w - -"
        text = "\n".join([line for line, _ in bad] + [good])
        outcome = support.companion("fen2pop", "-s", "#2", text=text.encode())
        self.assertEqual(outcome.status, 1)
        self.assertEqual(outcome.output.decode(), made("-s", "#2", good))
        told = [
            f"fen2pop: standard input, line {place}: {why}" for place, (_, why) in enumerate(bad, 1)
        ]
        self.assertEqual(outcome.error.splitlines(), told)

    def test_a_long_line_takes_no_longer_than_it_is(self) -> None:
        position, length = "k7/8/8/8/8/8/8/7K w - -", 30_000
        for rest in ("x" * length, "x" + " " * length + "x", 'x "' + "x" * length):
            with self.subTest(rest[:3]):
                error = self.refused_in_time(f"{position} {rest}")
                self.assertEqual(error, f"{rest!r} is neither the end of a FEN nor an operation of an EPD")
        began = time.process_time()
        read = read_position(f"{position} {'x 1;' * (5 * length)} id \"a; b\"; ")
        self.assertLess(time.process_time() - began, SECONDS)
        self.assertEqual(read.operations, {"x": "1", "id": "a; b"})

    def refused_in_time(self, text: str) -> str:
        """What is said of a text that is no position."""
        began = time.process_time()
        with self.assertRaises(FenError) as raised:
            read_position(text)
        self.assertLess(time.process_time() - began, SECONDS)
        return str(raised.exception)

    def test_mistakes_have_a_line_and_a_status(self) -> None:
        nothing = support.companion("fen2pop", "-s", "#2")
        self.assertEqual((nothing.status, nothing.error), (1, "fen2pop: no position was given\n"))
        lacking = support.companion("fen2pop", "k7/8/8/8/8/8/8/7K")
        self.assertEqual(lacking.status, 1)
        self.assertEqual(lacking.error, "fen2pop: position 1: no stipulation: give --stipulation\n")
        self.assertEqual(support.companion("fen2pop", "-s", "r#2", "x").status, 2)
        outcome = support.companion("fen2pop", "-s", "#2", __file__)
        self.assertEqual(outcome.status, 2)
        self.assertIn("is a file: name it after --file", outcome.error)
        for number in ("0", "-3", "many"):
            few = support.companion("fen2pop", "-s", "#2", "--max-solutions", number, "k7/8 w")
            self.assertEqual((few.status, few.output), (2, b""))
            self.assertIn(f"'{number}' is no number from 1\n", few.error)
        self.assertEqual(support.companion("fen2pop", "-s", "#2", "-f", "nowhere").status, 3)
        self.assertEqual(support.companion("fen2pop", "--help").status, 0)


class Answers(unittest.TestCase):
    """What pops makes of the problems."""

    def keys(self, *words: str) -> list[str]:
        (item,) = report(made(*words))
        return item.lines[item.lines.index("play") + 1 : -1]

    def test_castling_right_decides_a_mate(self) -> None:
        """White Ke1 Rh1 Re8 Rg8, Black Kf3 (no castling there): 0-0 mates, and so does Rh1-f1."""
        fen = "4R1R1/8/8/8/8/5k2/8/4K2R w {} -"
        self.assertEqual(self.keys("-s", "#1", fen.format("K")), ["1.0-0#", "1.Rh1-f1#"])
        self.assertEqual(self.keys("-s", "#1", fen.format("-")), ["1.Rh1-f1#"])
        turned = "4k2r/8/5K2/8/8/8/8/4r1r1 b {} -"
        self.assertEqual(self.keys("-s", "#1", turned.format("k")), ["1.0-0#", "1.Rh1-f1#"])
        self.assertEqual(self.keys("-s", "#1", turned.format("-")), ["1.Rh1-f1#"])

    def test_en_passant_decides_a_mate(self) -> None:
        fen = "7k/8/6K1/3pP3/8/1B6/8/B7 w - {}"
        self.assertEqual(self.keys("-s", "#1", fen.format("d6")), ["1.e5*d6 ep.#"])
        self.assertEqual(self.keys("-s", "#1", fen.format("-")), [])

    def test_six_hundred_made_positions(self) -> None:
        """Each is read as sound, with its men, or with the fault that the test finds in it."""
        chance = random.Random(14)
        found: dict[Optional[int], int] = {}
        for stipulation in ("#1", "s#2", "h#2", "h#1.5"):
            fens = [made_fen(chance) for _ in range(150)]
            problems = made("-s", stipulation, text="\n".join(fens).encode())
            items = report(problems, "--check")
            self.assertEqual(len(items), len(fens))
            for fen, item in zip(fens, items):
                with self.subTest(fen, stipulation=stipulation):
                    plain = PlainPosition(fen, stipulation)
                    wanted = plain.fault()
                    found[wanted] = found.get(wanted, 0) + 1
                    if wanted is None:
                        self.assertEqual(item.board, plain.board())
                        self.assertEqual(item.lines[-2:], [stipulation, "sound"])
                    else:
                        self.assertIn(f": fault {wanted}: ", item.lines[1])
        self.assertEqual(set(found), {None, 6, 7, 11, 15, 17, 18})


def made_fen(chance: random.Random) -> str:
    """A FEN that may lack kings, have too many, pawns anywhere, or an odd en passant square."""
    squares = [["."] * 8 for _ in range(8)]
    places = [(rank, file) for rank in range(8) for file in range(8)]
    chance.shuffle(places)
    men = "Kk" if chance.random() < 0.9 else chance.choice(["", "K", "k", "KKk", "Kkk"])
    men += "".join(chance.choice("QRBNPqrbnpPp") for _ in range(chance.choice([0, 2, 4, 6])))
    for man, (rank, file) in zip(men, places):
        if man in "Pp" and chance.random() < 0.95:
            rank = min(max(rank, 1), 6)
        squares[rank][file] = man
    ranks = []
    for row in squares:
        text = "".join(row)
        for length in range(8, 0, -1):
            text = text.replace("." * length, str(length))
        ranks.append(text)
    turn = chance.choice("wb")
    crossed = "-"
    if chance.random() < 0.3:
        pawn, line, crossed_rank = ("p", 3, "6") if turn == "w" else ("P", 4, "3")
        files = [file for file in range(8) if squares[line][file] == pawn] or [chance.randrange(8)]
        crossed = "abcdefgh"[files[0]] + crossed_rank
    rights = chance.choice(["-", "KQkq", "Kq", "Q"])
    return f"{'/'.join(ranks)} {turn} {rights} {crossed} 0 1"


class PlainPosition:
    """A plain reading of a FEN, with the colours turned round where the other side starts."""

    def __init__(self, fen: str, stipulation: str):
        placement, turn, _, crossed = fen.split()[:4]
        rows = []
        for row in placement.split("/"):
            for digit in "12345678":
                row = row.replace(digit, "." * int(digit))
            rows.append(row.replace("N", "S").replace("n", "s"))
        self.stipulation = stipulation
        self.starter = "b" if stipulation == "h#2" else "w"
        self.crossed = crossed
        if turn != self.starter:
            rows = [row.swapcase() for row in reversed(rows)]
            if crossed != "-":
                self.crossed = crossed[0] + str(9 - int(crossed[1]))
        self.rows = rows

    def board(self) -> list[str]:
        return self.rows

    def at(self, place: Place) -> str:
        rank, file = place
        return self.rows[rank][file] if 0 <= rank < 8 and 0 <= file < 8 else " "

    def fault(self) -> Optional[int]:
        """The first fault by the order of the words and of the tests at a problem's end."""
        men = "".join(self.rows)
        last_ranks = self.rows[0] + self.rows[7]
        for king, pawn in (("K", "P"), ("k", "p")):
            if men.count(king) > 1:
                return 7
            if pawn in last_ranks:
                return 6
        if men == "." * 64:
            return 11
        if self.crossed != "-" and not self.just_passed():
            return 15
        if ("K" if self.stipulation.startswith("s") else "k") not in men:
            return 17
        return 18 if self.in_check() else None

    def just_passed(self) -> bool:
        file = "abcdefgh".index(self.crossed[0])
        pawn, crossed, home, stood = ("p", 2, 1, 3) if self.starter == "w" else ("P", 5, 6, 4)
        return (
            self.crossed[1] == str(8 - crossed)
            and self.at((crossed, file)) == self.at((home, file)) == "."
            and self.at((stood, file)) == pawn
        )

    def in_check(self) -> bool:
        """Whether the side that doesn't start could lose its king at once."""
        king = "k" if self.starter == "w" else "K"
        places = [(r, f) for r in range(8) for f in range(8) if self.rows[r][f] == king]
        return bool(places) and self.attacked(places[0])

    def attacked(self, place: Place) -> bool:
        mine = str.upper if self.starter == "w" else str.lower
        rank, file = place
        pawn_rank = rank + 1 if self.starter == "w" else rank - 1
        if mine("p") in (self.at((pawn_rank, file - 1)), self.at((pawn_rank, file + 1))):
            return True
        leaps = [(r, f) for r in (-2, -1, 1, 2) for f in (-2, -1, 1, 2) if abs(r) != abs(f)]
        if any(self.at((rank + r, file + f)) == mine("s") for r, f in leaps):
            return True
        for r in (-1, 0, 1):
            for f in (-1, 0, 1):
                line = "qr" if r == 0 or f == 0 else "qb"
                steps = 1
                while (r, f) != (0, 0) and self.at((rank + steps * r, file + steps * f)) == ".":
                    steps += 1
                man = self.at((rank + steps * r, file + steps * f))
                if man in [mine(letter) for letter in line] or (steps == 1 and man == mine("k")):
                    return True
        return False


GAMES = b"""\xef\xbb\xbf[Event "Casual \\"blitz\\""]
[Site "?"]
[White "Anderssen, A"]
[Black "Kieseritzky, L"]
[FEN "6k1/8/6K1/8/8/8/8/R7 w - - 0 1"]
[SetUp "1"]

1. Ra8# {# no comment of fen2pop
8/8/8/8/8/8/8/8} 1-0

[Event "?"]
[White "?"]
[Black "?"]

1. e4 *

[White "Only White"]
[FEN "6k1/8/6K1/8/8/8/8/R7 w - - 0 1"]
"""


class Games(unittest.TestCase):
    def test_tags_of_pgn(self) -> None:
        outcome = support.companion("fen2pop", "-s", "#1", text=GAMES)
        self.assertEqual(
            outcome.output.decode(),
            "BeginProblem\nTitle Anderssen, A - Kieseritzky, L\nOrigin Casual \"blitz\"\n"
            "Remark FEN 6k1/8/6K1/8/8/8/8/R7 w - - 0 1\n"
            "Pieces White Kg6 Ra1 Black Kg8\nStipulation #1\n"
            "NextProblem\nTitle Only White\nRemark FEN 6k1/8/6K1/8/8/8/8/R7 w - - 0 1\n"
            "Pieces White Kg6 Ra1 Black Kg8\nStipulation #1\nEndProblem\n",
        )
        self.assertEqual(
            (outcome.status, outcome.error),
            (1, "fen2pop: standard input, line 11: the game has no tag FEN\n"),
        )

    def test_games_that_debian_has(self) -> None:
        """Each FEN of a collection of puzzles is a problem that pops takes."""
        folder = Path("/usr/share/pychess/learn/puzzles")
        files = sorted(folder.glob("*.pgn"))
        if not files:
            self.skipTest("pychess isn't installed")
        for path in files[:2]:
            tags = path.read_bytes().count(b"[FEN ")
            outcome = support.companion("fen2pop", "-s", "#2", "-f", str(path))
            self.assertEqual(outcome.output.count(b"Stipulation #2\n"), tags)
