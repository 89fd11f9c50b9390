"""pops-find: collections in a file, what is found by words, by men, by play, and near a position."""

import os
import random
import sqlite3
import struct
import sys
import tempfile
import threading
import time
import unittest
from contextlib import closing
from pathlib import Path
from typing import Any, Optional
from unittest import mock

from pops_companions.chess.men import Man, Square
from pops_companions.find.boards import board_of, differences, men_of, variants
from pops_companions.find.collection import Collection
from pops_companions.find.entries import Entry, items_of, mirrored_play, play_of
from pops_companions.find.on_disk import CollectionError
from pops_companions.input.writing import men_in, pieces_line
from tests import run_here, support

MORPHY = "White Kc8 Ra1 Pb6 Black Ka8 Bb8 Pa7b7"


def board(pieces: str) -> str:
    return board_of(dict(men_in(pieces)))


def entry(number: int, pieces: str, play: Optional[str] = None) -> Entry:
    return Entry("some.pop", number, f"T{number}", "A. A.", "", "#2", "", board(pieces), play)


def moved(pieces: str, squares: dict[str, str], colours: bool = False) -> str:
    """The position with men on other squares, worked out square by square."""
    men = {}
    for square, man in men_in(pieces):
        colour = man.colour.opponent if colours else man.colour
        men[Square.of_name(squares[square.name])] = Man(colour, man.kind)
    return board_of(men)


def image(of: str) -> dict[str, str]:
    """Where each square goes; the squares of file a, then of b, and so on are given in words."""
    files, ranks = "abcdefgh", "12345678"
    names = [file + rank for file in files for rank in ranks]
    images = {
        "left to right": [file + rank for file in files[::-1] for rank in ranks],
        "top to bottom": [file + rank for file in files for rank in ranks[::-1]],
        "half turn": [file + rank for file in files[::-1] for rank in ranks[::-1]],
        "a1 to a8": [file + rank for rank in ranks[::-1] for file in files],
        "a1 to h1": [file + rank for rank in ranks for file in files[::-1]],
        "one to the right": [file + rank for file in files[1:] + "a" for rank in ranks],
    }
    return dict(zip(names, images[of]))


def plays_of(report: bytes) -> dict[int, str]:
    found = ((number, play_of(item)) for number, item in items_of(report).items())
    return {number: play for number, play in found if play is not None}


def date_of(origin: str) -> str:
    return Entry("some.pop", 1, "", "", origin, "#2", "", board(MORPHY), None).date


class Dates(unittest.TestCase):
    def test_as_composers_write_them(self) -> None:
        for origin, wanted in (
            ("The Problemist, 1977-08", "1977-08"),
            ("New York Clipper, 1856-06-28", "1856-06-28"),
            ("Die Schwalbe 8/1977", "1977-08"),
            ("1. Preis, Deutsche Schachzeitung 15.8.1977", "1977-08-15"),
            ("Schach VIII/1977", "1977-08"),
            ("Die Schwalbe, 15. März 1977", "1977-03-15"),
            ("Thèmes 64, août 1977", "1977-08"),
            ("Chess Life & Review, December 1979", "1979-12"),
        ):
            with self.subTest(origin):
                self.assertEqual(date_of(origin), wanted)

    def test_numbers_that_are_no_months(self) -> None:
        others = ("feenschach 1985/86", "45/1985", "WCCT V 1985", "40.5.1985", "Era 1985, 1. Preis")
        for origin in others:
            with self.subTest(origin):
                self.assertEqual(date_of(origin), "1985")
        self.assertEqual(date_of("Die Schwalbe 12345"), "")

    def test_letters_that_only_look_like_those_of_months(self) -> None:
        """An i without a dot is no `i`, but as a capital; digits of other scripts make no date."""
        for origin, wanted in (
            ("Die Schwalbe, aprıl 1977", "1977"),
            ("Die Schwalbe, APRIL 1977", "1977-04"),
            ("Die Schwalbe, FÉVRIER 1977", "1977-02"),
            ("Die Schwalbe ı/1977", "1977"),
            ("Die Schwalbe VIıI/1977", "1977"),
            ("Die Schwalbe ٨/1977", "1977"),
            ("Die Schwalbe 19٧٧", ""),
        ):
            with self.subTest(origin):
                self.assertEqual(date_of(origin), wanted)

    def test_a_collection_with_them_is_searched_all_the_same(self) -> None:
        text = "BeginProblem\nOrigin Die Schwalbe, aprıl 1977\nPieces White Kg6\nStipulation =1\nEndProblem\n"
        with tempfile.TemporaryDirectory() as room:
            (Path(room) / "some.pop").write_text(text, "utf-8")
            kept = f"{room}/mine.db"
            for words in (("--add", f"{room}/some.pop"), ("--date", "1977")):
                self.assertEqual(run_here.companion("pops-find", kept, *words).status, 0)
            for date in ("ı/1977", "١٩٧٧"):
                outcome = run_here.companion("pops-find", kept, "--date", date)
                self.assertEqual((outcome.status, outcome.output), (2, b""))
                self.assertIn("--date needs a date", outcome.error)


class Positions(unittest.TestCase):
    def test_boards_and_men(self) -> None:
        text = board(MORPHY)
        self.assertEqual(text[:8], "kbK.....")
        self.assertEqual(len(text), 64)
        self.assertEqual(board_of(men_of(text)), text)
        for wrong in ("Kg6", "White Xg6", "White g6", "Green Kg6"):
            with self.subTest(wrong), self.assertRaises(ValueError):
                dict(men_in(wrong))

    def test_variants_of_a_position(self) -> None:
        known = {variant.board: variant.how for variant in variants(board(MORPHY))}
        for of, how in (
            ("left to right", "mirrored left to right"),
            ("top to bottom", "mirrored top to bottom"),
            ("half turn", "turned by 180 degrees"),
        ):
            with self.subTest(of):
                self.assertEqual(known[moved(MORPHY, image(of))], (how,))
                both = known[moved(MORPHY, image(of), colours=True)]
                self.assertEqual(both, (how, "colours reversed"))
        for of in ("a1 to a8", "a1 to h1"):
            self.assertEqual(len(known[moved(MORPHY, image(of))]), 1)
        self.assertEqual(known[board(MORPHY)], ())

    def test_shifts_stay_on_the_board(self) -> None:
        """Three files wide and eight ranks high: five shifts to the right, none up or down."""
        known = {variant.board: variant.how for variant in variants(board(MORPHY))}
        shifted = moved(MORPHY, image("one to the right"))
        self.assertEqual(known[shifted], ("shifted 1 right",))
        shifts = [how for how in known.values() if len(how) == 1 and how[0].startswith("shifted")]
        self.assertEqual(len(shifts), 5)
        self.assertTrue(all(len(men_of(one)) == 7 for one in known))

    def test_differences(self) -> None:
        for other, wanted in (
            (MORPHY, []),
            (MORPHY.replace("Ra1", "Ra2"), ["white Ra1 on a2"]),
            (MORPHY.replace(" Ra1", ""), ["without white Ra1"]),
            (MORPHY.replace("a7b7", "a7b7h7"), ["with black Ph7"]),
            (MORPHY.replace("Ra1", "Qa1"), ["white Qa1 for white Ra1"]),
            (MORPHY.replace("Ra1", "Qa2"), ["white Qa2 for white Ra1"]),
        ):
            with self.subTest(other):
                self.assertEqual(differences(board(MORPHY), board(other)), wanted)


class Near(support.InRoom):
    def setUp(self) -> None:
        super().setUp()
        self.path = str(self.room / "mine.db")
        self.collection = Collection(self.path, new=True)
        self.addCleanup(self.collection.close)

    def found(self, *positions: str, asked: str = MORPHY) -> list[str]:
        self.collection.add("some.pop", [entry(n, it) for n, it in enumerate(positions, 1)])
        hits = self.collection.near(board(asked))
        return [f"{hit.entry.number}: {hit.text}" for hit in hits]

    def test_same_and_one_man_apart(self) -> None:
        found = self.found(
            MORPHY.replace("Ra1", "Ra2"),
            MORPHY,
            MORPHY.replace(" Ra1", ""),
            MORPHY.replace("a7b7", "a7b7h7"),
            MORPHY.replace("Ra1", "Qb1"),
            MORPHY.replace("Ra1", "Ra2").replace("b6", "b5"),
            MORPHY.replace(" Ra1", "").replace("a7b7", "a7"),
        )
        self.assertEqual(
            found,
            [
                "2: the same position",
                "1: white Ra1 on a2",
                "3: without white Ra1",
                "4: with black Ph7",
                "5: white Qb1 for white Ra1",
            ],
        )

    def test_moved_and_one_man_apart(self) -> None:
        found = self.found(
            "White Kf8 Rh1 Pg6 Black Kh8 Bg8 Ph7",
            "White Kd8 Rb1 Pc6 Black Kb8 Bc8 Pb7c7",
            "White Kh1 Bg1 Ph2g2 Black Kf1 Rh8 Pg3",
        )
        self.assertEqual(
            found,
            [
                "2: shifted 1 right",
                "3: turned by 180 degrees; colours reversed",
                "1: mirrored left to right; without black Pg7",
            ],
        )

    def test_positions_of_one_man(self) -> None:
        """All are near each other in many ways, of which the simplest is looked for."""
        squares = [f"{file}{rank}" for file in "abcdefgh" for rank in "1234"]
        positions = [f"White K{square}" for square in squares]
        self.collection.add("some.pop", [entry(n, it) for n, it in enumerate(positions, 1)])
        with mock.patch("pops_companions.find.collection.differences", wraps=differences) as looks:
            hits = self.collection.near(board("White Ka1"))
        texts = {hit.entry.number: hit.text for hit in hits}
        self.assertEqual((len(texts), texts[1]), (len(squares), "the same position"))
        self.assertEqual(texts[squares.index("h4") + 1], "shifted 7 right and 3 up")
        self.assertEqual(texts[squares.index("b1") + 1], "shifted 1 right")
        # (once for the whole position, once for the one without its man)
        self.assertLessEqual(looks.call_count, 2 * len(squares))

    def test_equal_questions_are_looked_up_once(self) -> None:
        problem = "Pieces White Kc8 Ra1 Pb6 Black Ka8 Bb8 Pa7b7\nStipulation #2\n"
        questions = self.room / "questions.pop"
        questions.write_text("BeginProblem\n" + "NextProblem\n".join([problem] * 40) + "EndProblem\n")
        self.assertEqual(run_here.companion("pops-find", self.path, "--add", str(questions)).status, 0)
        with mock.patch.object(Collection, "near", autospec=True, side_effect=Collection.near) as looks:
            with mock.patch("pops_companions.find.showing.pieces_line", wraps=pieces_line) as lines:
                outcome = run_here.companion("pops-find", self.path, "--near", str(questions))
        self.assertEqual((outcome.output.count(b"39 problems found"), looks.call_count), (40, 1))
        self.assertLessEqual(lines.call_count, 1)
        words = [sys.executable, str(support.COMPANIONS / "pops-find"), self.path, "--near", str(questions)]
        self.assertIn("pops-find: 40 of 40 problems", support.said_on_terminal(words)[1])
        with mock.patch("pops_companions.find.boards.Man.of_letter", side_effect=AssertionError):
            self.assertEqual(differences(board(MORPHY), board(MORPHY)), [])

    def test_plain_comparison_of_made_positions(self) -> None:
        """All positions one man apart are found, and no others: each is compared with each."""
        chance = random.Random(61)
        kinds = "White K|White Q|White R|Black K|Black S".split("|")
        positions = []
        for _ in range(300):
            squares = chance.sample(["a1", "a2", "b1", "b2", "h8", "g8", "g7"], len(kinds))
            chosen = list(zip(kinds, squares))[: chance.randint(3, 5)]
            positions.append(" ".join(f"{kind.split()[0]} {kind[-1]}{at}" for kind, at in chosen))
        self.collection.add("made", [entry(n, it) for n, it in enumerate(positions, 1)])
        for asked in positions[:20]:
            wanted = {
                number
                for number, other in enumerate(positions, 1)
                if self.plainly_near(board(asked), board(other))
            }
            found = {hit.entry.number for hit in self.collection.near(board(asked)) if not hit.how}
            self.assertLessEqual(found, wanted)
            every = {hit.entry.number for hit in self.collection.near(board(asked))}
            self.assertLessEqual(wanted, every)

    @staticmethod
    def plainly_near(one: str, other: str) -> bool:
        """Whether at most one man goes and at most one comes."""
        before, after = men_of(one), men_of(other)
        gone = [square for square in before if after.get(square) != before[square]]
        new = [square for square in after if before.get(square) != after[square]]
        return len(gone) <= 1 and len(new) <= 1

    def test_ten_thousand_problems(self) -> None:
        chance = random.Random(17)
        made = []
        for number in range(10_000):
            squares = chance.sample(range(64), chance.randint(5, 16))
            letters = ["."] * 64
            for place, letter in zip(squares, "Kk" + "".join(chance.choices("QRBSPqrbsp", k=14))):
                letters[place] = letter
            text = "".join(letters)
            made.append(Entry("made", number, "", "", "", "#2", "", text, None))
        self.collection.add("made", made)
        began = time.process_time()
        for one in made[:20]:
            self.assertIn(one, [hit.entry for hit in self.collection.near(one.board)])
        # (a search of each takes a tenth of a second; a slow machine may take ten times as long)
        self.assertLess(time.process_time() - began, 20 * 5)

    def test_problems_of_a_file_take_the_place_of_its_older_ones(self) -> None:
        self.assertEqual(len(self.found(MORPHY, MORPHY)), 2)
        self.assertEqual(len(self.found(MORPHY)), 1)
        self.collection.add("other.pop", [entry(1, MORPHY)])
        self.assertEqual(len(self.collection), 2)
        self.assertEqual(len(self.collection.near(board(MORPHY))), 2)


    def test_two_runs_that_add_the_same_file(self) -> None:
        """The second waits for the first, and replaces its problems."""
        self.found(MORPHY)
        remove, has_begun = self.collection._remove, threading.Event()

        def add() -> None:
            with closing(Collection(self.path, new=False)) as second:
                second._data.set_trace_callback(lambda it: has_begun.set() if it.startswith("BEGIN") else None)
                second.add("some.pop", [entry(1, MORPHY.replace("Ra1", "Ra2"))])

        def removed(source: str) -> None:
            remove(source)
            other.start()
            self.assertTrue(has_begun.wait(support.PATIENCE))

        other = threading.Thread(target=add)
        with mock.patch.object(self.collection, "_remove", removed):
            self.collection.add("some.pop", [entry(n, MORPHY.replace("Ra1", f"Rb{n}")) for n in (1, 2)])
        other.join()
        left = "SELECT count(*) FROM positions WHERE problem NOT IN (SELECT id FROM problems)"
        self.assertEqual(self.collection._data.execute(left).fetchone(), (0,))
        hits = self.collection.near(board(MORPHY.replace("Ra1", "Rb1")))
        self.assertEqual([hit.text for hit in hits], ["white Rb1 on a2"])

    def test_a_collection_that_another_run_writes(self) -> None:
        self.found(MORPHY)
        tried: list[str] = []
        with mock.patch("pops_companions.find.collection._SECONDS_AT_ONCE", 0.01):
            second = Collection(self.path, new=False)
        self.addCleanup(second.close)

        def trace(statement: str) -> None:
            """Ends the other run where it is waited for."""
            tried.append(statement)
            if len(tried) == 3:
                self.collection._data.rollback()

        second._data.set_trace_callback(trace)
        self.collection._data.execute("BEGIN EXCLUSIVE")
        self.assertEqual(len(second.near(board(MORPHY))), 1)
        self.assertGreater(len(tried), 3)
        self.collection._data.execute("BEGIN IMMEDIATE")
        with mock.patch("pops_companions.find.collection._MOST_SECONDS", 0):
            with self.assertRaisesRegex(CollectionError, "^cannot write the collection: database is locked$"):
                second.add("some.pop", [])

    def test_positions_of_problems_that_are_gone(self) -> None:
        """As older versions left them."""
        self.found(MORPHY, MORPHY)
        self.collection._data.execute("DELETE FROM problems WHERE number = 1")
        self.assertEqual([hit.entry.number for hit in self.collection.near(board(MORPHY))], [2])


class Play(unittest.TestCase):
    def test_keys_and_mates_of_a_report(self) -> None:
        report = (support.REPOSITORY / "examples" / "morphy_1856.report").read_bytes()
        self.assertEqual(plays_of(report), {1: "Ra1-a6: Ra6*a7#, b6-b7#"})
        lines = b"problem 1\nh#1\nplay\n1.Kh8-g8 Rb1-b8#\n1.Kh8-g8 Ra1-a8#\nsolutions: 2\n\n"
        self.assertEqual(plays_of(lines), {1: "1.Kh8-g8 Ra1-a8# | 1.Kh8-g8 Rb1-b8#"})
        bare = b"problem 1\n#2\nplay\n1.Ra1-a6\nsolutions: 1\n\nproblem 2\n#1\nsound\n\n"
        self.assertEqual(plays_of(bare), {})

    def test_mirrored(self) -> None:
        self.assertEqual(mirrored_play("Ra1-a6: Ra6*a7#, b6-b7#"), "Rh1-h6: Rh6*h7#, g6-g7#")
        self.assertEqual(mirrored_play("1.Kh8-g8 Ra1-a8#"), "1.Ka8-b8 Rh1-h8#")
        self.assertEqual(mirrored_play("a2-a1=Q: b2#"), "h2-h1=Q: g2#")

    def test_found_by_it(self) -> None:
        examples = support.REPOSITORY / "examples"
        with tempfile.TemporaryDirectory() as room:
            path = f"{room}/mine.db"
            report = str(examples / "morphy_1856.report")
            words = ["--add", str(examples / "morphy_1856.pop"), "--report", report]
            outcome = run_here.companion("pops-find", path, *words)
            self.assertEqual((outcome.status, outcome.error), (0, ""))
            mirrored = Path(room) / "mirrored.pop"
            mirrored.write_text(
                "BeginProblem\nPieces White Kf8 Rh1 Pg6 Black Kh8 Bg8 Pg7h7\nStipulation #2\n"
                "Option Variation\nEndProblem\n"
            )
            other = Path(room) / "mirrored.report"
            other.write_bytes(support.run([support.pops(), str(mirrored)]).output)
            outcome = run_here.companion("pops-find", path, "--play", str(other))
        self.assertEqual((outcome.status, outcome.error), (0, ""))
        self.assertIn(b"    mirrored left to right; the same key and mates\n", outcome.output)


class SamePlay(support.InRoom):
    def test_play_that_is_its_own_mirror_image(self) -> None:
        """Each problem is found once, and none is compared with the others."""
        play = "1.Ra1-a8#, 1.Rh1-h8#: Ra1-a8#, Rh1-h8#"
        self.assertEqual(mirrored_play(play), play)
        with closing(Collection(str(self.room / "some.db"), new=True)) as collection:
            collection.add("some.pop", [entry(number, MORPHY, play) for number in range(1, 41)])
            with mock.patch.object(Entry, "__eq__", side_effect=AssertionError):
                found = collection.same_play(play)
        self.assertEqual([(it.entry.number, it.how) for it in found], [(n, ()) for n in range(1, 41)])


class Command(support.InRoom):
    def setUp(self) -> None:
        super().setUp()
        self.path = str(self.room / "mine.db")
        self.examples = support.REPOSITORY / "examples"

    def run_on(self, *words: str) -> support.Outcome:
        return run_here.companion("pops-find", self.path, *words)

    def added(self, *names: str) -> None:
        outcome = self.run_on("--add", *(str(self.examples / name) for name in names))
        self.assertEqual((outcome.status, outcome.error), (0, ""))

    def numbers(self, *words: str) -> int:
        outcome = self.run_on(*words)
        self.assertEqual(outcome.status, 0 if b"problem " in outcome.output else 1)
        return outcome.output.count(b", problem ")

    def test_a_signal_in_what_sqlite_calls(self) -> None:
        self.added("morphy_1856.pop")
        lines = [
            f"import os, signal, sys; sys.path.insert(0, {str(support.COMPANIONS)!r})",
            "from pops_companions import start",
            "from pops_companions.find import collection",
            "collection._folded = lambda text: os.kill(os.getpid(), signal.SIGTERM)",
            f"sys.argv = ['pops-find', {self.path!r}, '--author', 'morphy']",
            "start.find()",
        ]
        outcome = support.run([sys.executable, "-c", "\n".join(lines)])
        self.assertEqual(outcome, (6, b"", "pops-find: stopped\n"))

    def test_words_and_men(self) -> None:
        self.added("excelsior_1861.pop", "morphy_1856.pop", "help_mate.pop", "circe.pop")
        for words, number in (
            (["--author", "LOYD"], 1),
            (["--author", "lo%d"], 0),
            (["--title", "excel", "--stipulation", "#5"], 1),
            (["--title", "excel", "--stipulation", "#4"], 0),
            (["--stipulation", "h#1"], 1),
            (["--men", "White Kc8 Black Pa7b7"], 1),
            (["--men", "White Kc7"], 0),
            (["--count", "3+4"], 1),
        ):
            with self.subTest(words):
                self.assertEqual(self.numbers(*words), number)

    def test_lines_in_two_encodings(self) -> None:
        text = b"BeginProblem\nTitle R\xe9ti\nAuthor \xc3\x89mile\nPieces White Kg6 Ra1 Black Kg8\n"
        file = self.room / "mixed.pop"
        file.write_bytes(text + b"Stipulation #1\nEndProblem\n")
        outcome = self.run_on("--add", str(file))
        self.assertEqual(outcome.status, 0)
        self.assertIn("mixed.pop, line 2: not in utf-8, read as latin-1", outcome.error)
        self.assertEqual(self.numbers("--title", "Réti", "--author", "Émile"), 1)

    @support.needs_module("yaml")
    def test_reports_and_yaml(self) -> None:
        yaml = Path(__file__).resolve().parent / "data" / "import" / "yacpdb.yaml"
        outcome = self.run_on("--add", str(self.examples / "morphy_1856.report"), str(yaml))
        self.assertEqual(outcome.status, 1)
        self.assertIn("left out: pops knows no", outcome.error)
        self.assertEqual(self.numbers("--author", "Loyd, Samuel"), 1)
        self.assertEqual(self.numbers("--author", "Morphy"), 1)

    def test_a_page_of_anticipations(self) -> None:
        self.added("morphy_1856.pop")
        new = self.room / "new.pop"
        new.write_text(
            "BeginProblem\nTitle Mine & yours\nPieces White Kf8 Rh1 Pg6 Black Kh8 Bg8 Ph7\n"
            "Stipulation #2\nNextProblem\nPieces White Ka1 Black Kh8\nStipulation h#5\nEndProblem\n"
        )
        page = self.room / "page.html"
        outcome = self.run_on("--near", str(new), "-o", str(page))
        self.assertEqual((outcome.status, outcome.error), (0, ""))
        text = outcome.output.decode()
        self.assertIn("problem 1: #2, Mine & yours: 1 problem found\n", text)
        self.assertIn("    mirrored left to right; with black Pb7\n", text)
        self.assertIn("problem 2: h#5: nothing found\n", text)
        html = page.read_text("utf-8")
        self.assertEqual(html.count('<svg class="diagram"'), 3)
        self.assertIn("Mine &amp; yours", html)

    def test_a_problem_without_title(self) -> None:
        file = self.room / "untitled.pop"
        file.write_text(
            "BeginProblem\nAuthor N. N.\nOrigin Ours 1900\nPieces White Kg6 Ra1 Black Kg8\n"
            "Stipulation #1\nEndProblem\n"
        )
        self.run_on("--add", str(file))
        self.assertIn(b": #1 (N. N.), Ours 1900\n", self.run_on("--author", "N. N.").output)

    def test_more_are_found_than_shown(self) -> None:
        self.added("excelsior_1861.pop", "morphy_1856.pop", "mate_in_two.pop")
        for words, counted in (
            (["--men", "", "--most", "2"], "3 problems found, the first 2 shown"),
            (["--men", "", "--most", "3"], "3 problems found"),
            (["--fragment", "White Kc8", "--most", "1"], "3 problems found, the first 1 shown"),
        ):
            with self.subTest(words):
                page = self.room / "page.html"
                text = self.run_on(*words, "-o", str(page)).output.decode()
                self.assertTrue(text.split("\n")[0].endswith(f": {counted}"), text)
                self.assertIn(f": {counted}</h2>", page.read_text("utf-8"))

    def test_the_example_of_the_documents(self) -> None:
        self.added("morphy_1856.pop")
        new = self.room / "new.pop"
        new.write_text(
            "BeginProblem\nTitle Mine\nPieces White Kf8 Rh1 Pg6 Black Kh8 Bg8 Ph7\n"
            "Stipulation #2\nEndProblem\n"
        )
        text = self.run_on("--near", str(new)).output.decode()
        shown = "".join(f"    {line}\n" for line in text.splitlines())
        document = (support.REPOSITORY / "docs" / "COMPANIONS.md").read_text("utf-8")
        self.assertIn(shown.replace(f"{self.examples}/", ""), document)

    def test_a_problem_of_the_collection_doesnt_find_itself(self) -> None:
        self.added("morphy_1856.pop")
        outcome = self.run_on("--near", str(self.examples / "morphy_1856.pop"))
        self.assertEqual(outcome.status, 1)

    def test_mistakes(self) -> None:
        self.added("morphy_1856.pop")
        cases: list[tuple[list[str], int]] = [
            ([], 2),
            (["--near", "a", "--author", "b"], 2),
            (["--near", "a", "--play", "b"], 2),
            (["--report", "a", "--author", "b"], 2),
            (["--men", "Kg6"], 2),
            (["--count", "3"], 2),
            (["--near", "nowhere.pop"], 3),
            (["--play", str(self.examples / "README.md")], 3),
        ]
        for words, status in cases:
            with self.subTest(words):
                self.assertEqual(self.run_on(*words).status, status)

    def test_a_page_is_not_written_over_the_collection(self) -> None:
        self.added("morphy_1856.pop")
        problem = str(self.examples / "morphy_1856.pop")
        solved = self.room / "solved"
        solved.write_bytes(support.run([support.pops(), problem]).output)
        link = self.room / "link.html"
        link.symlink_to(self.path)
        before = Path(self.path).read_bytes()
        for words in (["--author", "Morphy"], ["--near", problem], ["--play", str(solved)]):
            for page in (self.path, str(link)):
                with self.subTest(words, page=page):
                    outcome = self.run_on(*words, "-o", page)
                    said = f"pops-find: {page} is named twice\n"
                    self.assertEqual(outcome, (2, b"", said))
                    self.assertEqual(Path(self.path).read_bytes(), before)

    def test_files_that_are_no_collection(self) -> None:
        outcome = self.run_on("--author", "x")
        self.assertEqual(outcome.status, 3)
        self.assertIn("mine.db: No such file or directory: --add makes a collection", outcome.error)
        Path(self.path).write_bytes(b"not a database, but a text of some length\n" * 100)
        outcome = self.run_on("--author", "x")
        self.assertEqual(outcome.status, 3)
        self.assertIn("mine.db", outcome.error)
        with self.assertRaises(CollectionError):
            Collection(self.path, new=True)

    def test_files_of_others_beside_a_collection(self) -> None:
        self.added("morphy_1856.pop")
        problem, target = str(self.examples / "morphy_1856.pop"), self.room / "target"
        target.write_bytes(b"others")

        def pipe(name: str) -> None:
            os.mkfifo(name)

        def link(name: str) -> None:
            os.symlink(target, name)

        def notes(name: str) -> None:
            Path(name).write_bytes(b"my notes\n")

        for make, why in ((notes, "isn't a file of SQLite"), (pipe, "isn't a file of SQLite"), (link, "cannot open")):
            for end in ("-journal", "-wal", "-shm"):
                name = self.path + end
                make(name)
                for words in (["--near", problem], ["--add", problem]):
                    with self.subTest(name, words=words):
                        outcome = self.run_on(*words)
                        self.assertEqual((outcome.status, outcome.output), (3, b""))
                        self.assertIn(why, outcome.error)
                        self.assertTrue(os.path.lexists(name))
                os.unlink(name)
        self.assertEqual(target.read_bytes(), b"others")

    def test_a_statement_that_is_not_utf_8(self) -> None:
        self.added("morphy_1856.pop")
        text = Path(self.path).read_bytes().replace(b"CREATE TABLE problems", b"CREATE \xffABLE problems")
        Path(self.path).write_bytes(text)
        outcome = self.run_on("--author", "x")
        self.assertEqual(outcome, (3, b"", f"pops-find: {self.path} has tables of others than pops-find\n"))

    def test_statistics(self) -> None:
        """SQLite's own are taken. Computed ones aren't even asked: SQLite would compute them with the schema."""
        self.added("morphy_1856.pop")
        with closing(sqlite3.connect(self.path)) as data, data:
            data.execute("ANALYZE")
        self.assertEqual(self.run_on("--author", "Morphy").status, 0)
        with closing(sqlite3.connect(self.path)) as data, data:
            data.execute("PRAGMA writable_schema = ON")
            computed = "CREATE TABLE sqlite_stat1(tbl,idx,old,stat AS (hex(zeroblob(10000000))))"
            data.execute("UPDATE sqlite_master SET sql = ? WHERE name = 'sqlite_stat1'", (computed,))
        own = sqlite3.connect
        asked: list[str] = []

        def traced(*words: Any, **more: Any) -> sqlite3.Connection:
            data = own(*words, **more)
            data.set_trace_callback(asked.append)
            return data

        with mock.patch("sqlite3.connect", traced):
            for words in (["--author", "x"], ["--add", str(self.examples / "morphy_1856.pop")]):
                outcome = self.run_on(*words)
                said = f"pops-find: {self.path} has tables of others than pops-find\n"
                self.assertEqual(outcome, (3, b"", said))
        self.assertEqual(set(asked), {"PRAGMA application_id"})

    def test_a_schema_on_more_pages(self) -> None:
        self.added("morphy_1856.pop")
        with closing(sqlite3.connect(self.path)) as data, data:
            for number in range(40):
                data.execute(f"CREATE INDEX i{number} ON problems (title, author, number) WHERE number > {number}")
        outcome = self.run_on("--author", "x")
        self.assertEqual(outcome, (3, b"", f"pops-find: {self.path} is no collection of pops-find\n"))

    def test_values_that_no_run_wrote(self) -> None:
        self.added("morphy_1856.pop")
        problem = str(self.examples / "morphy_1856.pop")
        said = f"pops-find: {self.path} is damaged: it has a problem that isn't one\n"
        with mock.patch.object(Collection, "_with_hashes", lambda *_: [(1, 1, ())]):
            self.assertEqual(self.run_on("--near", problem), (3, b"", said))
        with closing(sqlite3.connect(self.path)) as data, data:
            data.execute("UPDATE problems SET source = 'x', id = 9223372036854775807")
        self.assertEqual(self.run_on("--add", problem), (3, b"", said))

    def test_a_collection_of_another_mode(self) -> None:
        """With a log beside it, and after its user has closed it."""
        self.added("morphy_1856.pop")
        problem = str(self.examples / "morphy_1856.pop")
        with closing(sqlite3.connect(self.path)) as data:
            data.execute("PRAGMA journal_mode = WAL")
            data.execute("SELECT * FROM problems").fetchall()
            outcome = self.run_on("--author", "Morphy")
            self.assertEqual(outcome, (3, b"", f"pops-find: cannot open {self.path}: another program uses it\n"))
            self.assertTrue(os.path.exists(f"{self.path}-wal"))
        self.assertEqual(self.run_on("--author", "Morphy").status, 0)
        self.assertEqual(self.run_on("--add", problem).status, 0)

    def test_a_journal_that_names_another_file(self) -> None:
        self.added("morphy_1856.pop")
        target = self.room / "target"
        target.write_bytes(b"others")
        name, mark = os.fsencode(target), b"\xd9\xd5\x05\xf9\x20\xa1\x63\xd7"
        head = (mark + struct.pack(">5I", 0, 1, 5, 512, 4096)).ljust(512, b"\0")
        place = struct.pack(">I", (1 << 30) // 4096 + 1)
        ending = place + name + struct.pack(">2I", len(name), sum(name)) + mark
        Path(self.path + "-journal").write_bytes(head + ending)
        outcome = self.run_on("--author", "x")
        self.assertEqual((outcome.status, outcome.output), (3, b""))
        self.assertIn("isn't of one collection", outcome.error)
        self.assertEqual(target.read_bytes(), b"others")

    def test_a_collection_that_is_no_file(self) -> None:
        os.mkfifo(self.path)
        for path in (self.path, "/dev/stdout", "/dev/null", str(self.room)):
            outcome = run_here.companion("pops-find", path, "--add", str(self.examples / "morphy_1856.pop"))
            self.assertEqual((outcome.status, outcome.output), (3, b""))
            self.assertEqual(outcome.error, f"pops-find: cannot open {path}: a collection is a file\n")

    def test_a_path_of_two_slashes(self) -> None:
        problem = Path(self.path).with_name("one.pop")
        problem.write_bytes(b"BeginProblem Pieces White Kg6 Ra1 Black Kg8 Stipulation #1 EndProblem\n")
        outcome = run_here.companion("pops-find", f"/{self.path}", "--add", str(problem))
        self.assertEqual((outcome.status, outcome.error), (0, ""))
        self.assertEqual(len(Collection(self.path, new=False)), 1)
