"""Comparison of reports: problems matched where they moved, and all that they differ in."""

import io
import tempfile
import tracemalloc
import unittest
from pathlib import Path
from typing import Optional

from pops_companions.report.reader import read_report
from pops_companions.review.matching import Heads, Pairs
from tests import run_here, support, test_soundness

MATE = "1.Ra1-a8#\n"
FAULT = "line {line}: fault 14: square expected\n"


def board(*men: tuple[str, str]) -> str:
    """A printed board with these men, each a letter with its square."""
    rows = {rank: ["."] * 8 for rank in range(8, 0, -1)}
    for letter, square in men:
        rows[int(square[1])]["abcdefgh".index(square[0])] = letter
    return "".join(f"{rank} {''.join(row)}\n" for rank, row in rows.items()) + "  abcdefgh\n"


KNIGHT_A = board(("K", "g6"), ("R", "a1"), ("S", "b3"), ("k", "g8"))
KNIGHT_B = board(("K", "g6"), ("R", "a1"), ("S", "c3"), ("k", "g8"))
KNIGHT_C = board(("K", "g6"), ("R", "a1"), ("S", "d3"), ("k", "g8"))


def problem(title: str = "", where: str = "", play: str = MATE, stipulation: str = "#1") -> str:
    """A problem of a report without its number."""
    count = sum(not line.startswith(" ") for line in play.splitlines())
    name = f"title: {title}\n" if title else ""
    return f"{name}{where}{stipulation}\nplay\n{play}solutions: {count}\n"


def report(*problems: str) -> bytes:
    text = "".join(f"problem {place}\n{one}\n" for place, one in enumerate(problems, start=1))
    return text.encode()


def heads(*problems: str) -> Heads:
    found = Heads()
    for item in read_report(io.BytesIO(report(*problems))):
        found.add(item)
    return found


def numbers(old: list[str], new: list[str]) -> list[tuple[Optional[int], Optional[int]]]:
    """Which number of one report was matched with which of the other."""
    return [
        (None if at.old is None else at.old + 1, None if at.new is None else at.new + 1)
        for at in Pairs(heads(*old), heads(*new))
    ]


class Matching(unittest.TestCase):
    A, B, C = problem("A", KNIGHT_A), problem("B", KNIGHT_B), problem("C", KNIGHT_C)
    FAULTY = FAULT.format(line=2)

    def test_the_same_problems(self) -> None:
        self.assertEqual(numbers([self.A, self.B], [self.A, self.B]), [(1, 1), (2, 2)])
        twice = [problem(), problem(), problem(play="")]
        self.assertEqual(numbers(twice, twice), [(1, 1), (2, 2), (3, 3)])

    def test_a_problem_came_in_or_went(self) -> None:
        self.assertEqual(
            numbers([self.A, self.C], [self.A, self.B, self.C]), [(1, 1), (None, 2), (2, 3)]
        )
        self.assertEqual(
            numbers([self.A, self.B, self.C], [self.A, self.C]), [(1, 1), (2, None), (3, 2)]
        )
        self.assertEqual(numbers([self.A], [self.A, self.B]), [(1, 1), (None, 2)])
        self.assertEqual(numbers([self.A, self.B], [self.A]), [(1, 1), (2, None)])

    def test_another_order(self) -> None:
        self.assertEqual(
            numbers([self.A, self.B, self.C], [self.C, self.A, self.B]), [(3, 1), (1, 2), (2, 3)]
        )

    def test_a_title_stays_where_the_board_changes_and_the_board_where_the_title_does(self) -> None:
        moved = problem("A", KNIGHT_C)
        self.assertEqual(numbers([self.A, self.B], [self.B, moved]), [(2, 1), (1, 2)])
        renamed = problem("New", KNIGHT_A)
        self.assertEqual(numbers([self.A, self.B], [self.B, renamed]), [(2, 1), (1, 2)])
        other = problem("A", KNIGHT_A, stipulation="#2", play="")
        self.assertEqual(numbers([self.A, self.B], [self.B, other]), [(2, 1), (1, 2)])

    def test_another_problem_in_the_same_place(self) -> None:
        new = [self.A, self.C]
        self.assertEqual(numbers([self.A, self.B], new), [(1, 1), (None, 2), (2, None)])

    def test_without_titles_and_boards_the_place_counts(self) -> None:
        changed = problem(play="1.Rb1-b8#\n", stipulation="#2")
        self.assertEqual(numbers([self.A, problem()], [self.B, self.A, changed]),
                         [(None, 1), (1, 2), (2, 3)])  # fmt: skip
        untitled, moved = problem("", KNIGHT_A), problem("", KNIGHT_B)
        self.assertEqual(numbers([untitled], [moved]), [(1, 1)])

    def test_faulty_problems_are_found_by_their_neighbours(self) -> None:
        self.assertEqual(
            numbers([self.A, self.FAULTY, self.B], [self.C, self.A, self.FAULTY, self.B]),
            [(None, 1), (1, 2), (2, 3), (3, 4)],
        )
        self.assertEqual(
            numbers([self.A, self.FAULTY, self.B], [self.A, self.C, self.FAULTY, self.B]),
            [(1, 1), (None, 2), (2, 3), (3, 4)],
        )
        self.assertEqual(
            numbers([self.A, self.FAULTY, self.B], [self.A, self.C, self.B]),
            [(1, 1), (2, 2), (3, 3)],
        )
        self.assertEqual(numbers([self.FAULTY], [self.FAULTY]), [(1, 1)])

    def test_each_problem_is_told_once(self) -> None:
        old = [self.A, self.FAULTY, self.B, problem(), self.A, self.C]
        new = [self.C, problem(), self.A, self.FAULTY, self.FAULTY, problem("", KNIGHT_B)]
        pairs = numbers(old, new)
        self.assertEqual([one for _, one in pairs if one], list(range(1, 7)))
        self.assertEqual(sorted(one for one, _ in pairs if one), list(range(1, 7)))


class Differences(unittest.TestCase):
    def compared(self, old: bytes, new: bytes) -> support.Outcome:
        with tempfile.TemporaryDirectory() as room:
            (Path(room) / "old").write_bytes(old)
            (Path(room) / "new").write_bytes(new)
            return run_here.companion("pops-compare", f"{room}/old", f"{room}/new")

    def check(self, old: list[str], new: list[str], *lines: str) -> None:
        outcome = self.compared(report(*old), report(*new))
        self.assertEqual(outcome, (1, "".join(line + "\n" for line in lines).encode(), ""))

    def test_nothing_differs(self) -> None:
        stored = b"".join(path.read_bytes() for path in support.stored_reports())
        outcome = self.compared(stored, stored)
        self.assertEqual((outcome.status, outcome.error), (0, ""))
        self.assertTrue(outcome.output.endswith(b" problems: nothing differs\n"))
        self.assertEqual(outcome.output.count(b"\n"), 1)

    def test_what_does_not_count(self) -> None:
        """A number, a fault's line, a board that one report alone shows."""
        old = report(problem("A", KNIGHT_A), FAULT.format(line=7), problem("B"))
        new = report(problem("A"), FAULT.format(line=12), problem("B", KNIGHT_B))
        outcome = self.compared(old, new)
        self.assertEqual(outcome, (0, b"3 problems: nothing differs\n", ""))
        old, new = report(problem("A"), problem("B")), report(problem("B"), problem("A"))
        self.assertEqual(self.compared(old, new), (0, b"2 problems: nothing differs\n", ""))

    def test_keys_gained_and_lost(self) -> None:
        self.check(
            [problem("A"), problem("B")],
            [problem("A"), problem("B", play="1.Rb1-b8#\n1.Rc1-c8#\n")],
            "problem 2: #1, B",
            "  play",
            "    - 1.Ra1-a8#",
            "    + 1.Rb1-b8#",
            "    + 1.Rc1-c8#",
            "    solutions: 1 -> solutions: 2",
            "2 problems: 1 differs; solutions 2 gained, 1 lost; totals 1 changed",
        )

    def test_variations(self) -> None:
        old = (
            "1.Ra1-a2\n  1...Kh8-g8\n    2.Ra2-a8#\n    2.Rb1-b8#\n"
            "  1...h7-h6\n    2.Ra2-a8#\n"
        )
        new = (
            "1.Ra1-a2\n  1...Kh8-g8\n    2.Ra2-a8#\n    2.Rc1-c8#\n"
            "  1...h7-h5\n    2.Ra2-a8#\n"
        )
        self.check(
            [problem(play=old, stipulation="#2")],
            [problem(play=new, stipulation="#2")],
            "problem 1: #2",
            "  play",
            "    - 1.Ra1-a2 Kh8-g8 2.Rb1-b8#",
            "    + 1.Ra1-a2 Kh8-g8 2.Rc1-c8#",
            "    - 1.Ra1-a2 h7-h6",
            "    + 1.Ra1-a2 h7-h5",
            "1 problem: 1 differs; variations 2 gained, 2 lost",
        )

    def test_variations_in_one_report_alone(self) -> None:
        self.check(
            [problem(play="1.Ra1-a2\n1.Ra1-a3\n", stipulation="#2")],
            [
                problem(
                    play="1.Ra1-a2\n  1...Kh8-g8\n    2.Ra2-a8#\n"
                    "1.Ra1-a3\n  1...Kh8-g8\n    2.Ra3-a8#\n",
                    stipulation="#2",
                )
            ],
            "problem 1: #2",
            "  play",
            "    variations in NEW only",
            "1 problem: 1 differs",
        )

    def test_help_lines(self) -> None:
        stopped = problem(play="1.Kh8-g8 Rb1-b8#\n", stipulation="h#1")[:-1] + ", stopped\n"
        self.check(
            [problem(play="1.Kh8-g8 Ra1-a8#\n", stipulation="h#1")],
            [stopped],
            "problem 1: h#1",
            "  play",
            "    - 1.Kh8-g8 Ra1-a8#",
            "    + 1.Kh8-g8 Rb1-b8#",
            "    solutions: 1 -> solutions: 1, stopped",
            "1 problem: 1 differs; solutions 1 gained, 1 lost; totals 1 changed",
        )

    def test_set_play(self) -> None:
        play = problem(play="1.Kh8-g8 Ra1-a8#\n", stipulation="h#1")
        barred, one, none = (
            play.replace("play\n", f"set\n{lines}play\n")
            for lines in ("not possible\n", "1...Ra1-a8#\nsolutions: 1\n", "solutions: 0\n")
        )
        self.check(
            [barred, one, one],
            [one, none, play],
            "problem 1: h#1",
            "  set",
            "    + 1...Ra1-a8#",
            "    not possible -> solutions: 1",
            "problem 2: h#1",
            "  set",
            "    - 1...Ra1-a8#",
            "    solutions: 1 -> solutions: 0",
            "problem 3: h#1",
            "  set play: yes -> no",
            "3 problems: 3 differ; solutions 1 gained, 1 lost; totals 2 changed",
        )

    def test_faults_gained_and_lost(self) -> None:
        self.check(
            [problem("A"), FAULT.format(line=5), FAULT.format(line=9)],
            [FAULT.format(line=2), problem("B"), "line 9: fault 11: no men\n"],
            "problem 1",
            "  fault",
            "    + fault 14: square expected",
            "problem 2: #1, B",
            "  fault",
            "    - fault 14: square expected",
            "problem 3",
            "  fault",
            "    - fault 14: square expected",
            "    + fault 11: no men",
            "3 problems: 3 differ; faults 2 gained, 2 lost",
        )

    def test_the_problem_itself(self) -> None:
        self.check(
            [problem("A\nauthor: X", KNIGHT_A), problem("B", KNIGHT_A)],
            [problem("A", KNIGHT_B), problem("B", KNIGHT_A, stipulation="#1 Circe")],
            "problem 1: #1, A",
            "  author: X -> none",
            "  board",
            "    - White Sb3",
            "    + White Sc3",
            "problem 2: #1 Circe, B",
            "  stipulation: #1 -> #1 Circe",
            "2 problems: 2 differ",
        )

    def test_problems_gained_and_lost(self) -> None:
        self.check(
            [problem("A", KNIGHT_A), problem("B", KNIGHT_B)],
            [problem("C", KNIGHT_C), problem("A", KNIGHT_A, play="")],
            "+ problem 1: #1, C",
            "problem 1, now 2: #1, A",
            "  play",
            "    - 1.Ra1-a8#",
            "    solutions: 1 -> solutions: 0",
            "- problem 2: #1, B",
            "3 problems: 3 differ; problems 1 gained, 1 lost; solutions 0 gained, 1 lost;"
            " totals 1 changed",
        )

    def test_checked_alone(self) -> None:
        self.check(
            ["#1\nsound\n"], [problem()],
            "problem 1: #1",
            "  solved: no -> yes",
            "1 problem: 1 differs",
        )  # fmt: skip


class Memory(unittest.TestCase):
    # The most bytes that are kept of a problem, of both reports together.
    MOST = 300

    def peak(self, number: int) -> int:
        """The most memory of a comparison of this many problems with themselves in another order."""
        men = [problem(f"Number {it}", KNIGHT_A) for it in range(number)]
        with tempfile.TemporaryDirectory() as room:
            old, new = Path(room) / "old", Path(room) / "new"
            old.write_bytes(report(*men))
            new.write_bytes(report(*men[1:], men[0]))
            del men
            tracemalloc.start()
            try:
                outcome = run_here.companion("pops-compare", str(old), str(new))
                most = tracemalloc.get_traced_memory()[1]
            finally:
                tracemalloc.stop()
        self.assertEqual(outcome, (0, f"{number} problems: nothing differs\n".encode(), ""))
        return most

    def test_little_is_kept_of_each_problem(self) -> None:
        few, more = 2000, 6000
        self.peak(few)
        self.assertLess((self.peak(more) - self.peak(few)) / (more - few), self.MOST)


class Documented(unittest.TestCase):
    def test_the_text_of_the_documents(self) -> None:
        """The collection with one rook taken away and one square written."""
        text = (support.COMPANIONS / "data" / "soundness.pop").read_bytes()
        changed = text.replace(b"Kg6 Ra1b1 ", b"Kg6 Ra1 ").replace(b"Kg6 R Black", b"Kg6 Ra1 Black")
        old, new = (support.run([support.pops()], one).output for one in (text, changed))
        with tempfile.TemporaryDirectory() as room:
            target = Path(room) / "new"
            target.write_bytes(new)
            outcome = run_here.companion("pops-compare", "-", str(target), text=old)
        self.assertEqual(outcome.status, 1)
        self.assertEqual(outcome.output.decode(), test_soundness.documented("pops-compare"))


class Command(unittest.TestCase):
    MATE_IN_TWO = str(support.REPOSITORY / "examples" / "mate_in_two.report")

    def test_the_program_itself_stopped_earlier(self) -> None:
        """The manual: a phase ends after N solutions, in a fixed order."""
        text = (support.REPOSITORY / "examples" / "mate_in_two.pop").read_bytes()
        limited = text.replace(b"Option", b"Option MaxSolutions 10")
        stopped = support.run([support.pops()], limited).output
        outcome = run_here.companion("pops-compare", "-", self.MATE_IN_TWO, text=stopped)
        self.assertEqual(
            outcome.output.decode().splitlines(),
            [
                "problem 1: #2",
                "  play",
                "    + 1.Rb2-b5",
                "    solutions: 10, stopped -> solutions: 11",
                "1 problem: 1 differs; solutions 1 gained, 0 lost; totals 1 changed",
            ],
        )

    def test_standard_input_is_one_of_them(self) -> None:
        text = Path(self.MATE_IN_TWO).read_bytes()
        for words in (("-", self.MATE_IN_TWO), (self.MATE_IN_TWO, "-")):
            outcome = run_here.companion("pops-compare", *words, text=text)
            self.assertEqual(outcome, (0, b"1 problem: nothing differs\n", ""))

    def test_a_file(self) -> None:
        with tempfile.TemporaryDirectory() as room:
            target = Path(room) / "differences"
            outcome = run_here.companion(
                "pops-compare", self.MATE_IN_TWO, self.MATE_IN_TWO, "-o", str(target)
            )
            self.assertEqual(outcome, (0, b"", ""))
            self.assertEqual(target.read_text(), "1 problem: nothing differs\n")

    def test_mistakes_are_no_difference(self) -> None:
        cases: list[tuple[list[str], bytes, int, str]] = [
            (["-", self.MATE_IN_TWO], b"", 3, "standard input is empty: no report of pops"),
            (["-", self.MATE_IN_TWO], b"problem 1\n", 3, "is no report of pops: line 2"),
            (["nowhere", self.MATE_IN_TWO], b"", 3, "cannot open nowhere"),
            (["-", "-"], b"", 2, "only one of the reports"),
            ([self.MATE_IN_TWO], b"", 2, "NEW"),
            ([], b"", 2, "OLD"),
        ]
        for words, text, status, said in cases:
            with self.subTest(words):
                outcome = run_here.companion("pops-compare", *words, text=text)
                self.assertEqual((outcome.status, outcome.output), (status, b""))
                self.assertIn(said, outcome.error)

    def test_help_and_version(self) -> None:
        outcome = support.companion("pops-compare", "--help")
        self.assertEqual((outcome.status, outcome.error), (0, ""))
        self.assertIn(b"exit status: 0 if nothing differs", outcome.output)
        version = support.companion("pops-compare", "--version")
        self.assertTrue(version.output.startswith(b"pops-compare"))
