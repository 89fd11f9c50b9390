"""popeye-py: its solutions are those that Popeye wrote, and its command line is Popeye's.

data/popeye_solutions.txt has fifty mates in two as YACPDB publishes them, with the solutions that
Popeye made: a line with author and source, a line of men, the solution, an empty line.
"""

import unittest
from pathlib import Path
from typing import NamedTuple

from pops_companions.many.tries_program import find_tries
from tests import support

PUBLISHED = Path(__file__).resolve().parent / "data" / "popeye_solutions.txt"
MORPHY = "BeginProblem\nPieces White Kc8 Ra1 Pb6 Black Ka8 Bb8 Pa7b7\nStipulation #2\n"


class Problem(NamedTuple):
    """A published problem: its men, and the words of its solution."""

    men: str
    solution: list[str]


def published() -> list[Problem]:
    blocks = PUBLISHED.read_text("utf-8").strip().split("\n\n")
    rows = [block.split("\n") for block in blocks]
    return [Problem(men, " ".join(solution).split()) for _, men, *solution in rows]


def solutions(output: str) -> list[list[str]]:
    """The words of each solution: what is between the line below a board and the line of the time."""
    found = []
    for part in output.split("solution finished. Time = ")[:-1]:
        below = part.rsplit("+---a---b---c---d---e---f---g---h---+\n", 1)[1]
        found.append(below.split("\n", 1)[1].split())
    return found


def solved(text: str, *words: str) -> support.Outcome:
    return support.companion("popeye-py", "--pops", support.pops(), *words, text=text.encode())


class Published(unittest.TestCase):
    def test_fifty_solutions_of_popeye(self) -> None:
        problems = published()
        self.assertEqual(len(problems), 50)
        blocks = [f"Pieces {it.men}\nStipulation #2\nOption Variation\n" for it in problems]
        outcome = solved("BeginProblem\n" + "NextProblem\n".join(blocks) + "EndProblem\n")
        self.assertEqual((outcome.status, outcome.error), (0, ""))
        found = solutions(outcome.output.decode())
        self.assertEqual(len(found), len(problems))
        for problem, solution in zip(problems, found):
            with self.subTest(problem.men):
                self.assertEqual(solution, problem.solution)


class Options(unittest.TestCase):
    def words(self, options: str) -> list[str]:
        outcome = solved(f"{MORPHY}{options}EndProblem\n")
        self.assertEqual(outcome.status, 0, outcome.error)
        (found,) = solutions(outcome.output.decode())
        return found

    def test_keys_alone(self) -> None:
        self.assertEqual(self.words(""), ["1.Ra1-a6", "!"])

    def test_tries_have_their_refutations(self) -> None:
        """On 1.Rxa7+ the bishop takes; after 1.Ra5 the pawn has a square."""
        words = " ".join(self.words("Option Variation Try\n"))
        self.assertIn("1.Ra1*a7 + ? but 1...Bb8*a7 !", words)
        self.assertIn("1.Ra1-a6 ! zugzwang. 1...b7*a6 2.b6-b7 #", words)
        self.assertIn("but 1...a7-a6 !", words)

    def test_help_play(self) -> None:
        men = "Pieces White Kg6 Ra1 Black Kh8\n"
        outcome = solved(f"BeginProblem\n{men}Stipulation h#1\nEndProblem\n")
        self.assertEqual(solutions(outcome.output.decode()), [["1.Kh8-g8", "Ra1-a8", "#"]])

    def test_twins(self) -> None:
        men = "Pieces White Kg6 Ra1 Black Kh8\n"
        outcome = solved(f"BeginProblem\n{men}Stipulation h#1\nTwin Move a1 b2\nEndProblem\n")
        wanted = [["a)", "1.Kh8-g8", "Ra1-a8", "#"], ["b)", "1.Kh8-g8", "Rb2-b8", "#"]]
        self.assertEqual(solutions(outcome.output.decode()), wanted)


class Command(support.InRoom):
    def test_words_of_popeye_are_taken(self) -> None:
        file = self.room / "some.inp"
        file.write_text(f"{MORPHY}EndProblem\n")
        words = ["-maxmem", "100M", "-maxpos", "1000", "-maxtime", "6000", str(file)]
        outcome = solved("", *words)
        self.assertEqual((outcome.status, outcome.error), (0, ""))
        self.assertIn(b"\n8  -K  -B   K   .   .   .   .   .   8\n", outcome.output)
        self.assertRegex(outcome.output.decode(), r"\n  #2 +3 \+ 4\n")

    def test_time(self) -> None:
        men = "Pieces White Ke1 Qd1 Ra1h1 Bc1f1 Sb1g1 Black Ke8 Qd8 Ra8h8 Bc8f8 Sb8g8\n"
        # (on a busy machine it takes longer to show the problem)
        for seconds in ("1", "20", "400"):
            words = ("-maxtime", seconds)
            outcome = solved(f"BeginProblem\n{men}Stipulation #12\nEndProblem\n", *words)
            if outcome.output:
                break
        self.assertEqual(outcome.status, 1)
        self.assertIn(b"\nPartial solution Time = ", outcome.output)

    def test_time_that_ends_before_a_problem_is_shown(self) -> None:
        """The next problem is solved."""
        program = find_tries(None, support.pops())
        text = f"{MORPHY}NextProblem\n{MORPHY[13:]}EndProblem\n"
        does = f"mkdir '{self.room}/begun' || exec '{program}' \"$@\"\nexec sleep 9999"
        slow = self.write_program("tries", f"#!/bin/sh\n{does}\n")
        # (on a busy machine it takes longer to solve the other)
        for seconds in ("2", "20", "400"):
            outcome = solved(text, "-maxtime", seconds, "--pops-tries", slow)
            if outcome.output:
                break
            (self.room / "begun").rmdir()
        self.assertEqual(outcome.status, 1)
        self.assertEqual(outcome.error, "popeye-py: problem 1: left out: the time is over\n")
        self.assertEqual(outcome.output.count(b"solution finished."), 1)

    def test_time_that_no_clock_holds(self) -> None:
        outcome = solved(f"{MORPHY}EndProblem\n", "-maxtime", "9" * 17)
        self.assertEqual((outcome.status, outcome.error), (0, ""))

    def test_what_pops_cannot_pose(self) -> None:
        outcome = solved(f"{MORPHY}Condition Koeko\nEndProblem\n")
        self.assertEqual((outcome.status, outcome.output), (1, b""))
        self.assertEqual(
            outcome.error, "popeye-py: problem 1: left out: pops knows no condition Koeko\n"
        )
        self.assertEqual(solved("").status, 3)
        self.assertEqual(solved("", "/no/such.inp").status, 3)

    def test_a_program_that_writes_no_report(self) -> None:
        program = self.write_program("pops", "#!/bin/sh\necho nothing\n")
        text = f"{MORPHY}EndProblem\n".encode()
        outcome = support.companion("popeye-py", "--pops", program, text=text)
        self.assertEqual(outcome.status, 3)
        self.assertEqual(outcome.error.count("\n"), 1)

    def test_a_program_that_shows_another_problem(self) -> None:
        """It writes nothing, calls the problem faulty, or has no key."""
        fault = f"'{support.pops()}' < /dev/null"
        keyless = f"'{support.pops()}' | sed '/^1[.]/,$d'; printf 'solutions: 0\\n\\n'"
        for shows in ("", fault, keyless):
            liar = self.write_program("pops", f"#!/bin/sh\n{shows}\n")
            outcome = support.companion("popeye-py", "--pops", liar, text=f"{MORPHY}EndProblem\n".encode())
            self.assertEqual((outcome.status, outcome.output), (3, b""))
            self.assertEqual(outcome.error, "popeye-py: pops-tries shows another problem than pops\n")

    def test_a_program_of_tries_that_lies(self) -> None:
        """It shows half of its text, up to the end of a line, or another problem."""
        text = f"{MORPHY}EndProblem\n".encode()
        program = find_tries(None, support.pops())
        assert program is not None
        whole = support.run([program], text.replace(b"EndProblem", b"Option Variation EndProblem")).output
        half = whole[: whole.index(b"\n", len(whole) // 2) + 1]
        liar = self.write_program("tries", f"#!/bin/sh\ncat > /dev/null\ncat '{self.room}/shown'\n")
        for shown, why in (
            (half, "tries ended with status 0"),
            (whole.replace(b"5 ........", b"5 .......p"), "pops-tries shows another problem than pops"),
        ):
            (self.room / "shown").write_bytes(shown)
            outcome = solved(text.decode(), "--pops-tries", liar)
            self.assertEqual((outcome.status, outcome.output), (3, b""))
            self.assertEqual(outcome.error, f"popeye-py: {why}\n")

    def test_what_pops_finds_faulty(self) -> None:
        """The problems after it are solved."""
        in_check = "Pieces White Kg6 Ra8 Black Kg8\nStipulation #2\n"
        outcome = solved(f"{MORPHY}NextProblem\n{in_check}NextProblem\n{MORPHY[13:]}EndProblem\n")
        self.assertEqual(outcome.status, 1)
        self.assertEqual(outcome.error, "popeye-py: problem 2: left out: side not to move is in check\n")
        self.assertEqual(outcome.output.count(b"solution finished."), 2)
