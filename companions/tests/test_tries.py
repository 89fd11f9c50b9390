"""Texts of pops-tries: how they are read, what is refused, and what pops-test takes from them."""

import csv
import io
import tracemalloc
import unittest

from pops_companions.report.events import Menace
from pops_companions.report.items import FaultyItem
from pops_companions.report.reader import ReportError
from pops_companions.report.tries import TriesItem, TriesReportItem, read_tries
from tests import run_here, support
from tests.plain_tries import plain_tries
from tests.test_sheet import SEVERAL_THREATS

# A text written by hand: a key with a threat that goes on, and a try with two refutations.
TEXT = """\
problem 1
title: Three moves
#3
set
1...h7-h6
  2.Ra1-a8#
solutions: 1
play
1.Ra1-a2!
  threat
    2.Ra2-b2
      2...Kh8-g8
        3.Rb2-b8#
  1...Kh8-g8
    2.Ra2-a8#
  1...h7-h6
    2.Ra2-a8#
    2.Ra2-h2#
1.Ra1-a8#!
solutions: 2, stopped
tries
1.Ra1-b1+?
  check
  1...h7-h6
    2.Rb1-b8#
  but
    1...Kh8-g8!
    1...h7-h5!
tries: 1

problem 2
line 9: fault 11: no men

problem 3
h#2.5 Circe
no tries in help play

"""


def read(text: str) -> list[TriesReportItem]:
    return list(read_tries(io.BytesIO(text.encode())))


class Reading(unittest.TestCase):
    def test_all_parts(self) -> None:
        one, faulty, help_play = read(TEXT)
        assert isinstance(one, TriesItem) and isinstance(help_play, TriesItem)
        self.assertEqual((one.number, one.title, one.stipulation.text), (1, b"Three moves", "#3"))
        assert one.set_play is not None and one.total is not None
        self.assertEqual(one.set_play.last_line, "solutions: 1")
        self.assertEqual((one.total.count, one.total.stopped), (2, True))
        key, at_once = one.keys
        self.assertEqual((key.text, key.menace), ("1.Ra1-a2!", Menace.THREAT))
        (threat,) = key.threats
        self.assertEqual(threat.below[0].below[0].text, "        3.Rb2-b8#")
        self.assertEqual([len(it.below) for it in key.defences], [1, 2])
        self.assertEqual((at_once.menace, at_once.defences), (None, ()))
        (attempt,) = one.tries
        self.assertEqual(attempt.menace, Menace.CHECK)
        self.assertEqual([it.move.text for it in attempt.refutations], ["Kh8-g8", "h7-h5"])
        self.assertEqual(list(one.lines), TEXT.split("\n\n")[0].split("\n")[3:])
        assert isinstance(faulty, FaultyItem)
        self.assertEqual(faulty.fault.number, 11)
        self.assertEqual((help_play.total, help_play.lines), (None, ("no tries in help play",)))

    def test_stalemate(self) -> None:
        """A try that stalemates has that line alone below it, and its lines are kept."""
        shown = "1.Kb6-a6?\n  but\n    stalemate\ntries: 1\n\n"
        text = f"problem 1\n#1\nplay\nsolutions: 0\ntries\n{shown}"
        (item,) = read(text)
        assert isinstance(item, TriesItem)
        (attempt,) = item.tries
        self.assertTrue(attempt.is_stalemate)
        self.assertEqual((attempt.menace, attempt.refutations), (None, ()))
        self.assertEqual("\n".join(item.lines), text.split("#1\n")[1].rstrip("\n"))
        for wrong in ("  but\n", "    stalemate\n", "  but\n    1...Ka8-b8!\n"):
            with self.assertRaises(ReportError):
                read(text.replace("  but\n    stalemate\n", wrong))

    def test_stored_texts(self) -> None:
        """The reader takes each stored text whole, with its keys, tries and refutations."""
        for path in support.tries_inputs():
            text = path.with_suffix(".tries").read_text()
            first_moves = [
                one
                for item in read(text)
                if isinstance(item, TriesItem)
                for one in (*item.keys, *item.tries)
            ]
            refutations = [it for one in first_moves for it in one.refutations]
            shown = [it.text for it in first_moves] + [it.text for it in refutations]
            wanted = [it for it in text.split("\n") if it.endswith(("!", "?"))]
            self.assertEqual(sorted(shown), sorted(wanted), path.name)

    def test_what_is_refused(self) -> None:
        """A text that departs from its form, with the line where it does."""
        for old, new, line in (
            ("1.Ra1-a2!", "1.Ra1-a2", 9),
            ("1.Ra1-a2!", "1.Ra1-a2?", 9),
            ("  threat", "  threats", 10),
            ("  1...Kh8-g8\n    2.Ra2", "    1...Kh8-g8\n    2.Ra2", 14),
            ("solutions: 2", "solutions: 3", 20),
            ("\ntries\n1", "\ntry\n1", 21),
            ("  but\n", "", 26),
            ("    1...Kh8-g8!", "    1...Kh8-g8", 27),
            ("tries: 1", "tries: 2", 29),
            ("no tries in help play", "play", 36),
            ("tries: 1\n\n", "tries: 1\n", 30),
        ):
            with self.subTest(new), self.assertRaises(ReportError) as caught:
                self.assertIn(old, TEXT)
                read(TEXT.replace(old, new, 1))
            self.assertEqual(caught.exception.line, line)
        for length in range(1, len(TEXT) - 1):
            if not TEXT[:length].endswith("\n\n"):
                with self.assertRaises(ReportError):
                    read(TEXT[:length])


# A text as pops-tries writes it without Variation.
PLAIN = """\
problem 1
#2
play
1.Qh8-b2!
  threat
    2.Rc7-c1#
  1...a6-a5
    2.Rc7-c1#
1.Qh8-h1#!
solutions: 2
tries
1.Rc7-c2?
  threat
    2.Qh8-a1#
    2.Qh8-h1#
  but
    1...Ke1-d1!
1.Qh8-h2?
  zugzwang
  1...a6-a5
    2.Rc7-c1#
  but
    1...Ke1-d1!
    1...Ke1-f1+!
1.Rc7-c8?
  but
    stalemate
tries: 3

"""
WRONG = [
    ("  threat\n    2.Rc7-c1#\n", "  threat\n", "no threat"),
    ("    2.Qh8-h1#\n", "    2.Qh8-a1#\n", "a threat twice"),
    ("    2.Qh8-h1#\n", "    2.Qh8-h1\n", "a threat without mate"),
    ("    2.Qh8-h1#\n", "    2.Qh8-h1=\n", "a threat of stalemate"),
    ("  but\n    1...Ke1-d1!\n", "  but\n", "no refutation"),
    ("    1...Ke1-f1+!", "    1...Ke1-d1!", "a refutation twice"),
    ("    1...Ke1-f1+!", "    1...a6-a5!", "a refutation that is a defence"),
    ("    1...Ke1-f1+!", "    1...Ke1-f1=!", "a stalemate that refutes where mate is the goal"),
    ("    1...Ke1-f1+!", "    1...Ke1-f3!", "no move of a king"),
    ("  1...a6-a5\n    2.Rc7-c1#\n1", "  1...a6-a5\n1", "a defence without a continuation"),
    ("  1...a6-a5\n", "  1...a6-a5#\n", "Black mates"),
    ("  1...a6-a5\n", "  1...a6-a4\n", "no move of a pawn"),
    ("1.Qh8-b2!\n  threat\n    2.Rc7-c1#\n  1...a6-a5\n    2.Rc7-c1#\n", "1.Qh8-b2!\n", "a key without its threats"),
    ("1.Qh8-h1#!", "1.Qh8-b2#!", "a key twice"),
    ("1.Qh8-h1#!", "1.Qh8-h1=!", "a key that stalemates"),
    ("1.Qh8-h1#!\n", "1.Qh8-h1#!\n  zugzwang\n", "what is below a mate"),
    ("1.Qh8-h2?", "1.Qh8-h1?", "a key as a try"),
    ("1.Qh8-h2?", "1.Rc7-c2?", "a try twice"),
    ("1.Qh8-h2?", "1.Qh8-h2#?", "a try that mates"),
    ("1.Qh8-h2?", "1.Qh8*h2[+bPh7]?", "a rebirth without Circe"),
    ("1.Qh8-h2?", "1.Bb7-g1?", "no move of a bishop"),
    ("#2\nplay", "s#2\nplay", "stalemate in a selfmate"),
    ("tries: 3", "tries: 03", "a leading zero"),
    ("solutions: 2", "solutions: 02", "a leading zero of keys"),
]


class Strictness(unittest.TestCase):
    """What pops-tries never writes is refused."""

    def test_what_no_problem_shows(self) -> None:
        self.assertEqual(len(read(PLAIN)), 1)
        for old, new, what in WRONG:
            with self.subTest(what), self.assertRaises(ReportError):
                self.assertIn(old, PLAIN)
                read(PLAIN.replace(old, new, 1))

    def test_men_that_are_not_on_the_board(self) -> None:
        ranks = [".......Q", "..R.....", "p..K....", "........", "........", "........", "........", "....k..."]
        board = "".join(f"{8 - place} {rank}\n" for place, rank in enumerate(ranks)) + "  abcdefgh\n"
        text = PLAIN.replace("#2\n", f"{board}#2\n", 1).replace("1.Qh8-h1#", "1.Kd6-d5#")
        self.assertEqual(len(read(text)), 1)
        for old, new in (
            ("1.Qh8-b2!", "1.Qg7-b2!"),
            ("1.Qh8-h2?", "1.Rh8-h2?"),
            ("    2.Qh8-a1#", "    2.Qh7-h1#"),
            ("  1...a6-a5", "  1...a7-a5"),
            ("    1...Ke1-d1!", "    1...Ke2-d1!"),
            ("    2.Rc7-c1#\n  but", "    2.Qh8-h1#\n  but"),
        ):
            with self.subTest(new), self.assertRaises(ReportError):
                self.assertIn(old, text)
                read(text.replace(old, new, 1))


class Testing(support.InRoom):
    """pops-test with a text of tries."""

    def judged(self, text: bytes, tries: bytes, *words: str) -> support.Outcome:
        (self.room / "some.tries").write_bytes(tries)
        report = support.run([support.pops()], text).output
        named = ["--tries", str(self.room / "some.tries")]
        return run_here.companion("pops-test", *named, *words, text=report)

    def test_duals_only_after_defences(self) -> None:
        """Seventeen duals come after all replies, three after the defences."""
        report = support.run([support.pops()], SEVERAL_THREATS).output
        alone = run_here.companion("pops-test", text=report).output.decode()
        self.assertIn("  17 duals at the mate: 17 on move 2\n", alone)
        outcome = self.judged(SEVERAL_THREATS, plain_tries(SEVERAL_THREATS))
        self.assertEqual((outcome.status, outcome.error), (0, ""))
        self.assertEqual(
            outcome.output.decode().split("\n")[:10],
            [
                "problem 1: sound: #2",
                "  3 duals at the mate: 3 on move 2",
                "    1.Qb5-f1 Kh2*g3 2.Qf1-f2# | Qf1-h3#",
                "    1.Qb5-f1 Bf3-g2 2.Qf1*g2# | Rg3*g2#",
                "    1.Qb5-f1 Bf3-g4 2.Qf1-g1# | Qf1-f2# | Qf1-g2#",
                "  1.Qb5-f1: 3 threats",
                "    2.Qf1-g1# | Qf1-h3# | Rg3-h3#",
                "  2 tries with one refutation",
                "    1.Qb5-b2+? Bf3-e2!",
                "    1.Qb5-e2+? Bf3*e2!",
            ],
        )
        rows = self.judged(SEVERAL_THREATS, plain_tries(SEVERAL_THREATS), "--csv").output.decode()
        (row,) = csv.DictReader(io.StringIO(rows))
        self.assertEqual((row["threats"], row["tries"], row["duals_at_the_end"]), ("3", "2", "3"))

    def test_zugzwang_and_what_isnt_shown(self) -> None:
        """Zugzwang is said of the key; without Variation later duals of #3 aren't known."""
        text = (support.REPOSITORY / "examples" / "morphy_1856.pop").read_bytes()
        told = self.judged(text, plain_tries(text)).output.decode()
        self.assertIn("  1.Ra1-a6: zugzwang\n", told)
        three = text.replace(b"#2", b"#3").replace(b"Variation", b"MaxSolutions 1")
        play = "1.Ra1-a6!\n  zugzwang\n  1...Bb8-c7\n    2.Ra6-a5\nsolutions: 1, stopped\n"
        head = plain_tries(three.replace(b"#3", b"#1")).split(b"#1\n")[0].decode()
        tries = f"{head}#3\nplay\n{play}tries\ntries: 0\n\n"
        told = self.judged(three, tries.encode()).output.decode()
        self.assertIn("  duals not shown: they need Variation\n", told)

    def test_a_problem_that_only_the_tries_call_faulty(self) -> None:
        outcome = self.judged(SEVERAL_THREATS, b"problem 1\nline 3: fault 8: bad stipulation\n\n")
        self.assertEqual((outcome.status, outcome.output), (3, b""))
        self.assertIn("calls problem 1 faulty, and the report sound", outcome.error)

    def test_the_tries_of_one_problem_at_a_time(self) -> None:
        """The memory doesn't grow with the text of tries."""
        report = support.run([support.pops()], SEVERAL_THREATS).output.split(b"\n", 1)[1]
        tries = plain_tries(SEVERAL_THREATS).split(b"\n", 1)[1]
        most: dict[int, int] = {}
        for number in (10, 200):
            numbers = [b"problem %d\n" % it for it in range(1, number + 1)]
            (self.room / "some.tries").write_bytes(b"".join(it + tries for it in numbers))
            text = b"".join(it + report for it in numbers)
            tracemalloc.start()
            try:
                named = ["--tries", str(self.room / "some.tries"), "-o", str(self.room / "out")]
                self.assertEqual(run_here.companion("pops-test", *named, text=text).status, 0)
                most[number] = tracemalloc.get_traced_memory()[1]
            finally:
                tracemalloc.stop()
        self.assertLess(most[200], most[10] + 10 * len(text))

    def test_other_keys_and_numbers_twice(self) -> None:
        """A text of tries of another solution is refused: duals would be counted from it alone."""
        text = b"BeginProblem\nTitle A mate\nPieces White Kd6 Qh8 Rc7 Black Ke1 Pa6\nStipulation #2\n"
        text += b"Option Variation\nEndProblem\n"
        tries = plain_tries(text)
        self.assertEqual(self.judged(text, tries).status, 0)
        key = tries[tries.index(b"1.Qh8-b2!") : tries.index(b"solutions: 1")]
        for other in (
            tries.replace(b"1.Qh8-b2!", b"1.Qh8-a1!"),
            tries.replace(key, b"").replace(b"solutions: 1", b"solutions: 0"),
            tries.replace(b"solutions: 1", b"solutions: 1, stopped"),
            tries.replace(b"A mate", b"Another mate"),
            tries.replace(b"title: A mate\n", b""),
        ):
            with self.subTest(other):
                self.assertNotEqual(other, tries)
                outcome = self.judged(text, other)
                self.assertEqual((outcome.status, outcome.output), (3, b""))
                self.assertIn("the text of tries has another problem 1 than the report", outcome.error)
        outcome = self.judged(text, tries + tries)
        self.assertEqual((outcome.status, outcome.output), (3, b""))
        self.assertIn("some.tries has problem 1 twice", outcome.error)

    def test_texts_that_dont_fit(self) -> None:
        other = plain_tries(SEVERAL_THREATS).replace(b"7 .....r..", b"7 p....r..")
        outcome = self.judged(SEVERAL_THREATS, other)
        self.assertEqual((outcome.status, outcome.output), (3, b""))
        self.assertIn("the text of tries has another problem 1 than the report", outcome.error)
        outcome = self.judged(SEVERAL_THREATS, b"problem 1\n")
        self.assertEqual(outcome.status, 3)
        self.assertIn("some.tries is no text of pops-tries: line 2: ", outcome.error)
        outcome = self.judged(SEVERAL_THREATS, b"")
        self.assertEqual((outcome.status, outcome.output), (3, b""))
        self.assertIn("some.tries is empty: no text of pops-tries", outcome.error)
