"""The plain solver of the tests beside pops, and what the definitions of tries and threats say."""

import io
import unittest

from pops_companions.chess.stipulation import Play
from pops_companions.input.pieces import cut
from pops_companions.input.reading import read_piece
from pops_companions.many.tries_program import find_tries
from pops_companions.report.events import Menace
from pops_companions.report.moves import Mark
from pops_companions.report.tries import FirstMove, TriesItem, read_tries
from tests import support
from tests.made_battles import made_text
from tests.plain_tries import plain_report, plain_tries

MATE_IN_TWO = (
    b"BeginProblem\nPieces White Kd6 Qh8 Rc7 Black Ke1 Pa6\nStipulation #2\nOption NoBoard\n"
    b"EndProblem\n"
)


def items(text: bytes) -> list[TriesItem]:
    """The sound problems of a text of tries."""
    return [it for it in read_tries(io.BytesIO(text)) if isinstance(it, TriesItem)]


def texts(moves: tuple[FirstMove, ...]) -> list[str]:
    return [it.text for it in moves]


class BesidePops(unittest.TestCase):
    def agree(self, text: bytes) -> None:
        theirs = support.run([support.pops()], text).output.split(b"\n\n")
        for one, other in zip(plain_report(text).split(b"\n\n"), theirs):
            self.assertEqual(one.decode(), other.decode())

    def test_made_problems(self) -> None:
        """Keys, variations, set play, limits and faults under all conditions."""
        self.agree(made_text(20261128, 60))

    def test_small_examples_and_rows(self) -> None:
        tried = 0
        for path in support.stored_inputs():
            text = path.read_bytes()
            readings = [read_piece(text, piece) for piece in cut(text)]
            stipulations = [it.stipulation for it in readings if it.stipulation is not None]
            is_small = all(len(it.men) < 9 for it in readings) and not support.row_options(path)
            if is_small and all(it.play is not Play.HELP and it.moves < 3 for it in stipulations):
                with self.subTest(path.name):
                    self.agree(text)
                tried += 1
        self.assertGreater(tried, 15)


class BesidePopsTries(unittest.TestCase):
    def test_stored_texts(self) -> None:
        """The plain solver, and pops-tries where it is, write what is stored."""
        program = find_tries(None, support.pops())
        for path in support.tries_inputs():
            options, text = support.row_options(path), path.read_bytes()
            stored = path.with_suffix(".tries").read_text()
            with self.subTest(path.name):
                refutations = int(options[1]) if options else 1
                self.assertEqual(plain_tries(text, refutations).decode(), stored)
                if program is not None:
                    theirs = support.run([program, *options], text).output
                    self.assertEqual(theirs.decode(), stored)

    def test_made_problems(self) -> None:
        """All of the text: keys, threats, zugzwang, defences, tries and refutations."""
        program = find_tries(None, support.pops())
        if program is None:
            print("test_plain: no pops-tries here: its text wasn't compared")
            return
        for seed, refutations in ((31, 0), (32, 1), (33, 3)):
            text = made_text(seed, 25)
            theirs = support.run([program, "--refutations", str(refutations)], text).output
            ours = plain_tries(text, refutations)
            for one, other in zip(ours.split(b"\n\n"), theirs.split(b"\n\n")):
                self.assertEqual(one.decode(), other.decode())


class Definitions(unittest.TestCase):
    def test_the_mate_in_two_of_the_manual(self) -> None:
        """Its try 1.Qh8-h2 is refuted by 1...Ke1-d1 alone."""
        (item,) = items(plain_tries(MATE_IN_TWO))
        self.assertEqual(texts(item.keys), ["1.Qh8-b2!"])
        (one,) = [it for it in item.tries if it.text == "1.Qh8-h2?"]
        self.assertEqual([it.text for it in one.refutations], ["    1...Ke1-d1!"])

    def test_each_first_move_once(self) -> None:
        """With many refutations allowed, first moves are keys or tries, each once, in order."""
        text = made_text(7, 8)
        most = items(plain_tries(text, 200))
        for number, item in enumerate(most, start=1):
            keys, tries = texts(item.keys), texts(item.tries)
            self.assertEqual(len({*keys, *tries}), len(keys) + len(tries), number)
        for refutations in (0, 1, 2):
            for item, whole in zip(items(plain_tries(text, refutations)), most):
                wanted = [it for it in whole.tries if len(it.refutations) <= refutations]
                self.assertEqual((item.keys, list(item.tries)), (whole.keys, wanted))

    def test_what_is_below_a_first_move(self) -> None:
        """Threats, zugzwang or check, as the move says; refutations are defences not shown twice."""
        for item in items(plain_tries(made_text(12, 20))):
            for one in (*item.keys, *item.tries):
                self.assertEqual(bool(one.threats), one.menace is Menace.THREAT)
                is_check = one.move.mark is Mark.CHECK
                self.assertEqual(one.menace is Menace.CHECK, is_check, one.text)
                shown = {it.move.text for it in one.defences}
                self.assertFalse(shown & {it.move.text for it in one.refutations})

    def test_help_play_and_faults(self) -> None:
        text = (
            b"BeginProblem\nPieces White Kg6 Ra1 Black Kh8\nStipulation h#1\nOption NoBoard\n"
            b"NextProblem\nPieces White Kg6 Black Kg7\nStipulation #1\nEndProblem\n"
        )
        self.assertEqual(
            plain_tries(text).decode(),
            "problem 1\nh#1\nno tries in help play\n\n"
            "problem 2\nline 8: fault 18: side not to move is in check\n\n",
        )
