"""Published solutions: stored texts made from them, and collections of YACPDB beside pops-tries.

Debian's package pychess has the collections; $POPS_PUBLISHED names another folder of .olv files.
Without them, or without pops-tries, a line says that nothing was compared.
"""

import os
import unittest
from pathlib import Path

from pops_companions.input.given import given_problems
from pops_companions.many.tries_program import find_tries
from tests import support
from tests.published import Found, compare, read_problems
from tests.published_text import Menace, read_solution
from tests.published_tries import VagueError, published_tries, solution_of

COLLECTIONS = Path(os.environ.get("POPS_PUBLISHED", "/usr/share/pychess/learn/puzzles"))
# The collections that are compared, and the least number of their tries.
_COMPARED = ("baird.olv", "kubbel.olv")
_TRIES = 1500

# Four ways of writing the same solution.
SAME = (
    "1...Kh7\n 2.Ra8 #\n1.Rb1+ ? {(a remark)}\n but\n  1...Kg8 !\n"
    "1.Ra2 ! threat:\n  2.Ra8 #\n 1...h5\n  2.Rh2 #",
    "1...Kh7 2.Ra8#\n\n1.Rb1+??\nbut 1...Kg8!\n\n1.Ra2[A]! (2.Ra8#)\n  1...h5 2.Rh2#",
    "1... Kh7 2. Ra8#\n1. Rb1+? Kg8!\n1. Ra2! [2. Ra8#]\n1... h5 2. Rh2#",
    "1...Kh7 2.Ra8#\n1.Rb1+? 1...Kg8!\n1.Ra2! threat Ra8#\n1....h5 2.Rh2#",
)


class Reading(unittest.TestCase):
    def test_ways_of_writing(self) -> None:
        for text in SAME:
            with self.subTest(text):
                set_play, attempt, key = read_solution(text)
                self.assertEqual([it.mates for it in set_play.replies], [["Ra8"]])
                self.assertEqual((attempt.move, attempt.is_try), ("Rb1", True))
                self.assertEqual(attempt.refutations, ["Kg8"])
                self.assertEqual((key.move, key.sign, key.threats), ("Ra2", "!", ["Ra8"]))
                self.assertEqual(key.menaces, {Menace.THREAT})
                (reply,) = key.replies
                self.assertEqual((reply.defences, reply.mates), (["h5"], ["Rh2"]))

    def test_several_of_each(self) -> None:
        """Threats, defences and mates side by side, promotions, castling, unknown words."""
        _, key = read_solution("1.e8=Q! (2.h8S#/Qb1#) 1...O-O/Kd7/bxa1=B 2.Nf6#/0-0-0#, Q~#")
        self.assertEqual((key.move, key.threats), ("e8=Q", ["h8S", "Qb1"]))
        (reply,) = key.replies
        self.assertEqual(reply.defences, ["O-O", "Kd7", "bxa1=B"])
        self.assertEqual((reply.mates, key.unknown), (["Nf6", "0-0-0"], ["Q~"]))


class Stored(unittest.TestCase):
    def test_stored_texts(self) -> None:
        """The published solutions in remarks give the stored texts, to the byte."""
        tried = 0
        for path in support.tries_inputs():
            text = path.read_bytes()
            if all(solution_of(it.remarks) for it in given_problems(text)):
                options = support.row_options(path)
                refutations = int(options[1]) if options else 1
                made = published_tries(text, refutations).decode()
                self.assertEqual(made, path.with_suffix(".tries").read_text(), path.name)
                tried += 1
        self.assertEqual(tried, 3)

    def test_vague_moves(self) -> None:
        """A move that is none, or one of two, is refused."""
        for move in ("Rb5", "Rd1", "Sc3"):
            text = f"BeginProblem\nRemark solution: 1.{move}!\nPieces White Ke2 Ra1 Rh1 Black Kb7\n"
            with self.subTest(move), self.assertRaises(VagueError):
                published_tries(f"{text}Stipulation #2\nEndProblem\n".encode())


class Collections(unittest.TestCase):
    @support.needs_module("yaml")
    def test_published_tries(self) -> None:
        """What differs is the texts' fault, not that of pops-tries."""
        program = find_tries(None, support.pops())
        files = [COLLECTIONS / it for it in _COMPARED]
        missing = next((str(it) for it in files if not it.exists()), None)
        if program is None or missing is not None:
            print(f"test_published: no {missing or 'pops-tries'}: solutions weren't compared")
            return
        found = Found()
        compare(program, list(read_problems(files, found)), found)
        self.assertEqual(found.faults, [])
        self.assertGreater(found.counts["refutations of a try"], _TRIES)
        self.assertEqual(found.counts["refutations of a try"], found.counts["try"])
