"""pops-sheet: published solutions in short notation, forms, languages, authors, refusals.

The texts of tries come from the plain solver of the tests.
"""

import functools
import html
import io
import os
import re
import shutil
import subprocess
import sys
import tempfile
import unittest
from pathlib import Path
from typing import Optional
from unittest import mock

from pops_companions.chess.men import Colour, Kind, Man, Square
from pops_companions.chess.stipulation import Condition
from pops_companions.commands.sheet import LONGEST_ROOM, printed
from pops_companions.report.items import SoundItem
from pops_companions.report.moves import PlayedMove
from pops_companions.report.reader import read_report
from pops_companions.report.tries import TriesItem, read_tries
from pops_companions.sheet.boards import arrivals
from pops_companions.sheet.entries import Entry, index_of
from pops_companions.sheet.languages import LANGUAGES, marked_as
from pops_companions.sheet.solution import Solution, TriesShown
from pops_companions.show.authors import persons
from tests import run_here, support
from tests.plain_tries import plain_tries
from tests.shown_limit import limit_when_shown, shown

# As the database YACPDB has it, a version of a problem of 1859 (tests/tries/organ_pipes.pop).
ORGAN_PIPES = (
    b"BeginProblem\nTitle The Organ Pipes\nAuthor Loyd, Samuel\nOrigin Chess Monthly 1860\n"
    b"Pieces White Kg3 Qh5 Se3 Pb3 Pd2 Pf4 Black Kd4 Rd8 Re8 Bc8 Bf8 Pa6 Pb4 Pd3 Pe4 Pg4\n"
    b"Stipulation #2\nEndProblem\n"
)
SEVERAL_THREATS = (
    b"BeginProblem\nPieces White Ke3 Qb5 Rd6 Rg3 Be4 Bf5 Se6 Black Kh2 Rf7 Bf3\n"
    b"Stipulation #2\nOption Variation\nEndProblem\n"
)
OF_THE_MANUAL = (
    b"BeginProblem\nPieces White Kd6 Qh8 Rc7 Black Ke1 Pa6\nStipulation #2\nOption Variation\n"
    b"EndProblem\n"
)
# By Edith Baird, Leeds Mercury 1902; the key is 1.Bh7.
BAIRD = (
    b"BeginProblem\nPieces White Kb6 Qh5 Rd1a4 Bg6h8 Sa3d8 Pb2f2a5 Black Kd4 Rd3g7 Be1 Sb4 Pd2b3f3a6h6\n"
    b"Stipulation s#2\nEndProblem\n"
)
HEAD = "BeginProblem\nTitle A pair a)\nAuthor Loyd, Samuel & Shinkman, Will\n"
TWINS = (
    f"{HEAD}Origin The Source 1900\nRemark award: 1st Prize\n"
    "Pieces White Kg6 Ra1 Black Kh8\nStipulation h#1\nOption SetPlay\nNextProblem\n"
    f"{HEAD[13:].replace('a)', 'b)')}Remark b) Move a1 b2\n"
    "Pieces White Kg6 Rb2 Black Kh8\nStipulation h#1\nEndProblem\n"
).encode()
WITH_FAIRY_MEN = (
    b"BeginProblem\nAuthor Sam Loyd\nPieces White Ka1 Gd5 Nc3 Rb7 Black Kh8 Pg7h7\n"
    b"Stipulation #1\nOption NoBoard\nEndProblem\n"
)


def men_of(text: str) -> dict[Square, Man]:
    """Men by letters and squares, as `Kg6 ra1`: White's are capital."""
    return {Square.of_name(it[1:]): Man.of_letter(it[0]) for it in text.split()}


def lines(
    men: str,
    asked: str,
    play: str,
    tries: Optional[str] = None,
    shown: TriesShown = TriesShown.ALL,
) -> list[str]:
    """The lines of a solution in English, set in by two blanks a level; headings end in a colon."""
    (item,) = read_report(io.BytesIO(f"problem 1\n{asked}\n{play}\n".encode()))
    assert isinstance(item, SoundItem)
    own: Optional[TriesItem] = None
    if tries is not None:
        (found,) = read_tries(io.BytesIO(f"problem 1\n{asked}\n{tries}\n".encode()))
        assert isinstance(found, TriesItem)
        own = found
    language = LANGUAGES["en"]
    blocks = Solution(men_of(men), item.condition, language, shown).blocks(item, own)
    told: list[str] = []
    for block in blocks:
        told += [f"{block.heading}:"] if len(blocks) > 1 else []
        for line in block.lines:
            told.append("  " * line.level + line.text.translate(marked_as(language, {})))
    return told


@functools.lru_cache(maxsize=None)
def tries_of(text: bytes) -> bytes:
    """The text of tries of an input, made once."""
    return plain_tries(text)


class Case(support.InRoom):
    """A folder with an input, its text of tries, and a program that makes it."""

    def setUp(self) -> None:
        super().setUp()
        does = f"cd {support.COMPANIONS} && exec {sys.executable} -m tests.plain_tries \"$@\""
        self.tries = self.write_program("plain-tries", f"#!/bin/sh\n{does}\n")

    def sheet(self, text: bytes, *words: str) -> support.Outcome:
        """The sheet of an input with its text of tries."""
        (self.room / "some.tries").write_bytes(tries_of(text))
        return self.made(text, "--tries-text", str(self.room / "some.tries"), *words)

    def made(self, text: bytes, *words: str) -> support.Outcome:
        """The sheet of an input, for which pops is run."""
        given = self.room / "given.pop"
        given.write_bytes(text)
        # (a busy machine takes no problem to the end of this time)
        own = ["--pops", support.pops(), "--seconds", str(support.PATIENCE)]
        return run_here.companion("pops-sheet", str(given), *own, *words)

    def text(self, text: bytes, *words: str) -> str:
        outcome = self.sheet(text, "--to", "text", *words)
        self.assertEqual((outcome.status, outcome.error), (0, ""))
        return outcome.output.decode()


class Published(Case):
    """Solutions as published."""

    def test_the_organ_pipes(self) -> None:
        """Zugzwang; rooks and bishops interfere on each of four squares, in both orders."""
        told = self.text(ORGAN_PIPES)
        self.assertIn("1. Samuel Loyd: The Organ Pipes\n  Chess Monthly 1860\n", told)
        self.assertIn("  #2 (6 + 10)\n", told)
        self.assertIn("Authors\n  Loyd, Samuel: 1\n", told)
        solution = told.split("  Solution\n")[1].split("\n\n")[0].split("\n")
        self.assertEqual(solution[0].strip(), "1.Qa5! zugzwang")
        mates: dict[str, str] = {}
        for line in solution[1:]:
            found = re.fullmatch(r" +1\.\.\.(\S+) 2\.(\S+)", line)
            assert found is not None, line
            mates.update(dict.fromkeys(found[1].split(","), found[2]))
        for defence, mate in (
            *(("Bd7", "Qd5#"), ("Rd7", "Sf5#"), ("Be7", "Qe5#"), ("Re7", "Qxb4#")),
            *(("Bd6", "Qd5#"), ("Rd6", "Qxb4#"), ("Be6", "Qe5#"), ("Re6", "Sf5#")),
            *(("Bb7", "Sf5#"), ("Bf5", "Sxf5#"), ("Bc5", "Qa1#")),
            *((bishop, mate) for bishop in ("Bg7", "Bh6") for mate in ("Qxb4#", "Qb6#")),
            *(("Rd5", "Qxd5#"), ("Re5", "Qxe5#")),
        ):
            self.assertIn(mate, mates[defence].split("/"), defence)

    def test_the_try_of_the_organ_pipes(self) -> None:
        """The version of 1859, with its published try."""
        told = self.text((support.REPOSITORY / "tests/tries/organ_pipes.pop").read_bytes())
        attempt = "    1.Qb5? threat: 2.Qc4#\n      1...Be6 2.Qe5#\n      but 1...axb5!\n"
        self.assertIn(attempt, told.split("\n\n")[0])

    def test_several_threats(self) -> None:
        """The key threatens three mates; one defence stops all, three stop one or two."""
        told = self.text(SEVERAL_THREATS)
        self.assertEqual(
            told.split("  Solution\n")[1],
            "    1.Qf1! threat: 2.Qg1#/Qh3#/Rh3#\n      1...Kxg3 2.Qf2#/Qh3#\n"
            "      1...Bg2 2.Qxg2#/Rxg2#\n      1...Bg4 2.Qg1#/Qf2#/Qg2#\n      1...Rh7 2.Qg1#\n",
        )

    def test_the_try_of_the_manual(self) -> None:
        told = self.text(OF_THE_MANUAL).split("\n")
        place = told.index("    1.Qh2? threat: 2.Rc1#")
        self.assertEqual(told[place + 1], "      but 1...Kd1!")
        self.assertEqual(told[told.index("  Solution") + 1], "    1.Qb2! threat: 2.Rc1#")

    def test_morphy(self) -> None:
        """1.Ra6! bxa6 2.b7#, any move of the bishop 2.Rxa7#."""
        told = self.text((support.REPOSITORY / "examples" / "morphy_1856.pop").read_bytes())
        place = told.index("1.Ra6! zugzwang")
        found = [line.strip() for line in told[place:].split("\n\n")[0].split("\n")]
        mates = {it: line.split(" 2.")[1] for line in found[1:] for it in _defences(line)}
        self.assertEqual(mates.pop("bxa6"), "b7#")
        self.assertEqual(set(mates.values()), {"Rxa7#"})
        self.assertTrue(all(it[0] == "B" for it in mates))

    def test_help_play_of_twins(self) -> None:
        told = self.text(TWINS)
        self.assertEqual(
            told,
            "1. Samuel Loyd & Will Shinkman: A pair\n  The Source 1900, 1st Prize\n"
            "  White Kg6 Ra1, Black Kh8\n  h#1 (2 + 1)\n"
            "  a)\n  Set play\n    1...Ra8#\n  Solution\n    1.Kg8 Ra8#\n"
            "  b) Ra1→b2\n  1.Kg8 Rb8#\n\n"
            "Authors\n  Loyd, Samuel: 1\n  Shinkman, Will: 1\n",
        )


def _defences(line: str) -> list[str]:
    found = re.match(r"1\.\.\.(\S+)", line)
    return [] if found is None else found[1].split(",")


class Lines(unittest.TestCase):
    def test_men_told_apart(self) -> None:
        """By file, by rank, by both, and not where the other man is pinned or only near."""
        for men, move, wanted in (
            ("Ke1 Sb1 Sf3 kh8", "Sb1-d2", "Sbd2"),
            ("Ke1 Rd1 Rd8 kh7", "Rd1-d5", "R1d5"),
            ("Kh1 Qa1 Qa5 Qe1 kh8", "Qa1-c3", "Qa1c3"),
            ("Ke1 Se2 Sb1 re8 kh8", "Sb1-c3", "Sc3"),
            ("Ke1 Sb1 Sg6 kh8", "Sb1-c3", "Sc3"),
            ("Ke1 Pd5 Pf5 pe5 kh8", "d5*e6 ep.", "dxe6 ep."),
            ("Ke1 Pb7 ra8 kh6", "b7*a8=Q", "bxa8=Q"),
            ("Ke1 Rh1 kh8", "0-0", "0-0"),
            ("Kg1 Rb3 Gd1 kh8", "Gd1-h5", "Gh5"),
        ):
            with self.subTest(move):
                play = f"play\n1.{move}#\nsolutions: 1\n"
                self.assertEqual(lines(men, "#1", play), [f"1.{wanted}#!"])

    def test_madrasi_and_circe(self) -> None:
        """A paralysed man is no rival; a rebirth is shown with its colour."""
        play = "play\n1.Rd1-d5#\nsolutions: 1\n"
        self.assertEqual(lines("Ke1 Rd1 Rd8 kh7", "#1 Madrasi", play), ["1.R1d5#!"])
        self.assertEqual(lines("Ke1 Rd1 Rd8 rh8 kh7", "#1 Madrasi", play), ["1.Rd5#!"])
        play = "play\n1.Rb3*d3[+bPd7]#\nsolutions: 1\n"
        self.assertEqual(lines("Ke1 Rb3 pd3 kh7", "#1 Circe", play), ["1.Rxd3[+bPd7]#!"])

    def test_stalemate(self) -> None:
        """A try that stalemates has nothing but that below it."""
        play = "play\n1.c7-c8=Q#\n1.c7-c8=R#\nsolutions: 2\n"
        tries = (
            "play\n1.c7-c8=Q#!\n1.c7-c8=R#!\nsolutions: 2\n"
            "tries\n1.Kb6-a6?\n  but\n    stalemate\ntries: 1\n"
        )
        self.assertEqual(
            lines("Kb6 Pc7 ka8", "#1", play, tries),
            ["Tries:", "1.Ka6?", "  but stalemate", "Solution:", "1.c8=Q#!", "1.c8=R#!"],
        )

    def test_same_continuations_together(self) -> None:
        """The rook needs its file after one defence alone: both defences show it."""
        play = (
            "play\n1.Kb6-c6\n  1...Kh8-g8\n    2.Ra1-a8#\n  1...h7-h6\n    2.Ra1-a8#\n"
            "  1...h7-h5\n    2.Ra1-a8#\n    2.Rf1-f8#\nsolutions: 1\n"
        )
        self.assertEqual(
            lines("Kb6 Ra1 Rf1 kh8 ph7", "#2", play),
            ["1.Kc6!", "  1...Kg8,h6 2.Ra8#", "  1...h5 2.Ra8#/Rf8#"],
        )

    def test_deeper_trees(self) -> None:
        """What goes on in one way stays in its line; branches are set in below it."""
        play = (
            "play\n1.Ra1-a2\n  1...Kh8-g8\n    2.Ra2-a3\n      2...Kg8-h8\n        3.Ra3-a8#\n"
            "  1...h7-h6\n    2.Ra2-a3\n      2...Kh8-g8\n        3.Ra3-a8#\n"
            "      2...h6-h5\n        3.Ra3-h3#\n    2.Ra2-a4\n      2...Kh8-g8\n"
            "        3.Ra4-a8#\nsolutions: 1\n"
        )
        self.assertEqual(
            lines("Kf7 Ra1 kh8 ph7", "#3", play),
            [
                *("1.Ra2!", "  1...Kg8 2.Ra3 Kh8 3.Ra8#", "  1...h6"),
                *("    2.Ra3", "      2...Kg8 3.Ra8#", "      2...h5 3.Rh3#"),
                "    2.Ra4 Kg8 3.Ra8#",
            ],
        )

    def test_selfmates_set_play_and_stopped_play(self) -> None:
        play = (
            "set\n1...Rb8-b1#\nsolutions: 1\nplay\n1.Qa1-a2\n  1...Rb8-b1#\n"
            "  1...Rb8-c8\n    2.Qa2-g8+\n      2...Rc8*g8#\nsolutions: 1, stopped\n"
        )
        self.assertEqual(
            lines("Kh1 Qa1 Ph2 Pg2 rb8 kh8", "s#2", play),
            [
                *("Set play:", "1...Rb1#", "Solution:", "1.Qa2!"),
                *("  1...Rb1#", "  1...Rc8 2.Qg8+ Rxg8#", "(and perhaps more)"),
            ],
        )
        self.assertEqual(
            lines("Kg6 kh8", "#2", "set\nnot possible\nplay\nsolutions: 0\n"), ["no solution"]
        )

    def test_set_play_without_solutions_is_left_out(self) -> None:
        play = "play\n1.Ra1-a8#\nsolutions: 1\n"
        self.assertEqual(
            lines("Kg6 Ra1 kh8", "#1", "set\nsolutions: 0\n" + play), ["1.Ra8#!"]
        )

    def test_a_threat_in_several_moves(self) -> None:
        tries = (
            "play\n1.Ra1-a2!\n  threat\n    2.Ra2-b2\n      2...Kh8-g8\n        3.Rb2-b8#\n"
            "    2.Ra2-c2\n      2...Kh8-g8\n        3.Rc2-c8#\n  1...Kh8-g8\n    2.Ra2-a8#\n"
            "solutions: 1\ntries\n1.Ra1-b1?\n  zugzwang\n  but\n    1...Kh8-g8!\n    1...h7-h6!\n"
            "tries: 1\n"
        )
        self.assertEqual(
            lines("Kf7 Ra1 kh8 ph7", "#3", "play\n1.Ra1-a2\nsolutions: 1\n", tries),
            [
                *("Tries:", "1.Rb1? Kg8!, h6!", "Solution:"),
                *("1.Ra2! threat:", "  2.Rb2 Kg8 3.Rb8#", "  2.Rc2 Kg8 3.Rc8#"),
                "  1...Kg8 2.Ra8#",
            ],
        )


    def tries_of_a_king(self, *words: str) -> list[str]:
        """The lines of some tries: all of the king and one of the rook with the same refutation."""
        but = "  but\n    1...Kh8-g8!\n"
        moves = (*(f"Kf7-{it}" for it in ("e6", "e7", "e8", "f6", "f8", "g6")), "Ra1-b1")
        same = "".join(f"1.{move}?\n  zugzwang\n{but}" for move in moves)
        text = (
            f"play\n1.Ra1-a2!\n  zugzwang\n  1...h7-h6\n    2.Ra2-a8#\nsolutions: 1\ntries\n{same}"
            f"1.Ra1-c1?\n  threat\n    2.Rc1-c8#\n{but}1.Ra1-d1?\n  zugzwang\n"
            f"  1...h7-h6\n    2.Rd1-d8#\n{but}1.Ra1-e1?\n  zugzwang\n  1...h7-h6\n    2.Re1-e8#\n"
            f"{but}1.Ra1-f1?\n  zugzwang\n  but\n    1...h7-h6!\ntries: 11\n"
        )
        shown = TriesShown(*words) if words else TriesShown.ALL
        told = lines("Kf7 Ra1 kh8 ph7", "#2", "play\n1.Ra1-a2\nsolutions: 1\n", text, shown)
        return told[1 : told.index("Solution:")] if "Solution:" in told else []

    def test_tries_with_the_same_refutation_and_variations_are_together(self) -> None:
        of_content = [
            *("1.Rc1? threat: 2.Rc8#", "  but 1...Kg8!"),
            *("1.Rd1? zugzwang", "  1...h6 2.Rd8#", "  but 1...Kg8!"),
            *("1.Re1? zugzwang", "  1...h6 2.Re8#", "  but 1...Kg8!"),
        ]
        wanted = ["1.K~/Rb1? Kg8!", *of_content, "1.Rf1? h6!"]
        self.assertEqual(self.tries_of_a_king(), wanted)
        self.assertEqual(self.tries_of_a_king("variations"), of_content)
        self.assertEqual(self.tries_of_a_king("none"), [])

    def test_tries_with_the_same_variations_are_together(self) -> None:
        """The king has two squares, from which the same mate comes after the same defence."""
        below = "  zugzwang\n  1...h7-h6\n    2.Ra1-a8#\n  but\n    1...h7-h5!\n"
        text = (
            "play\n1.Ra1-a2!\n  zugzwang\nsolutions: 1\n"
            f"tries\n1.Kf7-e7?\n{below}1.Kf7-e8?\n{below}tries: 2\n"
        )
        self.assertEqual(
            lines("Kf7 Ra1 kh8 ph7", "#2", "play\n1.Ra1-a2\nsolutions: 1\n", text)[1:4],
            ["1.Ke7/Ke8? zugzwang", "  1...h6 2.Ra8#", "  but 1...h5!"],
        )


    def test_any_move_of_a_man_stands_for_its_largest_group(self) -> None:
        """The knight stalemates from four squares, from three the king gets away, the last is the key.
        """
        stalemates = "".join(f"1.Sd5-{it}?\n  but\n    stalemate\n" for it in ("b4", "b6", "c3", "c7"))
        others = "".join(f"1.Sd5-{it}?\n  zugzwang\n  but\n    1...Kh2-h1!\n" for it in ("e3", "e7", "f4"))
        for key, solutions, wanted in (
            ("1.Sd5-f6!\n  zugzwang\n", 1, "1.S~?"),
            ("", 0, "1.Sb4/Sb6/Sc3/Sc7?"),
        ):
            with self.subTest(key):
                text = f"play\n{key}solutions: {solutions}\ntries\n{others}{stalemates}tries: 7\n"
                self.assertEqual(
                    lines("Kf2 Sd5 kh2 ph3", "#2", "play\nsolutions: 0\n", text)[1:4],
                    ["1.Se3/Se7/Sf4? Kh1!", wanted, "  but stalemate"],
                )

    def test_moves_that_check_keep_their_mark_in_a_group(self) -> None:
        """The rook checks on the eighth rank, the knight from wherever it goes."""

        def tries(man: str, *moves: str) -> str:
            below = {True: "check", False: "zugzwang"}
            each = "".join(
                f"1.{man}-{it}?\n  {below['+' in it]}\n  but\n    1...Kh8-h7!\n" for it in moves
            )
            return f"play\nsolutions: 0\ntries\n{each}tries: {len(moves)}\n"

        around = [f"{it}+" for it in ("b3", "b5", "c2", "c6", "e2", "e6", "f3", "f5")]
        with_rook, with_knight = "Kf7 Ra4 Pa3 Pb4 kh8", "Kf7 Ba1 Sd4 kh8"
        for men, man, moves, wanted in (
            (with_rook, "Ra4", ["a8+", "a5", "a6", "a7"], "1.Ra8+/R~? Kh7!"),
            (with_rook, "Ra4", ["a8+", "a5", "a6"], "1.Ra8+/Ra5/Ra6? Kh7!"),
            (with_knight, "Sd4", around, "1.S~+? Kh7!"),
            (with_knight, "Sd4", around[5:], "1.Se6+/Sf3+/Sf5+? Kh7!"),
        ):
            with self.subTest(moves):
                told = lines(men, "#2", "play\nsolutions: 0\n", tries(man, *moves))
                self.assertEqual(told[1], wanted)

    def test_what_circe_puts_back_may_let_a_man_capture(self) -> None:
        """The knight is pinned by a rook; a knight that it captures is reborn on the line between."""
        men = men_of("Ke1 Se4 re8 sd6 kh8")
        move = PlayedMove(
            *("Se4-g5", 1, Colour.WHITE, Kind.KNIGHT, Square.of_name("e4"), Square.of_name("g5")),
            *(False, False, None, None, None, None),
        )
        self.assertEqual(list(arrivals(men, move, None)), [])
        found = [it.name for it in arrivals(men, move, Condition.CIRCE)]
        self.assertEqual(found, ["d6"])


class Forms(Case):
    def test_any_move_of_a_man_stands_only_for_moves_that_are_known(self) -> None:
        """After 1.Sc7 several replies refute, and 1...Ke7 not: Qe6 mates. By Samuel Loyd."""
        text = b"BeginProblem\nPieces White Ke4 Qg4 Rc8 Sd5 Black Kd6 Pg5\nStipulation #2\nEndProblem\n"
        told = self.text(text)
        self.assertIn("1.Sc3/Se3/Sb4? Ke7!\n", told)
        self.assertNotIn("~", told)

    def test_languages_and_figures(self) -> None:
        for language, wanted in (
            ("de", "1.Df1! droht: 2.Dg1#/Dh3#/Th3#"),
            ("fr", "1.Df1! menace : 2.Dg1#/Dh3#/Th3#"),
            ("de", "Weiß Ke3 Db5 Tg3 Td6 Le4 Lf5 Se6, Schwarz Kh2 "),
            ("fr", "Blancs Re3 Db5 Tg3 Td6 Fe4 Ff5 Ce6, Noirs Rh2 "),
        ):
            self.assertIn(wanted, self.text(SEVERAL_THREATS, "--language", language))
        outcome = self.sheet(SEVERAL_THREATS, "--figures")
        self.assertIn("1.♕f1! threat: 2.♕g1#/<wbr>♕h3#/<wbr>♖h3#</p>", outcome.output.decode())
        told = self.sheet(WITH_FAIRY_MEN, "--figures", "--language", "de").output.decode()
        self.assertIn('<span class="turned">', told)
        self.assertIn('<p class="fairy">Grashüpfer d5</p>', told)

    def test_names_in_another_encoding_and_lost_text(self) -> None:
        problem = b"Pieces White Kg6 Ra1 Black Kg8\nStipulation #1\nEndProblem\n"
        text = b"BeginProblem\nAuthor R\xe9ti\n" + problem + b"BeginProblem\n" + problem
        outcome = self.sheet(text, "--to", "text")
        self.assertEqual(outcome.status, 0)
        self.assertIn("Réti", outcome.output.decode())
        lost, other = outcome.error.splitlines()
        self.assertIn("given.pop: nothing after the first EndProblem is read", lost)
        self.assertIn("given.pop: title or author of problem 1 isn't utf-8", other)

    def test_a_page(self) -> None:
        outcome = self.sheet(TWINS, "--heading", "Ours & yours \ue000")
        self.assertEqual((outcome.status, outcome.error), (0, ""))
        page = outcome.output.decode()
        for wanted in (
            "<h1>Ours &amp; yours \ue000</h1>",
            '<h2><a href="#problem-1">1</a> Samuel Loyd &amp; Will Shinkman</h2>',
            '<p class="title">A pair</p>',
            '<p class="origin">The Source 1900, 1st Prize</p>',
            '<span class="stipulation">h#1</span> <span class="count">2 + 1</span>',
            '<h3 class="label">b) Ra1→b2</h3>\n<p class="line" style="--level: 0">1.Kg8 Rb8#</p>',
            '<p>Loyd, Samuel: <a href="#problem-1">1</a></p>',
        ):
            self.assertIn(wanted, page)
        self.assertEqual(page.count('<svg class="diagram"'), 1)
        apart = self.sheet(TWINS, "--apart").output.decode()
        self.assertEqual(apart.count('<svg class="diagram"'), 2)
        # (each twin of this text has an origin of its own, and all have one award)
        origins = re.findall('<p class="origin">(.*?)</p>', apart)
        self.assertEqual(origins, ["The Source 1900, 1st Prize", "1st Prize"])

    def test_a_document_of_latex(self) -> None:
        text = self.sheet(TWINS, "--to", "latex", "--language", "de").output.decode()
        for wanted in (
            "\\usepackage{diagram}\n",
            "\\specialdiagnum{1}\n\\author{Loyd, Samuel; Shinkman, Will}\n\\dedic{A pair}\n"
            "\\source{The Source 1900}\n\\award{1st Prize}\n\\pieces[2+1]{wKg6, wTa1, sKh8}\n",
            "\\textit{Satzspiel}\\newline\n1...Ta8\\#\\newline\n",
            "\\twins{b) Ta1$\\rightarrow$b2}\n",
            "Loyd, Samuel \\dotfill\\ 1\\par\n",
        ):
            self.assertIn(wanted, text)
        figures = self.sheet(WITH_FAIRY_MEN, "--to", "latex", "--figures").output.decode()
        self.assertIn("\\piecedefs{{w}{DU}{Grasshopper}; {w}{SU}{Nightrider}}", figures)

    def test_latex_is_typeset(self) -> None:
        if not support.has_latex():
            print("test_sheet: no LaTeX with the package diagram here: nothing was typeset")
            return
        marks = "".join(chr(code) for code in range(33, 127)) + " Réti"
        strange = WITH_FAIRY_MEN.replace(b"Sam Loyd", marks.encode())
        # (three diagrams side by side)
        row = b"NextProblem\n".join((ORGAN_PIPES, SEVERAL_THREATS, OF_THE_MANUAL))
        row = row.replace(b"EndProblem\nNextProblem\nBegin", b"Next")
        for place, text in enumerate((TWINS, row, strange)):
            for option in ("--apart", "--figures"):
                source = self.room / f"sheet-{place}.tex"
                source.write_bytes(self.sheet(text, "--to", "latex", option).output)
                words = ["latex", "-interaction=nonstopmode", "-halt-on-error", source.name]
                done = subprocess.run(words, cwd=self.room, capture_output=True, timeout=support.PATIENCE)
                self.assertEqual(done.returncode, 0, done.stdout[-2000:])
                if text is not strange:
                    self.assertNotIn(b"Overfull", done.stdout)

    def test_names_that_look_like_commands(self) -> None:
        """They are text: of a faulty problem in a box, and of a sound one."""
        if not support.has_latex():
            print("test_sheet: no LaTeX with the package diagram here: no names were typeset")
            return
        for place, said in enumerate((r"[1 \input{x}", "*", r"^^5cinput{x} \write18{y}", "] } % & ~ $", "`?` --")):
            for man in "RT":
                text = (
                    f"BeginProblem\nTitle {said}\nAuthor {said}\nOrigin {said}\nRemark award: {said}\n"
                    f"Pieces White Kg6 {man}a1 Black Kh8\nStipulation h#1\nEndProblem\n"
                )
                source = self.room / f"named-{place}{man}.tex"
                source.write_bytes(self.made(text.encode(), "--to", "latex").output)
                words = ["latex", "-interaction=nonstopmode", "-halt-on-error", source.name]
                done = subprocess.run(words, cwd=self.room, capture_output=True, timeout=support.PATIENCE)
                self.assertEqual(done.returncode, 0, done.stdout[-2000:])

    def test_letters_are_typeset(self) -> None:
        """Every letter of Latin and of the languages written in Cyrillic, in titles and authors."""
        if not support.has_latex():
            print("test_sheet: no LaTeX with the package diagram here: no letters were typeset")
            return
        latin, cyrillic = [*range(0xC0, 0x250), *range(0x1E00, 0x1EFA)], [*range(0x400, 0x460)]
        both = self.page_with([*latin, *cyrillic])
        for letter in "éŁđшЂţ":
            self.assertIn(letter, both)
        pages = {"latex": both, "lualatex": both}
        if support.run(["kpsewhich", "t2aenc.def"]).status != 0:
            print("test_sheet: no texlive-lang-cyrillic here: latex set no Cyrillic")
            pages["latex"] = self.page_with(latin)
        for engine, page in pages.items():
            if shutil.which(engine) is None:
                print(f"test_sheet: no {engine} here: it set no letters")
                continue
            source = self.room / f"{engine}.tex"
            source.write_text(page, "utf-8")
            words = [engine, "-interaction=nonstopmode", "-halt-on-error", source.name]
            done = subprocess.run(
                words, cwd=self.room, capture_output=True, timeout=support.PATIENCE
            )
            self.assertEqual(done.returncode, 0, done.stdout[-2000:])

    def page_with(self, codes: list[int]) -> str:
        """A document of LaTeX with these letters in titles and authors."""
        letters = [chr(code) for code in codes if chr(code).isalpha()]
        problem = "Pieces White Kg6 Ra1 Black Kh8\nStipulation h#1\n"
        rows = ["".join(letters[place : place + 60]) for place in range(0, len(letters), 60)]
        problems = (f"Title {it}\nAuthor {it[:9]}, {it[9:18]}\n{problem}" for it in rows)
        text = f"BeginProblem\n{'NextProblem'.join(chr(10) + it for it in problems)}EndProblem\n"
        return self.made(text.encode(), "--to", "latex").output.decode()

    def test_cyrillic_alone_needs_its_encoding(self) -> None:
        """Debian has it in a package that a sheet in Latin letters does without."""
        for title, wanted in (("Réti", "[T1]"), ("Réti и Ко", "[T2A,T1]")):
            text = OF_THE_MANUAL.replace(b"Problem\n", f"Problem\nTitle {title}\n".encode(), 1)
            page = self.made(text, "--to", "latex").output.decode()
            self.assertIn(f"\\usepackage{wanted}{{fontenc}}\n", page)

    def test_letters_in_commands(self) -> None:
        """Accents, also above others and of their own; letters that plain LaTeX lacks are said."""
        title = "Title ǿ ĸ ơ ḁ e\u0301 а\u0301".encode()
        text = OF_THE_MANUAL.replace(b"BeginProblem\n", b"BeginProblem\n" + title + b"\n")
        outcome = self.made(text, "--to", "latex")
        page = outcome.output.decode()
        for wanted in (
            "\\otherletter{01FF}{ǿ}{\\'{\\o}}\n",
            "\\otherletter{0138}{ĸ}{\\textsc{k}}\n",
            "\\otherletter{01A1}{ơ}{\\horned{o}}\n",
            "\\otherletter{1E01}{ḁ}{\\belowletter{\\r}{a}}\n",
            "\\otherletter{0301}{\u0301}{\\overlast{\\'}}\n",
            "\\dedic{ǿ ĸ ơ ḁ é а\u0301}\n",
        ):
            self.assertIn(wanted, page)
        self.assertNotIn("lualatex", outcome.error)
        outcome = self.made(text.replace("ǿ".encode(), "ſɓ".encode()), "--to", "latex")
        self.assertIn("latex and pdflatex lack ſ ɓ: lualatex sets them", outcome.error)

    def test_dates_in_languages(self) -> None:
        """A date that pops-import wrote is in the language; other texts stay."""
        for code, date in (("en", "6 August 1977"), ("de", "6. August 1977"), ("fr", "6 août 1977")):
            text = b"BeginProblem\nOrigin Jas, 6 August 1977\nPieces White Kg6 Ra1 Black Kg8\n"
            told = self.sheet(text + b"Stipulation #1\nEndProblem\n", "--language", code)
            self.assertIn(f">Jas, {date}<", told.output.decode())
            latex = self.made(text + b"Stipulation #1\nEndProblem\n", "--to", "latex", "--language", code)
            self.assertIn(f"\\source{{Jas, {date}}}\n", latex.output.decode())
        text = text.replace(b"6 August 1977", b"August 1977, no. 3")
        told = self.sheet(text + b"Stipulation #1\nEndProblem\n", "--language", "de")
        self.assertIn(">Jas, August 1977, no. 3<", told.output.decode())

    def test_conditions_in_languages(self) -> None:
        circe = OF_THE_MANUAL.replace(b"#2\n", b"#2\nCondition Circe\n")
        for code, name in (("en", "Circe"), ("de", "Circe"), ("fr", "Circé")):
            self.assertIn(f"#2 {name} (3 + 2)", self.text(circe, "--language", code))
            latex = self.made(circe, "--to", "latex", "--language", code).output.decode()
            self.assertIn(f"\\condition{{{name}}}\n", latex)
            self.assertIn(f'"stipulation">#2 {name}<', self.made(circe, "--language", code).output.decode())

    def test_faulty_problems_in_latex(self) -> None:
        """They are boxes of text among the diagrams, in the language of the sheet."""
        faulty = TWINS.replace(b"h#1", b"h#99").replace(b"EndProblem", b"NextProblem")
        text = faulty + OF_THE_MANUAL.partition(b"\n")[2]
        outcome = self.made(text, "--to", "latex", "--language", "fr")
        page = outcome.output.decode()
        self.assertEqual(outcome.status, 1)
        self.assertIn("\\textbf{1} Samuel Loyd \\& Will Shinkman\\\\\nA pair\\\\\n", page)
        self.assertIn("\\textbf{ligne 7 : énoncé incorrect}", page)
        self.assertIn("\\specialdiagnum{2}", page)
        # LaTeX would read a bracket or a star after a line break as part of it.
        named = faulty.replace(b"A pair", b"[Untitled").replace(b"The Source", b"*The Source")
        self.assertNotEqual(named, faulty)
        self.assertNotRegex(self.made(named, "--to", "latex").output.decode(), r"\\\\\n[\[*]")

    def test_numbers(self) -> None:
        """Twins alone are 1a and 1b; the first number is given."""
        text = TWINS.replace(b"EndProblem", b"NextProblem") + OF_THE_MANUAL.partition(b"\n")[2]
        for words, wanted in (
            ((), ["1.", "2."]),
            (("--first-number", "17"), ["17.", "18."]),
            (("--apart", "--first-number", "17"), ["17a.", "17b.", "18."]),
        ):
            told = self.text(text, *words)
            self.assertEqual(re.findall(r"^\d+\w*\.", told, re.M), wanted)

    def test_twins_in_languages(self) -> None:
        """A man moved, gone, new, exchanged, in place of another; another stipulation."""
        first = "Pieces White Kg6 Ra1 Pc4 Black Kh8 Bc3\nStipulation h#1\n"
        changes = (
            ("Pieces White Kg6 Rb2 Pc4 Black Kh8 Bc3\nStipulation h#1\n", "Ta1→b2"),
            ("Pieces White Kg6 Ra1 Black Kh8 Bc3\nStipulation h#1.5\n", "–Bc4, h#1.5"),
            ("Pieces White Kg6 Ra1 Pc4 Black Kh8 Bc3 Qd8\nStipulation h#1\n", "+sDd8"),
            ("Pieces White Kg6 Rc3 Pc4 Black Kh8 Ba1\nStipulation h#1\n", "Ta1↔Lc3"),
            ("Pieces White Kg6 Qa1 Pc4 Black Kh8 Bc3\nStipulation h#1\n", "Ta1=D"),
            ("Pieces White Kg6 Ra1 Bc3 Pc4 Black Kh8\nStipulation h#1\n", "Lc3=wL"),
        )
        texts = [f"Title T a)\n{first}"]
        for letter, (changed, _) in zip("bcdefg", changes):
            texts.append(f"Title T {letter})\nRemark {letter}) another\n{changed}")
        text = f"BeginProblem\n{'NextProblem'.join(chr(10) + it for it in texts)}EndProblem\n"
        told = self.made(text.encode(), "--to", "text", "--language", "de").output.decode()
        found = re.findall(r"^  ([b-g])\) (.*)$", told, re.M)
        self.assertEqual([change for _, change in found], [wanted for _, wanted in changes])

    def test_changes_of_the_whole_board_and_duplex(self) -> None:
        turned = "Remark b) Rotate 90\nPieces White Kg2 Ra1 Black Kh8\nStipulation h#2\n"
        text = (
            "BeginProblem\nTitle T a)\nPieces White Kg7 Rh8 Black Ka1\nStipulation h#2\n"
            f"NextProblem\nTitle T b)\n{turned}NextProblem\nTitle U\n"
            "Pieces White Kh8 Black Kb2 Ra1\nStipulation h#2\nNextProblem\nTitle U duplex\n"
            "Pieces White Kb7 Ra8 Black Kh1\nStipulation h#2\nEndProblem\n"
        )
        told = self.made(text.encode(), "--to", "text", "--language", "de").output.decode()
        self.assertIn("  b) Brett um 90° gedreht\n", told)
        self.assertIn("  duplex Farben umgekehrt\n", told)
        text = text.replace("Title U duplex", "Title U a) duplex").replace("Title U\n", "Title U a)\n")
        told = self.made(text.encode(), "--to", "text").output.decode()
        self.assertIn("\n2. U\n", told)
        self.assertIn("  a) duplex colours reversed\n", told)

    def test_originals(self) -> None:
        """Three diagrams a row with what makes the twins, all solutions after them."""
        text = TWINS.replace(b"EndProblem", b"NextProblem") + OF_THE_MANUAL.partition(b"\n")[2]
        page = self.sheet(text, "--per-row", "3", "--language", "de").output.decode()
        rows, rest = page.split('<div class="after">')
        self.assertIn('<div class="row" style="--per-row: 3">', rows)
        self.assertEqual((rows.count('<svg class="diagram"'), rest.count("<svg")), (2, 0))
        self.assertIn('<p class="twin">b) Ta1→b2</p>', rows)
        self.assertNotIn("Kg8", rows)
        self.assertIn("<h2>Lösungen</h2>", rest)
        self.assertIn("1.Kg8 Tb8#", rest)
        for words in (["--per-row", "0"], ["--per-row", "9"], ["--per-row", "3", "--to", "text"]):
            self.assertEqual(self.sheet(text, *words).status, 2)

    def test_a_pdf(self) -> None:
        """Its pages are A4, 210 by 297 mm, in points of 1/72 inch."""
        if shutil.which("chromium") is None:
            outcome = self.sheet(TWINS, "--to", "pdf")
            self.assertEqual((outcome.status, outcome.output), (3, b""))
            self.assertIn("--to pdf needs chromium, which isn't on the PATH", outcome.error)
            print("test_sheet: no chromium here: no PDF was made")
            return
        home = self.room / "home"
        home.mkdir()
        with mock.patch.dict(os.environ, {"HOME": str(home)}):
            for name in ("CHROME_CONFIG_HOME", "XDG_CONFIG_HOME", "XDG_CACHE_HOME", "XDG_RUNTIME_DIR"):
                os.environ.pop(name, None)
            outcome = self.sheet(TWINS, "--to", "pdf")
        self.assertEqual(list(home.rglob("*")), [], "the browser left files")
        self.assertEqual((outcome.status, outcome.output[:5]), (0, b"%PDF-"))
        sizes = re.findall(rb"/MediaBox \[0 0 ([\d.]+) ([\d.]+)\]", outcome.output)
        found = {(round(float(width) / 72 * 25.4), round(float(height) / 72 * 25.4)) for width, height in sizes}
        self.assertEqual(found, {(210, 297)})

    def test_where_a_browser_writes(self) -> None:
        """In the folder of the run; it finds the user's fonts in HOME."""
        names = ("HOME", "XDG_DATA_HOME", "CHROME_CONFIG_HOME", "XDG_CACHE_HOME", "XDG_RUNTIME_DIR")
        shows = "; ".join(f'echo "${name}"' for name in names)
        with mock.patch.dict(os.environ, {name: f"/of the user/{name}" for name in names}):
            outcome = printed(["/bin/sh", "-c", shows], str(self.room))
        wanted = ["/of the user/HOME", "/of the user/XDG_DATA_HOME", *[str(self.room)] * 3]
        self.assertEqual(outcome.output.decode().splitlines(), wanted)

    def test_the_folder_of_a_browsers_socket(self) -> None:
        """The folder of the run, or `/tmp` where its path is too long for a socket."""
        with tempfile.TemporaryDirectory(dir="/tmp") as short:
            long = Path(short, "x" * LONGEST_ROOM)
            long.mkdir()
            for room, folder in ((short, short), (str(long), "/tmp")):
                outcome = printed(["/bin/sh", "-c", 'echo "$TMPDIR"'], room)
                self.assertEqual(outcome.output.decode(), f"{folder}\n")

    def test_authors(self) -> None:
        """One person, surname first or last, is one entry; two are two."""
        cases: list[tuple[str, Optional[list[str]], list[str]]] = [
            ("Loyd, Samuel", ["Samuel Loyd"], ["Loyd, Samuel"]),
            ("Samuel Loyd", ["Samuel Loyd"], ["Loyd, Samuel"]),
            ("A. Kraemer & E. Zepler", None, ["Kraemer, A.", "Zepler, E."]),
            ("Anna Muster und Bert Roe", None, ["Muster, Anna", "Roe, Bert"]),
            ("Herbert von Ahlen; Loyd, Sam", None, ["Ahlen, Herbert von", "Loyd, Sam"]),
            ("Sam Loyd jun.", ["Sam Loyd jun."], ["Loyd jun., Sam"]),
            ("Anonymous", ["Anonymous"], ["Anonymous"]),
            ("Paul Morphy, 1856", ["Paul Morphy, 1856"], ["Paul Morphy, 1856"]),
            ("", [], []),
        ]
        for text, names, entries in cases:
            with self.subTest(text):
                self.assertEqual([it.entry for it in persons(text)], entries)
                if names is not None:
                    self.assertEqual([it.name for it in persons(text)], names)

    def test_the_index_names_each_problem_once(self) -> None:
        """Also a person twice above a diagram; problems aren't compared, which takes long."""

        class Authored(Entry):
            __hash__ = None  # type: ignore[assignment]

            def __eq__(self, other: object) -> bool:
                raise AssertionError("compared")

        first, second = (object.__new__(Authored) for _ in range(2))
        for entry, text in ((first, "Sam Loyd & Loyd, Sam"), (second, "Sam Loyd & A. Kraemer")):
            object.__setattr__(entry, "authors", tuple(persons(text)))
        (kraemer, his), (loyd, both) = index_of([first, second])
        self.assertEqual((kraemer, loyd), ("Kraemer, A.", "Loyd, Sam"))
        self.assertEqual([id(it) for it in his], [id(second)])
        self.assertEqual([id(it) for it in both], [id(first), id(second)])

    def test_three_authors(self) -> None:
        text = TWINS.replace(b"Shinkman, Will", b"Shinkman, Will; A. Third")
        names = "Samuel Loyd, Will Shinkman & A. Third"
        for form, said in (("html", html.escape(names)), ("text", names)):
            self.assertIn(said, self.sheet(text, "--to", form).output.decode())
        faulty = text.replace(b"Kg6", b"Xg6")
        said = self.sheet(faulty, "--to", "latex").output.decode()
        self.assertIn(names.replace("&", r"\&"), said)

    def test_awards(self) -> None:
        """As pops-import keeps them: of Popeye, of YAML as a text, and of YAML with its parts."""
        for remarks, wanted in (
            (["Award 2nd Prize"], "2nd Prize"),
            (["award: 3rd HM", "C+"], "3rd HM"),
            (["award.tourney.name: Jubilee", "award.distinction: 1st Prize"], "1st Prize, Jubilee"),
            (["awarded by nobody"], ""),
        ):
            text = TWINS.decode().replace("Remark award: 1st Prize", "\n".join(
                f"Remark {remark}" for remark in remarks
            ))
            origin = self.text(text.encode()).split("\n")[1].strip()
            self.assertEqual(origin, ", ".join(filter(None, ("The Source 1900", wanted))))


class Command(Case):
    def test_without_tries(self) -> None:
        """It prints what pops alone shows, and says so."""
        with mock.patch("pops_companions.commands.sheet.find_tries", lambda *_: None):
            outcome = self.made(OF_THE_MANUAL, "--to", "text")
        message = "pops-sheet: pops-tries isn't installed: threats and tries aren't shown\n"
        self.assertEqual((outcome.status, outcome.error), (0, message))
        self.assertIn("  1.Qb2!\n    1...Kd1,Kf1,a5 2.Rc1#\n", outcome.output.decode())
        with mock.patch("pops_companions.commands.sheet.find_tries", lambda *_: None):
            self.assertEqual(self.made(TWINS).error, "")

    def test_lines_that_end_early(self) -> None:
        """Without Variation a line has no third move, nor what mates White after his second."""
        head = "BeginProblem\nPieces White Kg6 Ra1 Black Kg8 Pa7\nStipulation "
        tail = "\nEndProblem\n"
        said = "lines end at move 2, Option Variation shows all of them"
        message = f"pops-sheet: problems without Variation (1): {said}\n"
        outcome = self.sheet(f"{head}#3{tail}".encode())
        self.assertEqual((outcome.status, outcome.error), (0, message))
        with mock.patch("pops_companions.commands.sheet.find_tries", lambda *_: None):
            self.assertIn(message, self.made(BAIRD).error)
        for asked in ("#3\nOption SetPlay Var", "#2", "s#1", "h#3", "s#2"):
            self.assertEqual(self.sheet(f"{head}{asked}{tail}".encode()).error, "")
        with mock.patch("pops_companions.commands.sheet._MOST_NUMBERS", 0):
            self.assertIn("(1 of them)", self.sheet(f"{head}#3{tail}".encode()).error)

    def test_lines_that_end_early_by_the_numbers_of_the_sheet(self) -> None:
        """The first problem has two twins, of which the second lacks Variation, as does the next one."""
        men = "Pieces White Kg6 Ra1 Black Kg8 Pa7\nStipulation #3\n"
        text = (
            f"BeginProblem\nTitle T a)\n{men}Option Variation\nNextProblem\nTitle T b)\n{men}"
            f"NextProblem\n{men}EndProblem\n"
        ).encode()
        for words, numbers in (
            ((), "1, 2"),
            (("--first-number", "17"), "17, 18"),
            (("--first-number", "17", "--apart"), "17b, 18"),
        ):
            with self.subTest(words):
                said = self.sheet(text, "--to", "text", *words).error
                self.assertIn(f"problems without Variation ({numbers}): ", said)

    def test_a_program_of_tries(self) -> None:
        """If no text is given, the program runs, with the number of refutations that the command names."""
        words = ["--to", "text", "--pops-tries", self.tries]
        outcome = self.made(OF_THE_MANUAL, *words)
        self.assertEqual((outcome.status, outcome.error), (0, ""))
        self.assertEqual(outcome.output.decode(), self.text(OF_THE_MANUAL))
        told = self.made(OF_THE_MANUAL, *words, "--refutations", "0").output.decode()
        self.assertIn("  #2 (3 + 2)\n  1.Qb2! threat: 2.Rc1#\n", told)

    def test_given_texts(self) -> None:
        """Texts that are given are taken, and no program is run."""
        report = self.room / "given.report"
        report.write_bytes(support.run([support.pops()], OF_THE_MANUAL).output)
        words = ["--report", str(report), "--pops", "/bin/false"]
        outcome = self.sheet(OF_THE_MANUAL, "--to", "text", *words)
        self.assertEqual((outcome.status, outcome.error), (0, ""))
        self.assertEqual(outcome.output.decode(), self.text(OF_THE_MANUAL))
        both = support.run([support.pops()], TWINS).output
        for other, wanted in (
            (both.split(b"problem 2\n")[0], "problem 1 differs"),
            (both, "other problems"),
        ):
            report.write_bytes(other)
            refused = self.sheet(OF_THE_MANUAL, "--to", "text", *words)
            message = f"pops-sheet: the report isn't that of the input: {wanted}\n"
            self.assertEqual((refused.status, refused.error), (3, message))
        report.write_bytes(b"nothing\n")
        refused = self.sheet(OF_THE_MANUAL, "--to", "text", *words)
        self.assertEqual(refused.status, 3)
        self.assertIn("given.report is no report of pops: line 1: ", refused.error)

    def test_texts_with_moves_of_men_that_are_elsewhere(self) -> None:
        text = b"BeginProblem Pieces White Kg6 Ra1 Black Kh8 Stipulation %s Option SetPlay Variation NoBoard EndProblem"
        report, tries, empty = self.room / "given.report", self.room / "given.tries", self.room / "empty"
        empty.touch()
        cases = (
            (b"h#1", b"1.Kh8-g8", b"1.Kh7-g8", "report"),
            (b"h#1", b"g8 Ra1-a8", b"g8 Rb8-a8", "report"),
            (b"h#1", b"1...Ra1", b"1...Ra2", "report"),
            (b"#2", b"  2.Ra1-a8", b"  2.Rb8-a8", "report"),
            (b"#2", b"1.Ra1-b1", b"1.Rb2-b1", "text of tries"),
            (b"#2", b"  2.Ra1-a8", b"  2.Rb8-a8", "text of tries"),
        )
        for asked, move, other, name in cases:
            with self.subTest(move, name=name):
                problem = text % asked
                wholes = {report: support.run([support.pops()], problem).output, tries: tries_of(problem)}
                changed = report if name == "report" else tries
                self.assertIn(move, wholes[changed])
                report.write_bytes(wholes[report])
                tries.write_bytes(wholes[tries])
                words = ["--to", "text", "--report", str(report), "--tries-text"]
                self.assertEqual(self.made(problem, *words, str(tries)).status, 0)
                changed.write_bytes(wholes[changed].replace(move, other))
                refused = self.made(problem, *words, str(empty if changed == report else tries))
                said = f"pops-sheet: the {name} isn't that of the input: problem 1 differs\n"
                self.assertEqual(refused, (3, b"", said))

    def test_a_report_of_more_problems(self) -> None:
        """It is refused before pops-tries runs."""
        report = self.room / "given.report"
        two = OF_THE_MANUAL.replace(b"EndProblem", b"NextProblem") + OF_THE_MANUAL.split(b"\n", 1)[1]
        report.write_bytes(support.run([support.pops()], two).output)
        self.assertIn(b"problem 2\n", report.read_bytes())
        words = ["--to", "text", "--report", str(report), "--pops-tries", self.tries]
        for more in ("", "--tries none"):
            outcome = self.made(OF_THE_MANUAL, *words, *more.split())
            message = "pops-sheet: the report isn't that of the input: other problems\n"
            self.assertEqual((outcome.status, outcome.error), (3, message))

    def test_a_fault_that_pops_does_not_have(self) -> None:
        """A sheet has the report's own text of it, in each language and form."""
        report = self.room / "given.report"
        report.write_bytes(b"problem 1\nline 2: fault 99: an unknown fault\n\n")
        for language in ("en", "de"):
            for form in ("text", "html", "latex"):
                words = ["--report", str(report), "--to", form, "--language", language]
                outcome = self.sheet(OF_THE_MANUAL, *words)
                self.assertEqual((outcome.status, outcome.error), (1, ""))
                self.assertIn(b"2: an unknown fault", outcome.output)

    def test_a_report_without_a_problem(self) -> None:
        """pops-many leaves out what it stopped: its diagram is shown all the same."""
        report = self.room / "given.report"
        whole = support.run([support.pops()], TWINS).output
        report.write_bytes(b"problem 2\n" + whole.split(b"problem 2\n")[1])
        outcome = self.sheet(TWINS, "--to", "text", "--report", str(report))
        self.assertEqual(outcome.status, 1)
        self.assertEqual(outcome.error, "pops-sheet: problem 1 isn't in the report\n")
        self.assertIn("  h#1 (2 + 1)\n", outcome.output.decode())
        self.assertIn("1.Kg8 Rb8#", outcome.output.decode())
        latex = self.sheet(TWINS, "--to", "latex", "--report", str(report)).output
        self.assertIn(b"\\end{document}", latex)

    def test_a_sheet_that_cannot_be_written_is_told_first(self) -> None:
        """Nothing is solved for it."""
        pops = self.write_program("pops", f"#!/bin/sh\ntouch '{self.room}/begun'\nexit 9\n")
        (self.room / "folder").mkdir()
        for name, said in (
            ("nowhere/sheet", "cannot write {}: No such file or directory"),
            ("folder", "cannot write {}: Is a directory"),
            ("given.pop", "{} is named twice"),
        ):
            path = str(self.room / name)
            outcome = self.made(TWINS, "-o", path, "--pops", pops)
            self.assertIn((outcome.status, outcome.output), ((2, b""), (3, b"")))
            self.assertEqual(outcome.error, f"pops-sheet: {said.format(path)}\n")
        self.assertFalse((self.room / "begun").exists())

    def test_seconds(self) -> None:
        """What takes too long is shown as far as it went, and says so; the others are whole."""
        long = "Pieces White Kb1 Pc2e2g2 Black Ke8 Ra8h8 Pa7c7e7g7h7\nStipulation h#7\n"
        text = TWINS.decode().replace("EndProblem", f"NextProblem\nTitle Long\n{long}EndProblem")
        head = f"printf '%s' \"$text\" | '{support.pops()}' --check | sed '/^sound$/,$d'"
        slow = self.write_program(
            "slow",
            f"#!/bin/sh\ntext=$(cat)\ncase $text in *Long*) {head}; {shown(self.room)}; exec sleep 6000 ;; esac\n"
            f"printf '%s' \"$text\" | '{support.pops()}' \"$@\"\n",
        )
        words = ["--to", "text", "--seconds", "1", "--language", "de", "--pops", slow]
        with limit_when_shown(self.room):
            outcome = self.made(text.encode(), *words)
        told = outcome.output.decode()
        self.assertEqual(outcome.status, 1)
        self.assertIn("1.Kg8 Ta8#", told)
        self.assertIn("\n2. Long\n", told)
        self.assertIn("nicht zu Ende gelöst: 1 s\n", told)

    def test_a_help_mate_with_many_solutions(self) -> None:
        """Two rooks mate on the eighth rank, and a sheet has room for one."""
        text = b"BeginProblem\nPieces White Kg6 Ra1b1 Black Kh8\nStipulation h#1\nEndProblem\n"
        note = {"en": "not shown: 1 more", "fr": "non montrées : 1 de plus"}
        for code, said in note.items():
            for form in ("text", "latex", "html"):
                with mock.patch("pops_companions.sheet.solution.MOST_SOLUTIONS", 1):
                    words = ("--to", form, "--language", code)
                    told = html.unescape(self.made(text, *words).output.decode())
                self.assertIn("a8", told)
                self.assertNotIn("b8", told)
                self.assertIn(said, told)

    def test_progress(self) -> None:
        """On a terminal it shows how far it is, and with tries a second time."""
        with mock.patch("pops_companions.many.progress.Progress._tell") as told:
            words = ["--to", "text", "--pops-tries", self.tries]
            self.assertEqual(self.made(OF_THE_MANUAL, *words).status, 0)
        lines = [call.args[0](1.0) for call in told.call_args_list]
        self.assertIn("pops-sheet: 1 of 1 problems", lines)
        self.assertIn("pops-sheet: tries: 1 of 1 problems", lines)

    def test_faulty_problems(self) -> None:
        text = OF_THE_MANUAL.replace(b"#2", b"#99")
        outcome = self.sheet(text, "--to", "text")
        self.assertEqual((outcome.status, outcome.error), (1, ""))
        self.assertEqual(outcome.output.decode(), "1.\n  line 3: bad stipulation\n")
        self.assertIn(b'class="fault"', self.sheet(text).output)
        self.assertIn(b"\\putsol", self.sheet(text, "--to", "latex").output)

    def test_mistakes(self) -> None:
        self.assertNotIn("?", self.text(OF_THE_MANUAL, "--tries", "none").split("Authors")[0])
        self.assertIn("1.Qh2?", self.text(OF_THE_MANUAL, "--tries", "variations"))
        as_before = self.made(OF_THE_MANUAL, "--tries", str(self.room / "some.tries"))
        self.assertEqual(as_before.output, self.sheet(OF_THE_MANUAL).output)
        for words in (["--refutations", "201"], ["--to", "odt"], ["--figures", "--to", "text"]):
            self.assertEqual(self.sheet(TWINS, *words).status, 2)
        outcome = self.sheet(b"problem 1\n")
        self.assertEqual((outcome.status, outcome.output), (3, b""))
        self.assertIn("is no input of pops: pops-import makes one", outcome.error)
        self.assertIn("pops-explain says what is wrong", outcome.error)
        self.write_program("plain-tries", "#!/bin/sh\nexit 4\n")
        outcome = self.made(OF_THE_MANUAL, "--pops-tries", self.tries)
        self.assertEqual((outcome.status, outcome.output), (3, b""))
        self.assertIn("pops-tries ended with status 4", outcome.error)

    def test_a_program_of_tries_that_shows_two_problems(self) -> None:
        one = "problem 1\nh#1\nno tries in help play\n\n"
        self.write_program("plain-tries", f"#!/bin/sh\ncat > /dev/null\nprintf '{one}{one}'\n")
        outcome = self.made(OF_THE_MANUAL, "--pops-tries", self.tries)
        self.assertEqual((outcome.status, outcome.output), (3, b""))
        self.assertIn("problem 1: pops-tries shows another problem", outcome.error)

    def test_a_problem_that_only_the_text_of_tries_calls_faulty(self) -> None:
        fault = "problem 1\nline 3: fault 8: bad stipulation\n\n"
        self.write_program("plain-tries", f"#!/bin/sh\ncat > /dev/null\nprintf '{fault}'\nexit 1\n")
        outcome = self.made(OF_THE_MANUAL, "--pops-tries", self.tries)
        self.assertEqual((outcome.status, outcome.output), (3, b""))
        self.assertIn("problem 1: pops-tries calls it faulty, and pops sound", outcome.error)
        text = self.room / "fault.tries"
        text.write_text(fault)
        outcome = self.made(OF_THE_MANUAL, "--tries-text", str(text))
        self.assertEqual((outcome.status, outcome.output), (3, b""))
        self.assertIn("calls problem 1 faulty, and the report sound", outcome.error)
