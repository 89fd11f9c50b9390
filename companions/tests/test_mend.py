"""pops-explain --all and --fix: what is mended is what the explanation says, and no fault comes of it."""

import codecs
import io
import sys
import unittest
from collections.abc import Callable
from typing import Optional
from unittest import mock

from pops_companions.explain import mending, near
from pops_companions.explain.near import Edit
from pops_companions.explain.explaining import explanation
from pops_companions.explain.mended_text import mend
from pops_companions.explain.mending import further_faults
from pops_companions.explain.notices import notices
from pops_companions.input.pieces import cut
from pops_companions.input.reading import Reading, read_on, read_piece
from tests import run_here, support
from tests.slips import slips

PIECES = "Pieces White Kg6 Ra1 Black Kg8"


def text_of(*lines: str) -> bytes:
    return "\n".join(["BeginProblem", *lines, "EndProblem", ""]).encode("utf-8")


def faults(text: bytes) -> int:
    """How many faults pops reports of a text."""
    return support.run([support.pops(), "--check", "--no-board"], text).output.count(b": fault ")


# Faulty lines that stay as they are: what they mean may be another problem.
OTHER_PROBLEMS = (
    "Stipulation #II",
    "Stipulation #3 or #2",
    "Stipulation #2/3",
    "Stipulation =2 #",
    "Stipulation Black to play and mate in 2",
    "Stipulation White to move",
    "Stipulation #2\nOption NoVariation",
    "Stipulation #2\nOption NoSetPlay",
    "Stipulation #2\nOption Variation No",
    "Stipulation #2\nOption Castling h1",
    "Stipulation #2\nOption not SetPlay",
    "Stipulation h#3 not",
    "Stipulation h#.5",
    "Stipulation h#2;5",
    "Stipulation h#2:5",
    "Stipulation h#2 White",
    "Stipulation h#2\nOption White",
    "Stipulation h#2\nOption NoCastling a1 White:",
    "Stipulation #2\nCondition White Circe",
    "Stipulation #2\nCondition Circe Black",
    "Stipulation #2\nCondition Isardam",
    "Stipulation #2\nOption MaxSolutions -1",
    "Stipulation #2\nOption !SetPlay",
    "Stipulation #2\n;Condition Circe",
    "Stipulation #2\n//Condition Circe",
    "Stipulation #2 -- Circe",
    "Stipulation #2 // Circe",
    "Stipulation #2\nCondition -Circe",
    "Stipulation #2\nCondition CircéP",
    "Stipulation #2\nPieces White Pa2-h2",
    "Stipulation #2\nPieces White Pa2..h2",
    "Stipulation #2\nPieces White Pa2–c2",
    "Stipulation #2\nPieces White Rb1->c1",
    "Stipulation #2\nPieces White Rb1 c2",
    "Stipulation #2\nPieces White Pa2,..,d2",
    "Stipulation White to play and helpmate in 2",
    "Stipulation #2\nPieces White Rb1 ; Pc2",
    "Stipulation #2\nPieces White Rb1 -- Black Pc7",
    "Stipulation #2\nPieces White Rb1 # neutral",
    "Stipulation #2 ; duplex",
    "Stipulation #2 ; b) Ra1 on a2",
    "Stipulation #2 ; then #3",
    "Stipulation h#2 // White to move",
    "Stipulation h#2 * 2.1.1.1",
    "Stipulation h#2 *2.1.1.1",
    "Stipulation h#2 2.1.1.1 *",
    "Stipulation h#2 2 solutions *",
    'Stipulation #2\nCondition Circe "Parrain"',
    "Stipulation #2\nCondition Madrasi # RexInclusive",
    "Stipulation #2\nCondition -- Circe",
    "Stipulation #2\nOption SetPlay // Variation",
    "Stipulation #2\nOption NoCastling a1 ; h1",
    "Stipulation #2\nOption MaxSolutions 1,5",
    "Stipulation #2\nOption MaxSolutions 1\u00a05",
    "Stipulation h#1\u00a05",
    "Stipulation h#1 5",
    "Stipulation #2\nCondition Circe\u00a0Parrain",
    *(f"Stipulation {it}" for it in ("h3", "help 2", "h#2.", "h#2..", "h#-.5", "h#1[5", "#3,2", "#*2")),
    *(f"Stipulation {it}" for it in ("#2+", "+#2", "#2=")),
    *("Stipulations #2", "Stipulationh #2", "Stipulatoinh #2", "Stipulations#2"),
    *(f"Stipulation #2\n{it}" for it in ("OptionFVariation", "ConditionbMadrasi", "or Condition Circe")),
    "Stipulation #2\nCondition - Circe",
    *(f"Stipulation #2\nOption {it}" for it in ("~SetPlay", "MaxSolutions 1 2SetPlay")),
    "Stipulation #2\nOption NoCastling e1 !8",
    "Stipulation #2\nOption NoCastling e1 h8EndProblem",
    '"pOtion Variation\nStipulation #2',
    *(f"Stipulation #2\nPieces White {it}" for it in ("WhiteK b2", "b2", "Rh2B Black Pb7", "Bbe8")),
    *(f"Stipulation #2\nPieces White {it}" for it in ("-Rb1", "=Rb1", "Rb1*", "Rb1/c1", "Rb1<->c1")),
    *(f"Stipulation #2\nPieces White {it}" for it in ("Pa7rb7", "Pa7bC7", "BRb1", "Bsa4")),
    "Stipulation #2\nPieces White Rb1,b2",
    "Stipulation #2\nPieces White Rh2.h3;h4",
    "Stipulation #2\nPieces White Rh2\u00a0b2",
    "Stipulation #2\nPieces White wb2",
    "Stipulation #2\nPieces White Wb2",
    "Stipulation #2\nPieces White Db2",
    "Stipulation #2\nPieces White Pb2 Black Pb7 wRb3 Pc3",
)


# Lines with a fault, and the lines without it.
WORDS = (
    ("Stipulation 2#", "Stipulation #2"),
    ("Stipulation h#2½", "Stipulation h#2.5"),
    ("Stipulation h# 2", "Stipulation h#2"),
    ("Stipulation H#2,5", "Stipulation H#2.5"),
    ("Stipulation h#1,5.", "Stipulation h#1.5"),
    ("Stipulation mate", "Stipulation mate"),
    ("Stipulation mate in 2", "Stipulation #2"),
    ("Stipulation Matt in zwei Zügen", "Stipulation #2"),
    ("Stipulation help mate in 2 1/2 Option SetPlay", "Stipulation h#2.5 Option SetPlay"),
    ("Stipulation mate in 17", "Stipulation mate in 17"),
    ("Stipulation mate in 2.5", "Stipulation mate in 2.5"),
    ("Stipulation #2\nOption Variatons", "Stipulation #2\nOption Variation"),
    ("Stipulation #2\nSetPlay", "Stipulation #2\nOption SetPlay"),
    ("Stipulation #2 (SetPlay)", "Stipulation #2 Option SetPlay"),
    ("Stipulation #2 (3+1)", "Stipulation #2"),
    ("Stipulation #two", "Stipulation #2"),
    ("Stipulation Mate in two moves!", "Stipulation #2"),
    ("Stipulation h# 2½", "Stipulation h#2.5"),
    ("Stipulation (h#2½).", "Stipulation h#2.5"),
    ("Stipulation #2 Award 1st Prize", "Stipulation #2 Remark award: 1st Prize"),
    ("Stipulation #2\nOption NoCastlinge1 h8", "Stipulation #2\nOption NoCastling e1 h8"),
    ("Stipulation #2\nOption MaxSolutions 1,000", "Stipulation #2\nOption MaxSolutions 1000"),
    ("Stipulation h# 2,5", "Stipulation h#2.5"),
    ("Stipulation White to mate in 2", "Stipulation #2"),
    ("Stipulation White to play and helpmate in 2.5", "Stipulation h#2.5"),
    ("Stipulation White to play and mate in two moves", "Stipulation #2"),
    ("Stipulation #2 (set play)", "Stipulation #2 Option setplay"),
    ("Stipulation #2\nOr A journal", "Stipulation #2\nOrigin A journal"),
    ("Stipulation #2\nOption NoBord", "Stipulation #2\nOption NoBoard"),
    ("Award 1st Prize\nStipulation #2", "Remark award: 1st Prize\nStipulation #2"),
    ("Stipulation #2\n# a comment", "Stipulation #2\nRemark # a comment"),
    ("Stipulation #2\nStipulation #2", "Stipulation #2"),
    ("Stipulation #2\nOption MaxSol 1\u202f000", "Stipulation #2\nOption MaxSol 1000"),
)


# Men with a fault, and the men without it.
MEN = (
    ("Pieces White Kg6 Ta1 Black Kg8", PIECES),
    ("Pieces White: Kg6, Ra1, Black Kg8", PIECES),
    ("Pieces White Kg6\u00a0Ra1 Black Kg8", PIECES),
    ("Pieces White Kg6 Ra1 \u2009 Black Kg8", "Pieces White Kg6 Ra1  Black Kg8"),
    ("Pieces White Kg6 Ra1\u00a0h1 Black Kg8", "Pieces White Kg6 Ra1h1 Black Kg8"),
    ("Pieces White Kg6 R a1 Black Kg8", PIECES),
    ("Pieces White Kg6 Ra1a1 Black Kg8", PIECES),
    ("Pieces White Kg6 Ra1-a2 Black Kg8", "Pieces White Kg6 Ra1a2 Black Kg8"),
    ("Pieces White Kg6 Ra1,d1 Black Kg8", "Pieces White Kg6 Ra1d1 Black Kg8"),
    ("Pieces Kg6 Ra1 Black Kg8", "Pieces Kg6 Ra1 Black Kg8"),
    ("Pieces White Kg6 Ra1 Blakc Kg8", PIECES),
    ("White: Kg6 Ra1; Black: Kg8", PIECES),
    ("Pieces White Kg6 Ra1 Pa2, b2 c2 Black Kg8", "Pieces White Kg6 Ra1 Pa2b2c2 Black Kg8"),
    ("Pieces White Kg6 R a1 h1 Black Kg8", "Pieces White Kg6 Ra1h1 Black Kg8"),
)


class Mending(unittest.TestCase):
    def test_every_slip(self) -> None:
        """Nothing is left of a slip that counts as mended; what can't be mended stays as it is."""
        mended = 0
        for slip in slips():
            with self.subTest(f"line {slip.place} of the list"):
                made = mend(slip.text)
                if not made.mended:
                    self.assertEqual(made.text, slip.text)
                elif not made.left:
                    mended += 1
                    self.assertEqual(faults(made.text), 0)
        self.assertGreater(mended, 120)

    def test_many_blocks(self) -> None:
        """Each BeginProblem after the first is NextProblem then; a fault that stays is counted once."""
        made = mend(text_of("Title A", PIECES, "Stipulation #1") * 600)
        wanted = text_of(*["Title A", PIECES, "Stipulation #1", "NextProblem"] * 600)
        self.assertEqual(made.text, wanted.replace(b"NextProblem\nEndProblem", b"EndProblem"))
        self.assertEqual((made.mended, made.left), (599, 0))
        made = mend(text_of(PIECES, "Stipulation mate") + text_of("Titel A", PIECES, "Stipulation #1"))
        self.assertEqual((made.mended, made.left), (2, 1))

    def test_a_denial_far_away(self) -> None:
        """Only words near an edit of a line say that another problem may be meant."""
        for words, mended in ((10, 0), (1000, 1)):
            text = text_of(PIECES, "Stipulation #1", f"Option SetPlay,Variation{' SetPlay' * words} not")
            self.assertEqual(mending.edit_for(text, 1, self.reading(text)) is not None, bool(mended))

    def reading(self, text: bytes) -> Reading:
        reading = mending.read_number(text, 1)
        assert reading is not None
        return reading

    def test_what_is_written(self) -> None:
        for wrong, right in MEN:
            with self.subTest(wrong):
                made = mend(text_of(wrong, "Stipulation #1"))
                self.assertEqual(made.text, text_of(right, "Stipulation #1"))
        for wrong, right in WORDS:
            with self.subTest(wrong):
                self.assertEqual(mend(text_of(PIECES, wrong)).text, text_of(PIECES, right))

    def test_what_may_be_another_problem_stays(self) -> None:
        """`or` is no Origin, no option becomes its opposite, no stipulation a comment."""
        for wrong in OTHER_PROBLEMS:
            with self.subTest(wrong):
                made = mend(text_of(PIECES, wrong))
                self.assertEqual(made.text, text_of(PIECES, wrong))
                self.assertEqual((made.mended, made.left), (0, 1))
        text = text_of(PIECES, "Stipulation h#2", "Option White")
        self.assertIn(b"WhiteToPlay", run_here.companion("pops-explain", text=text).output)
        made = mend(text_of(PIECES, "Stipulation h#3 not Circe"))
        self.assertEqual((made.text, made.mended), (text_of(PIECES, "Stipulation h#3 not Circe"), 0))

    def test_what_advice_leaves_out(self) -> None:
        for wrong, right in (
            ("Stipulation #2\nOption Threat Variation", "Stipulation #2\nOption Variation"),
            ("Stipulation #2\nOption StartMoveNumber", "Stipulation #2"),
            ("Stipulation #2\nOption Try Defence 1 SetPlay", "Stipulation #2\nOption SetPlay"),
            ("Stipulation #2\nOption MaxTime 60", "Stipulation #2"),
            ("Stipulation #2\nOption NoThreat Intelligent", "Stipulation #2"),
            ("Stipulation h#2\nOption MaxSol 5 MoveNumbers", "Stipulation h#2\nOption MaxSol 5"),
        ):
            with self.subTest(wrong):
                made = mend(text_of(PIECES, wrong))
                self.assertEqual((made.text, made.left), (text_of(PIECES, right), 0))

    def test_set_play_and_wanted_solutions(self) -> None:
        for wrong, right in (
            ("Stipulation h#2*", "Stipulation h#2\nOption SetPlay"),
            ("Stipulation (h#2*),", "Stipulation h#2\nOption SetPlay"),
            ("Stipulation h#2½*", "Stipulation h#2.5\nOption SetPlay"),
            ("Stipulation h#2,5*", "Stipulation h#2.5\nOption SetPlay"),
            ("Stipulation h#2 *", "Stipulation h#2 Option SetPlay"),
            ("Stipulation #2*, Variation", "Option SetPlay\nStipulation #2 Option Variation"),
            ("Stipulation h#2½;2.1.1.1.1", "Stipulation h#2.5\nRemark solutions 2"),
            ("Stipulation h#2 2.1.1.1", "Stipulation h#2\nRemark solutions 2"),
            ("Stipulation h#2 2.1..", "Stipulation h#2\nRemark solutions 2"),
            ("Stipulation h#2.5 3.", "Stipulation h#2.5\nRemark solutions 3"),
            ("Stipulation h#2;2.3.1.1", "Stipulation h#2\nRemark solutions 6"),
            ("Stipulation h#2 3.1;1.1", "Stipulation h#2\nRemark solutions 3"),
            ("Stipulation h#2;3.1;1.1", "Stipulation h#2\nRemark solutions 3"),
            ("Stipulation h#2 2;1,1,1", "Stipulation h#2\nRemark solutions 2"),
            ("Stipulation h#2,5;2.1.1.1.1", "Stipulation h#2.5\nRemark solutions 2"),
            ("Stipulation h#2.5 0.2.1.1.1.1", "Stipulation h#2.5\nRemark solutions 2"),
            ("Stipulation h#2 2 solutions", "Stipulation h#2\nRemark solutions 2"),
            ("Stipulation h#2 (2 Lösungen)", "Stipulation h#2\nRemark solutions 2"),
            ("Stipulation h#2, 2 sol.", "Stipulation h#2\nRemark solutions 2"),
            (
                "Stipulation h#2 2.1.1.1 Option SetPlay",
                "Stipulation h#2\nRemark solutions 2\n Option SetPlay",
            ),
            (
                "Stipulation h#2* 2.1.1.1",
                "Option SetPlay\nStipulation h#2\nRemark solutions 2",
            ),
        ):
            with self.subTest(wrong):
                made = mend(text_of(PIECES, wrong))
                self.assertEqual((made.text, made.left), (text_of(PIECES, right), 0))
                self.assertEqual(faults(made.text), 0)

    def test_no_other_problem_is_posed(self) -> None:
        for wrong in (
            "Stipulation #2\nCondition MadrasiRexInclusive",
            "Stipulation #2\nCondition MadrasiRI",
            "Stipulation #2\nCondition CirceParrain",
            "Stipulation #2\nCondition Circe Parrain",
            "Stipulation #2\nCondition CirceRI",
            "Stipulation #2\nCondition Anticirce",
            "Stipulation h#2\nOption HalfDuplex",
            "Stipulation h#2\nOption WhiteToPlay",
            "Stipulation #2\nOption PostKeyPlay",
            "Stipulation r#2",
            "Stipulation hs#2",
            "Stipulation exact-#2",
            "Stipulation h=1,5.",
            "Stipulation #1-2",
            "Stipulation #=2",
            "Stipulation h#1*2",
            "Stipulation #2v",
            "Stipulation h#2 0.1.1.1",
            "Stipulation h#3 0.2.1.1.1.1",
            "Stipulation h#2;0.1.1.1",
            "Stipulation h#2 2.1.1.1.1.1",
            "Stipulation h#2 14;9",
            "Stipulation h#2 12.5.1977",
            "Stipulation #2 0.1.1",
        ):
            with self.subTest(wrong):
                made = mend(text_of(PIECES, wrong))
                self.assertEqual((made.text, made.mended), (text_of(PIECES, wrong), 0))
                self.assertEqual(made.left, 1)
        made = mend(text_of(PIECES, "Stipulation #2\nCondition Circes"))
        self.assertEqual(made.text, text_of(PIECES, "Stipulation #2\nCondition Circe"))

    def test_men_of_another_language_are_left(self) -> None:
        """In German B is the pawn: to write the other letters in English would leave it a bishop.
        Which language it is needn't be known: in Czech S is the bishop."""
        for lines in (
            ["Pieces White Kg6 Da1 Sb3 Black Kg8", "Stipulation #1"],
            ["Pieces White Rg6 Da1 Black Rg8", "Stipulation =1"],
            ["Pieces White Kg6 Da1 La2 Bb4 Black Kg8", "Stipulation #1"],
            ["Steine Weiss Kg6 Ta1 Bb4 Schwarz Kg8", "Stipulation #1"],
            ["Titel Ein Matt", "Pieces White Kg6 Bb4 Black Kg8", "Stipulation #1"],
            ["Titre Un pat", "Pieces White Rg6 Pa2 Black Rg8", "Stipulation =1"],
            ["Pieces White Kng6 Ra1 Black Kg8", "Stipulation #1"],
        ):
            with self.subTest(lines):
                made = mend(text_of(*lines))
                self.assertEqual((made.text, made.mended), (text_of(*lines), 0))

    def test_several_problems_and_blocks(self) -> None:
        text = text_of("Titel A", PIECES, "Stipulation 2#", "NextProblem", PIECES, "Stip:", "#1")
        made = mend(text + text_of(PIECES, "Stipulation #1,"))
        self.assertEqual((made.mended, made.left, faults(made.text)), (5, 0, 0))
        self.assertEqual(len(cut(made.text)), 3)

    def test_two_problems_do_not_become_one(self) -> None:
        one, other = "Pieces White Kg6 Ra2 Black Kg8", "Pieces White Ra5 Black Pa7"
        for lines in (
            (PIECES, "Stipulation #1", one, "Stipulation #1"),
            ("Stipulation #1", PIECES, "Stipulation #1", one),
            ("Pieces White Rb5 Black Pb7", "Stipulation =1", other, "Stipulation =1"),
        ):
            with self.subTest(lines):
                made = mend(text_of(*lines))
                self.assertEqual((made.mended, made.left, made.text), (0, 1, text_of(*lines)))

    def test_a_problem_of_nothing_is_left_out(self) -> None:
        """Not one with a text line: it may be of a problem that is lost."""
        sound = (PIECES, "Stipulation #1")
        for wrong in (
            (*sound, "NextProblem"),
            (*sound, "nex", "", "NextProblem"),
            (*sound, "Next Problem"),
            ("NextProblem", *sound),
            (*sound, "NextProblem", "EndProblem", "BeginProblem"),
        ):
            with self.subTest(wrong):
                made = mend(text_of(*wrong))
                self.assertEqual((made.text, made.left), (text_of(*sound), 0))
        made = mend(text_of(*sound, "NextProblem", "NextProblem", *sound))
        self.assertEqual((made.text, made.left), (text_of(*sound, "NextProblem", *sound), 0))
        text = text_of(*sound, "NextProblem", "Title lost", "NextProblem", *sound)
        self.assertEqual((mend(text).text, mend(text).left), (text, 1))

    def test_a_text_on_one_line(self) -> None:
        text = f"BeginProblem {PIECES} Stipulation 2# EndProblem\n"
        self.assertEqual(mend(text.encode()).text, text.replace("2#", "#2").encode())

    def test_a_line_that_may_mean_another_problem_is_left(self) -> None:
        for line in (
            *("Stipulation #2 black", "Stipulation #2 Black to move", "Stipulation mate in 2 by Black"),
            *("Stipulation White mates in 2 after Black's move", "Stipulation mate in 1 or 2"),
            *("Stipulation #1,5", "Stipulation #2 without castling", "Stipulation Matt in 2, nicht 3"),
            *("Stipulation #2\nOption SetPlay=0", "Stipulation #2\nOption Variations: off"),
            *("Stipulation #2\nOption Variatons none", "Stipulation #2\nCondition Cirse or Madrasi"),
            *("Stipulation #2\nCondition not Cirse", "Stipulation #2\nCondition keine Cirse"),
        ):
            with self.subTest(line):
                text = text_of(PIECES, *line.split("\n"))
                made = mend(text)
                self.assertEqual((made.mended, made.left, made.text), (0, 1, text))

    def test_a_line_is_corrected_whole_or_left(self) -> None:
        """What is said beside a slip may change what the line poses."""
        for line in (
            *("Stipulation h#2 2.1.1.1 zeroposition", "Stipulation mate in 2 duplex"),
            *("Option Variatons Duplex", "Option SetPlay: Quodlibet", "Condition Cirse Parrain"),
            *("Stipulation 2# Condition Koeko", "Pieces White: Kg6 Ra1 royal Qb2 Black Kg8"),
            "Pieces White Kg6 bQa8 Ra1 Black Kg8",
        ):
            with self.subTest(line):
                men = () if line.startswith("Pieces") else (PIECES,)
                text = text_of("Titel A", *men, "Stipulation #2", line)
                made = mend(text)
                self.assertEqual(made.text, text.replace(b"Titel", b"Title"))
                self.assertEqual((made.mended, made.left), (1, 1))

    def test_no_that_belongs_to_an_option_is_joined(self) -> None:
        made = mend(text_of(PIECES, "Stipulation #1", "Option No Board"))
        self.assertEqual(made.text, text_of(PIECES, "Stipulation #1", "Option NoBoard"))

    def test_the_end_is_added(self) -> None:
        text = f"BeginProblem\n{PIECES}\nStipulation #1".encode()
        self.assertEqual(mend(text).text, text + b"\nEndProblem\n")

    def test_texts_of_other_systems(self) -> None:
        text = text_of("Title A", PIECES, "Stipulation #1")
        self.assertEqual(mend(text.replace(b"\n", b"\r")).text, text)
        self.assertEqual(mend(text.decode().encode("utf-16")).text, text)


class Further(unittest.TestCase):
    def found(self, *lines: str) -> list[str]:
        """Line, number and marked words of the faults after the first one."""
        text = text_of(*lines)
        return [
            f"{it.fault.line}: {it.fault.number}: "
            + " | ".join(text[mark.start : mark.stop].decode() for mark in it.explanation.marks)
            for it in further_faults(text, cut(text), 1)
        ]

    def test_each_fault_once_at_its_place_in_the_text(self) -> None:
        found = self.found(
            "Titel A", "Pieces White: Kg6, Ta1 Black Kg8", "Stipulation 2#", "Option Variatons"
        )
        wanted = ["3: 2: White:", "3: 14: Kg6,", "3: 2: Ta1", "4: 8: 2#", "5: 2: Variatons"]
        self.assertEqual(found, wanted)

    def test_each_fault_is_explained_once(self) -> None:
        with mock.patch.object(mending, "explanation", wraps=explanation) as made:
            found = self.found(PIECES, "Stipulation #1", *3 * ["Option Variatoin"])
        self.assertEqual((len(found), made.call_count), (2, 3))

    def test_a_word_that_cannot_be_mended_is_passed_over(self) -> None:
        found = self.found(PIECES, "Condition Koeko", "Stipulation 2#", "Option Nothing")
        self.assertEqual(found, ["4: 8: 2#", "5: 2: Nothing"])

    def test_the_line_of_a_command_of_popeye_is_passed_over(self) -> None:
        found = self.found(PIECES, "Stipulation #1", "Twin Move a1 b1", "Option Nothing")
        self.assertEqual(found, ["5: 2: Nothing"])

    def test_what_lacks_for_a_word_passed_over_is_no_fault(self) -> None:
        self.assertEqual(self.found(PIECES, "Stipulation ser-h#3"), [])
        self.assertEqual(self.found("Stipulation #1", "Pieces White Kg6 Black Xg8"), [])

    def test_a_problem_with_one_fault_has_no_other(self) -> None:
        self.assertEqual(self.found(PIECES, "Stipulation 2#"), [])

    def test_an_option_without_its_value_is_passed_over_too(self) -> None:
        options = ("MaxSolutions", "MaxSolutions five", "EnPassant", "EnPassant d9", "NoCastling")
        for option in options:
            with self.subTest(option):
                found = self.found(PIECES, f"Option {option}", "Stipulation 2#")
                self.assertEqual(found, ["4: 8: 2#"])
        found = self.found(PIECES, "Stipulation #1", "Option NoCastling a2", "Option Nothing")
        self.assertEqual(found, ["5: 2: Nothing"])

    def test_lines_that_are_added_or_left_out_do_not_count(self) -> None:
        found = self.found(PIECES, "Option Try", "Stipulation h#2 2.1.1.1", "Option Nothing")
        self.assertEqual(found, ["4: 2: 2.1.1.1", "5: 2: Nothing"])

    def test_men_of_another_language(self) -> None:
        found = self.found("Steine Weiss Kg6 Ta1 Schwarz Kg8", "Forderung 2#")
        wanted = ["2: 2: Weiss", "2: 2: Ta1", "2: 2: Schwarz", "3: 2: Forderung", "3: 8: 2#"]
        self.assertEqual(found, wanted)

    def test_a_text_without_a_problem_has_one_fault(self) -> None:
        text = b"8 ......k.\n7 ........\n"
        self.assertEqual(list(further_faults(text, cut(text), 1)), [])


class Notices(unittest.TestCase):
    def test_names_nightriders_and_lost_text(self) -> None:
        text = (
            b"BeginProblem\nAuthor R\xe9ti\nPieces White Kg6\n Na1 Black Kg8\nStipulation #1\n"
            b"NextProblem\nPieces White Kg6 Na1 Sb1 Black Kg8\nStipulation #1\nEndProblem\nmore\n"
        )
        found = [(notice.line, notice.problem) for notice in notices(text)]
        self.assertEqual(found, [(2, 1), (4, 1), (10, None)])
        self.assertEqual(list(notices(text_of(PIECES, "Stipulation #1"))), [])

    def test_an_input_of_popeye_is_for_pops_import(self) -> None:
        for lines in (
            (PIECES, "Stipulation #1", "Twin Move a1 b1", "Twin Move a1 c1"),
            (PIECES, "Stipulation #1", "NextProblem", PIECES, "Stipulation #1", "Option Try"),
            ("Steine Weiss Kg6 Ta1 Schwarz Kg8", "Forderung #1"),
        ):
            with self.subTest(lines):
                (notice,) = notices(text_of(*lines))
                self.assertIn("pops-import", notice.text)
        (notice,) = notices(codecs.BOM_UTF8 + text_of(PIECES, "Stipulation #1", "Twin Move a1 b1"))
        self.assertEqual(notice.line, 4)
        self.assertEqual(list(notices(text_of(PIECES, "Stipulation 2#"))), [])

    def test_a_collection_is_for_pops_import(self) -> None:
        yaml = 'algebraic:\n  white: [Kg6, Ra1]\n  black: [Kg8]\nstipulation: "#1"\n'
        for text in (
            yaml,
            f"---\ntitle: A\n{yaml}",
            f"\ufeff# by hand\n\n- {yaml}",
            '{"algebraic": {"white": ["Kg6"], "black": ["Kg8"]}, "stipulation": "#1"}',
        ):
            with self.subTest(text):
                said = run_here.companion("pops-explain", text=text.encode()).output.decode()
                self.assertIn("YAML or JSON", said)
                self.assertIn("`pops-import FILE`", said)
                self.assertEqual(mend(text.encode()).mended, 0)


def calls_of(done: Callable[[], object]) -> int:
    """How many calls Python makes meanwhile, also of its own functions."""
    calls = 0

    def note(_frame: object, event: str, _argument: object) -> None:
        nonlocal calls
        calls += event in ("call", "c_call")

    sys.setprofile(note)
    try:
        done()
    finally:
        sys.setprofile(None)
    return calls


class GoingOn(unittest.TestCase):
    """A reading that goes on where an edit is finds what one from the beginning does."""

    def test_every_slip(self) -> None:
        edits = 0
        for slip in slips():
            text, reading = slip.text, mending.read_number(slip.text, 1)
            for _ in range(mending.MOST_FAULTS):
                edit = None if reading is None else self.edit_of(text, reading)
                if reading is None or edit is None:
                    break
                edits += 1
                text, before = edit.of(text), reading.before_fault()
                reading = mending.read_number(text, 1)
                if reading is not None and before.stays(text, edit.span.start):
                    found = read_on(text, before)
                    # (what was awaited before the last word counts only for a faulty one)
                    found.awaited_before, found.option_before = reading.awaited_before, reading.option_before
                    self.assertEqual(found, reading, slip.text)
        self.assertGreater(edits, 150)

    def edit_of(self, text: bytes, reading: Reading) -> Optional[Edit]:
        """Mends the fault, or leaves its word out."""
        if reading.number is None:
            return None
        edit = mending.edit_for(text, 1, reading)
        return edit if edit is not None or reading.at is None else Edit(reading.word.span, b"")

    def test_what_stays(self) -> None:
        text = text_of(PIECES, "Title a", "xyz #2")
        reading = mending.read_number(text, 1)
        assert reading is not None
        before, end = reading.before_fault(), text.index(b"\nxyz")
        self.assertTrue(before.stays(text, end + 1) and before.stays(text[:end] + b"\n", end))
        self.assertFalse(before.stays(text, end - 1) or before.stays(text[:end] + b" b\n", end))


class Work(unittest.TestCase):
    """Four times the problems take four times the calls, however the problems are divided."""

    WRONG = "Pieces White Kg6 Ta1 Black Kg8\nStipulation mate\n"
    RIGHT = f"{PIECES}\nStipulation #1\n"

    def is_linear(self, made: Callable[[int], str], work: Callable[[bytes], object]) -> None:
        few, many = made(30).encode(), made(120).encode()
        work(few)
        calls = calls_of(lambda: work(few))
        self.assertGreater(calls, 30)
        self.assertLess(calls_of(lambda: work(many)), 5 * calls)

    def test_mending(self) -> None:
        faults_in: dict[str, Callable[[int], str]] = {
            "in each problem": lambda count: f"BeginProblem\n{'NextProblem '.join([self.WRONG] * count)}EndProblem\n",
            "on one line": lambda count: f"BeginProblem {'Next '.join([self.WRONG] * count)}End".replace("\n", " "),
            "blocks": lambda count: f"BeginProblem\n{self.RIGHT}EndProblem\n" * count,
            "no ends": lambda count: f"BeginProblem\n{self.RIGHT}" * count,
        }
        for name, made in faults_in.items():
            with self.subTest(name):
                self.is_linear(made, mend)

    def test_many_words_that_begin_a_problem(self) -> None:
        """The problem is looked for again where it may end, not after each of them."""
        text = f"BeginProblem\n{self.RIGHT}NextProblem xyz {'Begin ' * 200}EndProblem\n".encode()
        with mock.patch.object(near, "cut", wraps=cut) as looks:
            self.assertEqual((mend(text).text, mend(text).left), (text, 1))
        self.assertLess(looks.call_count, 20)

    def test_all_faults(self) -> None:
        def made(count: int) -> str:
            return f"BeginProblem\n{'NextProblem '.join([self.WRONG] * count)}EndProblem\n"

        def work(text: bytes) -> None:
            pieces = cut(text)
            for piece in pieces:
                self.assertEqual(len(list(further_faults(text, pieces, piece.number))), 1)

        self.is_linear(made, work)

    def test_a_long_line(self) -> None:
        """The faults of a problem cost one reading of it, not one for each."""
        head = ["Pieces White Kg6 Ra1 Black Kg8", "Stipulation #1"]
        for word, work in (
            ("xyz", lambda text: self.assertEqual(len(list(further_faults(text, cut(text), 1))), 49)),
            ("SetPlay,Variation", lambda text: self.assertEqual(mend(text).mended, 50)),
        ):
            text = text_of(*head, f"Option{' SetPlay' * 20_000}{f' {word}' * 60}")
            piece = cut(text)[0]
            once = calls_of(lambda text=text, piece=piece: read_piece(text, piece))  # type: ignore[misc]
            with self.subTest(word):
                self.assertLess(calls_of(lambda text=text, work=work: work(text)), 4 * once)  # type: ignore[misc]

    def test_the_command(self) -> None:
        """As text and as JSON."""
        reports = {}
        for count in (30, 120):
            text = f"BeginProblem\n{'NextProblem '.join([self.WRONG] * count)}EndProblem\n".encode()
            reports[text] = support.run([support.pops(), "--check"], text).output

        def made(count: int) -> str:
            return list(reports)[count > 30].decode()

        explained = support.loaded("pops-explain")
        self.is_linear(made, lambda text: explained.write("x", text, io.BytesIO(reports[text]), io.BytesIO(), True))
        self.is_linear(made, lambda text: explained.write_json("x", text, reports[text], io.BytesIO(), True))


class Command(support.InRoom):
    def setUp(self) -> None:
        super().setUp()
        self.input = self.room / "two.pop"
        self.input.write_bytes(text_of("Titel A", PIECES, "Stipulation 2#"))

    def test_all(self) -> None:
        outcome = run_here.companion("pops-explain", "--all", str(self.input))
        text = outcome.output.decode()
        self.assertEqual((outcome.status, outcome.error), (1, ""))
        self.assertIn("two.pop:4: problem 1: fault 8: bad stipulation\n", text)
        self.assertTrue(text.endswith("\n1 problem, 1 faulty, 2 faults\n"))
        first = run_here.companion("pops-explain", str(self.input)).output.decode()
        self.assertNotIn("fault 8", first)
        self.assertTrue(text.startswith(first.split("\n\n")[0]))

    def test_fix(self) -> None:
        outcome = run_here.companion("pops-explain", "--fix", str(self.input))
        fixed = self.room / "two.fixed.pop"
        self.assertEqual(outcome.status, 1)
        self.assertEqual(outcome.error, f"pops-explain: {fixed}: 2 corrected\n")
        self.assertEqual(fixed.read_bytes(), text_of("Title A", PIECES, "Stipulation #2"))
        again = run_here.companion("pops-explain", "--fix", str(fixed))
        self.assertEqual((again.status, again.error), (0, ""))
        self.assertEqual(len(list(self.room.iterdir())), 2)

    def test_nothing_to_correct(self) -> None:
        self.input.write_bytes(text_of(PIECES, "Stipulation mate"))
        outcome = run_here.companion("pops-explain", "--fix", str(self.input))
        said = f"pops-explain: {self.input}: nothing could be corrected\n"
        self.assertEqual((outcome.status, outcome.error), (1, said))
        self.assertEqual(run_here.companion("pops-explain", "--fix").status, 2)
