"""The text of pops-tries beside two slower ways to make it, and beside published solutions.

The first is the plain solver of the tests, the second asks `pops` about every position after a
first move and a reply. Without pops-tries here the two are compared with each other.
"""

import functools
import re
import unittest
from typing import Optional

from pops_companions.many.tries_program import find_tries
from tests import support
from tests.made_tries import REFUTATIONS, disagreements, made_problems
from tests.plain_tries import Writer, plain_tries
from tests.tries_by_pops import tries_by_pops

# The mate in two of Wikipedia's article "Chess problem", which says what is tested here.
TAVERNER = (
    b"BeginProblem\nAuthor T. Taverner\nOrigin Dubuque Chess Journal 1889\n"
    b"Pieces White Kg2 Qh5 Rf1h2 Bg1h7 Sc1c7 Pe2f3 Black Kf4 Re8f8 Bd8g8 Pc4c5\n"
    b"Stipulation #2\nOption NoBoard SetPlay\nEndProblem\n"
)
# Loyd's story of Charles XII at Bender, Chess Monthly 1859: each time a bullet takes a man away.
# (from memory: with a pawn on h7 too, as first remembered, the last two have no key)
CHARLES = (
    ("Kf5 Rg7 Se1 Pg2h2", "#3", "1.Rg7*g3!"),
    ("Kf5 Rg7 Pg2h2", "#4", "1.h2*g3!"),
    ("Kf5 Rg7 Pg2", "#5", "1.Rg7-b7!"),
    ("Kf5 Se1 Pg2h2", "#6", "1.Se1-f3!"),
)
THREE_THREATS = (
    b"BeginProblem\nPieces White Ke3 Qb5 Rd6 Rg3 Be4 Bf5 Se6 Black Kh2 Rf7 Bf3\n"
    b"Stipulation #2\nOption NoBoard\nEndProblem\n"
)
MATE_IN_TWO = (
    b"BeginProblem\nPieces White Kd6 Qh8 Rc7 Black Ke1 Pa6\nStipulation #2\nOption NoBoard\n"
    b"EndProblem\n"
)
# Examples for which a search of all tries takes less than a second.
EXAMPLES = (
    *("morphy_1856", "mate_in_two", "morphy_paris_1858", "legal_paris_1750", "boden_london_1853"),
    *("carlsen_new_york_2016", "reti_vienna_1910", "immortal_london_1851", "set_play"),
)


def charles_problem(white: str, stipulation: str) -> bytes:
    men = f"Pieces White {white} Black Kh5 Bf2 Pg3h6"
    lines = f"{men}\nStipulation {stipulation}\nOption NoBoard"
    return f"BeginProblem\n{lines}\nEndProblem\n".encode()


def phase(text: str, name: str) -> list[str]:
    """The lines of a phase: `set`, `play` or `tries`."""
    after = text.split(f"\n{name}\n")[1]
    return re.split(r"(?m)^(?:solutions|tries): ", after)[0].split("\n")[:-1]


def pairs(lines: list[str]) -> dict[str, list[str]]:
    """White's moves below each line that has one of them below it."""
    found: dict[str, list[str]] = {}
    above = ""
    for line in lines:
        move = line.strip()
        if re.match(r"\d+\.\.\.", move) or move == "threat":
            above = move
        elif above:
            found.setdefault(above, []).append(move)
    return found


@functools.lru_cache(maxsize=None)
def program() -> Optional[str]:
    found = find_tries(None, support.pops())
    if found is None:
        print("test_plain_tries: no pops-tries here: its text wasn't compared")
    return found


def tries_of(text: bytes, most: int) -> str:
    """The text of tries of the program; where it isn't here, made of reports of `pops`."""
    named = program()
    if named is None:
        return tries_by_pops(support.pops(), text, most).decode()
    return support.run([named, "--refutations", str(most)], text).output.decode()


class Made(unittest.TestCase):
    def test_few_men(self) -> None:
        """Two and three moves, both goals, all conditions, with 0, 1, 2 and 200 refutations."""
        named = program()
        if named is not None:
            differing, shown = disagreements(named, made_problems(20261128, 60))
            self.assertEqual(differing, [])
            for kind in ("key", "try", "threat", "zugzwang", "check", "defence", "set"):
                self.assertGreater(shown[kind], 20, kind)

    def test_the_two_slower_ways(self) -> None:
        for seed in range(6):
            text = made_problems(seed, 1)
            writer = Writer(text)
            for most in REFUTATIONS:
                wanted = "".join(f"{line}\n" for line in writer.tries(most))
                found = tries_by_pops(support.pops(), text, most).decode()
                self.assertEqual(found, wanted, (seed, most))

    def test_many_men(self) -> None:
        for seed in range(8):
            text = made_problems(seed, 1, are_many=True)
            most = REFUTATIONS[seed % 4]
            wanted = tries_by_pops(support.pops(), text, most).decode()
            self.assertEqual(tries_of(text, most), wanted, text)

    def test_examples(self) -> None:
        for name in EXAMPLES:
            text = (support.REPOSITORY / "examples" / f"{name}.pop").read_bytes()
            wanted = tries_by_pops(support.pops(), text, 2).decode()
            self.assertEqual(tries_of(text, 2), wanted, name)


class Published(unittest.TestCase):
    """What is published of these problems; positions and words from memory."""

    def test_taverner(self) -> None:
        """Zugzwang: nineteen replies, of which two spoil a mate of the set play."""
        for text in (plain_tries(TAVERNER, 1).decode(), tries_of(TAVERNER, 1)):
            key, menace, *below = phase(text, "play")
            self.assertEqual((key, menace), ("1.Rh2-h1!", "  zugzwang"))
            found, before = pairs(below), pairs(phase(text, "set"))
            self.assertEqual(len(found), 19)
            self.assertEqual(sorted(found.keys() - before.keys()), ["1...Bd8-g5", "1...Re8-e3"])
            for reply, mate in (
                *(("Bg8*h7", "Sc7-d5#"), ("Re8-e5", "Qh5-g4#"), ("Re8-e3", "Bg1-h2#")),
                *(("Bd8-g5", "Qh5-h2#"), ("Bg8-f7", "Qh5-f5#"), ("Rf8-f7", "Sc7-d5#")),
            ):
                self.assertEqual(found[f"1...{reply}"], [f"2.{mate}"])

    def test_charles_the_twelfth(self) -> None:
        """Each problem has one key. In the first the bishop takes the rook."""
        for white, stipulation, key in CHARLES:
            text = tries_of(charles_problem(white, stipulation), 0)
            keys = [it for it in phase(text, "play") if not it.startswith(" ")]
            self.assertEqual(keys, [key])
        first = charles_problem("Kf5 Rg7 Se1 Pg2h2", "#3").replace(b"NoBoard", b"Variation")
        after = tries_of(first, 0).split("\n  1...Bf2*g3\n")[1].split("\nsolutions")[0]
        move, *lines = after.split("\n")
        self.assertEqual(move, "    2.Se1-f3")
        self.assertEqual({it.strip() for it in lines[1::2]}, {"3.g2-g4#"})

    def test_excelsior(self) -> None:
        """White threatens to move his rook from b5 to d5 or f5."""
        text = (support.REPOSITORY / "examples" / "excelsior_1861.pop").read_bytes()
        if program() is not None:
            key, menace, *threats = phase(tries_of(text, 0), "play")[:5]
            self.assertEqual((key, menace), ("1.b2-b4!", "  threat"))
            self.assertEqual(threats[:2], ["    2.Rb5-d5", "    2.Rb5-f5"])
            self.assertTrue(threats[2].startswith("  1..."))

    def test_threats_stopped_in_part(self) -> None:
        """One defence stops all three threats; the capture, Bg4 and Rh7 leave one or two."""
        text = tries_of(THREE_THREATS, 0)
        self.assertEqual(phase(text, "play")[0], "1.Qb5-f1!")
        found = pairs(phase(text, "play"))
        self.assertEqual(found.pop("threat"), ["2.Qf1-g1#", "2.Qf1-h3#", "2.Rg3-h3#"])
        self.assertEqual(
            list(found), ["1...Kh2*g3", "1...Bf3-g2", "1...Bf3-g4", "1...Rf7-h7"]
        )
        self.assertEqual(found["1...Kh2*g3"], ["2.Qf1-f2#", "2.Qf1-h3#"])
        self.assertEqual(found["1...Rf7-h7"], ["2.Qf1-g1#"])

    def test_stalemate(self) -> None:
        """In #1 the king stalemates; where stalemate is the goal that is the key."""
        path = support.REPOSITORY / "tests" / "tries" / "stalemate.pop"
        wanted = path.with_suffix(".tries").read_text()
        self.assertEqual(plain_tries(path.read_bytes(), 1).decode(), wanted)

    def test_the_try_of_the_manual(self) -> None:
        text = tries_of(MATE_IN_TWO, 1)
        self.assertEqual(phase(text, "play")[0], "1.Qh8-b2!")
        after = text.split("\n1.Qh8-h2?\n")[1].split("\ntries")[0]
        self.assertEqual(after.split("  but\n")[1], "    1...Ke1-d1!")
