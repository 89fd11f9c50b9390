"""What companions, page, grammars and editors know of the men is what the crates say."""

import json
import shutil
import subprocess
import tempfile
import unittest
from pathlib import Path

from pops_companions.chess.attacks import attackers
from pops_companions.chess.men import FAIRY_KINDS, GAITS, STEPS, Colour, Gait, Kind, Man, Square
from tests import support

SCRIPT = Path("scripts", "men")
MEN = Path("crates", "chess_core", "src", "man.rt")
STEPS_FILE = Path("crates", "chess_core", "specs", "Steps.antt")
TABLE = Path("companions", "pops_companions", "chess", "men.json")
PLACES = (
    TABLE,
    Path("web", "men.js"),
    Path("companions", "pops_companions", "chess", "men.py"),
    Path("companions", "pops_companions", "show", "item.schema.json"),
    Path("docs", "report.ebnf"),
    Path("editors", "vim", "syntax", "pop.vim"),
    Path("editors", "vscode", "syntaxes", "pop.tmLanguage.json"),
)


class FromTheCrates(unittest.TestCase):
    def room(self) -> Path:
        """A room with a copy of the script and of all that it reads and writes."""
        room = tempfile.TemporaryDirectory()
        self.addCleanup(room.cleanup)
        root = Path(room.name)
        for path in (SCRIPT, MEN, STEPS_FILE, *PLACES):
            (root / path).parent.mkdir(parents=True, exist_ok=True)
            shutil.copy(support.REPOSITORY / path, root / path)
        return root

    def run_in(self, root: Path, *words: str) -> tuple[int, str]:
        done = subprocess.run([root / SCRIPT, *words], capture_output=True, check=False)
        return done.returncode, (done.stdout + done.stderr).decode()

    def changed(self, root: Path, path: Path, *pairs: tuple[str, str]) -> None:
        text = (root / path).read_text("utf-8")
        for old, new in pairs:
            self.assertIn(old, text)
            text = text.replace(old, new)
        (root / path).write_text(text, "utf-8")

    def test_the_files_here_agree(self) -> None:
        self.assertEqual(self.run_in(support.REPOSITORY, "--check"), (0, ""))

    def test_a_new_leaper_comes_everywhere(self) -> None:
        root = self.room()
        self.changed(
            root,
            MEN,
            ("    Nightrider,\n}", "    Nightrider,\n    /// Leaps.\n    Camel,\n}"),
            ("Kind::Knight | Kind::Pawn => Gait", "Kind::Knight | Kind::Pawn | Kind::Camel => Gait"),
            ("Kind::Nightrider => b'N',", "Kind::Nightrider => b'N',\n            Kind::Camel => b'C',"),
        )
        new = "kind_steps c Nightrider = knight_steps\nkind_steps c Camel = step_by 3 0 1 0 ∷ step_by 0 3 0 1 ∷ []"
        self.changed(root, STEPS_FILE, ("kind_steps c Nightrider = knight_steps", new))
        status, said = self.run_in(root, "--check")
        self.assertEqual(status, 1)
        self.assertEqual([it.split()[0] for it in said.splitlines()], [str(it) for it in PLACES])
        self.assertEqual(self.run_in(root), (0, ""))
        self.assertEqual(self.run_in(root, "--check"), (0, ""))
        camel = json.loads((root / TABLE).read_text("utf-8"))[-1]
        steps = [[3, 1], [-3, -1]]
        expected = {"name": "camel", "letter": "C", "gait": "leaper", "fairy": True, "steps": steps}
        self.assertEqual(camel, expected)
        for path, text in zip(PLACES[1:], ("C: 'camel'", 'CAMEL = "C"', '"camel"', '"c"', "gnc]", "GNC]")):
            self.assertIn(text, (root / path).read_text("utf-8"))

    def test_a_place_that_is_gone_is_named(self) -> None:
        root = self.room()
        self.changed(root, Path("docs", "report.ebnf"), ("letter     =", "letters    ="))
        status, said = self.run_in(root)
        self.assertEqual((status, said.split(": no place")[0]), (1, "scripts/men: docs/report.ebnf"))


class Tables(unittest.TestCase):
    """Steps and gaits as the FIDE Laws and Popeye's manual have them."""

    def reached(self, kind: Kind, colour: Colour, origin: str, *others: str) -> str:
        """The squares that a man attacks, among pawns of its side."""
        men = {Square.of_name(it): Man(colour, Kind.PAWN) for it in others}
        men[Square.of_name(origin)] = Man(colour, kind)
        squares = sorted(it for it in Square.of_diagram() if it.name != origin)
        own = Square.of_name(origin)
        return " ".join(it.name for it in squares if own in attackers(men, it, colour, False))

    def test_fairy_men(self) -> None:
        self.assertEqual(FAIRY_KINDS, (Kind.GRASSHOPPER, Kind.NIGHTRIDER))
        self.assertEqual([GAITS[it] for it in FAIRY_KINDS], [Gait.HOPPER, Gait.RIDER])
        self.assertEqual(sorted(STEPS[Kind.PAWN]), [(-1, 1), (1, 1)])

    def test_what_they_reach(self) -> None:
        self.assertEqual(self.reached(Kind.PAWN, Colour.WHITE, "e4"), "d5 f5")
        self.assertEqual(self.reached(Kind.PAWN, Colour.BLACK, "a4"), "b3")
        self.assertEqual(self.reached(Kind.KNIGHT, Colour.WHITE, "a1"), "b3 c2")
        self.assertEqual(self.reached(Kind.KING, Colour.BLACK, "h8"), "g7 g8 h7")
        self.assertEqual(self.reached(Kind.NIGHTRIDER, Colour.WHITE, "a1"), "b3 c2 c5 d7 e3 g4")
        self.assertEqual(self.reached(Kind.NIGHTRIDER, Colour.WHITE, "a1", "b3"), "b3 c2 e3 g4")
        self.assertEqual(self.reached(Kind.GRASSHOPPER, Colour.WHITE, "a1", "a3", "d4"), "a4 e5")
        self.assertEqual(self.reached(Kind.BISHOP, Colour.WHITE, "a1", "c3"), "b2 c3")
        self.assertEqual(self.reached(Kind.ROOK, Colour.WHITE, "a1", "a2", "c1"), "a2 b1 c1")


if __name__ == "__main__":
    unittest.main()
