"""Files of diagrams: the right man on the right square, as SVG, as PNG and as LaTeX."""

import os
import re
import shutil
import struct
import subprocess
import sys
import tempfile
import unittest
import xml.etree.ElementTree as ElementTree
from pathlib import Path

from pops_companions.show.latex import authors
from tests import support
from tests.test_pages import NAMES

SVG = "{http://www.w3.org/2000/svg}"
HREF = "{http://www.w3.org/1999/xlink}href"
# The letters of the package diagram; U is upside down.
LETTERS = {"K": "k", "D": "q", "T": "r", "L": "b", "S": "s", "B": "p", "DU": "g", "SU": "n"}
BOARD = (
    "8 k..r...r\n7 ........\n6 ........\n5 ........\n4 .N.n....\n3 ...p....\n2 ......P.\n"
    "1 R...K.gG\n  abcdefgh\n"
)
MEN = {
    **{"a8": "k", "d8": "r", "h8": "r", "b4": "N", "d4": "n", "d3": "p"},
    **{"g2": "P", "a1": "R", "e1": "K", "g1": "g", "h1": "G"},
}
REPORT = (
    f"problem 1\ntitle: A & B <\nauthor: Loyd, Sam; #1\n{BOARD}h#2.5 Circe\nplay\n"
    "1...Ra1-a3 2.Ka8-b8 Ra3*d3[+bPd7] 3.Kb8-a8 Rd3-a3#\nsolutions: 1\n\n"
    "problem 2\nline 9: fault 11: no men\n\nproblem 3\n#1\nsound\n\n"
)
FAULTY = "pops-diagram: problem 2 is faulty: no diagram\n"
NO_BOARD = "pops-diagram: problem 3 has no board in the report: no diagram\n"


def drawn(report: bytes, kind: str, *words: str) -> dict[str, bytes]:
    """The files of a report by their names; the report comes on standard input."""
    with tempfile.TemporaryDirectory() as room:
        outcome = support.companion("pops-diagram", kind, "-o", room, *words, text=report)
        files = {path.name: path.read_bytes() for path in Path(room).iterdir()}
        told = sorted(Path(line).name for line in outcome.output.decode().splitlines())
        assert told == sorted(files), outcome
    return files


def named_boards() -> tuple[bytes, dict[str, dict[str, str]]]:
    """All stored reports in one, and the men of each item with a board by the item's name."""
    reports = [path.read_bytes() for path in support.stored_reports()]
    boards = {}
    for report, text in enumerate(reports, start=1):
        for number, item in enumerate(support.plain_items(text), start=1):
            if item.board:
                name = f"{number}" if report == 1 else f"{report}-{number}"
                boards[f"problem-{name}"] = {
                    file + rank: letter
                    for rank, line in zip("87654321", item.board)
                    for file, letter in zip("abcdefgh", line)
                    if letter != "."
                }
    assert len(boards) > 50
    return b"".join(reports), boards


def men_of_svg(drawing: bytes) -> dict[str, str]:
    """The men by square: the board begins 22 units from the left, a square has 45 units."""
    root = ElementTree.fromstring(drawing)
    shapes = {group.get("id") for group in root.iter(f"{SVG}g")}
    letters = {name: letter for letter, name in NAMES.items()}
    men = {}
    for colour, fill in (("white", "#fff"), ("black", "#000")):
        (group,) = [group for group in root.iter(f"{SVG}g") if group.get("class") == colour]
        assert group.get("fill") == fill
        for use in group:
            kind = str(use.get(HREF))[1:]
            assert kind in shapes, kind
            file, rank = (int(str(use.get("x"))) - 22) // 45, 7 - int(str(use.get("y"))) // 45
            letter = letters[kind]
            square = "abcdefgh"[file] + str(rank + 1)
            men[square] = letter.upper() if colour == "white" else letter
    return men


def men_of_latex(text: str) -> dict[str, str]:
    """The men of \\pieces, whose numbers must be those in its brackets."""
    parts = re.search(r"\\pieces\[(\d+)\+(\d+)\]\{(.*)\}", text)
    assert parts is not None, text
    men = {}
    for word in parts[3].split(", "):
        found = re.fullmatch(r"([ws])([A-Z]+)((?:[a-h][1-8])+)", word)
        assert found is not None, word
        colour, letters, squares = found.groups()
        for square in re.findall("..", squares):
            assert square not in men
            men[square] = LETTERS[letters].upper() if colour == "w" else LETTERS[letters]
    white = sum(1 for letter in men.values() if letter.isupper())
    assert (int(parts[1]), int(parts[2])) == (white, len(men) - white), text
    return men


class Drawings(unittest.TestCase):
    def test_right_man_on_right_square_of_every_stored_report(self) -> None:
        report, boards = named_boards()
        for kind, end, men in (
            ("--svg", ".svg", men_of_svg),
            ("--latex", ".tex", lambda text: men_of_latex(text.decode())),
        ):
            files = drawn(report, kind)
            self.assertEqual(set(files), {name + end for name in boards})
            for name, wanted in boards.items():
                with self.subTest(name + end):
                    self.assertEqual(men(files[name + end]), wanted)

    def test_svg_says_what_it_shows(self) -> None:
        (text,) = drawn(REPORT.encode(), "--svg").values()
        root = ElementTree.fromstring(text)
        self.assertEqual(men_of_svg(text), MEN)
        self.assertEqual(root.findtext(f"{SVG}title"), "A & B <, Loyd, Sam; #1, h#2.5 Circe")
        said = "White Ke1 Ra1 Pg2 Gh1 Nb4, Black Ka8 Rd8 Rh8 Pd3 Gg1 Nd4"
        self.assertEqual(root.get("aria-label"), said)

    def test_latex_in_full(self) -> None:
        (text,) = drawn(REPORT.encode(), "--latex").values()
        self.assertEqual(
            text.decode(),
            "\\begin{diagram}\n"
            "\\author{Loyd, Sam; {\\#1}, {}}\n"
            "\\dedic{A \\& B \\textless{}}\n"
            "\\pieces[5+6]{wKe1, wTa1, wBg2, wDUh1, wSUb4, sKa8, sTd8h8, sBd3, sDUg1, sSUd4}\n"
            "\\stipulation{h\\#2.5}\n"
            "\\condition{Circe}\n"
            "\\piecedefs{{ws}{DU}{Grasshopper}; {ws}{SU}{Nightrider}}\n"
            "\\solution{play\\newline\n"
            "1...Ra1-a3 2.Ka8-b8 Ra3*d3[+bPd7] 3.Kb8-a8 Rd3-a3\\#\\newline\n"
            "solutions: 1}\n"
            "\\end{diagram}\n",
        )

    def test_authors(self) -> None:
        """One author, surname first, is one entry of an index; two are two."""
        for text, wanted in (
            ("Loyd, Samuel", "Loyd, Samuel"),
            ("Sam Loyd", "{Sam Loyd}, {}"),
            ("Paul Morphy, 1856", "{Paul Morphy, 1856}, {}"),
            ("Composer, Anna; Solver, Bert", "Composer, Anna; Solver, Bert"),
            ("A. Kraemer & E. Zepler", "{A. Kraemer}, {}; {E. Zepler}, {}"),
            ("Réti, Richard and A. Alexander", "Réti, Richard; {A. Alexander}, {}"),
            ("Loyd, Sam, Shinkman, Will", "{Loyd, Sam, Shinkman, Will}, {}"),
        ):
            with self.subTest(text):
                self.assertEqual(authors(text), wanted)

    def test_latex_of_twins(self) -> None:
        """One environment, with the source that the input has and a file of its first number."""
        text = (
            b"BeginProblem\nTitle a)\nOrigin Die Schwalbe & 1977\n"
            b"Pieces White Kg6 Ra1 Black Kh8\nStipulation h#1\n"
            b"NextProblem\nTitle b)\nRemark b) Move a1 b2\n"
            b"Pieces White Kg6 Rb2 Black Kh8\nStipulation h#1\n"
            b"NextProblem\nPieces White Kg6 Ra1 Black Kh8\nStipulation h#1\nEndProblem\n"
        )
        report = support.run([support.pops()], text).output
        with tempfile.TemporaryDirectory() as room:
            given = Path(room) / "given.pop"
            given.write_bytes(text)
            words = ["--latex", "--input", str(given), "-o", f"{room}/"]
            outcome = support.companion("pops-diagram", *words, text=report)
            names = [Path(name).name for name in outcome.output.decode().splitlines()]
            self.assertEqual(names, ["problem-1.tex", "problem-3.tex"])
            made = (Path(room) / "problem-1.tex").read_text()
        self.assertIn("\\source{Die Schwalbe \\& 1977}\n", made)
        self.assertIn("\\twins{b) Move a1 b2}\n", made)
        self.assertEqual(made.count("solutions: 1"), 2)
        self.assertNotIn("\\dedic", made)

    def test_latex_of_a_tree(self) -> None:
        play = "set\nnot possible\nplay\n1.Ra1-a2\n  1...Ka8-b8\n    2.Ra2-a8#\nsolutions: 1\n\n"
        (text,) = drawn(f"problem 1\n{BOARD}#2\n{play}".encode(), "--latex").values()
        lines = [
            "\\solution{set",
            "not possible",
            "play",
            "1.Ra1-a2",
            "\\hspace*{1em}1...Ka8-b8",
            "\\hspace*{2em}2.Ra2-a8\\#",
            "solutions: 1}",
        ]
        self.assertIn("\\newline\n".join(lines) + "\n", text.decode())

    def test_latex_typesets_every_stored_report(self) -> None:
        """The package itself stops where the number of men isn't that in the brackets."""
        if not support.has_latex():
            print("test_diagram: no LaTeX with the package diagram here: nothing was typeset")
            return
        marks = "".join(chr(code) for code in range(33, 127)) + " Réti \x00\x1b\xff"
        strange = f"problem 1\ntitle: {marks}\nauthor: {marks}\n{BOARD}#1\nsound\n\n"
        files = drawn(named_boards()[0] + strange.encode(), "--latex")
        inputs = "".join(f"\\input{{{name}}}\n" for name in files)
        with tempfile.TemporaryDirectory() as room:
            for name, text in files.items():
                (Path(room) / name).write_bytes(text)
            (Path(room) / "all.tex").write_text(
                "\\documentclass{article}\n\\usepackage{diagram}\n\\begin{document}\n"
                f"{inputs}\n\\putsol\n\\end{{document}}\n"
            )
            words = ["latex", "-interaction=nonstopmode", "-halt-on-error", "all.tex"]
            done = subprocess.run(words, cwd=room, capture_output=True, timeout=support.PATIENCE)
        self.assertEqual(done.returncode, 0, done.stdout[-2000:])


class Pictures(unittest.TestCase):
    def test_pictures_of_their_width(self) -> None:
        if shutil.which("rsvg-convert") is None:
            print("test_diagram: no rsvg-convert here: no picture was made")
            return
        cases: list[tuple[list[str], int]] = [([], 800), (["--width", "250"], 250)]
        for words, width in cases:
            (picture,) = drawn(REPORT.encode(), "--png", *words).values()
            self.assertEqual(picture[:8], b"\x89PNG\r\n\x1a\n")
            self.assertEqual(struct.unpack(">II", picture[16:24]), (width, width))
        other = REPORT.replace("8 k..r...r", "8 k..r...q").encode()
        self.assertNotEqual(drawn(other, "--png", "--width", "250"), {"problem-1.png": picture})

    def test_a_converter_that_is_missing_or_fails_is_told(self) -> None:
        with tempfile.TemporaryDirectory() as room:
            outcome = self.pictures(room)
            self.assertEqual((outcome.status, outcome.output), (3, b""))
            self.assertIn("--png needs rsvg-convert of librsvg", outcome.error)
            converter = Path(room) / "rsvg-convert"
            support.write_program(converter, "#!/bin/sh\necho no room >&2\nexit 4\n")
            outcome = self.pictures(room)
            self.assertEqual((outcome.status, outcome.output), (3, b""))
            told = f"pops-diagram: {converter} ended with 4: no room\n"
            self.assertEqual(outcome.error, told)
            self.assertEqual([path.name for path in Path(room).iterdir()], ["rsvg-convert"])

    def pictures(self, path: str) -> support.Outcome:
        """Asks for pictures where the PATH is one folder."""
        done = subprocess.run(
            [sys.executable, str(support.COMPANIONS / "pops-diagram"), "--png", "-o", f"{path}/x"],
            input=REPORT.encode(),
            capture_output=True,
            env={**os.environ, "PATH": path},
        )
        return support.Outcome(done.returncode, done.stdout, done.stderr.decode())


class Command(unittest.TestCase):
    def test_places_and_names(self) -> None:
        joined = REPORT + REPORT
        with tempfile.TemporaryDirectory() as name:
            room = Path(name)
            (room / "old games.report").write_text(joined)
            (room / "there").mkdir()
            for output, written in (
                (None, ["old games-1.svg", "old games-2-1.svg"]),
                ("there", ["there/old games-1.svg", "there/old games-2-1.svg"]),
                ("new/folder/", ["new/folder/old games-1.svg", "new/folder/old games-2-1.svg"]),
                ("there/a", ["there/a1.svg", "there/a2-1.svg"]),
            ):
                with self.subTest(output):
                    words = ["old games.report"] + ([] if output is None else ["-o", output])
                    done = self.inside(room, *words)
                    self.assertEqual(done.output.decode().splitlines(), written)
                    self.assertEqual(done.status, 1)
                    more = FAULTY.replace("2", "2-2") + NO_BOARD.replace("3", "2-3")
                    self.assertEqual(done.error, FAULTY + NO_BOARD + more)
                    for file in written:
                        self.assertEqual(men_of_svg((room / file).read_bytes()), MEN)
            text = REPORT.split("problem 2")[0].encode()
            self.assertEqual(self.inside(room, text=text), (0, b"problem-1.svg\n", ""))

    def inside(self, room: Path, *words: str, text: bytes = b"") -> support.Outcome:
        """Draws as SVG in a folder."""
        done = subprocess.run(
            [sys.executable, str(support.COMPANIONS / "pops-diagram"), "--svg", *words],
            cwd=room,
            input=text,
            capture_output=True,
        )
        return support.Outcome(done.returncode, done.stdout, done.stderr.decode())

    def test_titles_in_another_encoding(self) -> None:
        report = REPORT.replace("A & B <", "Réti").encode("latin-1")
        (text,) = drawn(report, "--latex", "--encoding", "latin-1").values()
        self.assertIn("\\dedic{Réti}", text.decode())
        with tempfile.TemporaryDirectory() as room:
            outcome = support.companion("pops-diagram", "--latex", "-o", room, text=report)
            self.assertIn("title or author of problem 1 isn't utf-8", outcome.error)
            self.assertIn("\\dedic{Réti}", (Path(room) / "problem-1.tex").read_text())

    def test_a_cut_report_leaves_what_was_whole(self) -> None:
        with tempfile.TemporaryDirectory() as room:
            text = (REPORT.split("problem 2")[0] + "problem 2\n").encode()
            outcome = support.companion("pops-diagram", "--svg", "-o", room, text=text)
            self.assertEqual(outcome.status, 3)
            self.assertIn("standard input is no report of pops: line ", outcome.error)
            self.assertEqual([path.name for path in Path(room).iterdir()], ["problem-1.svg"])

    def test_mistakes_have_a_line_and_a_status(self) -> None:
        empty = support.companion("pops-diagram", "--svg", "-o", "nowhere/")
        told = "pops-diagram: standard input is empty: no report of pops\n"
        self.assertEqual(empty, (3, b"", told))
        self.assertFalse(Path("nowhere").exists())
        self.assertEqual(support.companion("pops-diagram", "--svg", "nowhere.report").status, 3)
        mistakes: list[list[str]] = [[], ["--svg", "--png"], ["--gif"], ["--png", "--width", "0"]]
        for words in mistakes:
            with self.subTest(words):
                self.assertEqual(support.companion("pops-diagram", *words).status, 2)
        with tempfile.NamedTemporaryFile() as file:
            place = f"{file.name}/x"
            text = REPORT.encode()
            outcome = support.companion("pops-diagram", "--svg", "-o", place, text=text)
            self.assertEqual((outcome.status, outcome.output), (3, b""))

    def test_help(self) -> None:
        outcome = support.companion("pops-diagram", "--help")
        self.assertEqual(outcome.status, 0)
        self.assertIn(b"example:", outcome.output)
