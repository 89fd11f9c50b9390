"""pops-import: other collections become problems of pops, and what is left out is reported.

The made files of data/import have the wanted output (.pop) and the wanted lines on standard error
(`.told`) next to them, both written by hand.
"""

import ast
import contextlib
import importlib.util
import io
import json
import random
import re
import signal
import subprocess
import sys
import tempfile
import unittest
from collections.abc import Iterator, Mapping
from pathlib import Path
from typing import Any, NamedTuple
from unittest import mock

from pops_companions.import_.language import ENGLISH, FRENCH, GERMAN, meaning
from pops_companions.import_.origins import date_text, origin_of
from pops_companions.import_.sections import wanted_of
from pops_companions.import_.sources import read_drafts
from pops_companions.import_.yaml_text import YamlError, documents
from tests import run_here, support

DATA = Path(__file__).resolve().parent / "data" / "import"
IMPORT = support.loaded("pops-import")


class Imported(NamedTuple):
    """What an import in this process left; lines of error without the program's name."""

    status: int
    output: bytes
    told: list[str]


def imported(*words: str) -> Imported:
    """Imports files, with the options before them."""
    with tempfile.TemporaryDirectory() as room:
        target = Path(room) / "made.pop"
        error = io.StringIO()
        with contextlib.redirect_stderr(error):
            status = IMPORT.main([*words, "-o", str(target)])
        output = target.read_bytes() if target.exists() else b""
    told = [line[len("pops-import: ") :] for line in error.getvalue().splitlines()]
    return Imported(int(status), output, told)


def imported_text(text: bytes, *words: str) -> Imported:
    """Imports a text, which messages call `text`."""
    with tempfile.TemporaryDirectory() as room:
        source = Path(room) / "text"
        source.write_bytes(text)
        made = imported(*words, str(source))
    return made._replace(told=[line.replace(str(source), "text") for line in made.told])


def made_files() -> list[Path]:
    """The collections of data/import; those in YAML where PyYAML is installed."""
    suffixes = (".inp", ".yaml") if importlib.util.find_spec("yaml") else (".inp",)
    files = sorted(path for path in DATA.iterdir() if path.suffix in suffixes)
    assert len(files) > 12
    return files


class MadeFiles(unittest.TestCase):
    def test_each_becomes_what_is_wanted(self) -> None:
        for path in made_files():
            with self.subTest(path.name):
                made = imported(str(path))
                self.assertEqual(
                    made.output.decode("utf-8"), path.with_suffix(".pop").read_text("utf-8")
                )
                wanted = path.with_suffix(".told").read_text("utf-8").splitlines()
                self.assertEqual(made.told, [f"{path}, {line}" for line in wanted])
                left_out = any(": left out" in line for line in wanted)
                self.assertEqual(made.status, 1 if left_out else 0)

    def test_what_is_wanted_is_sound(self) -> None:
        for path in sorted(DATA.glob("*.pop")):
            with self.subTest(path.name):
                outcome = support.run([support.pops(), "--check", str(path)])
                self.assertEqual((outcome.status, outcome.error), (0, ""), outcome.output)

    def test_what_was_imported_stays_as_it_is(self) -> None:
        for path in sorted(DATA.glob("*.pop")):
            with self.subTest(path.name):
                self.assertEqual(imported(str(path)), (0, path.read_bytes(), []))

    def test_line_ends_of_other_systems(self) -> None:
        for path in made_files():
            name, text = path.name, path.read_bytes()
            wanted = imported_text(text)
            for end in (b"\r\n", b"\r"):
                with self.subTest(name, end=end):
                    self.assertEqual(imported_text(text.replace(b"\n", end)), wanted)

    def test_encodings(self) -> None:
        for name in ("german.inp", "french.inp"):
            text = (DATA / name).read_text("utf-8")
            wanted = imported_text(text.encode("utf-8"))
            for encoding in ("latin-1", "utf-16"):
                with self.subTest(name, encoding=encoding):
                    made = imported_text(text.encode(encoding), "--encoding", encoding)
                    self.assertEqual(made, wanted)
            marked = imported_text(b"\xef\xbb\xbf" + text.encode("utf-8"))
            self.assertEqual(marked, wanted)

    def test_lines_in_another_encoding_are_read_as_latin_1(self) -> None:
        text = "BeginProblem\nAuthor Réti\nTitle Café ♞\nAuthor Müller\nStipulation #1\n"
        text += "Pieces White Kg6 Ra1 Black Kg8\nEndProblem\n"
        lines = text.splitlines(keepends=True)
        mixed = b"".join(line.encode("latin-1" if "Author" in line else "utf-8") for line in lines)
        made = imported_text(mixed)
        self.assertEqual(made.status, 0)
        self.assertIn("Title Café ♞\nAuthor Réti; Müller\n", made.output.decode("utf-8"))
        said = "not in utf-8, read as latin-1; --encoding names another"
        self.assertEqual(made.told, [f"text, line 2 and 1 more: {said}"])

    def test_a_text_of_wide_characters_is_refused(self) -> None:
        refused = imported_text((DATA / "german.inp").read_text("utf-8").encode("utf-16"))
        self.assertEqual(
            refused, (3, b"", ["text, line 1: not in utf-8: give --encoding, as utf-16"])
        )


class Document(unittest.TestCase):
    def test_the_example(self) -> None:
        document = (support.REPOSITORY / "docs" / "COMPANIONS.md").read_text("utf-8")
        section = document.split("## pops-import", 1)[1]
        blocks = re.findall(r"\n\n((?:    [^\n]*\n)+)", section)[1:4]
        given, wanted, told = (re.sub("^    ", "", block, flags=re.M) for block in blocks)
        made = imported_text(given.encode("utf-8"))
        self.assertEqual(made.output.decode("utf-8"), wanted)
        shown = [f"pops-import: {line.replace('text', 'pair.inp', 1)}" for line in made.told]
        self.assertEqual(shown, told.splitlines())


class Origins(unittest.TestCase):
    """Source and date as magazines print them."""

    def test_dates_in_words(self) -> None:
        for date, wanted in (
            ("1977", "1977"),
            ("1977-08", "August 1977"),
            ("1977-08-01", "1 August 1977"),
            ("1977.8.31", "31 August 1977"),
            ("1977-00-00", "1977"),
            ("1977-13", "1977-13"),
            ("about 1900", "about 1900"),
        ):
            with self.subTest(date):
                self.assertEqual(date_text(date), wanted)

    def test_parts_in_their_order(self) -> None:
        cases: list[tuple[list[tuple[str, str]], tuple[str, str]]] = [
            ([("name", "Die Schwalbe"), ("date", "1977")], ("Die Schwalbe 1977", "")),
            ([("date", "1977-08"), ("name", "Die Schwalbe")], ("Die Schwalbe, August 1977", "")),
            ([("name", "feenschach"), ("problemid", "4711"), ("year", "1977"), ("month", "8")],
             ("feenschach, 4711, August 1977", "")),
            ([("name", "A"), ("volume", "3"), ("month", "8")], ("A", "volume 3, month 8")),
            ([("name", "A"), ("date.year", "1977"), ("date.month", "8"), ("volume", "3")],
             ("A, August 1977", "date.year 1977, date.month 8, volume 3")),
            ([], ("", "")),
        ]  # fmt: skip
        for parts, wanted in cases:
            with self.subTest(parts):
                self.assertEqual(origin_of(parts), wanted)


class WantedNumbers(unittest.TestCase):
    """`2.1..` after a stipulation: two solutions, which part at the first half-move."""

    def test_numbers(self) -> None:
        for text, wanted in (
            ("2", 2), ("2.1..", 2), ("2.1.1.1", 2), ("3.2..", 6), ("2...", 2),
            ("0.1", None), ("..", None), ("2,1", None), ("2.x", None),
        ):  # fmt: skip
            with self.subTest(text):
                self.assertEqual(wanted_of(text), wanted)

    @support.needs_module("yaml")
    def test_an_input_of_popeye(self) -> None:
        pieces = "Pieces White Kg6 Ra1 Black Kh8"
        given = f"BeginProblem\nStipulation h#2 2.1..\n{pieces}\nEndProblem\n"
        wanted = (
            "BeginProblem\nRemark intended-solutions: 2.1..\nRemark solutions 2\n"
            f"{pieces}\nStipulation h#2\nEndProblem\n"
        )
        self.assertEqual(imported_text(given.encode()), (0, wanted.encode(), []))
        yaml = "stipulation: 'h#2 2.1..'\nalgebraic: {white: [Kg6, Ra1], black: [Kh8]}\n"
        self.assertEqual(imported_text(yaml.encode()), (0, wanted.encode(), []))


class RoundTrips(unittest.TestCase):
    """Texts of pops in, the same reports out."""

    def test_sound_rows_and_examples(self) -> None:
        tried = 0
        for path in support.stored_inputs():
            report = support.stored_report(path).read_bytes()
            if b": fault " in report:
                continue
            tried += 1
            with self.subTest(path.name):
                made = imported(str(path))
                self.assertEqual(made.status, 0, made.told)
                words = support.row_options(path)
                outcome = support.run([support.pops(), *words], made.output)
                self.assertEqual(outcome, (0, report, ""))
        self.assertGreater(tried, 70)

    def test_the_example_of_faults(self) -> None:
        """A comma and a lost number in two of its seven problems are no faults for Popeye."""
        made = imported(str(support.REPOSITORY / "examples" / "faults.pop"))
        self.assertEqual(made.status, 1)
        self.assertEqual(made.output.count(b"Pieces "), 4)
        left_out = [line.split(", ", 1)[1] for line in made.told if ": left out: " in line]
        self.assertEqual(
            left_out,
            [
                "line 8, problem 2: left out: Stipulatoin isn't known here",
                "line 18, problem 4: left out: MaxSolutions needs a number from 1 to 4,000,000,000",
                "line 27, problem 7: left out: there is no stipulation",
                "line 30, problem 8: left out: it comes after EndProblem, where neither Popeye nor"
                " pops reads on, and so do those after it: write NextProblem for EndProblem and the"
                " BeginProblem after it",
            ],
        )


# English words with the words that Popeye has for them in German and French.
_TRANSLATED = {
    "BeginProblem": ("AnfangProblem", "DebutProbleme"),
    "NextProblem": ("WeiteresProblem", "ASuivre"),
    "EndProblem": ("EndeProblem", "FinProbleme"),
    "Pieces": ("Steine", "Pieces"),
    "White": ("Weiss", "Blanc"),
    "Black": ("Schwarz", "Noir"),
    "Stipulation": ("Forderung", "Enonce"),
    "Condition": ("Bedingung", "Condition"),
    "Title": ("Titel", "Titre"),
    "Author": ("Autor", "Auteur"),
    "SetPlay": ("SatzSpiel", "ApparentJeu"),
    "Variation": ("Variante", "Variantes"),
    "MaxSolutions": ("MaxLoesungen", "MaxSolutions"),
}
_LETTERS = {"K": "KR", "Q": "DD", "R": "TT", "B": "LF", "S": "SC", "P": "BP", "G": "GS", "N": "NN"}


def translated(text: str, place: int) -> str:
    """A text in German (0) or French (1)."""
    words = []
    for word in re.split(r"(\s+)", text):
        if word in _TRANSLATED:
            word = _TRANSLATED[word][place]
        elif re.fullmatch("[KQRBSPGN]([a-h][1-8])+", word):
            word = _LETTERS[word[0]][place] + word[1:]
        words.append(word)
    return "".join(words)


def made_problems(chance: random.Random) -> str:
    """Problems of this profile, as pops-import writes them; some have a fault that pops reports."""
    problems = []
    for number in range(chance.randrange(1, 5)):
        squares = [f"{file}{rank}" for file in "abcdefgh" for rank in range(2, 8)]
        chance.shuffle(squares)
        lines = [f"Title Number {number}", "Author N. N."]
        sides = []
        for colour in ("White", "Black"):
            men = [f"K{squares.pop()}"]
            for letter in "QRBSPGN":
                count = chance.choice([0, 0, 1, 2])
                own = sorted((squares.pop() for _ in range(count)), key=lambda one: one[::-1])
                men += [letter + "".join(own)] if own else []
            sides.append(" ".join([colour, *men]))
        lines.append("Pieces " + " ".join(sides))
        lines.append("Stipulation " + chance.choice(["#2", "s#3", "h#2", "h#1.5", "=1", "h=2.5"]))
        condition = chance.choice(["", "Circe", "Madrasi"])
        lines += [f"Condition {condition}"] if condition else []
        options = [word for word in ("SetPlay", "Variation") if chance.random() < 0.5]
        options += ["MaxSolutions 7"] if chance.random() < 0.5 else []
        lines += ["Option " + " ".join(options)] if options else []
        problems.append("\n".join(lines))
    return "BeginProblem\n" + "\nNextProblem\n".join(problems) + "\nEndProblem\n"


class Languages(unittest.TestCase):
    def test_a_hundred_made_texts_in_three_languages(self) -> None:
        chance = random.Random(34)
        for number in range(100):
            text = made_problems(chance)
            for place, name in ((None, "English"), (0, "German"), (1, "French")):
                with self.subTest(number, language=name):
                    given = text if place is None else translated(text, place)
                    made = imported_text(given.encode("utf-8"))
                    self.assertEqual(made.output.decode("utf-8"), text)
                    self.assertEqual((made.status, made.told), (0, []))

    def test_short_words(self) -> None:
        text = "anf ste w kg6 s kh8 ford h#1 op sat nae st w kg6 s kh8 ford h#1 ende"
        self.assertEqual(
            imported_text(text.encode()).output.decode(),
            "BeginProblem\nPieces White Kg6 Black Kh8\nStipulation h#1\nOption SetPlay\n"
            "NextProblem\nPieces White Kg6 Black Kh8\nStipulation h#1\nEndProblem\n",
        )

    def test_the_words_of_the_document(self) -> None:
        """Its tables name all words that are taken, each with what it means."""
        section = (support.PACKAGE / "import_" / "WORDS.md").read_text("utf-8")
        cases: list[tuple[str, list[Mapping[str, frozenset[str]]]]] = [
            ("Command", [one.commands for one in (ENGLISH, GERMAN, FRENCH)]),
            ("Option", [one.options for one in (ENGLISH, GERMAN, FRENCH)]),
            ("Twin", [one.twinnings for one in (ENGLISH, GERMAN, FRENCH)]),
        ]
        for title, places in cases:
            rows = table(section, title)
            for place, words in enumerate(places):
                known = {}
                for row in rows:
                    wanted = re.findall("`([^`]+)`", row[0])[0]
                    for word in re.findall("`([^`]+)`", row[place]):
                        with self.subTest(title, word=word):
                            self.assertEqual(meaning(word.lower(), words), wanted)
                        known[word.lower()] = wanted
                whole = [word for word in words if not is_beginning(word, words)]
                self.assertEqual(sorted(set(whole) - set(known)), [])


def is_beginning(word: str, words: Any) -> bool:
    """Whether a word is there only as the beginning of others."""
    return any(other != word and other.startswith(word) for other in words)


def table(text: str, title: str) -> list[list[str]]:
    """The rows of the table whose first column has a title."""
    lines = text.split("\n")
    start = next(at for at, line in enumerate(lines) if line.startswith(f"| {title} |")) + 2
    rows = []
    for line in lines[start:]:
        if not line.startswith("|"):
            break
        rows.append([cell.strip() for cell in line.strip("|").split("|")])
    assert rows
    return rows


class Texts(unittest.TestCase):
    def test_long_titles_are_shortened_between_letters(self) -> None:
        title = "é" * 150
        made = imported_text(
            f"BeginProblem\nTitle {title}\nAuthor {title}\nPieces White Kg6 Black Kh8\n"
            "Stipulation h#1\nTwin Move g6 g7\nEndProblem\n".encode("utf-8")
        )
        lines = made.output.decode("utf-8").split("\n")
        self.assertEqual(lines[1], f"Title {'é' * 98} a)")
        self.assertEqual(lines[2], f"Author {'é' * 100}")
        self.assertEqual(lines[3:5], [f"Remark Title {title}", f"Remark Author {title}"])
        self.assertEqual(
            made.told[:2],
            [
                "text, line 1, problem 1 a): Title shortened to 200 bytes: see Remark",
                "text, line 1, problem 1 a): Author shortened to 200 bytes: see Remark",
            ],
        )

    @support.needs_module("yaml")
    def test_a_text_line_stays_one_line(self) -> None:
        made = imported_text(
            b'title: "two\\nlines\\tand\\fmore"\nstipulation: h#1\n'
            b"algebraic: {white: [Kg6], black: [Kh8]}\n"
            b'"no\\nte": "a\\vb\\n\\x85c"\n'
        )
        self.assertEqual(
            made.output.decode("utf-8"),
            "BeginProblem\nTitle two lines\tand\x0cmore\nRemark no te: a\vb\n"
            "Remark no te: \x85c\n"
            "Pieces White Kg6 Black Kh8\nStipulation h#1\nEndProblem\n",
        )

    def test_texts_stay_as_pops_reads_them(self) -> None:
        """What pops prints of a title is what it prints of the imported one, byte for byte."""
        for title in (":-)", "a  b\t c", "a\rb \r", "\v\fa\vb", "\xa0a\xa0", "\x1ba\x1c", "É, ß;"):
            lines = ["Beg", f"Title {title}", "Pieces White Kg6 Black Kh8", "Stip h#1", "End\n"]
            text = "\n".join(lines).encode("utf-8")
            with self.subTest(title):
                reports = [
                    support.run([support.pops(), "--check"], one)
                    for one in (text, imported_text(text).output)
                ]
                self.assertEqual(reports[0].status, 0)
                self.assertEqual(*reports)

    def test_remarks_of_a_problem_stand_with_its_first_twin_that_is_posed(self) -> None:
        made = imported_text(
            b"BeginProblem\nRemark both\nPieces White Kg6 Black Kh8 LEa1\nStipulation h#1\n"
            b"Twin Remove a1\nTwin Remove a1 Move g6 g7\nEndProblem\n"
        )
        self.assertEqual(made.output.count(b"Remark both\n"), 1)
        self.assertIn(b"Title b)\nRemark both\n", made.output)

    def test_long_texts_of_a_problem_stand_with_its_first_twin(self) -> None:
        """An Origin, and what was skipped before the problem: each twin would repeat them."""
        for long in ("x" * 2000, "x " * 1000, "x\n" * 30):
            origins = "".join(f"Origin {line}\n" for line in long.splitlines())
            text = f"{long}\nBeginProblem\n{origins}Pieces White Kg6 Ra1 Black Kh8\nStipulation h#1\n"
            with self.subTest(long[:3]):
                made = imported_text(f"{text}{'Twin Move a1 b2 ' * 100}EndProblem".encode())
                problems = re.split("NextProblem\n", made.output.decode())
                self.assertEqual(len(problems), 101)
                self.assertIn("Origin x", problems[0])
                self.assertIn("Remark skipped before the first problem: x", problems[0])
                self.assertLess(max(map(len, problems[1:])), 3000)

    def test_many_conditions(self) -> None:
        """The first ones are enough to leave the problem out; each section would copy all of them."""
        sections = "".join(f"Condition c{number}\n" for number in range(1000))
        given = f"BeginProblem\nPieces White Kg6 Black Kh8\nStipulation h#1\n{sections}EndProblem\n"
        (draft,) = read_drafts(given)
        self.assertEqual(draft.setting.conditions, tuple(f"c{number}" for number in range(100)))
        told = "".join(imported_text(given.encode()).told)
        self.assertIn("left out: pops knows no condition c0 c1 c2 c3 ", told)
        self.assertLess(len(told), 200)

    def test_attributes_are_named_once(self) -> None:
        """Each man and each twin would repeat them."""
        given = f"White {'Royal Royal Chameleon ' * 100}Qa1 Kg6 Black Kh8"
        made = imported_text(f"BeginProblem\nPieces {given}\nStipulation h#1\nEndProblem\n".encode())
        said = "pops knows no white Royal Chameleon Q, on a1; pops knows no white Royal Chameleon K, on g6"
        self.assertIn(f"left out: {said}", "".join(made.told))

    def test_signs_between_two_squares(self) -> None:
        """As YACPDB has twins of Benkő's: `Shift a1=b1`."""
        for sign in ("=", "==", "=>", "-->", "<-->", "-", ""):
            made = imported_text(
                b"BeginProblem\nPieces White Kg6 Black Kh7\nStipulation h#1\n"
                b"Twin Shift a1%sa2\nEndProblem\n" % sign.encode()
            )
            self.assertIn(b"Remark b) Shift a1 a2\nPieces White Kg7 Black Kh8\n", made.output)


@support.needs_module("yaml")
class Options(unittest.TestCase):
    def test_variation_stays_and_try_asks_for_none(self) -> None:
        """In all battle play, in inputs of Popeye and in YAML."""
        men = "White Kg6 Ra1 Black Kh8"
        for asked in ("#2", "#3", "s#2"):
            for given, wanted in (
                ("Try Variation", ["Variation"]),
                ("Defence 2 Var", ["Variation"]),
                ("Try", []),
            ):
                text = f"Pieces {men}\nStipulation {asked}\nOption {given}"
                popeye = f"BeginProblem\n{text}\nEndProblem\n"
                yaml = "algebraic: {white: [Kg6, Ra1], black: [Kh8]}\n"
                yaml += f"stipulation: '{asked}'\noptions: [{given}]\n"
                for text in (popeye, yaml):
                    made = imported_text(text.encode()).output.decode()
                    self.assertEqual(re.findall("^Option (.+)$", made, re.M), wanted)


# Texts in YAML, and what they hold.
VALUES = [
    ("a: b", {"a": "b"}),
    ("a: b # c", {"a": "b"}),
    ("a: b#c", {"a": "b#c"}),
    ("a: #b", {"a": None}),
    ("a: '#b'", {"a": "#b"}),
    ("a: ~\nb: null\nc:\nd: ''", {"a": None, "b": None, "c": None, "d": ""}),
    ("a: 'it''s'", {"a": "it's"}),
    (r'a: "\"\\\n\t\x41\u00e9\U0001F600\/"', {"a": '"\\\n\tAé\U0001f600/'}),
    (r'a: "\uD83D\uDE00"', {"a": "\U0001f600"}),
    ("a: http://b.c/d", {"a": "http://b.c/d"}),
    ("a:b: c", {"a:b": "c"}),
    ("\"a b\": c\n'd: e': f", {"a b": "c", "d: e": "f"}),
    ("a:\n- b\n- c\nd: e", {"a": ["b", "c"], "d": "e"}),
    ("a:\n  - b\n  -\n    c\n  -\nd: e", {"a": ["b", "c", None], "d": "e"}),
    ("- a: b\n  c: d\n- e: f", [{"a": "b", "c": "d"}, {"e": "f"}]),
    ("- - a\n  - b\n- c", [["a", "b"], "c"]),
    ("a:\n  b:\n    c: d\n  e: f\ng: h", {"a": {"b": {"c": "d"}, "e": "f"}, "g": "h"}),
    ("a: [b, 'c, d', [e], {f: g}]", {"a": ["b", "c, d", ["e"], {"f": "g"}]}),
    ("a: [b,\n  c, # d\n  e,\n  ]\nf: g", {"a": ["b", "c", "e"], "f": "g"}),
    ("a: []\nb: {}", {"a": [], "b": {}}),
    ("{a: b, c: [d], e: , f}", {"a": "b", "c": ["d"], "e": None, "f": None}),
    ("{'a':b, \"c\": d}", {"a": "b", "c": "d"}),
    ("a: b\n  c\n\n  d\ne: f", {"a": "b c\nd", "e": "f"}),
    ("a: 'b\n  c\n\n  d'", {"a": "b c\nd"}),
    ('a: "b\n  c \\\n  d"', {"a": "b c d"}),
    ("a: |\n  b\n    c\n\n  d\ne: f", {"a": "b\n  c\n\nd", "e": "f"}),
    ("a: |-\n  # b\n  c: d\n", {"a": "# b\nc: d"}),
    ("a: |2\n    b\n  c", {"a": "  b\nc"}),
    ("a: |+2\n    b\n", {"a": "  b"}),
    ("a: >\n  b\n  c\n\n  d\n", {"a": "b c\nd"}),
    ("a: |\nb: c", {"a": "", "b": "c"}),
    ("- |\n a\n- b", ["a", "b"]),
    ("a: !!str b\nc: !x\n  - d", {"a": "b", "c": ["d"]}),
    ("# a\n\na: b\n  # c\nd: e", {"a": "b", "d": "e"}),
    ("a: -b\n-c: d", {"a": "-b", "-c": "d"}),
    ("a: [x y, +]", {"a": ["x y", "+"]}),
    ("a text\nof two lines", "a text of two lines"),
    ("- a\n- b", ["a", "b"]),
]


class Yaml(unittest.TestCase):
    """The part of YAML that is read, by the definitions of YAML 1.2."""

    def value(self, text: str) -> Any:
        (document,) = documents(text)
        return document.node()

    def test_values(self) -> None:
        for text, wanted in VALUES:
            with self.subTest(text):
                self.assertEqual(self.value(text), wanted)

    def test_faults_have_their_line(self) -> None:
        for text, line in [
            ("a: b\nc", 2),
            ("a: b\n  c: d", 2),
            ("a:\n   b: c\n  d: e", 3),
            ("a: [b\nc: d", 2),
            ("a: {b: c", 1),
            ("a: 'b", 1),
            ('a: "b', 1),
            ('a: "b" c', 1),
            (r'a: "\uD8zz"', 1),
            (r'a: "\uD83D"', 1),
            (r'a: "\uDC00\uD800"', 1),
            ('a:\n- b\n- "\\U00110000"', 3),
            (r'a: "\UFFFFFFFF"', 1),
            (r'"\U00110000": a', 1),
            (r'a: ["\D", "\U00110000"]', 1),
            (f"a: b\n%YAML 1.{'1' * 5000}", 2),
            ("a: b: c", 1),
            ("a: b\na: c", 2),
            ("{a: b, a: c}", 1),
            ("a: &b c", 1),
            ("a: [*b]", 1),
            ("a: @b", 1),
            ("a: | b", 1),
            ("a: b\n\tc: d", 2),
            ("- a\nb: c", 2),
            ("a: b\n- c", 2),
            ("[a]: b", 1),
        ]:
            with self.subTest(text):
                with self.assertRaises(YamlError) as caught:
                    self.value(text)
                self.assertEqual(caught.exception.line, line)

    def test_a_code_beyond_all_characters_leaves_its_problem_out_alone(self) -> None:
        one = '---\ntitle: "{}"\nalgebraic: {{white: [Kg6, Ra1], black: [Kg8]}}\nstipulation: "#1"\n'
        status, made, said = imported_text("".join(map(one.format, ("A", r"\U00110000"))).encode())
        self.assertEqual((status, made.count(b"Pieces")), (1, 1))
        why = "left out: this isn't read as YAML: a code or a number is too large"
        self.assertEqual(said, [f"text, line 6, problem 2: {why}"])

    def test_documents(self) -> None:
        text = "%YAML 1.2\n---\na: b\n...\n# c\n--- d\n---\n---\n- e\n"
        found = [(one.line, one.node()) for one in documents(text)]
        self.assertEqual(found, [(2, {"a": "b"}), (6, "d"), (8, ["e"])])

    def test_keys_and_texts_know_their_lines(self) -> None:
        value: dict[Any, Any] = self.value("a: |\n  b\nc:\n  - d\n  - [e,\n  f]\n")
        self.assertEqual([key.line for key in value], [1, 3])
        texts = [value["a"], value["c"][0], *value["c"][1]]
        self.assertEqual([text.line for text in texts], [1, 4, 5, 6])

    def test_any_cut_or_changed_text_is_read_or_told(self) -> None:
        """Never an error of another kind, nor a run without end."""
        chance = random.Random(3)
        texts = [path.read_text("utf-8") for path in made_files()]
        for _ in range(1500):
            text = chance.choice(texts)
            start = chance.randrange(len(text))
            text = text[start : start + chance.randrange(400)]
            place = chance.randrange(len(text) + 1)
            text = text[:place] + chance.choice("\"'[]{}:#-|>!&*%\n\t ,é\x00") + text[place:]
            for document in documents(text):
                with contextlib.suppress(YamlError):
                    document.node()


def reasons_in(path: Path) -> Iterator[str]:
    """Yields why a module leaves problems out, with `white` for each value."""
    for call in ast.walk(ast.parse(path.read_text("utf-8"))):
        if isinstance(call, ast.Call) and call.args:
            name = ast.unparse(call.func)
            text = call.args[-1]
            parts = text.values if isinstance(text, ast.JoinedStr) else [text]
            is_reason = name in ("Unreadable", "Impossible") or name.endswith("faults.append")
            if is_reason and isinstance(text, (ast.JoinedStr, ast.Constant)):
                yield "".join(it.value if isinstance(it, ast.Constant) else "white" for it in parts)


class Reasons(unittest.TestCase):
    """The page says in German and French why it leaves problems out."""

    def test_each_is_translated(self) -> None:
        text = (support.PACKAGE / "import_/reasons.json").read_text("utf-8")
        known = [re.escape(it).replace(r"\{\}", ".+") for it in json.loads(text)]
        modules = sorted((support.PACKAGE / "import_").glob("*.py"))
        reasons = [it for path in modules if path.stem != "sources" for it in reasons_in(path)]
        self.assertGreater(len(reasons), 30)
        for reason in reasons:
            self.assertRegex(reason, f"^(?:{'|'.join(known)})$")


class ManyReasons(unittest.TestCase):
    """A short text makes no long messages: of many the first are shown, and how many there are."""

    def told(self, pieces: str, *lines: str) -> str:
        problem = "\n".join((f"Pieces White Kg6 Ra1 Black Kg8 {pieces}", "Stipulation #1", *lines))
        text = f"BeginProblem\n{problem}\nEndProblem\n"
        return run_here.companion("pops-import", text=text.encode()).error

    def test_the_first_are_shown(self) -> None:
        few = self.told("Array " * 2)
        self.assertTrue(few.endswith("; two men on h1\n"), few[-50:])
        self.assertNotIn("more", few)
        many = self.told("Array " * 2700)
        self.assertTrue(many.startswith("pops-import: standard input, line 2, problem 1: left out: two men"))
        # (an array has 32 men; the first one fills 30 empty squares)
        self.assertTrue(many.endswith(f"; and {2700 * 32 - 30 - 100} more\n"), many[-50:])
        self.assertLess(len(many), 4000)

    def test_notes(self) -> None:
        many = self.told("", *["Option Try"] * 2000).splitlines()
        self.assertEqual(len(many), 101)
        self.assertTrue(many[-1].endswith(", line 104, problem 1: and 1900 more"), many[-1])


class WithoutPyYaml(unittest.TestCase):
    def test_yaml_is_refused_and_nothing_else(self) -> None:
        with mock.patch.dict(sys.modules, {"yaml": None}):
            made = run_here.companion("pops-import", str(DATA / "olive.yaml"))
            self.assertEqual((made.status, made.output), (3, b""))
            self.assertIn("needs PyYAML (Debian: python3-yaml), which isn't installed", made.error)
            self.assertEqual(run_here.companion("pops-import", str(DATA / "twins.inp")).status, 0)


class Robustness(unittest.TestCase):
    def test_changed_files_are_posed_or_told(self) -> None:
        """What is posed is read by pops, but for checks, which are left to it."""
        chance = random.Random(5)
        texts = [path.read_text("utf-8") for path in made_files()]
        words = 'Twin Pieces White a1 Kb2 #2 Condition Circe Option Continued Move ; = ] " - : #'
        outputs = []
        for _ in range(400):
            parts = re.split(r"(\s+)", chance.choice(texts))
            for _ in range(chance.randrange(1, 6)):
                place = chance.randrange(len(parts))
                if chance.random() < 0.5:
                    del parts[place]
                else:
                    parts.insert(place, chance.choice(words.split() + [" ", "\n"]))
            made = imported_text("".join(parts).encode("utf-8"))
            self.assertIn(made.status, (0, 1, 3))
            if made.output:
                outputs.append(made.output)
            self.assertTrue(made.output or made.told)
        told = b"".join(
            support.run([support.pops(), "--check", "--no-board"], output).output
            for output in outputs
        )
        self.assertEqual(set(re.findall(b": fault ([0-9]+): ", told)) - {b"18"}, set())


class NewUser(unittest.TestCase):
    """A file, a pipe, mistakes, an empty input, an interrupted run."""

    def test_a_pipe_and_a_file_say_the_same(self) -> None:
        path = DATA / "twins.inp"
        wanted = path.with_suffix(".pop").read_bytes()
        piped = support.companion("pops-import", text=path.read_bytes())
        self.assertEqual((piped.status, piped.output), (0, wanted))
        self.assertEqual(
            piped.error,
            "pops-import: standard input, line 12, problem 1 f): the man on d1 is replaced\n",
        )
        named = support.companion("pops-import", str(path))
        self.assertEqual((named.status, named.output), (0, wanted))

    @support.needs_module("yaml")
    def test_several_files_become_one_text(self) -> None:
        paths = [DATA / "white_to_play.inp", DATA / "olive.yaml"]
        made = imported(*map(str, paths))
        self.assertEqual(made.status, 1)
        first, second = (path.with_suffix(".pop").read_bytes() for path in paths)
        joined = first.replace(b"EndProblem", b"NextProblem") + second.split(b"\n", 1)[1]
        self.assertEqual(made.output, joined)

    def test_texts_without_a_problem(self) -> None:
        empty = "there is no problem: the text is empty"
        for text, why in [
            (b"", empty),
            (b"\xef\xbb\xbf \n", empty),
            (b"---\n# nothing\n", "there is no problem: all documents are empty"),
            (b"White Kg6", "there is no BeginProblem, AnfangProblem or DebutProbleme"),
            (b"\x00\x01", "there is no BeginProblem, AnfangProblem or DebutProbleme"),
        ]:
            with self.subTest(text):
                self.assertEqual(imported_text(text), (3, b"", [f"text, line 1: {why}"]))

    def test_nothing_is_written_where_nothing_is_posed(self) -> None:
        with tempfile.TemporaryDirectory() as room:
            target = Path(room) / "old.pop"
            target.write_text("what stood there")
            outcome = support.companion("pops-import", "-o", str(target), text=b"Begin")
            self.assertEqual((outcome.status, outcome.output), (1, b""))
            self.assertEqual(
                outcome.error,
                "pops-import: standard input, line 1, problem 1: left out:"
                " the text ends before EndProblem\n",
            )
            self.assertEqual(target.read_text(), "what stood there")

    def test_mistakes_on_the_command_line(self) -> None:
        lost = support.companion("pops-import", "nowhere.inp")
        self.assertEqual(
            (lost.status, lost.error),
            (3, "pops-import: cannot open nowhere.inp: No such file or directory\n"),
        )
        self.assertEqual(support.companion("pops-import", "--twins").status, 2)
        for encoding in ("runes", "punycode", "idna", "rot13"):
            with self.subTest(encoding):
                outcome = support.companion("pops-import", "--encoding", encoding)
                self.assertEqual(outcome.status, 2)
        self.assertEqual(support.companion("pops-import", "--help").status, 0)
        version = support.companion("pops-import", "--version").output.decode()
        self.assertEqual(version.split()[0], "pops-import")

    def test_an_interrupted_run(self) -> None:
        with tempfile.TemporaryDirectory() as room:
            target = Path(room) / "old.pop"
            target.write_text("what stood there")
            program = support.COMPANIONS / "pops-import"
            words = [sys.executable, str(program), str(DATA / "twins.inp"), "/dev/stdin"]
            run = subprocess.Popen(
                [*words, "-o", str(target)], stdin=subprocess.PIPE, stderr=subprocess.PIPE
            )
            assert run.stderr is not None
            self.assertIn(b"replaced", run.stderr.readline())
            run.send_signal(signal.SIGINT)
            # (it also ends the input: a signal just before the run begins to wait for it ends no wait)
            error = run.communicate(timeout=support.PATIENCE)[1]
            self.assertEqual((run.returncode, error), (6, b"pops-import: stopped\n"))
            self.assertEqual(list(Path(room).iterdir()), [target])
            self.assertEqual(target.read_text(), "what stood there")


YACPDB = b"""{"result": {"entries": [
{"id": 12, "algebraic": {"white": ["Kg6", "Ra1"], "black": ["Kg8"]}, "stipulation": "#1",
 "options": ["Circe", "SetPlay"]},
{"id": 13, "algebraic": {"white": ["Kg6", "Ra1"], "black": ["Kh8"]}, "stipulation": "h#1",
 "twins": {"b": "Move a1 b2", "c": "Condition Koeko"}},
{"id": 14, "algebraic": {"white": ["Kg6", "Xa1"], "black": ["Kg8"]}, "stipulation": "#1"}
], "count": 3}}
"""


@support.needs_module("yaml")
class Databases(unittest.TestCase):
    """What a database needs: its JSON is read, results reach its ids, messages are data."""

    def test_json_of_yacpdb(self) -> None:
        made = imported_text(YACPDB)
        self.assertEqual(made.status, 1)
        first, second, third = made.output.split(b"NextProblem\n")
        self.assertIn(b"Pieces White Kg6 Ra1 Black Kg8\nStipulation #1\n", first)
        self.assertIn(b"Condition Circe\nOption SetPlay\n", first)
        self.assertIn(b"Pieces White Kg6 Ra1 Black Kh8\n", second)
        self.assertIn(b"Pieces White Kg6 Rb2 Black Kh8\n", third)

    def test_index(self) -> None:
        with tempfile.TemporaryDirectory() as room:
            table = Path(room) / "index"
            source = Path(room) / "a\tb"
            source.write_bytes(YACPDB)
            imported("--index", str(table), str(source))
            name = f"{room}/a\\tb"
            self.assertEqual(
                table.read_text("utf-8"),
                "problem\tfile\tentry\tline\ttwin\tid\n"
                f"1\t{name}\t1\t2\t\t12\n"
                f"2\t{name}\t2\t4\ta)\t13\n"
                f"3\t{name}\t2\t4\tb)\t13\n"
                f"\t{name}\t2\t4\tc)\t13\n"
                f"\t{name}\t3\t6\t\t14\n",
            )

    def test_a_spreadsheet_computes_nothing_of_the_index(self) -> None:
        with tempfile.TemporaryDirectory() as room:
            table, source = Path(room) / "index", Path(room) / "in"
            fields = "algebraic:\n  white: [Kg6, Ra1]\n  black: [Kg8]\nstipulation: '#1'\n"
            source.write_text("".join(f"---\nid: '{it}'\n{fields}" for it in ("=1+1", "\u200b@x", "12", "a=1", '"=1"', "1,=2")))
            imported("--index", str(table), str(source))
            ids = [line.split("\t")[-1] for line in table.read_text("utf-8").splitlines()[1:]]
            self.assertEqual(ids, ["'=1+1", "'\u200b@x", "12", "a=1", "'\"=1\"", "1,'=2"])

    def test_an_id_in_the_index_has_only_characters(self) -> None:
        with tempfile.TemporaryDirectory() as room:
            table, source = Path(room) / "index", Path(room) / "in"
            source.write_bytes(YACPDB.replace(b"12", b'"1\\u001b[2J\\x9b2"', 1))
            imported("--index", str(table), str(source))
            row = table.read_bytes().split(b"\n")[1].decode("utf-8")
            self.assertEqual(row.split("\t")[5], "1\ufffd[2J\ufffd2")

    def test_a_long_id_is_shortened_in_the_index(self) -> None:
        with tempfile.TemporaryDirectory() as room:
            table, source = Path(room) / "index", Path(room) / "in"
            source.write_bytes(YACPDB.replace(b"13", b"9" * 1000, 1))
            made = imported("--index", str(table), str(source))
            rows = [line.split("\t") for line in table.read_text("utf-8").splitlines()]
            self.assertEqual([row[5] for row in rows[2:5]], ["9" * 200 + ".."] * 3)
            self.assertIn("9" * 1000, made.output.decode())

    def test_messages_as_json(self) -> None:
        outcome = support.companion("pops-import", "--json", text=YACPDB)
        twin, man = map(json.loads, outcome.error.splitlines())
        self.assertEqual(
            twin,
            {
                "file": "standard input",
                "line": 5,
                "column": 2,
                "length": 54,
                "problem": 2,
                "twin": "c)",
                "kind": "left out",
                "reason": "left out: pops knows no condition Koeko",
            },
        )
        self.assertEqual((man["problem"], man["twin"], man["kind"]), (3, None, "left out"))
        outcome = support.companion("pops-import", "--json", text=b"")
        self.assertEqual(json.loads(outcome.error)["kind"], "unreadable")

    def test_unknown_escapes_stand_as_they_are(self) -> None:
        (document,) = documents(r'''{a: "\Diagram \"q\" \\D \u0041\x42 \
            next", b: '\D'}''')
        self.assertEqual(document.node(), {"a": r'''\Diagram "q" \D AB next''', "b": r"\D"})
