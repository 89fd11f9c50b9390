"""Explanations of faults: three hundred slips with what has to be said of each."""

import io
import json
import random
import re
import tempfile
import unittest
from pathlib import Path
from unittest import mock

from pops_companions.explain import wordings
from pops_companions.explain.explaining import ExplainedFault, explain, explanation
from pops_companions.explain.mending import further_faults
from pops_companions.explain.showing import marked
from pops_companions.explain.vocabulary import foreign
from pops_companions.import_.language import foreign_words
from pops_companions.input.pieces import cut
from pops_companions.input.reading import Reading, read_piece
from pops_companions.input.words import Word
from pops_companions.report.reader import read_report
from tests import made_inputs, support
from tests.slips import in_base, slips


def explained(text: bytes) -> list[ExplainedFault]:
    """The faults that pops reports of a text, explained."""
    report = support.run([support.pops(), "--check", "--no-board"], text).output
    return list(explain(text, read_report(io.BytesIO(report))))


class Slips(unittest.TestCase):
    maxDiff = None

    def test_three_hundred_slips(self) -> None:
        count = 0
        for wanted in slips():
            count += 1
            with self.subTest(f"line {wanted.place} of the list"):
                first, *_ = explained(wanted.text)
                told = first.explanation
                self.assertEqual((first.fault.line, first.fault.number), wanted[2:4])
                marks = [wanted.text[mark.start : mark.stop] for mark in told.marks]
                self.assertEqual((told.text, marks), (wanted.explanation, wanted.marks))
        self.assertGreaterEqual(count, 300)

    def test_every_fault_of_made_inputs_is_explained(self) -> None:
        chance = random.Random(34)
        kinds = set()
        for _ in range(150):
            text = made_inputs.made_input(chance)
            with self.subTest(text):
                for one in explained(text):
                    kinds.add(one.fault.number)
                    self.assertIn(one.explanation.text[-1], ".?")
                    for mark in one.explanation.marks:
                        self.assertTrue(0 <= mark.start < mark.stop <= len(text))
        self.assertGreater(len(kinds), 10)


class Costs(unittest.TestCase):
    def test_words_are_listed_seldom(self) -> None:
        """Not for each name that could stand in place of a word: long texts would take very long."""
        text = b'Pieces Whi"em\n' * 100
        calls = []

        def words(reading: Reading) -> list[Word]:
            calls.append(reading)
            return [it for it in reading.tokens if isinstance(it, Word)]

        with mock.patch.object(Reading, "words", property(words)):
            faults = list(further_faults(text, cut(text), 1))
        self.assertGreater(len(faults), 20)
        self.assertLess(len(calls), 20 * len(faults))

    def test_a_word_longer_than_any_name_is_compared_with_none(self) -> None:
        """It would take long: each letter is compared with each of every name."""
        for letters, is_compared in ((150, False), (12, True)):
            text = b"BeginProblem\nOption " + b"x" * letters + b"\nEndProblem\n"
            with mock.patch.object(wordings, "_distances", wraps=wordings._distances) as distances:
                explanation(text, read_piece(text, cut(text)[0]))
            self.assertEqual(bool(distances.call_count), is_compared, letters)

    def test_an_empty_problem_has_no_faults_of_the_next(self) -> None:
        text = b"Beg " + b"Next " * 60
        self.assertEqual(list(further_faults(text, cut(text), 2)), [])


class Documents(unittest.TestCase):
    """What is promised of it in the documents."""

    def test_the_example_of_the_companions_document(self) -> None:
        document = (support.REPOSITORY / "docs" / "COMPANIONS.md").read_text("utf-8")
        text = (
            b"BeginProblem\nTitle A mate\nPieces White Kg6 Da1 La2 Bb4 Black Kg8\nStipulation #1\n"
            b"NextProblem\nPieces White Kg6 Ra1 Black Kg8\nStipulation #1\nEndProblem\n"
        )
        said = command(text=text).output.decode().replace("standard input:", "mates.pop:")
        self.assertIn(re.sub("^(?=.)", "    ", said, flags=re.M), document)

    def test_every_word_of_popeye_in_the_manual_is_known(self) -> None:
        manual = (support.REPOSITORY / "docs" / "MANUAL.md").read_text("utf-8")
        rows = re.findall(r"^\| (command|option|words) (`[^|]*) \| \d+ \|", manual, re.M)
        words = [(kind, word) for kind, cell in rows for word in re.findall("`([^`]+)`", cell)]
        self.assertGreater(len(words), 30)
        for kind, word in words:
            with self.subTest(word):
                lines = [f"Option {word}"] if kind == "option" else [word]
                if word in ("Be", "AnfangProblem", "DebutProbleme"):
                    lines.insert(0, "in place of line 1:")
                (one,) = explained("\n".join(in_base(lines)).encode())
                known = r"of Popeye|only English words|three letters or more"
                self.assertRegex(one.explanation.text, known)


    def test_every_word_of_popeye_in_another_language_is_known(self) -> None:
        for wanted in foreign_words():
            known = foreign(wanted.word)
            self.assertIsNotNone(known, wanted)
            if wanted.language == "German":
                self.assertEqual(known, wanted)


class Marks(unittest.TestCase):
    def test_the_line_below_marks_the_word(self) -> None:
        cases = [
            (b"Pieces White Ta1", [(13, 16)], "Pieces White Ta1", "             ^^^"),
            (b"a1 b1", [(0, 2), (3, 5)], "a1 b1", "^^ ^^"),
            (b"\tx\ty\r", [(3, 4)], " x y", "   ^"),
            ("é x".encode(), [(3, 4)], "é x", "  ^"),
            (b"\xe9 x", [(2, 3)], "é x", "  ^"),
            ("\uff2bg6 x".encode(), [(0, 5)], "\uff2bg6 x", "^^^^"),
            ("a\u00a0b c".encode(), [(0, 4)], "a<U+00A0>b c", "^" * 10),
        ]
        for line, marks, text, signs in cases:
            with self.subTest(line):
                self.assertEqual(marked(line, marks), (text, signs))

    def test_of_a_long_line_a_part_is_shown(self) -> None:
        line = b" ".join(b"%04d" % number for number in range(200))
        text, signs = marked(line, [(500, 504)])
        self.assertTrue(text.startswith("..") and text.endswith("..") and len(text) <= 100)
        self.assertEqual(text[signs.index("^") : len(signs)], "0100")


    def test_of_a_long_line_parts_are_shown(self) -> None:
        line = b" ".join(b"%05d" % number for number in range(20_000))
        text, signs = marked(line, [(600, 605), (90_000, 90_005)])
        self.assertRegex(text, r"\A\.\.[^.]* 00100 [^.]*\.\.[^.]* 15000 [^.]*\.\.\Z")
        self.assertLess(len(text), 120)
        places = [found.span() for found in re.finditer("\\^+", signs)]
        self.assertEqual([text[start:stop] for start, stop in places], ["00100", "15000"])


def command(*words: str, text: bytes = b"") -> support.Outcome:
    return support.companion("pops-explain", *words, text=text)


FAULTY = b"BeginProblem\nTitle Two\nPieces White Kg6 Ta1 Black Kg8\nStipulation #1\nEndProblem\n"
SAID = """problem 1 "Two": fault 2: unknown or misplaced word
    3 | Pieces White Kg6 Ta1 Black Kg8
      |                  ^^^
  `T` is no man's letter here. It is the rook in German: write `Ra1`.

1 problem, 1 faulty
"""


class Command(support.InRoom):
    def setUp(self) -> None:
        super().setUp()
        self.input = self.room / "two.pop"
        self.input.write_bytes(FAULTY)
        self.report = self.room / "two.report"
        self.report.write_bytes(support.run([support.pops(), str(self.input)]).output)

    def test_a_file_alone(self) -> None:
        wanted = f"{self.input}:3: {SAID}".encode()
        self.assertEqual(command(str(self.input)), (1, wanted, ""))

    def test_standard_input(self) -> None:
        wanted = f"standard input:3: {SAID}".encode()
        for words in ((), ("-",), ("-", str(self.report))):
            with self.subTest(words):
                self.assertEqual(command(*words, text=FAULTY), (1, wanted, ""))

    def test_a_file_and_its_report(self) -> None:
        wanted = f"{self.input}:3: {SAID}".encode()
        file, report = str(self.input), str(self.report)
        nowhere = ("--pops", "/nowhere/pops")
        self.assertEqual(command(file, report, *nowhere), (1, wanted, ""))
        self.assertEqual(
            command(file, "-", *nowhere, text=self.report.read_bytes()), (1, wanted, "")
        )

    def test_an_output_file(self) -> None:
        target = self.input.with_suffix(".txt")
        self.assertEqual(command(str(self.input), "-o", str(target)), (1, b"", ""))
        self.assertEqual(target.read_bytes(), f"{self.input}:3: {SAID}".encode())

    def test_sound_problems(self) -> None:
        path = support.REPOSITORY / "examples" / "several_problems.pop"
        report = support.stored_report(path)
        count = len(support.plain_items(report.read_bytes()))
        wanted = f"{count} problems, none faulty\n".encode()
        self.assertEqual(command(str(path)), (0, wanted, ""))
        self.assertEqual(command(str(path), str(report)), (0, wanted, ""))

    def test_every_stored_fault(self) -> None:
        faults = 0
        for path in support.stored_inputs():
            report = io.BytesIO(support.stored_report(path).read_bytes())
            faults += len(list(explain(path.read_bytes(), read_report(report))))
        self.assertGreaterEqual(faults, 50)

    def test_an_empty_input(self) -> None:
        outcome = command(text=b"")
        self.assertEqual(
            outcome.output.decode(),
            "standard input:1: problem 1: fault 1: BeginProblem expected\n"
            "  The text is empty. A problem begins with `BeginProblem`.\n\n1 problem, 1 faulty\n",
        )
        self.assertEqual((outcome.status, outcome.error), (1, ""))

    def test_an_empty_report(self) -> None:
        outcome = command(str(self.input), "-", text=b"")
        self.assertEqual((outcome.status, outcome.output), (3, b""))
        said = f"pops-explain: standard input is no report of {self.input}: it is empty\n"
        self.assertEqual(outcome.error, said)

    def test_a_report_of_another_text(self) -> None:
        other = self.input.with_name("other.pop")
        for text, said in [
            (FAULTY.replace(b"Ta1", b"Ra1"), "has no fault there"),
            (b"\n" + FAULTY, "has fault 2 in line 4 there"),
            (FAULTY.replace(b"Kg6", b"Kg6 Rg6"), "has fault 5 in line 3 there"),
        ]:
            with self.subTest(text):
                other.write_bytes(text)
                outcome = command(str(other), str(self.report))
                self.assertEqual((outcome.status, outcome.output), (3, b""))
                self.assertIn(said, outcome.error)

    def test_reports_that_have_more_problems(self) -> None:
        report = self.report.read_bytes()
        for more, said in [
            (report, "it is of several texts"),
            (report.replace(b"problem 1", b"problem 2"), "it has problem 2, and the text has 1"),
            (b"problem 2\n", "the report is cut"),
        ]:
            with self.subTest(more):
                outcome = command(str(self.input), "-", text=report + more)
                self.assertEqual(outcome.status, 3)
                self.assertIn(said, outcome.error)
                self.assertTrue(outcome.output.decode().startswith(f"{self.input}:3:"))

    def test_a_report_that_lacks_problems(self) -> None:
        two = self.input.with_name("two.pop")
        text = FAULTY.replace(b"EndProblem", b"NextProblem", 1) + FAULTY.split(b"\n", 1)[1]
        two.write_bytes(text)
        report = support.run([support.pops(), "--check", str(two)]).output
        report = report[report.index(b"problem 2\n") :]
        outcome = command(str(two), "-", text=report)
        self.assertEqual((outcome.status, outcome.error), (1, ""))
        line = text[: text.rindex(b"Ta1")].count(b"\n") + 1
        self.assertIn(f"{two}:{line}: problem 2", outcome.output.decode())
        self.assertTrue(outcome.output.endswith(b"1 problem, 1 faulty\n"))

    def test_faults_of_the_device_and_of_length(self) -> None:
        for fault, said in [
            (b"line 5: fault 20: input too long", "2^30 bytes"),
            (b"line 5: fault 21: input device failed", "couldn't be read on"),
        ]:
            report = b"problem 1\n" + fault + b"\n\n"
            outcome = command(str(self.input), "-", text=report)
            self.assertEqual((outcome.status, outcome.error), (1, ""))
            self.assertIn(said, outcome.output.decode())

    def test_what_cannot_be_opened_or_run(self) -> None:
        nowhere = str(self.input.with_name("nowhere"))
        cases = [
            ((nowhere,), f"cannot open {nowhere}: No such file or directory"),
            ((str(self.input), nowhere), f"cannot open {nowhere}: No such file or directory"),
            ((str(self.input), "--pops", nowhere), ""),
            ((str(self.input), "-o", nowhere + "/x"), f"cannot write {nowhere}/x"),
        ]
        for words, said in cases:
            with self.subTest(words):
                outcome = command(*words)
                self.assertEqual((outcome.status, outcome.output), (3, b""))
                self.assertIn(said, outcome.error)
                self.assertEqual(outcome.error.count("\n"), 1)

    def test_words_that_it_does_not_take(self) -> None:
        for words in (("-", "-"), ("--fast",), ("a", "b", "c")):
            with self.subTest(words):
                self.assertEqual(command(*words).status, 2)

    def test_help_and_version(self) -> None:
        for word in ("--help", "--version"):
            outcome = command(word)
            self.assertEqual((outcome.status, outcome.error), (0, ""))
            self.assertIn(b"pops-explain", outcome.output)

    def test_a_program_that_writes_no_report(self) -> None:
        program = self.write_program("pops", "#!/bin/sh\ncat > /dev/null\necho a line of others\n")
        outcome = support.companion("pops-explain", "--pops", program, text=b"BeginProblem\n")
        self.assertEqual(outcome.status, 3)
        self.assertIn("found 'a line of others'", outcome.error)


class Json(unittest.TestCase):
    TEXT = (
        b"BeginProblem\nPieces White Kg6 Da1 Black Kg8\nStipulation #1\nNextProblem\n"
        b"Pieces White Kg6 Na1 Black Kg8\nStipulation #1\nEndProblem\n"
    )

    def test_an_object_for_each(self) -> None:
        outcome = support.companion("pops-explain", "--json", "--pops", support.pops(), text=self.TEXT)
        self.assertEqual((outcome.status, outcome.error), (1, ""))
        fault, notice = map(json.loads, outcome.output.splitlines())
        cause = fault.pop("cause")
        self.assertIn("It is the queen in German", cause)
        self.assertEqual(
            fault,
            {
                "file": "standard input",
                "line": 2,
                "column": 18,
                "length": 3,
                "problem": 1,
                "fault": {"number": 2, "text": "unknown or misplaced word"},
                "fix": {"line": 2, "column": 18, "length": 3, "text": "Qa1"},
                "related": [],
            },
        )
        self.assertEqual((notice["line"], notice["problem"], notice["fault"]), (5, 2, None))

    def test_statuses(self) -> None:
        sound = (support.REPOSITORY / "examples/mate_in_one.pop").read_bytes()
        outcome = support.companion("pops-explain", "--json", "--pops", support.pops(), text=sound)
        self.assertEqual(outcome, (0, b"", ""))
        with tempfile.TemporaryDirectory() as room:
            text, report = Path(room) / "a.pop", Path(room) / "a.report"
            text.write_bytes(sound)
            report.write_bytes(b"problem 1\nline 2: fault 5: square given twice\n\n")
            outcome = support.companion("pops-explain", "--json", str(text), str(report))
        self.assertEqual((outcome.status, outcome.output), (3, b""))
