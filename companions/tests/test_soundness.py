"""Soundness: what is said of problems whose soundness was worked out by hand or is published."""

import csv
import io
import re
import tempfile
import unittest
from pathlib import Path
from typing import Optional, Union

from pops_companions.chess.stipulation import Stipulation
from pops_companions.input.given import given_problems
from pops_companions.input.writing import text_of_problems
from pops_companions.report.items import HelpLine, Item, Node, SoundItem
from pops_companions.report.reader import read_report
from pops_companions.report.source import items_with_unfinished
from pops_companions.review.duals import Place, late_partings, tree_duals
from pops_companions.review.judging import Judgement, Verdict, judged
from pops_companions.review.posing import AnswersError, ShortAnswers, posed_problems, shorter
from tests import run_here, support, test_pages

COLLECTION = support.COMPANIONS / "data" / "soundness.pop"

# A tree as battle play has it, written by hand: Black's first move leaves White a choice that
# doesn't mate yet and one that does; his second leaves three mates; his third leaves nothing.
DIRECT_TREE = """\
1.Ra1-a2
  1...Kh8-g8
    2.Ra2-a3
      2...Kg8-h8
        3.Ra3-a8#
        3.Rb1-b8#
    2.Ra2-a4
      2...Kg8-h8
        3.Ra4-a8#
  1...h7-h6
    2.Ra2-a8#
    2.Rb1-b8#
    2.f7-f8=Q#
  1...h7-h5
    2.Ra2-a8#
"""
# White's second move is his last; that Black then mates in two ways is no choice of White's.
SELF_TREE = """\
1.Qa1-a2
  1...Kh8-g8
    2.Qa2-a8+
      2...Rb8*a8#
    2.Qa2-b3+
      2...Rb8*b3#
      2...c4*b3#
  1...c4-c3
    2.Qa2-a1
      2...Rb8-b1#
"""


def items(text: str) -> list[Item]:
    return list(read_report(io.BytesIO(text.encode())))


def item(stipulation: str, play: str, *, set_play: Optional[str] = None, stopped: str = "") -> Item:
    """A report's item with these lines, counted as pops counts them."""
    text = f"problem 1\n{stipulation}\n"
    for name, lines in (("set", set_play), ("play", play)):
        if lines is not None:
            count = sum(not line.startswith(" ") for line in lines.splitlines())
            text += f"{name}\n{lines}solutions: {count}{stopped}\n"
    (one,) = items(text + "\n")
    return one


def solutions(one: Item) -> tuple[Union[HelpLine, Node], ...]:
    assert isinstance(one, SoundItem) and one.phases is not None
    return one.phases[-1].solutions


def nodes_of(one: Item) -> list[Node]:
    return [it for it in solutions(one) if isinstance(it, Node)]


def judge(one: Item, wanted: int = 1, short: Optional[tuple[str, ...]] = ()) -> Judgement:
    return judged(one, wanted, short)


def texts(judgement: Judgement) -> list[str]:
    return [finding.text for finding in judgement.findings]


def documented(program: str) -> str:
    """What docs/COMPANIONS.md shows of a program's output."""
    text = (support.REPOSITORY / "docs" / "COMPANIONS.md").read_text("utf-8")
    return text.split(f"\n## {program}\n")[1].split("\n```\n")[1] + "\n"


class Duals(unittest.TestCase):
    def test_direct_play_by_length_and_place(self) -> None:
        duals = list(tree_duals(nodes_of(item("#3", DIRECT_TREE))))
        self.assertEqual(
            [(dual.text, dual.move, dual.end, dual.place) for dual in duals],
            [
                ("1.Ra1-a2 Kh8-g8 2.Ra2-a3 | Ra2-a4", 2, 3, Place.EARLIER),
                (
                    "1.Ra1-a2 Kh8-g8 2.Ra2-a3 Kg8-h8 3.Ra3-a8# | Rb1-b8#",
                    3,
                    3,
                    Place.AT_THE_END,
                ),
                ("1.Ra1-a2 h7-h6 2.Ra2-a8# | Rb1-b8# | f7-f8=Q#", 2, 2, Place.AT_THE_END),
            ],
        )

    def test_a_selfmate_has_choices_of_white_alone(self) -> None:
        (dual,) = tree_duals(nodes_of(item("s#2", SELF_TREE)))
        self.assertEqual(dual.text, "1.Qa1-a2 Kh8-g8 2.Qa2-a8+ | Qa2-b3+")
        self.assertEqual((dual.move, dual.end, dual.place), (2, 2, Place.AT_THE_END))

    def test_what_a_pawn_becomes(self) -> None:
        tree = "1.e6-e7\n  1...Kh8-g8\n    2.e7-e8=Q#\n    2.e7-e8=R#\n"
        (dual,) = tree_duals(nodes_of(item("#2", tree)))
        self.assertTrue(dual.by_promotion)
        (other,) = tree_duals(nodes_of(item("#2", tree.replace("e7-e8=R", "e7*d8=R"))))
        self.assertFalse(other.by_promotion)

    def test_help_lines_that_part_late(self) -> None:
        lines = (
            "1.Ka1-a2 Kc1-c2 2.Ka2-a1 Qd1-b1#\n"
            "1.Ka1-a2 Kc1-c2 2.Ka2-a1 Qd1-a4#\n"
            "1.Ka1-a2 Kc1-c2 2.Ka2-a3 Qd1-a1#\n"
            "1.b3-b2+ Kc1-c2 2.b2-b1=S Qd1*b1#\n"
        )
        found = [line for line in solutions(item("h#2", lines)) if isinstance(line, HelpLine)]
        self.assertEqual(
            [(parting.text, parting.place) for parting in late_partings(found)],
            [
                ("1.Ka1-a2 Kc1-c2 2.Ka2-a1 | Ka2-a3", Place.EARLIER),
                ("1.Ka1-a2 Kc1-c2 2.Ka2-a1 Qd1-b1# | Qd1-a4#", Place.AT_THE_END),
            ],
        )


class Judgements(unittest.TestCase):
    def test_numbers_of_keys(self) -> None:
        one, two = "1.Ra1-a8#\n", "1.Ra1-a8#\n1.Rb1-b8#\n"
        cases = [
            (one, 1, "", Verdict.SOUND, []),
            (two, 1, "", Verdict.UNSOUND, ["cooked: 2 keys, 1 wanted"]),
            (two, 2, "", Verdict.SOUND, []),
            ("", 1, "", Verdict.UNSOUND, ["no solution"]),
            (one, 2, "", Verdict.UNSOUND, ["solutions missing: 1 key, 2 wanted"]),
            (one, 1, ", stopped", Verdict.UNDECIDED, ["stopped: at least 1 key, 1 wanted"]),
            (two, 3, ", stopped", Verdict.UNDECIDED, ["stopped: at least 2 keys, 3 wanted"]),
            (two, 1, ", stopped", Verdict.UNSOUND, ["cooked: at least 2 keys, 1 wanted"]),
        ]
        for play, wanted, stopped, verdict, said in cases:
            with self.subTest(play=play, wanted=wanted, stopped=stopped):
                judgement = judge(item("#1", play, stopped=stopped), wanted)
                self.assertEqual((judgement.verdict, texts(judgement)), (verdict, said))

    def test_faulty_and_checked_problems(self) -> None:
        faulty, checked = items(
            "problem 1\nline 2: fault 14: square expected\n\nproblem 2\n#1\nsound\n\n"
        )
        self.assertIs(judge(faulty).verdict, Verdict.FAULTY)
        self.assertEqual(texts(judge(faulty)), ["line 2: fault 14: square expected"])
        self.assertIs(judge(checked).verdict, Verdict.UNDECIDED)
        self.assertEqual(texts(judge(checked)), ["not solved"])

    def test_a_tree_shows_by_itself_that_a_key_is_short(self) -> None:
        short = "1.Ra1-a2\n  1...Kh8-g8\n    2.Ra2-a8#\n"
        judgement = judge(item("#3", short), short=None)
        self.assertEqual(judgement.verdict, Verdict.UNSOUND)
        self.assertEqual(judgement.findings[0].lines, ("1.Ra1-a2",))
        self.assertEqual(judge(item("#2", short), short=None).verdict, Verdict.SOUND)
        self.assertEqual(judge(item("#3", DIRECT_TREE), short=None).short_solutions, 0)
        self.assertEqual(judge(item("s#2", SELF_TREE), short=None).short_solutions, 0)
        self.assertEqual(judge(item("s#3", SELF_TREE), short=None).short_solutions, 1)
        self.assertEqual(judge(item("#2", "1.Ra1-a8#\n"), short=None).short_solutions, 1)

    def test_without_an_answer_the_rest_is_undecided(self) -> None:
        line = "1.Kh8-g8 Ra1-b1 2.Kg8-h8 Rb1-b8#\n"
        for one in (item("#2", "1.Ra1-a2\n"), item("s#2", "1.Ra1-a2\n"), item("h#2", line)):
            judgement = judge(one, short=None)
            self.assertEqual(judgement.verdict, Verdict.UNDECIDED)
            self.assertIn("short solutions not looked for", texts(judgement))
            self.assertIsNone(judgement.short_solutions)
            self.assertEqual(judge(one, short=()).verdict, Verdict.SOUND)
            self.assertEqual(judge(one, short=("1.Kh8-g8 Ra1-a8#",)).verdict, Verdict.UNSOUND)
        for one in (item("#1", "1.Ra1-a8#\n"), item("h#0.5", "1...Ra1-a8#\n")):
            self.assertEqual(judge(one, short=None).verdict, Verdict.SOUND)

    def test_duals_are_told_and_decide_nothing(self) -> None:
        judgement = judge(item("#3", DIRECT_TREE))
        self.assertEqual(judgement.verdict, Verdict.SOUND)
        self.assertEqual((judgement.duals_at_the_end, judgement.duals_earlier), (2, 1))
        self.assertEqual(
            texts(judgement),
            [
                "2 duals at the mate: 1 on move 2, 1 on move 3",
                "1 dual before the mate: 1 on move 2",
            ],
        )
        unseen = judge(item("#3", "1.Ra1-a2\n"))
        self.assertIsNone(unseen.duals_earlier)
        self.assertEqual(texts(unseen), ["duals not shown: they need Variation"])

    def test_set_play_and_unprovided_checks(self) -> None:
        set_play = "1...Ra1-a2+\n  2.Qb3*a2#\n1...c4-c3\n  2.Qb3-b7#\n  2.Qb3-g8#\n"
        play = (
            "1.Qb1-b3\n"
            "  1...Ra1-a2+\n    2.Qb3*a2#\n"
            "  1...Ra1-h1+\n    2.Kh2*h1#\n"
            "  1...c4-c3\n    2.Qb3-b8#\n"
        )
        judgement = judge(item("#2", play, set_play=set_play))
        self.assertEqual((judgement.set_solutions, judgement.unprovided_checks), (2, 1))
        self.assertEqual(
            [(finding.text, finding.lines) for finding in judgement.findings],
            [
                (
                    "set play: 2 moves of Black provided for, 1 with a choice",
                    ("1...Ra1-a2+ 2.Qb3*a2#", "1...c4-c3 2.Qb3-b7# | 2.Qb3-g8#"),
                ),
                ("1 unprovided check", ("1...Ra1-h1+",)),
            ],
        )
        stopped = judge(item("#2", play, set_play=set_play, stopped=", stopped"))
        self.assertIsNone(stopped.unprovided_checks)
        self.assertIn("set play: at least 2 moves of Black provided for, 1 with a choice",
                      texts(stopped))  # fmt: skip
        help_play = judge(item("h#1", "1.Kh8-g8 Ra1-a8#\n", set_play="1...Ra1-a8#\n"))
        self.assertEqual(texts(help_play), ["set play: 1 solution"])


class Inputs(unittest.TestCase):
    def test_wanted_numbers(self) -> None:
        cases: list[tuple[str, Optional[int]]] = [
            ("Remark solutions 2", 2),
            ("rem Solutions: 3", 3),
            ("REMARK 2 solutions.", 2),
            ("Remark 1 solution", 1),
            ("Remark solutions 2\nRemark solutions 4", 4),
            ("Remark two solutions", None),
            ("Remark all 2 solutions begin alike", None),
            ("Title solutions 2", None),
            ("Origin 2 solutions", None),
            ("", None),
        ]
        for line, wanted in cases:
            with self.subTest(line):
                (problem,) = given_problems(f"BeginProblem\n{line}\nEndProblem\n".encode())
                self.assertEqual(problem.wanted, wanted)

    def test_stipulations_are_found_between_text_lines(self) -> None:
        text = (
            b"Remark Stipulation #9\nbeg pie white Ka1 STI\nTitle EndProblem\nH#2.5 next\n"
            b"Pieces White Ka1\nNextProblem Stipulation r#2 EndProblem Stipulation #4"
        )
        stipulations = [problem.stipulation for problem in given_problems(text)]
        self.assertEqual(stipulations, [Stipulation.of_text("h#2.5"), None, None])

    def test_a_problem_without_its_frame_is_left_out(self) -> None:
        for text in (b"Pieces White Ka1 Stipulation #2 EndProblem", b"Beg Stipulation #2", b""):
            with self.subTest(text):
                self.assertEqual(list(posed_problems(given_problems(text))), [])

    def test_shorter_stipulations(self) -> None:
        cases: dict[str, list[str]] = {
            "#3": ["#2"],
            "#1": [],
            "s=2": ["s=1"],
            "s#1": [],
            "h#3": ["h#1", "h#2"],
            "h#1": [],
            "h=2.5": ["h=0.5", "h=1.5"],
            "h#0.5": [],
            "h#15.5": [f"h#{it}.5" for it in range(15)],
            "h#16": [f"h#{it}" for it in range(1, 16)],
            "s#16": ["s#15"],
            "h#16.5": [],
            "h#17": [],
            "#999": [],
        }
        for text, wanted in cases.items():
            with self.subTest(text):
                posed = [one.text for one in shorter(Stipulation.of_text(text))]
                self.assertEqual(posed, wanted)

    def test_a_posed_problem_keeps_all_but_its_texts_set_play_and_variation(self) -> None:
        text = (
            b"BeginProblem\nTitle Mine\nOption SetPlay\nRemark solutions 2\n"
            b"Pieces White Ke1 Rh1\nBlack Ke8 Stipulation\n#2 Condition Circe\n"
            b"Option Var NoCastling h1\nRemark between\na1 MaxSolutions 3\nEndProblem"
        )
        self.assertEqual(
            list(posed_problems(given_problems(text))),
            [
                [
                    "Title #1 of problem 1",
                    "Pieces White Ke1 Rh1 Black Ke8",
                    "Stipulation #1",
                    "Condition Circe",
                    "Option NoCastling h1 a1 MaxSolutions 3",
                ]
            ],
        )


class StoredInputs(unittest.TestCase):
    """The inputs of all rows and examples, as pops itself reads them."""

    def test_they_are_read_as_pops_reads_them(self) -> None:
        for path in support.stored_inputs():
            with self.subTest(path.name):
                report = list(read_report(io.BytesIO(support.stored_report(path).read_bytes())))
                given = given_problems(path.read_bytes())
                self.assertEqual([one.number for one in given], [one.number for one in report])
                for problem, one in zip(given, report):
                    if isinstance(one, SoundItem):
                        self.assertEqual(problem.stipulation, one.stipulation)

    def test_what_is_posed_is_the_same_position(self) -> None:
        posed: list[list[str]] = []
        originals: list[SoundItem] = []
        for path in support.stored_inputs():
            report = list(read_report(io.BytesIO(support.stored_report(path).read_bytes())))
            for problem, one in zip(given_problems(path.read_bytes()), report):
                if isinstance(one, SoundItem):
                    lines = list(posed_problems([problem]))
                    self.assertEqual(len(lines), len(shorter(one.stipulation)))
                    posed.extend(lines)
                    originals.extend([one] * len(lines))
        self.assertGreater(len(posed), 50)
        text = text_of_problems(posed).encode("utf-8", "surrogateescape")
        outcome = support.run([support.pops(), "--check"], text)
        self.assertEqual(outcome.status, 0)
        for original, answer in zip(originals, read_report(io.BytesIO(outcome.output))):
            assert isinstance(answer, SoundItem)
            self.assertEqual(answer.board or original.board, original.board or answer.board)
            self.assertEqual(answer.condition, original.condition)
            title = f"{answer.stipulation.text} of problem {original.number}"
            self.assertEqual(answer.title, title.encode())
            self.assertIn(answer.stipulation, shorter(original.stipulation))


class Answers(unittest.TestCase):
    REPORT = (
        "problem 1\ntitle: h#1 of problem 2\nh#1\nplay\n1.Kh8-g8 Ra1-a8#\nsolutions: 1\n\n"
        "problem 2\nline 3: fault 14: square expected\n\n"
        "problem 3\ntitle: h#2 of problem 2\nh#2\nplay\nsolutions: 0\n\n"
    )

    def problem(self, number: int, stipulation: str) -> SoundItem:
        one = item(stipulation, "")
        assert isinstance(one, SoundItem)
        return SoundItem(number, None, None, None, one.stipulation, one.condition, one.phases)

    def test_answers_are_found_by_their_titles(self) -> None:
        answers = ShortAnswers(items(self.REPORT))
        self.assertEqual(answers.of(self.problem(2, "h#3")), ("1.Kh8-g8 Ra1-a8#",))
        self.assertEqual(answers.of(self.problem(2, "h#4")), ("1.Kh8-g8 Ra1-a8#",))
        self.assertIsNone(answers.of(self.problem(1, "h#3")))
        self.assertEqual(answers.of(self.problem(1, "#1")), ())

    def test_other_reports_are_refused(self) -> None:
        for old, new in (("h#1 of problem 2", "h#2 of problem 2"), ("of problem", "of Problem")):
            with self.subTest(new), self.assertRaises(AnswersError):
                ShortAnswers(items(self.REPORT.replace(old, new)))
        answers = ShortAnswers(items(self.REPORT.replace("\nh#1\n", "\nh#1 Circe\n")))
        with self.assertRaises(AnswersError):
            answers.of(self.problem(2, "h#3"))


class Collection(unittest.TestCase):
    """A collection whose soundness was worked out by hand; Morphy's and the array's are published.

    Pawn e6 becomes a queen or a rook, and both mate. The mate in two of Kf6 and Qa7 is one
    in one as well; Black has one first move alone, so that its two lines part later. In the array's
    lines f7-f5 or f7-f6 and g7-g5 come in either order, with e2-e3 or e2-e4 between. Four moves
    along the eighth rank leave Black b3-b2 alone.
    """

    WANTED: list[tuple[str, list[str]]] = [
        ("sound", []),
        ("unsound", ["cooked: 2 keys, 1 wanted"]),
        ("sound", ["1 dual at the mate: 1 on move 2; 1 by promotion alone",
                   "set play: 0 moves of Black provided for"]),
        ("unsound", ["no solution", "set play not possible"]),
        ("sound", ["set play: 1 solution", "all mates: ideal mates"]),
        ("unsound", ["stopped: at least 2 solutions, 2 wanted", "1 short solution"]),
        # The queen guards f7, and nothing what Black's men block: but most of White's are idle.
        ("sound", ["5 duals before the mate: 3 on move 1, 2 on move 2", "all mates: pure mates"]),
        ("undecided", ["stopped: at least 1 key, 1 wanted",
                       "duals not shown: they need Variation"]),
        ("faulty", ["line 46: fault 14: square expected"]),
        ("unsound", ["cooked: 4 keys, 1 wanted"]),
        ("sound", []),
    ]  # fmt: skip

    room: Path
    report: Path
    short: Path
    words: list[str]

    @classmethod
    def setUpClass(cls) -> None:
        folder = tempfile.TemporaryDirectory()
        cls.addClassCleanup(folder.cleanup)
        cls.room = Path(folder.name)
        cls.report = cls.room / "problems.report"
        cls.report.write_bytes(support.run([support.pops(), str(COLLECTION)]).output)
        posed = run_here.companion("pops-test", "--pose", str(COLLECTION))
        assert posed.status == 0 and posed.error == "", posed
        cls.short = cls.room / "short.report"
        cls.short.write_bytes(support.run([support.pops()], posed.output).output)
        cls.words = [str(cls.report), "--input", str(COLLECTION), "--short", str(cls.short)]

    def judged(self, *words: str) -> support.Outcome:
        outcome = run_here.companion("pops-test", *self.words, *words)
        self.assertEqual((outcome.status, outcome.error), (1, ""))
        return outcome

    def test_text(self) -> None:
        text = self.judged("--all").output.decode()
        found: list[tuple[str, list[str]]] = []
        for line in text.splitlines()[:-1]:
            if line.startswith("problem "):
                found.append((line.split(": ")[1], []))
            elif not line.startswith("    "):
                found[-1][1].append(line.strip())
        self.assertEqual(found[5][1].pop()[:23], "1 dual before the mate:")
        self.assertEqual(found, self.WANTED)
        self.assertEqual(
            text.splitlines()[-1], "11 problems: 5 sound, 1 undecided, 4 unsound, 1 faulty"
        )

    def test_moves_that_show_it(self) -> None:
        text = self.judged("--all").output.decode()
        for moves in (
            "    1.Ra1-a8#\n    1.Rb1-b8#\n",
            "    1.e6-e7 Kh8-g8 2.e7-e8=Q# | e7-e8=R#\n",
            "    1...Ra1-a8#\n",
            "    1.Kh8-g8 Qa7-g7#\n",
            "    1.Re8-a8\n    1.Re8-c8\n    1.Re8-d8\n    1.Re8-f8\n",
        ):
            self.assertIn(moves, text)

    def test_the_text_of_the_documents(self) -> None:
        """It shows some of the problems, each as it is, and the last line."""
        text = self.judged().output.decode()
        shown = re.split(r"^(?=\S)", documented("pops-test"), flags=re.M)[1:]
        self.assertEqual(len(shown), 4)
        places = [("\n" + text).find("\n" + problem) for problem in shown]
        self.assertNotIn(-1, places)
        self.assertEqual(places, sorted(places))
        self.assertTrue(text.endswith(shown[-1]))

    def test_csv_has_nothing_that_a_spreadsheet_computes(self) -> None:
        heads = (b"title: =1+1\nauthor: @SUM(A1)\n#1", b"title: -2\nauthor: +3\n=1", b"title: a=b\n#1")
        items = (b"problem %d\n%s\nsound\n\n" % (it, head) for it, head in enumerate(heads, 1))
        said = run_here.companion("pops-test", "--csv", text=b"".join(items)).output.decode()
        rows = list(csv.DictReader(io.StringIO(said)))
        cells = [(row["title"], row["author"], row["stipulation"]) for row in rows]
        self.assertEqual(
            cells, [("'=1+1", "'@SUM(A1)", "#1"), ("'-2", "'+3", "'=1"), ("a=b", "", "#1")]
        )

    def test_csv_quotes_what_a_reader_takes_for_more_cells(self) -> None:
        titles = ("\uff1d1", "\uff0b1", "\uff0d1", "\uff201", "a; =1;b", "b,=1", '"=1', 'a;"=1')
        items = (f"problem {it}\ntitle: {title}\n#1\nsound\n\n" for it, title in enumerate(titles, 1))
        text = "".join(items).encode()
        said = run_here.companion("pops-test", "--csv", text=text).output.decode()
        cells = [line.partition(",")[2].split(",,#1,")[0] for line in said.split("\n")[1:-1]]
        self.assertEqual(cells[:4], [f"'{title}" for title in titles[:4]])
        self.assertEqual(cells[4:], ["\"a;' =1;b\"", '"b,=1"', '"""=1"', "\"a;'\"\"=1\""])

    def test_csv_has_nothing_that_is_computed_after_a_tab(self) -> None:
        """For readers that part cells at tabs, or lines at other signs, and know no quotes in them."""
        titles = ("a\t=1+1", "b\t=1", "a\t\t@b\t+1", "a\r-1", "a;\t=1", 'a\t"=1', "a\u2028=1", "\u3000\u2029-1", "a\tb=1")
        items = (f"problem {it}\ntitle: {title}\nauthor: {title}\n#1\nsound\n\n" for it, title in enumerate(titles, 1))
        said = run_here.companion("pops-test", "--csv", text="".join(items).encode()).output.decode()
        for cell in re.split("[;\t\r\n\u2028\u2029]", said):
            self.assertNotRegex(cell, '^"*[=+@-]')
        cells = [row["title"] for row in csv.DictReader(io.StringIO(said, newline=""))]
        self.assertEqual([cells[0], cells[-1]], ["a\t'=1+1", "a\tb=1"])

    def test_csv_has_nothing_unseen_before_what_a_spreadsheet_computes(self) -> None:
        titles = ("\u200b=1", "\ufeff=1", "\u3000=1", "\xa0=1", "\u200b \ufe62", "\ufe66", "\u200ba")
        items = (f"problem {it}\ntitle: {title}\n#1\nsound\n\n" for it, title in enumerate(titles, 1))
        text = "".join(items).encode()
        said = run_here.companion("pops-test", "--csv", text=text).output.decode()
        cells = [row["title"] for row in csv.DictReader(io.StringIO(said, newline=""))]
        self.assertEqual(cells, [*(f"'{title}" for title in titles[:-1]), titles[-1]])

    def test_csv(self) -> None:
        rows = list(csv.DictReader(io.StringIO(self.judged("--csv").output.decode())))
        self.assertEqual([row["verdict"] for row in rows], [verdict for verdict, _ in self.WANTED])
        self.assertEqual([row["number"] for row in rows], [str(one) for one in range(1, 12)])
        self.assertEqual(
            [row["solutions"] for row in rows],
            ["1", "2", "1", "0", "1", "2", "8", "1", "", "4", "1"],
        )
        self.assertEqual([row["stopped"] for row in rows[5:9]], ["yes", "no", "yes", ""])
        self.assertEqual(
            [row["wanted"] for row in rows], ["1"] * 5 + ["2", "8", "1", ""] + ["1"] * 2
        )
        short = [row["short_solutions"] for row in rows]
        self.assertEqual(short, list("00000100") + ["", "0", "0"])
        third = rows[2]
        self.assertEqual((third["title"], third["stipulation"]), ("A queen or a rook", "#2"))
        self.assertEqual((third["duals_at_the_end"], third["duals_earlier"]), ("1", "0"))
        self.assertEqual((third["set_solutions"], third["unprovided_checks"]), ("0", "0"))
        self.assertEqual((third["author"], third["condition"], third["reasons"]), ("", "", ""))
        self.assertEqual(rows[3]["reasons"], "no solution")
        self.assertEqual(rows[8]["reasons"], "line 46: fault 14: square expected")

    def test_page(self) -> None:
        source = self.judged("--page", "--heading", "Mine & yours").output.decode()
        page = test_pages.SeenPage(source)
        self.assertIn("<h1>Mine &amp; yours</h1>", source)
        self.assertIn("<p>11 problems: 5 sound, 1 undecided, 4 unsound, 1 faulty</p>", source)
        found = [said for said in self.WANTED if said[1]]
        self.assertEqual(len(page.articles), len(found))
        for article, (verdict, findings) in zip(page.articles, found):
            self.assertIn(verdict, article.words)
            for text in findings:
                self.assertIn(text, article.words)
        self.assertEqual([len(article.men) for article in page.articles[:2]], [4, 3])

    def test_the_number_wanted_of_help_problems(self) -> None:
        report = str(support.REPOSITORY / "examples" / "game_array.report")
        cases: list[tuple[list[str], bytes]] = [
            (["--solutions", "8"], b"undecided"),
            (["--solutions", "7"], b"cooked: 8 solutions, 7 wanted"),
            (["--solutions", "9"], b"solutions missing: 8 solutions, 9 wanted"),
            ([], b"cooked: 8 solutions, 1 wanted"),
        ]
        for words, said in cases:
            outcome = run_here.companion("pops-test", report, *words)
            self.assertEqual((outcome.status, outcome.error), (1, ""))
            self.assertIn(said, outcome.output)
        both = run_here.companion("pops-test", "--solutions", "8", str(self.report))
        self.assertIn(b"2 keys, 1 wanted", both.output)

    def test_published_keys_are_the_only_ones(self) -> None:
        """Each published key of the game endings and problems in examples/ is the only one."""
        for name in ("morphy_1856", "legal_paris_1750", "boden_london_1853", "reti_vienna_1910"):
            report = support.REPOSITORY / "examples" / f"{name}.report"
            outcome = run_here.companion("pops-test", str(report))
            self.assertEqual((outcome.status, outcome.error), (0, ""))
            self.assertTrue(outcome.output.endswith(
                b"1 problem: 1 sound, 0 undecided, 0 unsound, 0 faulty\n"))  # fmt: skip


class Unfinished(unittest.TestCase):
    """Problems that were stopped, and a report that ends inside a problem."""

    ONE = "problem 1\n#1\nplay\n1.Ra1-a8#\nsolutions: 1\n\n"
    MARK = "unfinished: stopped after 5 s (six.pop, line 9)\n\n"

    def found(self, text: str, *words: str) -> list[str]:
        outcome = run_here.companion("pops-test", *words, text=text.encode())
        self.assertEqual((outcome.status, outcome.error), (1, ""))
        return outcome.output.decode().splitlines()

    def test_more_solutions_than_wanted_are_a_cook(self) -> None:
        lines = "1.Kh8-g8 Ra1-a8#\n1.Kh8-g8 Rb1-b8#\n"
        for end in (self.MARK, "1.Kh8-g8 Rc1-", ""):
            with self.subTest(end):
                found = self.found(f"problem 2\nh#1\nplay\n{lines}{end}")
                self.assertEqual(found[2], "problem 2: unsound: h#1")
                self.assertEqual(found[3], "  cooked: at least 2 solutions, 1 wanted")
                self.assertEqual(found[4:6], ["    " + line for line in lines.splitlines()])

    def test_the_wanted_number_or_none_is_undecided(self) -> None:
        reason = "stopped after 5 s (six.pop, line 9)"
        for lines, said in (
            ("1.Ra1-a6\n  1...b7*a6\n", f"unfinished: at least 1 key, 1 wanted ({reason})"),
            ("", f"unfinished: no key so far ({reason})"),
        ):
            with self.subTest(said):
                found = self.found(f"problem 1\n#2\nplay\n{lines}{self.MARK}")
                self.assertEqual(found[:2], ["problem 1: undecided: #2", f"  {said}"])

    def test_a_key_that_mates_at_once_is_short_and_no_other(self) -> None:
        """What is missing below the other key may take longer."""
        tree = "1.Ra1-a8#\n1.Ra1-a2\n  1...Kh8-g8\n    2.Ra2-a8#\n"
        found = self.found(f"problem 1\n#3\nplay\n{tree}{self.MARK}", "--solutions", "2")
        self.assertIn("  at least 1 short solution", found)
        self.assertIn("    1.Ra1-a8#", found)

    def test_a_report_that_ends_above_the_solutions(self) -> None:
        for text in ("problem 1\n", "problem 1\ntitle: A\n8 kbK.....\n", "problem 1\n#1\n"):
            with self.subTest(text):
                found = self.found(text)
                self.assertTrue(found[0].startswith("problem 1: undecided"), found)
                self.assertIn("the report ends here", found[1])

    def test_set_play_alone_decides_nothing(self) -> None:
        found = self.found(f"problem 1\nh#1\nset\n1...Ra1-a8#\n{self.MARK}")
        self.assertIn("no solution so far", found[1])
        found = self.found(f"problem 1\nh#1\nset\n1...Ra1-a8#\nplay\n{self.MARK}")
        self.assertIn("no solution so far", found[1])

    def test_play_that_is_done_beside_set_play_that_isnt(self) -> None:
        text = (
            f"problem 1\nh#1\nset\n1...Ra1-a8#\nplay\n1.Kh8-g8 Ra1-a8#\nsolutions: 1\n{self.MARK}"
        )
        outcome = run_here.companion("pops-test", text=text.encode())
        self.assertEqual(outcome.output.decode().splitlines()[0], "problem 1: sound: h#1")

    def test_the_file_of_unfinished_problems_fills_the_gaps(self) -> None:
        two = self.ONE.replace("problem 1", "problem 2")
        three = f"problem 3\n#1\nplay\n1.Ra1-a8#\n1.Rb1-b8#\n{self.MARK}"
        with tempfile.TemporaryDirectory() as room:
            report = Path(room) / "some.report"
            report.write_text(self.ONE + two)
            rest = Path(room) / "some.report.unfinished"
            rest.write_text(three)
            wanted = ["problem 1: sound: #1", "problem 2: sound: #1", "problem 3: unsound: #1"]
            self.assertEqual(self.found("", str(report))[:3], wanted)
            other = rest.rename(Path(room) / "rest")
            words = [str(report), "--unfinished", str(other)]
            self.assertEqual(self.found("", *words)[:3], wanted)
            report.write_text("")
            self.assertEqual(self.found("", *words)[0], "problem 1: undecided")
            self.assertIn(wanted[2], self.found("", *words))
            report.write_text(self.ONE + two)
            other.write_text(three.replace("problem 3", "problem 2"))
            outcome = run_here.companion("pops-test", *words)
        self.assertEqual((outcome.status, outcome.output), (3, b""))
        self.assertIn("--unfinished isn't of", outcome.error)

    def test_unfinished_problems_keep_no_report_in_memory(self) -> None:
        one = self.ONE.encode()
        report = b"".join(one.replace(b"problem 1", b"problem %d" % it) for it in range(2, 9000))
        with tempfile.TemporaryDirectory() as room:
            rest = Path(room) / "rest"
            rest.write_bytes(one.removesuffix(b"solutions: 1\n\n") + self.MARK.encode())
            source = io.BufferedReader(io.BytesIO(report))  # type: ignore[arg-type]
            items = items_with_unfinished("pops-test", None, source, str(rest), "utf-8")
            self.assertEqual([next(items).number, next(items).number], [1, 2])
            self.assertLess(source.tell(), len(report) // 2)
            self.assertEqual(sum(1 for _ in items), 8997)

    def test_what_pops_many_keeps_of_a_problem_in_parts(self) -> None:
        """Set play and play both have no total there."""
        text = (
            "problem 1\nh#1\nset\n1...Ra1-a8#\nplay\n1.Kh8-g8 Ra1-a8#\n1.Kh8-g8 Rb1-b8#\n"
            "unfinished: stopped with 2 of 9 parts done (six.pop, line 1)\n\n"
        )
        self.assertIn("  cooked: at least 2 solutions, 1 wanted", self.found(text))


class Names(unittest.TestCase):
    """Titles and authors of problems whose report shows none."""

    def test_of_faulty_and_missing_problems(self) -> None:
        text = (
            b"BeginProblem\nTitle One\nAuthor A. A.\nPieces Kg6\nStipulation #1\n"
            b"NextProblem\nTitle Two\nAuthor B. B.\nStipulation #2\nEndProblem\n"
        )
        report = b"problem 1\nline 4: fault 4: colour expected before men\n\n"
        with tempfile.TemporaryDirectory() as room:
            given = Path(room) / "given.pop"
            given.write_bytes(text)
            words = ["--input", str(given)]
            outcome = run_here.companion("pops-test", *words, text=report)
            rows = run_here.companion("pops-test", *words, "--csv", text=report).output.decode()
            page = run_here.companion("pops-test", *words, "--page", text=report).output.decode()
        lines = outcome.output.decode().splitlines()
        self.assertEqual(lines[0], "problem 1: faulty: #1, One (A. A.)")
        self.assertEqual(lines[2], "problem 2: undecided: #2, Two (B. B.)")
        named = [(row["title"], row["author"]) for row in csv.DictReader(io.StringIO(rows))]
        self.assertEqual(named, [("One", "A. A."), ("Two", "B. B.")])
        self.assertEqual(page.count("#2, Two (B. B.)"), 2)

    def test_text_lines_before_the_problem_have_no_effect(self) -> None:
        (given,) = given_problems(b"Title No\nBeginProblem Stipulation #1\nAuthor A\nEndProblem")
        self.assertEqual((given.title, given.author), (None, b"A"))

    def test_origin_title_and_author_as_pops_takes_them(self) -> None:
        text = b"BeginProblem\nTitle  One \nTITLE Two\t\nOri Here\nOrigin There\nAut\nEndProblem"
        (given,) = given_problems(text)
        self.assertEqual((given.title, given.author), (b"Two", None))
        self.assertEqual(given.origin, b"Here; There")


class Warnings(unittest.TestCase):
    def test_nightriders_without_knights(self) -> None:
        board = "".join(f"{rank} ........\n" for rank in range(8, 2, -1))
        for men, is_warned in (("N......k", True), ("NS.....k", False), ("S......k", False)):
            text = f"problem 1\n{board}2 ........\n1 {men}\n  abcdefgh\n#1\nplay\nsolutions: 0\n\n"
            outcome = run_here.companion("pops-test", text=text.encode())
            warned = b"N is a nightrider here, and there is no knight" in outcome.output
            self.assertEqual(warned, is_warned)

    def test_text_after_the_end(self) -> None:
        with tempfile.TemporaryDirectory() as room:
            given = Path(room) / "given.pop"
            given.write_bytes(b"BeginProblem Sti #1 EndProblem\n\nBeg Sti #2 Next End\n")
            words = ["--input", str(given)]
            report = b"problem 1\n#1\nplay\n1.Ra1-a8#\nsolutions: 1\n\n"
            outcome = run_here.companion("pops-test", *words, text=report)
        self.assertIn("the text goes on in line 3: 2 problems are lost", outcome.error)
        self.assertEqual(outcome.status, 0)


class Command(unittest.TestCase):
    REPORT = b"problem 1\n#1\nplay\n1.Ra1-a8#\nsolutions: 1\n\n"

    def test_texts_that_are_no_report(self) -> None:
        for text, said in (
            (b"", "standard input is empty: no report of pops"),
            (b"Nothing\n", "standard input is no report of pops: line 1"),
            (b"begin\n", "standard input is an input of pops, no report: solve it first"),
            (self.REPORT + b"\n", "standard input is no report of pops: line 7"),
        ):
            with self.subTest(text):
                outcome = run_here.companion("pops-test", text=text)
                self.assertEqual(outcome.status, 3)
                self.assertIn(said, outcome.error)

    def test_a_run_that_fails_leaves_the_old_file(self) -> None:
        with tempfile.TemporaryDirectory() as room:
            target = Path(room) / "soundness.txt"
            target.write_text("old")
            wrong = self.REPORT + b"problem two\n"
            outcome = run_here.companion("pops-test", "-o", str(target), text=wrong)
            self.assertEqual((outcome.status, target.read_text()), (3, "old"))
            outcome = run_here.companion("pops-test", "-o", str(target), text=self.REPORT)
            self.assertEqual((outcome.status, outcome.output), (0, b""))
            self.assertIn("problem 1: sound: #1", target.read_text())
            self.assertEqual(len(list(Path(room).iterdir())), 1)

    def test_an_input_or_answers_of_another_report(self) -> None:
        collection = str(COLLECTION)
        for words, text, said in (
            (["--input", collection], self.REPORT, "problem 1 has another stipulation there"),
            (["--input", collection], b"problem 1\n#2\nsound\n\n" * 2, "with several joined"),
            (["--short", collection], self.REPORT, "is an input of pops, no report"),
            (["--short", "nowhere.report"], self.REPORT, "cannot open nowhere.report"),
        ):
            with self.subTest(said):
                outcome = run_here.companion("pops-test", *words, text=text)
                self.assertEqual(outcome.status, 3)
                self.assertIn(said, outcome.error)

    def test_an_input_with_fewer_problems(self) -> None:
        with tempfile.TemporaryDirectory() as room:
            given = Path(room) / "given.pop"
            given.write_bytes(b"BeginProblem Stipulation #1 EndProblem")
            two = self.REPORT + b"problem 2\nline 2: fault 11: no men\n\n"
            outcome = run_here.companion("pops-test", "--input", str(given), text=two)
        self.assertEqual(outcome.status, 3)
        self.assertIn("given.pop isn't the report's input: it has no problem 2", outcome.error)

    def test_problems_that_the_report_lacks_are_undecided(self) -> None:
        """As after the place where a run was interrupted."""
        with tempfile.TemporaryDirectory() as room:
            given = Path(room) / "given.pop"
            given.write_bytes(b"Beg Stipulation #1 Next Stipulation #1 Next Stipulation #2 End")
            outcome = run_here.companion("pops-test", "--input", str(given), text=self.REPORT)
        self.assertEqual(
            outcome.output.decode().splitlines(),
            [
                "problem 1: sound: #1",
                "problem 2: undecided: #1",
                "  not in the report",
                "problem 3: undecided: #2",
                "  not in the report",
                "3 problems: 1 sound, 2 undecided, 0 unsound, 0 faulty",
            ],
        )
        self.assertEqual((outcome.status, outcome.error), (1, ""))

    def test_problems_that_pops_many_stopped_are_undecided(self) -> None:
        report = b"".join(self.REPORT.replace(b"1", b"%d" % number, 1) for number in (2, 4))
        wanted = [
            "problem 1: undecided",
            "  not in the report",
            "problem 2: sound: #1",
            "problem 3: undecided",
            "  not in the report",
            "problem 4: sound: #1",
        ]
        outcome = run_here.companion("pops-test", text=report)
        total = "4 problems: 2 sound, 2 undecided, 0 unsound, 0 faulty"
        self.assertEqual(outcome.output.decode().splitlines(), [*wanted, total])
        self.assertEqual((outcome.status, outcome.error), (1, ""))
        with tempfile.TemporaryDirectory() as room:
            given = Path(room) / "given.pop"
            given.write_text("BeginProblem" + " Sti #1 NextProblem" * 4 + " Sti #1 EndProblem\n")
            outcome = run_here.companion("pops-test", "--input", str(given), text=report)
        wanted = [line.replace("undecided", "undecided: #1") for line in wanted]
        wanted += ["problem 5: undecided: #1", "  not in the report"]
        total = "5 problems: 2 sound, 3 undecided, 0 unsound, 0 faulty"
        self.assertEqual(outcome.output.decode().splitlines(), [*wanted, total])

    def test_reports_one_behind_the_other(self) -> None:
        outcome = run_here.companion("pops-test", text=self.REPORT * 2)
        self.assertEqual(outcome.status, 0)
        self.assertEqual(outcome.output.count(b"problem 1: sound: #1\n"), 2)

    def test_answers_without_their_titles(self) -> None:
        with tempfile.TemporaryDirectory() as room:
            short = Path(room) / "short.report"
            short.write_bytes(self.REPORT)
            outcome = run_here.companion("pops-test", "--short", str(short), text=self.REPORT)
        self.assertEqual(outcome.status, 3)
        self.assertIn("doesn't answer what --pose asked: problem 1 has no title", outcome.error)

    def test_nothing_to_pose(self) -> None:
        in_one = b"BeginProblem\nPieces White Kg6 Ra1 Black Kg8\nStipulation #1\nEndProblem\n"
        for text, said in (
            (in_one, "has no problem with a shorter stipulation"),
            (b"BeginProblem\nEndProblem\n", "has no problem without a fault: see pops-explain"),
        ):
            outcome = run_here.companion("pops-test", "--pose", text=text)
            self.assertEqual((outcome.status, outcome.output), (3, b""))
            self.assertIn(said, outcome.error)

    def test_mistakes_in_the_command_line(self) -> None:
        for words in (
            ["--fast"],
            ["--solutions", "0"],
            ["--solutions", "two"],
            ["--csv", "--page"],
            ["--pose", "--csv"],
            ["--encoding", "no-such"],
            ["one", "two"],
        ):
            with self.subTest(words):
                self.assertEqual(run_here.companion("pops-test", *words).status, 2)

    def test_many_moves_are_cut_short(self) -> None:
        report = str(support.REPOSITORY / "examples" / "mate_in_two.report")
        outcome = run_here.companion("pops-test", report)
        self.assertIn(b"    1.Rb2-b4\n    and 1 more\n  1 short solution\n", outcome.output)
        outcome = run_here.companion("pops-test", report, "--all")
        self.assertIn(b"    1.Rb2-b4\n    1.Rb2-b5\n  1 short solution\n", outcome.output)

    def test_titles_are_shown_safely(self) -> None:
        report = self.REPORT.replace(b"#1", b"title: R\xe9ti \x1b[1m<b>\n#1", 1)
        outcome = run_here.companion("pops-test", "--encoding", "latin-1", text=report)
        self.assertIn("sound: #1, Réti \ufffd[1m<b>\n", outcome.output.decode())
        outcome = run_here.companion("pops-test", "--page", text=report)
        self.assertIn("Réti \ufffd[1m&lt;b&gt;", outcome.output.decode())
        self.assertIn("title or author of problem 1 isn't utf-8 and is read as", outcome.error)

    def test_help_and_version(self) -> None:
        outcome = support.companion("pops-test", "--help")
        self.assertEqual((outcome.status, outcome.error), (0, ""))
        self.assertIn(b"example:", outcome.output)
        version = run_here.companion("pops-test", "--version")
        self.assertTrue(version.output.startswith(b"pops-test "))
