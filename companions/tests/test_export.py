"""pops-export: an import of what it writes gives the same problems."""

import re
import tempfile
import unittest
from collections.abc import Sequence
from dataclasses import replace
from pathlib import Path
from typing import Any, NamedTuple

from pops_companions.export.problems import Problem, joined, options_of, read_problems
from pops_companions.export.yaml_form import solution_lines
from pops_companions.import_.options import option_left_out
from pops_companions.import_.words import Unreadable
from pops_companions.import_.yaml_text import documents
from pops_companions.report.items import SoundItem
from pops_companions.report.reader import read_report
from tests import run_here, support

IMPORTED = sorted((Path(__file__).resolve().parent / "data" / "import").glob("*.pop"))
TWINS = b"""\
BeginProblem
Title A pair
Author Loyd, Samuel; Solver, Bert
Origin Die Schwalbe 1977
Remark a note: "one" \\ two
Remark solutions 2
Pieces White Kg6 Ra1 Black Kh8
Stipulation h#1
Option SetPlay MaxSolutions 5
Twin Move a1 b2
Twin Continued Add White Rc1, Black Pa7
Twin Rotate 180 Stipulation h=1
EndProblem
"""
MEN = "Pieces White Kg6 Ra1 Black Kh8\nStipulation h#1"


class Same(NamedTuple):
    """What stays the same: the problems, and what their Remarks say.

    A Remark that all twins had may stand with the first one alone.
    """

    problems: Sequence[Problem]
    remarks: set[str]


def same(text: str) -> Same:
    problems = read_problems(text).problems
    return Same(
        [replace(problem, remarks=()) for problem in problems],
        {remark for problem in problems for remark in problem.remarks},
    )


def exported(form: str, *words: str, text: bytes = b"") -> str:
    outcome = run_here.companion("pops-export", "--to", form, *words, text=text)
    assert outcome.status == 0 and outcome.error == "", outcome
    return outcome.output.decode("utf-8")


@support.needs_module("yaml")
class RoundTrips(unittest.TestCase):
    def test_imported_files_rows_and_examples(self) -> None:
        tried = 0
        for path in [*IMPORTED, *support.stored_inputs()]:
            text = path.read_text("utf-8", "replace")
            try:
                reading = read_problems(text)
            except Unreadable:
                continue
            if reading.left_out or not reading.problems:
                continue
            wanted = same(text)
            for form in ("popeye", "yaml"):
                for words in ((), ("--apart",)):
                    with self.subTest(path.name, form=form, words=words):
                        self.assertEqual(same(exported(form, *words, str(path))), wanted)
                        tried += 1
        self.assertGreater(tried, 200)

    def test_remarks_that_begin_as_a_problem_of_popeye_does(self) -> None:
        for remark in ("Beg pardon", "Anfang der Komposition", "Début", "BeginProblem"):
            text = f"BeginProblem\nRemark {remark}\n{MEN}\nEndProblem\n"
            with self.subTest(remark):
                self.assertEqual(same(exported("yaml", text=text.encode())), same(text))

    def test_characters_that_yaml_allows_only_as_codes(self) -> None:
        for sign in "\x7f\x80\x85\x8f\x9f\u2028\u2029\ufeff\ufffe\uffff":
            texts = f"Title a{sign}b\nOrigin e{sign}f\nRemark solution: g{sign}h"
            with self.subTest(sign):
                self.assertEqual(self.back(texts), texts)

    def test_a_key_that_reads_as_nothing(self) -> None:
        for key in ("award.null", "award.Null.a", "award.null.NULL"):
            with self.subTest(key):
                self.assertEqual(self.back(f"Title a\nRemark {key}: b"), f"Title a\nRemark {key}: b")

    def back(self, texts: str) -> str:
        """Returns the text lines of a problem after an export to YAML and an import."""
        text = f"BeginProblem\n{texts}\n{MEN}\nEndProblem\n".encode()
        made = run_here.companion("pops-import", text=exported("yaml", text=text).encode())
        self.assertEqual(made.status, 0, made.error)
        return made.output.decode().partition("\n")[2].partition(f"\n{MEN}")[0]

    def test_what_pops_reports_of_them(self) -> None:
        """The text that comes back has the same report, titles and all."""
        for path in IMPORTED[::4]:
            wanted = support.run([support.pops(), "--check", str(path)]).output
            for form in ("popeye", "yaml"):
                with self.subTest(path.name, form=form):
                    back = run_here.companion(
                        "pops-import", text=exported(form, str(path)).encode()
                    )
                    self.assertEqual(back.status, 0)
                    report = support.run([support.pops(), "--check"], back.output).output
                    self.assertEqual(report, wanted)


class Twins(unittest.TestCase):
    def setUp(self) -> None:
        self.text = run_here.companion("pops-import", text=TWINS).output

    def test_they_are_one_problem_again(self) -> None:
        text = exported("popeye", text=self.text)
        self.assertEqual(text.count("Pieces "), 1)
        self.assertIn("Title A pair\n", text)
        self.assertIn("Twin Move a1 b2\n", text)
        self.assertIn("Twin continued Add white Rc1 black Pa7\n", text)
        self.assertIn("Twin Rotate 180 Stipulation h=1\n", text)
        back = run_here.companion("pops-import", text=text.encode())
        self.assertEqual(same(back.output.decode()), same(self.text.decode()))

    def test_apart(self) -> None:
        self.assertEqual(exported("popeye", "--apart", text=self.text).encode(), self.text)

    def test_twins_that_were_changed_stay_apart(self) -> None:
        for old, new in (("Rb2", "Rb3"), ("Remark b) Move", "Remark Move"), ("pair b)", "pair c)")):
            with self.subTest(new):
                other = self.text.decode().replace(old, new)
                self.assertNotEqual(other, self.text.decode())
                self.assertGreater(exported("popeye", text=other.encode()).count("Pieces "), 1)

    def test_twins_of_which_an_import_says_more(self) -> None:
        """A man put on another and a quarter turn stay twins, without comments."""
        twins = b"Twin Add white Qa1\nTwin Rotate 90\nEndProblem"
        pair = b"BeginProblem\nTitle A pair\nPieces White Kg6 Ra1 Black Kh8\nStipulation h#1\n"
        text = run_here.companion("pops-import", text=pair + twins).output
        self.assertIn(b"Remark the man on a1 is replaced\n", text)
        (found,) = nodes(exported("yaml", text=text))
        self.assertEqual(found["twins"], {"b": "Add white Qa1", "c": "Rotate 90"})
        self.assertNotIn("comments", found)

    def test_a_twin_that_was_left_out(self) -> None:
        """In YAML the others keep their letters; in Popeye they would lose them."""
        twins = b"Twin Move a1 b2\nTwin Condition Koeko\nTwin Move a1 c1\nTwin Remove a1 Add White Qa1\nEndProblem"
        text = run_here.companion("pops-import", text=TWINS.partition(b"Twin")[0] + twins).output
        self.assertNotIn(b"pair c)", text)
        made = exported("yaml", text=text)
        (found,) = nodes(made)
        self.assertEqual(list(found["twins"]), ["b", "d", "e"])
        self.assertEqual(found["twins"]["d"], "Move a1 c1")
        self.assertEqual(found["comments"], ['a note: "one" \\ two'])
        for form in (made, exported("popeye", text=text)):
            self.assertEqual(same(form), same(text.decode()))

    def test_twins_that_are_all_left_out(self) -> None:
        """The first is no twin any more, whoever left out the others: its title has no label."""
        for name, wanted in (("Title My pair\n", "My pair"), ("", None)):
            with self.subTest(name):
                pair = f"BeginProblem\n{name}Pieces White Kg6 Ra1 Black Kh8\nStipulation h#1\n"
                text = f"{pair}Twin Condition Koeko\nEndProblem"
                given = run_here.companion("pops-import", text=text.encode()).output.decode()
                self.assertEqual(given, f"{pair}EndProblem\n")
                pair = f"{pair}Twin Move a1 b2\nTwin Move a1 c1\nEndProblem"
                given = run_here.companion("pops-import", text=pair.encode()).output.decode()
                for broken, twins in ((("Rb2", "Rc1"), None), (("Rb2",), {"c": "Move a1 c1"})):
                    text = given
                    for man in broken:
                        text = text.replace(man, "Ra9")
                    outcome = run_here.companion("pops-export", "--to", "yaml", text=text.encode())
                    self.assertEqual(outcome.error.count("left out"), len(broken))
                    (found,) = nodes(outcome.output.decode())
                    self.assertEqual((found.get("title"), found.get("twins")), (wanted, twins))

    def test_a_label_without_twins_is_part_of_a_title(self) -> None:
        text = self.text.partition(b"NextProblem")[0] + b"EndProblem\n"
        other = text.replace(b"End", b"Next") + text.replace(b"pair a)", b"man").replace(b"Ra1", b"Ra9").partition(b"\n")[2]
        for given in (text, other):
            outcome = run_here.companion("pops-export", "--to", "yaml", text=given)
            (found,) = nodes(outcome.output.decode())
            self.assertEqual(found["title"], "A pair a)")

    def test_twins_of_a_zero_position_are_one_problem_again(self) -> None:
        """Also where twins change the stipulation, put a man on another, or are both sides'."""
        problem = "Title Zero\nRemark A note\nPieces White Kg6 Ra1b2 Black Kh8\nStipulation h#2\n"
        for own, twins in (
            ("", ["ZeroPosition Move a1 a3", "Twin Move a1 a2", "Twin Move h8 g8"]),
            ("", ["ZeroPosition Stipulation h#1 Condition Circe", "Twin Move a1 a2"]),
            ("", ["ZeroPosition Stipulation h#1", "Twin Stipulation h=1"]),
            ("", ["ZeroPosition Move a1 b2"]),
            ("Option Duplex\n", ["ZeroPosition Move a1 b2", "Twin Rotate 90"]),
        ):
            with self.subTest(twins):
                lines = "".join(f"{line}\n" for line in twins)
                whole = f"BeginProblem\n{problem}{own}{lines}EndProblem\n"
                given = run_here.companion("pops-import", text=whole.encode()).output
                for form in ("popeye", "yaml"):
                    made = exported(form, text=given)
                    back = run_here.companion("pops-import", text=made.encode()).output
                    self.assertEqual(back, given)
                (found,) = nodes(made)
                self.assertEqual([f"Twin {it}" for it in found["twins"].values()], ["Twin " + twins[0][13:], *twins[1:]])
                self.assertEqual((list(found["twins"])[0], found["title"]), ("a", "Zero"))
                self.assertEqual(found["comments"], ["A note"])
                popeye = exported("popeye", text=given)
                self.assertEqual([it for it in popeye.splitlines() if re.match("Twin|Zero", it)], twins)

    def test_a_missing_twin_ends_the_problem(self) -> None:
        problems = read_problems(self.text.decode()).problems
        self.assertEqual([len(one.twins) for one in joined(problems)], [3])
        self.assertEqual([len(one.twins) for one in joined(problems[1:])], [0, 0, 0])
        self.assertEqual([len(one.twins) for one in joined(problems[:1] + problems[2:])], [0] * 3)


def nodes(text: str) -> "list[dict[str, Any]]":
    """The documents of a text in YAML."""
    found = [document.node() for document in documents(text)]
    return [node for node in found if isinstance(node, dict)]


DUPLEX = b"""\
BeginProblem
Title Both sides
Pieces White Kh1 Rb7 Pg2h2 Black Kh8 Rb2 Pg7h7
Stipulation h#1
Option MaxSolutions 1 Duplex
EndProblem
"""


@support.needs_module("yaml")
class Duplex(unittest.TestCase):
    """What an import makes of Duplex is one problem again, with that option."""

    def both(self, text: bytes) -> str:
        """The YAML of a problem of Popeye with its solutions; an import of both forms is the same."""
        with tempfile.TemporaryDirectory() as room:
            given, report = Path(room) / "duplex.pop", Path(room) / "duplex.report"
            given.write_bytes(run_here.companion("pops-import", text=text).output)
            report.write_bytes(support.run([support.pops(), str(given)]).output)
            made = exported("yaml", "--report", str(report), str(given))
            for form in (made, exported("popeye", str(given))):
                self.assertEqual(same(form).problems, same(given.read_text("utf-8")).problems)
        return made

    def test_with_solutions(self) -> None:
        """The other side's solutions are as on the diagram, and its men aren't turned."""
        (found,) = nodes(self.both(DUPLEX))
        self.assertEqual(found["options"], ["MaxSolutions 1", "Duplex"])
        self.assertNotIn("comments", found)
        solution = "1.Rb2-a2 Rb7-b8 #\n\n{0}\n\nduplex\n\n1.Rb7-a7 Rb2-b1 #\n\n{0}".format("Partial solution")
        self.assertEqual(found["solution"], solution)

    def test_with_twins(self) -> None:
        text = DUPLEX.replace(b"End", b"Twin Move h7 h6\nTwin Move h2 h3\nEnd")
        (found,) = nodes(self.both(text))
        self.assertEqual((found["title"], found["twins"]), ("Both sides", {"b": "Move h7 h6", "c": "Move h2 h3"}))
        headings = [line for line in found["solution"].split("\n") if ")" in line]
        self.assertEqual(headings, ["a)", "a) duplex", "b) duplex", "c) Move h2 h3"])

    def test_with_a_zero_position(self) -> None:
        text = DUPLEX.replace(b"End", b"ZeroPosition Move h7 h6\nTwin Move h2 h3\nEnd")
        (found,) = nodes(self.both(text))
        self.assertEqual(found["twins"], {"a": "Move h7 h6", "b": "Move h2 h3"})
        headings = [line for line in found["solution"].split("\n") if ")" in line]
        self.assertEqual(headings, ["a) duplex", "b) Move h2 h3"])

    def test_another_problem_stays_apart(self) -> None:
        """Where the second problem isn't the first with colours turned, both are as they were."""
        text = run_here.companion("pops-import", text=DUPLEX).output.replace(b"Rb2", b"Rc2")
        titles = [it["title"] for it in nodes(exported("yaml", text=text))]
        self.assertEqual(titles, ["Both sides", "Both sides duplex"])


# A problem with all keys that are known, and what is exported of it.
ALL_KEYS = b"""---
id: 331234
authors: ["Loyd, Samuel", "A. Muster & Roe, Bert"]
source: {name: Die Schwalbe, volume: 12, issue: 3, problemid: 1234}
date: 1977-08-09
award:
  tourney: {name: Jubilee}
  distinction: 1st Prize
distinction: Prize
keywords: [Grimshaw]
source-id: 12a
issue-id: 12/1977
volume: 3
issue: 7
round: 2
tourney: Informal 1977
judges: [Roe, "Muster, A."]
algebraic:
  white: [Kg6, Ra1]
  black: [Kh8]
stipulation: "h#1"
intended-solutions: 2.1
comments: ["Note: a version"]
solution: |2
     1.Kh8-g8 Ra1-a8 #

  b) none
"""
KEPT_KEYS = {
    "id": "331234",
    "authors": ["Loyd, Samuel", "A. Muster", "Roe, Bert"],
    "source": {
        "name": "Die Schwalbe",
        "problemid": "1234",
        "volume": "12",
        "issue": "3",
    },
    "date": "1977-08-09",
    "award": {"tourney": {"name": "Jubilee"}, "distinction": "1st Prize"},
    "distinction": "Prize",
    "keywords": ["Grimshaw"],
    "source-id": "12a",
    "issue-id": "12/1977",
    "volume": "3",
    "issue": "7",
    "round": "2",
    "tourney": "Informal 1977",
    "judges": ["Roe", "Muster, A."],
    "algebraic": {"white": ["Kg6", "Ra1"], "black": ["Kh8"]},
    "stipulation": "h#1",
    "intended-solutions": "2.1",
    "comments": ["Note: a version"],
    "solution": "   1.Kh8-g8 Ra1-a8 #\n\nb) none",
}


@support.needs_module("yaml")
class Yaml(unittest.TestCase):
    def test_the_keys(self) -> None:
        text = run_here.companion("pops-import", text=TWINS).output
        (document,) = documents(exported("yaml", text=text))
        node = document.node()
        assert isinstance(node, dict)
        self.assertEqual(node["authors"], ["Loyd, Samuel", "Solver, Bert"])
        self.assertEqual(node["algebraic"], {"white": ["Kg6", "Ra1"], "black": ["Kh8"]})
        self.assertEqual(node["options"], ["SetPlay", "MaxSolutions 5"])
        self.assertEqual((node["stipulation"], node["intended-solutions"]), ("h#1", "2"))
        self.assertEqual(node["comments"], ['a note: "one" \\ two'])

    def test_nothing_that_has_a_key_becomes_a_comment(self) -> None:
        """As YACPDB has a problem; the second time nothing changes."""
        given = run_here.companion("pops-import", text=ALL_KEYS)
        self.assertEqual((given.status, given.error), (0, ""))
        text = exported("yaml", text=given.output)
        (document,) = documents(text)
        node = document.node()
        assert isinstance(node, dict)
        self.assertEqual(node, KEPT_KEYS)
        back = run_here.companion("pops-import", text=text.encode())
        self.assertEqual(exported("yaml", text=back.output), text)

    def test_keys_of_several_reprints_stay_together(self) -> None:
        """A list of which some have keys comes back as that list."""
        yaml = b"""---
reprints:
  - {name: Problem, date: 1978, more: [{page: 1}, {page: 2, line: 3}]}
  - {name: Feenschach, issue: 12}
  - "Z 1990"
  - [A, B]
algebraic: {white: [Kg6, Ra1], black: [Kh8]}
stipulation: "h#1"
"""
        given = run_here.companion("pops-import", text=yaml)
        text = exported("yaml", text=given.output)
        (document,) = documents(text)
        node = document.node()
        assert isinstance(node, dict)
        wanted = [
            {"name": "Problem", "date": "1978", "more": [{"page": "1"}, {"page": "2", "line": "3"}]},
            {"name": "Feenschach", "issue": "12"},
            "Z 1990",
            ["A", "B"],
        ]
        self.assertEqual(node["reprints"], wanted)
        self.assertNotIn("comments", node)
        back = run_here.companion("pops-import", text=text.encode())
        self.assertEqual(exported("yaml", text=back.output), text)

    def test_each_origin_stays_a_line(self) -> None:
        head, tail = "BeginProblem\n", f"{MEN}\nEndProblem\n"
        for origins in (
            ("Die Schwalbe, August 1977", "Problem 1978", "Z; 3, 1979"),
            ("first 1", "second; 1999", "third"),
            ("null", "~", "[a", "2000", "- x"),
        ):
            with self.subTest(origins):
                given = head + "".join(f"Origin {it}\n" for it in origins) + "Remark a note\n" + tail
                text = exported("yaml", text=given.encode())
                self.assertEqual(nodes(text)[0]["origins"], list(origins[1:]))
                back = run_here.companion("pops-import", text=text.encode())
                self.assertEqual((back.output.decode(), back.error), (given, ""))

    def test_a_list_of_one_stays_a_list(self) -> None:
        yaml = b"""---
keywords: [Grimshaw]
awards: [1st Prize]
judges: [{name: Roe, country: X}]
reprints: [{name: Problem, page: 1}]
tourney: {judge: [Roe], name: Jubilee}
algebraic: {white: [Kg6, Ra1], black: [Kh8]}
stipulation: "h#1"
"""
        given = run_here.companion("pops-import", text=yaml)
        text = exported("yaml", text=given.output)
        (document,), (wanted,) = documents(text), documents(yaml.decode())
        node, own = document.node(), wanted.node()
        assert isinstance(node, dict) and isinstance(own, dict)
        self.assertEqual(dict(node), dict(own))
        back = run_here.companion("pops-import", text=text.encode())
        self.assertEqual(back.output, given.output)

    def test_a_date_stays_in_its_source(self) -> None:
        algebraic = "algebraic:\n  white: [Kg6, Ra1]\n  black: [Kh8]\nstipulation: \"h#1\"\n"
        for lines in (
            '  name: "Die Schwalbe"\n  problemid: 1234\n  date:\n    year: 1977\n    month: 8\n  volume: 12\n',
            '  name: "Die Schwalbe"\n  date:\n    year: 1977\n',
            "  date:\n    year: 1977\n    month: 8\n    day: 31\n",
        ):
            with self.subTest(lines):
                text = f"---\nsource:\n{lines}{algebraic}"
                given = run_here.companion("pops-import", text=text.encode()).output
                self.assertRegex(given.decode(), "\nOrigin .*1977\n")
                self.assertEqual(exported("yaml", text=given), text)

    def test_a_date_that_is_corrected_stays_in_its_source(self) -> None:
        algebraic = "algebraic:\n  white: [Kg6, Ra1]\n  black: [Kh8]\nstipulation: \"h#1\"\n"
        name = '  name: "Die Schwalbe"\n  problemid: 1234\n'
        before = f"---\nsource:\n{name}  date:\n    year: 1977\n    month: 8\n  volume: 12\n{algebraic}"
        given = run_here.companion("pops-import", text=before.encode()).output
        for date, below in (
            (b"7 September 1978", "    year: 1978\n    month: 9\n    day: 7\n"),
            (b"1978", "    year: 1978\n"),
        ):
            with self.subTest(date):
                text = exported("yaml", text=given.replace(b"August 1977", date))
                self.assertEqual(text, f"---\nsource:\n{name}  date:\n{below}  volume: 12\n{algebraic}")

    def test_options_that_an_import_left_out_are_options_again(self) -> None:
        yaml = b"""---
source:
  name: Die Schwalbe
  problemid: 1234
  volume: 12
  issue: 3a
algebraic: {white: [Kg6, Ra1], black: [Kh8]}
stipulation: "h#1"
options: [SetPlay, Try, Threat 1, Defence 2, Intelligent]
twins: {b: Move a1 b1}
"""
        given = run_here.companion("pops-import", text=yaml).output
        text = exported("yaml", text=given)
        (found,) = nodes(text)
        self.assertEqual(found["options"], ["SetPlay", "Try", "Threat 1", "Defence 2", "Intelligent"])
        self.assertIn("  problemid: 1234\n  volume: 12\n  issue: \"3a\"\n", text)
        self.assertNotIn("comments", found)
        popeye = exported("popeye", text=given)
        self.assertIn("\nOption SetPlay Try Threat 1 Defence 2 Intelligent\n", popeye)
        for form in (text, popeye):
            back = run_here.companion("pops-import", text=form.encode()).output
            self.assertEqual(same(back.decode()), same(given.decode()))
        self.assertIsNone(option_left_out("Try left out: nobody knows why"))

    def test_a_remark_takes_no_key_that_the_origin_has(self) -> None:
        given = f"BeginProblem\nOrigin Chess Monthly 1860\nRemark date: 1861\n{MEN}\nEndProblem\n"
        text = exported("yaml", text=given.encode())
        back = run_here.companion("pops-import", text=text.encode())
        self.assertEqual((back.output.decode(), back.error), (given, ""))

    def test_a_number_of_solutions_beside_a_text_in_its_key(self) -> None:
        yaml = (
            b"---\nalgebraic: {white: [Kg6, Ra1], black: [Kh8]}\nstipulation: 'h#1 2.1'\n"
            b"intended-solutions: two\n"
        )
        given = run_here.companion("pops-import", text=yaml).output
        self.assertIn(b"\nRemark solutions 2\n", given)
        text = exported("yaml", text=given)
        back = run_here.companion("pops-import", text=text.encode()).output
        self.assertEqual(same(back.decode()), same(given.decode()))

    def test_remarks_that_look_like_numbers_of_solutions(self) -> None:
        for remarks in (
            ["intended-solutions: 3"],
            ["Intended-Solutions: 3", "solutions 2"],
            ["intended-solutions: 2", "solutions 2"],
            ["intended-solutions: 2.1", "intended-solutions: 2.1", "solutions 2"],
            ["intended-solutions.1: 5"],
            ["intended-solutions.5:"],
            ["intended-solutions: two"],
            ["solutions 3", "solutions 2"],
        ):
            with self.subTest(remarks):
                lines = "".join(f"Remark {it}\n" for it in remarks)
                given = f"BeginProblem\n{lines}{MEN}\nEndProblem\n"
                text = exported("yaml", text=given.encode())
                back = run_here.companion("pops-import", text=text.encode())
                self.assertEqual((back.output.decode(), back.error), (given, ""))

    def test_awards_dates_and_origins(self) -> None:
        problem = "Pieces White Kg6 Ra1 Black Kh8\nStipulation h#1\n"
        for texts, wanted in (
            ("Origin Chess Monthly 1860", ['source: "Chess Monthly"', "date: 1860"]),
            ("Origin Die Schwalbe, August 1977", ['source: "Die Schwalbe"', 'date: "1977-08"']),
            ("Origin August 1977", ['date: "1977-08"']),
            ("Origin 1856, as published since", ['source: "1856, as published since"']),
            ("Origin A; B 1900", ['source: "A; B"', "date: 1900"]),
            ("Remark Award 2nd Prize", ['award: "2nd Prize"']),
            ("Remark distinction: 2nd Prize", ['distinction: "2nd Prize"']),
            ("Remark award: 1\nRemark award.name: 2", ["award: 1", "comments:", '  - "award.name: 2"']),
            ("Remark http://x.y: z", ["comments:", '  - "http://x.y: z"']),
        ):
            with self.subTest(texts):
                text = exported("yaml", text=f"BeginProblem\n{texts}\n{problem}EndProblem\n".encode())
                own = [line for line in text.split("\n")[1:-1] if line and "h#1" not in line]
                men = ("algebraic:", "  white: [Kg6, Ra1]", "  black: [Kh8]")
                self.assertEqual([line for line in own if line not in men], wanted)

    def test_a_stored_solution_gives_way_to_that_of_a_report(self) -> None:
        example = support.REPOSITORY / "examples" / "morphy_1856"
        text = Path(f"{example}.pop").read_text().replace("Option", "Remark solution: old\nOption")
        self.assertIn("solution: |\n  old\n", exported("yaml", text=text.encode()))
        told = exported("yaml", "--report", f"{example}.report", text=text.encode())
        self.assertNotIn("old", told)
        self.assertIn("solution: |\n  1.Ra1-a6 !\n", told)

    def test_solutions(self) -> None:
        example = support.REPOSITORY / "examples" / "morphy_1856"
        report = f"{example}.report"
        (document,) = documents(exported("yaml", f"{example}.pop", "--report", report))
        node = document.node()
        assert isinstance(node, dict)
        lines = str(node["solution"]).split("\n")
        self.assertEqual(lines[:3], ["1.Ra1-a6 !", "    1...b7*a6", "        2.b6-b7 #"])

    def test_solutions_that_may_not_be_all(self) -> None:
        """A limit is said as Popeye says it, and comes back from an import."""
        given = TWINS.replace(b"MaxSolutions 5", b"MaxSolutions 1").partition(b"Twin")[0] + b"EndProblem\n"
        given = given.replace(b"Black Kh8", b"Rb2 Black Kh8")
        with tempfile.TemporaryDirectory() as room:
            report = Path(room) / "limited.report"
            report.write_bytes(support.run([support.pops()], given).output)
            self.assertIn(b"solutions: 1, stopped\n", report.read_bytes())
            text = exported("yaml", "--report", str(report), text=given)
        (found,) = nodes(text)
        self.assertRegex(str(found["solution"]), r"#\n\nPartial solution\Z")
        back = run_here.companion("pops-import", text=text.encode())
        self.assertEqual(nodes(exported("yaml", text=back.output)), [found])

    def test_signs_of_moves(self) -> None:
        report = (
            b"problem 1\nh#1.5 Circe\nset\nsolutions: 0\nplay\n"
            b"1...f7-f8=Q+ 2.Kg8*h8[+wRa1] 0-0-0#\nsolutions: 1\n\n"
        )
        (item,) = read_report(iter(report.splitlines(True)))
        assert isinstance(item, SoundItem)
        self.assertEqual(solution_lines(item), ["1...f7-f8=Q + 2.Kg8*h8[+wRa1] 0-0-0 #"])

    def test_solutions_of_another_report(self) -> None:
        with tempfile.TemporaryDirectory() as room:
            report = Path(room) / "other.report"
            report.write_bytes(b"problem 1\n#1\nsound\n\n")
            words = ["--to", "yaml", "--report", str(report)]
            outcome = run_here.companion(
                "pops-export", *words, text=TWINS.split(b"Twin")[0] + b"End"
            )
        self.assertEqual((outcome.status, outcome.output), (3, b""))
        self.assertIn("problem 1 is #1 there, not h#1", outcome.error)

    def test_a_text_that_is_no_report(self) -> None:
        with tempfile.TemporaryDirectory() as room:
            report = Path(room) / "no.report"
            for text in (b"", b"problem 1\n#1\nsound", b"begin\n"):
                report.write_bytes(text)
                words = ["--to", "yaml", "--report", str(report)]
                outcome = run_here.companion("pops-export", *words, text=TWINS)
                with self.subTest(text):
                    self.assertEqual((outcome.status, outcome.output), (3, b""))
                    self.assertIn(str(report), outcome.error)


class Document(unittest.TestCase):
    def test_the_example(self) -> None:
        """It is the problem that the example of pops-import gives, with its report."""
        document = (support.REPOSITORY / "docs" / "COMPANIONS.md").read_text("utf-8")
        blocks = [
            re.findall(r"\n\n((?:    [^\n]*\n|\n(?=    ))+)", document.split(f"\n## {name}\n")[1])
            for name in ("pops-import", "pops-export")
        ]
        pair = re.sub("^    ", "", blocks[0][2], flags=re.M)
        wanted = re.sub("^    ", "", blocks[1][0], flags=re.M)
        with tempfile.TemporaryDirectory() as room:
            report = Path(room) / "pair.report"
            report.write_bytes(support.run([support.pops()], pair.encode()).output)
            text = exported("yaml", "--report", str(report), text=pair.encode())
        self.assertEqual(text, wanted)


class Command(unittest.TestCase):
    def test_options_with_values(self) -> None:
        text = "SetPlay MaxSolutions 5 EnPassant d6 NoCastling a1h8 NoBoard"
        wanted = ["SetPlay", "MaxSolutions 5", "EnPassant d6", "NoCastling a1h8", "NoBoard"]
        self.assertEqual(list(options_of(text)), wanted)

    def test_names_in_another_encoding(self) -> None:
        text = b"BeginProblem\nAuthor R\xe9ti\nPieces White Kg6 Ra1 Black Kg8\nStipulation #1\nEndProblem\n"
        outcome = run_here.companion("pops-export", "--to", "popeye", text=text)
        self.assertEqual(outcome.status, 0)
        self.assertIn("Author Réti\n", outcome.output.decode())
        self.assertIn("standard input, line 2: not in utf-8, read as latin-1", outcome.error)

    def test_problems_that_pops_cant_read_are_left_out(self) -> None:
        text = b"BeginProblem\nPieces White Kg6\nNextProblem\n" + TWINS.split(b"\n", 1)[1]
        outcome = run_here.companion("pops-export", "--to", "popeye", text=text)
        self.assertEqual(outcome.status, 1)
        self.assertIn("standard input, line 1, problem 1: left out: there is no", outcome.error)
        self.assertEqual(outcome.output.count(b"BeginProblem"), 1)

    def test_mistakes(self) -> None:
        cases: list[tuple[list[str], int]] = [
            ([], 2),
            (["--to", "pgn"], 2),
            (["--to", "popeye", "--report", "x"], 2),
            (["--to", "yaml", "nowhere.pop"], 3),
            (["--to", "yaml"], 3),
        ]
        for words, status in cases:
            with self.subTest(words):
                self.assertEqual(run_here.companion("pops-export", *words).status, status)
