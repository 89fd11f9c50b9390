"""JSON: nothing of a report is lost, and the objects are what the schema says."""

import importlib
import json
import subprocess
import sys
import tempfile
import unittest
from collections.abc import Callable
from pathlib import Path
from typing import Any

from pops_companions.report.reader import read_report
from pops_companions.show.as_json import item_object
from tests import rebuilt, support

# A test of what an object satisfies.
Test = Callable[[object], bool]


def objects(report: bytes, *words: str) -> list[dict[str, Any]]:
    outcome = support.companion("pops2json", *words, text=report)
    assert outcome.status == 0 and outcome.error == "", outcome
    lines = outcome.output.decode("utf-8").split("\n")
    assert lines.pop() == ""
    return [json.loads(line) for line in lines]


# A capture in passing that mates, in Circe.
MOVE = {
    "text": "e5*d6 ep.[+bPd7]#",
    "half": 1,
    "side": "white",
    "man": "pawn",
    "from": "e5",
    "to": "d6",
    "capture": True,
    "en_passant": True,
    "castling": None,
    "promotion": None,
    "rebirth": {"square": "d7", "colour": "black", "man": "pawn"},
    "mark": "mate",
}


class Reports(unittest.TestCase):
    def test_every_stored_report_can_be_written_anew(self) -> None:
        report = b"".join(path.read_bytes() for path in support.stored_reports())
        plain = support.plain_items(report)
        read = objects(report)
        self.assertEqual(len(read), len(plain))
        for one, item in zip(read, plain):
            self.assertEqual(rebuilt.report([one]), "\n".join(item.lines) + "\n\n")

    def test_a_line_for_each_problem(self) -> None:
        report = (support.ROWS / "three_problems.out").read_bytes()
        first, second, third = objects(report)
        self.assertEqual(
            first,
            {
                "number": 1,
                "sound": False,
                "fault": {"line": 2, "number": 5, "text": "square given twice"},
            },
        )
        self.assertEqual(second["sound"], True)
        self.assertEqual(third["fault"]["line"], 9)

    def test_an_array(self) -> None:
        report = (support.ROWS / "three_problems.out").read_bytes()
        outcome = support.companion("pops2json", "--array", text=report)
        self.assertEqual(json.loads(outcome.output), objects(report))

    def test_an_array_is_written_while_the_report_comes(self) -> None:
        """The first of two problems is in the output before the second is in the input."""
        words = [sys.executable, str(support.COMPANIONS / "pops2json"), "--array"]
        title = b"problem 1\ntitle: " + b"t" * 200 + b"\n#1\nsound\n\n"
        with subprocess.Popen(words, stdin=subprocess.PIPE, stdout=subprocess.PIPE) as run:
            assert run.stdin is not None and run.stdout is not None
            run.stdin.write(title * 40)
            run.stdin.flush()
            begun = run.stdout.read(1000)
            run.stdin.write(b"problem 2\n#1\nsound\n\n")
            run.stdin.close()
            read = json.loads(begun + run.stdout.read())
        self.assertEqual([one["number"] for one in read], [1] * 40 + [2])

    def test_an_object_in_full(self) -> None:
        report = (
            "problem 1\ntitle: Über\n8 .......k\n7 ........\n6 ......K.\n5 ...pP...\n4 ........\n"
            "3 .B......\n2 ........\n1 B.......\n  abcdefgh\n#1 Circe\nplay\n1.e5*d6 ep.[+bPd7]#\n"
            "solutions: 1, stopped\n\n"
        )
        (one,) = objects(report.encode())
        self.assertEqual(one["title"], "Über")
        self.assertIsNone(one["author"])
        self.assertEqual(one["board"]["ranks"][3], "...pP...")
        self.assertEqual(
            one["board"]["men"],
            [
                {"square": "h8", "colour": "black", "man": "king"},
                {"square": "g6", "colour": "white", "man": "king"},
                {"square": "d5", "colour": "black", "man": "pawn"},
                {"square": "e5", "colour": "white", "man": "pawn"},
                {"square": "b3", "colour": "white", "man": "bishop"},
                {"square": "a1", "colour": "white", "man": "bishop"},
            ],
        )
        stipulation = {"text": "#1", "play": "direct", "goal": "mate", "moves": 1, "half_moves": 1}
        self.assertEqual(one["stipulation"], stipulation)
        self.assertEqual(one["condition"], "Circe")
        self.assertEqual(
            one["phases"],
            [
                {
                    "phase": "play",
                    "possible": True,
                    "count": 1,
                    "stopped": True,
                    "solutions": [{"text": "1.e5*d6 ep.[+bPd7]#", "move": MOVE, "below": []}],
                }
            ],
        )

    def test_equal_moves_are_one_object(self) -> None:
        """A report of many lines would take many times its memory otherwise."""
        report = b"problem 1\nh#1\nplay\n1.Kh8-g8 Ra1-a8#\n1.Kh8-g8 Rb1-b8#\nsolutions: 2\n\n"
        (item,) = read_report([report])
        one, other = item_object(item, "utf-8")["phases"][0]["solutions"]
        self.assertIs(one["moves"][0], other["moves"][0])

    def test_a_checked_problem_has_no_phases(self) -> None:
        (one,) = objects(b"problem 1\n#1\nsound\n\n")
        self.assertIsNone(one["phases"])
        self.assertIsNone(one["board"])

    def test_bytes_that_are_no_text(self) -> None:
        report = b"problem 1\ntitle: R\xe9ti\n#1\nsound\n\n"
        outcome = support.companion("pops2json", text=report)
        self.assertEqual(outcome.status, 0)
        self.assertEqual(json.loads(outcome.output)["title"], "Réti")
        self.assertEqual(
            outcome.error,
            "pops2json: standard input: title or author of problem 1 isn't utf-8 and is read as"
            " latin-1; --encoding names another\n",
        )
        self.assertEqual(objects(report, "--encoding", "latin-1")[0]["title"], "Réti")


class Inputs(unittest.TestCase):
    def test_origins_and_the_names_of_faulty_problems(self) -> None:
        text = (
            b"BeginProblem\nTitle One\nOrigin Die Schwalbe 1977\nPieces White Kg6\nEndProblem\n"
        )
        report = b"problem 1\nline 5: fault 10: stipulation missing\n\n"
        report += b"problem 2\ntitle: Two\n#1\nsound\n\n"
        with tempfile.TemporaryDirectory() as room:
            given = Path(room) / "given.pop"
            given.write_bytes(text)
            faulty, sound = objects(report, "--input", str(given))
        names = (faulty["title"], faulty["author"], faulty["origin"])
        self.assertEqual(names, ("One", None, "Die Schwalbe 1977"))
        self.assertNotIn("origin", sound)
        self.assertEqual(set(faulty) - {"number", "sound", "fault"}, {"title", "author", "origin"})


def events(text: bytes, *words: str) -> list[dict[str, Any]]:
    return objects(text, "--events", *words)


class Events(unittest.TestCase):
    def test_an_object_for_each_event(self) -> None:
        report = (support.REPOSITORY / "examples/mate_in_one.report").read_bytes()
        problem, head, phase, node, total, end = events(report)
        self.assertEqual(problem, {"event": "problem", "problem": 1})
        self.assertEqual((head["event"], head["stipulation"]["text"]), ("head", "#1"))
        self.assertEqual(phase, {"event": "phase", "problem": 1, "phase": "play"})
        self.assertEqual((node["place"], node["level"], node["text"]), ("solution", 0, "1.Ra1-a8#"))
        self.assertEqual((total["count"], total["stopped"]), (1, False))
        self.assertEqual(end, {"event": "end", "problem": 1, "unfinished": None})

    def test_they_come_as_the_report_comes(self) -> None:
        """The event of each line is there before the next line is written."""
        words = [sys.executable, str(support.COMPANIONS / "pops2json"), "--events"]
        with subprocess.Popen(words, stdin=subprocess.PIPE, stdout=subprocess.PIPE) as run:
            assert run.stdin is not None and run.stdout is not None
            for line, name in (
                (b"problem 1\n", "problem"),
                (b"#1\n", "head"),
                (b"play\n", "phase"),
                (b"1.Ra1-a8#\n", "node"),
                (b"solutions: 1\n", "total"),
                (b"\n", "end"),
            ):
                run.stdin.write(line)
                run.stdin.flush()
                self.assertEqual(json.loads(run.stdout.readline())["event"], name)
            run.stdin.close()
            self.assertEqual(run.stdout.read(), b"")

    def test_a_killed_report(self) -> None:
        report = b"problem 7\nh#1\nplay\n1.Kh8-g8 Ra1-a8#\n1.Kh8-"
        *_, line, end = events(report, "--unfinished")
        self.assertEqual((line["event"], line["text"]), ("line", "1.Kh8-g8 Ra1-a8#"))
        self.assertEqual(
            end, {"event": "end", "problem": 7, "unfinished": "the report ends here"}
        )
        outcome = support.companion("pops2json", "--events", text=report)
        self.assertEqual(outcome.status, 3)
        self.assertEqual(
            outcome.error,
            "pops2json: standard input is no report of pops:"
            " line 5: the report is cut inside this line\n",
        )
        self.assertEqual(len(outcome.output.splitlines()), 4)


CUT = b"""problem 1
title: Begun
#2
set
1...Kg8-h8
  2.Ra1-h1#
solutions: 1
play
1.Kg6-f6
"""


class Unfinished(unittest.TestCase):
    def test_a_killed_report(self) -> None:
        (one,) = objects(CUT, "--unfinished")
        self.assertEqual((one["sound"], one["unfinished"]), (True, "the report ends here"))
        set_play, play = one["phases"]
        self.assertEqual((set_play["possible"], set_play["count"]), (True, 1))
        self.assertEqual((play["possible"], play["count"], play["stopped"]), (True, None, False))
        self.assertEqual([it["text"] for it in play["solutions"]], ["1.Kg6-f6"])

    def test_a_phase_that_is_not_possible(self) -> None:
        report = b"problem 1\n#1\nset\nnot possible\nplay\n"
        (one,) = objects(report, "--unfinished")
        self.assertEqual([it["possible"] for it in one["phases"]], [False, True])

    def test_a_problem_without_a_head(self) -> None:
        (one,) = objects(b"problem 3\ntitle: Begun\n", "--unfinished")
        self.assertEqual(one, {"number": 3, "unfinished": "the report ends here"})

    def test_what_pops_many_kept_is_added(self) -> None:
        with tempfile.TemporaryDirectory() as room:
            report = Path(room) / "some.report"
            report.write_bytes(b"problem 1\n#1\nsound\n\n")
            mark = b"unfinished: stopped after 60 s (some.pop, line 5)\n\n"
            Path(f"{report}.unfinished").write_bytes(b"problem 2\nh#1\nplay\n" + mark)
            outcome = support.companion("pops2json", "--unfinished", str(report))
        first, second = map(json.loads, outcome.output.splitlines())
        self.assertNotIn("unfinished", first)
        self.assertEqual(second["unfinished"], "stopped after 60 s (some.pop, line 5)")


class Tries(unittest.TestCase):
    TEXT = (support.REPOSITORY / "tests/tries/morphy_1856.tries").read_bytes()

    def test_keys_and_tries(self) -> None:
        (one,) = objects(self.TEXT, "--tries")
        lines = self.TEXT.decode().split("\n")
        self.assertEqual([it["text"] for it in one["keys"]], [it for it in lines if it[:1] == "1" and it[-1] == "!"])
        self.assertEqual([it["text"] for it in one["tries"]], [it for it in lines if it[:1] == "1" and it[-1] == "?"])
        self.assertEqual((one["count"], one["stopped"], one["set"]), (1, False, None))
        refutations = [node["text"] for it in one["tries"] for node in it["refutations"]]
        self.assertEqual(refutations, [it.strip() for it in lines if it.startswith("    ") and it.endswith("!")])

    def test_a_text_that_is_cut(self) -> None:
        cut = self.TEXT[: self.TEXT.index(b"\ntries\n") + 7]
        (one,) = objects(cut, "--tries", "--unfinished")
        self.assertEqual((one["tries"], one["unfinished"]), ([], "the report ends here"))
        outcome = support.companion("pops2json", "--tries", text=cut)
        self.assertEqual(outcome.status, 3)
        self.assertIn("standard input is no text of pops-tries: line ", outcome.error)

    def test_help_play_has_none(self) -> None:
        (one,) = objects(b"problem 1\nh#1\nno tries in help play\n\n", "--tries")
        self.assertEqual((one["keys"], one["count"]), ([], None))


def printed_schema(*words: str) -> dict[str, Any]:
    """The schema that pops2json prints."""
    outcome = support.companion("pops2json", "--schema", *words)
    assert (outcome.status, outcome.error) == (0, "")
    printed: dict[str, Any] = json.loads(outcome.output)
    return printed


def stored_schema() -> dict[str, Any]:
    """The schema of the objects of a report's items."""
    path = support.PACKAGE / "show" / "item.schema.json"
    stored: dict[str, Any] = json.loads(path.read_text("utf-8"))
    return stored


class Schema(unittest.TestCase):
    def check(
        self, schema: dict[str, Any], found: list[dict[str, Any]], unused: frozenset[str] = frozenset()
    ) -> None:
        """The objects are what the schema says, and each of its definitions but these has one."""
        self.assertTrue(all(map(self.validity(schema), found)))
        for name in set(schema["$defs"]) - unused:
            with self.subTest(name):
                without = {**schema, "$defs": {**schema["$defs"], name: False}}
                self.assertFalse(all(map(self.validity(without), found)), "no object has one")

    @support.needs_module("jsonschema")
    def test_every_stored_report_has_the_stored_schema(self) -> None:
        report = b"".join(path.read_bytes() for path in support.stored_reports())
        begun = [*objects(CUT, "--unfinished"), *objects(CUT[:20], "--unfinished")]
        self.check(stored_schema(), objects(report) + begun)

    @support.needs_module("jsonschema")
    def test_tries_and_events_have_their_schemas(self) -> None:
        report = b"".join(path.read_bytes() for path in support.stored_reports())
        tries = b"".join(
            path.with_suffix(".tries").read_bytes() for path in support.tries_inputs()
        )
        faulty = b"problem 1\nline 1: fault 1: BeginProblem expected\n\n"
        attempt = b"1.Kb6-a6?\n  but\n    stalemate\n"
        stalemate = b"problem 1\n#1\nplay\nsolutions: 0\ntries\n%btries: 1\n\n" % attempt
        texts = tries + faulty + stalemate + b"problem 1\nh#1\nno tries in help play\n\nproblem 2\n"
        found = objects(texts, "--tries", "--unfinished")
        # (tries have no lines of help play)
        self.check(printed_schema("--tries"), found, frozenset({"line"}))
        found = events(report) + events(texts, "--tries", "--unfinished")
        self.check(printed_schema("--events"), found)

    def test_they_have_names_and_versions(self) -> None:
        names = set()
        for words in ((), ("--tries",), ("--events",)):
            schema = printed_schema(*words)
            names.add(schema["$id"])
            self.assertRegex(schema["version"], r"^1\.\d+$")
        self.assertEqual(len(names), 3)

    def validity(self, schema: dict[str, Any]) -> Test:
        test: Test = importlib.import_module("jsonschema").Draft202012Validator(schema).is_valid
        return test

    @support.needs_module("jsonschema")
    def test_other_objects_have_not(self) -> None:
        is_valid = self.validity(stored_schema())
        report = (support.REPOSITORY / "examples/mate_in_one.report").read_bytes()
        (one,) = objects(report)
        self.assertTrue(is_valid(one))
        changes: list[dict[str, object]] = [
            {"number": 0}, {"number": True}, {"sound": False}, {"title": 1}, {"board": {}},
            {"condition": "Circ"}, {"phases": []}, {"more": 1}, {"stipulation": "#1"},
        ]  # fmt: skip
        for change in changes:
            with self.subTest(change):
                self.assertFalse(is_valid({**one, **change}))
        self.assertFalse(is_valid({"number": 1, "sound": False}))
        fault = {"line": 1, "number": 2, "text": "a"}
        faulty = {"number": 1, "sound": False, "fault": fault, "title": None, "origin": "A"}
        self.assertTrue(is_valid(faulty))

    def test_the_schema_is_printed(self) -> None:
        outcome = support.companion("pops2json", "--schema")
        self.assertEqual((outcome.status, outcome.error), (0, ""))
        self.assertEqual(json.loads(outcome.output), stored_schema())
        self.assertEqual(support.companion("pops2json", "--schema", "x.report").status, 2)


class Command(unittest.TestCase):
    def test_mistakes_have_a_line_and_a_status(self) -> None:
        cut = support.companion("pops2json", text=b"problem 1\n#1\nsound\n\nproblem 2\n")
        self.assertEqual(cut.status, 3)
        self.assertEqual(
            cut.error,
            "pops2json: standard input is no report of pops:"
            " line 6: the report is cut inside a problem\n",
        )
        for words in ((), ("--array",)):
            empty = support.companion("pops2json", *words)
            told = "pops2json: standard input is empty: no report of pops\n"
            self.assertEqual(empty, (3, b"", told))
        self.assertEqual(support.companion("pops2json", "nowhere.report").status, 3)
        self.assertEqual(support.companion("pops2json", "--fast").status, 2)
        self.assertEqual(support.companion("pops2json", "--encoding", "no-such").status, 2)

    def test_help(self) -> None:
        outcome = support.companion("pops2json", "--help")
        self.assertEqual(outcome.status, 0)
        self.assertIn(b"examples:", outcome.output)
