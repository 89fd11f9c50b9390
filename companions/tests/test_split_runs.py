"""pops-many --split on this machine: parts that fail, limits, journals, ends and progress."""

import re
import signal
import sys
import unittest

from pops_companions.many.identity import Known
from pops_companions.many.journal import Journal, Origin, fingerprint
from pops_companions.many.tasks import UNFINISHED, Result, Source, tasks_of
from tests import run_here, support
from tests.six_problems import SIX, wait_for
from tests.split_room import SplitRoom, without_progress


class Runs(SplitRoom):
    def test_all_parts(self) -> None:
        self.assertEqual(self.split(self.pops_part(), "--jobs", "3"), (0, b"", ""))
        self.assertEqual(self.report.read_bytes(), self.wanted)
        self.assertGreater(len(set(self.parts())), 20)
        self.assertEqual(self.files(), ["six.report"])

    def test_a_free_run_takes_parts_of_another(self) -> None:
        """Each part lasts longer than one run takes to see what another has done."""
        # (on a busy machine it takes longer to see it)
        for seconds in (0.2, 2, 20):
            program = self.pops_part("problem-*", f"sleep {seconds}")
            self.assertEqual(self.split(program, "--jobs", "4"), (0, b"", ""))
            self.assertEqual(self.report.read_bytes(), self.wanted)
            runs, asked = self.runs_on_parts(), self.parts()
            self.assertEqual(len(set(asked)), 26)
            if len(runs) > 4 and len(asked) < 26 + len(runs):
                break
            self.forget()
        self.assertGreater(len(runs), 4)
        # A run that is stopped after its last part may have begun the next one.
        self.assertLess(len(asked), 26 + len(runs))

    def test_a_run_goes_through_several_parts(self) -> None:
        self.assertEqual(self.split(self.pops_part(), "--jobs", "1"), (0, b"", ""))
        self.assertEqual(self.report.read_bytes(), self.wanted)
        runs = self.runs_on_parts()
        self.assertEqual(runs, ["set-1..19", "play-1..7"])
        self.assertEqual(len(self.parts()), 26)

    def test_a_run_goes_on_behind_a_part_that_fails(self) -> None:
        outcome = self.split(self.pops_part("problem-set-3", "exit 4"), "--jobs", "1")
        self.assertEqual(outcome.status, 6)
        self.assertEqual(self.runs_on_parts()[:3], ["set-1..19", "set-3..19", "set-4..19"])
        self.assertIn("unfinished: stopped with 25 of 26 parts done", self.rest.read_text())

    def test_parts_that_came_are_kept_when_the_rest_of_a_run_is_cut_off(self) -> None:
        then = f"if mkdir {self.room}/failed; then printf 1.x; kill -9 $$; fi 2> /dev/null"
        outcome = self.split(self.pops_part("problem-set-3", then), "--jobs", "1")
        self.assertEqual(outcome.status, 0)
        self.assertIn("part 3 of the set of problem 1", outcome.error)
        self.assertEqual(self.report.read_bytes(), self.wanted)
        self.assertEqual([self.parts().count(f"set-{number}") for number in (2, 3)], [1, 2])

    def test_quick_problems_stay_whole(self) -> None:
        text = SIX.replace(b"EndProblem\n", b"NextProblem\n")
        self.input.write_bytes(text + self.input.read_bytes()[len(b"BeginProblem") :])
        wanted = support.run([support.pops(), str(self.input)]).output
        self.assertEqual(self.split_when_shown(self.pops_part()), (0, b"", ""))
        self.assertEqual(self.report.read_bytes(), wanted)
        self.assertEqual(self.lists(), ["problem"])

    def test_several_problems_and_files(self) -> None:
        """Two long problems in a FILE and a third one in another, each FILE with its report."""
        problem = self.input.read_bytes()
        body = problem[len(b"BeginProblem\n") : -len(b"EndProblem\n")]
        two = self.room / "two.pop"
        two.write_bytes(b"BeginProblem\n" + body + b"NextProblem\nx\nNextProblem\n" + body + b"End")
        folder = self.room / "reports"
        words = self.words_of_split(self.pops_part(), "--each")
        words[words.index("-o") + 1] = str(folder)
        words.insert(words.index(str(self.input)), str(two))
        outcome = without_progress(support.companion("pops-many", *words))
        self.assertEqual(outcome, (1, b"", ""))
        for path in (self.input, two):
            wanted = support.run([support.pops(), str(path)]).output
            self.assertEqual((folder / f"{path.stem}.report").read_bytes(), wanted)
        self.assertEqual(self.lists(), ["problem"] * 3)
        self.assertEqual(self.files(), ["reports", "two.pop"])

    def test_a_part_that_fails_once_is_told_and_tried_again(self) -> None:
        once = f"if [ ! -e {self.room}/failed ]; then touch {self.room}/failed; exit 4; fi"
        # (one run at a time: another could take part 2 over, and the first one begin it all the same)
        outcome = self.split(self.pops_part("problem-play-2", once), "--jobs", "1")
        self.assertEqual((outcome.status, outcome.output), (0, b""))
        self.assertEqual(
            outcome.error,
            f"pops-many: part 2 of the play of problem 1 ({self.input}, line 1):"
            " pops-part ended with status 4; tried again\n",
        )
        self.assertEqual(self.report.read_bytes(), self.wanted)
        self.assertEqual(self.parts().count("play-2"), 2)

    def test_a_part_that_fails_twice_leaves_the_others_kept(self) -> None:
        outcome = self.split(self.pops_part("problem-play-2", "kill -9 $$"))
        self.assertEqual(outcome.status, 6)
        where = f"problem 1 ({self.input}, line 1)"
        ended = "pops-part was ended by signal 9"
        number = len(set(self.parts()))
        self.assertEqual(
            outcome.error,
            f"pops-many: part 2 of the play of {where}: {ended}; tried again\n"
            f"pops-many: {where}: part 2 of the play: {ended}\n"
            f"pops-many: 1 of 1 problems aren't done: what was found of them is in {self.rest}\n"
            f"pops-many: 0 of 1 problems are done and kept in {self.journal}:"
            f" go on with --resume --journal {self.journal}\n",
        )
        mark = f"unfinished: stopped with {number - 1} of {number} parts done"
        self.assertIn(mark, self.rest.read_text())
        before = len(self.parts())
        self.assertEqual(self.split(self.pops_part(), "--resume"), (0, b"", ""))
        self.assertEqual(self.parts()[before:], ["play-2"])
        self.assertEqual(self.report.read_bytes(), self.wanted)
        self.assertEqual(self.files(), ["six.report"])

    def test_a_part_without_its_total_is_no_part(self) -> None:
        for said in ("", "1.Kh8-g8 Kg6-f6", "solutions: 1", "1.x\\nsolutions: 2"):
            with self.subTest(said):
                then = f"printf '{said}\\n'; exit 0"
                self.assertEqual(self.split(self.pops_part("problem-play-2", then)).status, 6)
                self.assertFalse(self.report.exists())
                self.forget()

    def test_parts_that_contradict_pops_are_told(self) -> None:
        then = "echo 'solutions: 0'; exit 0"
        outcome = self.split_when_shown(self.pops_part("problem-*", then))
        self.assertEqual(outcome.status, 6)
        self.assertIn("its parts don't make the report that pops begins\n", outcome.error)
        self.assertFalse(self.report.exists())

    def test_a_list_that_fails_is_told(self) -> None:
        program = self.write_program("pops_part", "#!/bin/sh\necho no >&2; exit 4\n")
        outcome = self.split(program)
        self.assertEqual(outcome.status, 6)
        self.assertIn("line 1): pops-part ended with status 4: no\n", outcome.error)


class Limits(SplitRoom):
    def setUp(self) -> None:
        super().setUp()
        self.pose(b" MaxSolutions 1")

    def test_no_more_parts_are_begun(self) -> None:
        self.assertEqual(self.split(self.pops_part(), "--jobs", "1"), (0, b"", ""))
        self.assertEqual(self.report.read_bytes(), self.wanted)
        self.assertEqual([part for part in self.parts() if "play" in part], ["play-1"])

    def test_parts_that_cannot_matter_are_stopped(self) -> None:
        third = f"until grep -q play-3 {self.room}/parts; do sleep 0.1; done"
        then = f"case $part in play-1) {third} ;; *) echo 1.x; sleep 6000 & sleep 6000 ;; esac"
        program = self.pops_part("problem-play-*", then)
        self.assertEqual(self.split(program, "--jobs", "30"), (0, b"", ""))
        self.assertEqual(self.report.read_bytes(), self.wanted)

    def test_parts_that_matter_still_go_on(self) -> None:
        """The second part has the first solution, long before the first one says that it has it."""
        kept = f"until grep -q '^part 0 play 2 ' {self.journal}; do sleep 0.1; done"
        program = self.pops_part("problem-play-1", kept)
        self.assertEqual(self.split(program, "--jobs", "30"), (0, b"", ""))
        self.assertEqual(self.report.read_bytes(), self.wanted)
        self.assertEqual(self.parts().count("play-1"), 1)


class Ends(SplitRoom):
    def stops_at_the_fifth(self) -> str:
        """A program of parts that shows a line of the fifth part of the play, and no end."""
        then = f"echo 1.Kh8-g8; : > '{self.room}/shown'; exec sleep 6000"
        return self.pops_part("problem-play-5", then)

    def wait_for_the_fifth(self) -> None:
        """Waits until the parts before it are kept, and its line is written."""
        shown = self.room / "shown"
        wait_for(shown.exists)
        wait_for(lambda: b"\npart 0 play 4 " in self.journal.read_bytes())
        shown.unlink()

    def interrupted(self, sign: int, *more: str) -> tuple[int, str]:
        """A run that waits at the fifth part of the play and gets a signal there."""
        run = self.started(*self.words_of_split(self.stops_at_the_fifth(), "--jobs", "1", *more))
        self.wait_for_the_fifth()
        run.send_signal(sign)
        error = run.communicate(timeout=support.PATIENCE)[1].decode()
        return run.returncode, error

    def is_what_was_found(self, lines: bytes) -> None:
        """The lines are pops' own, but for that of the part at hand and the mark."""
        self.assertRegex(
            lines.decode(), r"unfinished: stopped with 23 of 26 parts done \(.*\)\n\n$"
        )
        known = lines.splitlines(keepends=True)[:-2]
        self.assertEqual(known.count(b"1.Kh8-g8\n"), 1)
        known.remove(b"1.Kh8-g8\n")
        rest = iter(self.wanted.splitlines(keepends=True))
        self.assertTrue(all(line in rest for line in known))
        self.assertGreater(len(known), 100)

    def test_what_was_found_is_kept_and_resumed(self) -> None:
        for sign in (signal.SIGINT, signal.SIGTERM, signal.SIGKILL):
            with self.subTest(sign):
                status, error = self.interrupted(sign)
                if sign == signal.SIGKILL:
                    self.assertEqual(status, -sign)
                else:
                    self.assertEqual(status, 6)
                    self.assertIn("pops-many: stopped\n", error)
                    self.assertIn(f"what was found of them is in {self.rest}\n", error)
                    self.is_what_was_found(self.rest.read_bytes())
                before = self.parts()
                self.assertEqual(self.split(self.pops_part(), "--resume"), (0, b"", ""))
                self.assertEqual(self.report.read_bytes(), self.wanted)
                again = set(before) & set(self.parts()[len(before) :])
                self.assertEqual(again, {"play-5"})
                self.assertEqual(self.files(), ["six.report"])
                self.forget()

    def test_a_faulty_problem_that_took_long_is_settled_once(self) -> None:
        """A run was stopped between the limit of a faulty problem and its check."""
        faulty = b"NextProblem\nPieces White Kg6 R Black Kg8\nStipulation #1\nEndProblem\n"
        text = self.input.read_bytes().replace(b"EndProblem\n", faulty)
        self.input.write_bytes(text)
        wanted = support.run([support.pops(), str(self.input)]).output
        source = Source(str(self.input), text)
        pops = Known(str(self.room / "stand_in")).identity.encode("ascii")
        journal = Journal(str(self.journal), Origin(fingerprint([source], []), pops), False, 2, None)
        for task in tasks_of([source]):
            journal.keep(Result(task, UNFINISHED, b"", 1000.0))
        journal.close(kept=True)
        self.assertEqual(self.split(self.pops_part(), "--resume"), (1, b"", ""))
        self.assertEqual(self.report.read_bytes(), wanted)
        self.assertEqual(self.files(), ["six.report"])

    def test_a_journal_of_another_pops_part_is_refused(self) -> None:
        self.interrupted(signal.SIGTERM)
        journal, program = self.journal.read_bytes(), self.pops_part()
        other = self.write_program("other", f"#!/bin/sh\n. '{program}.sh'\n\n")
        said = "is of another pops-part: name that one with --pops-part, or remove it"
        refused = (2, b"", f"pops-many: {self.journal} {said}\n")
        self.assertEqual(self.split(other, "--resume"), refused)
        self.assertEqual(self.journal.read_bytes(), journal)
        self.assertEqual(self.split(program, "--resume"), (0, b"", ""))
        self.assertEqual(self.report.read_bytes(), self.wanted)

    def test_without_a_report_it_is_kept_beside_the_journal(self) -> None:
        program = self.stops_at_the_fifth()
        words = self.words_of_split(program, "--jobs", "1")
        place = words.index("-o")
        words[place : place + 2] = ["--journal", str(self.journal)]
        run = self.started(*words)
        self.wait_for_the_fifth()
        run.send_signal(signal.SIGTERM)
        error = run.communicate(timeout=support.PATIENCE)[1].decode()
        rest = self.room / "six.report.journal.unfinished"
        self.assertIn(f"what was found of them is in {rest}\n", error)
        self.is_what_was_found(rest.read_bytes())
        words[words.index(program)] = self.pops_part()
        outcome = without_progress(support.companion("pops-many", *words, "--resume"))
        self.assertEqual(outcome, (0, self.wanted, ""))
        self.assertEqual(self.files(), [])

    def test_resuming_without_split_and_with_another_depth(self) -> None:
        for first, then in (("1", "2"), ("2", "1")):
            with self.subTest(first):
                self.interrupted(signal.SIGTERM, "--split-depth", first)
                before = len(self.parts())
                outcome = self.split(self.pops_part(), "--resume", "--split-depth", then)
                self.assertEqual(outcome, (0, b"", ""))
                self.assertEqual(self.report.read_bytes(), self.wanted)
                self.assertIn("play-1", self.parts()[before:])
                self.forget()
        self.interrupted(signal.SIGTERM)
        words = ["--pops", self.stand_in(":"), "--resume", "-o", str(self.report), str(self.input)]
        self.assertEqual(support.companion("pops-many", *words), (0, b"", ""))
        self.assertEqual(self.report.read_bytes(), self.wanted)
        self.assertEqual(self.files(), ["six.report"])

    def test_a_terminal_shows_the_parts(self) -> None:
        shown = re.escape(f"problem 1 ({self.input}, line 1)")
        for columns, name in ((0, shown), (400, shown), (60, "problem 1")):
            with self.subTest(columns):
                said = self.on_terminal(columns)
                self.assertRegex(said, rf"\rpops-many: {name}: 0 of 26 first moves, 0 solutions")
                self.assertRegex(
                    said,
                    rf"\rpops-many: {name}: \d+ of 26 first moves, \d+ solutions?, about \d+:\d\d left",
                )
                self.assertTrue(said.rstrip().endswith("\rpops-many: 1 of 1 problems"), said)
                self.forget()

    def on_terminal(self, columns: int) -> str:
        """What a run writes on a terminal of that width."""
        words: list[str] = [sys.executable, str(support.COMPANIONS / "pops-many")]
        # The eighth part of the set play waits until a time that is left is shown.
        seen = self.room / "shown-left"
        waits = f"until [ -e {seen} ]; do sleep 0.1; done"
        words += self.words_of_split(self.pops_part("problem-set-8", waits), "--jobs", "1")

        def look(said: str) -> None:
            if re.search(r" about \d+:\d\d left", said):
                seen.touch()

        status, said = support.said_on_terminal(words, columns=columns, look=look)
        self.assertEqual(status, 0)
        seen.unlink()
        return said


class Command(unittest.TestCase):
    def test_mistakes(self) -> None:
        mistakes = [
            ["--split-after", "1"],
            ["--split-depth", "2"],
            ["--pops-part", "x"],
            ["--remote-pops-part", "x"],
            ["--split", "--split-after", "0"],
            ["--split", "--split-after", "nan"],
            ["--split", "--split-depth", "0"],
            ["--split", "--split-depth", "5"],
            ["--split", "--split-depth", "two"],
            ["--split", "--check"],
            ["--split", "--seconds", "1", "-o", "report"],
        ]
        for words in mistakes:
            with self.subTest(words):
                self.assertEqual(run_here.companion("pops-many", *words).status, 2)
        words = ["--pops", support.pops(), "--split", "--pops-part", "nowhere/pops-part"]
        self.assertEqual(
            support.companion("pops-many", *words),
            (3, b"", "pops-many: there is no program nowhere/pops-part\n"),
        )

    def test_an_empty_input_and_a_pipe(self) -> None:
        # (also on a busy machine no problem takes so long that it is cut)
        words = ["--pops", support.pops(), "--split", "--split-after", "3600"]
        words += ["--pops-part", "/bin/true"]
        for text in (b"", b"BeginProblem Pieces White Kg6 Ra1 Black Kg8 Stipulation #1 EndProblem"):
            wanted = support.run([support.pops()], text)
            with self.subTest(text):
                self.assertEqual(support.companion("pops-many", *words, text=text), wanted)
