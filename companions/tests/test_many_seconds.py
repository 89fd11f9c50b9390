"""pops-many --seconds: problems that take longer, what is kept of them, and going on with them."""

import os
import subprocess
from pathlib import Path

from pops_companions.many.tasks import whole_lines
from tests import run_here, support
from tests.shown_limit import limit_when_shown, shown
from tests.six_problems import SixProblems

# Two lines, the beginning of a third, and no end.
TWO_LINES = "printf 'problem 1\\nline one\\nline two\\nline th'"
NO_LINE = ":"


class Seconds(SixProblems):
    def setUp(self) -> None:
        super().setUp()
        items = self.wanted.split(b"\n\n")
        self.others = b"\n\n".join(items[:3] + items[4:])
        self.rest = self.room / "six.report.unfinished"

    def slow(self, shows: str = TWO_LINES) -> str:
        """A program that shows this on the fourth problem, and has no end."""
        return self.stand_in(self.until_stopped(shows))

    def until_stopped(self, shows: str) -> str:
        return f"{shows}; {shown(self.room)}; exec sleep 6000"

    def many_here(self, *words: str) -> support.Outcome:
        with limit_when_shown(self.room):
            return run_here.companion("pops-many", *words)

    def many(self, pops: str, *more: str) -> support.Outcome:
        return self.many_here(*self.words(pops, *more))

    def marked(self, lines: bytes, seconds: bytes) -> bytes:
        where = str(self.input).encode() + b", line 13"
        return (
            b"problem 4\n" + lines + b"unfinished: stopped after %s s (%s)\n\n"
        ) % (seconds, where)

    def test_a_problem_that_takes_longer_is_kept_beside_and_taken_up_alone(self) -> None:
        outcome = self.many(self.slow(), "--seconds", "3")
        self.assertEqual((outcome.status, outcome.output), (6, b""))
        self.assertEqual(
            outcome.error,
            f"pops-many: 1 of 6 problems took longer: what was found of them is in {self.rest}\n"
            f"pops-many: 5 of 6 problems are done and kept in {self.journal}:"
            f" go on with --resume --journal {self.journal}, and more --seconds or none\n",
        )
        self.assertEqual(self.runs(), 6)
        self.assertEqual(self.report.read_bytes(), self.others)
        self.assertEqual(self.rest.read_bytes(), self.marked(b"line one\nline two\n", b"3"))

        again = self.many(self.slow(NO_LINE), "--resume", "--seconds", "4")
        self.assertEqual(again.status, 6)
        self.assertEqual(self.runs(), 7)
        self.assertEqual(self.report.read_bytes(), self.others)
        self.assertEqual(self.rest.read_bytes(), self.marked(b"", b"4"))

        no_longer = self.many(self.stand_in(":"), "--resume", "--seconds", "4")
        self.assertEqual((no_longer.status, no_longer.error), (6, again.error))
        self.assertEqual(self.runs(), 7)

        self.assertEqual(self.many(self.stand_in(":"), "--resume", "--seconds", "30")[0], 0)
        self.assertEqual(self.runs(), 8)
        self.assertEqual(self.report.read_bytes(), self.wanted)
        self.assertEqual(self.files(), ["six.report"])

    def test_no_limit_takes_them_up_too(self) -> None:
        self.many(self.slow(), "--seconds", "3")
        self.assertEqual(self.many(self.stand_in(":"), "--resume"), (0, b"", ""))
        self.assertEqual(self.runs(), 7)
        self.assertEqual(self.report.read_bytes(), self.wanted)
        self.assertEqual(self.files(), ["six.report"])

    def test_a_run_in_time_leaves_no_second_file(self) -> None:
        long = self.marked(b"".join(b"line %d\n" % number for number in range(3000)), b"3")
        for before in (self.marked(b"", b"3"), long, long.replace(b"six.pop", b"six\n.pop"), b""):
            self.rest.write_bytes(before)
            self.assertEqual(self.many(support.pops(), "--seconds", "30"), (0, b"", ""))
            self.assertEqual(self.report.read_bytes(), self.wanted)
            self.assertEqual(self.files(), ["six.report"])

    def test_a_foreign_second_file_is_refused_and_stays(self) -> None:
        pops = self.stand_in(":")
        own = self.marked(b"line one\n", b"3")
        # (any program will do: nothing is run)
        split = ["--split", "--pops-part", pops]
        journal = ["--journal", str(self.journal), str(self.input)]
        cases = [
            ("six.report.unfinished", ["-o", str(self.report), "--seconds", "30", str(self.input)]),
            ("six.report.unfinished", ["-o", str(self.report), *split, str(self.input)]),
            ("six.report.unfinished", ["--each", "--seconds", "30", str(self.input)]),
            ("mine", ["--unfinished", str(self.room / "mine"), "--seconds", "30", *journal]),
            ("six.report.journal.unfinished", [*split, *journal]),
        ]
        for text in (b"my notes\n", own + b"my notes\n", own[:-1], self.wanted):
            for name, words in cases:
                with self.subTest(words, text=text):
                    (self.room / name).write_bytes(text)
                    self.refuses(pops, words, self.room / name)
                    self.assertEqual((self.room / name).read_bytes(), text)
                    (self.room / name).unlink()

    def test_a_link_or_pipe_by_the_second_files_name_is_refused_and_stays(self) -> None:
        target = self.room / "target"
        target.write_bytes(self.marked(b"", b"3"))
        words = ["-o", str(self.report), "--seconds", "30", str(self.input)]
        self.rest.symlink_to(target)
        self.refuses(self.stand_in(":"), words, self.rest)
        self.assertTrue(self.rest.is_symlink() and target.exists())
        self.rest.unlink()
        os.mkfifo(self.rest)
        self.refuses(self.stand_in(":"), words, self.rest)
        self.assertTrue(self.rest.is_fifo())

    def refuses(self, pops: str, words: list[str], second: Path) -> None:
        """A run is refused because of its second file, before anything is run or written."""
        before = self.files()
        outcome = run_here.companion("pops-many", "--pops", pops, "--jobs", "1", *words)
        said = f"pops-many: {second} isn't a file that pops-many wrote: remove or rename it\n"
        self.assertEqual(outcome, (2, b"", said))
        self.assertEqual(self.files(), before)
        self.assertFalse((self.room / "runs").exists())

    def test_a_foreign_file_that_comes_meanwhile_stays(self) -> None:
        comes = f"echo mine > '{self.rest}'"
        self.assertEqual(self.many(self.stand_in(comes), "--seconds", "30"), (0, b"", ""))
        self.assertEqual(self.rest.read_bytes(), b"mine\n")
        self.assertEqual(self.files(), ["six.report", "six.report.unfinished"])
        self.rest.unlink()
        outcome = self.many(self.slow(f"{comes}; {TWO_LINES}"), "--seconds", "3")
        self.assertEqual(outcome.status, 6)
        self.assertIn(f"cannot write: {self.rest} isn't a file that pops-many wrote", outcome.error)
        self.assertEqual(self.rest.read_bytes(), b"mine\n")
        self.rest.unlink()
        self.assertEqual(self.many(self.stand_in(":"), "--resume"), (0, b"", ""))
        self.assertEqual(self.report.read_bytes(), self.wanted)
        self.assertEqual(self.files(), ["six.report"])

    def test_a_run_that_fails_keeps_the_lines_all_the_same(self) -> None:
        both = f"{self.until_stopped(TWO_LINES)} ;; *'number 2'*) kill -9 $$"
        outcome = self.many(self.stand_in(both), "--seconds", "3")
        self.assertEqual(outcome.status, 6)
        self.assertIn("problem 2 ", outcome.error)
        self.assertIn("4 of 6 problems are done", outcome.error)
        self.assertEqual(self.files(), ["six.report.journal", "six.report.unfinished"])
        self.assertEqual(self.rest.read_bytes(), self.marked(b"line one\nline two\n", b"3"))
        # The fourth had its time: only the second runs again, and no longer fails.
        self.many(self.slow(), "--resume", "--seconds", "3")
        self.assertEqual(self.runs(), 8)
        self.assertEqual(self.report.read_bytes(), self.others)
        self.assertEqual(self.rest.read_bytes(), self.marked(b"line one\nline two\n", b"3"))
        self.assertEqual(self.many(self.stand_in(":"), "--resume"), (0, b"", ""))
        self.assertEqual(self.report.read_bytes(), self.wanted)
        self.assertEqual(self.files(), ["six.report"])

    def test_standard_output_passes_over_them(self) -> None:
        words = ["--jobs", "1", "--journal", str(self.journal), "--unfinished", str(self.rest)]
        words += ["--seconds", "3", str(self.input), "--pops"]
        outcome = self.many_here(*words, self.slow())
        self.assertEqual((outcome.status, outcome.output), (6, self.others))
        self.assertEqual(self.rest.read_bytes(), self.marked(b"line one\nline two\n", b"3"))
        again = self.many_here(*words, self.stand_in(":"), "--resume")
        self.assertEqual((again.status, again.output), (6, self.others))
        words[words.index("3")] = "30"
        last = self.many_here(*words, self.stand_in(":"), "--resume")
        self.assertEqual(last, (0, self.wanted, ""))
        self.assertEqual(self.files(), [])

    def test_a_report_each_has_its_own_second_file(self) -> None:
        other = self.room / "other.pop"
        other.write_bytes(b"BeginProblem\nPieces White Kg6 Ra1 Black Kg8\nStipulation #1\nEnd\n")
        words = ["--jobs", "2", "--each", "--seconds", "2", "--pops", self.slow()]
        words += ["--journal", str(self.journal), str(other), str(self.input)]
        self.assertEqual(self.many_here(*words).status, 6)
        self.assertEqual(
            self.files(),
            ["other.pop", "other.report"]
            + ["six.report", "six.report.journal", "six.report.unfinished"],
        )
        self.assertEqual(self.report.read_bytes(), self.others)
        self.assertEqual(self.rest.read_bytes(), self.marked(b"line one\nline two\n", b"2"))

    def test_lines_of_a_long_search(self) -> None:
        """The lines kept are those with which the report of a run without a limit begins."""
        self.input.write_bytes(
            b"BeginProblem\nPieces White Kg6 Qa1 Rh1 Black Kg8 Pa7b7\nStipulation h#8\nEndProblem\n"
        )
        words = self.words(support.pops(), "--seconds", "4")
        self.assertEqual(support.companion("pops-many", *words).status, 6)
        self.assertEqual(self.report.read_bytes(), b"")
        lines, mark, _ = self.rest.read_bytes().partition(b"unfinished: stopped after 4 s (")
        self.assertTrue(mark)
        self.assertEqual(lines, whole_lines(lines))
        with subprocess.Popen([support.pops(), str(self.input)], stdout=subprocess.PIPE) as run:
            assert run.stdout is not None
            self.assertEqual(run.stdout.read(len(lines)), lines)
            run.kill()
