"""pops-many over several FILEs: which item is of which, a report each, files that fail."""

import os
import subprocess
import sys
from pathlib import Path
from unittest import mock

from pops_companions.commands.many import name_of_run
from pops_companions.many.joining import Joined
from pops_companions.many.targets import Target
from tests import run_here, support
from tests.shown_limit import limit_when_shown, shown
from tests.six_problems import SIX, SixProblems

FAULTY = b"BeginProblem\nPieces White Kg6\n\n\nNextProblem\nPieces White Ka1 x\nEndProblem\n"
# Where the problems of FAULTY begin: the second block follows its NextProblem.
LINES_OF_FAULTY = [1, 5]
LINES_OF_SIX = [1, 5, 9, 13, 17, 21]


class Several(SixProblems):
    def setUp(self) -> None:
        super().setUp()
        self.faulty = self.room / "fau lty.in"
        self.faulty.write_bytes(FAULTY)
        self.paths = [self.input, self.faulty]
        self.reports = [support.run([support.pops(), str(path)]).output for path in self.paths]

    def each(self, *words: str) -> support.Outcome:
        return support.companion("pops-many", "--pops", support.pops(), *words)

    def test_a_table_tells_the_file_of_each_item(self) -> None:
        table = self.room / "table"
        outcome = self.many(support.pops(), str(self.faulty), "--index", str(table))
        self.assertEqual((outcome.status, outcome.error), (1, ""))
        report = self.report.read_bytes()
        self.assertEqual(report, b"".join(self.reports))
        head, *rows = [line.split("\t") for line in table.read_text().splitlines()]
        self.assertEqual(head, ["start", "bytes", "status", "problem", "line", "file"])
        items = [
            report[int(start) : int(start) + int(length)] for start, length, *_ in rows
        ]
        self.assertEqual(b"".join(items), report)
        for item, row in zip(items, rows):
            self.assertTrue(item.startswith(b"problem %s\n" % row[3].encode()))
            self.assertTrue(item.endswith(b"\n\n"))
            self.assertEqual(row[2], "1" if b": fault " in item else "0")
        self.assertEqual(
            [(int(row[3]), int(row[4]), row[5]) for row in rows],
            [(number, line, str(self.input)) for number, line in enumerate(LINES_OF_SIX, start=1)]
            + [(n, line, str(self.faulty)) for n, line in enumerate(LINES_OF_FAULTY, start=1)],
        )

    def test_a_table_beside_standard_output(self) -> None:
        odd = self.room / "a\tb\\c\nd"
        odd.write_bytes(SIX)
        table = self.room / "table"
        outcome = self.each("--index", str(table), str(odd))
        self.assertEqual((outcome.status, outcome.output), (0, self.wanted))
        rows = table.read_text().splitlines()
        self.assertEqual(len(rows), 7)
        self.assertTrue(all(row.endswith("/a\\tb\\\\c\\nd") for row in rows[1:]))

    def test_runs_with_other_journals_write_one_report(self) -> None:
        """Both are whole, and the later one stays: none writes in the other's unfinished file."""
        names = [name_of_run(str(self.room / it), b"0" * 64) for it in ("one", "two", "./one")]
        self.assertEqual((names[0] == names[1], names[0] == names[2]), (False, True))
        first, second = (Target(str(self.report), name) for name in names[:2])
        with first.opened() as one:
            one.write(b"one")
            second.try_out()
            with second.opened() as two:
                two.write(b"tw")
            self.assertEqual(self.report.read_bytes(), b"tw")
        self.assertEqual(self.report.read_bytes(), b"one")

    def test_a_run_that_stops_leaves_no_table(self) -> None:
        table = self.room / "table"
        stopping = self.many(self.stand_in("kill -9 $$"), "--index", str(table))
        self.assertEqual(stopping.status, 6)
        self.assertEqual(self.files(), ["fau lty.in", "six.report.journal"])
        self.assertEqual(self.many(self.stand_in(":"), "--index", str(table), "--resume").status, 0)
        self.assertEqual(len(table.read_text().splitlines()), 7)

    def check_reports(self, paths: list[Path]) -> None:
        self.assertEqual([path.read_bytes() for path in paths], self.reports)

    def test_a_report_each(self) -> None:
        outcome = self.each("--each", *map(str, self.paths))
        self.assertEqual(outcome, (1, b"", ""))
        self.check_reports([self.report, self.room / "fau lty.in.report"])
        folder = self.room / "new" / "folder"
        outcome = self.each("--each", "-o", f"{folder}/", *map(str, self.paths))
        self.assertEqual(outcome, (1, b"", ""))
        self.check_reports([folder / "six.report", folder / "fau lty.in.report"])
        self.assertEqual(len(list(folder.iterdir())), 2)
        self.assertEqual(len(list(folder.parent.iterdir())), 1)

    def test_a_report_each_of_a_run_that_is_resumed(self) -> None:
        folder = self.room / "folder"
        words = ["--each", "-o", str(folder), *map(str, self.paths), "--pops"]
        stopping = support.companion("pops-many", *words, self.stand_in("kill -9 $$"))
        self.assertEqual(stopping.status, 6)
        self.assertEqual([path.name for path in folder.iterdir()], ["fau lty.in.report"])
        self.assertTrue((self.room / "folder.journal").exists())
        resumed = support.companion("pops-many", *words, self.stand_in(":"), "--resume")
        self.assertEqual(resumed, (1, b"", ""))
        self.check_reports([folder / "six.report", folder / "fau lty.in.report"])
        self.assertFalse((self.room / "folder.journal").exists())

    def test_two_files_with_one_report_are_refused(self) -> None:
        outcome = self.each("--each", str(self.input), str(self.input))
        self.assertEqual(
            (outcome.status, outcome.error),
            (2, f"pops-many: two FILEs have the report {self.report}\n"),
        )
        self.assertFalse(self.report.exists())

    def test_a_file_that_cannot_be_opened_has_no_report(self) -> None:
        nowhere = self.room / "nowhere.pop"
        outcome = self.each("--each", str(nowhere), str(self.input))
        self.assertEqual(
            outcome, (3, b"", f"pops-many: cannot open {nowhere}: No such file or directory\n")
        )
        self.assertEqual(self.files(), ["fau lty.in", "six.report"])
        self.assertEqual(self.report.read_bytes(), self.wanted)

    def test_what_cannot_be_written_is_told_before_anything_is_run(self) -> None:
        stand_in = self.stand_in(":")
        nowhere, folder = self.room / "nowhere" / "file", self.room / "folder"
        folder.mkdir()
        journal = ["--journal", str(self.journal)]
        cases = [
            (["-o", str(nowhere)], nowhere, "No such file or directory"),
            (["-o", str(folder)], folder, "Is a directory"),
            (["--index", str(nowhere)], nowhere, "No such file or directory"),
            (
                ["--seconds", "9", "--unfinished", str(nowhere)],
                nowhere,
                "No such file or directory",
            ),
            (["--seconds", "9", "-o", str(self.input / "file")], self.input / "file", "Not a directory"),
        ]
        for words, path, reason in cases:
            with self.subTest(words):
                outcome = support.companion(
                    "pops-many", "--pops", stand_in, *words, *journal, str(self.input)
                )
                self.assertEqual(
                    outcome, (3, b"", f"pops-many: cannot write {path}: {reason}\n")
                )
                self.assertEqual(self.files(), ["fau lty.in", "folder"])
        self.assertFalse((self.room / "runs").exists())

    def test_a_report_beside_its_file_that_cannot_be_written(self) -> None:
        os.mkfifo(self.report)
        outcome = self.each("--each", str(self.input))
        said = f"pops-many: cannot write {self.report}: there is something that is no file\n"
        self.assertEqual(outcome, (3, b"", said))
        self.assertEqual(self.files(), ["fau lty.in", "six.report"])

    def test_nothing_is_written_over_an_input_or_another_file_of_the_run(self) -> None:
        report = str(self.report)
        cases = [
            ["-o", str(self.input)],
            ["-o", report, "--index", report],
            ["-o", report, "--index", f"{report}.journal"],
            ["-o", report, "--index", f"{report}.unfinished", "--seconds", "9"],
            ["--index", str(self.room / "." / "six.pop")],
            ["--journal", str(self.faulty)],
        ]
        for words in cases:
            with self.subTest(words):
                outcome = self.each(*words, *map(str, self.paths))
                self.assertEqual((outcome.status, outcome.output), (2, b""))
                self.assertRegex(outcome.error, "^pops-many: .*/(six|fau).* is named twice\n$")
        self.assertEqual(self.files(), ["fau lty.in"])
        self.assertEqual(self.input.read_bytes(), SIX)

    def test_a_report_that_cannot_be_written_to_its_end_is_kept(self) -> None:
        full = Path("/dev/full")
        words = ["-o", str(full), "--journal", str(self.journal), str(self.input)]
        outcome = self.each(*words)
        self.assertEqual((outcome.status, outcome.output), (6, b""))
        self.assertIn("cannot write: No space left on device", outcome.error)
        self.assertIn("6 of 6 problems are done and kept in", outcome.error)
        words = ["-o", str(self.report), "--journal", str(self.journal), str(self.input)]
        self.assertEqual(self.each(*words, "--resume"), (0, b"", ""))
        self.assertEqual(self.report.read_bytes(), self.wanted)

    def test_a_line_end_in_the_path_of_a_problem_that_takes_longer(self) -> None:
        odd = self.room / "a\\b\nc\td"
        odd.write_bytes(SIX)
        words = ["--seconds", "1", "--jobs", "1", "-o", str(self.report), str(odd)]
        slow = self.stand_in(f"printf 'problem 1\\n'; {shown(self.room)}; exec sleep 6000")
        for _ in range(2):
            with limit_when_shown(self.room):
                self.assertEqual(run_here.companion("pops-many", "--pops", slow, *words).status, 6)
            rest = Path(f"{self.report}.unfinished")
            mark = rest.read_bytes().splitlines()[1]
            name = str(odd).replace("\\", r"\\").replace("\n", r"\n").replace("\t", r"\t")
            self.assertEqual(mark, f"unfinished: stopped after 1 s ({name}, line 13)".encode())
            outcome = run_here.companion("pops-test", str(rest))
            self.assertIn(mark.decode(), outcome.output.decode() + outcome.error)
            words.append("--resume")

    def test_a_report_that_is_no_file_has_no_files_beside_it(self) -> None:
        with mock.patch.dict(os.environ, {"TMPDIR": str(self.room)}):
            outcome = self.each("-o", "/dev/full", str(self.input))
            self.assertEqual((outcome.status, outcome.output), (6, b""))
            journal = self.files()[-1]
            self.assertRegex(journal, r"^pops-many-[0-9a-f]{12}\.journal$")
            self.assertIn(f"--resume --journal {self.room}/{journal}", outcome.error)
        for words, said in ((["--resume"], "--resume needs --output"), (["--seconds", "9"], "--seconds needs --output")):
            outcome = self.each("-o", "/dev/full", *words, str(self.input))
            self.assertEqual((outcome.status, outcome.output), (2, b""))
            self.assertIn(said, outcome.error)

    def test_a_pipe_for_what_is_unfinished_keeps_its_permissions(self) -> None:
        self.report.touch(0o600)
        pipe = self.room / "pipe"
        os.mkfifo(pipe)
        pipe.chmod(0o644)
        slow = self.stand_in("cat > /dev/null; printf 'problem 1\\n'; exec sleep 6000")
        words = ["--seconds", "1", "--unfinished", str(pipe)]
        reader = os.open(pipe, os.O_RDWR)
        self.addCleanup(os.close, reader)
        self.assertEqual(self.many(slow, *words).status, 6)
        self.assertEqual(pipe.stat().st_mode & 0o777, 0o644)

    def test_an_open_file_for_what_is_unfinished_stays(self) -> None:
        log = self.room / "log"
        log.write_bytes(b"before\n")
        with open(log, "ab") as opened:
            os.set_inheritable(opened.fileno(), True)
            words = ["--seconds", str(support.PATIENCE), "--unfinished", f"/dev/fd/{opened.fileno()}"]
            self.assertEqual(run_here.companion("pops-many", *self.words(support.pops(), *words)), (0, b"", ""))
        self.assertEqual(log.read_bytes(), b"before\n")

    def test_a_report_that_would_lack_problems_is_never_complete(self) -> None:
        """Problems are counted as done before they are: the run keeps them, and says so."""
        words = self.words(support.pops())
        too_early = mock.patch.object(Joined, "begin", lambda joined: joined.settle(0, 6))
        with too_early:
            outcome = run_here.companion("pops-many", *words)
        said = f"6 of 6 problems are done and kept in {self.journal}: go on with --resume"
        error = f"pops-many: {said} --journal {self.journal}\n"
        self.assertEqual(outcome, (6, b"", error))
        self.assertEqual(self.files(), ["fau lty.in", "six.report.journal"])
        self.assertEqual(run_here.companion("pops-many", *words, "--resume"), (0, b"", ""))
        self.assertEqual(self.report.read_bytes(), self.wanted)

    def test_a_journal_that_is_removed_or_replaced_meanwhile(self) -> None:
        """What stands in its place then is another's, and stays."""
        journal = Path(f"{self.report}.journal")
        pops = self.room / "pops"
        for then, left in (("", None), (f"echo another > '{journal}'", b"another\n")):
            support.write_program(pops, f"#!/bin/sh\nrm -f '{journal}'\n{then}\nexec '{support.pops()}' \"$@\"\n")
            outcome = self.many(str(pops), "--jobs", "1")
            self.assertEqual((outcome.status, outcome.error), (0, ""))
            self.assertEqual(self.report.read_bytes(), self.wanted)
            self.assertEqual(journal.read_bytes() if journal.exists() else None, left)
            journal.unlink(missing_ok=True)
            self.report.unlink()
        pops.write_text(f"#!/bin/sh\nrm -f '{journal}'\nkill -9 $$\n")
        outcome = self.many(str(pops))
        self.assertEqual(outcome.status, 6)
        self.assertIn("was removed while it was in use", outcome.error)

    def test_a_pipe_as_the_report(self) -> None:
        words = [sys.executable, str(support.COMPANIONS / "pops-many"), "--pops", support.pops()]
        words += ["-o", "/dev/stdout", "--journal", str(self.journal), str(self.input)]
        done = subprocess.run(words, capture_output=True, timeout=support.PATIENCE)
        self.assertEqual((done.returncode, done.stdout), (0, self.wanted))
