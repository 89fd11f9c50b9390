"""Programs that write more than is kept in memory: they are ended, and reports in files aren't."""

import errno
import tempfile
from unittest import mock

from pops_companions.command import CommandError
from pops_companions.commands.sheet import pdf_of
from pops_companions.many.batches import Batch
from pops_companions.many.child_process import MOST_SAID, OutputError, outcome_of
from pops_companions.many.part_program import PartProgram
from pops_companions.many.parts import Part, PartsError
from pops_companions.many.program import RunError
from pops_companions.many.tasks import Source, tasks_of
from tests import run_here, support
from tests.shown_limit import limit_when_shown, shown

MATE = b"BeginProblem\nPieces White Kg6 Ra1 Black Kg8\nStipulation #1\nEndProblem\n"
LEAST = 1 << 12


class Floods(support.InRoom):
    def setUp(self) -> None:
        super().setUp()
        (self.room / "in.pop").write_bytes(MATE)

    def script(self, text: str) -> str:
        return self.write_program("program", f"#!/bin/sh\ncat > /dev/null\n{text}\n")

    def test_output_without_an_end(self) -> None:
        with mock.patch("pops_companions.many.child_process.MOST_OUTPUT", LEAST):
            with self.assertRaises(OutputError):
                outcome_of([self.script("yes")], MATE)

    def test_what_is_said_without_an_end_is_cut(self) -> None:
        run = outcome_of([self.script("yes | head -c 1000000 >&2; echo well")], MATE)
        self.assertEqual((run.output, len(run.errors)), (b"well\n", MOST_SAID))

    def test_a_problem_with_too_long_a_report(self) -> None:
        words = [str(self.room / "in.pop"), "-o", str(self.room / "out"), "--pops", self.script("yes")]
        with mock.patch("pops_companions.many.child_process.MOST_OUTPUT", LEAST):
            outcome = run_here.companion("pops-many", *words)
        self.assertEqual(outcome.status, 6)
        self.assertIn("pops was ended: it wrote more than ", outcome.error)

    def long_problem(self) -> bytes:
        """Two problems, the second with a long report."""
        pieces = b"Pieces White Kc3 Qd5 Rb2 Sb4 Black Ka8 Sh1 Bg1\nStipulation h#3\n"
        return MATE.replace(b"EndProblem", b"NextProblem") + pieces + b"EndProblem\n"

    def test_a_problem_may_have_a_longer_report_than_memory_takes(self) -> None:
        text = self.long_problem()
        (self.room / "in.pop").write_bytes(text)
        report = support.run([support.pops()], text).output
        self.assertGreater(len(report), 2 * LEAST)
        table = self.room / "table"
        words = [str(self.room / "in.pop"), "--pops", support.pops(), "--index", str(table)]
        with mock.patch("pops_companions.many.child_process.MOST_OUTPUT", LEAST):
            with mock.patch("pops_companions.many.bundle_run._MOST_WRITTEN", LEAST):
                outcome = run_here.companion("pops-many", *words)
                self.assertEqual((outcome.error, outcome.status), ("", 0))
                self.assertEqual(outcome.output, report)
                with mock.patch("pops_companions.many.child_process.MOST_SPOOLED", 2 * LEAST):
                    outcome = run_here.companion("pops-many", *words, "-o", str(self.room / "out"))
        self.assertEqual(outcome.status, 6)
        self.assertIn("problem 2", outcome.error)
        self.assertIn("pops was ended: it wrote more than ", outcome.error)

    def test_a_long_report_that_is_stopped(self) -> None:
        """It is kept up to its last whole line."""
        lines = b"1.Ra1-a2\n" * LEAST
        (self.room / "begun").write_bytes(b"problem 1\n#2\nplay\n" + lines + b"1.Ra1")
        out = self.room / "out"
        program = self.script(f"cat '{self.room}/begun'; {shown(self.room)}; exec sleep 6000")
        words = [str(self.room / "in.pop"), "-o", str(out), "--pops", program, "--seconds", "3"]
        with mock.patch("pops_companions.many.child_process.MOST_OUTPUT", LEAST):
            with limit_when_shown(self.room):
                self.assertEqual(run_here.companion("pops-many", *words).status, 6)
        kept = (self.room / "out.unfinished").read_bytes()
        self.assertTrue(kept.startswith(b"problem 1\n#2\nplay\n" + lines + b"unfinished: "))

    def test_no_room_for_a_long_report(self) -> None:
        (self.room / "in.pop").write_bytes(self.long_problem())
        words = [str(self.room / "in.pop"), "-o", str(self.room / "out"), "--pops", support.pops()]
        full = OSError(errno.ENOSPC, "No space left on device")
        with mock.patch("pops_companions.many.child_process.MOST_OUTPUT", LEAST):
            with mock.patch("pops_companions.many.bundle_run._MOST_WRITTEN", LEAST):
                with mock.patch("tempfile.TemporaryFile", side_effect=full):
                    outcome = run_here.companion("pops-many", *words)
        self.assertEqual(outcome.status, 6)
        self.assertIn("pops was ended: No space left on device", outcome.error)

    def test_a_file_left_to_pops_may_have_a_longer_report(self) -> None:
        text = b"BeginProblem\n" + b"NextProblem\n".join([MATE[13:-11]] * 200) + b"EndProblem\n"
        (self.room / "in.pop").write_bytes(text)
        words = [str(self.room / "in.pop"), "--pops", support.pops(), "--index", str(self.room / "table")]
        with mock.patch("pops_companions.many.child_process.MOST_OUTPUT", LEAST):
            with mock.patch("pops_companions.many.tasks.LONGEST_INPUT", LEAST):
                outcome = run_here.companion("pops-many", *words)
        report = support.run([support.pops()], text).output
        self.assertGreater(len(report), LEAST)
        self.assertEqual((outcome.status, outcome.output), (0, report))
        rows = (self.room / "table").read_text("utf-8").splitlines()
        self.assertEqual(rows[1].split("\t")[:3], ["0", str(len(report)), "0"])

    def test_a_part_without_an_end(self) -> None:
        part = Part(tasks_of([Source(None, MATE)])[0], "play", 1, 1)
        for flood in ("yes", "tr '\\0' x < /dev/zero"):
            with mock.patch("pops_companions.many.part_program.MOST_OUTPUT", LEAST):
                with self.assertRaisesRegex(RunError, "it wrote more than"):
                    list(PartProgram(self.script(flood), 1).reports(Batch([part])))

    def test_a_part_that_says_too_much(self) -> None:
        """What it says goes to a file, which it would fill the disk with."""
        part = Part(tasks_of([Source(None, MATE)])[0], "play", 1, 1)
        says = self.script("exec head -c 2000000 /dev/zero >&2")
        with mock.patch("pops_companions.many.program.MOST_ERRORS", 1 << 20):
            with self.assertRaisesRegex(RunError, "^pops-part was ended: it wrote more than 1 MiB$"):
                list(PartProgram(says, 1).reports(Batch([part])))

    def test_a_list_of_parts_with_long_numbers(self) -> None:
        listed = self.script(f"echo '1: play {'9' * 5000}'")
        with self.assertRaisesRegex(PartsError, "lists no parts"):
            PartProgram(listed, 1).phases(MATE)

    def test_a_browser_that_writes_too_long_a_page(self) -> None:
        (self.room / "bin").mkdir()
        does = "for word do case $word in --print-to-pdf=*) truncate -s 8192 \"${word#*=}\" ;; esac; done"
        self.write_program("bin/chromium", f"#!/bin/sh\n{does}\n")
        with mock.patch.dict("os.environ", {"PATH": f"{self.room}/bin:/usr/bin:/bin"}):
            with mock.patch("pops_companions.commands.sheet.BROWSERS", ("chromium",)):
                self.assertEqual(pdf_of("<p>"), bytes(8192))
                with mock.patch("pops_companions.commands.sheet.MOST_OUTPUT", LEAST):
                    with self.assertRaisesRegex(CommandError, "it wrote more than"):
                        pdf_of("<p>")
