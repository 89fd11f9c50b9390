"""Many problems at once: bytes and status as of one run of pops."""

import hashlib
import io
import os
import random
import re
import subprocess
import sys
import tempfile
import unittest
import zlib
from pathlib import Path
from unittest import mock

from pops_companions.input.pieces import Rest, cut, rest_of
from pops_companions.many.cutting import Pieces
from pops_companions.many.identity import Known
from pops_companions.many.journal import Journal, Origin
from pops_companions.many.progress import Progress, duration
from pops_companions.many.tasks import Result, Source, Task
from tests import made_inputs, support
from tests.six_problems import SIX, SixProblems

MANY = support.loaded("pops-many")


def solved(*words: str) -> tuple[int, bytes]:
    """Status and output of pops-many, within this process."""
    target = io.BytesIO()
    settings = MANY.arguments(["--pops", support.pops(), *words])
    return MANY.solve(settings, target), target.getvalue()


def identity(program: str) -> str:
    """A checksum of a program as it is now."""
    return Known(program).identity


class TextAfterTheEnd(unittest.TestCase):
    """What stands after the first EndProblem is lost, and reported."""

    def test_where_it_begins_and_what_is_lost(self) -> None:
        for text, wanted in (
            (b"Beg a End \t\n\n", None),
            (b"Beg a", None),
            (b"Beg a End\n\nold notes, beginning with problem 3\n", (3, 0)),
            (b"Beg a End\n Beg b Next c Next d End\nBEGINPROBLEM e End", (2, 4)),
            (b"Beg Title End\nEnd x", (2, 0)),
            (b"Beg a End Beg b End", (1, 0)),
        ):
            with self.subTest(text):
                self.assertEqual(rest_of(text), None if wanted is None else Rest(*wanted))

    def test_the_message(self) -> None:
        text = SIX + b"BeginProblem\nEndProblem\n"
        words = [sys.executable, str(support.COMPANIONS / "pops-many"), "--pops", support.pops()]
        done = subprocess.run(words, input=text, capture_output=True)
        self.assertEqual(
            (done.returncode, done.stdout), (0, support.run([support.pops()], text).output)
        )
        self.assertEqual(
            done.stderr.decode(),
            "pops-many: standard input: nothing after the first EndProblem is read, and the text"
            " goes on in line 26: 1 problem is lost. Write NextProblem for EndProblem and the"
            " BeginProblem after it\n",
        )


class Cutting(unittest.TestCase):
    def blocks(self, text: bytes) -> list[bytes]:
        return [text[piece.start : piece.stop] for piece in cut(text)]

    def test_words_that_end_a_problem(self) -> None:
        cases = [
            (b"", [b""]),
            (b"Beg a Nex b End c", [b"Beg a ", b" b "]),
            (b"Beg a nEXTp b eNDpROBLEM c", [b"Beg a ", b" b "]),
            (b"Beg a Next,b xEnd NextProblems Ne En", [b"Beg a Next,b xEnd NextProblems Ne En"]),
            (b"Beg\x0bNex\x0cEnd\r\nNex", [b"Beg\x0b", b"\x0c"]),
            (b"Beg\xa0Nex\x00End", [b"Beg\xa0Nex\x00End"]),
            (b"Nex", [b"", b""]),
            (b"End", [b""]),
            (b"Beg Nex", [b"Beg ", b""]),
        ]
        for text, wanted in cases:
            with self.subTest(text):
                self.assertEqual(self.blocks(text), wanted)

    def test_text_lines_hide_them(self) -> None:
        for word in (b"Title", b"tit", b"AUTHOR", b"Orig", b"rema"):
            with self.subTest(word):
                text = b"Beg " + word + b" Nex End\nNex " + word + b"\nEnd"
                self.assertEqual(len(self.blocks(text)), 2)
        for word in (b"Ti", b"Titles", b"xTitle", b"Title,"):
            with self.subTest(word):
                self.assertEqual(len(self.blocks(b"Beg " + word + b" Nex End\nNex End")), 2)
                self.assertEqual(len(self.blocks(b"Beg " + word + b" Nex x\nNex End")), 3)

    def test_the_quick_way_finds_the_same(self) -> None:
        """Also where few lines are looked through at a time."""
        chance = random.Random(11)
        words = [b"Nex", b"nextproblem", b"NEXTP", b"End", b"endproblem", b"EndProblems", b"Tit", b"Remark"]
        words += [b"Author", b"Origin x", b"xNext", b"Next,", b"\xa0Next", b"Ne", b"En", b"legend", b"a"]
        gaps = [b" ", b"\n", b"\n", b"\r\n", b"\t", b"\x0b", b"\x0c", b"\xa0", b"\x00", b"", b"\x1c"]
        for lines_at_once in (1, 7, 1 << 18):
            with mock.patch("pops_companions.many.cutting._LINES_AT_ONCE", lines_at_once):
                for number in range(3000):
                    text = b"".join(
                        chance.choice(words) + chance.choice(gaps) for _ in range(chance.randrange(15))
                    )
                    if number % 2:
                        text = re.sub(b"(?i)end", b"foo", text)
                    self.assertEqual(list(Pieces(text)), cut(text), text)
                    self.assertTrue(rest_of(text) is None or not Pieces(text).end_text, text)
                    made = made_inputs.made_input(chance)
                    self.assertEqual(list(Pieces(made)), cut(made), made)

    def test_a_problem_alone_keeps_its_lines(self) -> None:
        text = b"BeginProblem\na\n\nNextProblem b\nc\nNextProblem d"
        first, second, third = cut(text)
        self.assertEqual(first.alone(text, True), b"BeginProblem\na\n\nEnd")
        self.assertEqual(second.alone(text, True), b"\n\n\nBeg b\nc\nEnd")
        self.assertEqual(second.alone(text, False), b"Beg b\nc\nEnd")
        self.assertEqual(third.alone(text, True), b"\n\n\n\n\nBeg d")
        self.assertEqual([piece.line for piece in (first, second, third)], [1, 4, 6])

    def test_a_problem_alone_is_no_longer_than_what_pops_reads_for_it(self) -> None:
        chance = random.Random(3)
        for _ in range(200):
            text = made_inputs.made_input(chance)
            for piece in cut(text):
                closing = 3 if piece.closed else 0
                self.assertLessEqual(len(piece.alone(text, True)), piece.stop + closing)


class SameAsOneRun(unittest.TestCase):
    def check(self, path: Path, *options: str) -> None:
        one = support.run([support.pops(), *options, str(path)])
        with self.subTest(path.name, options=options, text=path.read_bytes()[:2000]):
            self.assertEqual(solved(*options, str(path)), (one.status, one.output))

    def test_every_row(self) -> None:
        for path in support.stored_inputs():
            self.check(path, "--check")
            if path.suffix == ".in" and not support.is_for_check(path):
                self.check(path)
                self.check(path, "--no-board")

    def test_every_example(self) -> None:
        """Some of them take a while: they are solved once, and held against the stored reports."""
        paths = [path for path in support.stored_inputs() if path.suffix == ".pop"]
        wanted = b"".join(support.stored_report(path).read_bytes() for path in paths)
        self.assertEqual(solved(*map(str, paths))[1], wanted)

    def test_two_hundred_made_inputs(self) -> None:
        chance = random.Random(2026)
        with tempfile.TemporaryDirectory() as room:
            path = Path(room) / "made.pop"
            for _ in range(200):
                path.write_bytes(made_inputs.made_input(chance))
                self.check(path, *chance.choice([(), (), ("--check",), ("--no-board",)]))

    def test_every_beginning_of_an_input(self) -> None:
        whole = (support.ROWS / "three_problems.in").read_bytes()
        with tempfile.TemporaryDirectory() as room:
            path = Path(room) / "cut.pop"
            for length in range(len(whole) + 1):
                path.write_bytes(whole[:length])
                self.check(path, "--check")

    def test_faults_far_down_have_their_lines(self) -> None:
        problem = b"Pieces White Kg6 Ra1 Black Kg8\nStipulation #1\n"
        text = b"BeginProblem\n" + b"\n" * 9000 + problem
        text += b"NextProblem\n" + problem + b"x\nNextProblem\n" + problem + b"NextProblem x\n"
        with tempfile.TemporaryDirectory() as room:
            path = Path(room) / "far.pop"
            path.write_bytes(text)
            self.check(path)
            self.assertIn(b"line 9007: fault 2:", solved(str(path))[1])

    def test_several_files_and_standard_input(self) -> None:
        stored = support.stored_inputs()
        files = [str(path) for path in stored if path.name.startswith(("mate_in", "help_mate_in"))]
        wanted = b"".join(support.run([support.pops(), file]).output for file in files)
        self.assertEqual(solved(*files), (0, wanted))
        faulty = str(support.ROWS / "no_men.in")
        self.assertEqual(solved(faulty, *files)[0], 1)
        text = (support.ROWS / "three_problems.in").read_bytes()
        one = support.run([support.pops()], text)
        outcome = support.companion("pops-many", "--pops", support.pops(), text=text)
        self.assertEqual(outcome, (one.status, one.output, ""))

    def test_what_cannot_be_read_is_named_and_left_to_pops(self) -> None:
        cases = [
            (str(support.REPOSITORY), "Is a directory"),
            ("nowhere.pop", "No such file or directory"),
        ]
        for name, reason in cases:
            with self.subTest(name):
                one = support.run([support.pops(), name])
                self.assertEqual(one.status, 3)
                # (it leaves no open file to Python)
                with mock.patch.dict(os.environ, {"PYTHONWARNINGS": "error"}):
                    outcome = support.companion("pops-many", "--pops", support.pops(), name)
                self.assertEqual((outcome.status, outcome.output), (3, one.output))
                self.assertEqual(outcome.error, f"pops-many: cannot open {name}: {reason}\n")

    def test_where_no_file_can_be_opened_an_old_report_stays(self) -> None:
        with tempfile.TemporaryDirectory() as folder:
            old = Path(folder, "old.report")
            old.write_text("an old report")
            words = ["--pops", support.pops(), "-o", str(old), "nowhere.pop", "nowhere_else.pop"]
            self.assertEqual(support.companion("pops-many", *words).status, 3)
            self.assertEqual(old.read_text(), "an old report")
            self.assertEqual(os.listdir(folder), ["old.report"])


class Interruptions(SixProblems):
    def test_a_run_that_fails_is_told_and_resumed(self) -> None:
        outcome = self.many(self.stand_in("kill -9 $$"))
        self.assertEqual((outcome.status, outcome.output), (6, b""))
        self.assertEqual(
            outcome.error,
            f"pops-many: problem 4 ({self.input}, line 13): pops was ended by signal 9\n"
            f"pops-many: 5 of 6 problems are done and kept in {self.journal}:"
            f" go on with --resume --journal {self.journal}\n",
        )
        self.assertFalse(self.report.exists())
        self.assertEqual(self.runs(), 7)  # the failing one is tried twice
        again = self.many(self.stand_in(":"), "--resume")
        self.assertEqual(again, (0, b"", ""))
        self.assertEqual(self.runs(), 8)
        self.assertEqual(self.report.read_bytes(), self.wanted)
        self.assertFalse(self.journal.exists())

    def test_a_program_that_is_changed_during_the_run(self) -> None:
        """The reports may be of two programs: they are no report, and no run goes on with them."""
        pops = self.room / "stand_in"
        self.stand_in(f"sed '$s/$/ #/' '{pops}' > '{pops}.new'; chmod +x '{pops}.new'; mv '{pops}.new' '{pops}'")
        before = pops.read_bytes()
        said = f"pops-many: {pops} was changed during the run: the reports in {self.journal} may be of two programs, remove it\n"
        self.assertEqual(self.many(str(pops)), (6, b"", said))
        self.assertFalse(self.report.exists())
        self.assertNotEqual(pops.read_bytes(), before)
        for text, why in ((pops.read_bytes(), "another pops"), (before, "a run during which a program was changed")):
            pops.write_bytes(text)
            outcome = self.many(str(pops), "--resume")
            self.assertEqual((outcome.status, outcome.output), (2, b""))
            self.assertIn(f"{self.journal} is of {why}", outcome.error)

    def test_a_program_that_is_changed_and_changed_back_during_the_run(self) -> None:
        """Nothing of the other program is kept."""
        pops, kept = self.room / "stand_in", self.room / "kept"
        back = f"text=$(cat)\nmv '{kept}' '{pops}'\nprintf '%s' \"$text\" | '{support.pops()}' --no-board \"$@\""
        other = self.write_program("other", f"#!/bin/sh\n{back}\n")
        self.stand_in(f"mv '{pops}' '{kept}'; mv '{other}' '{pops}'")
        outcome = self.many(str(pops))
        self.assertEqual(outcome.status, 6)
        self.assertIn(f"pops-many: {pops} was changed during the run: ", outcome.error)
        self.assertFalse(self.report.exists())
        self.assertIn(self.kept(), (3, 4))

    def test_a_cut_report_is_no_report(self) -> None:
        outcome = self.many(self.stand_in("echo 'problem 1'; exit 0"))
        self.assertEqual(outcome.status, 6)
        self.assertIn("problem 4", outcome.error)

    def test_a_journal_that_was_cut_is_gone_on_with(self) -> None:
        self.many(self.stand_in("kill -9 $$"))
        journal = self.journal.read_bytes()
        head = journal.index(b"\n") + 1
        for length in [
            head,
            head + 1,
            head + 40,
            len(journal) // 2,
            len(journal) - 1,
            len(journal),
        ]:
            with self.subTest(length=length):
                self.journal.write_bytes(journal[:length])
                self.assertEqual(self.many(self.stand_in(":"), "--resume"), (0, b"", ""))
                self.assertEqual(self.report.read_bytes(), self.wanted)

    def test_a_changed_byte_in_a_journal_is_noticed(self) -> None:
        self.many(self.stand_in("kill -9 $$"))
        journal = bytearray(self.journal.read_bytes())
        journal[-5] ^= 1
        self.journal.write_bytes(bytes(journal))
        self.assertEqual(self.many(self.stand_in(":"), "--resume"), (0, b"", ""))
        self.assertEqual(self.report.read_bytes(), self.wanted)

    def test_a_journal_that_is_changed_in_use_makes_no_report(self) -> None:
        for change in (": >", "printf x | dd conv=notrunc status=none bs=1 seek=200 of="):
            with self.subTest(change):
                self.report.write_bytes(b"an old report")
                outcome = self.many(self.stand_in(f"{change}{self.journal}"))
                said = f"pops-many: {self.journal} was changed while it was in use: remove it\n"
                self.assertEqual(outcome, (6, b"", said))
                self.assertEqual(self.report.read_bytes(), b"an old report")
                self.journal.unlink()

    def test_a_changed_digit_in_the_line_of_a_record_is_noticed(self) -> None:
        self.many(self.stand_in("kill -9 $$"))
        journal = self.journal.read_bytes()
        changed = journal.replace(b" status 0", b" status 1", 1).replace(b" status 0", b" status 1", 1)
        self.assertNotEqual(changed, journal)
        self.journal.write_bytes(changed)
        self.assertEqual(self.many(self.stand_in(":"), "--resume"), (0, b"", ""))
        self.assertEqual(self.report.read_bytes(), self.wanted)

    def test_a_journal_of_another_version_is_refused(self) -> None:
        self.many(self.stand_in("kill -9 $$"))
        journal = self.journal.read_bytes().replace(b"pops-many journal 4 ", b"pops-many journal 3 ")
        self.journal.write_bytes(journal)
        outcome = self.many(self.stand_in(":"), "--resume")
        self.assertEqual(outcome.status, 2)
        self.assertIn(f"{self.journal} is of another version of pops-many: remove it", outcome.error)
        self.assertEqual(self.journal.read_bytes(), journal)

    def test_a_journal_in_which_two_records_have_one_task(self) -> None:
        """The first one counts; what only the second one has is solved again."""
        source = Source(None, b"")
        journal = Journal(str(self.journal), Origin(b"run", b"pops"), False, 4, None)
        for place in (0, 1):
            text = b"problem 1\n\nproblem 2\n\n"
            journal.keep(Result(Task(place, source, None), 0, text, None, 2))
        journal.close(True)
        again = Journal(str(self.journal), Origin(b"run", b"pops"), True, 4, None)
        self.addCleanup(again.close, True)
        self.assertEqual([again.is_finished(place) for place in range(4)], [True, True, False, False])
        self.assertEqual(list(again.kept), [0])

    def test_a_record_that_lacks_the_items_of_its_tasks_is_not_taken(self) -> None:
        """Its checksum is right: somebody made it."""
        index = self.report.with_suffix(".index")
        wanted = self.many(support.pops(), "--index", str(index))
        rows = index.read_bytes()
        self.many(self.stand_in("kill -9 $$"))
        head = self.journal.read_bytes().partition(b"\n")[0] + b"\n"
        for text in (b"\n" * 12, b"problem 1\n\n" * 7, b"problem 1\n\n" * 6 + b"x", b"problem 1"):
            with self.subTest(text):
                line = b"tasks 0 number 6 status 0 bytes %d" % len(text)
                self.journal.write_bytes(head + line + b" sum %d\n" % zlib.crc32(line + text) + text)
                self.assertEqual(self.many(self.stand_in(":"), "--resume", "--index", str(index)), wanted)
                self.assertEqual((self.report.read_bytes(), index.read_bytes()), (self.wanted, rows))

    def test_solutions_beside_a_private_report_are_private(self) -> None:
        rest = Path(f"{self.report}.unfinished")
        self.report.write_bytes(b"older")
        for mode in (0o600, 0o640, 0o644):
            with self.subTest(oct(mode)):
                self.report.chmod(mode)
                slow = self.stand_in("cat > /dev/null; printf 'problem 1\\n'; exec sleep 6000")
                outcome = self.many(slow, "--seconds", "1", "--jobs", "6")
                self.assertEqual(outcome.status, 6)
                modes = [it.stat().st_mode & 0o777 for it in (self.report, self.journal, rest)]
                self.assertEqual(modes[1:], [0o600, mode])
                for path in (self.journal, rest):
                    path.unlink()

    def test_another_runs_journal_is_refused(self) -> None:
        self.many(self.stand_in("kill -9 $$"))
        self.assertEqual(self.many(self.stand_in(":"), "--resume", "--no-board").status, 2)
        self.input.write_bytes(SIX.replace(b"Rb1", b"Rb2"))
        outcome = self.many(self.stand_in(":"), "--resume")
        self.assertEqual(outcome.status, 2)
        self.assertIn("belongs to other problems or options", outcome.error)

    def test_a_journal_of_another_pops_is_refused(self) -> None:
        """It is another one by its bytes, wherever it is."""
        pops = Path(self.stand_in("kill -9 $$"))
        self.many(str(pops))
        journal, text = self.journal.read_bytes(), pops.read_text()
        self.stand_in(":")
        said = "is of another pops: name that one with --pops, or remove it"
        refused = (2, b"", f"pops-many: {self.journal} {said}\n")
        self.assertEqual(self.many(support.pops(), "--resume"), refused)
        pops.write_text(f"{text}\n")
        self.assertEqual(self.many(str(pops), "--resume"), refused)
        self.assertEqual(self.journal.read_bytes(), journal)
        pops.write_text(text)
        moved = pops.rename(self.room / "moved")
        self.assertEqual(self.many(str(moved), "--resume"), (0, b"", ""))
        self.assertEqual(self.report.read_bytes(), self.wanted)

    def test_a_journal_of_another_program_that_a_script_names_is_refused(self) -> None:
        """The script stays the same."""
        real = self.room / "real"
        Path(self.stand_in("kill -9 $$")).rename(real)
        text = real.read_text()
        pops = self.room / "stand_in"
        for words in (f"exec '{real}'", f'exec "{real}"', f"nice {real}"):
            with self.subTest(words):
                support.write_program(pops, f'#!/bin/sh\n{words} "$@"\n')
                self.stand_in_does("kill -9 $$")
                self.assertEqual(self.many(str(pops)).status, 6)
                self.stand_in_does(":")
                real.write_text(f"{text}\n")
                outcome = self.many(str(pops), "--resume")
                self.assertEqual(outcome.status, 2)
                self.assertIn("is of another pops: name that one with --pops, or remove it", outcome.error)
                real.write_text(text)
                self.assertEqual(self.many(str(pops), "--resume"), (0, b"", ""))
                self.assertEqual(self.report.read_bytes(), self.wanted)

    def test_without_an_output_file_the_reports_are_kept_too(self) -> None:
        words = ["--pops", self.stand_in("kill -9 $$"), "--jobs", "1", str(self.input)]
        outcome = support.companion("pops-many", *words)
        self.assertEqual(outcome.status, 6)
        self.assertEqual(outcome.output.count(b"solutions: 1\n"), 3)
        journal = outcome.error.split("--journal ")[1].strip()
        self.addCleanup(Path(journal).unlink, missing_ok=True)
        words = ["--pops", self.stand_in(":"), "--resume", "--journal", journal, str(self.input)]
        self.assertEqual(support.companion("pops-many", *words), (0, self.wanted, ""))
        self.assertFalse(os.path.exists(journal))


class Identity(support.InRoom):
    def test_a_program_is_its_bytes(self) -> None:
        own = hashlib.sha256(Path(support.pops()).read_bytes()).hexdigest()
        self.assertEqual(identity(support.pops()), own)
        link = self.room / "link"
        link.symlink_to(support.pops())
        self.assertEqual(identity(str(link)), own)

    def test_a_script_is_also_what_it_names(self) -> None:
        real = self.write_program("pops-real", "1")
        for words in (f"exec {real}", f"P='{real}'; \"$P\"", f'(nice "{real}")', "pops-real"):
            script = self.write_program("script", f'#!/bin/sh\n{words} "$@" # \0 /nowhere /\n')
            with mock.patch.dict(os.environ, {"PATH": str(self.room)}):
                before = identity(script)
                self.write_program("pops-real", "2")
                self.assertNotEqual(identity(script), before, words)
                self.write_program("pops-real", "1")
                self.assertEqual(identity(script), before)

    def test_a_script_names_programs_in_its_own_folder(self) -> None:
        """The shell alone knows the whole path."""
        (self.room / "bin").mkdir()
        words = ['"$(dirname "$0")/real"', '"$here"/real', "${HOME}/real", "~/real", "`dirname $0`/bin/real"]
        for word in words:
            real = "bin/real" if "bin" in word else "real"
            self.write_program(real, "1")
            link = self.room / "bin" / "link"
            link.unlink(missing_ok=True)
            script = self.write_program("script", f'#!/bin/sh\nexec {word} "$@"\n')
            link.symlink_to(script)
            for program in (script, str(link)):
                with self.subTest(word, program=program), mock.patch.dict(os.environ, {"HOME": str(self.room)}):
                    before = Known(program)
                    self.assertFalse(before.is_changed)
                    self.write_program(real, "2")
                    self.assertNotEqual(identity(program), before.identity)
                    self.assertTrue(before.is_changed)
                    self.write_program(real, "1")
                    self.assertTrue(before.is_changed)
                    self.assertFalse(Known(program).is_changed)

    def test_a_program_that_comes_again(self) -> None:
        """It isn't another one."""
        known = Known(self.write_program("real", "1"))
        for _ in range(2):
            self.write_program("new", "1")
            (self.room / "new").replace(self.room / "real")
            self.assertFalse(known.is_changed)
        (self.room / "real").unlink()
        self.assertFalse(known.is_changed)

    def test_scripts_that_name_each_other(self) -> None:
        names = [str(self.room / str(number)) for number in range(100)]
        for number in range(100):
            self.write_program(str(number), f"#!/bin/sh\n{' '.join(names)}\n")
        before = identity(names[0])
        self.write_program("1", "#!/bin/sh\n")
        self.assertNotEqual(identity(names[0]), before)

    def test_a_script_that_names_the_script_of_a_repository(self) -> None:
        """It is the program of that."""
        script = self.write_program("script", f"#!/bin/sh\n'{support.REPOSITORY}/pops' \"$@\"\n")
        with mock.patch("pops_companions.many.identity.without_script") as found:
            found.return_value = self.write_program("real", "1")
            before = identity(script)
            self.write_program("real", "2")
            self.assertNotEqual(identity(script), before)
        found.assert_called_with(f"{support.REPOSITORY}/pops", "pops")


class Command(unittest.TestCase):
    def test_mistakes_have_a_line_and_a_status(self) -> None:
        mistakes = [
            ["--jobs", "0"],
            ["--fast"],
            ["--resume"],
            ["--each"],
            ["--each", "--index", "table", "a.pop"],
            ["--each", "--unfinished", "rest", "a.pop"],
            ["--seconds", "1"],
            ["--seconds", "0", "-o", "report"],
            ["--seconds", "nan", "-o", "report"],
            ["--seconds", "inf", "-o", "report"],
            ["--seconds", "ten", "-o", "report"],
        ]
        for words in mistakes:
            with self.subTest(words):
                self.assertEqual(support.companion("pops-many", *words).status, 2)
        missing = support.companion("pops-many", "--pops", "nowhere/pops", text=b"")
        self.assertEqual(
            (missing.status, missing.error),
            (3, "pops-many: there is no program nowhere/pops\n"),
        )
        unwritable = support.companion(
            "pops-many", "--pops", support.pops(), "-o", "nowhere/report"
        )
        self.assertEqual(unwritable.status, 3)
        self.assertEqual(support.companion("pops-many", "--help").status, 0)

    def test_without_gnu_parallel_other_machines_are_refused(self) -> None:
        words = [sys.executable, str(support.COMPANIONS / "pops-many"), "--pops", support.pops()]
        done = subprocess.run(
            words + ["--sshlogin", "somewhere"],
            input=b"",
            capture_output=True,
            env={**os.environ, "PATH": "/nowhere"},
        )
        self.assertEqual(done.returncode, 3)
        self.assertEqual(
            done.stderr,
            b"pops-many: --sshlogin needs GNU parallel: install Debian's package parallel\n",
        )

    def test_machines_and_commands_that_are_none(self) -> None:
        """Refused, in every locale, before anything runs."""
        plain = {**os.environ, "LC_ALL": "C", "PYTHONUTF8": "0", "PYTHONCOERCECLOCALE": "0"}
        for option, value, environment in (
            ("--ssh", b"ssh '", None),
            ("--ssh", b"ssh \\", None),
            ("--ssh", b" ", None),
            ("--sshlogin", b"\xff", None),
            ("--sshlogin", b"one\ntwo", None),
            ("--sshlogin", "é".encode(), plain),
        ):
            with self.subTest(option, value=value):
                many = [sys.executable, str(support.COMPANIONS / "pops-many"), "--sshlogin", "x", option]
                done = subprocess.run([*many, os.fsdecode(value)], input=b"", capture_output=True, env=environment)
                self.assertEqual((done.returncode, done.stdout), (2, b""))
                self.assertIn(f"pops-many: error: argument {option}: ".encode(), done.stderr)

    def test_a_terminal_shows_the_progress(self) -> None:
        words = [sys.executable, str(support.COMPANIONS / "pops-many"), "--pops", support.pops()]
        status, said = support.said_on_terminal(words, SIX)
        self.assertEqual(status, 0)
        # (on a busy machine it shows that time passes before the first problem is done)
        self.assertRegex(said, r"\rpops-many: (1 of 6 problems, about \d+:\d\d left|0 of 6 problems, \d+:\d\d so far)")
        self.assertRegex(said, r"\rpops-many: 6 of 6 problems *\r\n$")

    def test_a_terminal_shows_that_one_problem_takes_time(self) -> None:
        """The problem is solved once that is shown."""
        shown = re.compile(r"\rpops-many: 0 of 1 problems, \d+:(?!00)\d\d so far")
        with tempfile.TemporaryDirectory() as room:
            slow, seen = Path(room) / "slow", Path(room) / "seen"
            support.write_program(slow, f"#!/bin/sh\nuntil [ -e {seen} ]; do sleep 0.1; done\nexec '{support.pops()}'\n")
            words = [sys.executable, str(support.COMPANIONS / "pops-many"), "--pops", str(slow)]
            one = SIX.split(b"NextProblem")[0] + b"EndProblem\n"
            status, said = support.said_on_terminal(words, one, look=lambda it: seen.touch() if shown.search(it) else None)
        self.assertEqual(status, 0)
        self.assertRegex(said, shown)

    def test_progress(self) -> None:
        progress = Progress("pops-many")
        progress.begin(100, 500)
        self.assertEqual(progress.line(1), "pops-many: 100 of 500 problems, 0:01 so far")
        for _ in range(50):
            progress.more()
        self.assertEqual(progress.line(10), "pops-many: 150 of 500 problems, about 1:10 left")
        self.assertEqual(duration(5), "0:05")
        self.assertEqual(duration(3723), "1:02:03")
        self.assertEqual(duration(2 * 86400 + 3 * 3600 + 4 * 60 + 5), "2 days 3:04:05")
