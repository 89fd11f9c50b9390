"""pops-judge: one sheet of a collection; runs that are stopped, and a program of tries."""

import errno
import fcntl
import os
import re
import shutil
import signal
import subprocess
import sys
from pathlib import Path
from unittest import mock

from pops_companions.chess.game_counts import impossible_counts
from pops_companions.chess.men import Man, Square
from pops_companions.review.work_folder import WorkFolder
from tests import run_here, support, test_pages, test_sheet, test_soundness
from tests.shown_limit import limit_when_shown, shown
from tests.six_problems import wait_for

ONE = b"BeginProblem\nTitle A mate\nOrigin A & B 1900\nPieces White Kg6 Ra1 Black Kg8\nStipulation #1\n"
TWO = b"NextProblem\nTitle A help\nPieces White Kg6 Ra1 Black Kh8\nStipulation h#1\nEndProblem\n"
TRIES_OF_ONE = (
    "problem 1\\ntitle: A mate\\n#1\\nplay\\n1.Ra1-a8#!\\nsolutions: 1\\ntries\\ntries: 0\\n\\n"
)
# (a busy machine takes no problem to the end of this time)
NO_HURRY = ["--seconds", str(support.PATIENCE)]


class Judging(support.InRoom):
    def setUp(self) -> None:
        super().setUp()
        self.text = self.room / "some.pop"
        self.text.write_bytes(ONE + TWO)
        self.sheet = self.room / "sheet.html"

    def script(self, name: str, text: str) -> str:
        return self.write_program(name, "#!/bin/sh\n" + text)

    def judged(self, *words: str, pops: str = "", text: str = "") -> support.Outcome:
        words = ("--pops", pops or support.pops(), "-o", str(self.sheet), *words)
        with limit_when_shown(self.room):
            return run_here.companion("pops-judge", text or str(self.text), *words)

    def until_well(self, name: str, text: str, then: str = "") -> str:
        """A program that does so at first, and once `make_well` was called what pops does, or `then`."""
        then = then or f"exec '{support.pops()}' \"$@\""
        return self.script(name, f"if [ -e '{self.room}/well' ]; then {then}; fi\n{text}")

    def tries_until_well(self, name: str, text: str) -> str:
        """A program that does so at first, and once `make_well` was called shows tries of the first problem."""
        (self.room / "well").unlink(missing_ok=True)
        return self.until_well(name, text, f"cat > /dev/null; printf '{TRIES_OF_ONE}'; exit")

    def make_well(self) -> None:
        (self.room / "well").touch()

    def resumed(self, *words: str) -> support.Outcome:
        """Goes on after `slow`, which solves problems from now on."""
        self.make_well()
        return self.judged("--resume", *words, pops=str(self.room / "slow"))

    def articles(self) -> list[test_pages.SeenArticle]:
        return test_pages.SeenPage(self.sheet.read_text("utf-8")).articles

    def files(self) -> list[str]:
        return sorted({path.name for path in self.room.iterdir()} - {"well"})

    def test_the_collection_of_known_soundness(self) -> None:
        # No pops-tries stands next to this program.
        alone = self.script("alone", f"exec '{support.pops()}' \"$@\"\n")
        outcome = self.judged(pops=alone, text=str(test_soundness.COLLECTION))
        self.assertEqual((outcome.status, outcome.error), (1, ""))
        verdicts = [verdict for verdict, _ in test_soundness.Collection.WANTED]
        lines = outcome.output.decode().splitlines()
        self.assertEqual([line.split(": ")[1] for line in lines[:-1]], verdicts)
        self.assertEqual(lines[-1], "11 problems: 5 sound, 1 undecided, 4 unsound, 1 faulty")
        articles = self.articles()
        self.assertEqual(len(articles), len(verdicts))
        for article, (verdict, findings) in zip(articles, test_soundness.Collection.WANTED):
            self.assertIn(verdict, article.words)
            for text in findings:
                self.assertIn(text, article.words)
        self.assertEqual(self.files(), ["alone", "sheet.html", "some.pop"])

    def test_sound_problems_and_their_origin(self) -> None:
        outcome = self.judged("--heading", "Ours & yours")
        self.assertEqual((outcome.status, outcome.error), (0, ""))
        one, two = self.articles()
        self.assertIn("A & B 1900", one.words)
        self.assertIn("1.Ra8#!", "".join(one.words))
        self.assertIn("1.Kg8 Ra8#", two.words)
        self.assertIn("<h1>Ours &amp; yours</h1>", self.sheet.read_text("utf-8"))

    def test_a_sheet_whose_name_begins_with_a_dash(self) -> None:
        program = support.COMPANIONS / "pops-judge"
        words = [sys.executable, str(program), "--pops", support.pops(), str(self.text), *NO_HURRY]
        run = subprocess.run([*words, "-o", "./-sheet.html"], cwd=self.room, capture_output=True)
        self.assertEqual((run.returncode, run.stderr), (0, b""))
        self.assertEqual(self.files(), ["-sheet.html", "some.pop"])

    def test_a_collection_from_standard_input(self) -> None:
        words = ["--pops", support.pops(), "-", "-o", str(self.sheet), *NO_HURRY]
        outcome = run_here.companion("pops-judge", *words, text=self.text.read_bytes())
        self.assertEqual((outcome.status, outcome.error), (0, ""))
        self.assertIn("<h1>standard input</h1>", self.sheet.read_text("utf-8"))
        self.assertEqual(len(self.articles()), 2)

    def test_a_problem_that_takes_longer_is_taken_up_again(self) -> None:
        """In its time it shows two keys of one: unsound, whatever is missing."""
        head = "problem 1\\n#1\\nplay\\n1.Ra1-a8#\\n1.Ra1-a7#\\n"
        slow = self.until_well(
            "slow",
            f"text=$(cat)\ncase $text in *'A mate'*)"
            f" printf '{head}'; {shown(self.room)}; exec sleep 6000 ;; esac\n"
            f"printf '%s' \"$text\" | '{support.pops()}' \"$@\"\n",
        )
        outcome = self.judged("--seconds", "3", pops=slow)
        self.assertEqual(outcome.status, 1)
        self.assertIn("some problems took longer: --resume", outcome.error)
        lines = outcome.output.decode().splitlines()
        self.assertEqual(lines[0], "problem 1: unsound: #1")
        self.assertIn("cooked: at least 2 keys, 1 wanted", self.articles()[0].words)
        self.assertTrue((self.room / "sheet.html.work").is_dir())

        refused = self.judged()
        self.assertEqual(refused.status, 2)
        self.assertIn("keeps a run that was stopped: go on with --resume", refused.error)
        again = self.resumed()
        self.assertEqual((again.status, again.error), (0, ""))
        self.assertEqual(again.output.decode().splitlines()[0], "problem 1: sound: #1, A mate")
        self.assertEqual(self.files(), ["sheet.html", "slow", "some.pop"])

    def test_no_problem_is_finished_in_its_time(self) -> None:
        self.text.write_bytes(ONE + b"EndProblem\n")
        head = "problem 1\\n#1\\nplay\\n"
        outcome = self.judged("--seconds", "0.5", pops=self.slow(head))
        self.assertEqual(outcome.status, 1)
        self.assertIn("undecided", outcome.output.decode().splitlines()[0])
        self.assertIn("some problems took longer: --resume", outcome.error)

    def test_a_help_mate_with_many_solutions(self) -> None:
        """Two rooks mate on the eighth rank."""
        self.text.write_bytes(ONE + TWO.replace(b"Ra1", b"Ra1b1"))
        for words, said in (((), (True, False, True)), (("--all",), (True, True, False))):
            with mock.patch("pops_companions.sheet.solution.MOST_SOLUTIONS", 1):
                self.judged(*words)
            shown = "\n".join(self.articles()[1].words)
            texts = ("1.Kg8 Ra8#", "1.Kg8 Rb8#", ".. and 1 more (--all shows them)")
            self.assertEqual(tuple(text in shown for text in texts), said)

    def test_names_without_title_or_author(self) -> None:
        text = ONE.replace(b"Title A mate\n", b"Author N. N.\n") + TWO
        self.text.write_bytes(text.replace(b"Title A help\n", b""))
        lines = self.judged().output.decode().splitlines()
        self.assertEqual(lines[:2], ["problem 1: sound: #1 (N. N.)", "problem 2: sound: h#1"])

    def test_a_stopped_problem_is_named_by_the_collection(self) -> None:
        # The first one is cut within its head, which its verdict has to do without.
        shows = "case $(cat) in *'A help'*) printf 'problem 1\\nh#1\\nplay\\n' ;; esac"
        slow = self.script("slow", f"{shows}\n{shown(self.room)}\nexec sleep 6000\n")
        for name in ("sheet.html", "a\nb\\c.html", "\udcff.html"):
            self.sheet = self.room / name
            outcome = self.judged("--seconds", "0.5", pops=slow)
            self.assertEqual(outcome.status, 1)
            page = self.sheet.read_text("utf-8")
            for number, line in ((1, 1), (2, ONE.count(b"\n") + 1)):
                self.assertIn(f"stopped after 0.5 s (problem {number} of {self.text}, line {line})", page)
            self.assertNotIn("input.pop", page)

    def test_a_program_that_fails_is_told_of_the_collection(self) -> None:
        outcome = self.judged(pops=self.script("dies", "cat > /dev/null\nkill -9 $$\n"))
        self.assertEqual(outcome.status, 6)
        self.assertRegex(outcome.error, rf"\({self.text}, line [16]\)")
        self.assertNotIn("input.pop", outcome.error)

    def test_a_run_that_is_stopped(self) -> None:
        program = support.COMPANIONS / "pops-judge"
        slow = self.script("slow", "cat > /dev/null\nexec sleep 6000\n")
        words = [sys.executable, str(program), "--pops", slow, str(self.text), "-o", str(self.sheet)]
        with subprocess.Popen([*words, *NO_HURRY], stderr=subprocess.PIPE, start_new_session=True) as run:
            work = Path(f"{self.sheet}.work")
            wait_for((work / "solutions.report.journal").is_file)
            os.killpg(run.pid, signal.SIGINT)
            error = run.communicate(timeout=support.PATIENCE)[1].decode()
        self.assertEqual(run.returncode, 6)
        kept = f"stopped; what is done is kept in {work}: go on with --resume"
        self.assertEqual(error, f"pops-judge: {kept}\n")

    def slow(self, text: str) -> str:
        """A program that shows this and finds nothing else, as long as it isn't well."""
        shows = f"printf '{text}'\n{shown(self.room)}"
        return self.until_well("slow", f"cat > /dev/null\n{shows}\nexec sleep 6000\n")

    def unfinished(self, *words: str) -> Path:
        """The folder of a run on a problem that took longer."""
        self.text.write_bytes(ONE + b"EndProblem\n")
        slow = self.slow("problem 1\\ntitle: A mate\\n#1\\nplay\\n")
        self.assertEqual(self.judged("--seconds", "0.5", *words, pops=slow).status, 1)
        return self.room / "sheet.html.work"

    def test_another_text_isnt_taken_up(self) -> None:
        work = self.unfinished()
        self.text.write_bytes(ONE + TWO)
        outcome = self.judged("--resume")
        self.assertEqual(outcome.status, 2)
        self.assertIn("sheet.html.work is of another text: remove it", outcome.error)
        self.assertTrue(work.is_dir())

    def test_a_folder_in_use_is_left_to_its_run(self) -> None:
        work = self.unfinished()
        handle = os.open(work, os.O_RDONLY)
        fcntl.flock(handle, fcntl.LOCK_EX)
        outcome = self.judged("--resume")
        self.assertEqual(outcome.status, 2)
        self.assertIn("sheet.html.work is in use by another run", outcome.error)
        os.close(handle)
        self.assertEqual(self.resumed().status, 0)

    def test_a_folder_of_others_is_neither_read_nor_removed(self) -> None:
        work, other = self.room / "sheet.html.work", self.room / "other"
        unsound = b"problem 1\n#1\nplay\n1.Ra1-a8#\n1.Ra1-b8#\nsolutions: 2\n\n"
        files = {"input.pop": self.text.read_bytes(), "solutions.report": unsound, "notes": b"ours"}
        other.mkdir()
        for name, text in files.items():
            (other / name).write_bytes(text)
        for is_link in (False, True):
            if is_link:
                work.symlink_to(other)
            else:
                other.rename(work)
            for word in ("--all", "--resume"):
                outcome = self.judged(word)
                self.assertEqual(outcome.status, 2)
                self.assertIn("sheet.html.work isn't a folder of pops-judge", outcome.error)
                self.assertEqual({it.name: it.read_bytes() for it in work.iterdir()}, files)
            if not is_link:
                work.rename(other)
        self.assertFalse(self.sheet.exists())

    def test_an_empty_folder_that_a_user_made_stays(self) -> None:
        work = self.room / "sheet.html.work"
        work.mkdir()
        for mode in (0o755, 0o700, 0o1777):
            work.chmod(mode)
            outcome = self.judged()
            self.assertEqual(outcome.status, 2)
            self.assertIn("sheet.html.work isn't a folder of pops-judge", outcome.error)
            self.assertEqual(list(work.iterdir()), [])
        work.rmdir()

    def test_an_empty_folder_of_a_run_that_was_killed_is_taken_up(self) -> None:
        """It is killed right after it made the folder, also below one that gives its group on."""
        work = self.room / "sheet.html.work"
        self.room.chmod(0o2700)
        killed = mock.patch.object(WorkFolder, "_refuse_foreign", side_effect=KeyboardInterrupt)
        with killed:
            self.assertEqual(self.judged().status, 6)
        self.assertEqual(list(work.iterdir()), [])
        self.assertEqual(self.judged().status, 0)
        self.assertFalse(work.exists())

    def test_what_others_put_into_its_folder(self) -> None:
        work, foreign = self.unfinished(), self.room / "foreign"
        (work / "notes").write_bytes(b"ours")
        foreign.write_bytes(b"ours")
        (work / "tries-1.txt").unlink(missing_ok=True)
        (work / "tries-1.txt").symlink_to(foreign)
        self.assertEqual(self.judged("--resume").status, 2)
        (work / "tries-1.txt").unlink()
        outcome = self.resumed()
        self.assertEqual(outcome.status, 0)
        self.assertIn("sheet.html.work has files of others, which stay", outcome.error)
        self.assertEqual([it.name for it in work.iterdir()], ["notes"])
        self.assertEqual(foreign.read_bytes(), b"ours")

    def test_reports_and_tries_that_are_cut_are_made_again(self) -> None:
        words = ("--pops-tries", self.tries_of_one())
        work = self.unfinished(*words)
        for name in ("tries-1.txt", "solutions.report", "solutions.report.unfinished"):
            (work / name).write_bytes((work / name).read_bytes()[:50])
        self.assertEqual(self.resumed(*words).status, 0)
        (article,) = self.articles()
        self.assertIn("1.Ra8#!", article.words)

    def tries_of_one(self) -> str:
        return self.script("tries", f"cat > /dev/null\nprintf '{TRIES_OF_ONE}'\n")

    def begun_folder(self) -> WorkFolder:
        folder = WorkFolder(self.room / "work")
        folder.begin(b"", {}, resume=False)
        return folder

    def test_a_folder_that_is_moved_while_it_is_in_use(self) -> None:
        work, foreign = self.room / "sheet.html.work", self.room / "foreign"
        foreign.mkdir()
        # (the programs may be started more than once)
        moves = f"[ -d '{work}' ] && mkdir '{work}.moves' 2> /dev/null && mv '{work}' '{work}.moved' && ln -s '{foreign}' '{work}'\n"
        for name, words in (("pops", ()), ("pops-tries", ("--pops-tries",))):
            with self.subTest(name):
                path = support.pops() if name == "pops" else self.tries_of_one()
                moving = self.script("moving", f"{moves}exec '{path}' \"$@\"\n")
                outcome = self.judged(*words, moving) if words else self.judged(pops=moving)
                self.assertEqual(outcome.status, 6)
                self.assertIn("sheet.html.work was moved or replaced while it was in use", outcome.error)
                self.assertEqual(list(foreign.iterdir()), [])
                work.unlink()
                Path(f"{work}.moved").rename(self.room / f"moved by {name}")
                Path(f"{work}.moves").rmdir()

    def test_what_others_put_into_its_folder_while_it_is_in_use(self) -> None:
        """Nothing of it is read, written through or removed, and no pipe is waited for."""
        work, foreign = self.room / "sheet.html.work", self.room / "foreign"
        unsound = b"problem 1\n#1\nplay\n1.Ra1-a8#\n1.Ra1-b8#\nsolutions: 2\n\n"
        # (for short.report a problem has to be longer than one move)
        self.text.write_bytes(ONE + TWO.replace(b"h#1", b"h#2"))
        paths = {"pops": support.pops(), "pops-tries": self.tries_of_one()}
        for name, kind, by in (
            ("solutions.report", "ln -s '{foreign}'", "pops-tries"),
            ("solutions.report", "mkfifo", "pops-tries"),
            ("input.pop", "ln -s '{foreign}'", "pops"),
            ("solutions.report.unfinished", "ln -s '{foreign}'", "pops"),
            ("short.report.journal", "mkfifo", "pops"),
            ("short.report", "mkdir", "pops"),
            ("short.pop", "mkdir", "pops"),
            ("tries-1.txt", "mkdir", "pops-tries"),
            ("tries-99.txt", "mkdir", "pops-tries"),
        ):
            with self.subTest(name, kind=kind, by=by):
                foreign.write_bytes(unsound)
                put = f"rm -f '{work}/{name}'; {kind.format(foreign=foreign)} '{work}/{name}'"
                once = f"if mkdir '{self.room}/once' 2> /dev/null; then {put}; fi\n"
                wrapper = self.script("wrapper", f"{once}exec '{paths[by]}' \"$@\"\n")
                words = [f"--{it}={wrapper if it == by else paths[it]}" for it in paths]
                outcome = run_here.companion("pops-judge", str(self.text), "-o", str(self.sheet), *words, *NO_HURRY)
                said = f"pops-judge: {work} was changed while it was in use: remove it\n"
                self.assertEqual((outcome, self.sheet.exists()), ((6, b"", said), False))
                self.assertEqual(foreign.read_bytes(), unsound)
                shutil.rmtree(work)
                (self.room / "once").rmdir()

    def test_a_link_that_others_put_in_place_of_a_report_is_replaced(self) -> None:
        report, foreign = self.room / "sheet.html.work" / "solutions.report", self.room / "foreign"
        foreign.write_bytes(b"ours")
        links = self.script("links", f"ln -s '{foreign}' '{report}' 2> /dev/null\nexec '{support.pops()}' \"$@\"\n")
        outcome = self.judged(pops=links)
        self.assertEqual((outcome.status, outcome.error), (0, ""))
        self.assertEqual(foreign.read_bytes(), b"ours")

    def test_a_kept_text_in_whose_place_a_pipe_or_link_stands(self) -> None:
        folder, text = self.begun_folder(), b"a text\n"
        path, target = folder.path / "tries-1.txt", self.room / "target"
        folder.keep(path, text)
        path.rename(target)
        for is_pipe in (True, False):
            if is_pipe:
                os.mkfifo(path)
            else:
                path.symlink_to(target)
            self.assertIsNone(folder.kept(path))
            path.unlink()

    def test_a_kept_text_is_whole(self) -> None:
        folder = self.begun_folder()
        path = folder.path / "tries-1.txt"
        self.assertIsNone(folder.kept(path))
        folder.keep(path, b"a text\n" * 3)
        self.assertEqual(folder.kept(path), b"a text\n" * 3)
        whole = path.read_bytes()
        for text in (whole[:cut] for cut in range(len(whole))):
            path.write_bytes(text)
            self.assertIsNone(folder.kept(path))

    def test_files_that_grew_larger_than_memory(self) -> None:
        folder = self.begun_folder()
        path, report = folder.path / "tries-1.txt", folder.path / "short.report"
        folder.keep(path, b"")
        report.write_bytes(b"a report\n")
        folder.seal(report)
        os.truncate(path, 1 << 40)
        os.truncate(f"{report}.sum", 1 << 40)
        self.assertIsNone(folder.kept(path))
        self.assertFalse(folder.is_sealed(report))
        work = self.unfinished()
        os.truncate(work / "pops-judge.mark", 1 << 40)
        self.assertIn("has a mark that was changed", self.judged("--resume").error)

    def test_what_is_kept_for_one_problem_is_not_taken_for_another(self) -> None:
        folder = self.begun_folder()
        first, second = folder.path / "tries-1.txt", folder.path / "tries-2.txt"
        folder.keep(first, b"a text\n")
        first.rename(second)
        self.assertIsNone(folder.kept(second))
        solutions, short = folder.path / "solutions.report", folder.path / "short.report"
        solutions.write_bytes(b"a report\n")
        folder.seal(solutions)
        self.assertTrue(folder.is_sealed(solutions))
        for end in ("", ".sum"):
            Path(f"{solutions}{end}").rename(f"{short}{end}")
        self.assertFalse(folder.is_sealed(short))

    def test_a_program_of_tries_that_fails_is_told(self) -> None:
        dies = self.tries_until_well("dies", "cat > /dev/null\nkill -9 $$\n")
        outcome = self.judged("--pops-tries", dies)
        self.assertEqual(outcome.status, 6)
        self.assertEqual(
            outcome.error,
            "pops-judge: problem 1: pops-tries was ended by signal 9: its tries and threats are"
            " missing\npops-judge: --resume tries them again\n",
        )
        self.make_well()
        self.assertEqual(self.judged("--resume", "--pops-tries", dies), (0, outcome.output, ""))
        self.assertIn("1.Ra8#!", self.articles()[0].words)

    def test_what_isnt_a_whole_text_of_tries_is_told_and_isnt_kept(self) -> None:
        head = "cat > /dev/null\nprintf 'problem 1"
        said = "problem 1: pops-tries ended with status 0: its tries and threats are missing"
        cases = (
            ("exit 0\n", said),
            (f"{head}\\n#1\\nplay\\n'\n", said),
            (f"{head}\\n%0100d\\n\\n'\n", "/cut is no text of pops-tries: line 2: "),
        )
        for text, error in cases:
            with self.subTest(text):
                cut = self.tries_until_well("cut", text)
                outcome = self.judged("--pops-tries", cut)
                self.assertEqual((outcome.status, outcome.output.count(b": sound: ")), (6, 2))
                self.assertIn(error, outcome.error)
                self.assertIn("1.Ra8#!", self.articles()[0].words)
                self.make_well()
                again = self.judged("--resume", "--pops-tries", cut)
                self.assertEqual((again.status, again.error), (0, ""))
                self.assertIn("1.Ra8#!", self.articles()[0].words)

    def test_a_status_that_isnt_the_texts(self) -> None:
        fault = "problem 1\\nline 3: fault 8: bad stipulation\\n\\n"
        for text, status in ((TRIES_OF_ONE, 1), (fault, 0)):
            with self.subTest(text):
                lies = self.tries_until_well("lies", f"cat > /dev/null\nprintf '{text}'\nexit {status}\n")
                outcome = self.judged("--pops-tries", lies)
                said = f"problem 1: pops-tries ended with status {status}: its tries and threats are missing"
                self.assertEqual(outcome.status, 6)
                self.assertIn(said, outcome.error)
                self.make_well()
                self.assertEqual(self.judged("--resume", "--pops-tries", lies), (0, outcome.output, ""))
        lies = self.script("pops", "cat > /dev/null\nprintf 'problem 1\\n#1\\nplay\\nsolutions: 0\\n\\n'\nexit 1\n")
        outcome = run_here.companion("pops-many", "--pops", lies, text=ONE + b"EndProblem\n")
        self.assertEqual((outcome.status, outcome.output), (6, b""))
        self.assertIn("pops ended with status 1", outcome.error)

    def test_tries_of_another_problem_are_told_and_arent_kept(self) -> None:
        men = [b".......k", *[b"........"] * 6, b"R......."]
        board = b"".join(b"%d %s\\n" % (8 - place, rank) for place, rank in enumerate(men)) + b"  abcdefgh\\n"
        for other in (
            TRIES_OF_ONE.replace("#1", "#2"),
            TRIES_OF_ONE.replace("#1", board.decode() + "#1"),
            TRIES_OF_ONE.replace("Ra1", "Ra2"),
            TRIES_OF_ONE.replace("Ra1-a8#", "0-0#"),
        ):
            with self.subTest(other):
                lies = self.tries_until_well("lies", f"cat > /dev/null\nprintf '{other}'\n")
                outcome = self.judged("--pops-tries", lies)
                self.assertEqual(outcome.status, 6)
                self.assertIn("problem 1: pops-tries shows another problem", outcome.error)
                self.make_well()
                again = self.judged("--resume", "--pops-tries", lies)
                self.assertEqual((again.status, again.error), (0, ""))
                self.assertIn("1.Ra8#!", self.articles()[0].words)

    def test_tries_with_other_keys_are_left_out(self) -> None:
        for other in (
            TRIES_OF_ONE.replace("Ra1-a8#", "Ra1-b1#"),
            TRIES_OF_ONE.replace("1.Ra1-a8#!\\n", "").replace("solutions: 1", "solutions: 0"),
            TRIES_OF_ONE.replace("A mate", "Another mate"),
        ):
            with self.subTest(other):
                self.assertNotEqual(other, TRIES_OF_ONE)
                lies = self.tries_until_well("lies", f"cat > /dev/null\nprintf '{other}'\n")
                outcome = self.judged("--pops-tries", lies)
                self.assertEqual(outcome.status, 6)
                self.assertIn("problem 1: pops-tries shows other keys than pops: its tries", outcome.error)
                self.make_well()
                again = self.judged("--resume", "--pops-tries", lies)
                self.assertEqual((again.status, again.error), (0, ""))

    def test_a_problem_that_only_the_program_of_tries_calls_faulty(self) -> None:
        fault = "problem 1\\nline 3: fault 8: bad stipulation\\n\\n"
        lies = self.tries_until_well("lies", f"cat > /dev/null\nprintf '{fault}'\nexit 1\n")
        outcome = self.judged("--pops-tries", lies)
        self.assertEqual(outcome.status, 6)
        self.assertIn("problem 1: pops-tries calls it faulty, and pops sound: its tries", outcome.error)
        self.make_well()
        again = self.judged("--resume", "--pops-tries", lies)
        self.assertEqual((again.status, again.error), (0, ""))
        self.assertIn("1.Ra8#!", self.articles()[0].words)

    def test_a_mark_that_was_changed_is_not_believed(self) -> None:
        work = self.unfinished()
        mark = work / "pops-judge.mark"
        whole, before = mark.read_bytes(), sorted(it.name for it in work.iterdir())
        for place in range(0, len(whole), 7):
            mark.write_bytes(whole[:place] + bytes([whole[place] ^ 1]) + whole[place + 1 :])
            outcome = self.judged("--resume")
            self.assertEqual((outcome.status, outcome.output), (2, b""))
            self.assertIn("has a mark that was changed", outcome.error)
            self.assertEqual(sorted(it.name for it in work.iterdir()), before)
        mark.write_bytes(whole)
        self.text.write_bytes(ONE + TWO)
        self.assertIn("is of another text", self.judged("--resume").error)

    def test_a_program_that_is_changed_during_the_run(self) -> None:
        """Nothing is kept, so that the next run begins with nothing."""
        does = {"pops": f"exec '{support.pops()}' \"$@\"\n", "tries": f"cat > /dev/null; printf '{TRIES_OF_ONE}'\n"}
        for changed in does:
            paths = {name: self.script(name, text) for name, text in does.items()}
            new = f"{paths[changed]}.new"
            self.script(changed, f"{{ cat \"$0\"; echo; }} > '{new}'; chmod +x '{new}'; mv '{new}' \"$0\"\n{does[changed]}")
            with self.subTest(changed):
                outcome = self.judged("--jobs", "1", "--pops-tries", paths["tries"], *NO_HURRY, pops=paths["pops"])
                said = f"{paths[changed]} was changed during the run: nothing is kept, run it again"
                self.assertEqual(outcome, (6, b"", f"pops-judge: {said}\n"))
                left = [it for it in self.files() if not it.endswith(".new")]
                self.assertEqual(left, ["pops", "some.pop", "tries"])

    def test_other_programs_are_not_taken_up(self) -> None:
        work = self.unfinished()
        slow, other = self.room.resolve() / "slow", self.script("other", "exit 1\n")
        for said, outcome in (
            (f"with another pops: name {slow} with --pops, or", self.judged("--resume")),
            ("without pops-tries:", self.judged("--resume", "--pops-tries", other, pops=str(slow))),
        ):
            self.assertEqual((outcome.status, outcome.output), (2, b""))
            self.assertEqual(outcome.error, f"pops-judge: {work} was begun {said} remove it\n")
        whole = slow.read_bytes()
        slow.write_bytes(whole + b"\n")
        outcome = self.resumed()
        self.assertEqual((outcome.status, outcome.output), (2, b""))
        self.assertIn(f"was begun with {slow} before that was changed: remove it", outcome.error)
        slow.write_bytes(whole)
        self.assertEqual((self.resumed().status, work.exists()), (0, False))

    def test_a_report_that_cannot_be_read_is_made_again(self) -> None:
        work = self.room / "sheet.html.work"
        wrong = f"'{support.pops()}' \"$@\" | sed 's/^solutions: 1$/solutions: 9/'\n"
        for text, said in (
            (wrong, "is no report of pops: line"),
            (wrong.replace("solutions: 9", "solutions: 1").replace("sed '", "sed 's/^#1$/#2/;"), "another stipulation"),
            (f"sed s/Ra1/Rb1/ | '{support.pops()}' \"$@\"\n", "isn't that of the input: problem 1 differs"),
        ):
            with self.subTest(said):
                slow = self.until_well("slow", text)
                outcome = self.judged(pops=slow)
                self.assertEqual((outcome.status, outcome.output), (3, b""))
                self.assertIn(said, outcome.error)
                self.assertIn(f": remove {work}, and name other programs with --pops", outcome.error)
                self.assertEqual([it.name for it in work.iterdir()], ["pops-judge.mark"])
                self.assertEqual(self.resumed().status, 0)
                (self.room / "well").unlink()

    def test_what_was_kept_for_another_text_is_not_believed(self) -> None:
        work = self.unfinished()
        report = b"problem 1\n#1\nplay\n1.Ra1-a7#\n1.Ra1-a8#\nsolutions: 2\n\n"
        other = WorkFolder(self.room / "other")
        other.begin(b"another text", {}, False)
        for name in ("solutions.report", "short.report"):
            (other.path / name).write_bytes(report)
            other.seal(other.path / name)
            self.assertTrue(other.is_sealed(other.path / name))
            for end in ("", ".sum"):
                (work / f"{name}{end}").write_bytes((other.path / f"{name}{end}").read_bytes())
            (work / f"{name}.journal").unlink(missing_ok=True)
        outcome = self.resumed()
        self.assertEqual((outcome.status, outcome.error), (0, ""))
        self.assertIn("problem 1: sound", outcome.output.decode())

    def test_a_damaged_journal_is_begun_anew(self) -> None:
        for damage in (bytes(4096), b"no journal of pops-many\n"):
            with self.subTest(damage=damage[:10]):
                journal = self.unfinished() / "solutions.report.journal"
                kept = journal.read_bytes()
                journal.write_bytes(damage + kept[len(damage) :])
                outcome = self.resumed()
                self.assertEqual((outcome.status, outcome.error), (0, ""))
                self.assertIn("problem 1: sound", outcome.output.decode())
                (self.room / "well").unlink()

    def test_a_folder_that_cannot_be_locked(self) -> None:
        refused = OSError(errno.ENOLCK, "No locks available")
        with mock.patch("fcntl.flock", side_effect=refused):
            outcome = self.judged()
        said = f"pops-judge: {self.sheet}.work can't be locked: No locks available\n"
        self.assertEqual((outcome.status, outcome.error), (3, said))

    def test_tries_where_the_program_is(self) -> None:
        tries = self.script("tries", f"cat > /dev/null\nprintf '{TRIES_OF_ONE}'\n")
        outcome = self.judged("--pops-tries", tries)
        self.assertEqual((outcome.status, outcome.error), (0, ""))
        one, two = self.articles()
        self.assertIn("1.Ra8#!", one.words)
        missing = self.judged("--pops-tries", "nowhere/tries")
        self.assertEqual(missing.status, 3)

    def test_what_tries_add_to_the_findings(self) -> None:
        """By the plain solver of the tests; its text is kept for a run that goes on."""
        words = f"cd {support.COMPANIONS} && exec {sys.executable} -m tests.plain_tries\n"
        self.text.write_bytes(test_sheet.OF_THE_MANUAL)
        outcome = self.judged("--pops-tries", self.script("tries", words))
        self.assertEqual((outcome.status, outcome.error), (0, ""))
        (article,) = self.articles()
        words = "\n".join(article.words)
        for text in ("1.Qh8-b2: 1 threat", "2 tries with one refutation", "but 1...Kd1!"):
            self.assertIn(text, words)
        self.assertEqual(words.count("1.Qh2?"), 1)
        self.assertEqual(words.count("1.Qb2!"), 1)

    def test_a_mate_in_one_has_no_tries(self) -> None:
        """After most moves of the rook the king has one reply."""
        self.text.write_text("BeginProblem\nPieces White Kg6 Ra1 Black Kg8\nStipulation #1\nEndProblem\n")
        self.judged("--pops-tries", str(support.REPOSITORY / "release" / "pops-tries"))
        self.assertEqual([row[6] for row in self.cells()], [""])
        (article,) = self.articles()
        self.assertNotIn("refutation", "\n".join(article.words))

    def cells(self) -> list[list[str]]:
        """The cells of the table's rows but the first two and the last one."""
        page = self.sheet.read_text("utf-8")
        head, *rows = re.findall("<tr>(.*?)</tr>", page, re.S)
        names = ["Verdict", "Solutions", "Check, capture", "Short", "Duals", "Threats", "Tries", "Set play"]
        self.assertEqual(re.findall("<th>(.*?)</th>", head)[2:-1], names)
        return [re.findall("<td[^>]*>(.*?)</td>", row)[2:-1] for row in rows]

    def test_the_table(self) -> None:
        """By hand: zugzwang and two tries; smothered mates with check, and with a capture too."""
        smothered = "Pieces White Kg1 Qc4 Sh6 Black Kh8 Ra8 Pg7h7{}\nStipulation #2\n"
        help_mate = "Pieces White Kg6 Ra1 Black Kh8\nStipulation h#1\nOption SetPlay\n"
        morphy = (support.REPOSITORY / "examples" / "morphy_1856.pop").read_text()
        problems = [smothered.format(""), smothered.format(" Bg8"), help_mate]
        rest = "".join(f"NextProblem\n{it}" for it in problems) + "EndProblem"
        self.text.write_text(morphy.replace("EndProblem", rest))
        self.judged("--pops-tries", str(support.REPOSITORY / "release" / "pops-tries"))
        cells = [[*row[:4], row[5], row[7]] for row in self.cells()]
        self.assertEqual(
            cells,
            [
                ["sound", "1", "", "0", "zugzwang", ""],
                ["sound", "1", "check", "0", "0", ""],
                ["sound", "1", "check, capture", "0", "0", ""],
                ["sound", "1", "", "0", "", "1"],
            ],
        )
        self.assertEqual(self.cells()[0][6], "2")
        _, checks, captures, _ = self.articles()
        self.assertIn("the key gives check", checks.words)
        self.assertIn("the key gives check and captures", captures.words)
        self.assertIn("1.Qxg8+!", "".join(captures.words))

    def test_the_table_shows_each_threat_and_men_that_no_game_has(self) -> None:
        """Three keys, of which one only waits, as report and text of tries name them."""
        threats = "\\n  threat\\n    2.Rb1-b7#\\n    2.Rb1-b8#\\n"
        keys = "".join(f"1.Kf6-{it}!{threats}" for it in ("f7", "g6"))
        play = f"play\\n1.Kf6-e6!\\n  zugzwang\\n{keys}solutions: 3\\ntries\\ntries: 0\\n\\n"
        tries = self.script("tries", f"cat > /dev/null\nprintf 'problem 1\\n#2\\n{play}'\n")
        shown = "s/^1.Kf6-g6$/1.Kf6-e6\\n1.Kf6-f7\\n1.Kf6-g6/; s/: 1$/: 3/"
        pops = self.script("three", f"'{support.pops()}' \"$@\" | sed '{shown}'\n")
        pawns = "Pa2c2d2e2f2g2h2a3c3"
        text = f"BeginProblem\nPieces White Kf6 Ra1b1 {pawns} Black Kh8\nStipulation #2\nEndProblem\n"
        self.text.write_text(text)
        self.judged("--pops-tries", tries, pops=pops)
        self.assertEqual([row[5] for row in self.cells()], ["zugzwang, 2"])
        page = self.sheet.read_text("utf-8")
        self.assertIn("#2 <em>(no game: White has 9 pawns)</em></td>", page)

    def test_the_table_of_a_stopped_problem(self) -> None:
        """More than one line mates, also in fewer moves; one is wanted."""
        men = "Pieces White Kg6 Ra1b1 Black Kh8"
        text = f"BeginProblem\n{men}\nStipulation h#2\nOption MaxSolutions 1\nEndProblem\n"
        self.text.write_text(text)
        self.judged()
        ((_, solutions, _, short, *_),) = self.cells()
        self.assertEqual((solutions, short), ("1+", "1+"))
        self.text.write_text(text.replace("h#2", "h#1"))
        self.judged()
        ((_, solutions, _, short, *_),) = self.cells()
        self.assertEqual((solutions, short), ("1+", "0"))

    def test_counts_of_men_that_no_game_has(self) -> None:
        kings = {"e1": "K", "e8": "k"}
        pawns = {f"{file}2": "P" for file in "abcdefgh"}
        cases: list[tuple[dict[str, str], list[str]]] = [
            ({}, []),
            ({"a3": "P"}, ["White has 9 pawns"]),
            ({"a3": "Q"}, []),
            ({"a3": "Q", "b3": "Q", "c3": "Q"}, ["White has 3 queens and 8 pawns"]),
            ({"a3": "B", "b3": "B"}, []),
            ({"a3": "B", "c3": "B"}, ["White has 2 bishops on dark squares and 8 pawns"]),
            ({"b3": "B", "d3": "B"}, ["White has 2 bishops on light squares and 8 pawns"]),
            ({"a3": "G", "b3": "Q", "c3": "Q"}, []),
            (
                {f"{file}3": "S" for file in "abcdefgh"},
                ["White has 17 men", "White has 8 knights and 8 pawns"],
            ),
        ]
        for more, wanted in cases:
            men = {**kings, **pawns, **more}
            found = {Square.of_name(it): Man.of_letter(letter) for it, letter in men.items()}
            self.assertEqual(list(impossible_counts(found)), wanted)
        black = {"a7": "p", "a3": "q", "b3": "q", "c3": "r", "d3": "r", "e3": "r", "e8": "k"}
        found = {Square.of_name(it): Man.of_letter(letter) for it, letter in black.items()}
        self.assertEqual(list(impossible_counts(found)), [])

    def test_a_problem_with_nine_pawns(self) -> None:
        text = b"BeginProblem\nPieces White Kg6 Ra1 Pa2b2c2d2e2f2g2h2h3 Black Kh8\n"
        self.text.write_bytes(text + b"Stipulation #1\nEndProblem\n")
        outcome = self.judged()
        self.assertEqual(outcome.status, 1 if b"unsound" in outcome.output else 0)
        self.assertIn("no game has these men: White has 9 pawns", self.articles()[0].words)

    def test_twins_have_one_verdict(self) -> None:
        self.text.write_bytes(
            b"BeginProblem\nTitle A pair a)\nPieces White Kg6 Ra1 Black Kh8\nStipulation h#1\n"
            b"NextProblem\nTitle A pair b)\nRemark b) Add c1\n"
            b"Pieces White Kg6 Ra1c1 Black Kh8\nStipulation h#1\nEndProblem\n"
        )
        outcome = self.judged()
        self.assertEqual(
            outcome.output.decode().splitlines(),
            [
                "problems 1 to 2: unsound: h#1, A pair",
                "1 problem: 0 sound, 0 undecided, 1 unsound, 0 faulty",
            ],
        )
        (article,) = self.articles()
        self.assertIn("b) Add c1: ", article.words)
        outcome = self.judged("--apart")
        self.assertEqual(
            outcome.output.decode().splitlines()[0], "problem 1: sound: h#1, A pair a)"
        )

    def test_a_sheet_that_cant_be_written_is_refused_first(self) -> None:
        """The collection itself, a link to it, a folder, a file in what is none, a device, a pipe:
        nothing is solved, and nothing changes."""
        before, link = self.text.read_bytes(), self.room / "link.html"
        link.symlink_to(self.text)
        (self.room / "nowhere").symlink_to("missing")
        folder = self.room / "folder"
        folder.mkdir()
        fails = self.script("fails", "kill -9 $$\n")
        os.mkfifo(self.room / "pipe")
        files = self.files()
        for sheet, status, said in (
            (os.devnull, 2, "the sheet needs the name of a file"),
            (f"{self.room}/pipe", 2, "the sheet needs the name of a file"),
            (str(self.text), 2, "is named twice"),
            (str(link), 2, "is named twice"),
            (str(folder), 3, "Is a directory"),
            (f"{self.room}/new/", 3, "Is a directory"),
            (f"{self.room}/nowhere/sheet.html", 3, "cannot write"),
            (f"{self.room}/nowhere/new/sheet.html", 3, "cannot write"),
            (f"{self.text}/sheet.html", 3, "cannot write"),
            # (its folder's name is too long)
            (f"{self.room}/{252 * 'L'}", 3, "File name too long"),
        ):
            outcome = self.judged("-o", sheet, pops=fails)
            self.assertEqual((outcome.status, outcome.output), (status, b""))
            self.assertIn(said, outcome.error)
        self.assertEqual((self.text.read_bytes(), self.files()), (before, files))

    def test_texts_that_are_no_input(self) -> None:
        self.text.write_bytes(b"problem 1\n")
        outcome = self.judged()
        self.assertEqual((outcome.status, outcome.output), (3, b""))
        self.assertIn("some.pop is no input of pops: pops-import makes one", outcome.error)
        self.assertEqual(self.judged("--seconds", "-1").status, 2)
        self.assertEqual(support.companion("pops-judge", str(self.text)).status, 2)
