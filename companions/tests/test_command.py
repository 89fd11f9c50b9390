"""What all companions do alike as commands: outputs and inputs that go away or are closed."""

import errno
import os
import re
import runpy
import select
import signal
import subprocess
import sys
import tempfile
import unittest
from collections.abc import Callable
from contextlib import redirect_stderr
from functools import partial
from io import StringIO
from pathlib import Path
from typing import Optional
from unittest import mock

from pops_companions.command import OneOf, Settings, flag, option, word
from tests import run_here, support
from tests.six_problems import wait_for

# More than a pipe holds, as a page, as JSON and as problems.
REPORT = b"problem 1\ntitle: A title\n#1\nplay\n1.Ra1-a8#\nsolutions: 1\n\n" * 2_000
PROBLEM = b"BeginProblem\nPieces White Kg6 Ra1 Black Kg8\nStipulation #1\nEndProblem\n"
OF_THE_PROBLEM = b"problem 1\n#1\nplay\n1.Ra1-a8#\nsolutions: 1\n\n"
# Each companion with a missing file, `@`, for each thing that it reads; others begin with `@`.
MISSING = (
    ("fen2pop", "-s", "#1", "--file", "@"),
    ("popeye-py", "@"),
    ("pops-compare", "@", "@report"),
    ("pops-compare", "@report", "@"),
    ("pops-diagram", "--svg", "-o", "@drawn", "@"),
    ("pops-diagram", "--svg", "-o", "@drawn", "--input", "@", "@report"),
    ("pops-explain", "@"),
    ("pops-explain", "@input", "@"),
    ("pops-export", "--to", "yaml", "@"),
    ("pops-find", "@", "--author", "x"),
    ("pops-find", "@collection", "--add", "@"),
    ("pops-import", "@"),
    ("pops-judge", "@", "-o", "@sheet"),
    ("pops-many", "@"),
    ("pops-many", "--check", "@"),
    ("pops-many", "@input", "-o", "@solved", "--resume", "--journal", "@"),
    ("pops-page", "@"),
    ("pops-page", "--input", "@", "@report"),
    ("pops-sheet", "@"),
    ("pops-sheet", "--report", "@", "@input"),
    ("pops-sheet", "--report", "@own", "--tries-text", "@", "@input"),
    ("pops-test", "@"),
    ("pops-test", "--input", "@", "@report"),
    ("pops-test", "--tries", "@", "@report"),
    ("pops-test", "--pose", "@"),
    ("pops2json", "@"),
    ("pops2json", "--tries", "@"),
)
# Command lines whose file @ would be written over.
OVERWRITING = (
    ("fen2pop", "-s", "#1", "--file", "@positions", "-o", "@positions"),
    ("pops-compare", "@report", "@report", "-o", "@report"),
    ("pops-explain", "@input", "-o", "@input"),
    ("pops-export", "--to", "yaml", "@input", "-o", "@input"),
    ("pops-import", "@input", "-o", "@input"),
    ("pops-judge", "@input", "-o", "@input"),
    ("pops-many", "@input", "-o", "@input"),
    ("pops-page", "--input", "@input", "@report", "-o", "@input"),
    ("pops-sheet", "@input", "--seconds", "0", "-o", "@input"),
    ("pops-test", "@report", "-o", "@report"),
    ("pops2json", "@report", "-o", "@report"),
)
# Command lines whose last word is standard input too.
FROM_STANDARD_INPUT = (
    ("fen2pop", "-s", "#1", "-o", "@positions"),
    ("pops-compare", "-", "@other", "-o", "@report"),
    ("pops-explain", "-", "-o", "@input"),
    ("pops-export", "--to", "yaml", "-o", "@input"),
    ("pops-import", "-o", "@input"),
    ("pops-judge", "-", "-o", "@input"),
    ("pops-many", "-o", "@input"),
    ("pops-many", "-o", "@made", "--index", "@input"),
    ("pops-page", "-", "-o", "@report"),
    ("pops-page", "--input", "-", "@report", "-o", "@input"),
    ("pops-sheet", "-", "-o", "@input"),
    ("pops-test", "-", "-o", "@report"),
    ("pops2json", "-o", "@report"),
)
# Command lines with one file for two outputs; the last word names it.
TWICE = (
    ("pops-import", "@input", "-o", "@made", "--index", "@made"),
    ("pops-import", "@input", "-o", "@made", "--index", "@link"),
    ("pops-explain", "@input", "--fix", "-o", "@input.fixed"),
    ("pops-explain", "@input", "--fix", "--force", "-o", "@input.fixed"),
)
# Command lines whose last word is standard output too.
TO_STANDARD_OUTPUT = (
    ("pops-import", "@input", "--index", "@made"),
    ("pops-many", "@input", "--index", "@made"),
    ("pops-many", "@input", "--journal", "@made"),
    ("pops-explain", "@input", "--fix", "@input.fixed"),
)
POSITIONS = b"6k1/8/6K1/8/8/8/8/R7 w - -\n" * 2_000


class Shortage:
    """Finds no module for want of memory."""

    @staticmethod
    def find_spec(*_: object) -> None:
        raise MemoryError


class Beginnings(unittest.TestCase):
    def test_no_memory_for_the_first_module(self) -> None:
        files = [it for it in support.COMPANIONS.iterdir() if it.is_file() and os.access(it, os.X_OK)]
        scripts = [it for it in files if not it.name.startswith("try-")]
        self.assertGreater(len(scripts), 10)
        for script in scripts:
            with self.subTest(script), mock.patch.object(sys, "meta_path", [Shortage, *sys.meta_path]):
                with mock.patch.dict(sys.modules), self.assertRaises(SystemExit) as end:
                    sys.modules.pop("pops_companions.start", None)
                    runpy.run_path(str(script))
                self.assertEqual(end.exception.code, 4)


_ENDS = OneOf(is_needed=True)


class Journey(Settings, prog="journey", description="Goes to a place.", epilog="example: journey Rome --by sea"):
    """A made command line."""

    place: str = word("PLACE", "where to")
    by: Optional[str] = option("-b --by", "WAY", "how")
    stops: list[str] = option("--stop", "PLACE", "on the way", action="append", default=[])
    returns: bool = flag("--return", "come back", one_of=_ENDS)
    stays: bool = flag("--stay", "don't", one_of=_ENDS)


class CommandLines(unittest.TestCase):
    def test_words_become_attributes(self) -> None:
        read = Journey.read(["Rome", "-b", "sea", "--stop", "Bari", "--stay"])
        self.assertEqual((read.place, read.by, read.stops, read.returns, read.stays), ("Rome", "sea", ["Bari"], False, True))
        read = Journey.read(["--return", "Rome"])
        self.assertEqual((read.by, read.stops, read.returns, read.stays), (None, [], True, False))

    def test_what_is_refused(self) -> None:
        for words, said in (
            (["Rome", "--stay", "--return"], "argument --return: not allowed with argument --stay"),
            (["Rome"], "one of the arguments --return --stay is required"),
            (["--stay"], "the following arguments are required: PLACE"),
        ):
            self.assertEqual(self.refused(partial(Journey.read, words)), f"journey: error: {said}")
        self.assertEqual(self.refused(partial(Journey.refuse, "no way")), "journey: error: no way")

    def refused(self, reads: Callable[[], object]) -> str:
        """The last line that is said where a command line ends the program with status 2."""
        with redirect_stderr(StringIO()) as said, self.assertRaises(SystemExit) as end:
            reads()
        self.assertEqual(end.exception.code, 2)
        return said.getvalue().splitlines()[-1]

    def test_a_second_command_line_begins_from_the_defaults(self) -> None:
        arguments = support.loaded("fen2pop").arguments
        for number in ("1", "2"):
            read = arguments(["-s", "#1", "--max-solutions", number, "k7/8/8/8/8/8/8/7K"])
            self.assertEqual(read.options, [f"MaxSolutions {number}"])


class Streams(unittest.TestCase):
    def test_a_reader_that_goes_away(self) -> None:
        cases: list[tuple[str, list[str], bytes]] = [
            ("pops-page", [], REPORT),
            ("pops2json", [], REPORT),
            ("pops-test", [], REPORT),
            ("fen2pop", ["-s", "#1"], POSITIONS),
        ]
        for name, words, text in cases:
            for unbuffered in ("", "1"):
                with self.subTest(name, unbuffered=unbuffered):
                    self.assertEqual(self.status(name, words, text, unbuffered), (3, b""))

    def status(self, name: str, words: list[str], text: bytes, unbuffered: str) -> tuple[int, bytes]:
        """Status and standard error of a companion whose output is read for ten bytes."""
        with tempfile.TemporaryFile() as source, tempfile.TemporaryFile() as errors:
            source.write(text)
            source.seek(0)
            run = subprocess.Popen(
                [sys.executable, str(support.COMPANIONS / name), *words],
                stdin=source,
                stdout=subprocess.PIPE,
                stderr=errors,
                env={**os.environ, "PYTHONUNBUFFERED": unbuffered},
            )
            assert run.stdout is not None
            # (written byte by byte, ten bytes may come in several pieces)
            self.assertEqual(len(run.stdout.read(10)), 10)
            run.stdout.close()
            status = run.wait(support.PATIENCE)
            errors.seek(0)
            return status, errors.read()

    def log_after(self, room: Path, words: list[str]) -> tuple[int, bytes, bytes]:
        """Status, messages, and what a file has that had a line, with standard output at its end."""
        log = room / "log"
        log.write_bytes(b"old\n")
        (room / "link").unlink(missing_ok=True)
        (room / "link").symlink_to("/dev/stdout")
        companion, *others = words
        program = [sys.executable, str(support.COMPANIONS / companion)]
        with log.open("ab") as output:
            others = [it.replace("%", str(output.fileno())) for it in others]
            done = subprocess.run([*program, *others], stdout=output, stderr=subprocess.PIPE, check=False)
        self.assertEqual({it.name for it in room.iterdir()}, {"input", "report", "positions", "log", "link"})
        # (on a busy machine pops-many shows how far it is)
        errors = re.sub(rb"(?m)^pops-many: .* first moves.*\n", b"", done.stderr)
        return done.returncode, errors, log.read_bytes()

    def test_an_output_that_is_open_is_written_on(self) -> None:
        kept = {"input": PROBLEM, "report": OF_THE_PROBLEM, "positions": POSITIONS[:80]}
        with tempfile.TemporaryDirectory() as name:
            room = Path(name)
            for file, text in kept.items():
                Path(room, file).write_bytes(text)
            for companion, *words in OVERWRITING:
                given = [it.replace("@", f"{room}/") for it in words[:-2]]
                others = ("/dev/fd/1", "/proc/self/fd/1", f"{room}/link", f"/proc/{os.getpid()}/fd/%")
                for output in ("/dev/stdout", *others[: 4 * (companion == "pops-test")]):
                    with self.subTest(companion, output=output):
                        after = self.log_after(room, [companion, *given, "-o", output])
                        if companion == "pops-judge":
                            self.assertEqual((after[0], after[2]), (2, b"old\n"))
                            self.assertIn(b"the sheet needs the name of a file", after[1])
                            continue
                        wanted = self.log_after(room, [companion, *given])
                        self.assertEqual(after, wanted)
                        self.assertGreater(len(after[2]), 4)

    def test_an_output_that_is_not_open(self) -> None:
        """Nor one that only the companion has open."""
        with tempfile.TemporaryDirectory() as room:
            report = Path(room, "report")
            report.write_bytes(OF_THE_PROBLEM)
            for number in (3, 4, 5, 77, "9" * 30):
                outcome = support.companion("pops-test", str(report), "-o", f"/dev/fd/{number}")
                self.assertIn((outcome.status, outcome.output), ((2, b""), (3, b"")))
                self.assertRegex(outcome.error, f"cannot write /dev/fd/{number}: |/dev/fd/{number} is named twice")
            self.assertEqual(report.read_bytes(), OF_THE_PROBLEM)

    @unittest.skipUnless(os.path.exists("/dev/full"), "no device that is full")
    def test_messages_that_nobody_takes(self) -> None:
        """What a companion makes is made all the same."""
        latin = PROBLEM.replace(b"Pieces", b"Title Caf\xe9\nPieces")
        report = support.run([support.pops()], latin).output
        for companion, *words in (
            ("pops-page", "@report"),
            ("pops-sheet", "@input", "--seconds", "0"),
            ("pops-find", "@data", "--add", "@input"),
            ("pops-test", "@none"),
        ):
            with self.subTest(companion), tempfile.TemporaryDirectory() as room:
                Path(room, "report").write_bytes(report)
                Path(room, "input").write_bytes(latin)
                program = [sys.executable, str(support.COMPANIONS / companion)]
                words = [it.replace("@", f"{room}/") for it in words]
                wanted = support.run([*program, *words])
                self.assertTrue(wanted.error)
                reading, writing = os.pipe()
                os.close(reading)
                for errors in (open("/dev/full", "wb"), os.fdopen(writing, "wb")):
                    with errors:
                        done = subprocess.run([*program, *words], stdout=subprocess.PIPE, stderr=errors, check=False)
                    self.assertEqual((done.returncode, done.stdout), wanted[:2])

    def test_closed_streams_are_told(self) -> None:
        command = f"'{sys.executable}' '{support.COMPANIONS / 'pops-page'}'"
        for closed, said in ((">&-", "standard output"), ("<&-", "standard input")):
            outcome = support.run(["sh", "-c", f"{command} {closed}"], b"problem 1\n#1\nsound\n\n")
            self.assertEqual(outcome, (3, b"", f"pops-page: {said} is closed\n"))

    def test_python_looks_beside_the_program(self) -> None:
        companion = str(support.COMPANIONS / "pops-page")
        outcome = support.run(["env", "PYTHONSAFEPATH=1", companion], OF_THE_PROBLEM)
        self.assertEqual((outcome.status, outcome.error), (0, ""))

    def test_a_width_that_no_terminal_has(self) -> None:
        command = [sys.executable, str(support.COMPANIONS / "fen2pop"), "--help"]
        texts = {}
        for columns in ("80", "0", "-5", "x", "\xb2", "9" * 4400):
            at = {**os.environ, "COLUMNS": columns}
            done = subprocess.run(command, stdin=subprocess.DEVNULL, capture_output=True, env=at, check=False)
            self.assertEqual((done.returncode, done.stderr), (0, b""), columns[:5])
            texts[columns[:5]] = done.stdout
        self.assertEqual(len(set(texts.values())), 1, texts)

    def test_a_dash_is_standard_input(self) -> None:
        report, problem = OF_THE_PROBLEM, PROBLEM
        cases: tuple[tuple[str, list[str], bytes], ...] = (
            ("pops2json", [], report),
            ("pops-page", [], report),
            ("pops-test", [], report),
            ("pops-import", [], problem),
            ("pops-export", ["--to", "yaml"], problem),
            ("pops-sheet", ["--to", "text", "--report", os.devnull, "--tries-text", os.devnull], problem),
        )
        for name, words, text in cases:
            with self.subTest(name):
                outcome = support.companion(name, *words, "-", text=text)
                self.assertNotIn("cannot open", outcome.error)
                self.assertTrue(outcome.output)

    def test_a_file_that_is_missing(self) -> None:
        """Whatever its name is, and for whatever it is given."""
        for companion, *words in MISSING:
            for name in ("missing", "bad\udcff", ""):
                with self.subTest(companion, words=words, name=name), tempfile.TemporaryDirectory() as room:
                    for file, text in (("report", REPORT), ("own", OF_THE_PROBLEM), ("input", PROBLEM)):
                        Path(room, file).write_bytes(text)
                    missing = os.path.join(room, name) if name else ""
                    given = [missing if it == "@" else it.replace("@", f"{room}/") for it in words]
                    outcome = run_here.companion(companion, *given)
                    said = f"{companion}: cannot open {missing}: No such file or directory"
                    self.assertEqual((outcome.status, outcome.output), (3, b""))
                    self.assertIn(outcome.error, (f"{said}\n", f"{said}: --add makes a collection\n"))

    def test_what_is_read_is_not_written_over(self) -> None:
        kept = {"input": PROBLEM, "report": REPORT, "positions": POSITIONS[:80]}
        for companion, *words in OVERWRITING:
            with self.subTest(companion), tempfile.TemporaryDirectory() as room:
                for file, text in kept.items():
                    Path(room, file).write_bytes(text)
                outcome = run_here.companion(companion, *(it.replace("@", f"{room}/") for it in words))
                self.assertIn(outcome.status, (2, 3))
                self.assertEqual(outcome.output, b"")
                self.assertIn("is named twice", outcome.error)
                for file, text in kept.items():
                    self.assertEqual(Path(room, file).read_bytes(), text)

    def test_standard_input_is_not_written_over(self) -> None:
        kept = {"input": PROBLEM, "report": REPORT, "positions": POSITIONS[:80], "other": REPORT}
        for companion, *words, output in FROM_STANDARD_INPUT:
            with self.subTest(companion), tempfile.TemporaryDirectory() as room:
                for file, text in kept.items():
                    Path(room, file).write_bytes(text)
                path = output.replace("@", f"{room}/")
                given = [it.replace("@", f"{room}/") for it in words]
                with open(path, "rb") as source:
                    program = [sys.executable, str(support.COMPANIONS / companion)]
                    run = subprocess.run([*program, *given, path], stdin=source, capture_output=True, check=False)
                self.assertIn((run.returncode, run.stdout), ((2, b""), (3, b"")))
                self.assertIn(f"{companion}: {path} is named twice\n".encode(), run.stderr)
                self.assertEqual(sorted(os.listdir(room)), sorted(kept))
                for file, text in kept.items():
                    self.assertEqual(Path(room, file).read_bytes(), text)

    def test_two_outputs_are_not_one_file(self) -> None:
        faulty = PROBLEM.replace(b"#1", b"#1x")
        for companion, *words in TWICE:
            with self.subTest(companion, words=words), tempfile.TemporaryDirectory() as room:
                Path(room, "input").write_bytes(faulty)
                Path(room, "link").symlink_to("made")
                given = [it.replace("@", f"{room}/") for it in words]
                outcome = run_here.companion(companion, *given)
                said = f"{companion}: {given[-1]} is named twice\n"
                self.assertEqual(outcome, (2, b"", said))
                self.assertEqual(sorted(os.listdir(room)), ["input", "link"])

    def test_an_output_is_not_standard_output_too(self) -> None:
        faulty = PROBLEM.replace(b"#1", b"#1x")
        for companion, *words, output in TO_STANDARD_OUTPUT:
            with self.subTest(companion, words=words), tempfile.TemporaryDirectory() as room:
                Path(room, "input").write_bytes(faulty)
                path = output.replace("@", f"{room}/")
                given = [it.replace("@", f"{room}/") for it in words] + [path] * (companion != "pops-explain")
                with open(path, "wb") as target:
                    program = [sys.executable, str(support.COMPANIONS / companion)]
                    run = subprocess.run([*program, *given], stdout=target, stderr=subprocess.PIPE, check=False)
                self.assertEqual((run.returncode, run.stderr), (2, f"{companion}: {path} is named twice\n".encode()))
                self.assertEqual(sorted(os.listdir(room)), sorted(["input", os.path.basename(path)]))
                self.assertEqual(Path(path).read_bytes(), b"")

    def test_all_companions_are_tried_on_missing_files(self) -> None:
        commands = {it.name for it in support.COMPANIONS.iterdir() if os.access(it, os.X_OK) and it.is_file()}
        tried = {companion for companion, *_ in MISSING}
        self.assertEqual({it for it in commands if not it.startswith("try-")}, tried)

    @unittest.skipUnless(os.path.exists("/dev/full"), "no device that is full")
    def test_a_full_device_is_told(self) -> None:
        for word in ("--help", "--version"):
            with self.subTest(word), open("/dev/full", "wb") as full:
                run = subprocess.run(
                    [sys.executable, str(support.COMPANIONS / "pops-page"), word],
                    stdout=full,
                    stderr=subprocess.PIPE,
                    timeout=support.PATIENCE,
                )
                self.assertEqual(run.returncode, 3)
                self.assertEqual(run.stderr, b"pops-page: No space left on device\n")


class Ends(unittest.TestCase):
    """How a companion ends whose command is a text of Python."""

    def ended(self, command: str, *loaded: str) -> "support.Outcome":
        lines = ["import os, signal, sys", f"sys.path.insert(0, {str(support.COMPANIONS)!r})", *loaded]
        lines += ["signal.signal(signal.SIGINT, signal.default_int_handler)", command]
        return support.run([sys.executable, "-c", "\n".join(lines)])

    def run_of(self, *lines: str) -> "support.Outcome":
        """How a companion ends whose command has these lines."""
        head = ["from pops_companions import command", "def main(words):"]
        body = [f"    {line}" for line in lines]
        return self.ended("\n".join([*head, *body, "command.run('it', main)"]))

    def test_an_interrupt_while_a_command_is_loaded(self) -> None:
        outcome = self.ended(
            "def interrupt(*_): os.kill(os.getpid(), signal.SIGINT)\n"
            "sys.meta_path.insert(0, type('Interrupting', (), {'find_spec': staticmethod(interrupt)}))\n"
            "start.judge()",
            "from pops_companions import start",
        )
        self.assertEqual(outcome, (-signal.SIGINT, b"", ""))

    def test_an_interrupt_that_is_ignored(self) -> None:
        """As by nohup: it stays ignored."""
        with tempfile.TemporaryDirectory() as room:
            first = Path(room, "sitecustomize.py")
            first.write_text("import os, signal\nos.kill(os.getpid(), signal.SIGINT)\n")
            script = support.COMPANIONS / "pops-find"
            ignoring = f"trap '' INT; PYTHONPATH='{room}' exec '{script}' --version"
            outcome = support.run(["/bin/sh", "-c", ignoring])
        self.assertEqual((outcome.status, outcome.error), (0, ""))

    def test_a_signal_while_nobody_reads(self) -> None:
        """What waits for a reader is dropped, in any stream."""
        with tempfile.TemporaryDirectory() as room:
            fifo = f"{room}/fifo"
            os.mkfifo(fifo)
            for command in ("while True: print('x' * 60)", f"with command.written('{fifo}') as it:\n        while True: it.write(bytes(60))"):
                reading, writing = (os.open(fifo, os.O_RDWR), os.open(fifo, os.O_WRONLY)) if fifo in command else os.pipe()
                lines = [f"import sys; sys.path.insert(0, {str(support.COMPANIONS)!r}); from pops_companions import command"]
                lines += [f"def main(words):\n    {command}", "command.run('it', main)"]
                words = [sys.executable, "-c", "\n".join(lines)]
                with self.subTest(command), subprocess.Popen(words, stdout=writing, stderr=subprocess.PIPE) as run:
                    wait_for(lambda writing=writing: not select.select([], [writing], [], 0)[1])  # type: ignore[misc]
                    run.send_signal(signal.SIGTERM)
                    self.assertEqual(run.communicate(timeout=support.PATIENCE)[1], b"it: stopped\n")
                    self.assertEqual(run.returncode, 6)
                os.close(reading)
                os.close(writing)

    def test_an_interrupt_before_a_command_is_loaded(self) -> None:
        outcome = self.ended(
            "def interrupt(*_): raise KeyboardInterrupt\n"
            "sys.meta_path.insert(0, type('Interrupting', (), {'find_spec': staticmethod(interrupt)}))\n"
            "sys.argv = ['/a/pops-judge']\n"
            "start.judge()",
            "from pops_companions import start",
        )
        self.assertEqual(outcome, (6, b"", "pops-judge: stopped\n"))

    def test_what_modules_say_of_a_shortage_is_dropped(self) -> None:
        outcome = self.ended(
            "def lack(*_):\n"
            "    sys.stderr.write('code for hash blake2b was not found\\n')\n"
            "    raise MemoryError\n"
            "sys.meta_path.insert(0, type('Lacking', (), {'find_spec': staticmethod(lack)}))\n"
            "sys.argv = ['/a/pops-judge']\n"
            "start.judge()",
            "from pops_companions import start",
        )
        self.assertEqual(outcome, (4, b"", "pops-judge: out of memory\n"))

    def test_a_folder_that_memory_does_not_suffice_to_list(self) -> None:
        lacking = mock.Mock(find_spec=mock.Mock(side_effect=OSError(errno.ENOMEM, os.strerror(errno.ENOMEM))))
        for name in sorted({words[0] for words in MISSING}):
            with self.subTest(name), mock.patch.dict(sys.modules), mock.patch.object(sys, "meta_path", [lacking]):
                sys.modules.pop("pops_companions.start", None)
                with self.assertRaises(SystemExit) as end:
                    runpy.run_path(str(support.COMPANIONS / name))
                self.assertEqual(end.exception.code, 4)

    def test_a_part_that_is_missing(self) -> None:
        outcome = self.ended(
            "from pops_companions import start\n"
            "sys.modules['pops_companions.files'] = None\n"
            "sys.argv = ['pops-find', '--version']\n"
            "start.find()"
        )
        self.assertEqual((outcome.status, outcome.output), (4, b""))
        self.assertRegex(outcome.error, r"\Apops-find: cannot begin: [^\n]*pops_companions\.files[^\n]*\n\Z")

    @unittest.skipUnless(os.path.exists("/proc/self/statm"), "no file tells the memory of a process")
    def test_too_little_memory_to_load_a_command(self) -> None:
        for name in ("pops-find", "pops-judge", "pops-test"):
            outcomes = [self.loaded_within(name, more) for more in range(0, 16_000, 1_000)]
            for outcome in outcomes:
                with self.subTest(name, outcome=outcome):
                    self.assertIn(outcome.status, (0, 4))
                    self.assertEqual(outcome.error.count("\n"), 1 if outcome.status else 0)
                    self.assertRegex(outcome.error, rf"\A(?:{name}: [^\n]*\n)?\Z")
            self.assertIn(4, {it.status for it in outcomes})

    def loaded_within(self, name: str, more: int) -> "support.Outcome":
        """How a companion ends with this much more memory, in KiB, than Python takes with `start`."""
        command = {"pops-test": "soundness"}.get(name, name.removeprefix("pops-"))
        return self.ended(
            "pages = int(open('/proc/self/statm').read().split()[0])\n"
            f"most = pages * resource.getpagesize() + {more} * 1024\n"
            "resource.setrlimit(resource.RLIMIT_AS, (most, most))\n"
            f"sys.argv = [{name!r}, '--version']\n"
            f"start.{command}()",
            "import resource",
            "from pops_companions import start",
        )

    def test_two_signals_at_once(self) -> None:
        both = "{signal.SIGINT, signal.SIGTERM}"
        sent = [f"os.kill(os.getpid(), {it})" for it in ("signal.SIGINT", "signal.SIGTERM")]
        outcome = self.run_of(
            f"signal.pthread_sigmask(signal.SIG_BLOCK, {both})",
            *sent,
            f"signal.pthread_sigmask(signal.SIG_UNBLOCK, {both})",
        )
        self.assertEqual(outcome, (6, b"", "it: stopped\n"))

    def test_a_signal_where_nothing_can_be_raised(self) -> None:
        outcome = self.run_of(
            "class Ending:",
            "    def __del__(self): os.kill(os.getpid(), signal.SIGTERM)",
            "Ending()",
            "while True: pass",
        )
        self.assertEqual(outcome, (6, b"", "it: stopped\n"))

    def test_a_signal_after_the_end(self) -> None:
        outcome = self.ended(
            "from pops_companions import command\n"
            "import atexit\n"
            "atexit.register(os.kill, os.getpid(), signal.SIGTERM)\n"
            "command.run('it', lambda words: 1)"
        )
        self.assertEqual(outcome, (1, b"", ""))

    def test_no_more_threads(self) -> None:
        outcome = self.run_of("raise RuntimeError(\"can't start new thread\")")
        said = "it: no more threads can be started: a limit of the machine\n"
        self.assertEqual(outcome, (3, b"", said))
