"""What a run of pops-many costs beside the runs of pops, counted and not timed."""

import fcntl
import os
import subprocess
import sys
import tempfile
import unittest
from collections.abc import Iterator
from pathlib import Path
from unittest import mock

from pops_companions.input.pieces import rest_of
from pops_companions.many.bundles import Bundles, neighbours
from pops_companions.many.child_process import has_room
from pops_companions.many.cutting import Pieces
from pops_companions.many.tasks import Input, Source, tasks_of
from tests import run_here, support
from tests.test_bundles import MATE, input_of, steady

# What takes longer to load than ten thousand small problems to read.
LARGE = ["dataclasses", "importlib.metadata", "inspect", "pathlib", "shutil", "tempfile"]
LARGE += ["pops_companions.input.pieces", "pops_companions.many.parts"]
# Says which of these a run has loaded that solves its problems in one bundle, without a moment's limit.
SAYS = """
import io, sys
from pops_companions.commands import many
from pops_companions.many import bundle_run, bundles
bundles.Bundles._size_in = lambda self, tasks: len(tasks)
bundle_run.MOMENT = 6000.0
many.solve(many.arguments(sys.argv[1:2]), io.BytesIO())
print([name for name in sys.argv[2:] if name in sys.modules])
"""


class Costs(support.InRoom):
    def setUp(self) -> None:
        super().setUp()
        self.input = self.room / "x.pop"

    def test_what_a_run_loads(self) -> None:
        self.input.write_bytes(input_of(*[MATE] * 100))
        words = [sys.executable, "-S", "-c", SAYS, str(self.input), *LARGE]
        place = {"PYTHONPATH": str(support.COMPANIONS), "POPS": support.pops()}
        run = subprocess.run(words, env={**os.environ, **place}, capture_output=True)
        self.assertEqual(run.stderr, b"")
        self.assertEqual(run.stdout, b"[]\n")

    def test_no_problem_of_a_bundle_is_described(self) -> None:
        text = input_of(*[MATE] * 2000)
        self.input.write_bytes(text)
        looks: list[int] = []
        look = Pieces.at

        def counted(pieces: Pieces, place: int) -> object:
            looks.append(place)
            return look(pieces, place)

        whole = mock.patch.object(Bundles, "_size_in", lambda self, tasks: len(tasks))
        with steady(), whole, mock.patch.object(Pieces, "at", counted):
            outcome = run_here.companion("pops-many", "--pops", support.pops(), str(self.input))
        self.assertEqual(outcome.output, support.run([support.pops()], text).output)
        self.assertEqual(looks, [])

    def test_the_journal_of_a_run_without_one(self) -> None:
        """It is among the temporary files, in their usual folder where the one named isn't there."""
        failing = self.write_program("program", "#!/bin/sh\nexit 3\n")
        self.input.write_bytes(input_of(MATE, MATE))
        for folder, wanted in ((str(self.room), str(self.room)), (f"{self.room}/none", "/tmp")):
            with mock.patch.dict(os.environ, {"TMPDIR": folder}):
                words = ["--pops", failing, str(self.input)]
                outcome = run_here.companion("pops-many", *words)
            journal = Path(outcome.error.rpartition("--journal ")[2].strip())
            self.assertEqual((outcome.status, str(journal.parent)), (6, wanted))
            self.assertEqual(journal.stat().st_mode & 0o777, 0o600)
            journal.unlink()


class Quick(unittest.TestCase):
    """The quick ways do what the plain ones do."""

    def test_neighbours_by_their_places(self) -> None:
        closed, begun = input_of(*[MATE] * 3), input_of(*[MATE] * 2).replace(b"EndProblem", b"")
        texts = (closed, begun, None, b"", closed, begun[: begun.index(b"Next")], closed)
        tasks = tasks_of([Source(f"{it}.pop", text) for it, text in enumerate(texts)])
        self.assertEqual(len(tasks), 14)
        for begin in range(len(tasks)):
            for stop in range(begin + 1, len(tasks) + 1):
                runs = [list(run) for run in neighbours(tasks[begin:stop])]
                self.assertEqual(runs, neighbours(list(tasks)[begin:stop]))

    def test_a_part_of_many_inputs(self) -> None:
        """It is taken without a look at each input."""

        class Unread(list[Input]):
            def __iter__(self) -> Iterator[Input]:
                raise AssertionError("all inputs are gone through")

        tasks = tasks_of([Source(f"{it}.pop", input_of(MATE, MATE)) for it in range(20)])
        tasks.inputs = Unread(tasks.inputs)
        shown = [task.shown for task in tasks[20:22]]
        self.assertEqual(shown, ["problem 1 (10.pop, line 1)", "problem 2 (10.pop, line 4)"])

    def test_the_usual_end_of_a_text(self) -> None:
        for end, is_usual in (("EndProblem\n", True), ("END \r\n", True), ("", True), ("End\nx", False)):
            text = f"BeginProblem\n{MATE}{end}".encode()
            with self.subTest(end):
                self.assertEqual(Pieces(text).end_text, is_usual)
                self.assertEqual(rest_of(text) is None, is_usual)

    def test_room_for_a_long_text(self) -> None:
        reading, writing = os.pipe()
        with open(reading, "rb"), open(writing, "wb") as pipe:
            self.assertTrue(has_room(pipe, 500_000))
            fcntl.fcntl(writing, fcntl.F_SETFL, os.O_NONBLOCK)
            self.assertEqual(os.write(writing, bytes(500_000)), 500_000)
            self.assertFalse(has_room(pipe, (1 << 31) + 1))
            os.set_blocking(writing, True)


if __name__ == "__main__":
    unittest.main()
