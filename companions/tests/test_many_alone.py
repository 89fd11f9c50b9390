"""pops-many on one problem alone: it is cut into parts unasked, and says how far it is."""

import io
import re
import shutil
import unittest
from collections.abc import Callable
from unittest import mock

from pops_companions.many.batches import Batches
from pops_companions.many.parts import Part, Phase
from pops_companions.many.progress import HowFar, Progress
from pops_companions.many.split_problem import Cutting, SplitProblem
from pops_companions.many.tasks import Source, tasks_of
from tests import parts_told, run_here, support
from tests.made_clock import Clock, made_clock
from tests.stand_ins import stand_in

# Some tenths of a second for pops.
LONG = (support.REPOSITORY / "examples" / "help_mate_in_three.pop").read_bytes()
LONG = LONG.replace(b"h#3\n", b"h#3.5\nCondition Circe\n")


class Alone(support.InRoom):
    def setUp(self) -> None:
        super().setUp()
        self.input = self.room / "one.pop"
        self.input.write_bytes(LONG)

    def lines(self, *words: str) -> tuple[support.Outcome, list[str]]:
        """What pops-many writes of the problem, and what it would show on a terminal."""
        told: list[str] = []

        def tell(progress: Progress, line: Callable[[float], str], is_last: bool) -> None:
            told.append(line(2.0))

        with mock.patch.object(Progress, "_tell", tell):
            outcome = run_here.companion("pops-many", *words, str(self.input))
        return outcome, told

    def test_one_problem_is_cut_into_parts(self) -> None:
        """On a fast machine too: in the place of pops is a program that never ends on the whole problem."""
        part = parts_told.program()
        if part is None:
            self.skipTest("pops-part isn't built")
        folder = self.input.parent
        shutil.copy(part, folder / "pops-part")
        checks_alone = f'case "$*" in *--check*) exec {support.pops()} "$@" ;; esac; exec sleep 6000\n'
        outcome, told = self.lines("--jobs", "2", "--pops", stand_in(folder / "pops", checks_alone))
        wanted = support.run([support.pops(), str(self.input)])
        self.assertEqual((outcome.status, outcome.output), (wanted.status, wanted.output))
        moves = [line for line in told if " first moves, " in line]
        self.assertTrue(moves, told)
        first = r"problem 1 \(.*line 1\): about 0 of (\d+) first moves, 0 solutions, 0:02 so far"
        self.assertRegex(moves[0], first)
        found = re.search(first, moves[0])
        assert found is not None
        # The first moves are those by which the problem is cut once.
        listed = support.run([part, "--list", str(self.input)]).output
        self.assertEqual(listed, b"1: play %d\n" % int(found[1]))
        # (a line that was made before the last one may come after it)
        self.assertIn(f"about {found[1]} of {found[1]} first moves", "\n".join(moves[-2:]))

    def test_not_with_a_limit_nor_among_others(self) -> None:
        both = LONG.replace(b"EndProblem", b"NextProblem") + LONG.partition(b"\n")[2]
        for words, text in (
            (("--check",), LONG),
            (("--seconds", str(support.PATIENCE), "--unfinished", f"{self.input}.rest"), LONG),
            ((), both),
        ):
            self.input.write_bytes(text)
            outcome, told = self.lines(*words)
            self.assertEqual(outcome.status, 0, outcome.error)
            self.assertEqual([line for line in told if " first moves" in line], [])

    def test_a_pops_of_another_build_is_left_alone(self) -> None:
        """The program of parts that it would take isn't of that build."""
        other = self.write_program("other-pops", f"#!/bin/sh\nsleep 0.2\nexec {support.pops()} \"$@\"\n")
        outcome, told = self.lines("--pops", other)
        self.assertEqual(outcome.status, 0)
        self.assertEqual([line for line in told if " first moves" in line], [])


class Heartbeat(unittest.TestCase):
    def test_it_tells_every_second_that_time_passes(self) -> None:
        with made_clock() as clock, mock.patch("sys.stderr", io.StringIO()) as shown:
            progress = Progress("pops-many")
            progress.is_shown = True
            progress.begin(0, 1)
            progress.begin_parts(31)
            progress.part("problem 1", lambda: HowFar(0, 31, True, 0, 31))
            with progress.beating():
                for _ in range(3):
                    clock.go(1)
            progress.part("problem 1", lambda: HowFar(1, 31, True, 0, 30))
            with progress.beating():
                clock.go(1)
        told = [line.strip() for line in shown.getvalue().split("\r") if line]
        line = "pops-many: problem 1: 0 of 31 first moves, 0 solutions"
        wanted = [line, *(f"{line}, 0:0{seconds} so far" for seconds in (1, 2, 3))]
        last = "pops-many: problem 1: 1 of 31 first moves, 0 solutions, about 2:00 left"
        self.assertEqual(told, [*wanted, last])

    def test_the_time_left_goes_down_while_parts_are_at_work(self) -> None:
        """Two at a time, 10 seconds each; the last one takes longer."""
        progress = Progress("pops-many")
        progress.begin_parts(6)

        def left(seconds: float, parts_left: int, *at_work: float) -> str:
            now = HowFar(0, 6, False, 0, parts_left, at_work)
            return progress.line_of_parts("problem 1", now, seconds).rpartition("solutions, ")[2]

        self.assertEqual(left(9, 6, 9, 9), "0:09 so far")
        self.assertEqual(left(10, 4, 0, 0), "about 0:20 left")
        self.assertEqual(left(11, 4, 1, 1), "about 0:19 left")
        self.assertEqual(left(17, 4, 7, 7), "about 0:13 left")
        self.assertEqual(left(30, 1, 10), "about 0:03 left")
        self.assertEqual(left(60, 1, 40), "about 0:10 left")

    def test_it_knows_how_long_parts_are_at_work(self) -> None:
        clock = Clock()
        task = tasks_of([Source(None, b"")])[0]
        parts = [Part(task, "play", number, 1) for number in range(1, 4)]
        with mock.patch("pops_companions.many.batches.time", clock):
            batches = Batches(parts, lambda part: part.number == 3)
            clock.now += 5
            first, second = batches.next(lambda part: False), batches.next(lambda part: False)
            assert first is not None and second is not None
            clock.now += 2
            first.pass_first()
            clock.now += 1
            self.assertEqual(batches.seconds_at_work, [1, 3])
            second.pass_first()
            batches.end(first)
            self.assertEqual(batches.seconds_at_work, [])

    def test_without_a_terminal_it_comes_seldom_in_lines(self) -> None:
        """Many problems have none, a short problem neither."""
        with made_clock() as clock, mock.patch("sys.stderr", io.StringIO()) as shown:
            progress = Progress("pops-many")
            progress.begin(0, 500)
            with progress.beating():
                clock.go(1000)
            progress.begin_parts(31)
            progress.part("problem 1", lambda: HowFar(3, 31, True, 1, 28))
            line = "pops-many: problem 1: 3 of 31 first moves, 1 solution, about {} left\n"
            first, second = line.format("4:49"), line.format("9:39")
            with progress.beating():
                for seconds, wanted in ((29, ""), (2, first), (28, first), (3, first + second)):
                    clock.go(seconds)
                    self.assertEqual(shown.getvalue(), wanted)

    def test_first_moves_of_deeper_parts(self) -> None:
        """As many of the first moves as of the parts; with a limit up to the last that matters."""
        phases = [Phase("set", 100), Phase("play", 400)]
        cut = Cutting(phases, [Phase("set", 10), Phase("play", 20)], 2)
        task = tasks_of([Source(None, b"")])[0]
        problem = SplitProblem(task, b"", cut, 2)
        self.assertFalse(problem.is_by_first_moves)
        self.assertEqual(problem.first_moves, (0, 30))
        for number in range(1, 40):
            problem.keep(Part(task, "play", number, 2), b"solutions: 0\n")
        self.assertEqual(problem.first_moves, (1, 30))
        problem.keep(Part(task, "play", 100, 2), b"1.a\n1.b\nsolutions: 2, stopped\n")
        self.assertEqual(problem.first_moves, (2, 15))
        self.assertTrue(SplitProblem(task, b"", Cutting(phases, phases, 2), None).is_by_first_moves)
