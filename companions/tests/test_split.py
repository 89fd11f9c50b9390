"""pops-many --split: problems in parts have the bytes and the status of one run of pops."""

import io
import random
import re
import unittest
from collections.abc import Callable, Generator, Iterator, Mapping, Sequence
from pathlib import Path
from typing import Any, Optional
from unittest import mock

from pops_companions.many import part_program
from pops_companions.many.batches import Batch, Batches, numbers_of
from pops_companions.many.part_program import PartProgram
from pops_companions.many.parts import (
    Part,
    PartsError,
    Phase,
    count_in,
    limit_of,
    lines_without_total,
    phases_listed,
    solutions_in,
    up_to_totals,
)
from pops_companions.many.child_process import PAUSE, Outcome
from pops_companions.many.program import Program
from pops_companions.many.progress import HowFar, Progress
from pops_companions.many.split_problem import Cutting, Reader, SplitProblem
from pops_companions.many.tasks import Source, Task, tasks_of
from tests import made_inputs, parts_told, problems_in_parts, support

MANY = support.loaded("pops-many")
# A program that is there; this process makes what it writes.
NAMED = "/bin/true"
DATA = support.COMPANIONS / "data"


class Slow(Program):
    """pops, of which every sound problem takes longer than a moment: half of its lines are read.

    Each run comes to its end: on a busy machine its moment could be over before, and nobody would count it.
    """

    cut = 0

    def outcome(
        self,
        words: Sequence[str],
        text: bytes,
        seconds: Optional[float] = None,
        spooled_if: Optional[bytes] = None,
    ) -> Outcome:
        run = super().outcome(words, text)
        if seconds is None or run.status != 0:
            return run
        Slow.cut += 1
        return run._replace(output=run.output[: len(run.output) // 2], in_time=False)


class Told(PartProgram):
    """pops-part, asked for all parts of a phase at once."""

    def outcome(
        self,
        words: Sequence[str],
        text: bytes,
        seconds: Optional[float] = None,
        spooled_if: Optional[bytes] = None,
    ) -> Outcome:
        return Outcome(0, parts_told.answer(words, text), b"", True)

    def _pieces(
        self, words: Sequence[str], first: Part, pause: Callable[[], int]
    ) -> Generator[bytes, None, None]:
        text = parts_told.answer(words, first.text)
        yield from (text[begin : begin + 100] for begin in range(0, len(text), 100))


def split(path: Path, *words: str) -> tuple[int, bytes]:
    """Status and output of pops-many, each sound problem in parts, within this process."""
    target = io.BytesIO()
    settings = MANY.arguments(
        ["--pops", support.pops(), "--pops-part", NAMED, "--split", "--jobs", "2", *words]
        + [str(path)]
    )
    with mock.patch.object(MANY, "Program", Slow), mock.patch.object(part_program, "PartProgram", Told):
        status = MANY.solve(settings, target)
    return status, target.getvalue()


class BesidePops(support.InRoom):
    """A room in which pops-many and pops solve one input each."""

    def is_as_pops(self, text: bytes, *words: str) -> int:
        """One input against one run of pops. How many problems were cut."""
        path = self.room / "input.pop"
        path.write_bytes(text)
        options = [word for word in words if word == "--no-board"]
        wanted = support.run([support.pops(), *options, str(path)])
        before = Slow.cut
        self.assertEqual(split(path, *words), (wanted.status, wanted.output))
        return Slow.cut - before


class AsPops(BesidePops):
    @classmethod
    def setUpClass(cls) -> None:
        if parts_told.program() is None:
            print("pops-part: not built, so a stand-in told the parts")

    def test_all_forms(self) -> None:
        cut = 0
        for number, text in enumerate(problems_in_parts.made_inputs(300)):
            with self.subTest(number):
                words = ["--no-board"] * (number % 2)
                cut += self.is_as_pops(text, "--split-depth", str(1 + number % 3), *words)
        self.assertGreater(cut, 400)

    def test_every_row_and_example(self) -> None:
        cut = 0
        for path in support.stored_inputs():
            text = path.read_bytes()
            if support.is_for_check(path):
                continue
            for depth in self.depths(text):
                with self.subTest(path=path.name, depth=depth):
                    cut += self.is_as_pops(text, "--split-depth", str(depth))
        self.assertGreater(cut, 80)

    @staticmethod
    def depths(text: bytes) -> list[int]:
        """In help play 1 to 3, as long as there aren't too many parts."""
        if re.search(rb"\bh[#=]", text, re.IGNORECASE) is None:
            return [1]
        tasks = tasks_of([Source(None, text)])
        texts = [task.text_without_line_ends for task in tasks]
        return [it for it in (1, 2, 3) if sum(parts_told.count(one, it) for one in texts) < 1000]

    def test_problems_that_take_long(self) -> None:
        self.is_as_pops((DATA / "parts.pop").read_bytes())

    def test_made_texts(self) -> None:
        chance = random.Random(20)
        cut = 0
        for number in range(100):
            with self.subTest(number):
                text = made_inputs.made_input(chance)
                cut += self.is_as_pops(text, "--split-depth", str(1 + number % 3))
        self.assertGreater(cut, 60)


class WrongJoiners(BesidePops):
    """Joiners that take the limit of MaxSolutions for one of each part: they don't write as pops."""

    # Cut by one move, the set play has parts of 7, 7, 6, 5 and 7 solutions, the play of 28, 28 and
    # more.
    TEXTS = [
        b"BeginProblem Pieces White Kg6 Ra1 Black Kh8 Pa7b7c7 Stipulation h#2"
        b" Option SetPlay MaxSolutions %d EndProblem" % limit
        for limit in (10, 40)
    ]

    def are_refused(self, wrong: Mapping[str, Any]) -> None:
        """None of the texts is solved as pops does with that in place of the joiner's own."""
        for text in self.TEXTS:
            with self.subTest(text):
                self.assertEqual(self.is_as_pops(text, "--split-depth", "1"), 1)
                with mock.patch.multiple(SplitProblem, **wrong):
                    with self.assertRaises(AssertionError):
                        self.is_as_pops(text, "--split-depth", "1")

    def test_each_part_up_to_the_limit(self) -> None:
        """All that the parts show, each of which has no more than the limit."""

        def solutions(of: SplitProblem, phase: Phase, read: Reader) -> Iterator[bytes]:
            numbers = range(1, (phase.parts or 0) + 1)
            parts = [Part(of.task, phase.name, number, 1) for number in numbers]
            reports = [read(part) for part in parts]
            yield from map(lines_without_total, reports)
            yield b"solutions: %d\n" % sum(count_in(report) or 0 for report in reports)

        never = mock.Mock(return_value=False)
        with mock.patch("pops_companions.many.split_problem._PhaseInParts._end_at_limit", never):
            self.are_refused({"_solutions": solutions})

    def test_the_last_part_whole(self) -> None:
        """All solutions of the parts up to the one in which the limit is reached."""

        def all_of_them(of: SplitProblem, solutions: list[bytes]) -> list[bytes]:
            return solutions

        self.are_refused({"_up_to_limit": all_of_them})


class Texts(unittest.TestCase):
    def test_lists(self) -> None:
        self.assertEqual(phases_listed(b"1: play 30\n"), [Phase("play", 30)])
        self.assertEqual(
            phases_listed(b"1: set 18, play 31\n"), [Phase("set", 18), Phase("play", 31)]
        )
        self.assertEqual(
            phases_listed(b"1: set not possible, play 0\n"), [Phase("set", None), Phase("play", 0)]
        )
        for text in (b"", b"1: faulty\n", b"2: play 1\n", b"1: play 1", b"1: play 1\n2: play 1\n"):
            with self.subTest(text), self.assertRaises(PartsError):
                phases_listed(text)
        with self.assertRaisesRegex(PartsError, "--split-depth"):
            phases_listed(b"1: play 100001\n")

    def test_limits(self) -> None:
        cases = [
            (b"Beg Opt MaxSolutions 5 End", 5),
            (b"Beg Opt max\n\n 007\nEnd", 7),
            (b"Beg Opt MAXSOL 5 Opt Var Max 4000000000 End", 4000000000),
            (b"Beg Opt MaxSol\rAuthor 3\xff\r\ntit 4 End\n5 Rem Max 6\nEnd", 5),
            (b"Beg Title MaxSolutions 5\nRem Max 2\nEnd", None),
            (b"Beg Opt Var End", None),
        ]
        for text, wanted in cases:
            with self.subTest(text):
                self.assertEqual(limit_of(text), wanted)
        with self.assertRaises(PartsError):
            limit_of(b"Beg Opt MaxSol Var End")

    def test_solutions(self) -> None:
        self.assertEqual(solutions_in(b""), [])
        self.assertEqual(
            solutions_in(b"1.a\n  1...b\n    2.c\n1.d\n"), [b"1.a\n  1...b\n    2.c\n", b"1.d\n"]
        )
        cases = [
            (b"solutions: 0\n", 0),
            (b"1.a\n  1...b\n    2.c\n1.d\nsolutions: 2\n", 2),
            (b"1.a\nsolutions: 1, stopped\n", 1),
            (b"", None),
            (b"1.a\n", None),
            (b"1.a\nsolutions: 1", None),
            (b"1.a\nsolutions: 2\n", None),
            (b"1.a\nsolutions: 0\n", None),
            (b"solutions: 0\n1.a\n", None),
        ]
        for report, count in cases:
            with self.subTest(report):
                self.assertEqual(count_in(report), count)

    def test_pieces_up_to_totals(self) -> None:
        text = b"1.a\nsolutions: 1\nsolutions: 1, stopped\n1.b solutions: 2\nsolutions: x\n1.c"
        wanted = [(b"1.a\nsolutions: 1\n", True), (b"solutions: 1, stopped\n", True)]
        wanted += [(b"1.b solutions: 2\nsolutions: x\n", False), (b"1.c", False)]
        self.assertEqual(list(up_to_totals([text])), wanted)
        for size in range(1, len(text)):
            pieces = [text[begin : begin + size] for begin in range(0, len(text), size)]
            found = list(up_to_totals(pieces))
            with self.subTest(size):
                self.assertEqual(b"".join(piece for piece, _ in found), text)
                ends = [piece for piece, is_total in found if is_total]
                self.assertEqual([piece[-2:] for piece in ends], [b"1\n", b"d\n"])
        self.assertEqual(lines_without_total(b"solutions: 0\n"), b"")
        self.assertEqual(lines_without_total(b"1.a\n1.b\nsolutions: 2\n"), b"1.a\n1.b\n")

    def test_progress(self) -> None:
        progress = Progress("pops-many")
        progress.begin_parts(40)
        name = "problem 14 (x.pop, line 3)"
        self.assertEqual(
            progress.line_of_parts(name, HowFar(0, 31, True, 1, 40), 5),
            f"pops-many: {name}: 0 of 31 first moves, 1 solution, 0:05 so far",
        )
        self.assertEqual(
            progress.line_of_parts(name, HowFar(10, 31, False, 3, 30), 20),
            f"pops-many: {name}: about 10 of 31 first moves, 3 solutions, about 1:00 left",
        )


class Handed(unittest.TestCase):
    """How parts are handed out."""

    def parts(self, phase: str, numbers: Sequence[int]) -> list[Part]:
        task = tasks_of([Source(None, b"")])[0]
        return [Part(task, phase, number, 1) for number in numbers]

    def batches(self, parts: list[Part], alone: Sequence[int] = ()) -> Batches:
        return Batches(parts, lambda part: part.number in alone)

    def next(self, batches: Batches) -> Batch:
        """The next batch, where every seventh part is needless."""
        batch = batches.next(lambda part: part.number % 7 == 0)
        assert batch is not None
        return batch

    def test_lots_stand_one_behind_another(self) -> None:
        parts = self.parts("set", [1, 2, 3, 5, 6, 7]) + self.parts("play", range(8, 14))
        cases: list[tuple[Sequence[int], str]] = [
            ([], "1..3 5..7 8..13"),
            ([2, 11], "1 2..3 5..7 8..10 11..13"),
            (range(20), "1 2 3 5 6 8 9 10 11 12 13"),
        ]
        for alone, wanted in cases:
            batches = self.batches(parts, alone)
            found = [self.next(batches) for _ in wanted.split()]
            self.assertEqual([numbers_of(batch.left) for batch in found], wanted.split())
            for batch in found:
                self.assertEqual({part.phase for part in batch.left}, {batch.first.phase})

    def test_a_free_run_takes_half_of_the_longest_lot(self) -> None:
        batches = self.batches(self.parts("play", range(1, 14)))
        first = self.next(batches)
        steps = [
            ("8..13", "1..7"),
            ("5..7", "1..4"),
            ("11..13", "1..4"),
            ("3..4", "1..2"),
            ("10", "1..2"),
            ("7", "1..2"),
            ("13", "1..2"),
        ]
        for given, left in steps:
            taken = self.next(batches)
            self.assertEqual([numbers_of(batch.left) for batch in (taken, first)], [given, left])
        first.pass_first()
        self.assertEqual(numbers_of(first.left), "2")

    def test_the_part_at_work_stays(self) -> None:
        batches = self.batches(self.parts("play", range(1, 6)))
        first = self.next(batches)
        for _ in range(3):
            first.pass_first()
        self.assertEqual(numbers_of(self.next(batches).left), "5")
        self.assertIsNone(batches.next(lambda part: False))
        first.pass_first()
        self.assertEqual(len(first), 0)
        batches.end(first)
        self.assertIsNone(batches.next(lambda part: False))
        self.assertIsNone(self.batches([]).next(lambda part: False))

    def test_a_run_ends_where_its_parts_were_taken(self) -> None:
        """The rest of what it was asked for isn't read."""
        batch = Batch(self.parts("play", range(1, 7)))
        program = PartProgram(NAMED, 1)
        closed = []

        pauses = []

        def pieces(
            words: Sequence[str], first: Part, pause: Callable[[], int]
        ) -> Generator[bytes, None, None]:
            try:
                for _ in range(6):
                    yield b"solutions: 0\n"
                    pauses.append(pause())
            finally:
                closed.append(words[-3])

        with mock.patch.object(program, "_pieces", pieces):
            found = []
            for part, report in program.reports(batch):
                found.append((part.number, report))
                if part.number == 2:
                    self.assertEqual(numbers_of(batch.half()), "5..6")
        self.assertEqual(found, [(number, b"solutions: 0\n") for number in range(1, 5)])
        self.assertEqual(closed, ["1..6"])
        # It is read soon once few parts are left to it and others were taken.
        self.assertEqual([pause < PAUSE for pause in pauses], [False, True, True])

    def test_cut_soon_where_processors_have_nothing_to_do(self) -> None:
        cases: list[tuple[list[str], int, float]] = [
            ([], 3, 0.02),
            ([], 4, 2),
            (["--split-after", "7"], 3, 7),
            (["--split-after", "0.1"], 5, 0.1),
        ]
        for words, problems, moment in cases:
            with self.subTest(words, problems=problems):
                settings = MANY.arguments(["--split", *words])
                self.assertEqual(MANY.moment_of(settings, problems, 4), moment)

    def test_depths(self) -> None:
        cases: list[tuple[list[str], int]] = [
            ([], 2),
            (["--split-depth", "1"], 1),
            (["--sshlogin", "x"], 1),
            (["--sshlogin", "x", "--split-depth", "3"], 3),
        ]
        for words, depth in cases:
            with self.subTest(words):
                self.assertEqual(MANY.depth_of(MANY.arguments(["--split", *words])), depth)


class Problems(unittest.TestCase):
    """What is known of a problem, whatever the order in which its parts are done."""

    def problem(self, limit: Optional[int]) -> SplitProblem:
        self.task: Task = tasks_of([Source(None, b"")])[0]
        phases = [Phase("set", 2), Phase("play", 8)]
        return SplitProblem(self.task, b"", Cutting(phases, phases, 1), limit)

    def part(self, number: int, phase: str = "play") -> Part:
        return Part(self.task, phase, number, 1)

    @staticmethod
    def report(count: int) -> bytes:
        return b"1.a\n" * count + b"solutions: %d\n" % count

    def needless(self, problem: SplitProblem) -> str:
        return "".join(str(part.number) for part in problem.parts() if problem.is_needless(part))

    def test_parts_behind_enough_solutions_are_needless(self) -> None:
        problem = self.problem(3)
        steps = [
            (6, 2, False, "6"),
            (1, 0, False, "16"),
            (7, 1, True, "1678"),
            (4, 1, True, "14678"),
            (2, 3, True, "12345678"),
        ]
        for number, count, fewer, needless in steps:
            self.assertFalse(problem.is_needless(self.part(number)))
            self.assertEqual(problem.keep(self.part(number), self.report(count)), fewer)
            self.assertEqual(self.needless(problem), needless)
        self.assertEqual((problem.tally, problem.found), ((2, 4), 3))
        self.assertFalse(problem.is_done)
        for number in (1, 2):
            self.assertFalse(problem.is_needless(self.part(number, "set")))
            problem.keep(self.part(number, "set"), self.report(0))
        self.assertTrue(problem.is_done)

    def test_what_is_known_of_an_unfinished_problem(self) -> None:
        problem = self.problem(4)
        first = b"1.a\n  1...b\n    2.c\n  1...d\n1.e\n  1...f\n"
        reports = {
            self.part(2).key: b"1.e\n  1...f\n    2.g\nsolutions: 1\n",
            self.part(4).key: b"1.i\n1.j\nsolutions: 2\n",
        }
        # Less is known of the first part than pops wrote, and more of the second.
        begun = {self.part(1).key: b"1.a\n  1...b\n", self.part(3).key: b"1.h\n"}
        for number in (1, 2):
            problem.keep(self.part(number, "set"), self.report(0))
        for number in (2, 4):
            problem.keep(self.part(number), reports[self.part(number).key])

        def read(part: Part) -> bytes:
            return reports[part.key]

        whole = b"set\nnot possible\nplay\n" + first
        self.assertEqual(
            problem.lines_found(read, begun, whole),
            b"set\nsolutions: 0\nplay\n"
            b"1.a\n  1...b\n    2.c\n  1...d\n1.e\n  1...f\n    2.g\n1.h\n1.i\n",
        )
        self.assertEqual(
            problem.lines_found(read, {}, b""),
            b"set\nsolutions: 0\nplay\n1.e\n  1...f\n    2.g\n1.i\n1.j\n",
        )

    def test_without_a_limit_all_matter(self) -> None:
        problem = self.problem(None)
        for number in range(1, 9):
            self.assertFalse(problem.keep(self.part(number), self.report(1000)))
        self.assertEqual((problem.tally, problem.found), ((8, 10), 8000))
