"""The module pops: events as they come, limits, cancelling, asyncio, diagnostics."""

import asyncio
import contextlib
import itertools
import os
import threading
import unittest
from collections.abc import Iterable
from pathlib import Path
from unittest import mock

import pops
from pops_companions.report import lines
from pops_companions.report.reader import read_events
from pops_companions.report.tries import lines_of
from tests import support

# The second problem takes far longer than any test.
ENDLESS = """
BeginProblem
Pieces White Kg6 Ra1 Black Kg8
Stipulation #1
NextProblem
Pieces White Ke1 Qd1 Ra1h1 Bc1f1 Sb1g1 Black Ke8 Qd8 Ra8h8 Bc8f8 Sb8g8
Stipulation #12
EndProblem
"""
PAIR = "BeginProblem\nPieces White Kg6 Ra1b1 Black Kg8\nStipulation #1\nEndProblem\n"
HELP = "BeginProblem\nPieces White Kg6 Ra1 Black Kh8\nStipulation h#2\nEndProblem\n"


def report_of(events: Iterable[pops.Event]) -> bytes:
    """The report that events were read from."""
    return b"".join(itertools.chain.from_iterable(map(bytes_of, events)))


def bytes_of(event: pops.Event) -> Iterable[bytes]:
    if isinstance(event, pops.ProblemEvent):
        yield lines.problem_line(event.problem)
    elif isinstance(event, pops.FaultEvent):
        fault = event.fault
        yield f"line {fault.line}: fault {fault.number}: {fault.text}\n".encode()
    elif isinstance(event, pops.HeadEvent):
        for label, text in ((lines.TITLE, event.title), (lines.AUTHOR, event.author)):
            yield b"" if text is None else label + text + b"\n"
        if event.board is not None:
            ranks = zip(range(8, 0, -1), event.board.ranks)
            yield b"".join(f"{number} {rank}\n".encode() for number, rank in ranks)
            yield lines.FILES + b"\n"
        condition = "" if event.condition is None else f" {event.condition.value}"
        yield f"{event.stipulation.text}{condition}\n".encode()
    elif isinstance(event, pops.LineEvent):
        yield f"{event.line.text}\n".encode()
    elif isinstance(event, pops.EndEvent):
        yield b"\n"
    else:
        yield "".join(f"{line}\n" for line in lines_of(event)).encode()


class Reading(unittest.TestCase):
    def test_events_have_all_of_a_report(self) -> None:
        for path in support.stored_reports():
            with self.subTest(path.name):
                report = path.read_bytes()
                events = read_events(pops.ReportReader(pops.Allowed.FINISHED), [report])
                self.assertEqual(report_of(events), report)

    def test_texts_come_in_pieces_of_any_size(self) -> None:
        tries = [it.with_suffix(".tries") for it in support.tries_inputs()]
        for path in (*support.stored_reports(), *tries):
            kind = pops.TriesReader if path.suffix == ".tries" else pops.ReportReader
            text = path.read_bytes()[:20000]
            whole = list(read_events(kind(pops.Allowed.UNFINISHED), [text]))
            for size in (1, 7):
                pieces = [text[at : at + size] for at in range(0, len(text), size)]
                with self.subTest(path.name, size=size):
                    reader = kind(pops.Allowed.UNFINISHED)
                    self.assertEqual(list(read_events(reader, pieces)), whole)

    def test_an_event_comes_with_its_line(self) -> None:
        """Each line's events are there once its line end is, before anything of the next line."""
        report = (support.REPOSITORY / "examples/morphy_1856.report").read_bytes()
        reader = pops.ReportReader(pops.Allowed.FINISHED)
        given = read = b""
        for line in report.splitlines(True):
            given += line
            read += report_of(reader.feed(line))
            if b"\nplay\n" in given:
                self.assertEqual(read, given)

    def test_a_text_that_ends_anywhere_has_its_end(self) -> None:
        report = (support.REPOSITORY / "examples/morphy_1856.report").read_bytes()
        for length in range(1, len(report)):
            reader = pops.ReportReader(pops.Allowed.UNFINISHED)
            events = [*reader.feed(report[:length]), *reader.close("killed")]
            if b"\n" not in report[:length]:
                self.assertEqual(events, [])
                continue
            is_whole = report[:length].endswith(b"solutions: 1\n")
            self.assertEqual(events[-1], pops.EndEvent(1, None if is_whole else "killed"))

    def test_a_text_of_tries_that_is_cut(self) -> None:
        text = (support.REPOSITORY / "tests/tries/morphy_1856.tries").read_bytes()
        cut = text[: text.index(b"\ntries\n") + 1]
        (item,) = pops.read_unfinished_tries([cut])
        assert isinstance(item, pops.TriesItem)
        (whole,) = pops.read_tries([text])
        assert isinstance(whole, pops.TriesItem)
        self.assertEqual((item.keys, item.total, item.tries), (whole.keys, whole.total, ()))
        self.assertEqual(item.unfinished, "the report ends here")


class Runs(support.InRoom):
    def setUp(self) -> None:
        super().setUp()
        self.engine = pops.Engine(support.pops())

    def test_a_run_gives_the_report_of_the_program(self) -> None:
        path = support.REPOSITORY / "examples" / "morphy_1856.pop"
        run = self.engine.solve(path.read_bytes())
        events = list(run)
        report = path.with_suffix(".report").read_bytes()
        self.assertEqual(report_of(events), report)
        result = run.result
        self.assertEqual((result.text, result.status), (report, 0))
        self.assertIs(result.ending, pops.Ending.COMPLETE)
        self.assertEqual(result.items, tuple(pops.read_report([report])))

    def test_a_long_text_is_read_while_it_is_given(self) -> None:
        """Input and report are both larger than a pipe."""
        block = "Pieces White Kg6 Ra1 Black Kg8\nStipulation #1\n"
        text = "BeginProblem\n" + "NextProblem\n".join([block] * 3000) + "EndProblem\n"
        result = self.engine.solve(text).result
        self.assertEqual((len(result.items), result.ending), (3000, pops.Ending.COMPLETE))

    def test_a_fault(self) -> None:
        result = self.engine.solve("BeginProblem\nPieces Kg6\nEndProblem\n").result
        self.assertEqual(result.status, 1)
        fault = pops.Fault(2, 4, "colour expected before men")
        self.assertEqual(result.items, (pops.FaultyItem(1, fault),))

    def test_cancel_ends_a_run_at_once(self) -> None:
        run = self.engine.solve(ENDLESS)
        for event in run:
            if event == pops.PhaseEvent(2, pops.PhaseKind.PLAY):
                break
        threading.Timer(0.2, run.cancel).start()
        self.assertEqual(list(run), [pops.EndEvent(2, "cancelled")])
        first, second = run.result.items
        assert isinstance(first, pops.SoundItem) and isinstance(second, pops.SoundItem)
        self.assertEqual((first.unfinished, second.unfinished), (None, "cancelled"))
        self.assertEqual(run.result.ending, pops.Ending.CANCELLED)
        self.assertEqual(run._child.run.returncode, -9)

    def test_leaving_the_block_ends_the_run(self) -> None:
        with self.engine.solve(ENDLESS) as run:
            self.assertEqual(next(run), pops.ProblemEvent(1))
        self.assertEqual(run._child.run.returncode, -9)

    def test_limit_of_seconds(self) -> None:
        # (on a busy machine it takes longer to come to the second problem)
        for seconds in (0.5, 10, 200):
            result = self.engine.solve(ENDLESS, pops.Limits(seconds=seconds)).result
            self.assertIs(result.ending, pops.Ending.SECONDS)
            self.assertIsNone(result.status)
            if len(result.items) == 2:
                break
        self.assertEqual([it.number for it in result.items], [1, 2])

    def test_limit_of_seconds_with_a_late_timer(self) -> None:
        """The limit of processor time ends the program before the timer does."""
        program = self.write_program("pops", "#!/bin/sh\necho problem 1\nsleep 0.2\nkill -9 $$\n")
        with mock.patch("threading.Timer.start"):
            result = pops.Engine(program).solve(PAIR, pops.Limits(seconds=0.1)).result
        self.assertIs(result.ending, pops.Ending.SECONDS)
        self.assertEqual(result.text, b"problem 1\n")

    def test_a_limit_of_more_seconds_than_a_thread_waits(self) -> None:
        for seconds in (1e300, float("inf")):
            with self.subTest(seconds), mock.patch("threading.excepthook") as failed:
                result = self.engine.solve(PAIR, pops.Limits(seconds=seconds)).result
                self.assertIs(result.ending, pops.Ending.COMPLETE)
                failed.assert_not_called()
        with self.assertRaises(ValueError):
            pops.Limits(seconds=float("nan"))

    def test_limit_of_bytes(self) -> None:
        whole = self.engine.solve(PAIR).result.text
        for length in (0, 1, 50, len(whole) - 1):
            with self.subTest(length):
                result = self.engine.solve(PAIR, pops.Limits(bytes=length)).result
                self.assertIs(result.ending, pops.Ending.BYTES)
                self.assertEqual(result.text, whole[:length])
        result = self.engine.solve(PAIR, pops.Limits(bytes=len(whole))).result
        self.assertIs(result.ending, pops.Ending.COMPLETE)

    def test_limit_of_solutions(self) -> None:
        """Kg6 Ra1b1 against Kg8 has the two mates on the eighth rank."""
        run = self.engine.solve(PAIR, pops.Limits(solutions=1))
        texts = [event.text for event in run if isinstance(event, pops.NodeEvent)]
        self.assertEqual(texts, ["1.Ra1-a8#"])
        self.assertIs(run.result.ending, pops.Ending.SOLUTIONS)
        run = self.engine.solve(PAIR, pops.Limits(solutions=2))
        self.assertEqual(sum(isinstance(event, pops.NodeEvent) for event in run), 2)
        self.assertIs(run.result.ending, pops.Ending.COMPLETE)
        run = self.engine.solve(HELP, pops.Limits(solutions=3))
        self.assertEqual(sum(isinstance(event, pops.LineEvent) for event in run), 3)
        self.assertIs(run.result.ending, pops.Ending.SOLUTIONS)

    def test_a_program_that_fails(self) -> None:
        program = self.write_program("pops", "#!/bin/sh\necho problem 1\necho no room >&2\nexit 4\n")
        run = pops.Engine(program).solve(PAIR)
        self.assertEqual(next(run), pops.ProblemEvent(1))
        self.assertEqual(next(run), pops.EndEvent(1, "the program failed"))
        with self.assertRaisesRegex(pops.RunError, "^pops ended with status 4: no room$"):
            next(run)
        with self.assertRaises(pops.MissingError):
            pops.Engine("/no/such/program")

    def test_a_program_that_says_too_much(self) -> None:
        program = self.write_program("pops", "#!/bin/sh\ncat > /dev/null\nexec head -c 2000000 /dev/zero >&2\n")
        with mock.patch("pops_companions.many.program.MOST_ERRORS", 1 << 20):
            with self.assertRaisesRegex(pops.RunError, "^pops was ended: it wrote more than 1 MiB$"):
                list(pops.Engine(program).solve(PAIR))

    def test_version(self) -> None:
        number = (support.REPOSITORY / "VERSION").read_text().split()[0]
        self.assertEqual(pops.__version__, number)
        program = self.write_program("pops", "#!/bin/sh\n")
        self.assertEqual(pops.Engine(program).version, "unknown")


class Tries(unittest.TestCase):
    def test_events_of_tries(self) -> None:
        stored = support.REPOSITORY / "tests/tries/morphy_1856.tries"
        text = stored.with_suffix(".pop").read_bytes()
        with contextlib.suppress(pops.MissingError):
            engine = pops.Engine(tries=True)
            result = engine.solve(text).result
            self.assertEqual(result.text, stored.read_bytes())
            self.assertEqual(result.items, tuple(pops.read_tries([stored.read_bytes()])))
            return
        self.skipTest("there is no pops-tries")


class Asynchronous(unittest.TestCase):
    def setUp(self) -> None:
        self.engine = pops.Engine(support.pops())

    def test_runs_beside_each_other(self) -> None:
        async def both() -> list[pops.Result]:
            runs = [self.engine.solve_async(PAIR) for _ in range(2)]
            return list(await asyncio.gather(*(run.result() for run in runs)))

        whole = self.engine.solve(PAIR).result
        self.assertEqual(asyncio.run(both()), [whole, whole])

    def test_events(self) -> None:
        async def events() -> list[pops.Event]:
            async with self.engine.solve_async(PAIR) as run:
                return [event async for event in run]

        self.assertEqual(asyncio.run(events()), list(self.engine.solve(PAIR)))

    def test_a_cancelled_task_ends_its_run(self) -> None:
        run = self.engine.solve(ENDLESS)

        async def cancelled() -> None:
            async def wait() -> None:
                async for _ in pops.AsyncRun(run):
                    pass

            with self.assertRaises(asyncio.TimeoutError):
                await asyncio.wait_for(wait(), 0.5)

        asyncio.run(cancelled())
        self.assertIs(run.result.ending, pops.Ending.CANCELLED)


class Problems(unittest.TestCase):
    def test_from_fen(self) -> None:
        problem = pops.Problem.from_fen("6k1/8/6K1/8/8/8/8/R7 w - - 0 1", "#1", ["NoBoard"])
        self.assertEqual(
            problem.text,
            "BeginProblem\nRemark FEN 6k1/8/6K1/8/8/8/8/R7 w - - 0 1\n"
            "Pieces White Kg6 Ra1 Black Kg8\nStipulation #1\nOption NoBoard\nEndProblem\n",
        )
        with self.assertRaises(pops.FenError):
            pops.Problem.from_fen("6k1/8", "#1")
        with self.assertRaises(ValueError):
            pops.Problem.from_fen("6k1/8/6K1/8/8/8/8/R7 w - - 0 1", "mate")

    def test_to_text(self) -> None:
        men = {
            pops.Square.of_name("g6"): pops.Man(pops.Colour.WHITE, pops.Kind.KING),
            pops.Square.of_name("g8"): pops.Man(pops.Colour.BLACK, pops.Kind.KING),
        }
        problem = pops.Problem(
            men,
            pops.Stipulation.of_text("h#2.5"),
            pops.Condition.CIRCE,
            ("SetPlay", "MaxSolutions 5"),
            title="Two\nlines",
            origin="Here",
        )
        self.assertEqual(
            problem.text,
            "BeginProblem\nTitle Two lines\nOrigin Here\nPieces White Kg6 Black Kg8\n"
            "Stipulation h#2.5\nCondition Circe\nOption SetPlay MaxSolutions 5\nEndProblem\n",
        )


class Diagnostics(unittest.TestCase):
    def setUp(self) -> None:
        self.engine = pops.Engine(support.pops())

    def test_place_cause_and_fix(self) -> None:
        text = "BeginProblem\nTitle \u00dc\nPieces White Kg6 Da1 Black Kg8\nStipulation #1\nEndProblem\n"
        (one,) = pops.explain(text, self.engine)
        self.assertEqual((one.problem, one.line, one.column, one.length), (1, 3, 18, 3))
        self.assertEqual(one.fault, pops.Fault(3, 2, "unknown or misplaced word"))
        self.assertIn("write `Qa1`", one.cause)
        self.assertEqual(one.fix, pops.Fix(pops.Range(3, 18, 3), "Qa1"))

    def test_characters_are_counted(self) -> None:
        text = "BeginProblem\nPieces White Kg6 \u2654a1 Black Kg8\nStipulation #1\nEndProblem\n"
        (one,) = pops.explain(text, self.engine)
        self.assertEqual((one.line, one.column, one.length), (2, 18, 3))

    def test_what_is_missing_stands_after_the_last_word(self) -> None:
        (one,) = pops.explain("BeginProblem\nPieces White Kg6", self.engine)
        assert one.fault is not None
        self.assertEqual((one.fault.number, one.line, one.column, one.length), (19, 2, 14, 3))
        (one,) = pops.explain("\n", self.engine)
        self.assertEqual((one.line, one.column, one.length), (2, 1, 0))

    def test_fixes_mend(self) -> None:
        """Each fix, written in place of its characters, leaves another fault or none."""
        text = "BeginProblem\nPieces Withe Kg6 Ra1 Black Kg8\nStipulation #1\nEndProblem\n"
        (one,) = pops.explain(text, self.engine)
        assert one.fix is not None
        rows = text.split("\n")
        row, at = rows[one.fix.range.line - 1], one.fix.range.column - 1
        rows[one.fix.range.line - 1] = row[:at] + one.fix.text + row[at + one.fix.range.length :]
        self.assertEqual(pops.explain("\n".join(rows), self.engine), [])

    def test_a_notice_is_no_fault(self) -> None:
        text = "BeginProblem\nPieces White Kg6 Na1 Black Kg8\nStipulation #1\nEndProblem\n"
        (one,) = pops.explain(text, self.engine)
        self.assertIsNone(one.fault)
        self.assertEqual((one.line, one.column, one.length), (2, 1, 30))

    def test_every_fault(self) -> None:
        text = "BeginProblem\nPieces White Kg6 Da1 La2 Black Kg8\nStipulation #1\nEndProblem\n"
        self.assertEqual(len(pops.explain(text, self.engine)), 1)
        self.assertGreater(len(pops.explain(text, self.engine, every=True)), 1)


class Public(unittest.TestCase):
    def test_all_names_are_there_and_documented(self) -> None:
        self.assertEqual(len(pops.__all__), len(set(pops.__all__)))
        for name in pops.__all__:
            with self.subTest(name):
                self.assertTrue(name == "Event" or getattr(pops, name).__doc__)

    def test_it_says_that_it_has_types(self) -> None:
        folder = Path(pops.__file__).parent
        self.assertTrue(os.path.isfile(folder / "py.typed"))
        self.assertTrue(os.path.isfile(support.PACKAGE / "py.typed"))
