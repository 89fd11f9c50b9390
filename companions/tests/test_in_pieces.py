"""pops-test on large reports: judged in pieces by several processes, it says what one process says."""

import os
import signal
import sys
from contextlib import contextmanager, suppress
from itertools import product
from multiprocessing.connection import Connection
from typing import Iterator
from unittest import mock

from pops_companions.many import forked
from pops_companions.report import known_lines, reader
from pops_companions.report.reader import ReportReader
from pops_companions.review import in_pieces, judging
from tests import run_here, support

RANKS = b".......k ........ ........ ........ ........ ........ ........ RR......".split()
BOARD = b"".join(b"%d %s\n" % (8 - place, rank) for place, rank in enumerate(RANKS)) + b"  abcdefgh\n"
KEY = b"#2\nplay\n1.Ra1-a8\n  1...Kh8-h7\n    2.Ra8-a7#\n    2.Ra8-h8#\nsolutions: 1\n\n"
SELF = b"s#1\nplay\n1.Ra1-a8\n  1...Kh8-h7#\nsolutions: 1\n\n"
BODIES = [
    BOARD + KEY,
    b"title: Alone\n" + BOARD + b"#1\nplay\n1.Ra1-a8#\n1.Rb1-b8#\nsolutions: 2\n\n",
    b"title: Twins a)\n" + KEY,
    b"title: Twins b)\n" + KEY,
    b"title: Twins c)\n" + BOARD + KEY,
    b"title: duplex\nauthor: A\n" + KEY,
    b"line 7: fault 2: unknown or misplaced word\n\n",
    b"title: \xff\n#1\nplay\nsolutions: 0\n\n",
    b"h#1\nset\nnot possible\nplay\n1.Ka1-a2 e5*d6 ep.#\n1.Ka1-a2 Qd1-a4#\nsolutions: 2\n\n",
    b"title: T\n#1\nsound\n\n",
    b"title: Twins a)\n" + KEY,
    b"#3 Circe\nplay\n1.Ra1-a8\n  1...Kh8-h7\n    2.Ra8-a7\n      2...Kh7-h8\n        3.Ra7-a8#\nsolutions: 1, stopped\n\n",
    b"s#1\nset\n1...Kh8-h7#\nsolutions: 1\nplay\nsolutions: 0\nunfinished: stopped after 60 s\n\n",
]
WORDS: list[list[str]] = [[], ["--all"], ["--csv"], ["--apart"], ["--solutions", "2"]]


def report(numbers: list[int]) -> bytes:
    """A report of problems with these numbers, one of each kind after another."""
    bodies = (BODIES[place % len(BODIES)] for place in range(len(numbers)))
    return b"".join(b"problem %d\n%s" % one for one in zip(numbers, bodies))


@contextmanager
def pieces_of(size: int) -> Iterator[None]:
    """Lets a report of any size be cut into pieces of at least `size` bytes."""
    with mock.patch.multiple(in_pieces, LEAST_BYTES=0, PIECE_BYTES=size):
        with mock.patch.object(os, "sched_getaffinity", lambda _: {0, 1}):
            yield


class InPieces(support.InRoom):
    def setUp(self) -> None:
        super().setUp()
        self.file = self.room / "report"

    def compare(self, text: bytes, sizes: tuple[int, ...] = (1, 300), words: list[str] = []) -> None:
        self.file.write_bytes(text)
        whole = run_here.companion("pops-test", str(self.file), *words)
        for size in sizes:
            with pieces_of(size):
                self.assertEqual(run_here.companion("pops-test", str(self.file), *words), whole)

    def test_the_same_text(self) -> None:
        text = report(list(range(1, 60)))
        for words in WORDS:
            self.compare(text, (1, 300, 3000), words)

    def test_numbers_with_gaps_and_joined_reports(self) -> None:
        self.compare(report([1, 2, 5, 6, 20, 21, 1, 2, 3, 3, 3, 9, 10, 4, 5]))
        self.compare(report([1, 2, 9000, 9001, 13_000, 13_001, 13_002]))

    def test_unfinished_problems_beside_it(self) -> None:
        """They are judged in pieces too, in their places: twins between others, and after the last one."""
        numbers = [it for it in range(1, 90) if it % 4 or it % 20 == 0]
        bodies = [b"title: Twins b)\n#2\nplay\n1.Ra1-a8\n", b"", b"title: Twins a)\n#2\nplay\n", b"title: T \xff\n#1\nplay\n"]
        rest = [it for it in range(1, 100) if it not in numbers and it % 3]
        marked = b"".join(b"problem %d\n%sunfinished: stopped\n\n" % (it, bodies[it % 16 // 4]) for it in rest)
        self.file.with_name("report.unfinished").write_bytes(marked)
        cut: list[bytes] = []
        own = in_pieces.Cutter._cut

        def noted(cutter: in_pieces.Cutter, end: int, last: int) -> in_pieces.Piece:
            piece = own(cutter, end, last)
            cut.append(piece.text)
            return piece

        with mock.patch.object(in_pieces.Cutter, "_cut", noted):
            for words in WORDS:
                self.compare(report(numbers), (1, 300, 3000), words)
                self.assertTrue(cut)
                cut.clear()
            self.compare(b"")

    def test_an_input(self) -> None:
        twins = [b"Title T %s)\nRemark %s) Move a1 b1\nPieces White Ka1 Black Kh8\nStipulation #1\n" % (it, it) for it in (b"a", b"b", b"c", b"d")]
        text = b"BeginProblem\n" + b"NextProblem\n".join(twins * 4) + b"EndProblem\n"
        given = self.file.with_name("in.pop")
        given.write_bytes(text)
        body = b"title: T %s)\n#1\nplay\n1.Ka1-b1#\nsolutions: 1\n\n"
        items = [b"problem %d\n" % (it + 1) + body % b"abcd"[it % 4 : it % 4 + 1] for it in range(16)]
        for left_out in ({20}, {1, 2}, {4, 8}, {3, 7, 11, 15}, set(range(5, 14))):
            kept = b"".join(it for place, it in enumerate(items) if place not in left_out)
            self.compare(kept, (1, 100), ["--input", str(given)])
        self.compare(b"".join(items) + b"problem 17\n" + body % b"a", (1,), ["--input", str(given)])

    def test_a_fault_at_each_line(self) -> None:
        lines = report(list(range(1, len(BODIES) + 1))).splitlines(keepends=True)
        for place in range(0, len(lines), 3):
            self.compare(b"".join([*lines[:place], b"x\n", *lines[place:]]), (1,))
            self.compare(b"".join([*lines[:place], *lines[place + 1 :]]), (1,))
            self.compare(b"".join(lines[:place])[:-1], (1,))

    def test_an_input_in_place_of_a_report(self) -> None:
        self.compare(b"BeginProblem\n" + report([1, 2, 3]))

    def test_lines_that_are_too_long(self) -> None:
        for length in (1 << 20, (1 << 20) + 70_000):
            self.compare(report([1, 2]) + b"problem 3\ntitle: " + b"x" * length + b"\n" + KEY + report([4]))

    def test_copies_that_end_on_their_way(self) -> None:
        text = report(list(range(1, 60)))
        self.file.write_bytes(text)
        whole = run_here.companion("pops-test", str(self.file))
        work_off = forked._work_off

        def ended(work: forked.Work, pieces: Connection) -> None:
            """Ends the copy at its third piece."""
            left = [None, None]

            def some(piece: bytes) -> bytes:
                if not left:
                    os.kill(os.getpid(), signal.SIGKILL)
                left.pop()
                return work(piece)

            work_off(some, pieces)

        with pieces_of(1), mock.patch.object(forked, "_work_off", ended):
            self.assertEqual(run_here.companion("pops-test", str(self.file)), whole)
        with pieces_of(1), mock.patch.object(forked, "_forked", side_effect=BlockingIOError(11, "no more")):
            self.assertEqual(run_here.companion("pops-test", str(self.file)), whole)

    def test_one_copy_that_is_ended(self) -> None:
        """Another one does its piece; this process does none."""
        ended = self.file.with_name("ended")

        def work(piece: bytes) -> bytes:
            if piece == b"7":
                with suppress(FileExistsError):
                    ended.mkdir()
                    os.kill(os.getpid(), signal.SIGKILL)
            return b"done " + piece

        pieces = [b"%d" % number for number in range(40)]
        with forked.Copies(work, 3) as copies:
            results = list(copies.results(iter(pieces)))
        self.assertEqual(results, [(piece, b"done " + piece) for piece in pieces])
        self.assertTrue(ended.exists())

    def test_a_piece_that_ends_each_copy(self) -> None:
        def work(piece: bytes) -> bytes:
            if piece == b"7":
                os.kill(os.getpid(), signal.SIGKILL)
            return b"done " + piece

        pieces = [b"%d" % number for number in range(40)]
        for copies_made, left in ((3, True), (2, False), (1, False)):
            with forked.Copies(work, copies_made) as copies:
                results = dict(copies.results(iter(pieces)))
            self.assertEqual(list(results), pieces)
            self.assertIsNone(results.pop(b"7"))
            self.assertEqual(results[b"39"], b"done 39" if left else None)

    def test_no_copy_works_after_one_failed(self) -> None:
        def work(piece: bytes) -> bytes:
            raise ValueError

        pieces = [b"%d" % number for number in range(40)]
        with forked.Copies(work, 3) as copies:
            results = copies.results(iter(pieces))
            self.assertEqual(next(results), (b"0", None))
            copies.stop()
            self.assertEqual([piece for piece, _ in results], pieces[1:])

    def test_problems_that_show_the_same(self) -> None:
        """They share what they show, and judgements; else nothing differs."""
        names = (b"", b"title: One\n", b"title: \xff\nauthor: \xc3\xa4\n", b"title: Some a)\n", b"title: duplex\n", b"author: a\x01\n")
        boards = (BOARD, BOARD.replace(b"4 ...", b"4 .QQ"), BOARD.replace(b"4 ...", b"4 .NN"), BOARD.replace(b"5 ....", b"5 .nSq"), b"")
        shown = [KEY, KEY.replace(b"#2", b"#2 Circe"), SELF, SELF.replace(b"#1", b"#1 Circe"), BODIES[1], BODIES[12]]
        bodies = [b"".join(parts) for parts in product(names, boards, shown)] * 3
        bodies[100:100] = [BODIES[6], BODIES[9]]
        text = b"".join(b"problem %d\n%s" % (number + 1, body) for number, body in enumerate(bodies))
        text += text.partition(b"problem 300\n")[2]
        self.file.write_bytes(text)
        for words in (*WORDS, ["--encoding", "utf-16"]):
            with mock.patch.multiple(reader, _LONGEST_TAIL=0, _TAILS={}), mock.patch.object(judging, "_MOST_LINES", -1):
                whole = run_here.companion("pops-test", str(self.file), *words)
            self.assertEqual(run_here.companion("pops-test", str(self.file), *words), whole)
            for processors in ({0}, {0, 1}):
                with pieces_of(3000), mock.patch.object(os, "sched_getaffinity", lambda _: processors):
                    self.assertEqual(run_here.companion("pops-test", str(self.file), *words), whole)

    def test_few_problems_are_kept_and_always_the_last(self) -> None:
        keys = [b"#2\nplay\n1.%s\nsolutions: 1\n\n" % move for move in b"Ra1-a2 Ra1-a3 Ra1-a4 Ra1-a5 Ra1-a6 Ra1-a7".split()]
        text = b"".join(b"problem %d\n%s%s" % (at, BOARD, keys[at // 3]) for at in range(3, 18))
        self.file.write_bytes(text)
        whole = run_here.companion("pops-test", str(self.file))
        few = mock.patch.multiple(reader, _MOST_TAILS=2, _TAILS={}), mock.patch.object(judging, "_MOST_KEPT", 2)
        with few[0], few[1], mock.patch.object(known_lines, "MOST_KNOWN", 2):
            with mock.patch.object(judging, "judged", side_effect=judging.judged) as made:
                self.assertEqual(run_here.companion("pops-test", str(self.file)), whole)
            self.assertLessEqual(len(reader._TAILS), 2)
            self.assertIn(keys[-1], reader._TAILS)
        self.assertEqual(made.call_count, 5)

    def test_it_shows_on_a_terminal_how_far_it_is(self) -> None:
        self.file.write_bytes(report(list(range(1, 10_000))))
        for form in ("--all", "--page"):
            words = [sys.executable, str(support.COMPANIONS / "pops-test"), str(self.file), form]
            said = support.said_on_terminal(words)[1]
            self.assertRegex(said, rf"^\rpops-test: [0-9]+ % of {self.file} is read")
            self.assertTrue(said.endswith("\r\n"), said)

    def test_problems_that_show_the_same_are_judged_once(self) -> None:
        body = b"title: %d\n" + BOARD + KEY
        self.file.write_bytes(b"".join((b"problem %d\n" + body) % (number, number) for number in range(1, 400)))
        for module, name, most in (
            (judging, "judged", 2),
            (ReportReader, "_items_of", 3),
        ):
            with pieces_of(8000), mock.patch.object(os, "sched_getaffinity", lambda _: {0}), mock.patch.object(reader, "_TAILS", {}):
                with mock.patch.object(module, name, autospec=True, side_effect=getattr(module, name)) as made:
                    run_here.companion("pops-test", str(self.file))
            self.assertLessEqual(made.call_count, most)

    def test_it_is_cut(self) -> None:
        self.file.write_bytes(report(list(range(1, 60))))
        with pieces_of(1), mock.patch.object(forked.Copies, "results", autospec=True) as results:
            results.side_effect = lambda _, pieces: ((it, None) for it in pieces)
            run_here.companion("pops-test", "--apart", str(self.file))
            with open(self.file, "rb") as source:
                cutter = in_pieces.Cutter(source, [], "utf-8", True)
                self.assertEqual(sum(1 for _ in cutter.pieces()), 58)
        results.assert_called_once()


