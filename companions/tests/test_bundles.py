"""Bundles of small problems in pops-many: the report stays that of pops, byte by byte."""

import unittest
from collections.abc import Iterator, Sequence
from contextlib import contextmanager
from unittest import mock

from pops_companions.many.bundles import Bundles, items_in, text_of
from pops_companions.many.machines import is_small, logins_of
from pops_companions.many.tasks import Source, Task, Tasks, tasks_of
from tests import run_here, support
from tests.shown_limit import limit_when_shown, shown
from tests.stand_ins import stand_in

MATE = "Pieces White Kg6 Ra1 Black Kg8\nStipulation #1\n"
LONG = "Pieces White Kb1 Pc2e2g2 Black Ke8 Ra8h8 Pa7c7e7g7h7\nStipulation h#6\n"
# Their reports differ: titles, faults in the middle of lines, twins in a line, no board.
KINDS = (
    "Title Two\nPieces White Kf7 Ra1 Black Kh8 Ph7\nStipulation #2\nOption Variation SetPlay\n",
    "Title A fault\nPieces White Kg6\n Xa1 Black Kg8\nStipulation #1\n",
    "Pieces White Kg6 Ra1 Black Kg8 Option NoBoard Stip #1\n",
    "Stipulation #1\n",
    "Remark NextProblem is no word here\nPieces White Kg6 Ra1 Black Kh8\nStipulation h#1.5\n",
)


@contextmanager
def steady() -> Iterator[None]:
    """Lets bundles have the size of the first ones, however slow the machine is."""
    with mock.patch.object(Bundles, "note"), mock.patch("pops_companions.many.bundle_run.MOMENT", 6000.0):
        yield


def input_of(*problems: str) -> bytes:
    return f"BeginProblem\n{'NextProblem '.join(problems)}EndProblem\n".encode()


def tasks(text: bytes) -> Tasks:
    return tasks_of([Source("x.pop", text)])


class Made(unittest.TestCase):
    def test_small_and_long_problems(self) -> None:
        for stipulation, wanted in (
            *(("#3", True), ("#4", False), ("s#2", True), ("s#3", False), ("h#2.5", True)),
            *(("h#3", False), ("h=2", True), ("=4", False), ("nothing", True)),
        ):
            with self.subTest(stipulation):
                (task,) = tasks(input_of(MATE.replace("#1", stipulation)))
                self.assertEqual(is_small(task), wanted)
        (without,) = tasks(b"BeginProblem\n" + MATE.encode())
        self.assertFalse(is_small(without))

    def sizes(self, all_tasks: Sequence[Task], jobs: int, seconds_each: float) -> list[int]:
        """The sizes of the bundles in turn, where each problem takes this long."""
        bundles, sizes = Bundles(all_tasks, jobs), []
        while (bundle := bundles.next()) is not None:
            sizes.append(len(bundle))
            bundles.note(len(bundle), seconds_each * len(bundle))
            bundles.end()
        return sizes

    def test_neighbours_together(self) -> None:
        all_tasks = tasks(input_of(*[MATE] * 32))
        self.assertEqual(self.sizes(all_tasks, 1, 0.002)[0], 8)
        self.assertEqual(self.sizes(all_tasks, 8, 0.002), [1] * 32)
        self.assertEqual(self.sizes(all_tasks[::2], 1, 0.002), [1] * 16)
        both = tasks_of([Source(name, input_of(*[MATE] * 6)) for name in ("a", "b")])
        self.assertEqual(self.sizes(both, 1, 0.0001), [3, 3, 6])

    def test_bundles_grow_and_shrink_to_a_tenth_of_a_second(self) -> None:
        all_tasks = tasks(input_of(*[MATE] * 5000))
        fast, slow = self.sizes(all_tasks, 1, 0.0005), self.sizes(all_tasks, 1, 0.2)
        self.assertEqual(fast[:3], [16, 128, 200])
        self.assertEqual(slow[:3], [16, 2, 1])
        for sizes in (fast, slow):
            self.assertEqual(sum(sizes), 5000)
        tiny = self.sizes(tasks(input_of(*[MATE] * 10_000)), 4, 0.00001)
        self.assertEqual((sum(tiny), len(tiny) <= 12), (10_000, True), tiny)
        long_titles = tasks(input_of(*[f"Title {'x' * 9900}\n{MATE}"] * 1000))
        self.assertLessEqual(max(self.sizes(long_titles, 1, 1e-6)), 100)

    def test_what_is_given_back_comes_again(self) -> None:
        all_tasks = tasks(input_of(*[MATE] * 40))
        bundles = Bundles(all_tasks, 1)
        first = bundles.next()
        assert first is not None
        bundles.give_back(first[4:])
        bundles.end()
        second = bundles.next()
        assert second is not None
        self.assertEqual([task.place for task in second][:3], [4, 5, 6])
        bundles.give_back_apart(second)
        third = bundles.next()
        assert third is not None
        self.assertEqual([task.place for task in third], [4])

    def test_small_problems_share_logins(self) -> None:
        """166 problems for two machines, which take eight logins at a time each."""
        words = [str(number) for number in range(166)]
        logins = logins_of(words, 16, 1, 200)
        self.assertEqual([word for login in logins for word in login], words)
        self.assertEqual({len(login) for login in logins}, {10, 6})
        self.assertEqual(len(logins_of(words, 16)), 166)

    def test_the_report_of_a_bundle(self) -> None:
        """Its problems have their numbers, and its faults their lines, as in the whole report."""
        all_tasks = tasks(input_of(*KINDS))
        whole = support.run([support.pops()], input_of(*KINDS)).output.split(b"\n\n")
        wanted = [item + b"\n\n" for item in whole[:-1]]
        bundle = all_tasks[1:]
        report = support.run([support.pops()], text_of(bundle)).output
        items = items_in(report, bundle)
        self.assertEqual(items, (4, 1, b"".join(wanted[1:])))
        cut = report[: report.index(b"problem 4")]
        self.assertEqual(items_in(cut[:-1], bundle), (2, 1, b"".join(wanted[1:3])))
        self.assertEqual(items_in(cut, bundle), (3, 1, b"".join(wanted[1:4])))
        sound = items_in(support.run([support.pops()], text_of(all_tasks[2:3])).output, all_tasks[2:3])
        self.assertEqual(sound, (1, 0, wanted[2]))
        self.assertEqual(items_in(b"", bundle), (0, 0, b""))
        self.assertEqual(items_in(report, bundle[:2], True), (2, 1, b"".join(wanted[1:3])))
        for other in (b"nothing\n\n", report, report.replace(b"problem 2", b"problem 3")):
            self.assertIsNone(items_in(other, bundle[:3]))


class Solved(support.InRoom):
    def many(self, text: bytes, *words: str) -> support.Outcome:
        (self.room / "x.pop").write_bytes(text)
        return run_here.companion("pops-many", *words, str(self.room / "x.pop"))

    def script(self, text: str) -> str:
        return stand_in(self.room / "program", f"{text}\n")

    def test_the_same_report(self) -> None:
        text = input_of(*KINDS * 30)
        wanted = support.run([support.pops()], text)
        for jobs in ("1", "4"):
            outcome = self.many(text, "--jobs", jobs)
            self.assertEqual((outcome.status, outcome.output), (wanted.status, wanted.output))

    def test_few_processes(self) -> None:
        """A hundred problems in two processes take some bundles only, each with several problems."""
        counting = self.script(f"echo >> {self.room}/runs\nexec '{support.pops()}' \"$@\"")
        text = input_of(*[MATE] * 100)
        with steady():
            outcome = self.many(text, "--jobs", "2", "--pops", counting)
        self.assertEqual(outcome.output, support.run([support.pops()], text).output)
        self.assertLessEqual(len((self.room / "runs").read_text()), 40)

    def test_a_bundle_that_takes_long_gives_the_rest_back(self) -> None:
        """Its first problem goes on, and ends only once others of the bundle are solved elsewhere."""
        slow = self.script(
            f"text=$(cat)\nprintf '%s' \"$text\" | '{support.pops()}' \"$@\" > {self.room}/out.$$\n"
            f"case $text in\n*Slow*) sed '/title: Slow/,$d' {self.room}/out.$$\n"
            f"until [ -e {self.room}/after ]; do sleep 0.1; done\n"
            f"sed -n '/title: Slow/,$p' {self.room}/out.$$; exit ;;\n"
            f"*After*) : > {self.room}/after ;; esac\ncat {self.room}/out.$$"
        )
        text = input_of(f"Title Slow\n{MATE}", *[f"Title After\n{MATE}"] * 80)
        before = [f"Title Before\n{MATE}"] * 200
        for text in (text, input_of(*before, f"Title Slow\n{MATE}", *[f"Title After\n{MATE}"] * 80)):
            outcome = self.many(text, "--jobs", "2", "--pops", slow)
            self.assertEqual(outcome.output, support.run([support.pops()], text).output)
            (self.room / "after").unlink()

    def test_a_bundle_that_fails_keeps_what_is_whole(self) -> None:
        """The problem at which it failed is solved alone, and those after it in bundles."""
        failing = self.script(
            f"echo >> {self.room}/runs\ntext=$(cat)\n"
            f"printf '%s' \"$text\" | '{support.pops()}' \"$@\" > {self.room}/out.$$\n"
            f"case $text in *Bad*Next*|*Next*Bad*) "
            f"sed '/title: Bad/,$d' {self.room}/out.$$; kill -9 $$ ;; esac\ncat {self.room}/out.$$"
        )
        text = input_of(*([MATE] * 9 + [f"Title Bad\n{MATE}"]) * 20)
        with steady():
            outcome = self.many(text, "--jobs", "1", "--pops", failing)
        self.assertEqual(outcome.output, support.run([support.pops()], text).output)
        self.assertLess(len((self.room / "runs").read_text()), 150)

    def test_a_limit_within_a_bundle(self) -> None:
        """What was found of the problem at work is kept, and the others are solved."""
        late = self.script(
            f"text=$(cat)\nprintf '%s' \"$text\" | '{support.pops()}' \"$@\" > {self.room}/out.$$\n"
            f"case $text in *Late*) sed '/title: Late/q' {self.room}/out.$$; "
            f"printf 'line one\\nline t'; {shown(self.room)}; exec sleep 6000 ;; esac\n"
            f"cat {self.room}/out.$$"
        )
        report, rest = self.room / "x.report", self.room / "x.report.unfinished"
        text = input_of(*[MATE] * 30, f"Title Late\n{MATE}", *[MATE] * 30)
        with limit_when_shown(self.room):
            outcome = self.many(text, "-o", str(report), "--seconds", "9", "--pops", late, "-j", "1")
        self.assertEqual(outcome.status, 6, outcome.error)
        items = support.run([support.pops()], text).output.split(b"\n\n")
        self.assertEqual(report.read_bytes(), b"\n\n".join(items[:30] + items[31:]))
        mark = f"unfinished: stopped after 9 s ({self.room}/x.pop, line 62)\n\n".encode()
        self.assertEqual(rest.read_bytes(), b"problem 31\ntitle: Late\nline one\n" + mark)
        words = ["-o", str(report), "--resume", "--pops", self.script(f"exec '{support.pops()}' \"$@\"")]
        self.assertEqual(self.many(text, *words).status, 0)
        self.assertEqual(report.read_bytes(), b"\n\n".join(items))

    def test_unfinished_problems_that_a_bundle_solves_later(self) -> None:
        """The run before had no time for them; without a limit all end well."""
        never = self.script("head -c 1 > /dev/null; exec sleep 6000")
        text = input_of(*[MATE] * 40)
        report = self.room / "x.report"
        words = ["-o", str(report), "--jobs", "1"]
        outcome = self.many(text, *words, "--seconds", "0.01", "--pops", never)
        self.assertEqual(outcome.status, 6, outcome.error)
        with steady():
            outcome = self.many(text, *words, "--resume", "--pops", self.script(f"exec '{support.pops()}' \"$@\""))
        self.assertEqual((outcome.status, outcome.error), (0, ""))
        self.assertEqual(report.read_bytes(), support.run([support.pops()], text).output)

    def test_faults_far_down_take_no_run_each(self) -> None:
        counting = self.script(f"echo >> {self.room}/runs\nexec '{support.pops()}' \"$@\"")
        fault = "Title A fault\n\n\nPieces White Kg6\n Xa1 Black Kg8\nStipulation #1\n"
        text = input_of(*[MATE, fault, "Pieces\n", ""] * 500)
        with steady():
            outcome = self.many(text, "--jobs", "2", "--pops", counting)
        wanted = support.run([support.pops()], text)
        self.assertEqual((outcome.status, outcome.output), (wanted.status, wanted.output))
        self.assertLess(len((self.room / "runs").read_text()), 400)

    def test_the_index_of_bundles(self) -> None:
        text = input_of(*KINDS * 30)
        index = self.room / "index"
        outcome = self.many(text, "--index", str(index))
        rows = [line.split("\t") for line in index.read_text().splitlines()[1:]]
        self.assertEqual(len(rows), 150)
        for number, (start, length, status, problem, line, _) in enumerate(rows, start=1):
            item = outcome.output[int(start) :][: int(length)]
            self.assertTrue(item.startswith(b"problem %d\n" % number) and item.endswith(b"\n\n"))
            self.assertEqual(int(problem), number)
            self.assertEqual(status, "1" if b": fault " in item else "0")
        self.assertEqual([row[4] for row in rows[:6]], ["1", "6", "10", "11", "12", "15"])

    def test_a_program_that_knows_one_problem_only(self) -> None:
        """What it writes of a bundle is no report of it: each problem is solved alone."""
        odd = self.script(
            f"text=$(cat)\ncase $text in *Next*) echo; exit 0 ;; esac\n"
            f"printf '%s' \"$text\" | '{support.pops()}' \"$@\""
        )
        text = input_of(*[MATE] * 12)
        outcome = self.many(text, "--jobs", "1", "--pops", odd)
        self.assertEqual(outcome.output, support.run([support.pops()], text).output)
