"""pops-many --split on other machines: parts that fail there, limits, and what is found of them."""

import os
import shutil
import threading
import unittest
from pathlib import Path
from unittest import mock

from pops_companions.many.machines import decoded, logins_of
from pops_companions.many.parallel import machine_of
from pops_companions.many.remote_parts import _Round
from tests import run_here, support
from tests.shown_limit import limit_when_shown
from tests.six_problems import wait_for
from tests.split_room import SplitRoom, without_progress

# In the place of ssh: the command runs here, and knows the machine that it was for.
_SSH = """#!/bin/bash
while [ $# -gt 0 ]; do case $1 in -o|-l|-p|-S) shift 2 ;; -*) shift ;; *) break ;; esac; done
export MACHINE=$1; shift
[ "$1" = -- ] && shift
exec bash -c "$*"
"""


def has_gnu_parallel() -> bool:
    parallel = shutil.which("parallel")
    if parallel is None:
        return False
    return b"GNU parallel" in support.run([parallel, "--version"]).output


class Machines(SplitRoom):
    """A run on two machines, one of them with two jobs at a time by its name."""

    def setUp(self) -> None:
        super().setUp()
        # (a busy machine takes no probe to the end of this time)
        patch = mock.patch("pops_companions.many.machines.SECONDS_OF_A_PROBE", float(support.PATIENCE))
        patch.start()
        self.addCleanup(patch.stop)
        self.where = f"problem 1 ({self.input}, line 1)"

    def words_there(self, pops_part: str, *more: str, logins: str = "one,2/two") -> list[str]:
        ssh = self.write_program("ssh", _SSH)
        words = self.words_of_split(pops_part, "--sshlogin", logins, "--ssh", ssh, *more)
        words += ["--remote-pops", str(self.room / "stand_in"), "--remote-pops-part", pops_part]
        return words

    def there(self, pops_part: str, *more: str, logins: str = "one,2/two") -> support.Outcome:
        outcome = support.companion("pops-many", *self.words_there(pops_part, *more, logins=logins))
        return without_progress(outcome)

    def is_solved(self, outcome: support.Outcome) -> None:
        self.assertEqual((outcome.status, outcome.output), (0, b""), outcome.error)
        self.assertEqual(self.report.read_bytes(), self.wanted)
        self.assertEqual(self.files(), ["six.report"])


class Fails(Machines):
    def test_a_part_that_fails_on_one_machine_is_tried_on_another(self) -> None:
        # On whichever machine it comes first.
        then = f"if mkdir {self.room}/failed; then exit 7; fi 2> /dev/null"
        outcome = self.there(self.pops_part("problem-play-2", then))
        self.is_solved(outcome)
        self.assertRegex(
            outcome.error,
            r"^pops-many: part 2 of the play of problem 1 \(.*, line 1\) failed on machine (one|two):"
            r" tried elsewhere: pops-part ended with status 7\n$",
        )
        self.assertEqual(self.parts().count("play-2"), 2)
        (self.room / "failed").rmdir()

    def test_a_part_that_fails_on_all_machines_is_tried_here(self) -> None:
        then = 'if [ "$MACHINE" ]; then exit 7; fi'
        outcome = self.there(self.pops_part("problem-play-2", then))
        self.is_solved(outcome)
        for machine in ("one", "two"):
            self.assertIn(f"failed on machine {machine}: tried elsewhere", outcome.error)
        self.assertEqual(self.parts().count("play-2"), 3)

    def test_a_login_that_breaks_is_told(self) -> None:
        then = f"if mkdir {self.room}/failed; then kill -9 0; fi 2> /dev/null"
        outcome = self.there(self.pops_part("problem-play-2", then))
        self.is_solved(outcome)
        self.assertIn(f"part 2 of the play of {self.where} failed on machine ", outcome.error)
        (self.room / "failed").rmdir()

    def flooded(self, pattern: str, then: str, logins: str) -> support.Outcome:
        """A run on machines, which may write few bytes of a part."""
        words = self.words_there(self.pops_part(pattern, then), logins=logins)
        with mock.patch("pops_companions.many.remote_parts.MOST_OUTPUT", 1 << 12):
            with limit_when_shown(self.room):
                return without_progress(run_here.companion("pops-many", *words))

    def test_a_part_that_floods_is_tried_elsewhere(self) -> None:
        for flood in ("yes", "tr '\\0' x < /dev/zero | fold -w 900"):
            with self.subTest(flood):
                once = f"[ \"$MACHINE\" ] && mkdir '{self.room}/failed' 2> /dev/null"
                outcome = self.flooded("problem-play-2", f"if {once}; then {flood}; fi", "one,2/two")
                self.is_solved(outcome)
                self.assertRegex(
                    outcome.error,
                    r"^pops-many: part 2 of the play of problem 1 \(.*, line 1\) failed on machine (one|two):"
                    r" tried elsewhere: it wrote more than \d+ MiB\n$",
                )
                (self.room / "failed").rmdir()
                self.forget()

    def test_all_parts_at_work_have_a_limit(self) -> None:
        with mock.patch("pops_companions.many.remote_parts._MOST_HELD", 1 << 10):
            once = f"[ \"$MACHINE\" ] && mkdir '{self.room}/failed' 2> /dev/null"
            outcome = self.flooded("problem-play-2", f"if {once}; then yes; fi", "one")
        self.is_solved(outcome)
        self.assertIn("failed on machine one: tried elsewhere: it wrote more than ", outcome.error)
        (self.room / "failed").rmdir()

    def test_a_machine_that_floods_at_its_probe_is_left_out(self) -> None:
        # (the second floods with lines of no part)
        floods = {"two": "yes", "three": "yes '7 eAow' > /proc/$(ps -o ppid= $$ | tr -d ' ')/fd/1"}
        for machine, flood in floods.items():
            with self.subTest(machine):
                then = f'if [ "$MACHINE" = {machine} ]; then {flood}; fi'
                outcome = self.flooded("probe-*", then, f"one,{machine}")
                self.is_solved(outcome)
                self.assertRegex(outcome.error, rf"^pops-many: machine {machine} left out: .*\n$")
                self.forget()

    def test_a_machine_that_fails_twice_is_left_out(self) -> None:
        noted = f"{self.room}/failed"
        # (the other machine waits for that; with more jobs at a time it could begin all parts)
        then = (
            f'if [ "$MACHINE" = two ]; then echo >> {noted}; exit 7; fi;'
            f" until [ $(wc -l < {noted}) -ge 2 ]; do sleep 0.1; done 2> /dev/null"
        )
        outcome = self.there(self.pops_part("problem-play-*", then), logins="2/one,2/two")
        self.is_solved(outcome)
        self.assertIn("machine 2/two failed and is left out", outcome.error)

    def test_a_machine_without_the_program_is_left_out_at_first(self) -> None:
        then = 'if [ "$MACHINE" = two ]; then exit 127; fi'
        outcome = self.there(self.pops_part("*", then))
        self.is_solved(outcome)
        self.assertEqual(
            outcome.error,
            "pops-many: machine 2/two left out: pops-part ended with status 127\n",
        )

    def test_a_machine_that_fails_at_its_probe_is_asked_again(self) -> None:
        once = f'[ "$MACHINE" ] && mkdir {self.room}/failed && kill -9 0'
        for before_pops, before_part in ((once, ":"), (":", once)):
            with self.subTest(before_part):
                self.stand_in_for_pops(f"{before_pops} 2> /dev/null")
                program = self.pops_part("probe-*", f"{before_part} 2> /dev/null")
                self.is_solved(self.there(program, logins="one"))
                (self.room / "failed").rmdir()
                self.forget()

    def test_a_probe_has_more_time_than_a_problem(self) -> None:
        self.stand_in_for_pops('if [ "$MACHINE" ]; then sleep 3; fi')
        outcome = self.there(self.pops_part(), logins="one")
        self.is_solved(outcome)
        self.assertEqual(outcome.error, "")

    def test_a_machine_that_hangs_at_its_probe_is_left_out(self) -> None:
        words = self.words_there(self.pops_part("probe-*", 'if [ "$MACHINE" ]; then sleep 6000; fi'))
        with mock.patch("pops_companions.many.machines.SECONDS_OF_A_PROBE", 1.0):
            outcome = run_here.companion("pops-many", *words)
        left_out = [f"machine {it} left out: no report came back in 1 s" for it in ("one", "2/two")]
        said = "".join(f"pops-many: {it}\n" for it in [*left_out, "no machine is left"])
        self.assertEqual(outcome, (3, b"", said))

    def test_a_machine_with_another_pops_part_than_before_is_left_out(self) -> None:
        first = self.pops_part("problem-play-*", "touch '{0}/failed'; kill -9 0".format(self.room))
        self.assertEqual(self.there(first, logins="one").status, 6)
        program = self.pops_part()
        other = self.write_program("other", f"{Path(program).read_text()}\n")
        words = self.words_there(program, "--resume", logins="one")
        outcome = support.companion("pops-many", *words[:-1], other)
        another = "pops-part on one is another program than pops-part here"
        left_out = "machine one left out: pops-part isn't the one that the run had there"
        said = "".join(f"pops-many: {it}\n" for it in (another, left_out, "no machine is left"))
        self.assertEqual(outcome, (3, b"", said))
        Path(other).unlink()
        self.is_solved(self.there(program, "--resume", logins="one"))

    def test_without_a_machine_the_rest_stays_for_resume(self) -> None:
        # (the parts of the set play are kept before a machine fails)
        kept = f"until [ $(grep -c '^part 0 set ' {self.journal}) = 19 ]; do sleep 0.1; done"
        then = f"{kept}; touch {self.room}/failed; kill -9 0"
        outcome = self.there(self.pops_part("problem-play-*", then))
        self.assertEqual(outcome.status, 6)
        self.assertIn("no machine is left\n", outcome.error)
        self.assertTrue(any("play" in part for part in self.parts()))
        before = self.parts()
        self.is_solved(self.there(self.pops_part(), "--resume"))
        again = set(self.parts()[len(before) :])
        self.assertEqual({part for part in again if "set" in part}, set())


class Limits(Machines):
    def setUp(self) -> None:
        super().setUp()
        self.pose(b" MaxSolutions 1")

    def test_no_more_parts_are_begun(self) -> None:
        for logins in ("one", ":"):
            with self.subTest(logins):
                then = "[ $part = play-1 ] || exec sleep 6000"
                program = self.pops_part("problem-play-*", then)
                self.is_solved(self.there(program, "--jobs", "1", logins=logins))
                played = [part for part in self.parts() if "play" in part]
                # (the next one is begun while the first one's report is on its way)
                self.assertLess(len(played), 5)
                self.forget()

    def test_parts_that_cannot_matter_are_stopped_and_others_go_on(self) -> None:
        # The second part is done at once, the first one that matters goes on and is begun once.
        # (it waits until a third one is begun, and the first one until the second is kept)
        third = f"until grep -q play-3 {self.room}/parts; do sleep 0.1; done"
        kept = f"until grep -q '^part 0 play 2 ' {self.journal}; do sleep 0.1; done"
        # (no other run of these tests has this number)
        seconds = f"6000.{os.getpid()}"
        then = (
            f"case $part in play-1) {kept} ;; play-2) {third} ;;"
            f" *) echo 1.x; exec sleep {seconds} ;; esac"
        )
        for logins in ("one,two", ":"):
            with self.subTest(logins):
                program = self.pops_part("problem-play-*", then)
                self.is_solved(self.there(program, "--jobs", "8", logins=logins))
                self.assertEqual(self.parts().count("play-1"), 1)
                self.assertIn("play-3", self.parts())
                wait_for(lambda: not self.left_running(seconds.encode()))
                self.forget()

    @staticmethod
    def left_running(word: bytes) -> list[str]:
        """The processes with this word among theirs."""
        found = []
        for path in Path("/proc").glob("[0-9]*/cmdline"):
            try:
                if word in path.read_bytes().split(b"\0"):
                    found.append(str(path))
            except OSError:
                pass
        return found


class Ends(Machines):
    def lines_found(self) -> bytes:
        """What is kept of a run that is stopped once two lines of its last part came."""
        then = "echo 1.Kh8-g8; echo 1.Kh8-h7; printf 1.Kh; exec sleep 6000"
        words = self.words_there(self.pops_part("problem-play-5", then))
        take, came, stopped = _Round.take, set[bytes](), threading.Event()

        def take_or_stop(now: _Round, line: bytes) -> None:
            take(now, line)
            came.add((decoded(line) or (0, b""))[1])
            kept = self.journal.read_bytes().count(b"\npart 0 ") if self.journal.exists() else 0
            if came >= {b"1.Kh8-g8\n", b"1.Kh8-h7\n"} and kept == 25 and not stopped.is_set():
                stopped.set()
                raise KeyboardInterrupt

        with mock.patch.object(_Round, "take", take_or_stop):
            self.assertEqual(run_here.companion("pops-many", *words).status, 6)
        return self.rest.read_bytes()

    def test_what_was_found_there_is_kept(self) -> None:
        lines = self.lines_found()
        self.assertIn(b"\n1.Kh8-g8\n1.Kh8-h7\n1.c7-c6 ", lines)
        self.assertIn(b"\nunfinished: stopped with 25 of 26 parts done (", lines)
        before = self.parts()
        self.is_solved(self.there(self.pops_part(), "--resume"))
        self.assertEqual(self.parts()[len(before) :], ["play-5"])


class Words(unittest.TestCase):
    def test_names(self) -> None:
        for login, name in (
            ("one", "one"),
            ("2/one", "one"),
            ("16//usr/bin/ssh one", "/usr/bin/ssh one"),
            ("user@one", "user@one"),
            (":", ":"),
            ("/x", "/x"),
        ):
            with self.subTest(login):
                self.assertEqual(machine_of(login), name)

    def test_words_at_a_login(self) -> None:
        words = [str(number) for number in range(1000)]
        for places, most in ((1, 20), (5, 20), (10, 10), (40, 2), (200, 1)):
            logins = logins_of(words, places)
            with self.subTest(places):
                self.assertEqual([word for login in logins for word in login], words)
                self.assertEqual({len(login) for login in logins}, {most})
        long = ["x" * 25_000] * 5
        self.assertEqual([len(login) for login in logins_of(long * 40, 1)][:3], [2, 2, 2])


if not has_gnu_parallel():
    print("GNU parallel: not here, so parts on other machines were not tried")
    del Fails, Limits, Ends
