"""Runs parts of problems on other machines, through GNU parallel and ssh.

A machine also needs pops-part, and MIME::Base64 of perl. Parts go out as problems do. What each
writes comes back line by line, as soon as it is written, and last how it ended.
"""

import re
from collections.abc import Callable, Iterable, Iterator, Sequence
from typing import NamedTuple, Optional

from pops_companions.many.child_process import MOST_OUTPUT, wrote_more
from pops_companions.many.machines import (
    ROUNDS_WITHOUT_REPORT,
    Machines,
    Watch,
    coded,
    decoded,
    logins_of,
)
from pops_companions.many.parallel import UNLESS_OVER, Ended, Jobs, Parallel, machine_of
from pops_companions.many.part_program import PartProgram
from pops_companions.many.parts import Key, Part, count_in
from pops_companions.many.program import SOUND

# The program is $0; the one word after it holds number, phase, part and text of each in turn.
_SCRIPT = (
    UNLESS_OVER + "set -f; set -- $1; while [ $# -gt 3 ]; do "
    '{{ printf %s "$4" | base64 -d | '
    '"$0" --item 1 --phase "$2" --part "$3" --depth {depth}; '
    'printf "ended %d %s\\n" "$?" "$PARALLEL_SSHLOGIN"; }} | '
    "perl -MMIME::Base64 -ne "
    # (an empty line comes first: the line before, of a job that was ended, may have no end)
    '\'BEGIN {{ $| = 1; $n = shift }} print "\\n$n ", encode_base64($_, ""), "\\n"\' "$1"; '
    "shift 4; done"
)
_ENDED = re.compile(rb"ended ([0-9]{1,3}) (.*)\n")
# Where nobody says how many jobs a machine takes, it may be as many: each is to have some logins.
_PLACES_OF_A_MACHINE = 64
# The most bytes that are kept of all parts that are at work.
_MOST_HELD = 4 * MOST_OUTPUT


def _word(number: int, part: Part) -> str:
    """Returns a part as the script takes it."""
    return f"{number} {part.phase} {part.number} {coded(part.text)}"


class Handling(NamedTuple):
    """What is done with parts. `keep` takes a part that is done and returns whether others no longer
    matter, `fail` reports parts that failed on a machine, with the reason."""

    keep: Callable[[Part, bytes], bool]
    fail: Callable[[Sequence[Part], str, str], None]
    is_needless: Callable[[Part], bool]


class _Written:
    """What came back of parts so far, by their numbers."""

    def __init__(self) -> None:
        self._texts: dict[int, bytearray] = {}
        self._held = 0

    def add(self, number: int, text: bytes) -> Optional[int]:
        """Adds a line of a part. Returns a part that wrote too much, which it drops."""
        known = self._texts.setdefault(number, bytearray())
        known += text
        self._held += len(text)
        if len(known) <= MOST_OUTPUT and self._held <= _MOST_HELD:
            return None
        longest = max(self._texts, key=lambda it: len(self._texts[it]))
        self.drop(longest)
        return longest

    def drop(self, number: int) -> None:
        self._held -= len(self._texts.pop(number, b""))

    def of(self, number: int) -> bytes:
        return bytes(self._texts.get(number, b""))

    def __iter__(self) -> Iterator[int]:
        return iter(self._texts)


class _Round:
    """Parts that are handed out once, and what comes back of them."""

    def __init__(
        self,
        parts: Sequence[Part],
        places: int,
        parallel: Parallel,
        watch: Watch,
        handling: Handling,
    ):
        self._parts = parts
        self._parallel = parallel
        self._watch = watch
        self._handling = handling
        self._open = set(range(len(parts)))
        self._written = _Written()
        # The parts that wrote too much.
        self._flooded: set[int] = set()
        logins = logins_of([_word(number, part) for number, part in enumerate(parts)], places)
        self.lines = [" ".join(words) for words in logins]
        # The numbers of the parts of each job, and the job of each part.
        self._jobs: dict[int, range] = {}
        self._job_of: list[int] = []
        for job, words in enumerate(logins, start=1):
            self._jobs[job] = range(len(self._job_of), len(self._job_of) + len(words))
            self._job_of += [job] * len(words)
        self._stopped: set[int] = set()
        self._broken: list[Ended] = []

    def take(self, line: bytes) -> None:
        """Takes a line that came back."""
        number, text = decoded(line) or (-1, b"")
        if number not in self._open or number in self._flooded:
            return
        ended = _ENDED.fullmatch(text)
        if ended is not None:
            self._open.remove(number)
            self._end(number, int(ended[1]), ended[2].decode("utf-8", "replace"))
        elif (flooded := self._written.add(number, text)) is not None:
            # (which machine it is says the job that ends so)
            self._flooded.add(flooded)
            self._parallel.stop([self._job_of[flooded]])

    def _end(self, number: int, status: int, machine: str) -> None:
        part = self._parts[number]
        report = self._written.of(number)
        fewer = False
        if status == SOUND and count_in(report) is not None:
            self._written.drop(number)
            self._watch.note(machine, True)
            fewer = self._handling.keep(part, report)
        elif not self._handling.is_needless(part):
            self._watch.note(machine, False)
            self._handling.fail([part], machine, f"pops-part ended with status {status}")
        self._stop(self._jobs if fewer else [self._job_of[number]])

    def _stop(self, jobs: Iterable[int]) -> None:
        """Stops the jobs that have no part left that matters."""
        stale = []
        for job in jobs:
            left = [self._parts[number] for number in self._jobs[job] if number in self._open]
            if left and job not in self._stopped and all(map(self._handling.is_needless, left)):
                stale.append(job)
        if stale:
            self._stopped.update(stale)
            self._parallel.stop(stale)

    def note(self, jobs: Sequence[Ended]) -> None:
        """Notes jobs that ended."""
        for job in jobs:
            if not job.well and job.job not in self._stopped:
                self._broken.append(job)
                self._watch.note(job.machine, False)

    def close(self) -> None:
        """Ends the round, after all jobs: a broken login failed at the first of its open parts, or at
        those that wrote too much."""
        failed: dict[tuple[str, str], list[Part]] = {}
        for broken in self._broken:
            machine = broken.machine
            left = [number for number in self._jobs[broken.job] if number in self._open]
            flooded = [number for number in left if number in self._flooded]
            reason = wrote_more(MOST_OUTPUT) if flooded else self._parallel.last_error
            for number in flooded or left[:1]:
                failed.setdefault((machine, reason), []).append(self._parts[number])
        for (machine, reason), parts in failed.items():
            self._handling.fail(parts, machine, reason)

    def begun(self) -> dict[Key, bytes]:
        """Returns what came back of parts that failed."""
        return {self._parts[number].key: self._written.of(number) for number in self._written}


class RemoteParts:
    """The program pops-part on other machines."""

    def __init__(
        self,
        machines: Machines,
        parallel: Parallel,
        pops_part: str,
        program: PartProgram,
        say: Callable[[str], None],
    ):
        self._machines = machines
        self._parallel = parallel
        self._program = program
        self._say = say
        self._script = [_SCRIPT.format(depth=program.depth), pops_part]

    def run(
        self,
        parts: Sequence[Part],
        keep: Callable[[Part, bytes], bool],
        is_needless: Callable[[Part], bool],
    ) -> None:
        """Runs parts. A part that fails on a machine is reported, and tried on another.

        Parts that failed on each machine are left over. MachinesError where no machine is left.
        """
        failed_on: dict[Key, set[str]] = {}
        idle_rounds = 0
        while idle_rounds < ROUNDS_WITHOUT_REPORT:
            left = [part for part in parts if not is_needless(part)]
            if left:
                self._machines.expect_some()
            machines, group = self._next(left, failed_on)
            if not group:
                return
            idle_rounds += 1

            def fail(parts: Sequence[Part], machine: str, reason: str) -> None:
                nonlocal idle_rounds
                idle_rounds = 0
                for part in parts:
                    failed_on.setdefault(part.key, set()).add(machine)
                others = f" and {len(parts) - 1} more" if len(parts) > 1 else ""
                message = f"{parts[0].shown}{others} failed on machine {machine}"
                self._say(f"{message}: tried elsewhere: {reason}")

            self._hand_out(group, machines, Handling(keep, fail, is_needless))
            if any(map(is_needless, group)):
                idle_rounds = 0

    def _hand_out(self, parts: Sequence[Part], logins: list[str], handling: Handling) -> None:
        """Hands out parts once, to these machines."""
        places = len(logins) * (self._parallel.jobs or _PLACES_OF_A_MACHINE)
        now = _Round(parts, places, self._parallel, Watch(self._machines), handling)

        def look(jobs: Sequence[Ended]) -> bool:
            now.note(jobs)
            logins[:] = [login for login in logins if login in self._machines.alive]
            return bool(logins)

        try:
            self._parallel.run(logins, Jobs(self._script, now.lines), now.take, look)
        finally:
            self._program.begun.update(now.begun())
        now.close()

    def _next(
        self, left: Sequence[Part], failed_on: dict[Key, set[str]]
    ) -> tuple[list[str], list[Part]]:
        """Returns the machines of the next round, and parts that failed on none of them.

        Parts that failed nowhere come first.
        """
        groups: dict[tuple[str, ...], list[Part]] = {}
        for part in left:
            failed = failed_on.get(part.key, set())
            logins = tuple(it for it in self._machines.alive if machine_of(it) not in failed)
            if logins:
                groups.setdefault(logins, []).append(part)
        if not groups:
            return [], []
        most = max(groups, key=len)
        return list(most), groups[most]
