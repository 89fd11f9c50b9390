"""The programs pops and pops-tries: where they are, and how their runs begin."""

import hashlib
from pathlib import Path
from typing import Optional, Union

from pops.asynchronous import AsyncRun
from pops.run import Limits, Run, TextKind
from pops_companions import places
from pops_companions.input.writing import Problem
from pops_companions.many.program import MissingError, Runs, find
from pops_companions.many.tries_program import find_tries

UNKNOWN = "unknown"
Posed = Union[Problem, str, bytes]


class Engine:
    """A program that solves problems: pops, or pops-tries where tries are wanted.

    Any number of runs may go on at a time, each in a process of its own.
    """

    def __init__(self, program: Optional[str] = None, tries: bool = False, refutations: int = 1):
        """Finds the program: as named, else $POPS or $POPS_TRIES, the one that came with this
        module, the one on the PATH.

        With `tries` a try is shown if it has at most `refutations` refutations, up to 200.
        MissingError where there is no program.
        """
        self._is_named = program is not None
        self._kind = TextKind.TRIES if tries else TextKind.REPORT
        self._words = ["--refutations", str(refutations)] if tries else []
        self.program = _tries_program(program) if tries else find(program)

    @property
    def version(self) -> str:
        """The number of the program's version: by the file BUILT next to it, else that of this
        module; `unknown` for a program that was named and has no file BUILT.
        """
        noted = _noted_version(Path(self.program).resolve())
        return noted or (UNKNOWN if self._is_named else places.number())

    def solve(self, posed: Posed, limits: Optional[Limits] = None) -> Run:
        """Begins to solve a problem, or all problems of a text.

        RunError where the program can't be started.
        """
        return self._begun([], posed, limits)

    def check(self, posed: Posed, limits: Optional[Limits] = None) -> Run:
        """Begins to look for faults; it solves nothing, and shows no boards."""
        return self._begun(["--check", "--no-board"], posed, limits)

    def solve_async(self, posed: Posed, limits: Optional[Limits] = None) -> AsyncRun:
        """Begins as `solve` does; the run is awaited, in an event loop."""
        return AsyncRun(self.solve(posed, limits))

    def _begun(self, words: list[str], posed: Posed, limits: Optional[Limits]) -> Run:
        program = Runs(Path(self.program).name, [self.program, *self._words, *words])
        return Run(program, _bytes_of(posed), self._kind, limits or Limits())


def _tries_program(named: Optional[str]) -> str:
    found = find_tries(named, None)
    if found is None:
        raise MissingError("there is no program pops-tries: name it, or set $POPS_TRIES")
    return found


def _bytes_of(posed: Posed) -> bytes:
    text = posed.text if isinstance(posed, Problem) else posed
    return text if isinstance(text, bytes) else text.encode("utf-8", "surrogateescape")


def _noted_version(program: Path) -> Optional[str]:
    """Returns the version in the file BUILT next to a program, if it has the program's checksum."""
    try:
        lines = (program.parent / "BUILT").read_text("ascii").splitlines()
        digest = hashlib.sha256(program.read_bytes()).hexdigest()
    except (OSError, UnicodeDecodeError):
        return None
    versions = [line.split()[2] for line in lines if line.startswith("# version ")]
    is_noted = f"{digest}  {program.name}" in lines
    return versions[0] if is_noted and versions else None
