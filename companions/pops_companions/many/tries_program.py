"""The program pops-tries, which shows tries and threats: where it is."""

from collections.abc import Iterator, Sequence
from pathlib import Path
from typing import Optional

from pops_companions import places
from pops_companions.many.program import RunError, Runs, find, first_found
from pops_companions.many.tasks import has_ended

TRIES_LOOKED_FOR = (
    "the program pops-tries (default: $POPS_TRIES, the one next to pops, the one on the PATH)"
)


def find_tries(named: Optional[str], pops: Optional[str]) -> Optional[str]:
    """Returns the program that shows tries and threats, as it goes with the pops that is named; None
    where there is none. MissingError where one that is named is nowhere.
    """

    def others() -> Iterator[Optional[str]]:
        beside = Path(find(pops)).resolve().parent
        built = beside.parent.parent / "pops_tries" / "out" / "pops_tries"
        yield from map(places.found, (str(beside / "pops-tries"), str(built), "pops-tries"))

    return first_found("pops-tries", named, others())


class TriesProgram(Runs):
    """pops-tries, with the seconds that each of its runs has."""

    def __init__(self, path: str, seconds: Optional[float], words: Sequence[str] = ()):
        super().__init__("pops-tries", [path, *words])
        self._seconds = seconds

    def text_of(self, problem: bytes) -> Optional[bytes]:
        """Returns what it writes of a problem; None where its time was over. RunError where it failed.
        """
        run = self.outcome([], problem, self._seconds)
        if has_ended(run.status, run.output):
            return run.output
        if not run.in_time:
            return None
        raise RunError(self._reason(run.status, run.errors))
