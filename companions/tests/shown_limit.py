"""A limit of time that comes when a program has shown what it has, however busy the machine is."""

from collections.abc import Iterator
from contextlib import contextmanager
from pathlib import Path
from typing import Optional
from unittest import mock

from pops_companions.many.bundle_run import BundleRun
from pops_companions.many.child_process import ChildProcess

_SECONDS_BETWEEN_LOOKS = 0.05
_MILLISECONDS = 50


def shown(room: Path) -> str:
    """The words by which a program in the place of pops says that its time is over."""
    return f": > '{room}/shown-'$$"


@contextmanager
def limit_when_shown(room: Path) -> Iterator[None]:
    """Lets the limit of a run of this process come once its program has said so."""

    def left(child: ChildProcess, until: Optional[float]) -> Optional[float]:
        if until is None:
            return None
        mark = room / f"shown-{child.run.pid}"
        if not mark.exists():
            return _SECONDS_BETWEEN_LOOKS
        mark.unlink()
        return 0

    def is_out_of_time(run: BundleRun, now: float) -> bool:
        return (room / f"shown-{run._child.run.pid}").exists()

    with mock.patch.object(ChildProcess, "_left", left):
        with mock.patch.object(BundleRun, "_is_out_of_time", is_out_of_time):
            with mock.patch.object(BundleRun, "_milliseconds", lambda run: _MILLISECONDS):
                yield
