"""Where the signals that end a companion raise KeyboardInterrupt.

A signal raises at once, but in blocks that take locks, or begin and end what has to be ended: there it is
only noted, and raised where they end. So no lock stays taken, and nothing has begun of which nobody knows.
Only the first signal raises: none breaks off the cleaning up. That doesn't wait for streams that nobody
reads. Without `begin`, as where these modules are used as a library or in another thread than the main one,
nothing differs.
"""

import signal
import sys
import threading
from collections.abc import Callable, Iterator
from contextlib import AbstractContextManager, contextmanager, suppress

from pops_companions import files

# The signals that end a companion in order, but for one that is ignored, as by nohup.
SIGNALS = (signal.SIGINT, signal.SIGTERM, signal.SIGHUP)
# Once a signal was raised, the seconds between two looks at what may keep the run from its end.
_MOMENT = 1.0


class _Run:
    """What is known of the signals of a run."""

    has_come = is_held = is_raised = False

    def heed(self) -> None:
        """Raises the signal that has come, if it may be raised now."""
        if self.has_come and not self.is_held and not self.is_raised:
            self.is_raised = True
            signal.setitimer(signal.ITIMER_REAL, _MOMENT, _MOMENT)
            raise KeyboardInterrupt

    def look(self, *_: object) -> None:
        """Raises a signal again that Python dropped; drops what is written where nobody reads it."""
        self.heed()
        with suppress(OSError):
            if self.is_raised and files.drop_unread():
                _wake()

    def come(self, *_: object) -> None:
        self.has_come = True
        self.heed()

    def drop(self, what: "sys.UnraisableHookArgs") -> None:
        """Takes what no caller can get, as it comes of `__del__`: a signal is raised again."""
        if what.exc_type is not KeyboardInterrupt:
            sys.__unraisablehook__(what)
            return
        self.is_raised = False


_run = _Run()


def _is_main() -> bool:
    return threading.current_thread() is threading.main_thread()


def begin() -> None:
    """Lets signals raise KeyboardInterrupt from now on, but at first only where they are `allowed`."""
    if not _is_main():
        return
    _run.has_come = _run.is_raised = False
    _run.is_held = True
    for sign in SIGNALS:
        if signal.getsignal(sign) not in (signal.SIG_IGN, None):
            signal.signal(sign, _run.come)
    signal.signal(signal.SIGALRM, _run.look)
    sys.unraisablehook = _run.drop


def end() -> None:
    """Lets signals do nothing in the moment before the program ends."""
    if _is_main():
        signal.pthread_sigmask(signal.SIG_BLOCK, (*SIGNALS, signal.SIGALRM))


def is_raised() -> bool:
    """Returns whether a signal was raised, also where a library has caught it."""
    return _run.is_raised


def _wake() -> None:
    """Lets each thread that waits in a call of the system try it again."""
    for thread in threading.enumerate():
        if thread.ident is not None and thread is not threading.main_thread():
            # (it may have ended just now)
            with suppress(ProcessLookupError):
                signal.pthread_kill(thread.ident, signal.SIGALRM)


@contextmanager
def quiet() -> Iterator[None]:
    """Lets the threads that begin in the block leave signals to the main one. (If another takes a signal, as
    when a stopped process goes on, Python heeds it only after the wait of the main one.)
    """
    before = signal.pthread_sigmask(signal.SIG_BLOCK, SIGNALS)
    try:
        yield
    finally:
        signal.pthread_sigmask(signal.SIG_SETMASK, before)


@contextmanager
def _set(is_held: bool) -> Iterator[None]:
    # (the main thread alone hears of signals)
    if not _is_main():
        yield
        return
    before, _run.is_held = _run.is_held, is_held
    try:
        _run.heed()
        yield
    finally:
        _run.is_held = before
        _run.heed()


def allowed() -> AbstractContextManager[None]:
    """Lets signals raise at once in the block."""
    return _set(False)


@contextmanager
def held() -> Iterator[Callable[[], AbstractContextManager[None]]]:
    """Lets a signal that comes in the block be raised at its end; yields what makes a block within it, in
    which signals do what they did before.
    """
    before = _run.is_held
    with _set(True):
        yield lambda: _set(before)
