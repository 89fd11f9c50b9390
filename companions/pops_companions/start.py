"""Begins each companion. (This module imports nothing that Python has to load, so that a shortage is met
in `Companion`.)"""

import _signal  # type: ignore[import]
import sys

# Status.FAILED and Status.UNFINISHED, whose module may be what can't be loaded.
_FAILED = 4
_UNFINISHED = 6


class Companion:
    """A companion, whose parts are loaded when it begins."""

    def __init__(self, module: str):
        self._module = module

    def __call__(self) -> None:
        """Runs the companion on the program's arguments and ends with its status."""
        _end_by_interrupts()
        for stream in (sys.stdout, sys.stderr):
            # (Python's encodings of domain names can't write other text)
            if getattr(stream, "encoding", "") in ("idna", "punycode"):
                stream.reconfigure(encoding="utf-8", errors="backslashreplace")  # type: ignore[attr-defined]
        try:
            self._run()
        except KeyboardInterrupt:
            _end("stopped", _UNFINISHED)
        except MemoryError:
            _end("out of memory", _FAILED)
        except Exception as error:
            if sys.flags.dev_mode:
                raise
            _end(f"cannot begin: {error}", _FAILED)

    def _run(self) -> None:
        # (with too little memory, modules of Python write what they couldn't load)
        errors, sys.stderr = sys.stderr, _Unheard()  # type: ignore[assignment]
        try:
            from importlib import import_module

            from pops_companions import command

            loaded = import_module(f"pops_companions.commands.{self._module}")
        finally:
            sys.stderr = errors
        command.run(loaded.NAME, loaded.main)


def _end_by_interrupts() -> None:
    """Lets an interrupt end the program at once, without a traceback; later `command.run` heeds it."""
    if _signal.getsignal(_signal.SIGINT) is _signal.default_int_handler:
        try:
            _signal.signal(_signal.SIGINT, _signal.SIG_DFL)
        except ValueError:
            # (not in the main thread, which alone hears of it)
            pass


class _Unheard:
    """A stream that drops what is written to it."""

    def write(self, text: str) -> int:
        return len(text)

    def flush(self) -> None:
        pass


def _end(message: str, status: int) -> None:
    """Ends the program with a message in one line, if somebody reads it."""
    try:
        sys.stderr.write(f"{sys.argv[0].rpartition('/')[2]}: {message}\n")
        sys.stderr.flush()
    except (AttributeError, OSError):
        pass
    sys.exit(status)


compare = Companion("compare")
diagram = Companion("diagram")
explain = Companion("explain")
export = Companion("export")
fen2pop = Companion("fen2pop")
find = Companion("find")
import_ = Companion("import_")
judge = Companion("judge")
many = Companion("many")
page = Companion("page")
popeye_py = Companion("popeye_py")
pops2json = Companion("pops2json")
sheet = Companion("sheet")
soundness = Companion("soundness")
