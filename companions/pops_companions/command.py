"""What all companions share as commands: input and output, messages, exit status."""

import argparse
import codecs
import gc
import io
import os
import re
import stat
import sys
from collections.abc import Callable, Iterator, Sequence
from contextlib import contextmanager, suppress
from enum import IntEnum
from functools import lru_cache
from itertools import takewhile
from typing import Any, BinaryIO, ClassVar, NamedTuple, NoReturn, Optional, TextIO, TypeVar, Union

from pops_companions import files, interrupts, places

_LONGEST_NUMBER = 18
# Characters that a terminal obeys, but for line end, tab, and the return to the begin of a line.
_OBEYED = re.compile("[\x00-\x08\x0b\x0c\x0e-\x1f\x7f-\x9f]")
# The files that this run has read, by device and number.
_READ: set[tuple[int, int]] = set()
# What Python says where the system lets it start no thread.
_NO_THREAD = "can't start new thread"
# An option whose value is `--`.
_BARE = re.compile("(?:--?[a-z-]+=|-[a-z])--")
# Longer waits are no waits: without a limit a run takes as long as it likes.
MOST_SECONDS = 2_000_000
MOST_JOBS = 1000
_SECONDS = 60.0
# Python's encodings of names in a network, not of texts.
_OF_NAMES = ("punycode", "idna")
# The most bytes of a text that is read as a whole.
MOST_BYTES = 1 << 28
_PIECE = 1 << 20
# The name of standard input on a command line.
STANDARD_INPUT = "-"


class Status(IntEnum):
    """How a companion ends. The numbers are the statuses of pops where they mean the same."""

    GOOD = 0
    FAULTY = 1
    USAGE = 2
    DEVICE = 3
    FAILED = 4
    UNFINISHED = 6


class CommandError(Exception):
    """Ends a companion with a message and an exit status."""

    def __init__(self, status: Status, message: str):
        super().__init__(message)
        self.status = status


class DeviceError(CommandError):
    """A program, a file or a machine fails, with the reason: it ends a companion that doesn't heed it."""

    def __init__(self, message: str):
        super().__init__(Status.DEVICE, message)


class _HelpFormatter(argparse.RawDescriptionHelpFormatter):
    """Help as wide as the terminal. argparse looks for the width at each option."""

    def __init__(self, prog: str):
        super().__init__(prog, width=_columns() - 2)


@lru_cache(maxsize=None)
def _columns() -> int:
    """Returns how wide the help is: $COLUMNS, else the terminal, else 80 columns."""
    columns = os.environ.get("COLUMNS", "")
    if columns.isdecimal() and len(columns) <= _LONGEST_NUMBER and int(columns):
        return int(columns)
    try:
        return os.get_terminal_size(1).columns or 80
    except OSError:
        return 80


Words = TypeVar("Words", bound="Settings")


class OneOf:
    """Options that exclude each other; one of them may be needed."""

    def __init__(self, is_needed: bool = False):
        self.is_needed = is_needed


class Option(NamedTuple):
    """An option of a command line, or a word without a name, and what argparse takes of it."""

    names: tuple[str, ...]
    more: dict[str, Any]


def option(names: str, metavar: Optional[str], said: str, **more: Any) -> Any:
    """Declares an attribute of `Settings`: an option with a value."""
    return Option(tuple(names.split()), {"metavar": metavar, "help": said, **more})


def flag(name: str, said: str, **more: Any) -> Any:
    """Declares an attribute of `Settings`: whether an option is given."""
    return Option((name,), {"help": said, "action": "store_true", **more})


def word(metavar: str, said: str, **more: Any) -> Any:
    """Declares an attribute of `Settings`: a word that has its place."""
    return Option((), {"metavar": metavar, "help": said, **more})


class Settings(argparse.Namespace):
    """The words of a command line. A companion's own class declares them in the order of the help.

    It is made with what argparse takes of a parser: `prog`, `description`, `epilog`.
    """

    _options: ClassVar[dict[str, Option]]
    _texts: ClassVar[dict[str, str]]

    def __init_subclass__(cls, **texts: str) -> None:
        cls._texts = texts
        cls._options = {name: it for name, it in vars(cls).items() if isinstance(it, Option)}
        # (argparse gives no default to an attribute that is there)
        for name in cls._options:
            delattr(cls, name)

    @classmethod
    def read(cls: type[Words], words: list[str]) -> Words:
        """Reads the words of a command line."""
        return cls._parser().parse_args(words, cls())

    @classmethod
    def refuse(cls, why: str) -> NoReturn:
        """Ends the companion, because the words don't go together."""
        cls._parser().error(why)

    @classmethod
    def _parser(cls) -> argparse.ArgumentParser:
        made = argparse.ArgumentParser(
            formatter_class=_HelpFormatter,
            **cls._texts,  # type: ignore[arg-type]
        )
        made.add_argument("--version", action="version", version=f"%(prog)s {places.version()}")
        groups: dict[Optional[OneOf], argparse._ActionsContainer] = {None: made}
        for attribute, (names, said) in cls._options.items():
            given: dict[str, Any] = {"dest": attribute, **said} if names else dict(said)
            one_of: Optional[OneOf] = given.pop("one_of", None)
            if one_of is not None and one_of not in groups:
                groups[one_of] = made.add_mutually_exclusive_group(required=one_of.is_needed)
            groups[one_of].add_argument(*(names or [attribute]), **given)
        return made


def run(name: str, command: Callable[[list[str]], int]) -> NoReturn:
    """Runs a companion on the program's arguments and ends with its status."""
    interrupts.begin()
    with _rare_collections(), _harmless_messages():
        status = _ended(name, command)
    _close_output()
    interrupts.end()
    sys.exit(status)


def _ended(name: str, command: Callable[[list[str]], int]) -> int:
    """Returns how a command ends. Whatever it leaves uncaught is said in one line."""
    _READ.clear()
    try:
        with interrupts.allowed():
            _buffer_output()
            status = _status_of(command)
            sys.stdout.flush()
        return status
    except CommandError as error:
        message, status = str(error), int(error.status)
    except BrokenPipeError:
        return Status.DEVICE
    except OSError as error:
        message, status = said_of(error), Status.DEVICE
    except KeyboardInterrupt:
        message, status = "stopped", Status.UNFINISHED
    except MemoryError:
        message, status = "out of memory", Status.FAILED
    except Exception as error:
        if sys.flags.dev_mode:
            raise
        message, status = _of_fault(error)
    print(f"{name}: {message}", file=sys.stderr, flush=True)
    return status


def _of_fault(error: Exception) -> tuple[str, Status]:
    """Returns what is said of an exception that nobody caught, and the status for it."""
    if isinstance(error, RuntimeError) and str(error) == _NO_THREAD:
        return "no more threads can be started: a limit of the machine", Status.DEVICE
    return " ".join(f"failed: {type(error).__name__}: {error}".split()), Status.FAILED


def said_of(error: OSError) -> str:
    """Returns what is said of a call that failed: the file, if one is known, and why. A file that couldn't
    be renamed is named as it would be.
    """
    name = error.filename2 or error.filename
    return ": ".join(map(str, filter(None, (name, error.strerror or error))))


@contextmanager
def _rare_collections() -> Iterator[None]:
    """Lets Python look seldom for cycles: the trees of a report have none, and are large."""
    before = gc.get_threshold()
    gc.set_threshold(100_000, 50, 1000)
    try:
        yield
    finally:
        gc.set_threshold(*before)


class _Messages:
    """Standard error, on which no name of a file and no text given commands the terminal.

    Where nobody reads it, or it takes no more, nothing fails.
    """

    def __init__(self, target: TextIO):
        self._target = target

    def write(self, text: str) -> int:
        with self._dropping():
            self._target.write(_OBEYED.sub("\ufffd", text))
        return len(text)

    def flush(self) -> None:
        with self._dropping():
            self._target.flush()

    @contextmanager
    def _dropping(self) -> Iterator[None]:
        """Drops what the stream refuses, and all that comes later."""
        try:
            yield
        except OSError:
            files.drop(self._target.fileno())

    def __getattr__(self, name: str) -> Any:
        return getattr(self._target, name)


@contextmanager
def _harmless_messages() -> Iterator[None]:
    """Lets messages hold no characters that a terminal obeys; a closed stream takes them too."""
    before = sys.stderr
    with open(os.devnull, "w") as nowhere:
        sys.stderr = _Messages(before or nowhere)  # type: ignore[assignment]
        try:
            yield
        finally:
            sys.stderr = before


def _status_of(command: Callable[[list[str]], int]) -> int:
    """Returns a command's status, also where argparse ends it, as for `--help`."""
    _refuse_bare(sys.argv[1:])
    try:
        return command(sys.argv[1:])
    except SystemExit as end:
        return int(end.code or 0)


def _refuse_bare(words: Sequence[str]) -> None:
    """Refuses `--` as the value of an option, which argparse loses."""
    for word in takewhile("--".__ne__, words):
        if _BARE.fullmatch(word):
            raise CommandError(Status.USAGE, f"{word[:-2].rstrip('=')} needs a value, which can't be --")


def _buffer_output() -> None:
    """Buffers standard output where Python doesn't (PYTHONUNBUFFERED), and lets it take any text.

    An unbuffered write may take only some of its bytes without an error. A name of a file needn't be
    text, and not every encoding has all characters of a title.
    """
    if sys.stdout is None:
        raise DeviceError("standard output is closed")
    if isinstance(sys.stdout, io.TextIOWrapper) and not _takes_all(sys.stdout):
        sys.stdout.reconfigure(errors="backslashreplace")
    if not isinstance(sys.stdout.buffer, io.BufferedIOBase):
        sys.stdout = open(
            sys.stdout.fileno(),
            "w",
            encoding=sys.stdout.encoding,
            errors=sys.stdout.errors,
            closefd=False,
        )


def _takes_all(stream: io.TextIOWrapper) -> bool:
    """Returns whether a stream has a way to write each character, and bytes of names that are no text.
    """
    if stream.errors == "surrogateescape":
        # (in the locale C, where the encoding may be ASCII)
        return codecs.lookup(stream.encoding).name == "utf-8"
    return stream.errors != "strict"


def _close_output() -> None:
    """Drops what a failed output refused, so that Python doesn't fail on it again at its end."""
    try:
        if sys.stdout is not None:
            sys.stdout.flush()
    except OSError:
        files.drop(sys.stdout.fileno())


def number_in(first: int, last: Optional[int] = None) -> Callable[[str], int]:
    """Returns a reader of an option's number, from the first to the last one that it may be."""

    def number(text: str) -> int:
        is_number = text.isascii() and text.isdigit() and len(text) <= _LONGEST_NUMBER
        if not is_number or int(text) < first or last is not None and int(text) > last:
            most = "" if last is None else f" to {last}"
            raise argparse.ArgumentTypeError(f"{text!r} is no number from {first}{most}")
        return int(text)

    return number


number_from_one = number_in(1)
# How many programs may run at a time.
jobs = number_in(1, MOST_JOBS)


def seconds(text: str) -> float:
    """Reads an option's seconds."""
    try:
        number = float(text)
    except ValueError:
        number = -1.0
    if not 0 <= number <= MOST_SECONDS:
        raise argparse.ArgumentTypeError(f"{text!r} is no number from 0 to {MOST_SECONDS}")
    return number


_SECONDS_SAID = f"stop a problem after N seconds ({_SECONDS:g}); 0 is no limit"
SECONDS: Any = option("--seconds", "N", _SECONDS_SAID, type=seconds, default=_SECONDS)
JOBS: Any = option("-j --jobs", "N", "runs at a time", type=jobs)
REPORT: Any = word("REPORT", "the report (default: standard input)", nargs="?")
UNFINISHED: Any = option(
    "--unfinished",
    "FILE",
    "what pops-many kept of problems that it stopped (REPORT.unfinished, if it is there)",
)


def output(what: str, metavar: str = "FILE") -> Any:
    """Declares the option for what is written."""
    return option("-o --output", metavar, f"{what} (default: standard output)")


def _is_of_lines(encoding: str) -> bool:
    """Returns whether every byte has a meaning or a substitute in an encoding, and ASCII its own."""
    ascii_bytes = bytes(range(128))
    try:
        is_ascii = ascii_bytes.decode(encoding) == ascii_bytes.decode("ascii")
        bytes(range(128, 256)).decode(encoding, "replace").encode(encoding, "replace")
    except (LookupError, ValueError, TypeError, OSError):
        return False
    return is_ascii


def is_of_text(encoding: str) -> bool:
    """Returns whether an encoding is one of whole texts, as UTF-16 is too."""
    try:
        if codecs.lookup(encoding).name in _OF_NAMES:
            return False
        return "a\n".encode(encoding).decode(encoding) == "a\n"
    except (LookupError, ValueError, TypeError, OSError):
        return False


def encoding(fits: Callable[[str], bool] = _is_of_lines) -> Any:
    """Declares the option for the encoding of titles and authors, which has to fit."""

    def fitting(name: str) -> str:
        if not fits(name):
            raise argparse.ArgumentTypeError(f"no encoding of lines of text is called {name}")
        return name

    said = "the encoding of titles and authors (utf-8)"
    return option("--encoding", "NAME", said, type=fitting, default="utf-8")


@contextmanager
def opened(file: Optional[str]) -> Iterator[BinaryIO]:
    """Opens a file for its bytes, or standard input where no file is named, or `-`."""
    if file in (None, STANDARD_INPUT):
        if sys.stdin is None:
            raise DeviceError("standard input is closed")
        with suppress(io.UnsupportedOperation):
            note_read(sys.stdin.fileno())
        yield sys.stdin.buffer
        return
    assert file is not None
    try:
        source = open(file, "rb")
    except OSError as error:
        raise DeviceError(f"cannot open {file}: {error.strerror}") from None
    with source:
        note_read(source.fileno())
        yield source


def name_of(file: Optional[str]) -> str:
    """Returns an input as messages name it."""
    return "standard input" if file in (None, STANDARD_INPUT) else str(file)


def inputs_of(files: Sequence[str]) -> Sequence[Optional[str]]:
    """Returns the inputs of a command line that names these files; None is standard input."""
    return list(files) or [None]


def note_read(file: Union[str, int]) -> None:
    """Notes that this run has a file, given by path or as open: it isn't written over."""
    status = os.stat(file)
    _READ.add((status.st_dev, status.st_ino))


def read_all(file: Optional[str]) -> bytes:
    """Returns all bytes of a file, or of standard input. CommandError where it has no end."""
    with opened(file) as source:
        return b"".join(limited(source, file))


def limited(source: BinaryIO, file: Optional[str]) -> Iterator[bytes]:
    """Yields a text in pieces. CommandError after the most that companions read as a whole."""
    left = MOST_BYTES
    while piece := source.read(_PIECE):
        left -= len(piece)
        if left < 0:
            message = f"{name_of(file)} has more than {MOST_BYTES >> 20} MiB: cut it into several"
            raise DeviceError(message)
        yield piece


def _refuse_read(file: str) -> None:
    """Refuses to write over a file that was read."""
    try:
        status = os.stat(file)
    except OSError:
        return
    if stat.S_ISREG(status.st_mode) and (status.st_dev, status.st_ino) in _READ:
        raise CommandError(Status.USAGE, f"{file} is named twice")


def refuse_shared(read: Sequence[str], written: Sequence[Optional[str]]) -> None:
    """Refuses what would be written over an input or over another file of the run. None is standard
    output.
    """
    taken = {os.path.realpath(path) for path in read}
    if None in written and sys.stdout is not None:
        with suppress(io.UnsupportedOperation):
            note_read(sys.stdout.fileno())
    for path in filter(None, written):
        _refuse_read(path)
        real = os.path.realpath(path)
        if real in taken:
            raise CommandError(Status.USAGE, f"{path} is named twice")
        if os.path.isfile(real) or not os.path.exists(real):
            taken.add(real)


def try_out(file: Optional[str]) -> None:
    """Refuses an output that can't be written, before anything is run for it."""
    if file is None:
        return
    _refuse_read(file)
    try:
        files.try_out(file)
    except OSError as error:
        raise DeviceError(f"cannot write {file}: {error.strerror}") from None


def write(file: Optional[str], data: bytes) -> None:
    """Writes all of what a companion writes, as `written` does."""
    with written(file) as target:
        target.write(data)


@contextmanager
def written(
    file: Optional[str], links: files.Links = files.Links.FOLLOWED
) -> Iterator[BinaryIO]:
    """Opens the file that a companion writes, or standard output where no file is named.

    A file gets its name once all of it is written: a run that fails leaves the old file as it
    was. Devices and pipes are written directly. A file that is read isn't written over.
    """
    if file is None:
        yield sys.stdout.buffer
        sys.stdout.buffer.flush()
        return
    _refuse_read(file)
    begun = False
    try:
        with files.written_whole(file, links=links) as target:
            begun = True
            yield target
            # (further files may have been read meanwhile)
            _refuse_read(file)
    except OSError as error:
        if begun:
            raise
        raise DeviceError(f"cannot write {file}: {error.strerror}") from None
