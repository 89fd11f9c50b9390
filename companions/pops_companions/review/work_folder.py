"""The folder that keeps what is done of a sheet until all of it is.

It has a file that marks it as this program's own, with checksums of the input and of the programs that
are run. Nothing of a folder without that mark is read, and only files with names of its own are removed.
What it keeps has checksums with that of the mark and with the file's name: what was kept for another
isn't taken.
"""

import errno
import fcntl
import hashlib
import json
import os
import re
import stat
import weakref
from collections.abc import Callable, Iterable, Mapping
from contextlib import suppress
from functools import partial
from itertools import chain
from pathlib import Path
from typing import BinaryIO, NoReturn, Optional

from pops_companions import files
from pops_companions.command import CommandError, DeviceError, Status
from pops_companions.many.child_process import MOST_OUTPUT
from pops_companions.many.identity import Known

_MARK = "pops-judge.mark"
_HEAD = "pops-judge work 3"
_OWN = re.compile(
    r"(?:pops-judge\.mark|input\.pop|short\.pop|tries-[0-9]+\.txt"
    r"|(?:solutions|short)\.report(?:\.journal|\.unfinished|\.sum)?)(?:\.[0-9a-f]{12})?"
)
_FOLDER = os.O_RDONLY | os.O_DIRECTORY | os.O_NOFOLLOW
_READ = os.O_RDONLY | os.O_NOFOLLOW | os.O_NONBLOCK | os.O_CLOEXEC
# The permissions of a new folder, and all that count: by the sticky bit it isn't one that a user made.
_NEW = stat.S_ISVTX | stat.S_IRWXU
_ALL = _NEW | stat.S_IRWXG | stat.S_IRWXO
# What is said of what is no folder, or a link.
_NO_FOLDER = (errno.ENOTDIR, errno.ELOOP)
_SUM = ".sum"
_LENGTH_OF_A_SUM = 2 * hashlib.sha256().digest_size + 1
_LONGEST_MARK = 1 << 16
_PIECE = 1 << 20
_FOREIGN = "isn't a folder of pops-judge: remove it, or name another sheet"
_CHANGED = "has a mark that was changed, or is of another version: remove it"

# The programs that are run, by their names.
Programs = Mapping[str, Optional[Known]]


def _sum_of(text: Iterable[bytes]) -> bytes:
    total = hashlib.sha256()
    for piece in text:
        total.update(piece)
    return total.hexdigest().encode("ascii") + b"\n"


def _mark_of(text: bytes, programs: Programs) -> bytes:
    """Returns the mark of an input and programs: a line for each, and a checksum of these lines."""
    lines = [_HEAD, f"input {hashlib.sha256(text).hexdigest()}"]
    lines += [f"{name} {_described(path)}" for name, path in programs.items()]
    mark = "".join(line + "\n" for line in lines).encode("ascii")
    return mark + _sum_of([mark])


def _described(program: Optional[Known]) -> str:
    """Returns a program's path with its version, which is another one once it is changed."""
    if program is None:
        return json.dumps([None, None])
    return json.dumps([os.path.realpath(program.program), program.identity])


def _difference(begun: list[str], now: list[str]) -> str:
    """Returns what the lines of a mark have that is different now, and what to do."""
    line, other = next((it for it in zip(begun, now) if it[0] != it[1]), ("", ""))
    name, _, program = line.partition(" ")
    if name == "input":
        return "is of another text: remove it"
    try:
        before, after = json.loads(program)[0], json.loads(other.partition(" ")[2])[0]
    except (ValueError, TypeError, LookupError, RecursionError):
        return _CHANGED
    if before is None:
        return f"was begun without {name}: remove it"
    if before == after:
        return f"was begun with {before} before that was changed: remove it"
    return f"was begun with another {name}: name {before} with --{name}, or remove it"


class OthersError(CommandError):
    """A folder that somebody moved, replaced or changed while it was in use."""

    def __init__(self, message: str):
        super().__init__(Status.UNFINISHED, message)


class WorkFolder:
    """The folder, by its path."""

    def __init__(self, path: Path):
        self.path = path
        self._mark = b""
        self._programs: Programs = {}
        # The folder as it is open and locked, once it is begun, and what closes it.
        self._handle = -1
        self._closing: Callable[[], object] = lambda: None

    def begin(self, text: bytes, programs: Programs, resume: bool) -> None:
        """Makes the folder for an input, or takes up that of a run that was stopped.

        CommandError where the folder can't be made, isn't this program's, isn't of this input and these
        programs, or has a run at work.
        """
        is_new = False
        try:
            # (where a link leads nowhere, no folder can be made)
            self.path.parent.mkdir(parents=True, exist_ok=True)
            while not self._is_held():
                with suppress(FileExistsError):
                    self.path.mkdir(_NEW)
                    is_new = True
        except OSError as error:
            raise DeviceError(f"cannot write {error.filename}: {error.strerror}") from None
        self._refuse_foreign(is_new)
        self._programs = programs
        mark, self._mark = self.path / _MARK, _mark_of(text, programs)
        if mark.exists():
            if not resume:
                self._refuse("keeps a run that was stopped: go on with --resume, or remove it")
            with self._opened(mark) as file:
                self._refuse_other(file.read(_LONGEST_MARK))
        else:
            self.write(mark, self._mark)
        self.write(self.path / "input.pop", text)

    def _is_held(self) -> bool:
        """Keeps other runs out of the folder until this one ends; returns whether there is one."""
        try:
            handle = os.open(self.path, _FOLDER)
        except FileNotFoundError:
            return False
        except OSError as error:
            if error.errno not in _NO_FOLDER:
                raise
            self._refuse(_FOREIGN)
        close = weakref.finalize(self, os.close, handle)
        try:
            fcntl.flock(handle, fcntl.LOCK_EX | fcntl.LOCK_NB)
        except BlockingIOError:
            self._refuse("is in use by another run")
        except OSError as error:
            raise DeviceError(f"{self.path} can't be locked: {error.strerror}") from None
        # (the run before this one may have removed it meanwhile)
        with suppress(FileNotFoundError):
            if os.path.samestat(os.fstat(handle), os.lstat(self.path)):
                self._handle, self._closing = handle, close
                return True
        close()
        return False

    def close(self) -> None:
        """Lets other runs have the folder."""
        self._closing()

    def _refuse_foreign(self, is_new: bool) -> None:
        """Refuses a folder that this program didn't make, and links in one that it made."""
        names = os.listdir(self._handle)
        known = os.fstat(self._handle)
        # (killed right after it made the folder, a run left no mark)
        is_unmarked = (is_new or known.st_mode & _ALL == _NEW) and all(
            _OWN.fullmatch(it) and it.startswith(f"{_MARK}.") for it in names
        )
        is_own = known.st_uid == os.geteuid() and all(map(self._is_file, names))
        if not is_own or not (_MARK in names or is_unmarked):
            self._refuse(_FOREIGN)

    def _is_file(self, name: str) -> bool:
        """Returns whether a file has this name in the folder, or none: no link, pipe or folder."""
        with suppress(FileNotFoundError):
            return stat.S_ISREG(os.stat(name, dir_fd=self._handle, follow_symlinks=False).st_mode)
        return True

    def _refuse_other(self, mark: bytes) -> None:
        """Refuses a folder with another mark than that of the input and the programs."""
        *lines, checksum = mark.splitlines(keepends=True) or [b""]
        begun = [line.decode("ascii", "replace").rstrip("\n") for line in lines]
        if checksum != _sum_of(lines) or begun[:1] != [_HEAD]:
            self._refuse(_CHANGED)
        if mark != self._mark:
            self._refuse(_difference(begun, self._mark.decode("ascii").splitlines()))

    def _refuse(self, reason: str) -> NoReturn:
        raise CommandError(Status.USAGE, f"{self.path} {reason}")

    @property
    def programs(self) -> list[Known]:
        """The programs that the run has."""
        return [it for it in self._programs.values() if it is not None]

    @property
    def changed(self) -> Optional[str]:
        """A program that was changed since the run began."""
        return next((it.program for it in self.programs if it.is_changed), None)

    def refuse_moved(self) -> None:
        """Ends the run where its folder was moved, or another stands in its place."""
        with suppress(FileNotFoundError):
            if os.path.samestat(os.fstat(self._handle), os.lstat(self.path)):
                return
        raise OthersError(f"{self.path} was moved or replaced while it was in use")

    def refuse_others(self) -> None:
        """Ends the run where its folder was moved or replaced, or a link, pipe or folder has the name of
        a file of its own.
        """
        self.refuse_moved()
        self._refuse_kinds(it for it in os.listdir(self._handle) if _OWN.fullmatch(it))

    def _refuse_kinds(self, names: Iterable[str]) -> None:
        if not all(map(self._is_file, names)):
            raise OthersError(f"{self.path} was changed while it was in use: remove it")

    def write(self, path: Path, text: bytes) -> None:
        """Writes a file of the folder, completely or not at all."""
        self.refuse_moved()
        self._refuse_kinds([path.name])
        with files.written_whole(str(path), links=files.Links.REPLACED) as file:
            file.write(text)

    def _opened(self, path: Path) -> BinaryIO:
        """Opens a file of the folder. FileNotFoundError where there is none, or a link or a pipe instead."""
        with suppress(OSError):
            handle = os.open(path.name, _READ, dir_fd=self._handle)
            if stat.S_ISREG(os.fstat(handle).st_mode):
                return os.fdopen(handle, "rb")
            os.close(handle)
        raise FileNotFoundError(errno.ENOENT, os.strerror(errno.ENOENT), str(path))

    def first_line(self, path: Path) -> Optional[bytes]:
        """Returns the first line of a file, as far as it isn't longer than a mark; None if there is no file."""
        with suppress(FileNotFoundError), self._opened(path) as file:
            return file.readline(_LONGEST_MARK)
        return None

    def keep(self, path: Path, text: bytes) -> None:
        """Writes a text with its checksum in front, for `kept`."""
        self.write(path, self._sum_of(path, [text]) + text)

    def _sum_of(self, path: Path, text: Iterable[bytes]) -> bytes:
        """Returns the checksum of a text, which isn't that of the same text in another file."""
        return _sum_of(chain([self._mark, os.fsencode(path.name), b"\n"], text))

    def _sum_of_file(self, path: Path) -> bytes:
        with self._opened(path) as file:
            return self._sum_of(path, iter(partial(file.read, _PIECE), b""))

    def kept(self, path: Path) -> Optional[bytes]:
        """Returns a text that `keep` wrote; None if there is none, or another."""
        try:
            with self._opened(path) as file:
                if os.fstat(file.fileno()).st_size > MOST_OUTPUT + _LENGTH_OF_A_SUM:
                    return None
                head, text = file.read(_LENGTH_OF_A_SUM), file.read()
        except FileNotFoundError:
            return None
        return text if head == self._sum_of(path, [text]) else None

    def seal(self, report: Path) -> None:
        """Notes that a report is whole, for `is_sealed`."""
        self.write(Path(f"{report}{_SUM}"), self._sum_of_file(report))

    def is_sealed(self, report: Path) -> bool:
        """Returns whether a report is the one that was noted as whole."""
        try:
            with self._opened(Path(f"{report}{_SUM}")) as file:
                return file.read(_LENGTH_OF_A_SUM + 1) == self._sum_of_file(report)
        except FileNotFoundError:
            return False

    def discard(self, path: Path) -> None:
        """Removes a file of the folder, if there is one."""
        if self._is_file(path.name):
            with suppress(FileNotFoundError):
                os.unlink(path.name, dir_fd=self._handle)

    def empty(self, with_mark: bool = False) -> None:
        """Removes what is the program's own, but for the mark, which may go last."""
        for name in sorted(os.listdir(self._handle), key=lambda it: it == _MARK):
            if _OWN.fullmatch(name) and (with_mark or name != _MARK):
                self.discard(Path(name))

    def remove(self) -> bool:
        """Removes what is the program's own; returns whether nothing else was in the folder."""
        self.empty(with_mark=True)
        with suppress(OSError):
            os.rmdir(self.path)
        return not self.path.exists()
