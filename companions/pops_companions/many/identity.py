"""What a program is: its bytes, and for a script also the programs that are named in its text."""

import hashlib
import os
import re
from collections.abc import Iterable, Iterator, Mapping
from contextlib import suppress
from typing import NamedTuple

from pops_companions import places
from pops_companions.many.program import MissingError, without_script

_SCRIPT = b"#!"
# A longer text does more than start another program, and no script starts as many.
_LONGEST = 1 << 16
_MOST = 64
# A word of a script, which names a program by its path, or by a name that begins with "pops".
_WORD = re.compile(rb"(?<![^\s\0'\"`;|&()<>={}$])[^\s\0'\"`;|&()<>={}$]*/[^\s\0'\"`;|&()<>={}$]+|\bpops[\w.-]*")
# The last parts of a path that may follow what only the shell knows, as `$here`.
_MOST_PARTS = 6
# The scripts of a repository, in place of which their programs are noted.
_OF_A_REPOSITORY = ("pops", "pops-part", "pops-tries")


class _File(NamedTuple):
    """A file as it was read: what changes with it, and its checksum."""

    state: tuple[int, ...]
    checksum: str


class Known:
    """A program as it is when a run begins, and whether it was another one since."""

    def __init__(self, program: str):
        """Reads it. OSError where it can't be read."""
        self.program = program
        self._files = _files(program)
        self.identity = _identity_of(self._files)
        self._was_another = False

    @property
    def is_changed(self) -> bool:
        """Whether it is another program now, or was one at an earlier look. One that is gone is none."""
        with suppress(OSError):
            if not all(_state(path) == file.state for path, file in self._files.items()):
                self._files = _files(self.program)
                self._was_another |= _identity_of(self._files) != self.identity
        return self._was_another


def _identity_of(files: Mapping[str, _File]) -> str:
    """Returns a checksum of a program, for a script also of the programs that are named in its text."""
    sums = [file.checksum for file in files.values()]
    return sums[0] if len(sums) == 1 else hashlib.sha256("\n".join(sums).encode("ascii")).hexdigest()


def _files(program: str) -> dict[str, _File]:
    """Returns a program and the programs that it names, by their paths."""
    files: dict[str, _File] = {}
    left = [program]
    while left and len(files) < _MOST:
        named = left.pop(0)
        path = os.path.realpath(named)
        if path not in files:
            files[path] = _File(_state(path), places.fingerprint(path))
            left += _named(path, named)
    return files


def _state(path: str) -> tuple[int, ...]:
    it = os.stat(path)
    return it.st_dev, it.st_ino, it.st_size, it.st_mtime_ns, it.st_ctime_ns


def _named(script: str, link: str) -> Iterator[str]:
    """Yields the programs that are named in the text of a script, which may be called by a link."""
    text = b""
    with suppress(OSError), open(script, "rb") as file:
        text = file.read(_LONGEST)
    # (its first line names what reads it)
    first, _, rest = text.partition(b"\n")
    if not first.startswith(_SCRIPT):
        return
    folders = [os.path.dirname(script), os.path.dirname(os.path.abspath(link))]
    folders += filter(None, [os.environ.get("HOME")])
    for word in dict.fromkeys(_WORD.findall(rest)):
        for path in _paths(os.fsdecode(word), dict.fromkeys(folders)):
            yield _of_repository(path)


def _paths(word: str, folders: Iterable[str]) -> Iterator[str]:
    """Yields the programs that a word may mean: by itself, else by its last parts from each folder."""
    if path := places.found(word):
        yield path
        return
    parts = word.split("/")
    for number in range(1, min(len(parts), _MOST_PARTS) + 1):
        for folder in folders:
            path = os.path.join(folder, *parts[-number:])
            if os.access(path, os.X_OK) and os.path.isfile(path):
                yield path


def _of_repository(path: str) -> str:
    """Returns a program; for a repository's script the one that it starts."""
    name = os.path.basename(path)
    if name in _OF_A_REPOSITORY:
        with suppress(MissingError):
            return without_script(path, name)
    return path
