"""Files that stand under their names once all of them is written: reports, and beside each one what is
known of unfinished problems.
"""

import os
import re
import stat
from contextlib import AbstractContextManager
from typing import BinaryIO

from pops_companions import files
from pops_companions.files import Links
from pops_companions.report import lines

# The end of the file: how far its last problem is, and where this begins. (Older versions wrote line ends of a path.)
_END = re.compile(
    rb"\n%sstopped [^\n]*? \(.*, line [0-9]+\)\n\n\Z" % re.escape(lines.UNFINISHED), re.DOTALL
)
# More bytes than a path has.
_LONGEST_END = 8192
_OPEN = os.O_RDONLY | os.O_NONBLOCK | os.O_NOFOLLOW | os.O_CLOEXEC


class Target:
    """A file to be written by a run.

    Until it is whole it has a name that is made of its own one and the run's: so the same run finds
    what it left where it was killed. Devices and pipes are written as they
    are.
    """

    def __init__(self, path: str, run: bytes, links: Links = Links.FOLLOWED):
        self.path = path
        self._links = links
        self._real = files.real_of(path, links)
        self._temporary = files.unfinished_name(self._real, run.decode("ascii")[:12])

    @property
    def is_device(self) -> bool:
        """Whether it is written as it is."""
        return self._links is Links.FOLLOWED and files.is_device(self.path)

    def try_out(self) -> None:
        """Removes what the run left. OSError where the file couldn't be written."""
        files.try_out(self.path, self._temporary, self._links)

    def opened(self) -> AbstractContextManager[BinaryIO]:
        """The file, open for writing; one that fails leaves what stood there before."""
        return files.written_whole(self.path, self._temporary, self._links)


class UnfinishedTarget(Target):
    """A file of unfinished problems. It replaces and removes only a file that pops-many wrote."""

    @property
    def is_foreign(self) -> bool:
        """Whether a link, or a file that pops-many didn't write, has this name.

        A file without content isn't foreign, nor is a device that the user named.
        """
        if self.is_device:
            return False
        try:
            handle = os.open(self._real, _OPEN)
        except OSError:
            return os.path.lexists(self._real)
        try:
            known = os.fstat(handle)
            if not stat.S_ISREG(known.st_mode):
                # (a folder is refused like any file that can't be written)
                return not stat.S_ISDIR(known.st_mode)
            end = os.pread(handle, _LONGEST_END, max(known.st_size - _LONGEST_END, 0))
            return bool(end) and _END.search(end) is None
        finally:
            os.close(handle)

    @property
    def refusal(self) -> str:
        """What to say of a foreign file."""
        return f"{self.path} isn't a file that pops-many wrote: remove or rename it"

    def remove(self) -> None:
        """Removes the file if there is one that isn't foreign. One that the user has open stays."""
        if not self.is_device and os.path.isfile(self._real) and not self.is_foreign:
            files.remove(self._real)
