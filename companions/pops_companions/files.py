"""Files that get their names once all of them is written."""

import errno
import os
import re
import select
import stat
import sys
from collections.abc import Iterator
from contextlib import contextmanager, suppress
from enum import Enum
from typing import BinaryIO, Optional

# No file and no link that is there already is opened.
_NEW = os.O_RDWR | os.O_CREAT | os.O_EXCL | os.O_NOFOLLOW | os.O_CLOEXEC
# Where Linux keeps the list of those who may read and write a file, beside its permissions.
_LIST = "system.posix_acl_access"
# Where the system names the files that a process has open, by the process and by their numbers.
_OPEN_FILE = re.compile("/(?:dev|proc/([0-9]+)(?:/task/[0-9]+)?)/fd/([0-9]{1,9})")
_MOST_LINKS = 40
# The bytes of the longest name that the systems take.
_LONGEST_NAME = 255
# The open files of devices and pipes that are being written, by their numbers.
devices: set[int] = set()


class Links(Enum):
    """What becomes of a link by the name of a file that is written."""

    # The user named it.
    FOLLOWED = "followed"
    # The name is made of another's: whoever put a link there didn't name it for this.
    REPLACED = "replaced"


def is_device(path: str) -> bool:
    """Returns whether something is written as it is, as a device, a pipe, or a file that is open."""
    return _open_file(path) is not None or os.path.exists(path) and not os.path.isfile(path)


def _open_file(path: str) -> Optional["re.Match[str]"]:
    """Returns the process and the number of an open file to which a path leads, as /dev/stdout does.
    """
    for _ in range(_MOST_LINKS):
        folder, name = os.path.split(path)
        folder = os.path.realpath(folder)
        if found := _OPEN_FILE.fullmatch(os.path.join(folder, name)):
            return found
        try:
            path = os.path.join(folder, os.readlink(os.path.join(folder, name)))
        except OSError:
            return None
    return None


def _opened_device(path: str) -> BinaryIO:
    """Opens a device for writing. A file that is open is written on where it is: what it has stays."""
    found = _open_file(path)
    if found is None:
        return open(path, "wb")
    process, number = found.groups()
    if process not in (None, str(os.getpid())):
        return open(path, "ab")
    # (those that Python opens aren't inheritable: the user names none of them)
    if not os.get_inheritable(int(number)):
        raise OSError(errno.EBADF, os.strerror(errno.EBADF))
    return os.fdopen(os.dup(int(number)), "wb")


def real_of(path: str, links: Links) -> str:
    """Returns the path of the file that is written."""
    if links is Links.FOLLOWED:
        return os.path.realpath(path)
    folder, name = os.path.split(path)
    return os.path.join(os.path.realpath(folder), name)


def unfinished_name(real: str, end: Optional[str] = None) -> str:
    """Returns the name of a file until it is whole: its own, cut where the system takes none so long, and
    an end, by default one that nobody can guess.
    """
    end = f".{end or os.urandom(6).hex()}"
    folder, name = os.path.split(real)
    while len(os.fsencode(name + end)) > _LONGEST_NAME:
        name = name[:-1]
    return os.path.join(folder, name + end)


def drop(handle: int) -> None:
    """Lets an open file take all, and drop it."""
    os.dup2(os.open(os.devnull, os.O_WRONLY), handle)


def drop_unread() -> bool:
    """Drops what is written from now on to devices, pipes and standard streams that take no more, since nobody
    reads them; returns whether there are any.
    """
    handles = set(devices)
    for stream in filter(None, (sys.stdout, sys.stderr)):
        with suppress(OSError, ValueError):
            handles.add(stream.fileno())
    full = [it for it in handles if not _takes_more(it)]
    for handle in full:
        drop(handle)
    return bool(full)


def _takes_more(handle: int) -> bool:
    ready = select.poll()
    ready.register(handle, select.POLLOUT)
    return bool(ready.poll(0))


@contextmanager
def written_whole(
    path: str, unfinished: Optional[str] = None, links: Links = Links.FOLLOWED
) -> Iterator[BinaryIO]:
    """Opens a file for writing that appears under its name when all is written.

    If the writing fails, the file that was there stays. Nobody may read a new one who couldn't read
    it: it has its owner, group, permissions and list of who may read, as far as they can be given.
    Until it is whole the file has a name that nobody can guess, or is called `unfinished`; what
    an earlier run left under that name is removed.
    """
    if links is Links.FOLLOWED and is_device(path):
        device = _opened_device(path)
        handle = device.fileno()
        devices.add(handle)
        try:
            with device:
                yield device
        finally:
            # (what it holds is written as it is closed)
            devices.discard(handle)
        return
    real = real_of(path, links)
    before = _kept(real)
    name = unfinished or unfinished_name(real)
    if unfinished is not None:
        remove(unfinished)
    try:
        # (a signal may come right after the call: then the file is removed too)
        handle = os.open(name, _NEW, 0o666 if before is None else 0o600)
        with os.fdopen(handle, "w+b") as file:
            yield file
            file.flush()
            if before is not None:
                _give(file.fileno(), real, before)
        os.replace(name, real)
    except BaseException:
        remove(name)
        raise


def restrict(handle: int, path: str) -> None:
    """Lets nobody read a new file who can't read the file by this path, if there is one."""
    with suppress(OSError):
        before = os.stat(path)
        if stat.S_ISREG(before.st_mode):
            os.fchmod(handle, stat.S_IMODE(os.fstat(handle).st_mode & before.st_mode))


def try_out(
    path: str, unfinished: Optional[str] = None, links: Links = Links.FOLLOWED
) -> None:
    """Makes and removes a file as `written_whole` does. OSError where none can be made, or take the name
    of the one that is to be written.
    """
    real = real_of(path, links)
    if os.path.isdir(real):
        raise IsADirectoryError(errno.EISDIR, os.strerror(errno.EISDIR))
    if links is Links.FOLLOWED and is_device(path):
        return
    name = unfinished or unfinished_name(real)
    _kept(real)
    remove(name)
    try:
        os.close(os.open(name, _NEW, 0o600))
        os.unlink(name)
    except OSError:
        raise
    except BaseException:
        # (a signal came between the two)
        remove(name)
        raise


def remove(path: str) -> None:
    """Removes a file, or a link and not what it names, where there is one."""
    with suppress(FileNotFoundError):
        os.unlink(path)


def _kept(real: str) -> Optional[os.stat_result]:
    """Returns what is known of the file that is there. OSError where it isn't to be written."""
    try:
        before = os.lstat(real)
    except FileNotFoundError:
        return None
    if stat.S_ISLNK(before.st_mode):
        return None
    if not stat.S_ISREG(before.st_mode):
        raise FileExistsError(17, "there is something that is no file", real)
    if not os.access(real, os.W_OK):
        raise PermissionError(13, os.strerror(13), real)
    return before


def _give(handle: int, real: str, before: os.stat_result) -> None:
    """Gives a file the owner, group, list and permissions of the one before.

    Without its group, another group has no rights, and others none that the group hadn't.
    """
    has_group = _give_owner(handle, before)
    mode = stat.S_IMODE(before.st_mode) & 0o777
    listed = _give_list(handle, real)
    if not has_group:
        # (where there is a list, the group's rights are in it)
        mode &= 0o700 | (0 if listed else mode >> 3 & 0o007)
    os.fchmod(handle, mode)


def _give_owner(handle: int, before: os.stat_result) -> bool:
    """Gives a file its owner and group, or the group alone; returns whether it has the group."""
    now = os.fstat(handle)
    if (now.st_uid, now.st_gid) != (before.st_uid, before.st_gid):
        try:
            os.fchown(handle, before.st_uid, before.st_gid)
        except OSError:
            with suppress(OSError):
                os.fchown(handle, -1, before.st_gid)
    return os.fstat(handle).st_gid == before.st_gid


def _give_list(handle: int, real: str) -> bool:
    """Gives a file the list of the one before, or takes away what the folder gave; returns whether
    there is one."""
    if sys.platform != "linux":
        return False
    try:
        listed = os.getxattr(real, _LIST)
    except OSError:
        with suppress(OSError):
            os.removexattr(handle, _LIST)
        return False
    os.setxattr(handle, _LIST, listed)
    return True
