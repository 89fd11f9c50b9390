"""Says of a compiled program whether it can start others, by what it takes from libraries."""

import struct
from typing import BinaryIO, Optional

# The head of an ELF file with 64 bits, small bytes first, a segment, an entry of the dynamic section.
_BEGIN = b"\x7fELF\x02\x01"
_HEAD = struct.Struct("<32xQ14xHH6x")
_SEGMENT = struct.Struct("<I4xQQ8xQ16x")
_ENTRY = struct.Struct("<QQ")
_LOADED, _DYNAMIC = 1, 2
_NEEDED, _STRINGS, _LENGTH = 1, 5, 10
# The most bytes of a section that is read: a larger one is of no plain program.
_MOST = 1 << 16
_LIBRARY = b"libc.so.6"
# All that the programs of this project take from it. None of these starts a program or a process.
_TAKEN = frozenset(
    (
        *(b"", _LIBRARY, b"__libc_start_main", b"__gmon_start__", b"__cxa_finalize"),
        *(b"_ITM_deregisterTMCloneTable", b"_ITM_registerTMCloneTable", b"__stack_chk_fail"),
        *(b"open", b"close", b"read", b"write", b"__write", b"__errno_location", b"__sysv_signal"),
        *(b"malloc", b"realloc", b"free", b"memcpy", b"memmove", b"memset", b"memcmp"),
        b"__x86_get_cpuid_feature_leaf",
    )
)
_VERSION = b"GLIBC_"


def starts_none(path: str) -> bool:
    """Returns whether a program surely starts no other: it takes what these programs take. (One that takes
    more may call the system without the C library, as those in Go do.)
    """
    try:
        with open(path, "rb") as file:
            found = _libraries_and_names(file)
    except (OSError, struct.error, ValueError, OverflowError):
        return False
    if found is None:
        return False
    libraries, names = found
    return libraries == [_LIBRARY] and all(it in _TAKEN or it.startswith(_VERSION) for it in names)


def _libraries_and_names(file: BinaryIO) -> Optional[tuple[list[bytes], list[bytes]]]:
    """Returns the libraries that a program needs, and all names of its dynamic section; None for one of
    another form.
    """
    head = file.read(_HEAD.size)
    if not head.startswith(_BEGIN):
        return None
    place, size, number = _HEAD.unpack(head)
    if size != _SEGMENT.size:
        return None
    segments = list(_SEGMENT.iter_unpack(_read(file, place, size * number)))
    dynamic = [(offset, length) for kind, offset, _, length in segments if kind == _DYNAMIC]
    if len(dynamic) != 1:
        return None
    entries = list(_ENTRY.iter_unpack(_read(file, *dynamic[0])))
    values: dict[int, int] = {kind: value for kind, value in entries}
    strings = values.get(_STRINGS, 0)
    for kind, offset, address, length in segments:
        if kind == _LOADED and address <= strings < address + length:
            text = _read(file, offset + strings - address, values.get(_LENGTH, 0))
            needed = [value for kind, value in entries if kind == _NEEDED]
            return [text[it : text.index(b"\0", it)] for it in needed], text.split(b"\0")
    return None


def _read(file: BinaryIO, place: int, length: int) -> bytes:
    """Returns bytes of a file. ValueError where they are too many, or aren't there."""
    file.seek(place)
    data = file.read(length) if length <= _MOST else b""
    if not data or len(data) != length:
        raise ValueError
    return data
