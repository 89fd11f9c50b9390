"""Where the companions are: their folder, their version, the programs.

What takes long to load is loaded only where it is needed.
"""

import os
from typing import Optional


def folder_above(path: str, steps: int = 1) -> str:
    """Returns the folder that is some steps above a path, as `/a` is 2 steps above `/a/b/c`."""
    for _ in range(steps):
        path = os.path.dirname(path)
    return path


def _number_and_date() -> list[str]:
    """Returns the words of the file VERSION; none where pip installed the package."""
    path = os.path.join(REPOSITORY, "VERSION")
    if not os.path.isfile(path):
        return []
    with open(path, encoding="utf-8") as file:
        return file.read().split()


# The folder of the commands: in a clone, or PREFIX/share/pops/companions. The folder that it is in.
COMPANIONS = folder_above(os.path.realpath(__file__), 2)
REPOSITORY = folder_above(COMPANIONS)
# The number of this version, which pyproject.toml reads; empty where pip installed the package.
NUMBER = (_number_and_date() or [""])[0]
# The name by which pip installs the package.
_DISTRIBUTION = "pops"


def number() -> str:
    """Returns the number of this version, as `1.6.0`."""
    if NUMBER:
        return NUMBER
    import importlib.metadata

    return importlib.metadata.version(_DISTRIBUTION)


def version() -> str:
    """Returns number and date of this version; only its number where pip installed the package."""
    if not NUMBER:
        return number()
    _, date = _number_and_date()
    return f"{NUMBER} ({date})"


def found(name: str) -> Optional[str]:
    """Returns the path of a program that is named, or is on the PATH."""
    if os.path.dirname(name) and os.path.isfile(name) and os.access(name, os.X_OK):
        return name
    import shutil

    return shutil.which(name)


def fingerprint(program: str) -> str:
    """Returns a checksum of a program; for one that can't be read, what changes with it."""
    import hashlib
    import stat

    status = os.stat(program)
    if stat.S_ISREG(status.st_mode) and os.access(program, os.R_OK):
        with open(program, "rb") as file:
            return hashlib.sha256(file.read()).hexdigest()
    return f"{status.st_size} {status.st_mtime_ns}"


def program(name: str) -> Optional[str]:
    """Returns the path of a program that pip installed with this package, if it did."""
    import importlib.metadata
    from pathlib import Path

    try:
        files = importlib.metadata.files(_DISTRIBUTION) or []
    except importlib.metadata.PackageNotFoundError:
        return None
    found = (Path(str(file.locate())).resolve() for file in files if file.name == name)
    return next((str(it) for it in found if it.parent.name == "bin" and it.is_file()), None)
