"""Finds what the suites try: the repository, and its programs."""

import os
import subprocess
import sys
from collections.abc import Iterator
from pathlib import Path

ROOT = Path(__file__).resolve().parents[2]
# Folders that builds, suites and git change at any time.
CHANGING = {"out", ".git", "__pycache__"}


def files_below(top: Path) -> Iterator[Path]:
    """Lists the files below a folder in order, without folders that others change meanwhile. (A folder that vanishes ends `Path.glob`.)"""
    for at, folders, names in os.walk(top):
        folders[:] = sorted(set(folders) - CHANGING)
        yield from (Path(at, it) for it in sorted(names))


def said_by(*words: str) -> str:
    """Returns what a command of the repository prints, which may be nothing."""
    return subprocess.run(words, cwd=ROOT, stdout=subprocess.PIPE, text=True, check=False).stdout.strip()


def argument_or_said(place: int, *words: str) -> str:
    """Returns the script's argument at this place, or else what a command of the repository prints, which may be nothing."""
    if len(sys.argv) > place:
        return sys.argv[place]
    return said_by(*words)


def program(place: int, name: str) -> str:
    """Returns the path of a program: the script's argument at this place, or else the program of these sources."""
    found = argument_or_said(place, "scripts/find-program", name)
    if not found:
        sys.exit(f"{sys.argv[0]}: there is no {name} of these sources: scripts/build builds it, or name it as an argument")
    return os.path.abspath(found)
