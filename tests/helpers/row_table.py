#!/usr/bin/env python3
"""Reads the table of rows, tests/rows/*.txt, whose form tests/rows/README.md has.

    tests/helpers/row_table.py FOLDER   writes the rows as files: NAME.in, NAME.out, NAME.status and NAME.options, one option per line
"""

import re
import sys
from pathlib import Path
from typing import NamedTuple, Optional

FOLDER = Path(__file__).resolve().parents[1] / "rows"
OPTIONS = ("--check", "--no-board")
ESCAPE = re.compile(r"\\(?:\((.+?)\*(\d+)\)|x([0-9a-f]{2})|([rt])|(.?))")
LETTERS = {"r": "\r", "t": "\t"}


class TableError(Exception):
    """An error in a file of rows, with its place."""


class Row(NamedTuple):
    """An input of `pops`, its options, and the report and status that it must give."""

    name: str
    options: tuple[str, ...]
    input: bytes
    report: bytes
    status: int
    # The least and the most positions that its search may try, if known.
    opened: Optional[tuple[int, int]]


class Subject(NamedTuple):
    """A file of rows."""

    name: str
    about: str
    rows: list[Row]


def _unescaped(escape: "re.Match[str]") -> str:
    repeated, count, number, letter, other = escape.groups()
    if repeated:
        return repeated * int(count)
    if number:
        return chr(int(number, 16))
    if letter:
        return LETTERS[letter]
    raise TableError(f"\\{other} stands for nothing")


def _input(lines: list[str]) -> bytes:
    """Returns the bytes of an input: a backslash at the end of a line removes its line end."""
    text = "".join(line[:-1] if line.endswith("\\") else line + "\n" for line in lines)
    return ESCAPE.sub(_unescaped, text).encode("latin-1")


def _field(head: list[str], name: str) -> Optional[str]:
    """Returns the value of a field in the head of a row, or None."""
    found = [line[len(name) + 2 :] for line in head if line.startswith(f"{name}: ")]
    if len(found) > 1:
        raise TableError(f"{name} is given twice")
    return found[0] if found else None


def _opened(field: Optional[str]) -> Optional[tuple[int, int]]:
    if field is None:
        return None
    bounds = re.fullmatch(r"(\d+) to (\d+)", field)
    if not bounds:
        raise TableError(f"opened: {field}: not of the form LEAST to MOST")
    return int(bounds[1]), int(bounds[2])


def _row(name: str, lines: list[str]) -> Row:
    if lines.count("-- input") != 1 or lines.count("-- report") != 1:
        raise TableError("needs one input and one report")
    begins, ends = lines.index("-- input"), lines.index("-- report")
    head, report = lines[:begins], lines[ends + 1 :]
    options = tuple((_field(head, "options") or "").split())
    status = _field(head, "status") or "0"
    if any(it not in OPTIONS for it in options) or status not in ("0", "1"):
        raise TableError("an unknown option or status")
    if report[-1:] != [""]:
        raise TableError("an empty line has to end the report")
    text = "".join(f"{line}\n" for line in report).encode("ascii")
    return Row(name, options, _input(lines[begins + 1 : ends]), text, int(status), _opened(_field(head, "opened")))


def subject(path: Path) -> Subject:
    """Reads the rows of a file."""
    about, *parts = re.split(r"^== (\w+)\n", path.read_text("ascii"), flags=re.M)
    rows = []
    for name, text in zip(parts[::2], parts[1::2]):
        try:
            rows.append(_row(name, text.split("\n")[:-1]))
        except TableError as error:
            raise TableError(f"{path.name}: {name}: {error}") from None
    return Subject(path.stem, about.strip(), rows)


def subjects() -> list[Subject]:
    """Reads the whole table, by subject."""
    return [subject(path) for path in sorted(FOLDER.glob("*.txt"))]


def rows() -> list[Row]:
    """Reads all rows."""
    return [row for one in subjects() for row in one.rows]


def write_files(folder: Path) -> list[Path]:
    """Writes the rows as files. Returns the paths of their inputs."""
    paths = []
    for row in rows():
        path = folder / f"{row.name}.in"
        path.write_bytes(row.input)
        path.with_suffix(".out").write_bytes(row.report)
        path.with_suffix(".status").write_text(f"{row.status}\n")
        path.with_suffix(".options").write_text("".join(f"{it}\n" for it in row.options))
        paths.append(path)
    return paths


if __name__ == "__main__":
    if len(sys.argv) != 2:
        sys.exit(__doc__)
    write_files(Path(sys.argv[1]))
