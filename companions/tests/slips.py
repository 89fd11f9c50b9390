"""The slips of the list `data/slips.txt`, each with what has to be said of it.

`python3 -m tests.slips` writes them as JSON, for the test of the page that solves.
"""

import json
import re
import unicodedata
from collections.abc import Iterator
from typing import NamedTuple

from pops_companions.explain.characters import decoded
from tests import support

BASE = ["BeginProblem", "Pieces White Kg6 Ra1 Black Kg8", "Stipulation #1", "EndProblem"]
WHOLE = "whole text:"
CHARACTERS = {
    "byte order mark": b"\xef\xbb\xbf",
    "tabulator": b"\t",
    "carriage return": b"\r",
    "no line end": b"",
}


class Slip(NamedTuple):
    """A slip of the list, with its wanted explanation."""

    place: int
    text: bytes
    line: int
    fault: int
    marks: list[bytes]
    explanation: str


def slips() -> Iterator[Slip]:
    """The slips of the list, after its introduction."""
    lines = (support.COMPANIONS / "data" / "slips.txt").read_text("utf-8").split("\n")
    first = next(place for place, line in enumerate(lines) if line.startswith("== "))
    block: list[str] = []
    for place, line in enumerate(lines[first:] + [""], start=first + 1):
        if line and not line.startswith("== "):
            block.append(line)
        elif block:
            yield slip(place - len(block), block)
            block = []


def slip(place: int, block: list[str]) -> Slip:
    own = [line for line in block if not line.startswith("    ")]
    told, *said = [line[4:] for line in block if line.startswith("    ")]
    parts = re.fullmatch(r"line (\d+), fault (\d+): ?(.*)", told)
    assert parts is not None, f"line {place}: {told}"
    lines = own[1:] if own[0] == WHOLE else in_base(own)
    text = in_bytes("".join(line + "\n" for line in lines))
    if own[-1].endswith("{no line end}"):
        text = text[:-1]
    marks = [in_bytes(mark) for mark in parts[3].split(" | ") if mark]
    return Slip(place, text, int(parts[1]), int(parts[2]), marks, " ".join(said))


def in_base(own: list[str]) -> list[str]:
    """The base text with these lines in place of the line that they name, else of the same command,
    else before EndProblem."""
    named = re.fullmatch(r"in place of line (\d):", own[0])
    if named is not None:
        at = int(named[1]) - 1
        return [*BASE[:at], *own[1:], *BASE[at + 1 :]]
    for at, line in enumerate(BASE):
        if line[:3].lower() == own[0][:3].lower():
            return [*BASE[:at], *own, *BASE[at + 1 :]]
    return [*BASE[:-1], *own, BASE[-1]]


def in_bytes(text: str) -> bytes:
    """The bytes of a text of the list, with the characters that it names."""
    parts = re.split(r"\{([^{}]+)\}", text)
    return b"".join(
        part.encode("utf-8") if place % 2 == 0 else character(part)
        for place, part in enumerate(parts)
    )


def character(name: str) -> bytes:
    if name in CHARACTERS:
        return CHARACTERS[name]
    if name.startswith("byte "):
        return bytes([int(name[5:], 16)])
    return unicodedata.lookup(name.upper()).encode("utf-8")


def as_json(wanted: Slip) -> dict[str, object]:
    """A slip as an object of JSON: its bytes as numbers, its marks as texts."""
    marks = [decoded(mark) for mark in wanted.marks]
    return {**wanted._asdict(), "text": list(wanted.text), "marks": marks}


if __name__ == "__main__":
    print(json.dumps([as_json(it) for it in slips()]))
