"""The authors of a problem: one person each, by name and as entries of an index."""

import re
from collections.abc import Sequence
from dataclasses import dataclass

_BETWEEN = re.compile(" ?; ?| (?:&|and|und|et) ")
# A surname, a comma, and names that aren't a date, a place or the like.
_SURNAME_FIRST = re.compile(r"([^\W\d_][^,\d]*), *([^\W\d_][^,\d]*)")
_NAMES = re.compile(r"[^\W\d_][^,\d]*")
_AFTER_SURNAME = ("jr", "jr.", "jun.", "sr", "sr.", "sen.", "ii", "iii")


@dataclass(frozen=True)
class Person:
    """An author. Surname and given names are empty where the text doesn't show which is which."""

    text: str
    surname: str = ""
    given: str = ""

    @property
    def name(self) -> str:
        """As `Samuel Loyd`."""
        return f"{self.given} {self.surname}" if self.surname else self.text

    @property
    def entry(self) -> str:
        """The entry of an index: `Loyd, Samuel`, also where the text is `Samuel Loyd`."""
        if self.surname:
            return f"{self.surname}, {self.given}"
        words = self.text.split()
        last = len(words) - 1
        while last > 0 and words[last].lower() in _AFTER_SURNAME:
            last -= 1
        if last < 1 or not _NAMES.fullmatch(self.text):
            return self.text
        return f"{' '.join(words[last:])}, {' '.join(words[:last])}"


def persons(text: str) -> list[Person]:
    """Returns the authors of a text, parted by `;`, `&` or `and`; `Loyd, Samuel` is one."""
    return [_person(name) for name in _BETWEEN.split(" ".join(text.split())) if name]


def joined(people: Sequence[Person]) -> str:
    """Returns names as `Samuel Loyd, Frank Healey & Paul Morphy`."""
    names = [person.name for person in people]
    return " & ".join(filter(None, (", ".join(names[:-1]), *names[-1:])))


def _person(text: str) -> Person:
    parts = _SURNAME_FIRST.fullmatch(text)
    return Person(text) if parts is None else Person(text, parts[1], parts[2])
