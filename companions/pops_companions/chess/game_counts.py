"""Counts of men that no game from the initial array can have."""

from collections.abc import Iterator, Mapping
from typing import NamedTuple, Optional

from pops_companions.chess.men import FAIRY_KINDS, Colour, Kind, Man, Square

_MEN = 16
_PAWNS = 8
# How many men of a kind a side begins with, and one bishop on squares of each colour.
_BEGUN = {Kind.QUEEN: 1, Kind.ROOK: 2, Kind.KNIGHT: 2}
# The most men of a kind, by their letter, that surely have begun: two bishops may be of one colour.
_SURELY_BEGUN = [
    (letter, most)
    for pair, most in (("Pp", _PAWNS), ("Qq", 1), ("Rr", 2), ("Ss", 2), ("Bb", 1))
    for letter in pair
]


def surely_begun(letters: str) -> bool:
    """Returns whether the men of a printed board's letters are few enough of each kind and side for a
    game without promotions.
    """
    men = letters.replace(".", "")
    return all([men.count(letter) <= most for letter, most in _SURELY_BEGUN])


class Count(NamedTuple):
    """How many men of a kind a side has: of bishops those on squares of a shade, without a kind all."""

    number: int
    kind: Optional[Kind]
    shade: str = ""

    @property
    def text(self) -> str:
        """As `3 queens`."""
        if self.kind is None:
            return f"{self.number} men"
        plural = "" if self.number == 1 else "s"
        where = f" on {self.shade} squares" if self.shade else ""
        return f"{self.number} {self.kind.word}{plural}{where}"


def impossible(men: Mapping[Square, Man], colour: Colour) -> list[Count]:
    """Returns the counts of a side that no game can have.

    Each man too many of a kind is a promoted pawn. Beside fairy men none is counted.
    """
    own = {square: man.kind for square, man in men.items() if man.colour is colour}
    kinds = list(own.values())
    found = [Count(len(own), None)] if len(own) > _MEN else []
    pawns = Count(kinds.count(Kind.PAWN), Kind.PAWN)
    if pawns.number > _PAWNS:
        return [*found, pawns]
    if any(kind in kinds for kind in FAIRY_KINDS):
        return found
    counts = [(Count(kinds.count(kind), kind), begun) for kind, begun in _BEGUN.items()]
    for shade, parity in (("dark", 0), ("light", 1)):
        bishops = [it for it, kind in own.items() if kind is Kind.BISHOP]
        number = sum((square.file + square.rank) % 2 == parity for square in bishops)
        counts.append((Count(number, Kind.BISHOP, shade), 1))
    too_many = [(it, begun) for it, begun in counts if it.number > begun]
    if sum(it.number - begun for it, begun in too_many) <= _PAWNS - pawns.number:
        return found
    return [*found, *(it for it, _ in too_many), *([pawns] if pawns.number else [])]


def impossible_counts(men: Mapping[Square, Man]) -> Iterator[str]:
    """Yields what no game can have, in words: `White has 3 queens and 8 pawns`."""
    for colour in Colour:
        side, counts = colour.name.title(), impossible(men, colour)
        if counts and counts[0].kind is None:
            yield f"{side} has {counts.pop(0).text}"
        if counts:
            texts = [it.text for it in counts]
            yield f"{side} has {' and '.join(filter(None, (', '.join(texts[:-1]), texts[-1])))}"
