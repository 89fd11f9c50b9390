"""Published solutions of two-movers, as collections of YACPDB keep them: what their text says.

Three ways of writing are read: Popeye's (`1.Rf6-f2 ? threat:`), short lines (`1.Rb4?? (2.Kb5#)`)
and hand-written ones (`1. Be1! - zz`). Words that are unknown are kept: a text with some isn't
whole.
"""

import re
from collections.abc import Iterator
from dataclasses import dataclass, field
from enum import Enum

_LEFT_OUT = re.compile(r'\{[^}]*\}|\[[A-Za-z][0-9]?\]|"')
_PROMOTED = r"(?:\s?[=/]?\s?[QRBSN](?![a-h1-8x:*]))?"
_MOVE = (
    r"0-0-0|0-0|O-O-O|O-O"
    rf"|[KQRBSNP]?[a-h]?[1-8]?\s?[-x*:]?\s?[a-h][1-8]{_PROMOTED}"
)
_TOKEN = re.compile(
    rf"(?P<number>\d+)\s*(?P<dots>\.(?:\s*\.)*|…)"
    rf"|(?P<move>{_MOVE})(?P<en_passant>\s*e\.?\s?p\.?)?"
    r"|(?P<sign>[!?]+)"
    r"|(?P<but>\b(?i:but)\b)"
    r"|(?P<zugzwang>\b(?i:zz|zugzwang|waiting|block)\b)"
    r"|(?P<threat>\b(?i:thr(?:eats?)?)\b)"
    r"|(?P<joint>[/,]|\b(?i:or|and)\b)"
    r"|(?P<filler>[-+#.:;()\[\]\s]+|\b(?i:set play|tr(?:y|ies))\b)"
    r"|(?P<unknown>[\w~]+|.)"
)


class Menace(Enum):
    """What a published first move menaces."""

    THREAT = "threat"
    ZUGZWANG = "zugzwang"


@dataclass
class Replies:
    """Defences that are published with the same mates."""

    defences: list[str] = field(default_factory=list)
    mates: list[str] = field(default_factory=list)


@dataclass
class Published:
    """A first move of a published solution; a key has no refutations, set play no first move."""

    move: str = ""
    sign: str = ""
    menaces: set[Menace] = field(default_factory=set)
    threats: list[str] = field(default_factory=list)
    replies: list[Replies] = field(default_factory=list)
    refutations: list[str] = field(default_factory=list)
    unknown: list[str] = field(default_factory=list)

    @property
    def is_try(self) -> bool:
        return "?" in self.sign


class _Reader:
    """Where a reading is: the first move, the half-move, and whether refutations come.

    A move goes on with the half-move at hand after a number or a joint, and else with the next one.
    """

    def __init__(self) -> None:
        self.found = [Published()]
        self.half = 0
        self.is_numbered = False
        self.is_joined = False
        self.is_but = False

    def take(self, token: "re.Match[str]") -> None:
        kind = token.lastgroup
        now = self.found[-1]
        if kind == "dots":
            self.half = 2 * int(token["number"]) - (token["dots"] == ".")
            self.is_numbered = True
        elif kind in ("move", "en_passant"):
            self._take_move(re.sub(r"[\s/]", "", token["move"]))
        elif kind == "sign":
            self._take_sign(token[0])
        elif kind == "but":
            self.is_but = True
        elif kind == "zugzwang" and self.half == 1:
            now.menaces.add(Menace.ZUGZWANG)
        elif kind == "threat" and self.half == 1:
            self.half, self.is_joined = 3, True
        elif kind == "joint":
            self.is_joined = True
        elif kind == "unknown":
            now.unknown.append(token[0])

    def _take_move(self, move: str) -> None:
        is_joined = self.is_joined and not self.is_numbered
        if not self.is_numbered and not self.is_joined and not self.is_but:
            self.half += 1
        self.is_numbered = self.is_joined = False
        if self.half == 1:
            self.is_but = False
            self.found.append(Published(move))
        elif self.half == 2 and self.is_but:
            self.found[-1].refutations.append(move)
        elif self.half == 2:
            self._take_defence(move, is_joined)
        elif self.half == 3:
            self._take_mate(move)

    def _take_defence(self, move: str, is_joined: bool) -> None:
        replies = self.found[-1].replies
        if not is_joined or not replies:
            replies.append(Replies())
        replies[-1].defences.append(move)

    def _take_mate(self, move: str) -> None:
        now = self.found[-1]
        if now.replies:
            now.replies[-1].mates.append(move)
        else:
            now.menaces.add(Menace.THREAT)
            now.threats.append(move)

    def _take_sign(self, sign: str) -> None:
        now = self.found[-1]
        if self.half == 1:
            now.sign += sign
        elif self.half == 2 and sign == "!" and not self.is_but and now.replies:
            # A refutation without `but`.
            now.refutations.append(now.replies[-1].defences.pop())


def read_solution(text: str) -> Iterator[Published]:
    """Yields the set play and the first moves of a published solution."""
    reader = _Reader()
    for token in _TOKEN.finditer(_LEFT_OUT.sub(" ", text)):
        reader.take(token)
    yield from reader.found
