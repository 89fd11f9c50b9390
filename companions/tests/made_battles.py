"""Made problems of battle play with few men, for the plain solver of the tests.

`python3 -m tests.made_battles SEED NUMBER`, called in companions/, writes an input of them.
"""

import random
import sys

from pops_companions.chess.men import Square
from pops_companions.input.pieces import cut
from pops_companions.input.reading import read_piece
from pops_companions.input.writing import text_of_problems

_SQUARES = [it.name for it in Square.of_diagram()]
_WHITE = ["Q", "R", "R", "B", "S", "P", "P", "P", "G", "N"]
_BLACK = ["Q", "R", "B", "S", "P", "P", "P", "P", "G", "N"]
_STIPULATIONS = ["#1", "#2", "#2", "#2", "#2", "=1", "=2", "s#1", "s#2", "s=1", "s=2"]
_CONDITIONS = ["", "", "", "Circe", "Madrasi"]
# Where the king to be mated stands.
_BEATEN = ["e1", "a1", "h1", "c8", "e8", "h5", "a8", "h8"]


class _Men:
    """The men of a problem: the king to be mated, near it the other side's men."""

    def __init__(self, chance: random.Random, is_self: bool):
        self._chance = chance
        self._free = set(_SQUARES)
        self._beaten = chance.choice(_BEATEN)
        self.crossed = ""
        self.white: list[str] = []
        self.black: list[str] = []
        if chance.random() < 0.15 and not is_self and self._beaten != "e1":
            self._put(self.white, "Ke1", "Rh1")
        if self._beaten == "e8" and chance.random() < 0.5:
            self._put(self.black, *chance.choice([("Rh8",), ("Ra8",), ("Ra8", "Rh8")]))
        if chance.random() < 0.15:
            self._put_pawns(chance.choice("bcdefg"))
        self._put(self.white if is_self else self.black, f"K{self._beaten}")
        other = self.black if is_self else self.white
        if not any(it.startswith("K") for it in other):
            self._take(other, "K")
        for kind in chance.choices(_WHITE, k=chance.randint(2, 5)):
            self._take(self.white, kind)
        for kind in chance.choices(_BLACK, k=chance.randint(0, 2)):
            self._take(self.black, kind)

    @property
    def line(self) -> str:
        return f"Pieces White {' '.join(self.white)} Black {' '.join(self.black)}"

    def _put_pawns(self, file: str) -> None:
        """A black pawn that has just made its double step, and a white one beside it."""
        self._put(self.black, f"P{file}5")
        self._put(self.white, f"P{chr(ord(file) + 1)}5")
        self._free -= {f"{file}6", f"{file}7"}
        self.crossed = f"{file}6"

    def _put(self, side: list[str], *men: str) -> None:
        side.extend(men)
        self._free -= {man[1:] for man in men}

    def _take(self, side: list[str], kind: str) -> None:
        """Puts a man on a free square near the king to be mated, if there is one."""
        fitting = [it for it in sorted(self._free) if kind != "P" or it[1] in "234567"]
        close = [it for it in fitting if _distance(it, self._beaten) <= 2]
        self._put(side, kind + self._chance.choice(close or fitting))


def made_problem(chance: random.Random) -> list[str]:
    """The lines of a problem; it may be faulty, where a side is in check for example."""
    stipulation = chance.choice(_STIPULATIONS)
    men = _Men(chance, stipulation.startswith("s"))
    condition = chance.choice(_CONDITIONS)
    options = ["NoBoard"] * (chance.random() < 0.3) + ["Variation"] * (chance.random() < 0.6)
    options += ["SetPlay"] * (chance.random() < 0.5)
    options += [f"MaxSolutions {chance.randint(1, 3)}"] * (chance.random() < 0.15)
    options += [f"EnPassant {men.crossed}"] if men.crossed else []
    options += ["NoCastling " + chance.choice(["e1", "h1", "a8 e8"])] * (chance.random() < 0.1)
    lines = [men.line, f"Stipulation {stipulation}"]
    lines += [f"Condition {condition}"] if condition else []
    lines += ["Option " + " ".join(options)] if options else []
    return lines


def _distance(one: str, other: str) -> int:
    return max(abs(ord(one[0]) - ord(other[0])), abs(int(one[1]) - int(other[1])))


def made_text(seed: int, number: int) -> bytes:
    """An input of `number` problems, of which a few are faulty."""
    chance = random.Random(seed)
    problems: list[list[str]] = []
    while len(problems) < number:
        problem = made_problem(chance)
        if not _is_faulty(problem) or chance.random() < 0.02:
            problems.append(problem)
    return text_of_problems(problems).encode()


def _is_faulty(problem: list[str]) -> bool:
    text = text_of_problems([problem]).encode()
    return read_piece(text, cut(text)[0]).number is not None


if __name__ == "__main__":
    sys.stdout.buffer.write(made_text(int(sys.argv[1]), int(sys.argv[2])))
