"""Made problems of battle play in two and three moves, small enough for the plain solver.

`python3 -m tests.made_tries SEED NUMBER`, called in companions/, writes an input of them.
`python3 -m tests.made_tries SEED NUMBER PROGRAM` compares the program's text of their tries, with
0, 1, 2 and 200 refutations, with the plain solver's, and counts what the texts show.
"""

import random
import re
import subprocess
import sys
from collections import Counter

from pops_companions.chess.men import Square
from pops_companions.chess.stipulation import Play
from pops_companions.input.pieces import cut
from pops_companions.input.reading import read_piece
from pops_companions.input.writing import text_of_problems
from tests.plain_chess import legal_moves
from tests.plain_tries import Writer

REFUTATIONS = (0, 1, 2, 200)
_SQUARES = [it.name for it in Square.of_diagram()]
_EDGE = [it for it in _SQUARES if it[0] in "ah" or it[1] in "18"]
_STIPULATIONS = ["#2"] * 6 + ["#3"] * 4 + ["s#2"] * 3 + ["=2"] * 3 + ["s=2"] * 2
_CONDITIONS = ["", "", "Circe", "Madrasi"]
# What White mates or stalemates with in two moves and in three, and forces Black with.
_TWO = ["Q R", "Q S", "Q B", "R R", "R B S", "R R P", "Q P P", "R S P", "B B S", "R P P"]
_TWO += ["Q G", "R N"]
_THREE = ["Q", "R", "R P", "S P", "P P", "B P", "Q P", "R S"]
_FORCING = ["Q", "Q R", "Q P", "R P", "R R", "R B", "Q S", "Q B"]
_DEFENDING = ["", "", "P", "P", "P P", "S", "B", "R", "P S", "Q"]
_MATING = ["R", "Q", "B P", "S P", "R P", "P", "P P", "G P"]
# Men of larger problems, which only a fast solver can do.
_MANY = list("QRRBBSSPPPPPPP")


class _Men:
    """The men of a problem. All stand near the king to be mated, which is on the edge."""

    def __init__(self, chance: random.Random, is_self: bool, moves: int, are_many: bool):
        self._chance = chance
        self._free = set(_SQUARES)
        self._beaten = chance.choice(_EDGE)
        self.white: list[str] = []
        self.black: list[str] = []
        own, other = (self.white, self.black) if is_self else (self.black, self.white)
        if chance.random() < 0.06 and not is_self:
            self._beaten = chance.choice(["e3", "c2", "g2", "d3", "f3"])
            self._put(self.white, "Ke1", chance.choice(["Ra1", "Rh1"]))
        self._put(own, f"K{self._beaten}")
        if not any(it.startswith("K") for it in other):
            self._take(other, "K", 2, 3)
        if chance.random() < 0.12:
            self._put_pawns()
        if are_many:
            for side in self.white, self.black:
                for kind in chance.sample(_MANY, chance.randint(4, 11)):
                    self._take(side, kind, 1, 5)
            return
        kinds = _FORCING if is_self else _THREE if moves > 2 else _TWO
        for kind in chance.choice(kinds).split():
            self._take(self.white, kind, 1, 4)
        for kind in chance.choice(_MATING if is_self else _DEFENDING).split():
            self._take(self.black, kind, 1, 3)

    @property
    def line(self) -> str:
        return f"Pieces White {' '.join(self.white)} Black {' '.join(self.black)}"

    def _put(self, side: list[str], *men: str) -> None:
        side.extend(men)
        self._free -= {man[1:] for man in men}

    def _put_pawns(self) -> None:
        """Two pawns, one of which may make its double step beside the other."""
        file = self._chance.choice("bcdefg")
        beside = chr(ord(file) + self._chance.choice([-1, 1]))
        pairs = [(f"P{file}2", f"P{beside}4"), (f"P{beside}5", f"P{file}7")]
        white, black = self._chance.choice(pairs)
        if white[1:] in self._free and black[1:] in self._free:
            self._put(self.white, white)
            self._put(self.black, black)

    def _take(self, side: list[str], kind: str, least: int, most: int) -> None:
        """Puts a man on a free square at this distance from the king to be mated."""
        fitting = [it for it in sorted(self._free) if kind != "P" or it[1] in "234567"]
        close = [it for it in fitting if least <= _distance(it, self._beaten) <= most]
        self._put(side, kind + self._chance.choice(close or fitting))


def _distance(one: str, other: str) -> int:
    return max(abs(ord(one[0]) - ord(other[0])), abs(int(one[1]) - int(other[1])))


def _made_problem(chance: random.Random, are_many: bool) -> list[str]:
    """The lines of a problem; it may be faulty."""
    stipulation = chance.choice(_STIPULATIONS)
    men = _Men(chance, stipulation.startswith("s"), int(stipulation[-1]), are_many)
    condition = chance.choice(_CONDITIONS)
    options = ["NoBoard"] + ["Variation"] * (chance.random() < 0.5)
    options += ["SetPlay"] * (chance.random() < 0.4)
    options += [f"MaxSolutions {chance.randint(1, 2)}"] * (chance.random() < 0.2)
    lines = [men.line, f"Stipulation {stipulation}"]
    lines += [f"Condition {condition}"] if condition else []
    return [*lines, "Option " + " ".join(options)]


def made_problems(seed: int, number: int, are_many: bool = False) -> bytes:
    """An input of `number` sound problems: small ones, or of many men."""
    chance = random.Random(seed)
    problems: list[list[str]] = []
    while len(problems) < number:
        problem = _made_problem(chance, are_many)
        text = text_of_problems([problem]).encode()
        if read_piece(text, cut(text)[0]).number is None and (are_many or _is_small(text)):
            problems.append(problem)
    return text_of_problems(problems).encode()


def _is_small(text: bytes) -> bool:
    """Whether there are few lines of play, by the moves that each side has in the diagram."""
    (asked,) = Writer(text).problems()
    rules, start = asked.battle.rules, asked.start
    white, black = (len(legal_moves(rules, it)) for it in (start, start.passed))
    half_moves = 2 * asked.moves - (asked.battle.form is not Play.SELF)
    lines = 1
    for half in range(half_moves):
        lines *= black + 1 if half % 2 else white
    return lines < 3000


def disagreements(program: str, text: bytes) -> "tuple[list[str], Counter[str]]":
    """Problems of which the program and the plain solver write two texts; what all texts show."""
    found: list[str] = []
    shown: Counter[str] = Counter()
    writer = Writer(text)
    for most in REFUTATIONS:
        words = [program, "--refutations", str(most)]
        theirs = subprocess.run(words, input=text, capture_output=True, check=True).stdout.decode()
        ours = "".join(f"{line}\n" for line in writer.tries(most))
        if ours == theirs:
            shown.update(_kinds(ours))
            continue
        pairs = zip(ours.split("\n\n"), theirs.split("\n\n"))
        found += [f"{one}\n-- with {most} not\n{other}\n" for one, other in pairs if one != other]
    return found, shown


def _kinds(text: str) -> list[str]:
    """What stands in a text of tries, a name for each line that counts."""
    names = [("key", r"1\..*!$"), ("try", r"1\..*\?$"), ("check", "  check")]
    names += [("threat", "  threat"), ("zugzwang", "  zugzwang")]
    names += [("refutation", r"    1\.\.\..*!$"), ("set", "set$"), ("stalemate", "    stalemate")]
    names += [("not possible", "not possible"), ("stopped", ".*, stopped"), ("castling", ".*0-0")]
    names += [("en passant", ".* ep\\."), ("promotion", ".*=[A-Z]"), ("rebirth", r".*\[\+")]
    names += [("defence", r"  1\.\.\..*[^!]$"), ("deep", "      ")]
    lines = text.split("\n")
    return [name for name, form in names for line in lines if re.match(form, line)]


def main() -> None:
    seed, number = int(sys.argv[1]), int(sys.argv[2])
    if len(sys.argv) < 4:
        sys.stdout.buffer.write(made_problems(seed, number))
        return
    total: Counter[str] = Counter()
    differing = 0
    for place in range(0, number, 20):
        text = made_problems(seed * 1000 + place // 20, min(20, number - place))
        found, shown = disagreements(sys.argv[3], text)
        differing += len(found)
        total += shown
        print(*found, sep="\n", end="", flush=True)
    print(f"{number} problems, {differing} texts differ:", dict(total))
    sys.exit(differing > 0)


if __name__ == "__main__":
    main()
