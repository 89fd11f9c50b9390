#!/usr/bin/env python3
"""Prints made problems with pawns that may soon be promoted, all in one input: promotions_pending.py SEED COUNT

Their reports by two builds can be compared. Some of the problems are faulty: both builds must then report the same fault.
"""
import random
import sys

FILES = "abcdefgh"
STIPULATIONS = ["h#1", "h#1.5", "h#2", "h#2.5", "h#3", "#2", "#3", "s#1", "s#2", "h=2", "s=2", "=2"]
CONDITIONS = ["", "", "", "", "Circe", "Madrasi"]
PIECES = "QRBSRBS"
FAIRY = "GN"


def squares(draw: random.Random, ranks: str, count: int, taken: set[str]) -> list[str]:
    """Chooses empty squares on these ranks."""
    free = [file + rank for file in FILES for rank in ranks if file + rank not in taken]
    found = draw.sample(free, min(count, len(free)))
    taken.update(found)
    return found


def side(draw: random.Random, taken: set[str], near: str, fairy: bool) -> str:
    """Makes the men of a side whose pawns are on these ranks."""
    men = ["K" + squares(draw, "12345678", 1, taken)[0]]
    kinds = PIECES + FAIRY if fairy else PIECES
    men += [draw.choice(kinds) + at for at in squares(draw, "12345678", draw.randrange(4), taken)]
    men += ["P" + at for at in squares(draw, near, draw.randrange(1, 4), taken)]
    men += ["P" + at for at in squares(draw, "234567", draw.randrange(2), taken)]
    return " ".join(men)


def problem(draw: random.Random) -> str:
    """Makes one problem."""
    taken: set[str] = set()
    fairy = draw.random() < 0.2
    lines = [f"Pieces White {side(draw, taken, '67', fairy)}", f"       Black {side(draw, taken, '23', fairy)}"]
    lines.append(f"Stipulation {draw.choice(STIPULATIONS)}")
    condition = draw.choice(CONDITIONS)
    lines += [f"Condition {condition}"] if condition else []
    lines += ["Option Variation MaxSolutions 200" if draw.random() < 0.3 else "Option MaxSolutions 200"]
    return "\n".join(lines)


def main() -> None:
    """Prints the problems."""
    seed, count = int(sys.argv[1]), int(sys.argv[2])
    draw = random.Random(seed)
    made = "\nNextProblem\n".join(problem(draw) for _ in range(count))
    print(f"BeginProblem\n{made}\nEndProblem")


if __name__ == "__main__":
    main()
