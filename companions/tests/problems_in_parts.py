"""Problems of every form for pops-many --split, and faulty ones between them."""

import itertools

_POSITIONS = [
    "Pieces White Kg6 Ra1 Black Kg8 Stipulation #1",
    "Pieces White Kc7 Rb2 Black Ka8 Stipulation #2",
    "Pieces White Kg6 Ra1 Black Kh8 Pa7 Stipulation #3",
    "Pieces White Kc7 Rb2 Black Ka8 Stipulation =2",
    "Pieces White Ka1 Re8 Ph6 Black Kh8 Bg8 Ph7 Pa2a3b3 Stipulation s#1",
    "Pieces White Ka1 Rf8 Ph6 Black Kh8 Bg8 Ph7 Pa2a3b3 Stipulation s#2",
    "Pieces White Ka1 Re8 Ph6 Black Kh8 Bg8 Ph7 Pa2a3b3 Stipulation s=1",
    "Pieces White Kg6 Ra1 Black Kh8 Stipulation h#0.5",
    "Pieces White Kg6 Ra1 Black Kh8 Stipulation h#1",
    "Pieces White Kg6 Ra1 Black Kh8 Stipulation h#1.5",
    "Pieces White Kg6 Ra1 Black Kh8 Stipulation h#2",
    "Pieces White Kg6 Ra1 Pb7 Black Kh8 Pa2 Stipulation h#1.5 Option NoCastling a1",
    "Pieces White Kf7 Black Kh8 Ph7 Stipulation h=1.5",
    "Pieces White Kf7 Black Kh8 Ph7 Stipulation h=2",
    "Pieces White Ra1 Qh7 Black Kg8 Stipulation #1",
    "Pieces White Ra1 Qh7 Black Kg8 Pb3 Stipulation h#2",
    "Pieces White Ra1 Qh7 Black Pa7 Stipulation =1",
    "Pieces White Kg6 Ba1 Bb3 Pe5 Black Kh8 Pd5 Stipulation h#1.5 Option EnPassant d6",
    "Pieces White Ke1 Rh1 Re8 Rg8 Black Kf3 Stipulation #1",
    "Pieces White Kf6 Bb3 Pg5 Ge3 Nb1 Black Kh8 Ph7 Stipulation #2",
]
_CONDITIONS = ["", "Condition Circe", "Condition Madrasi"]
_OPTIONS = [
    "",
    "Option SetPlay",
    "Option Variation",
    "Option SetPlay Variation",
    "Option SetPlay Variation MaxSolutions 1",
    "Option MaxSolutions 2",
    "Option MaxSol 9 SetPlay MaxSolutions 2",
    "Option maxs\n1000 SetPlay",
]
_FAULTY = ["Pieces White Kg9", "Option MaxSolutions 0", "Stipulation #1", ""]
ALL = list(map("\n".join, itertools.product(_POSITIONS, _CONDITIONS, _OPTIONS)))


def made_inputs(number: int) -> list[bytes]:
    """Makes this many inputs of a few problems; together they have all problems."""
    inputs = []
    each = -(-len(ALL) // number)
    for place in range(number):
        problems = ALL[place * each % len(ALL) :][:each]
        # Words of a title say nothing of the limit.
        problems = [f"Title MaxSolutions 1\n{problem}\n" for problem in problems]
        problems.insert(place % 3, _FAULTY[place % len(_FAULTY)] + "\n")
        inputs.append(("BeginProblem\n" + "NextProblem\n".join(problems) + "EndProblem\n").encode())
    return inputs
