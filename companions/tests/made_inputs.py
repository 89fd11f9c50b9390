"""Made inputs of pops: problems with all kinds of mistakes, layouts and endings."""

import random

_SOUND = [
    "Pieces White Kg6 Ra1 Black Kg8 Stipulation #1",
    "Stipulation #2 Pieces White Kc7 Rb2 Black Ka8 Option Variation SetPlay",
    "Pieces White Kg6 Ra1 Black Kh8 Stipulation h#1 Option SetPlay",
    "Pieces White Kg6 Ra1 Black Kh8 Stipulation h#1.5 Option MaxSolutions 1",
    "Pieces White Ke1 Rh1 Re8 Rg8 Black Kf3 Stipulation #1 Option NoCastling h1 NoBoard",
    "Pieces White Kg6 Ba1 Bb3 Pe5 Black Kh8 Pd5 Stipulation #1 Option EnPassant d6 Condition Circe",
    "Pieces White Kg6 Ra1 Black Kg8 Rh1 Stipulation #1 Condition Madrasi",
    "Pieces White Kf6 Bb3 Pg5 Ge3 Black Kh8 Ph7 Stipulation #1",
    "Pieces White Ka1 Re8 Ph6 Black Kh8 Bg8 Ph7 Pa2a3b3 Stipulation s#1",
]
_MISTAKES = [
    "x",
    "Kg9",
    "K",
    "Option",
    "MaxSolutions",
    "MaxSolutions 0",
    "EnPassant",
    "EnPassant e3",
    "NoCastling",
    "NoCastling a1 b1",
    "Option NoCastling a1 h1 x",
    "BeginProblem",
    "Beg",
    "Be",
    "Pieces",
    "Stipulation",
    "Stipulation #1",
    "#1",
    "Condition Circe Circe",
    "Condition",
    "Circe",
    "Ne",
    "En",
    "Nextproblems",
    "EndProblem,",
    "xNextProblem",
    "Titles",
    "Ti",
    "Remarks",
    "\ufeff",
    "\x00",
    "x" * 160,
    "x" * 161,
    "EndProblem" + "x" * 160,
    "Title" + "x" * 160,
    "Kd9 Pa1",
]
_TEXTS = [
    "Remark NextProblem EndProblem",
    "Title NextProblem",
    "AUTHOR  Nobody  ",
    "Origin",
    "tit End",
    "Remark",
    "rema \t EndProblem",
    "Title " + "t" * 210,
    "Author \xff\x00",
]
_BLANKS = [" "] * 6 + ["\n"] * 6 + ["\t", "\r\n", "\x0b", "\x0c", "\r", " \n \n", "\n\n\n"]


def made_input(chance: random.Random) -> bytes:
    """An input of a few problems."""
    parts: list[str] = []
    if chance.random() < 0.1:
        _add(parts, chance, chance.choice(_MISTAKES).split())
    if chance.random() < 0.95:
        _add(parts, chance, [_short(chance, "BeginProblem")])
    problems = chance.choice([0, 1, 1, 2, 3, 4, 6])
    for number in range(problems):
        _problem(parts, chance)
        if number + 1 < problems:
            _add(parts, chance, [_short(chance, "NextProblem")])
    ending = chance.random()
    if ending < 0.7:
        _add(parts, chance, [_short(chance, "EndProblem")])
        if ending < 0.3:
            _add(parts, chance, ["x", "NextProblem", "BeginProblem"])
    elif ending < 0.8:
        _add(parts, chance, [_short(chance, "NextProblem")])
    text = "".join(parts)
    if chance.random() < 0.1:
        text = text[: chance.randrange(len(text) + 1)]
    if chance.random() < 0.2:
        text = text.replace("\n", "\r\n")
    return text.encode("latin-1", "ignore")


def _problem(parts: list[str], chance: random.Random) -> None:
    words = chance.choice(_SOUND).split()
    if chance.random() < 0.5:
        for _ in range(chance.choice([1, 1, 2])):
            place = chance.randrange(len(words) + 1)
            change = chance.random()
            if change < 0.6:
                words[place:place] = chance.choice(_MISTAKES).split()
            else:
                del words[place : place + 1]
    if chance.random() < 0.04:
        parts.append("\n" * 5000)
    _add(parts, chance, words)


def _add(parts: list[str], chance: random.Random, words: list[str]) -> None:
    for word in words:
        if chance.random() < 0.1:
            parts.append(chance.choice(_TEXTS) + "\n")
        parts.append(word if chance.random() < 0.8 else word.swapcase())
        parts.append(chance.choice(_BLANKS))


def _short(chance: random.Random, word: str) -> str:
    return word if chance.random() < 0.5 else word[: chance.randrange(3, len(word) + 1)]
