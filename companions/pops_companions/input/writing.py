"""Problems as input of pops."""

import re
from collections.abc import Iterable, Iterator, Mapping, Sequence
from dataclasses import dataclass, replace
from typing import Optional, Union

from pops_companions.chess.fen import Position, read_position
from pops_companions.chess.men import LETTERS, Colour, Kind, Man, Square
from pops_companions.chess.stipulation import Condition, Stipulation

_MAN = re.compile(f"([{LETTERS}{LETTERS.lower()}])((?:[a-h][1-8])+)")


def text_of_problems(problems: Iterable[list[str]]) -> str:
    """Returns the input of pops made of problems, each given by its lines."""
    parts = []
    for number, lines in enumerate(problems):
        parts.append("BeginProblem" if number == 0 else "NextProblem")
        parts.extend(lines)
    parts.append("EndProblem")
    return "\n".join(parts) + "\n"


def pieces_line(men: Mapping[Square, Man]) -> str:
    """Returns the line of the men: each colour's kinds in their order, squares from a1 on."""
    squares: dict[Man, list[Square]] = {}
    for square in sorted(men, key=lambda square: (square.rank, square.file)):
        squares.setdefault(men[square], []).append(square)
    words = ["Pieces"]
    for colour in Colour:
        own = [man for man in (Man(colour, kind) for kind in Kind) if man in squares]
        if own:
            words.append(colour.value.title())
        for man in own:
            words.append(man.kind.value + "".join(square.name for square in squares[man]))
    return " ".join(words)


def men_in(pieces: str) -> Iterator[tuple[Square, Man]]:
    """Yields the men of a text such as `White Kg6 Ra1b1 Black Kg8`. ValueError for other words."""
    colour: Optional[Colour] = None
    for word in pieces.split():
        found = _MAN.fullmatch(word)
        if found is None or colour is None:
            colour = Colour(word.lower())
            continue
        man = Man(colour, Kind(found[1].upper()))
        for square in Square.of_names(found[2]):
            yield square, man


def posing_lines(
    men: Mapping[Square, Man],
    stipulation: Stipulation,
    condition: Optional[Condition],
    options: Sequence[str],
) -> list[str]:
    """Returns the lines of a problem that decide its solutions."""
    lines = [pieces_line(men)] if men else []
    lines.append(f"Stipulation {stipulation.text}")
    if condition is not None:
        lines.append(f"Condition {condition.value}")
    return [*lines, f"Option {' '.join(options)}"] if options else lines


@dataclass(frozen=True)
class Problem:
    """A problem as input of pops: its men and its stipulation.

    `options` are words of the input language, as `Variation` or `MaxSolutions 5`. Line ends in
    texts become blanks.
    """

    men: Mapping[Square, Man]
    stipulation: Stipulation
    condition: Optional[Condition] = None
    options: tuple[str, ...] = ()
    title: str = ""
    author: str = ""
    origin: str = ""
    remarks: tuple[str, ...] = ()

    @classmethod
    def from_fen(
        cls,
        fen: str,
        stipulation: Union[Stipulation, str],
        options: Iterable[str] = (),
        condition: Optional[Condition] = None,
    ) -> "Problem":
        """Returns the problem of a position in FEN or EPD, as fen2pop makes it.

        Where the side to move isn't the one that starts, the colours are turned round, and a Remark
        says so. FenError where the text is no FEN, ValueError where the stipulation is none.
        """
        position = read_position(fen)
        asked = Stipulation.of_text(stipulation) if isinstance(stipulation, str) else stipulation
        return problem_of_position(position, fen, Problem({}, asked, condition, tuple(options)))

    @property
    def lines(self) -> list[str]:
        """The lines of the problem, without the words that begin and end it."""
        named = (("Title", self.title), ("Author", self.author), ("Origin", self.origin))
        lines = [f"{word} {_one_line(text)}" for word, text in named if text]
        lines.extend(f"Remark {_one_line(remark)}" for remark in self.remarks)
        return lines + posing_lines(self.men, self.stipulation, self.condition, self.options)

    @property
    def text(self) -> str:
        """The input of pops that has this problem alone."""
        return text_of_problems([self.lines])


def problem_of_position(
    position: Position, source: str, wanted: Problem, keep_colours: bool = False
) -> Problem:
    """Returns a problem with the men of a position; the source stands in a Remark.

    Where the side to move isn't the one that starts, the colours are turned round, which another
    Remark says; or, where they are kept, what belongs to that move is left out.
    """
    remarks = [f"FEN {source}"]
    starter = wanted.stipulation.starter
    if position.turn is starter.opponent:
        waiting, side = starter.opponent.name.title(), starter.name.title()
        said = f"{waiting} is to move in the FEN, and {side} starts in a problem of this form"
        remarks.append(f"{said}: colours {'kept' if keep_colours else 'turned round'}")
        without_move = Position(position.men, None, position.rooks, None)
        position = without_move if keep_colours else position.turned
    remarks.extend(_rights_without_men(position))
    options = list(wanted.options)
    if position.crossed is not None:
        options.append(f"EnPassant {position.crossed.name}")
    moved = _moved(position, wanted.condition is Condition.CIRCE)
    if moved:
        options.append(f"NoCastling {''.join(square.name for square in moved)}")
    return replace(wanted, men=position.men, options=tuple(options), remarks=tuple(remarks))


def _one_line(text: str) -> str:
    return text.replace("\r", " ").replace("\n", " ")


_HOMES = {
    Colour.WHITE: (Square(5, 1), (Square(1, 1), Square(8, 1))),
    Colour.BLACK: (Square(5, 8), (Square(1, 8), Square(8, 8))),
}


def _moved(position: Position, rooks_are_reborn: bool) -> list[Square]:
    """Returns the castling squares whose men may not castle, though pops would take them as
    unmoved.

    Without any right of a side its king is named, where it could castle with a rook of the diagram
    or with one put back under Circe. With one right alone the other rook is named.
    """
    if position.rooks is None:
        return []
    moved: list[Square] = []
    for colour, (king, corners) in _HOMES.items():
        if position.men.get(king) != Man(colour, Kind.KING):
            continue
        rook = Man(colour, Kind.ROOK)
        rooks = [corner for corner in corners if position.men.get(corner) == rook]
        allowed = [corner for corner in rooks if corner in position.rooks]
        if allowed:
            moved.extend(corner for corner in rooks if corner not in allowed)
        elif rooks or rooks_are_reborn:
            moved.append(king)
    return moved


def _rights_without_men(position: Position) -> list[str]:
    remarks = []
    for colour, (king, corners) in _HOMES.items():
        for corner in corners:
            if position.rooks is None or corner not in position.rooks:
                continue
            men = (position.men.get(king), position.men.get(corner))
            if men != (Man(colour, Kind.KING), Man(colour, Kind.ROOK)):
                remarks.append(
                    f"the castling right for {corner.name} has no king on {king.name}"
                    f" or no rook on {corner.name}: left out"
                )
    return remarks
