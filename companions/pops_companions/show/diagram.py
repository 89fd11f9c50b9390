"""Diagrams in SVG, as problem magazines print them, and what is said below them.

The shapes of the men, in men.svg, are our own. They stand once on a page or in a file, and each
diagram refers to them. A grasshopper is a queen turned upside down, a nightrider a knight turned
upside down.
"""

from collections.abc import Iterable, Mapping
from html import escape

from pops_companions.chess.men import LETTERS, Colour, Kind, Square
from pops_companions.report.items import Board
from pops_companions.show.men_shapes import men_shapes
from pops_companions.show.titles import printable

# The side of a square, in the units of the shapes.
SIDE = 45
# The room beside the board and below it for the names of ranks and files, and their size.
MARGIN = 22
COORDINATES = 17
# The whole, with half of the frame's line on the sides without names.
WIDTH = HEIGHT = MARGIN + 8 * SIDE + 1

# The fairy kinds, each with the kind that is turned upside down for it.
UPSIDE_DOWN = {Kind.GRASSHOPPER: Kind.QUEEN, Kind.NIGHTRIDER: Kind.KNIGHT}
_FILLS = {
    Colour.WHITE: 'fill="#fff" color="#000"',
    Colour.BLACK: 'fill="#000" color="#fff"',
}


def _left(square: Square) -> int:
    return MARGIN + SIDE * (square.file - 1)


def _top(square: Square) -> int:
    return SIDE * (8 - square.rank)


def _dark_squares() -> str:
    """Returns the path of all dark squares; a square is dark where file plus rank is even, as a1.
    """
    corners = (
        f"M{_left(square)} {_top(square)}h{SIDE}v{SIDE}h-{SIDE}z"
        for square in Square.of_diagram()
        if (square.file + square.rank) % 2 == 0
    )
    return "".join(corners)


def _definitions(kinds: Iterable[Kind]) -> str:
    """Returns what diagrams refer to: the empty board and the shapes of these kinds."""
    half = SIDE / 2
    files = "".join(
        f'<text x="{MARGIN + SIDE * file - half:g}" y="{8 * SIDE + MARGIN - 6}">{name}</text>'
        for file, name in enumerate("abcdefgh", start=1)
    )
    ranks = "".join(
        f'<text x="{MARGIN / 2 - 1:g}" y="{SIDE * (8 - rank) + half + 6:g}">{rank}</text>'
        for rank in range(1, 9)
    )
    frame = f'<rect x="{MARGIN}" y="0" width="{8 * SIDE}" height="{8 * SIDE}"'
    return (
        "<defs>\n"
        '<pattern id="hatching" width="5" height="5" patternUnits="userSpaceOnUse">'
        '<path d="M-1 1l2-2M0 5l5-5M4 6l2-2" stroke="#777" stroke-width=".9"/></pattern>\n'
        f'<g id="board">{frame} fill="#fff"/><path d="{_dark_squares()}" fill="url(#hatching)"/>'
        f'{frame} fill="none" stroke="#000" stroke-width="2"/>'
        f'<g font-family="sans-serif" font-size="{COORDINATES}" text-anchor="middle" fill="#444">'
        f"{files}{ranks}</g></g>\n"
        + "".join(men_shapes()[kind.word] for kind in Kind if kind in kinds)
        + "</defs>\n"
    )


def shapes() -> str:
    """Returns the shapes that the diagrams of a page refer to: each kind of man, and the empty
    board.
    """
    return (
        '<svg width="0" height="0" style="position:absolute" aria-hidden="true">'
        f"{_definitions(Kind)}</svg>\n"
    )


def diagram(board: Board) -> str:
    """Returns the diagram of a board; it refers to the shapes of its page."""
    return f'<svg class="diagram" {_frame(board)}>{_drawing(board)}</svg>'


def diagram_file(board: Board, title: str) -> str:
    """Returns the diagram of a board as a file of its own."""
    kinds = {man.kind for man in board.men.values()}
    kinds.update([UPSIDE_DOWN[kind] for kind in kinds if kind in UPSIDE_DOWN])
    return (
        '<svg xmlns="http://www.w3.org/2000/svg" xmlns:xlink="http://www.w3.org/1999/xlink"'
        f' width="{2 * WIDTH}" height="{2 * HEIGHT}" {_frame(board)}>\n'
        f"<title>{escape(printable(title), quote=False)}</title>\n"
        f"{_definitions(kinds)}{_drawing(board)}\n</svg>\n"
    )


def _frame(board: Board) -> str:
    said = position_in_words(board)
    return f'viewBox="0 -1 {WIDTH} {HEIGHT}" role="img" aria-label="{said}"'


def _drawing(board: Board) -> str:
    """Returns the board with its men, white ones first."""
    parts = [
        '<use xlink:href="#board"/>'
        '<g stroke="#000" stroke-width="1.5" stroke-linejoin="round" stroke-linecap="round">'
    ]
    for colour, fill in _FILLS.items():
        parts.append(f'<g class="{colour.value}" {fill}>')
        parts.extend(
            f'<use xlink:href="#{man.kind.word}" x="{_left(square)}" y="{_top(square)}"/>'
            for square, man in board.men.items()
            if man.colour is colour
        )
        parts.append("</g>")
    parts.append("</g>")
    return "".join(parts)


def position_in_words(
    board: Board,
    letters: str = LETTERS,
    sides: tuple[str, str] = ("White", "Black"),
    no_men: str = "none",
) -> str:
    """Returns the men by colour, kind and square: `White Kg6 Ra1, Black Kg8`.

    The letters are in the order of Kind; `no_men` stands for the men of a side without any.
    """
    by_kind = list(zip(Kind, letters))
    men = sorted(board.men.items(), key=lambda placed: (placed[0].rank, placed[0].file))
    texts = []
    for colour, side in zip(Colour, sides):
        words = [
            letter + square.name
            for kind, letter in by_kind
            for square, man in men
            if man.kind is kind and man.colour is colour
        ]
        texts.append(f"{side} {' '.join(words) or no_men}")
    return ", ".join(texts)


def numbers_of_men(board: Board) -> tuple[int, int]:
    """Returns how many white and how many black men there are."""
    men = list(board.men.values())
    white = sum(1 for man in men if man.colour is Colour.WHITE)
    return white, len(men) - white


def count(board: Board) -> str:
    """Returns the numbers of white and black men, as magazines print them below a diagram: `(2+1)`.
    """
    white, black = numbers_of_men(board)
    return f"({white}+{black})"


# The English names of the fairy men.
FAIRY_NAMES = {kind: kind.word.title() for kind in UPSIDE_DOWN}


def fairy_men(board: Board, names: Mapping[Kind, str] = FAIRY_NAMES) -> list[str]:
    """Returns the fairy men of a board by name with their squares, as `Grasshopper e3`."""
    said = []
    for kind in UPSIDE_DOWN:
        squares = [square.name for square, man in board.men.items() if man.kind is kind]
        if squares:
            said.append(f"{names[kind]} {' '.join(sorted(squares))}")
    return said
