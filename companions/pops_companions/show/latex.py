"""Problems for the LaTeX package diagram, with the German letters that it takes by itself."""

from collections.abc import Mapping, Sequence
from typing import NamedTuple, Optional

from pops_companions.chess.men import Colour, Kind
from pops_companions.report.items import Board, FaultyItem, Phase, SoundItem
from pops_companions.show.authors import Person, persons
from pops_companions.show.diagram import FAIRY_NAMES, UPSIDE_DOWN, numbers_of_men
from pops_companions.show.titles import printable, shown
from pops_companions.show.twins import Group, Twin

_COLOURS = {Colour.WHITE: "w", Colour.BLACK: "s"}
_UPRIGHT = dict(zip(Kind, "KDTLSB"))
KINDS = {**_UPRIGHT, **{kind: _UPRIGHT[upright] + "U" for kind, upright in UPSIDE_DOWN.items()}}
_SPECIAL = {
    "\\": r"\textbackslash{}",
    "~": r"\textasciitilde{}",
    "^": r"\textasciicircum{}",
    "<": r"\textless{}",
    ">": r"\textgreater{}",
    '"': "''",
    "\ufffd": "?",
    "→": r"$\rightarrow$",
    "↔": r"$\leftrightarrow$",
    **{character: "\\" + character for character in "#$%&_{}"},
}


class Sheet(NamedTuple):
    """What is said of a problem besides its title and authors: number, source, award, stipulation, and
    in LaTeX what makes its twins and the lines of its solution.

    `fairy_men` are the names of the fairy men.
    """

    number: str
    source: str
    award: str
    asked: str
    twins: Sequence[str]
    solution: Sequence[str]
    fairy_men: Mapping[Kind, str]


def latex(group: Group, board: Board, encoding: str, sheet: Optional[Sheet] = None) -> str:
    """Returns a problem with its twins as an environment `diagram`; its title stands for a
    dedication.

    `board` is the first one's, whose item isn't faulty. What a sheet doesn't say is the report's.
    """
    said = _of_report(group, encoding) if sheet is None else sheet
    stipulation, _, condition = said.asked.partition(" ")
    pieces = "pieces[%d+%d]" % numbers_of_men(board)
    lines = [
        ("specialdiagnum", said.number),
        ("author", "" if group.author is None else authors(shown(group.author, encoding))),
        ("dedic", "" if group.title is None else escaped(group.title)),
        ("source", escaped(said.source)),
        ("award", escaped(said.award)),
        (pieces, ", ".join(_pieces(board))),
        ("stipulation", escaped(stipulation)),
        ("condition", escaped(condition)),
        ("twins", r"\newline ".join(said.twins)),
        ("piecedefs", "; ".join(_fairy_men(board, said.fairy_men))),
        ("solution", "\\newline\n".join(said.solution)),
    ]
    written = [f"\\{name}{{{text}}}" for name, text in lines if text or name == pieces]
    return "\n".join([r"\begin{diagram}", *written, r"\end{diagram}"]) + "\n"


def _of_report(group: Group, encoding: str) -> Sheet:
    """Returns what a report, and its input, say of a problem."""
    assert isinstance(group.first, SoundItem)
    given = group.twins[0].given
    origin = None if given is None else given.origin
    changes = [it.heading for it in group.twins if it.change or it.has_own_diagram]
    return Sheet(
        "",
        "" if origin is None else shown(origin, encoding),
        "",
        group.first.asked,
        [] if group.is_alone else list(map(escaped, changes)),
        [line for twin in group.twins for line in _solution(twin, group.is_alone)],
        FAIRY_NAMES,
    )


def authors(text: str) -> str:
    """Returns the authors of a problem as the package wants them, parted by semicolons.

    `Loyd, Samuel` is one author, surname first, and an entry of an index; a name in another form
    stays as it is. `persons` says how several are parted.
    """
    return "; ".join(map(_author, persons(text)))


def _author(person: Person) -> str:
    if not person.surname:
        # Surname and no given name: the package would reverse the name at its comma.
        return "{%s}, {}" % escaped(person.text)
    return f"{escaped(person.surname)}, {escaped(person.given)}"


def _solution(twin: Twin, is_alone: bool) -> list[str]:
    """Returns the lines of a twin's solutions as the report has them, below its label."""
    item = twin.item
    lines = [] if is_alone else [escaped(twin.label.text)]
    if isinstance(item, FaultyItem):
        return [*lines, escaped(f"fault {item.fault.number}: {item.fault.text}")]
    if not isinstance(item, SoundItem) or item.phases is None:
        return lines if is_alone else [*lines, "not solved"]
    return lines + [line for phase in item.phases for line in _phase(phase)]


def escaped(text: str) -> str:
    """Returns a text with LaTeX's own characters made harmless."""
    return "".join(_SPECIAL.get(character, character) for character in printable(text))


def _pieces(board: Board) -> list[str]:
    """Returns each kind of man of each colour with its squares, as `wTa1h1`."""
    pieces = []
    for colour, letter in _COLOURS.items():
        for kind, letters in KINDS.items():
            squares = [
                square.name
                for square, man in board.men.items()
                if (man.colour, man.kind) == (colour, kind)
            ]
            if squares:
                pieces.append(letter + letters + "".join(squares))
    return pieces


def _fairy_men(board: Board, names: Mapping[Kind, str]) -> list[str]:
    """Returns what the fairy men are called, as `{ws}{DU}{Grasshopper}`."""
    named = []
    for kind in UPSIDE_DOWN:
        colours = {man.colour for man in board.men.values() if man.kind is kind}
        if colours:
            letters = "".join(_COLOURS[colour] for colour in Colour if colour in colours)
            named.append("{%s}{%s}{%s}" % (letters, KINDS[kind], names[kind]))
    return named


def _phase(phase: Phase) -> list[str]:
    """Returns the lines of a phase as the report has them."""
    lines = [phase.kind.value]
    for line in phase.lines:
        depth = (len(line) - len(line.lstrip(" "))) // 2
        indent = r"\hspace*{%dem}" % depth if depth else ""
        lines.append(indent + escaped(line.lstrip(" ")))
    return lines + [phase.last_line]
