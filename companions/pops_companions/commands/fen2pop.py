"""Turns positions in FEN or EPD, and games in PGN that begin with a position, into input of pops."""

import io
import os
import re
import sys
from collections.abc import Iterator, Mapping
from typing import Any, NamedTuple, Optional

from pops_companions import command
from pops_companions.chess.fen import FenError, Position, read_position
from pops_companions.chess.stipulation import Condition, Stipulation
from pops_companions.command import Status, flag, option, word
from pops_companions.input.writing import Problem, problem_of_position, text_of_problems

NAME = "fen2pop"
# At most this many positions with reversed colours are named.
_TURNED_NAMED = 3
# A tag of a game in PGN, as `[White "Morphy"]` (PGN Standard, section 8.1).
_TAG = re.compile(r'\[\s*(\w+)\s+"((?:[^"\\]|\\.)*)"\s*\]')


class Given(NamedTuple):
    """A text that should be a position, with where it stands, and the tags of its game, if any."""

    place: str
    text: str
    tags: Mapping[str, str] = {}

    @property
    def players(self) -> str:
        """The players of the game, as `White - Black`."""
        names = (self.tags.get(name, "") for name in ("White", "Black"))
        return " - ".join(name for name in names if name.strip("?"))

    @property
    def event(self) -> str:
        """Where the game was played."""
        return self.tags.get("Event", "").strip("?")


def of_words(words: list[str]) -> Iterator[Given]:
    """Yields the positions of the command line, quoted or not: a word with a slash begins one."""
    positions: list[list[str]] = []
    for word in words:
        if "/" in word or not positions:
            positions.append([])
        positions[-1].append(word)
    for number, position in enumerate(positions, start=1):
        yield Given(f"position {number}", " ".join(position))


def of_file(file: Optional[str]) -> Iterator[Given]:
    """Yields the positions of a file: one a line, without empty lines and lines that begin with #, or
    the FEN tags of games in PGN.
    """
    name = command.name_of(file)
    tags: dict[str, str] = {}
    begun = 0
    is_pgn = False
    for number, line in enumerate(io.BytesIO(command.read_all(file)), start=1):
        text = line.decode("utf-8", "surrogateescape").lstrip("\ufeff").strip()
        tag = _TAG.fullmatch(text)
        if tag is not None:
            is_pgn = True
            begun = begun or number
            tags[tag[1]] = re.sub(r"\\(.)", r"\1", tag[2])
            continue
        if tags:
            yield _of_game(name, begun, tags)
            tags, begun = {}, 0
        if text and not is_pgn and not text.startswith("#"):
            yield Given(f"{name}, line {number}", text)
    if tags:
        yield _of_game(name, begun, tags)


def _of_game(name: str, line: int, tags: dict[str, str]) -> Given:
    return Given(f"{name}, line {line}", tags.get("FEN", ""), tags)


def stipulation(text: str) -> Stipulation:
    """Returns a stipulation of the command line; capital letters are as good as small ones."""
    return Stipulation.of_text(text.lower())


def problem_of(given: Given, settings: "Settings") -> tuple[list[str], bool]:
    """Returns the lines of a position's problem, and whether its colours were turned round.

    An EPD may have its title and its mate in itself.
    """
    if given.tags and not given.text:
        raise FenError("the game has no tag FEN")
    position = read_position(given.text)
    asked = settings.stipulation or mate_of(position)
    if asked is None:
        raise FenError("no stipulation: give --stipulation")
    condition = Condition(settings.condition) if settings.condition else None
    title = position.operations.get("id", "") or given.players or settings.title
    options = tuple(settings.options)
    wanted = Problem({}, asked, condition, options, title, settings.author, given.event)
    made = problem_of_position(position, given.text, wanted, settings.keep_colours)
    return made.lines, position.turn is asked.starter.opponent and not settings.keep_colours


def tell_turned(places: list[str]) -> None:
    """Says whose colours were turned round."""
    named = "; ".join(places[:_TURNED_NAMED])
    more = f"; and {len(places) - _TURNED_NAMED} more" if len(places) > _TURNED_NAMED else ""
    print(
        f"{NAME}: {named}{more}: colours turned round, since the other side starts;"
        " --keep-colours leaves them",
        file=sys.stderr,
    )


def mate_of(position: Position) -> Optional[Stipulation]:
    """Returns the stipulation of an EPD's operation `dm`, direct mate."""
    moves = position.operations.get("dm", "")
    return Stipulation.of_text(f"#{int(moves)}") if re.fullmatch("[0-9]{1,3}", moves) else None


def _line(name: str, text: str, said: str, **more: Any) -> Any:
    """Declares an option for a line of each problem."""
    return flag(name, said, action="append_const", dest="options", const=text, **more)


class Settings(
    command.Settings,
    prog=NAME,
    description="Turns positions in FEN or EPD into input for pops, one problem from each.\n\n"
    "Castling rights become the option NoCastling, an en passant square the option EnPassant.\n"
    "If the side to move isn't the one that starts, as Black in #2, the colours are reversed;\n"
    "a Remark and standard error say so.",
    epilog="example: fen2pop --stipulation '#2' 'kbK5/pp6/1P6/8/8/8/8/R7 w - -' > morphy.pop",
):
    """The words of the command line."""

    position: list[str] = word(
        "FEN",
        "a position; without FEN and --file, each line of standard input is one",
        nargs="*",
    )
    file: list[str] = option(
        "-f --file",
        None,
        "a file of positions, one per line, or of games in PGN with tags FEN",
        action="append",
        default=[],
    )
    stipulation: Optional[Stipulation] = option(
        "-s --stipulation",
        None,
        "such as '#2', 's#3', 'h#2.5', '=1'; not needed if each EPD has a dm",
        type=stipulation,
    )
    title: str = option(
        "-t --title",
        None,
        "the title of each problem; an EPD's id and a game's players take precedence",
        default="",
    )
    author: str = option("-a --author", None, "the author of each problem", default="")
    condition: Optional[str] = option(
        "-c --condition",
        None,
        "the condition of each problem",
        choices=[condition.value for condition in Condition],
    )
    options: list[str]
    set_play: None = _line("--set-play", "SetPlay", "show set play too", default=[])
    variation: None = _line("--variation", "Variation", "show defences and continuations")
    no_board: None = _line("--no-board", "NoBoard", "print no board")
    max_solutions: Optional[int] = option(
        "--max-solutions",
        "N",
        "no more than N solutions in a phase",
        type=command.number_from_one,
    )
    keep_colours: bool = flag("--keep-colours", "ignore the side to move")
    output: Optional[str] = command.output("the input of pops")


def arguments(words: list[str]) -> Settings:
    """Reads the words of the command line."""
    settings = Settings.read(words)
    if settings.position and os.path.isfile(settings.position[0]):
        settings.refuse(f"{settings.position[0]} is a file: name it after --file")
    if settings.max_solutions is not None:
        settings.options = [*settings.options, f"MaxSolutions {settings.max_solutions}"]
    return settings


def main(words: list[str]) -> Status:
    settings = arguments(words)
    given = list(of_words(settings.position))
    for file in settings.file:
        given.extend(of_file(file))
    if not settings.position and not settings.file:
        given.extend(of_file(None))
    status = Status.GOOD
    problems: list[list[str]] = []
    turned: list[str] = []
    for one in given:
        try:
            lines, is_turned = problem_of(one, settings)
            problems.append(lines)
            if is_turned:
                turned.append(one.place)
        except FenError as error:
            print(f"{NAME}: {one.place}: {error}", file=sys.stderr)
            status = Status.FAULTY
    if not given:
        raise command.CommandError(Status.FAULTY, "no position was given")
    if turned:
        tell_turned(turned)
    if problems:
        text = text_of_problems(problems).encode("utf-8", "surrogateescape")
        command.write(settings.output, text)
    return status
