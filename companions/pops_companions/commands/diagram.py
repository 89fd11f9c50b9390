"""Writes the diagrams of a report of pops, a file for each problem."""

import os
import shutil
import sys
from collections import deque
from collections.abc import Callable, Iterator
from functools import partial
from pathlib import Path
from typing import Any, Optional

from pops_companions import command
from pops_companions.command import DeviceError, OneOf, Status, flag, option
from pops_companions.files import Links
from pops_companions.input.given_source import read_given
from pops_companions.many.child_process import outcome_of
from pops_companions.report.items import Board, Item, SoundItem, named_items
from pops_companions.report.source import opened_report
from pops_companions.show.diagram import diagram_file
from pops_companions.show.latex import latex
from pops_companions.show.titles import shown
from pops_companions.show.twins import Group, groups

NAME = "pops-diagram"
# The pixels of a PNG's side where none are asked for.
_WIDTH = 800
_MOST_WIDTH = 20_000

Drawing = Callable[[Group, Board], bytes]
_KINDS = OneOf(is_needed=True)


def _kind(name: str, kind: str, said: str) -> Any:
    """Declares an option for a kind of files."""
    return flag(name, said, action="store_const", dest="kind", const=kind, one_of=_KINDS)


class Settings(
    command.Settings,
    prog=NAME,
    description="Writes the diagrams of a report of pops, one file per problem, and prints their names.\n"
    "It leaves out, and names, problems that are faulty or have no board in the report.",
    epilog="example: pops-diagram games.report --svg -o diagrams/",
):
    """The words of the command line."""

    report: Optional[str] = command.REPORT
    kind: str
    svg: None = _kind("--svg", "svg", "drawings as pops-page shows them")
    png: None = _kind("--png", "png", "the same as pictures; needs rsvg-convert of librsvg")
    latex: None = _kind(
        "--latex", "tex", "environments of the LaTeX package diagram, with the solutions"
    )
    output: Optional[str] = option(
        "-o --output",
        "PLACE",
        "a folder for the files (end a new one in /), or what their names begin with"
        " (default: the current folder, and the report's name)",
    )
    width: int = option(
        "--width",
        "PIXELS",
        f"the width of a PNG ({_WIDTH})",
        type=command.number_in(1, _MOST_WIDTH),
        default=_WIDTH,
    )
    input: Optional[str] = option(
        "--input",
        "INPUT",
        "the input of the report, for --latex: its Origin lines, and what changes in twins",
    )
    apart: bool = flag("--apart", "with --latex: each twin in a file of its own")
    encoding: str = command.encoding()


def svg(group: Group, board: Board, encoding: str) -> bytes:
    """Returns the diagram as SVG; title, author and stipulation are the title of the drawing."""
    item = group.first
    assert isinstance(item, SoundItem)
    texts = [shown(text, encoding) for text in (item.title, item.author) if text is not None]
    return diagram_file(board, ", ".join([*texts, item.asked])).encode("utf-8", "replace")


def png_of(converter: str, width: int, drawing: bytes) -> bytes:
    """Returns the SVG drawing as PNG."""
    words = [converter, "--format", "png", "--background-color", "white"]
    try:
        done = outcome_of([*words, "--keep-aspect-ratio", "--width", str(width)], drawing)
    except OSError as error:
        raise DeviceError(f"cannot run {converter}: {error.strerror}") from None
    if done.status != 0:
        said = done.errors.decode("utf-8", "replace").strip()
        raise DeviceError(f"{converter} ended with {done.status}: {said}")
    return done.output


def drawing_of(settings: Settings) -> Drawing:
    """Returns what makes the contents of a file."""
    encoding = settings.encoding
    if settings.kind == "svg":
        return lambda group, board: svg(group, board, encoding)
    if settings.kind == "tex":
        return lambda group, board: latex(group, board, encoding).encode("utf-8", "replace")
    converter = shutil.which("rsvg-convert")
    if converter is None:
        raise DeviceError(
            "--png needs rsvg-convert of librsvg (Debian: librsvg2-bin), which isn't on the PATH;"
            " --svg and --latex need nothing",
        )
    as_png = partial(png_of, converter, settings.width)
    return lambda group, board: as_png(svg(group, board, encoding))


def beginning_of_names(place: Optional[str], report: Optional[str]) -> str:
    """Returns what the names of the files begin with, their folder with it."""
    name = f"{Path(report).stem if report else 'problem'}-"
    if place is None:
        return name
    return os.path.join(place, name) if place.endswith("/") or os.path.isdir(place) else place


def main(words: list[str]) -> Status:
    settings = Settings.read(words)
    drawing = drawing_of(settings)
    status = Status.GOOD
    beginning = beginning_of_names(settings.output, settings.report)
    given = () if settings.input is None else read_given(NAME, settings.input)
    apart = settings.apart or settings.kind != "tex"
    names: deque[str] = deque()

    def named(items: Iterator[Item]) -> Iterator[Item]:
        for name, item in named_items(items):
            names.append(name)
            yield item

    with opened_report(NAME, settings.report, settings.encoding) as items:
        for group in groups(named(items), given, settings.encoding, apart):
            name = [names.popleft() for _ in group.twins][0]
            item = group.first
            if not isinstance(item, SoundItem) or item.board is None:
                why = "has no board in the report" if isinstance(item, SoundItem) else "is faulty"
                print(f"{NAME}: problem {name} {why}: no diagram", file=sys.stderr)
                status = Status.FAULTY
                continue
            file = f"{beginning}{name}.{settings.kind}"
            contents = drawing(group, item.board)
            os.makedirs(os.path.dirname(file) or ".", exist_ok=True)
            with command.written(file, Links.REPLACED) as target:
                target.write(contents)
            print(file)
    return status
