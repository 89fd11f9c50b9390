"""Explains the faults of problems: the word, what is wrong with it, and the likely cause."""

import io
import json
import os
import sys
from collections.abc import Iterator, Mapping
from pathlib import Path
from typing import BinaryIO, NamedTuple, Optional

from pops.engine import Engine
from pops.run import Ending, Limits
from pops_companions import command
from pops_companions.command import CommandError, DeviceError, Status, flag, option, word
from pops_companions.files import Links
from pops_companions.explain.diagnostics import diagnostic_object, diagnostics
from pops_companions.explain.explaining import ExplainedFault, OtherText, explain
from pops_companions.explain.mended_text import mend
from pops_companions.explain.mending import further_faults
from pops_companions.explain.notices import notices
from pops_companions.explain.showing import Shower
from pops_companions.input.pieces import cut
from pops_companions.input.words import Span
from pops_companions.many.fault_places import places_of
from pops_companions.many.program import LOOKED_FOR, MissingError
from pops_companions.report.items import Item
from pops_companions.report.reader import ReportError, read_report
from pops_companions.show.titles import printable

NAME = "pops-explain"
# The most bytes that pops writes where it only looks for faults: more than any text has.
_MOST_FOR_A_TEXT = 1 << 16
_MOST_FOR_A_BYTE = 16


class Settings(
    command.Settings,
    prog=NAME,
    description="Explains each fault of a text of problems: the line with the word marked, what is wrong\n"
    "and the likely cause. Without REPORT it asks pops --check for the faults.\n"
    "Without INPUT, or for -, it reads standard input.",
    epilog="examples: pops-explain problems.pop\n"
    "          pops-explain --all --fix problems.pop\n"
    "          pops-explain --json problems.pop\n"
    "          pops problems.pop | pops-explain problems.pop -\n"
    "exit status: 0 if no problem is faulty, 1 if one is.",
):
    """The words of the command line."""

    input: str = word("INPUT", "the text of problems", nargs="?", default=command.STANDARD_INPUT)
    report: Optional[str] = word("REPORT", "the report of pops on it", nargs="?")
    output: Optional[str] = command.output("the explanations")
    all: bool = flag(
        "--all",
        "explain all faults of each problem, not only the first, which is the one pops reports",
    )
    fix: bool = flag(
        "--fix",
        "write NAME.fixed.pop next to INPUT NAME.pop, with what the explanations say to write;"
        " check it: the causes are guesses",
    )
    force: bool = flag("--force", "with --fix: overwrite another NAME.fixed.pop")
    json: bool = flag(
        "--json",
        "write a JSON object for each fault and for what may not be meant: file, line, column,"
        " length, problem, fault, cause, fix",
    )
    pops: Optional[str] = option("--pops", "PROGRAM", LOOKED_FOR)


def arguments(words: list[str]) -> Settings:
    """Reads the words of the command line."""
    settings = Settings.read(words)
    if settings.input == settings.report == command.STANDARD_INPUT:
        settings.refuse("INPUT and REPORT can't both be standard input")
    if settings.fix and settings.input == command.STANDARD_INPUT:
        settings.refuse("--fix needs an INPUT: the corrected text stands next to it")
    if settings.force and not settings.fix:
        settings.refuse("--force goes with --fix")
    return settings


# Where pops finds the faults of a text, by their problems.
Places = Mapping[int, Span]


class Checked(NamedTuple):
    """The report on a text, and where the faults are, as far as that is known."""

    report: bytes
    places: Places


def checked(text: bytes, named: Optional[str]) -> Checked:
    """Returns what pops says of a text without solving it."""
    most = _MOST_FOR_A_TEXT + _MOST_FOR_A_BYTE * len(text)
    try:
        engine = Engine(named)
        result = engine.check(text, Limits(bytes=most)).result
        if result.ending is Ending.BYTES:
            raise DeviceError(f"pops wrote more than {most} bytes, and was ended")
        is_faulty = result.status == Status.FAULTY
        return Checked(result.text, places_of(text, engine.program) if is_faulty else {})
    except MissingError as error:
        raise DeviceError(f"{error}; or give REPORT") from None
    except ReportError as error:
        raise DeviceError(str(error)) from None


def write(
    name: str,
    text: bytes,
    report: BinaryIO,
    target: BinaryIO,
    every: bool,
    places: Optional[Places] = None,
) -> Status:
    """Writes an explanation of each fault, the notices, and how many problems there are.

    `every` is whether the faults after the first one of a problem are explained too.
    """
    total = faulty = further = 0
    name = printable(name)
    shower, pieces = Shower(name, text), cut(text)

    def counted() -> Iterator[Item]:
        nonlocal total
        for item in read_report(report):
            total += 1
            yield item

    def show(explained: ExplainedFault) -> None:
        target.write((shower.text_of(explained) + "\n").encode("utf-8", "replace"))

    for explained in explain(text, counted(), places):
        faulty += 1
        show(explained)
        problem, title = explained.problem, explained.title
        for other in further_faults(text, pieces, problem, title) if every else ():
            further += 1
            show(other)
    if not total:
        raise OtherText("it is empty")
    noticed = "".join(notice.shown(name) for notice in notices(text))
    target.write(f"{noticed}\n".encode("utf-8", "replace") if noticed else b"")
    problems = "1 problem" if total == 1 else f"{total} problems"
    faults = f", {faulty + further} faults" if every and further else ""
    target.write(f"{problems}, {faulty or 'none'} faulty{faults}\n".encode("ascii"))
    return Status.FAULTY if faulty else Status.GOOD


def write_json(
    name: str,
    text: bytes,
    report: bytes,
    target: BinaryIO,
    every: bool,
    places: Optional[Places] = None,
) -> Status:
    """Writes an object for each diagnostic, a line each."""
    items = list(read_report([report]))
    if not items:
        raise OtherText("it is empty")
    status = Status.GOOD
    for found in diagnostics(text, items, every, places):
        status = Status.FAULTY if found.fault is not None else status
        line = json.dumps(diagnostic_object(name, found), ensure_ascii=False) + "\n"
        target.write(line.encode("utf-8", "replace"))
    return status


def is_written(place: Path, text: bytes) -> bool:
    """Returns whether a file has this text already. CommandError where it is another one."""
    if not os.path.lexists(place):
        return False
    if place.is_file() and not place.is_symlink() and command.read_all(str(place)) == text:
        return True
    message = f"{place} is there, with another text: move it away, or --force overwrites it"
    raise CommandError(Status.USAGE, message)


def fixed_place(file: str) -> Path:
    """Returns where the corrected text of a file is written."""
    path = Path(file)
    return path.with_name(f"{path.stem}.fixed{path.suffix}")


def fix(file: str, text: bytes, force: bool) -> str:
    """Writes the corrected text next to its file; returns what there is to say of it."""
    made = mend(text)
    if not made.mended:
        return f"{NAME}: {file}: nothing could be corrected\n" if made.left else ""
    place = fixed_place(file)
    if force or not is_written(place, made.text):
        with command.written(str(place), Links.REPLACED) as target:
            target.write(made.text)
    left = f", {made.left} left" if made.left else ""
    return f"{NAME}: {place}: {made.mended} corrected{left}\n"


def main(words: list[str]) -> Status:
    settings = arguments(words)
    name = command.name_of(settings.input)
    if settings.fix:
        command.refuse_shared([], [str(fixed_place(settings.input)), settings.output])
    text = command.read_all(settings.input)
    if settings.report is None:
        said = checked(text, settings.pops)
    else:
        said = Checked(command.read_all(settings.report), {})
    try:
        with command.written(settings.output) as target:
            if settings.json:
                status = write_json(
                    name, text, said.report, target, settings.all, said.places
                )
            else:
                report = io.BytesIO(said.report)
                status = write(name, text, report, target, settings.all, said.places)
    except (ReportError, OtherText) as error:
        source = "what pops said" if settings.report is None else command.name_of(settings.report)
        raise DeviceError(f"{source} is no report of {name}: {error}") from None
    if settings.fix:
        sys.stderr.write(fix(settings.input, text, settings.force))
    return status
