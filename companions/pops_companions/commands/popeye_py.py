"""Stands in for Popeye's command line: reads an input of Popeye, solves it, writes Popeye's layout."""

import sys
import time
from collections.abc import Iterable, Iterator
from dataclasses import replace
from typing import Optional, Union

from pops.engine import Engine
from pops.run import Ending, Limits, Result
from pops_companions import command
from pops_companions.chess.stipulation import Play
from pops_companions.command import DeviceError, Status, option, word
from pops_companions.export import popeye_layout
from pops_companions.import_.draft import Draft, Options
from pops_companions.import_.posing import Posed, posed
from pops_companions.import_.sources import read_drafts
from pops_companions.import_.words import Unreadable
from pops_companions.input.writing import text_of_problems
from pops_companions.many.program import LOOKED_FOR, RunError
from pops_companions.many.tries_program import TRIES_LOOKED_FOR
from pops_companions.report.items import FaultyItem, Node, Phase, SoundItem
from pops_companions.report.reader import ReportError
from pops_companions.report.tries import FirstMove, TriesItem, is_of_item
from pops_companions.show.titles import printable, shown, text_of

NAME = "popeye-py"
_MOST_REFUTATIONS = 200
# The most bytes that a program writes of a problem; then what was found so far is shown.
_MOST_SHOWN = 1 << 23


class Settings(
    command.Settings,
    prog=NAME,
    description="Stands in for Popeye's command line, for programs that call it: reads Popeye inputs as\n"
    "pops-import does, solves them, and writes the solutions in Popeye's layout, with tries for\n"
    "Option Try, variations for Option Variation, set play for Option SetPlay.",
    epilog="example: popeye-py -maxtime 60 problem.inp\n"
    "exit status: 0 if all is well, 1 if a problem can't be posed or solved in time, 3 if a file\n"
    "can't be read or a program fails.",
):
    """The words of the command line."""

    files: list[str] = word("FILE", "an input of Popeye (default: standard input)", nargs="*")
    maxtime: Optional[int] = option(
        "-maxtime",
        "N",
        "stop a problem after N seconds, and show what was found",
        type=command.number_from_one,
    )
    maxmem: Optional[str] = option(
        "-maxmem", "SIZE", "without effect: the memory of pops is fixed"
    )
    maxpos: Optional[str] = option("-maxpos", "N", "without effect: pops keeps no positions")
    pops: Optional[str] = option("--pops", "PROGRAM", LOOKED_FOR)
    pops_tries: Optional[str] = option("--pops-tries", "PROGRAM", TRIES_LOOKED_FOR)


class LeftOut(Exception):
    """A problem can't be posed, is faulty, or its time is over before it is shown."""


class Solver:
    """The programs, and the time that a problem has."""

    def __init__(self, settings: Settings):
        self._settings = settings
        self._pops = Engine(settings.pops)
        self.is_whole = True

    def _tries_engine(self, refutations: int) -> Engine:
        return Engine(self._settings.pops_tries, True, min(refutations, _MOST_REFUTATIONS))

    def lines(self, draft: Draft, one: Posed) -> Iterator[str]:
        """Yields the lines of a problem: head, solutions, how it ended. LeftOut where it has none."""
        begun = time.monotonic()
        text = text_of_problems([_with_all_shown(one.lines)])
        tries = self._run(self._tries_engine(draft.options.refutations), text, begun)
        item = tries.items[0] if tries.items else None
        if isinstance(item, FaultyItem):
            raise LeftOut(item.fault.text)
        if not isinstance(item, TriesItem):
            if tries.ending is Ending.SECONDS:
                raise LeftOut(tries.ending.value)
            raise RunError("pops-tries shows nothing of the problem")
        result = self._run(self._pops, text, begun)
        solved = result.items[0] if result.items else None
        is_other = result.ending is Ending.COMPLETE
        if isinstance(solved, SoundItem):
            is_other = _asked(solved) != _asked(item) or not is_of_item(item, solved)
        if is_other:
            raise RunError("pops-tries shows another problem than pops")
        yield from _head(one.label, item)
        phases = solved.phases or () if isinstance(solved, SoundItem) else ()
        if item.stipulation.play is Play.HELP:
            for phase in phases:
                yield from popeye_layout.help_lines(phase)
                yield ""
        else:
            yield from popeye_layout.solution_lines(_joined(item, phases), _shown_by(draft.options))
        self.is_whole = tries.ending is result.ending is Ending.COMPLETE
        said = "solution finished." if self.is_whole else "Partial solution"
        yield f"{said} Time = {time.monotonic() - begun:.3f} s"
        yield ""

    def _run(self, engine: Engine, text: str, begun: float) -> Result:
        seconds, left = self._settings.maxtime, None
        if seconds is not None:
            until = begun + min(seconds, command.MOST_SECONDS)
            left = max(until - time.monotonic(), 0.001)
        return engine.solve(text, Limits(left, _MOST_SHOWN)).result


def _asked(item: Union[SoundItem, TriesItem]) -> tuple[object, ...]:
    """Returns what both programs show of a problem before its solutions."""
    return item.title, item.author, item.board, item.stipulation, item.condition


def _shown_by(options: Options) -> popeye_layout.Shown:
    """Returns what the options of an input ask for."""
    asked = popeye_layout.Shown.KEYS
    if "Variation" in options.words:
        asked |= popeye_layout.Shown.VARIATIONS
    return asked | popeye_layout.Shown.TRIES if options.refutations else asked


def _with_all_shown(lines: list[str]) -> list[str]:
    """Returns a problem with its board and all defences in the report."""
    named = [line for line in lines if not line.startswith("Option ")]
    words = [word for line in lines if line.startswith("Option ") for word in line.split()[1:]]
    words = [word for word in words if word not in ("NoBoard", "Variation")]
    return [*named, " ".join(("Option Variation", *words))]


def _head(label: str, item: TriesItem) -> Iterator[str]:
    assert item.board is not None
    yield ""
    for text in (item.author, item.title):
        if text is not None:
            yield shown(text, "utf-8")
    yield ""
    yield from popeye_layout.board_lines(item.board.men)
    condition = "" if item.condition is None else f" {item.condition.value}"
    yield popeye_layout.asked_line(item.stipulation, item.board.men) + condition
    yield ""
    if label:
        yield label
        yield ""


def _joined(tries: TriesItem, phases: Iterable[Phase]) -> TriesItem:
    """Returns the tries of a problem with all defences against its keys."""
    keys: dict[str, Node] = {}
    for phase in phases:
        keys.update((it.move.text, it) for it in phase.nodes)

    def whole(first: FirstMove) -> FirstMove:
        key = keys.get(first.move.text)
        return first if key is None else popeye_layout.with_all_defences(first, key)

    return replace(tries, keys=tuple(map(whole, tries.keys)))


def drafts_of(file: Optional[str]) -> list[Draft]:
    """Returns the problems of a file. CommandError where it holds none."""
    text = text_of(command.read_all(file), "utf-8")
    try:
        return read_drafts(text)
    except Unreadable as error:
        name = command.name_of(file)
        raise DeviceError(f"{name}, line {error.message.line}: {error}") from None


def write(solver: Solver, draft: Draft, one: Posed) -> Status:
    """Writes a problem with its solutions, or says on standard error why it has none."""
    try:
        if one.faults:
            raise LeftOut("; ".join(fault.text for fault in one.faults))
        for line in solver.lines(draft, one):
            print(printable(line))
    except LeftOut as why:
        name = f"problem {draft.number} {one.label}".rstrip()
        print(f"{NAME}: {name}: left out: {why}", file=sys.stderr)
        return Status.FAULTY
    return Status.GOOD if solver.is_whole else Status.FAULTY


def main(words: list[str]) -> Status:
    settings = Settings.read(words)
    try:
        solver = Solver(settings)
        statuses = [
            write(solver, draft, one)
            for file in command.inputs_of(settings.files)
            for draft in drafts_of(file)
            for one in posed(draft)
        ]
    except ReportError as error:
        raise DeviceError(str(error)) from None
    return max(statuses, default=Status.GOOD)
