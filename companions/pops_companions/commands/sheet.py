"""Prints the solutions of a collection as magazines do: short notation, threats, tries, authors."""

import io
import os
import shutil
import subprocess
import sys
from collections.abc import Iterable
from pathlib import Path
from typing import Optional, Union

from pops_companions import command, interrupts
from pops_companions.chess.stipulation import Play
from pops_companions.command import DeviceError, Status, flag, option, word
from pops_companions.input.given import GivenProblem, given_problems
from pops_companions.input.given_source import refuse_other_text, warn_of_rest
from pops_companions.many import sessions
from pops_companions.many.child_process import (
    MOST_OUTPUT,
    ChildProcess,
    Outcome,
    refuse_unlisted,
    wrote_more,
)
from pops_companions.many.program import LOOKED_FOR, find
from pops_companions.many.tries_program import TRIES_LOOKED_FOR, TriesProgram, find_tries
from pops_companions.report.items import AnyItem, Board, FaultyItem, HeadlessItem, SoundItem
from pops_companions.report.reader import ReportError, read_unfinished_report
from pops_companions.report.source import warn_of_names
from pops_companions.report.tries import TriesItem, is_of_item
from pops_companions.review.kept_text import refuse_numbers_twice, tries_of_text
from pops_companions.sheet.as_html import Layout, as_html
from pops_companions.sheet.as_latex import as_latex
from pops_companions.sheet.as_text import as_text
from pops_companions.sheet.boards import are_possible
from pops_companions.sheet.entries import NOT_IN_REPORT, Entry, Sheet, boards_of
from pops_companions.sheet.languages import LANGUAGES
from pops_companions.sheet.latex_letters import beyond_latex
from pops_companions.sheet.solution import TriesShown, shortened
from pops_companions.sheet.solving import Solving
from pops_companions.show.twins import Twin, groups

NAME = "pops-sheet"
# As far as the programs show a line without Variation: first move, defence, continuation.
_HALF_MOVES_SHOWN = 3
# More problems than these are counted and not named.
_MOST_NUMBERS = 10
# The most refutations of a try that pops-tries takes.
_MOST_REFUTATIONS = 200
# The most diagrams of a row.
_MOST_IN_A_ROW = 8
FORMS = ("html", "latex", "pdf", "text")
# Chromium makes a socket below TMPDIR: `org.chromium.Chromium.` with six letters, `SingletonSocket`.
LONGEST_ROOM = 62
# Below these Chromium puts crash reports, fontconfig its cache, and dconf its state.
WRITTEN_TO = ("CHROME_CONFIG_HOME", "XDG_CACHE_HOME", "XDG_RUNTIME_DIR")
BROWSERS = ("chromium", "chromium-browser", "google-chrome")


class Settings(
    command.Settings,
    prog=NAME,
    description="Prints the solutions of the problems of INPUT as magazines do: set play, tries and keys in\n"
    "short notation, threats, refutations, defences with the same continuations together;\n"
    "above each diagram author, title, source and award, below it stipulation and number of\n"
    "men; at the end an index of authors. It runs pops and pops-tries, or takes their texts.\n"
    "Without pops-tries it shows the defences that pops shows, and no threats and tries.",
    epilog="example: pops-sheet tourney.pop --language de -o sheet.html\n"
    "         pops-sheet tourney.pop --report tourney.report --to latex -o sheet.tex\n"
    "exit status: 0 if all is well, 1 if a problem is faulty or isn't solved to the end, 2 for a\n"
    "mistake in the command line, 3 if a text can't be read, isn't what it should be or can't be written.",
):
    """The words of the command line."""

    input: str = word("INPUT", "an input of pops")
    report: Optional[str] = option(
        "--report", "REPORT", "the report of pops (default: pops is run)"
    )
    tries: str = option(
        "--tries",
        "WHICH",
        "the tries that are shown: all, variations (those with a threat, or with a defence that"
        " doesn't refute), none; another word is a TEXT of --tries-text (all)",
        default=TriesShown.ALL.value,
    )
    tries_text: Optional[str] = option(
        "--tries-text", "TEXT", "the text of pops-tries (default: pops-tries is run)"
    )
    refutations: int = option(
        "--refutations",
        "N",
        "show tries with at most N refutations, if pops-tries is run (1)",
        type=command.number_in(0, _MOST_REFUTATIONS),
        default=1,
    )
    to: str = option(
        "--to", None, "the form (html); pdf needs chromium", choices=FORMS, default="html"
    )
    language: str = option(
        "--language",
        None,
        "the language of letters and words: English, German, French (en)",
        choices=tuple(LANGUAGES),
        default="en",
    )
    figures: bool = flag("--figures", "figures of the men instead of letters")
    heading: Optional[str] = option("--heading", "TEXT", "the sheet's heading (the name of INPUT)")
    per_row: Optional[int] = option(
        "--per-row",
        "N",
        "N diagrams a row, all solutions after them, as for originals (html and pdf)",
        type=command.number_in(1, _MOST_IN_A_ROW),
    )
    first_number: int = option(
        "--first-number",
        "N",
        "the number of the first problem (1)",
        type=command.number_from_one,
        default=1,
    )
    apart: bool = flag("--apart", "show each twin by itself, as 1a, 1b")
    output: Optional[str] = command.output("the sheet", "SHEET")
    seconds: float = command.SECONDS
    jobs: Optional[int] = command.JOBS
    pops: Optional[str] = option("--pops", "PROGRAM", LOOKED_FOR)
    pops_tries: Optional[str] = option("--pops-tries", "PROGRAM", TRIES_LOOKED_FOR)
    encoding: str = command.encoding()


def arguments(words: list[str]) -> Settings:
    """Reads the words of the command line."""
    settings = Settings.read(words)
    if settings.tries not in (it.value for it in TriesShown):
        settings.tries_text, settings.tries = settings.tries, TriesShown.ALL.value
    if settings.figures and settings.to == "text":
        settings.refuse("--figures goes with --to html, latex or pdf")
    if settings.per_row and settings.to not in ("html", "pdf"):
        settings.refuse("--per-row goes with --to html or pdf")
    return settings


class Texts:
    """An input with the texts of both programs."""

    def __init__(self, settings: Settings):
        self._settings = settings
        self.input = command.read_all(settings.input)
        refuse_other_text(settings.input, self.input)
        self._solving = Solving(NAME, self.input, settings.jobs, settings.seconds or None)

    def items(self) -> list[AnyItem]:
        """Returns the items of the report, which has to be that of the input."""
        named = self._settings.report
        try:
            if named is None:
                return self._solving.items(find(self._settings.pops))
            return list(read_unfinished_report(io.BytesIO(command.read_all(named))))
        except ReportError as error:
            message = f"{named or 'the output of pops'} is no report of pops: {error}"
            raise DeviceError(message) from None

    def tries(self, items: list[AnyItem]) -> dict[int, TriesItem]:
        """Returns the tries of these items; none without pops-tries."""
        named = self._settings.tries_text
        if named is None:
            return self._solved_tries(items)
        found = list(tries_of_text(named, [command.read_all(named)]))
        refuse_numbers_twice(named, [item.number for item in found])
        sound = {item.number for item in items if isinstance(item, SoundItem)}
        for item in found:
            if isinstance(item, FaultyItem) and item.number in sound:
                message = f"{named} calls problem {item.number} faulty, and the report sound"
                raise DeviceError(message)
        return {item.number: item for item in found if isinstance(item, TriesItem)}

    def _solved_tries(self, items: list[AnyItem]) -> dict[int, TriesItem]:
        """Returns what pops-tries shows of the items of battle play."""
        program = find_tries(self._settings.pops_tries, self._settings.pops)
        if program is None:
            print(f"{NAME}: pops-tries isn't installed: threats and tries aren't shown", file=sys.stderr)
            return {}
        seconds = self._settings.seconds or None
        words = ["--refutations", str(self._settings.refutations)]
        wanted = [item.number for item in items if is_battle(item) and is_solved(item)]
        found, late = self._solving.tries(TriesProgram(program, seconds, words), wanted)
        for number in late:
            said = f"its tries and threats took longer than {self._settings.seconds:g} s"
            print(f"{NAME}: problem {number}: {said}", file=sys.stderr)
        return found


def with_missing(items: list[AnyItem], given: list[GivenProblem]) -> list[AnyItem]:
    """Adds the problems that a report lacks, as pops-many leaves them out, and says which."""
    found = {item.number: item for item in items}
    for problem in given:
        if problem.number not in found:
            print(f"{NAME}: problem {problem.number} isn't in the report", file=sys.stderr)
            found[problem.number] = HeadlessItem(problem.number, NOT_IN_REPORT)
    return [item for _, item in sorted(found.items())]


def is_battle(item: AnyItem) -> bool:
    """Returns whether an item can have tries."""
    return isinstance(item, SoundItem) and item.stipulation.play is not Play.HELP


def warn_of_short_lines(entries: list[Entry], tries: dict[int, TriesItem]) -> None:
    """Says of which problems of the sheet the lines end before their last move, because Variation is
    missing.
    """
    numbers = [
        entry.number
        for entry in entries
        if any(has_short_lines(twin, tries) for twin in entry.group.twins)
    ]
    if numbers:
        many = len(numbers) > _MOST_NUMBERS
        shown = f"{len(numbers)} of them" if many else ", ".join(numbers)
        said = "lines end at move 2, Option Variation shows all of them"
        print(f"{NAME}: problems without Variation ({shown}): {said}", file=sys.stderr)


def has_short_lines(twin: Twin, tries: dict[int, TriesItem]) -> bool:
    """Returns whether the lines of a problem end before its last move."""
    item, given = twin.item, twin.given
    return (
        isinstance(item, SoundItem)
        and is_battle(item)
        and item.stipulation.half_moves > _HALF_MOVES_SHOWN
        and given is not None
        and not given.has_variations
        and has_lines(item, tries.get(item.number))
    )


def has_lines(item: SoundItem, tries: Optional[TriesItem]) -> bool:
    """Returns whether a problem has a solution or a try."""
    solutions = any(phase.solutions for phase in item.phases or ())
    return solutions or tries is not None and bool(tries.tries)


def refuse_other_report(
    items: list[AnyItem], given: list[GivenProblem], boards: dict[int, Board]
) -> None:
    """Raises CommandError where a report isn't of the input."""
    numbers = [item.number for item in items]
    if numbers != sorted(set(numbers)) or any(it > len(given) for it in numbers):
        raise DeviceError("the report isn't that of the input: other problems")
    refuse_others("report", [it for it in items if isinstance(it, SoundItem)], given, boards)


def refuse_others(
    name: str,
    shown: Iterable[Union[SoundItem, TriesItem]],
    given: list[GivenProblem],
    boards: dict[int, Board],
) -> None:
    """Raises CommandError where an item of a text isn't of the input."""
    for one in shown:
        stipulation = given[one.number - 1].stipulation if one.number <= len(given) else None
        board = boards.get(one.number)
        # (a sheet has no more of its solutions)
        item: Union[SoundItem, TriesItem] = shortened(one)[0] if isinstance(one, SoundItem) else one
        if (
            one.stipulation != stipulation
            or one.board not in (None, board)
            or (board is not None and not are_possible(board.men, item))
        ):
            raise DeviceError(f"the {name} isn't that of the input: problem {one.number} differs")


def refuse_other_tries(items: Iterable[AnyItem], tries: dict[int, TriesItem]) -> None:
    """Raises CommandError where a text of tries isn't of the problems of the report."""
    for item in items:
        shown = tries.get(item.number)
        if isinstance(item, SoundItem) and shown is not None and not is_of_item(shown, item):
            message = f"the text of tries has another problem {item.number} than the report"
            raise DeviceError(message)


def printed(words: list[str], room: str) -> Outcome:
    """Runs Chromium, which leaves nothing outside its folder and is over with all its processes.

    If the folder's path is too long for a socket, the socket is in `/tmp`. HOME stays: the user's
    fonts are there.
    """
    folder = room if len(os.fsencode(room)) <= LONGEST_ROOM else "/tmp"
    environment = {**os.environ, "TMPDIR": folder, **dict.fromkeys(WRITTEN_TO, room)}
    # (without its input it never begins, should this process end before it is held)
    held = ["/bin/sh", "-c", 'read -r _ && exec "$@"', "sh", *words]
    refuse_unlisted(held[0])
    child = ChildProcess(held, subprocess.PIPE, subprocess.PIPE, environment)
    with interrupts.held() as as_before, sessions.Watcher(child.run.pid, room):
        try:
            with as_before():
                return child.outcome(b"\n")
        finally:
            sessions.end(child.run.pid)


def pdf_of(page: str) -> bytes:
    """Returns a page as headless Chromium prints it. CommandError where there is none."""
    browser = next((it for it in BROWSERS if shutil.which(it)), None)
    if browser is None:
        message = "--to pdf needs chromium, which isn't on the PATH; --to html needs nothing"
        raise DeviceError(message)
    with sessions.passing_folder("pops-sheet-") as room:
        source, target = Path(room) / "sheet.html", Path(room) / "sheet.pdf"
        source.write_text(page, "utf-8", "replace")
        words = ["--headless", "--no-sandbox", "--disable-gpu", "--no-pdf-header-footer"]
        words += [f"--user-data-dir={room}/profile", f"--print-to-pdf={target}", source.as_uri()]
        done = printed([browser, *words], room)
        if done.status != 0 or not target.is_file():
            raise DeviceError(f"{browser} ended with {done.status}")
        if target.stat().st_size > MOST_OUTPUT:
            raise DeviceError(f"{browser}: {wrote_more(MOST_OUTPUT)}")
        return target.read_bytes()


def is_solved(item: AnyItem) -> bool:
    """Returns whether an item is solved to the end."""
    return isinstance(item, SoundItem) and item.unfinished is None


def written_as(settings: Settings, entries: list[Entry]) -> bytes:
    """Returns the sheet in its form."""
    language, figures = LANGUAGES[settings.language], settings.figures
    heading = settings.heading or Path(settings.input).stem
    if settings.to == "text":
        page = as_text(entries, language)
    elif settings.to == "latex":
        page = as_latex(entries, language, heading, settings.encoding, figures)
        lacking = beyond_latex(page)
        if lacking:
            said = f"{NAME}: latex and pdflatex lack {' '.join(lacking)}: lualatex sets them"
            print(said, file=sys.stderr)
    else:
        page = as_html(entries, language, Layout(heading, figures, settings.per_row))
        if settings.to == "pdf":
            return pdf_of(page)
    return page.encode("utf-8", "replace")


def main(words: list[str]) -> Status:
    settings = arguments(words)
    texts = Texts(settings)
    command.try_out(settings.output)
    given, boards = given_problems(texts.input), boards_of(texts.input)
    items = texts.items()
    warn_of_rest(NAME, settings.input, texts.input)
    warn_of_names(NAME, settings.report or settings.input, items, settings.encoding)
    refuse_other_report(items, given, boards)
    tries = texts.tries(items) if any(map(is_battle, items)) else {}
    refuse_others("text of tries", tries.values(), given, boards)
    refuse_other_tries(items, tries)
    items = with_missing(items, given)
    shown = TriesShown(settings.tries)
    made = Sheet(boards, tries, LANGUAGES[settings.language], settings.encoding, shown)
    found = groups(iter(items), given, settings.encoding, False)
    entries = list(made.entries(found, settings.first_number, settings.apart))
    warn_of_short_lines(entries, tries)
    written = written_as(settings, entries)
    command.write(settings.output, written)
    return Status.GOOD if all(map(is_solved, items)) else Status.FAULTY
