"""Judges a collection: solves it, looks for short solutions, and writes one sheet of verdicts."""

import errno
import os
import sys
from pathlib import Path
from typing import Optional

from pops_companions import command
from pops_companions.command import CommandError, DeviceError, Status, flag, option, word
from pops_companions.commands.sheet import refuse_others
from pops_companions.input.given import given_problems
from pops_companions.files import is_device
from pops_companions.input.given_source import refuse_other_text
from pops_companions.many.program import LOOKED_FOR, find
from pops_companions.many.tries_program import TRIES_LOOKED_FOR, find_tries
from pops_companions.report.items import SoundItem
from pops_companions.report.source import opened_unfinished_report
from pops_companions.review.beside import Beside
from pops_companions.review.judged_groups import JudgedGroup, judged_groups
from pops_companions.review.judgement_text import MOST_LINES, Tally, as_text
from pops_companions.review.judging_run import Runs, Work
from pops_companions.review.sheet import Evidence, sheet
from pops_companions.sheet.entries import boards_of

NAME = "pops-judge"


class Settings(
    command.Settings,
    prog=NAME,
    description="Solves the problems of COLLECTION, looks for short solutions, and writes one sheet with a\n"
    "verdict for each problem and the evidence: cooks, short solutions, duals, set play.\n"
    "docs/SOUNDNESS.md explains the verdicts. Where pops-tries is installed, the sheet also has\n"
    "tries and threats.",
    epilog="example: pops-judge tourney.pop -o sheet.html\n"
    "exit status: 0 if all problems are sound, 1 if one isn't or is undecided, 2 for a\n"
    "mistake in the command line, 3 if a text can't be read or written, 6 if the run was\n"
    "stopped or pops-tries failed. What is done is then kept in SHEET.work, as it is while\n"
    "problems need more than --seconds; --resume goes on from there.",
):
    """The words of the command line."""

    collection: str = word("COLLECTION", "an input of pops")
    output: str = option("-o --output", "SHEET", "the sheet, an HTML page", required=True)
    heading: Optional[str] = option(
        "--heading", "TEXT", "the sheet's heading (the name of the collection)"
    )
    seconds: float = command.SECONDS
    jobs: Optional[int] = command.JOBS
    solutions: int = option(
        "--solutions",
        "N",
        "the wanted number for help problems without `Remark solutions N` (1)",
        type=command.number_from_one,
        default=1,
    )
    resume: bool = flag("--resume", "go on where a run stopped")
    apart: bool = flag("--apart", "judge each twin by itself")
    all: bool = flag("--all", f"show all moves of a finding, not only {MOST_LINES}")
    pops: Optional[str] = option("--pops", "PROGRAM", LOOKED_FOR)
    pops_tries: Optional[str] = option("--pops-tries", "PROGRAM", TRIES_LOOKED_FOR)
    encoding: str = command.encoding()


def runs_of(settings: Settings) -> Runs:
    """Returns the programs, and how they are run."""
    pops = find(settings.pops)
    tries = find_tries(settings.pops_tries, pops)
    return Runs(pops, tries, settings.jobs, settings.seconds or None)


def folder_of(settings: Settings) -> Path:
    """Returns the folder that keeps what is done until all is."""
    return Path(settings.output + ".work")


def refuse_sheet(collection: str, sheet: str) -> None:
    """Refuses a sheet that is the collection or can't be written, before anything is solved."""
    command.refuse_shared([collection] if collection != command.STANDARD_INPUT else [], [sheet])
    if is_device(sheet) and not os.path.isdir(sheet):
        message = f"the sheet needs the name of a file, beside which its folder is: {sheet} is none"
        raise CommandError(Status.USAGE, message)
    if sheet.endswith("/") or os.path.isdir(sheet):
        reason = os.strerror(errno.EISDIR)
    elif os.path.exists(sheet) and not os.access(sheet, os.W_OK):
        reason = os.strerror(errno.EACCES)
    else:
        return
    raise DeviceError(f"cannot write {sheet}: {reason}")


def judgements_of(settings: Settings, work: Work, beside: Beside) -> list[JudgedGroup]:
    """Returns what the folder's reports say of the problems."""
    with opened_unfinished_report(
        NAME, str(work.report), work.unfinished_problems, settings.encoding
    ) as items:
        judgements = beside.judgements(map(work.renamed, items))
        return list(judged_groups(judgements, beside.given, settings.encoding, settings.apart))


def judge(settings: Settings) -> Status:
    """Runs what is needed, writes the sheet and prints the verdicts."""
    text = command.read_all(settings.collection)
    refuse_other_text(settings.collection, text)
    refuse_sheet(settings.collection, settings.output)
    given = given_problems(text)
    name = command.name_of(settings.collection)
    with Work(folder_of(settings), runs_of(settings), name) as work:
        work.begin(text, settings.resume)
        work.solve()
        short: Optional[str] = str(work.short) if work.solve_shorter(given) else None
        tries = work.tries(text, given)
        work.refuse_changed()
        with work.read():
            work.leave_out_others(tries)
            beside = Beside(NAME, settings.solutions, str(work.input), short, tries)
            judged = judgements_of(settings, work, beside)
            items = [twin.item for one in judged for twin in one.judgements]
            sound, boards = [it for it in items if isinstance(it, SoundItem)], boards_of(text)
            refuse_others("report", sound, given, boards)
        work.compare(items)
        tally = Tally()
        most = None if settings.all else MOST_LINES
        heading = settings.heading or Path(name).stem
        evidence = Evidence(boards, tries, settings.encoding, most)
        page = sheet(tally.counted(judged), tally, heading, evidence)
        command.write(settings.output, page.encode("utf-8", "replace"))
        for one in judged:
            print(as_text(one, settings.encoding, 0).split("\n")[0])
        print(tally.text)
        if work.end():
            say(f"{work.folder.path} has files of others, which stay")
        say_unfinished(work)
        if work.failed:
            return Status.UNFINISHED
        return Status.GOOD if tally.all_sound else Status.FAULTY


def say(message: str) -> None:
    print(f"{NAME}: {message}", file=sys.stderr)


def say_unfinished(work: Work) -> None:
    """Says why a problem lacks solutions or tries."""
    for number, reason in sorted(work.failed.items()):
        say(f"problem {number}: {reason}: its tries and threats are missing")
    if work.failed:
        say("--resume tries them again")
    elif not work.is_finished:
        say("some problems took longer: --resume with more --seconds goes on with them")


def main(words: list[str]) -> Status:
    settings = Settings.read(words)
    try:
        return judge(settings)
    except (KeyboardInterrupt, OSError) as error:
        kept = folder_of(settings)
        if not kept.is_dir():
            raise
        why, status = "stopped", Status.UNFINISHED
        if isinstance(error, OSError):
            why, status = command.said_of(error), Status.DEVICE
        message = f"{why}; what is done is kept in {kept}: go on with --resume"
        raise CommandError(status, message) from None
