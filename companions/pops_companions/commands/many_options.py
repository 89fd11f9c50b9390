"""The command line of pops-many."""

import argparse
import shlex
from typing import Optional

from pops_companions import command
from pops_companions.command import flag, option, word
from pops_companions.files import Links, is_device
from pops_companions.many.program import LOOKED_FOR

NAME = "pops-many"
# With --split a problem is cut into parts after this many seconds, sooner where some processors
# would have nothing to do.
SPLIT_AFTER = 2.0
SPLIT_SOON_AFTER = 0.02
# The half-moves by which help play is cut. On another machine each part costs a process.
DEPTHS = range(1, 5)
DEPTH_HERE = 2
DEPTH_THERE = 1


def _machines(text: str) -> str:
    """Reads names of machines. Files of GNU parallel have them, in lines of text."""
    if not text.isprintable():
        raise argparse.ArgumentTypeError(f"{text!r} names no machines: it isn't printable text")
    return text


def _shell_command(text: str) -> str:
    """Reads a command with its options, as the shell parts them."""
    try:
        words, why = shlex.split(text), "it has no word"
    except ValueError as error:
        words, why = [], str(error)
    if not words:
        raise argparse.ArgumentTypeError(f"{text!r} is no command: {why}")
    return text


class Settings(
    command.Settings,
    prog=NAME,
    description="Solves the problems of each FILE, or of standard input, on all processors.\n"
    "It writes what pops writes for each FILE in turn, and ends with the same status.",
    epilog="example: pops-many collection.pop -o collection.report\n"
    "exit status: that of pops; 6 if the run was stopped, or some problems took longer than\n"
    "--seconds or couldn't be run. A journal then keeps the finished ones, and --resume goes\n"
    "on from there.",
):
    """The words of the command line."""

    # What becomes of a link by the name of the report.
    links = Links.FOLLOWED

    files: list[str] = word("FILE", "an input of pops", nargs="*")
    output: Optional[str] = option(
        "-o --output",
        "REPORT",
        "the report, or the folder of --each (default: standard output)",
    )
    each: bool = flag(
        "--each",
        "one report per FILE, NAME.report for NAME.pop, next to it or in the folder of -o",
    )
    index: Optional[str] = option(
        "--index", "TABLE", "a table of the report's items, with the FILE of each"
    )
    jobs: Optional[int] = option(
        "-j --jobs",
        "N",
        "runs at a time on each machine (default: one per processor)",
        type=command.jobs,
    )
    check: bool = flag("--check", "as in pops: test the problems without solving them")
    no_board: bool = flag("--no-board", "as in pops: print no board")
    seconds: Optional[float] = option(
        "--seconds",
        "N",
        "stop a problem after N seconds, and go on with the others",
        type=command.seconds,
    )
    unfinished: Optional[str] = option(
        "--unfinished",
        "FILE",
        "where to put what was found of stopped problems (default: REPORT.unfinished)",
    )
    split: bool = flag(
        "--split", "cut problems that take long into parts, for all processors and machines"
    )
    split_after: Optional[float] = option(
        "--split-after",
        "N",
        f"how many seconds a problem has before it is cut ({SPLIT_AFTER:g}, or"
        f" {SPLIT_SOON_AFTER:g} if there are fewer problems than processors)",
        type=command.seconds,
    )
    split_depth: Optional[int] = option(
        "--split-depth",
        "D",
        f"cut help play by its first D half-moves, 1 to 4 ({DEPTH_HERE}, with --sshlogin"
        f" {DEPTH_THERE}): a greater D makes more and smaller parts",
        type=int,
        choices=DEPTHS,
    )
    pops_part: Optional[str] = option(
        "--pops-part",
        "PROGRAM",
        "the program pops-part (default: $POPS_PART, the one next to pops or built with it,"
        " the one on the PATH)",
    )
    resume: bool = flag("--resume", "go on where a run stopped; needs its journal")
    journal: Optional[str] = option("--journal", "FILE", "the journal (default: REPORT.journal)")
    pops: Optional[str] = option("--pops", "PROGRAM", LOOKED_FOR)
    sshlogin: list[str] = option(
        "--sshlogin",
        "HOST,..",
        "run on these machines, through GNU parallel and ssh; : is this machine",
        type=_machines,
        action="append",
        default=[],
    )
    remote_pops: str = option(
        "--remote-pops", "PROGRAM", "pops on those machines (pops)", default="pops"
    )
    remote_pops_part: Optional[str] = option(
        "--remote-pops-part", "PROGRAM", "pops-part on those machines (pops-part)"
    )
    ssh: Optional[str] = option(
        "--ssh",
        "COMMAND",
        "the ssh that GNU parallel uses, with its options",
        type=_shell_command,
    )

    @property
    def report(self) -> Optional[str]:
        """The report, where it is a file: beside it are the journal and what is unfinished."""
        if self.output is None or self.each:
            return self.output
        return None if is_device(self.output) else self.output


def arguments(words: list[str]) -> Settings:
    """Reads the words of the command line."""
    settings = Settings.read(words)
    if settings.seconds == 0:
        settings.refuse("--seconds needs a number above 0")
    if settings.resume and not (settings.report or settings.journal):
        settings.refuse("--resume needs --output or --journal: the journal of the run that stopped")
    if settings.each and not settings.files:
        settings.refuse("--each needs FILEs")
    if settings.each and (settings.index or settings.unfinished):
        settings.refuse(
            "--each has no single report: --index and --unfinished can't be combined with it"
        )
    if settings.seconds and not (settings.report or settings.each or settings.unfinished):
        settings.refuse("--seconds needs --output, --each or --unfinished: a second file for the rest")
    refuse_split(settings)
    return settings


def refuse_split(settings: Settings) -> None:
    """Refuses what doesn't go together with parts, or is nothing without them."""
    if not settings.split:
        for name in ("split_after", "split_depth", "pops_part", "remote_pops_part"):
            if getattr(settings, name) is not None:
                settings.refuse(f"--{name.replace('_', '-')} needs --split")
        return
    if settings.check:
        settings.refuse("--check solves nothing: there is nothing to --split")
    if settings.seconds is not None:
        settings.refuse("--seconds and --split can't be combined: a problem in parts has no limit")
    if settings.split_after == 0:
        settings.refuse("--split-after needs a number above 0")


def moment_of(settings: Settings, problems: int, jobs: int) -> float:
    """Returns how many seconds a problem has before it is cut into parts."""
    if settings.split_after is not None:
        return float(settings.split_after)
    return SPLIT_SOON_AFTER if problems < jobs else SPLIT_AFTER


def depth_of(settings: Settings) -> int:
    """Returns by how many half-moves help play is cut."""
    if settings.split_depth is not None:
        return int(settings.split_depth)
    return DEPTH_THERE if settings.sshlogin else DEPTH_HERE
