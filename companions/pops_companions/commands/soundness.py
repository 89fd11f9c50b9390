"""Says which problems of a report of pops are sound, and what is wrong with the others."""

from collections.abc import Iterator
from contextlib import contextmanager
from typing import Optional

from pops_companions import command
from pops_companions.command import DeviceError, Status, flag, option, word
from pops_companions.input.given_source import read_given
from pops_companions.input.writing import text_of_problems
from pops_companions.many.progress import Progress
from pops_companions.report.source import (
    NamedText,
    fitting_unfinished,
    items_with_unfinished,
    unfinished_beside,
)
from pops_companions.review.beside import Beside
from pops_companions.review.in_pieces import is_large
from pops_companions.review.judged_groups import JudgedGroup
from pops_companions.review.judged_report import Form, JudgedReport
from pops_companions.review.judgement_page import page
from pops_companions.review.judgement_text import (
    COLUMNS,
    MOST_LINES,
    Tally,
    as_csv,
    as_text,
    csv_line,
)
from pops_companions.review.posing import posed_problems
from pops_companions.review.kept_text import kept_tries

NAME = "pops-test"


# What is written in place of a text.
_FORMS = command.OneOf()


class Settings(
    command.Settings,
    prog=NAME,
    description="Says which problems of a report of pops are sound, and what is wrong with the others:\n"
    "no solution, cooks, short solutions. Also lists duals, set play and unprovided checks.\n"
    "docs/SOUNDNESS.md explains each word, and what a report can't show.",
    epilog="example: pops problems.pop > problems.report\n"
    "         pops-test --pose problems.pop | pops > shorter.report\n"
    "         pops-test problems.report --input problems.pop --short shorter.report\n"
    "exit status: 0 if all problems are sound, 1 if one isn't or is undecided, 2 for a\n"
    "mistake in the command line, 3 if a text can't be read or isn't what it should be.",
):
    """The words of the command line."""

    text: Optional[str] = word(
        "REPORT", "the report, or with --pose the input (default: standard input)", nargs="?"
    )
    input: Optional[str] = option(
        "--input",
        "INPUT",
        "the input of the report; `Remark solutions 2` gives a problem's wanted number",
    )
    solutions: int = option(
        "--solutions",
        "N",
        "the wanted number for help problems without this Remark (1)",
        type=command.number_from_one,
        default=1,
    )
    pose: bool = flag(
        "--pose", "write the input that asks for an input's short solutions, and nothing else"
    )
    short: Optional[str] = option("--short", "REPORT", "the report of what --pose wrote")
    tries: Optional[str] = option(
        "--tries",
        "TEXT",
        "the text of pops-tries: threats, zugzwang, tries, and duals only after defences",
    )
    unfinished: Optional[str] = command.UNFINISHED
    csv: bool = flag("--csv", "one row of CSV per problem", one_of=_FORMS)
    page: bool = flag("--page", "an HTML page with diagrams", one_of=_FORMS)
    heading: str = option("--heading", "TEXT", "the page's heading (Soundness)", default="Soundness")
    apart: bool = flag("--apart", "judge each twin by itself, as --csv always does")
    all: bool = flag("--all", f"show all moves of a finding, not only {MOST_LINES}")
    output: Optional[str] = command.output("what is written")
    encoding: str = command.encoding()


def arguments(words: list[str]) -> Settings:
    """Reads the words of the command line."""
    settings = Settings.read(words)
    beside = [settings.input, settings.short, settings.tries, settings.unfinished]
    beside += ["--csv"] * settings.csv + ["--page"] * settings.page
    if settings.pose and any(beside):
        settings.refuse("--pose goes only with an input and --output")
    return settings


def pose(file: Optional[str], output: Optional[str]) -> None:
    """Writes the input that asks for the short solutions of an input's problems."""
    given = read_given(NAME, file)
    posed = list(posed_problems(given))
    if not posed:
        has_any = any(problem.stipulation is not None for problem in given)
        reason = "with a shorter stipulation" if has_any else "without a fault: see pops-explain"
        raise DeviceError(f"{command.name_of(file)} has no problem {reason}")
    command.write(output, text_of_problems(posed).encode("utf-8", "surrogateescape"))


def test(settings: Settings) -> Status:
    """Judges a report and writes what was found."""
    tally, progress = Tally(), Progress(NAME)
    with kept_tries(settings.tries) as tries:
        beside = Beside(NAME, settings.solutions, settings.input, settings.short, tries)
        with opened_texts(settings, beside, tally, progress) as texts:
            with command.written(settings.output) as target:
                # (there the texts show it)
                progress.is_shown &= not target.isatty()
                for text in texts:
                    target.write(text)
                    target.flush()
    return Status.GOOD if tally.all_sound else Status.FAULTY


@contextmanager
def opened_texts(
    settings: Settings, beside: Beside, tally: Tally, progress: Progress
) -> Iterator[Iterator[bytes]]:
    """Opens the report, and yields what is written, piece by piece: text and CSV problem by problem."""
    file, encoding, name = settings.text, settings.encoding, command.name_of(settings.text)
    named, form = NamedText(NAME, name, encoding), form_of(settings)
    with command.opened(file) as source:
        if unfinished_beside(file, settings.unfinished) is None:
            report = JudgedReport(named, beside, form, tally)
            groups, texts = report.groups(source), report.texts(source)
        elif source.seekable():
            more = fitting_unfinished(NAME, file, source, settings.unfinished, encoding)
            report = JudgedReport(named, beside, form, tally, more)
            groups, texts = report.groups(source), report.texts(source)
        else:
            items = items_with_unfinished(NAME, file, source, settings.unfinished, encoding)
            report = JudgedReport(named, beside, form, tally)
            groups = report.groups_of(items)
            texts = report.texts_of(groups)
        if is_large(source):
            groups = progress.while_read(groups, name, source)
            texts = progress.while_read(texts, name, source)
        yield texts_of(settings, tally, groups, texts)


def form_of(settings: Settings) -> Form:
    """Returns how each problem is shown."""
    encoding = settings.encoding
    if settings.csv:
        return Form(encoding, True, lambda one: as_csv(one.judgements[0], encoding))
    most = None if settings.all else MOST_LINES
    return Form(encoding, settings.apart, lambda one: as_text(one, encoding, most))


def texts_of(
    settings: Settings,
    tally: Tally,
    groups: Iterator[JudgedGroup],
    texts: Iterator[bytes],
) -> Iterator[bytes]:
    """Yields what is written of problems, which are judged alone or as texts."""
    if settings.page:
        most = None if settings.all else MOST_LINES
        text = page(groups, tally, settings.heading, settings.encoding, most)
        yield text.encode("utf-8", "replace")
        return
    if settings.csv:
        yield csv_line(COLUMNS).encode("ascii")
    yield from texts
    if not settings.csv:
        yield tally.text.encode("ascii") + b"\n"


def main(words: list[str]) -> Status:
    settings = arguments(words)
    if settings.pose:
        pose(settings.text, settings.output)
        return Status.GOOD
    return test(settings)
