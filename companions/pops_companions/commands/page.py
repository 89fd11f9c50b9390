"""Turns a report of pops into a page of diagrams and solutions."""

import sys
from collections.abc import Iterator
from typing import Optional

from pops_companions import command
from pops_companions.command import Status, flag, option
from pops_companions.input.given_source import read_given
from pops_companions.report.items import AnyItem, FaultyItem
from pops_companions.report.reader import CUT
from pops_companions.report.source import opened_unfinished_report
from pops_companions.show.page import Page, Words

NAME = "pops-page"


class Settings(
    command.Settings,
    prog=NAME,
    description="Turns a report of pops into an HTML page: for each problem a diagram with title and\n"
    "author, next to it the solutions or the fault, in the report's own words.\n"
    "Twins that pops-import made share one diagram.",
    epilog="example: pops problems.pop | pops-page --input problems.pop -o problems.html",
):
    """The words of the command line."""

    report: Optional[str] = command.REPORT
    output: Optional[str] = command.output("the page")
    heading: str = option("--heading", "TEXT", "the page's heading (Problems)", default="Problems")
    input: Optional[str] = option(
        "--input",
        "INPUT",
        "the input of the report: its Origin lines are shown, and what changes in twins",
    )
    unfinished: Optional[str] = command.UNFINISHED
    apart: bool = flag("--apart", "show each twin as a problem of its own")
    encoding: str = command.encoding()


def main(words: list[str]) -> Status:
    settings = Settings.read(words)
    given = () if settings.input is None else read_given(NAME, settings.input)
    shown = Page(settings.heading, settings.encoding, given, settings.apart, Words())
    status = Status.GOOD

    def noted(items: Iterator[AnyItem]) -> Iterator[AnyItem]:
        """Hands the items on; a report that ends inside a problem isn't what it should be."""
        nonlocal status
        for item in items:
            if not isinstance(item, FaultyItem) and item.unfinished == CUT:
                print(f"{NAME}: the report ends inside problem {item.number}", file=sys.stderr)
                status = Status.FAULTY
            yield item

    opened = opened_unfinished_report(NAME, settings.report, settings.unfinished, settings.encoding)
    with opened as items, command.written(settings.output) as target:
        target.write(shown.of(noted(items)).encode("utf-8", "replace"))
    return status
