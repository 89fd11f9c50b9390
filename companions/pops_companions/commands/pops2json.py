"""Writes a report of pops, or a text of pops-tries, as JSON: one object an item or an event."""

import json
from collections.abc import Iterator
from contextlib import AbstractContextManager
from typing import Optional, Union

from pops_companions import command
from pops_companions.command import Status, flag, option
from pops_companions.input.given_source import read_given
from pops_companions.report.items import AnyItem
from pops_companions.report.reader import Allowed
from pops_companions.report.source import (
    Text,
    opened_events,
    opened_report,
    opened_tries,
    opened_unfinished_report,
)
from pops_companions.report.tries import AnyTriesItem
from pops_companions.show.as_json import Form, Json, event_object, item_object, schema

NAME = "pops2json"


class Settings(
    command.Settings,
    prog=NAME,
    description="Writes a report of pops as JSON, one object per problem, each on its line.\n"
    "docs/COMPANIONS.md explains the objects; --schema prints their JSON Schema.",
    epilog="examples: pops problems.pop | pops2json -o problems.json\n"
    "          pops long.pop | pops2json --events",
):
    """The words of the command line."""

    report: Optional[str] = command.REPORT
    output: Optional[str] = command.output("the JSON")
    input: Optional[str] = option(
        "--input",
        "INPUT",
        "the input of the report: its Origin lines, and the names of faulty problems",
    )
    array: bool = flag("--array", "one array of all the objects")
    events: bool = flag(
        "--events", "one object for each line, move and total, written as soon as it comes"
    )
    tries: bool = flag("--tries", "REPORT is a text of pops-tries")
    unfinished: bool = flag(
        "--unfinished",
        "REPORT may end in a problem, as where pops was stopped; what pops-many kept in"
        " REPORT.unfinished is added",
    )
    schema: bool = flag("--schema", "write the JSON Schema of an object; reads no report")
    encoding: str = command.encoding()

    @property
    def allowed(self) -> Allowed:
        return Allowed.UNFINISHED if self.unfinished else Allowed.FINISHED


def objects_of_items(settings: Settings) -> Iterator[Json]:
    """Yields the objects of the items, with what the input says of them."""
    encoding = settings.encoding
    given = [] if settings.input is None else read_given(NAME, settings.input)
    with opened(settings) as items:
        for item in items:
            known = given[item.number - 1] if item.number <= len(given) else None
            yield item_object(item, encoding, known)


def opened(settings: Settings) -> AbstractContextManager[Iterator[Union[AnyItem, AnyTriesItem]]]:
    """Returns the items of the text."""
    if settings.tries:
        return opened_tries(NAME, settings.report, settings.encoding, settings.allowed)
    if settings.unfinished:
        return opened_unfinished_report(NAME, settings.report, None, settings.encoding)
    return opened_report(NAME, settings.report, settings.encoding)


def objects_of_events(settings: Settings) -> Iterator[Json]:
    """Yields the objects of the events, as they come."""
    text = Text.TRIES if settings.tries else Text.REPORT
    with opened_events(NAME, settings.report, text, settings.allowed) as events:
        for event in events:
            yield event_object(event, settings.encoding)


def lines(objects: Iterator[Json]) -> Iterator[str]:
    """Yields the objects, a line each."""
    for one in objects:
        yield json.dumps(one, ensure_ascii=False) + "\n"


def array(objects: Iterator[Json]) -> Iterator[str]:
    """Yields one array of the objects, which are written one by one."""
    before = "[\n "
    for one in objects:
        yield before + json.dumps(one, ensure_ascii=False, indent=1).replace("\n", "\n ")
        before = ",\n "
    yield "\n]\n"


def arguments(words: list[str]) -> Settings:
    """Reads the words of the command line."""
    settings = Settings.read(words)
    if settings.schema and (settings.report is not None or settings.input is not None):
        settings.refuse("--schema reads no report")
    if settings.events and (settings.array or settings.input is not None):
        settings.refuse("--events goes without --array and --input")
    return settings


def main(words: list[str]) -> Status:
    settings = arguments(words)
    if settings.schema:
        form = Form.EVENT if settings.events else Form.TRIES if settings.tries else Form.ITEM
        command.write(settings.output, (json.dumps(schema(form), indent=1) + "\n").encode())
        return Status.GOOD
    objects = objects_of_events(settings) if settings.events else objects_of_items(settings)
    with command.written(settings.output) as target:
        for text in array(objects) if settings.array else lines(objects):
            target.write(text.encode("utf-8", "replace"))
            if settings.events:
                target.flush()
    return Status.GOOD
