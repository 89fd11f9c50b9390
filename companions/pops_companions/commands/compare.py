"""Says how two reports of pops differ, problem by problem."""

from collections.abc import Iterator
from contextlib import AbstractContextManager
from functools import partial
from typing import Optional

from pops_companions import command
from pops_companions.command import Status, word
from pops_companions.many.progress import Progress
from pops_companions.review.differences import Counts, Pair, differences_of, heading
from pops_companions.review.kept_text import KeptReport, kept_report
from pops_companions.review.matching import Pairs, Places
from pops_companions.review.naming import counted

NAME = "pops-compare"


class Settings(
    command.Settings,
    prog=NAME,
    description="Says how two reports of pops differ, problem by problem: solutions, variations,\n"
    "totals and faults gained or lost, problems changed, gained or lost.\n"
    "It recognizes problems even if their numbers changed.",
    epilog="example: pops-compare before.report after.report\n"
    "exit status: 0 if nothing differs, 1 if something does, 2 for a mistake in the\n"
    "command line, 3 if a report can't be read.",
):
    """The words of the command line."""

    old: str = word("OLD", "a report; - is standard input")
    new: str = word("NEW", "a later report; - is standard input")
    output: Optional[str] = command.output("the text")
    encoding: str = command.encoding()


def arguments(words: list[str]) -> Settings:
    """Reads the words of the command line."""
    settings = Settings.read(words)
    if settings.old == settings.new == "-":
        settings.refuse("only one of the reports can be standard input")
    return settings


class Comparison:
    """The comparison of two reports, written problem by problem."""

    def __init__(self, old: KeptReport, new: KeptReport, encoding: str):
        self._old, self._new = old, new
        self._encoding = encoding
        self._counts = Counts()
        self._pairs = 0
        self.differing = 0

    def _pair(self, places: Places) -> Optional[Pair]:
        """Returns the items of a pair; None where their texts are equal."""
        old = None if places.old is None else self._old.text(places.old)
        new = None if places.new is None else self._new.text(places.new)
        if old is not None and new is not None:
            if old.partition(b"\n")[2] == new.partition(b"\n")[2]:
                return None
        before = None if old is None else self._old.item(old)
        return Pair(before, None if new is None else self._new.item(new))

    def texts(self, progress: Progress) -> Iterator[str]:
        """Yields the differences of each pair that has any, then what they come to."""
        pairs = Pairs(self._old.heads, self._new.heads)
        progress.begin(0, len(pairs))
        for places in pairs:
            self._pairs += 1
            pair = self._pair(places)
            progress.more()
            if pair is None:
                continue
            found = differences_of(pair, self._encoding)
            self._counts.add(found.counts)
            if found.lines or pair.old is None or pair.new is None:
                self.differing += 1
                yield "\n".join([heading(pair, self._encoding), *found.lines]) + "\n"
        yield self._total + "\n"

    @property
    def _total(self) -> str:
        if not self.differing:
            return f"{counted(self._pairs, 'problem')}: nothing differs"
        counts = self._counts
        verb = "differs" if self.differing == 1 else "differ"
        parts = [f"{counted(self._pairs, 'problem')}: {self.differing} {verb}"]
        for name in ("problems", "solutions", "variations", "faults"):
            gained, lost = counts.gained[name], counts.lost[name]
            if gained or lost:
                parts.append(f"{name} {gained} gained, {lost} lost")
        if counts.totals_changed:
            parts.append(f"totals {counts.totals_changed} changed")
        return "; ".join(parts)


def main(words: list[str]) -> Status:
    settings = arguments(words)
    progress = Progress(NAME)

    def report(name: str) -> AbstractContextManager[KeptReport]:
        told = partial(progress.reading, name)
        return kept_report(NAME, None if name == "-" else name, settings.encoding, told)

    with report(settings.old) as old, report(settings.new) as new:
        comparison = Comparison(old, new, settings.encoding)
        with command.written(settings.output) as target:
            for text in comparison.texts(progress):
                target.write(text.encode("utf-8", "replace"))
    progress.end()
    return Status.FAULTY if comparison.differing else Status.GOOD
