"""Judgements as text and as CSV."""

import re
from collections import Counter
from collections.abc import Iterable, Iterator
from typing import Optional

from pops_companions.report.items import SoundItem
from pops_companions.review.judged_groups import JudgedGroup
from pops_companions.review.judging import Finding, Judgement, Verdict
from pops_companions.review.naming import counted, described, joined_name, shown
from pops_companions.show.titles import printable
from pops_companions.tables import uncomputed

# How many moves of a finding are shown without --all.
MOST_LINES = 10
# What parts cells for some reader: the semicolon where the comma is in numbers.
_PARTING = re.compile('[,;\t\r\n\u2028\u2029"]')

# Numbers of a judgement, by the names of their columns.
_NUMBERS = (
    *("wanted", "short_solutions", "duals_at_the_end", "duals_earlier", "set_solutions"),
    *("unprovided_checks", "threats", "tries"),
)
COLUMNS = (
    *("number", "title", "author", "stipulation", "condition", "verdict", "solutions", "stopped"),
    *(*_NUMBERS, "reasons"),
)


def lines_of(finding: Finding, most: Optional[int]) -> list[str]:
    """Returns the first moves of a finding, and a line for the rest."""
    if most is None or len(finding.lines) <= most:
        return list(map(str, finding.lines))
    return [*map(str, finding.lines[:most]), f"and {len(finding.lines) - most} more"]


def as_text(judged: JudgedGroup, encoding: str, most: Optional[int]) -> str:
    """Returns the lines of a problem: its verdict, below it what was found, for each twin by
    itself.
    """
    head = (judged.group.numbers, judged.verdict.value, name_of(judged, encoding))
    parts = [": ".join(filter(None, head))]
    if judged.group.is_alone:
        parts.extend(_findings(judged.judgements[0], "  ", most))
    else:
        for heading, judgement in judged.headings:
            parts.append(f"  {heading}: {judgement.verdict.value}")
            parts.extend(_findings(judgement, "    ", most))
    return "\n".join(parts) + "\n"


def name_of(judged: JudgedGroup, encoding: str) -> str:
    """Returns stipulation, title and author; for twins the first one's, without the title's label."""
    first, group = judged.judgements[0], judged.group
    if group.is_alone:
        return described(first.item, encoding, first.given)
    asked = first.item.asked if isinstance(first.item, SoundItem) else ""
    return joined_name(asked, printable(group.title or ""), shown(group.author, encoding))


def _findings(judgement: Judgement, indent: str, most: Optional[int]) -> Iterator[str]:
    for finding in judgement.findings:
        yield f"{indent}{finding.text}"
        for line in lines_of(finding, most):
            yield f"{indent}  {line}"


def csv_line(values: "tuple[object, ...]") -> str:
    """Returns a row of CSV with its line end."""
    return ",".join(map(_cell, values)) + "\n"


def _cell(value: object) -> str:
    """Returns a cell, whose text no spreadsheet computes."""
    text = "" if value is None else uncomputed(value) if isinstance(value, str) else str(value)
    return '"{}"'.format(text.replace('"', '""')) if _PARTING.search(text) else text


def as_csv(judgement: Judgement, encoding: str) -> str:
    """Returns the row of a problem; what the report doesn't show stays empty."""
    sound = judgement.item if isinstance(judgement.item, SoundItem) else None
    named = sound or judgement.given
    return csv_line(
        (
            judgement.number,
            shown(None if named is None else named.title, encoding),
            shown(None if named is None else named.author, encoding),
            sound.stipulation.text if sound else "",
            sound.condition.value if sound and sound.condition else "",
            judgement.verdict.value,
            judgement.solutions,
            "" if judgement.solutions is None else "yes" if judgement.stopped else "no",
            *(getattr(judgement, name) for name in _NUMBERS),
            "; ".join(judgement.reasons),
        )
    )


class Tally:
    """How many problems have each verdict; twins are one problem."""

    def __init__(self) -> None:
        self._counts: "Counter[Verdict]" = Counter()

    def counted(self, judged: Iterable[JudgedGroup]) -> Iterator[JudgedGroup]:
        """Hands judgements on and counts them."""
        for one in judged:
            self._counts[one.verdict] += 1
            yield one

    def add(self, other: "Tally") -> None:
        """Adds what was counted elsewhere."""
        self._counts.update(other._counts)

    @property
    def all_sound(self) -> bool:
        return self.total == self._counts[Verdict.SOUND]

    @property
    def total(self) -> int:
        return sum(self._counts.values())

    @property
    def text(self) -> str:
        """As `3 problems: 1 sound, 0 undecided, 2 unsound, 0 faulty`."""
        verdicts = ", ".join(f"{self._counts[verdict]} {verdict.value}" for verdict in Verdict)
        return f"{counted(self.total, 'problem')}: {verdicts}"
