"""A judge's sheet: a page with a verdict for each problem, and the evidence."""

import html
from collections.abc import Callable, Iterable, Mapping, Sequence
from dataclasses import replace
from typing import NamedTuple, Optional

from pops_companions.report.items import Board, SoundItem
from pops_companions.report.tries import TriesItem
from pops_companions.review.judged_groups import JudgedGroup
from pops_companions.review.judgement_page import STYLE, article, finding_text, row, with_headings
from pops_companions.review.judgement_text import Tally
from pops_companions.review.judging import Judgement
from pops_companions.sheet.languages import LANGUAGES, marked_as
from pops_companions.sheet.solution import Solution, lines_of, shortened
from pops_companions.show.page import framed
from pops_companions.show.titles import printable, shown
from pops_companions.stored import stored_text

_STYLE = stored_text("review/sheet.css")
_ENGLISH = LANGUAGES["en"]
_MARKS = marked_as(_ENGLISH, {})
# What the table says of a problem, of its twins one after the other.
_COLUMNS: Mapping[str, Callable[[Judgement], str]] = {
    "Solutions": lambda it: _shown(it.solutions) + "+" * (it.solutions is not None and it.stopped),
    "Check, capture": lambda it: ", ".join(it.key_traits),
    "Short": lambda it: _shown(it.short_solutions) + "+" * (bool(it.short_solutions) and it.stopped),
    "Duals": lambda it: _shown(_sum(it.duals_at_the_end, it.duals_earlier)),
    "Threats": lambda it: ", ".join(dict.fromkeys(it.menaces)),
    "Tries": lambda it: _shown(it.tries),
    "Set play": lambda it: _shown(it.set_solutions),
}
# More lines are folded.
_LINES_SHOWN = 12


class Evidence(NamedTuple):
    """What is shown next to the judgements: boards and tries by the numbers of their problems.

    `most` lines of a finding are shown.
    """

    boards: Mapping[int, Board]
    tries: Mapping[int, TriesItem]
    encoding: str
    most: Optional[int]


def sheet(judged: Iterable[JudgedGroup], tally: Tally, heading: str, evidence: Evidence) -> str:
    """Returns the page; the tally has counted the judgements once they are all taken."""
    rows: list[str] = []
    articles: list[str] = []
    for one in judged:
        rows.append(_row(one, evidence))
        articles.append(_article(one, evidence))
    names = ("No.", "Problem", "Verdict", *_COLUMNS, "Why")
    head = f"<tr>{''.join(f'<th>{name}</th>' for name in names)}</tr>\n"
    parts = [f"<p>{tally.text}</p>\n<table>\n{head}", *rows, "</table>\n", *articles]
    return framed(html.escape(printable(heading)), [STYLE, _STYLE], parts)


def _id(one: JudgedGroup) -> str:
    return f"problem-{one.group.first.number}"


def _row(one: JudgedGroup, evidence: Evidence) -> str:
    reasons = [reason for judgement in one.judgements for reason in judgement.reasons]
    men = dict.fromkeys(text for judgement in one.judgements for text in judgement.impossible_men)
    marked = f' <em>(no game: {html.escape("; ".join(men))})</em>' if men else ""
    why = f'<td class="why">{html.escape("; ".join(reasons))}</td>'
    return row(one, _id(one), evidence.encoding, marked, _cells(one) + why)


def _cells(one: JudgedGroup) -> str:
    """Returns the cells of a problem; of twins, what differs is one after the other."""
    cells = []
    for value in _COLUMNS.values():
        values = [value(judgement) for judgement in one.judgements]
        is_one = len(set(values)) == 1
        cells.append(values[0] if is_one else " / ".join(it or "–" for it in values))
    return "".join(f"<td>{html.escape(cell)}</td>" for cell in cells)


def _shown(number: Optional[int]) -> str:
    return "" if number is None else str(number)


def _sum(one: Optional[int], other: Optional[int]) -> Optional[int]:
    return None if one is None or other is None else one + other


def _article(one: JudgedGroup, evidence: Evidence) -> str:
    given = one.group.twins[0].given
    where = ""
    if given is not None and given.origin is not None:
        text = html.escape(printable(shown(given.origin, evidence.encoding)))
        where = f'<p class="origin">{text}</p>\n'
    found = with_headings(one, lambda it: _found(it, evidence))
    return article(one, _id(one), evidence.encoding, found, where)


def _found(judgement: Judgement, evidence: Evidence) -> Iterable[str]:
    for finding in judgement.findings:
        # (the solutions come once, in short notation)
        lines = () if finding.is_of_solutions else finding.lines
        yield finding_text(replace(finding, lines=lines), evidence.most)
    yield _folded("solutions", solutions_of(judgement, evidence))


def solutions_of(judgement: Judgement, evidence: Evidence) -> list[str]:
    """Returns set play, tries and keys in short notation, as a sheet of solutions has them."""
    item, number = judgement.item, judgement.number
    board = evidence.boards.get(number)
    if not isinstance(item, SoundItem) or board is None:
        return []
    left_out = 0
    if evidence.most is not None:
        item, left_out = shortened(item)
    solution = Solution(board.men, item.condition, _ENGLISH)
    blocks = solution.blocks(item, evidence.tries.get(number))
    return [*lines_of(blocks, _MARKS), *([f".. and {left_out} more (--all shows them)"] if left_out else [])]


def _folded(summary: str, lines: Sequence[str]) -> str:
    if not lines:
        return ""
    text = html.escape(printable("\n".join(lines)))
    is_open = " open" if len(lines) <= _LINES_SHOWN else ""
    return f"<details{is_open}><summary>{summary}</summary>\n<pre>{text}</pre></details>\n"
