"""A page of HTML with the judgements: a table of all problems, and what was found of each."""

import html
from collections.abc import Callable, Iterable, Iterator
from typing import Optional

from pops_companions.report.items import SoundItem
from pops_companions.review.judged_groups import JudgedGroup
from pops_companions.review.judgement_text import Tally, lines_of, name_of
from pops_companions.review.judging import Finding, Judgement
from pops_companions.show import diagram
from pops_companions.show.page import framed
from pops_companions.show.titles import printable
from pops_companions.stored import stored_text

STYLE = stored_text("review/judgement_page.css")


def page(
    judged: Iterable[JudgedGroup], tally: Tally, heading: str, encoding: str, most: Optional[int]
) -> str:
    """Returns the page; the tally has counted the judgements once they are all taken."""
    rows: list[str] = []
    articles: list[str] = []
    for place, one in enumerate(judged, start=1):
        target = f"found-{place}" if any(it.findings for it in one.judgements) else ""
        rows.append(row(one, target, encoding))
        if target:
            evidence = with_headings(one, lambda it: (finding_text(of, most) for of in it.findings))
            articles.append(article(one, target, encoding, evidence))
    head = "<tr><th>No.</th><th>Problem</th><th>Verdict</th></tr>\n"
    parts = [f"<p>{tally.text}</p>\n<table>\n{head}", *rows, "</table>\n", *articles]
    return framed(html.escape(heading), [STYLE], parts)


def row(one: JudgedGroup, target: str, encoding: str, marked: str = "", more: str = "") -> str:
    """Returns the table's row of a problem, which links to its article, if it has one."""
    number = one.group.numbers.partition(" ")[2]
    if target:
        number = f'<a href="#{target}">{number}</a>'
    name = html.escape(name_of(one, encoding))
    verdict = one.verdict.value
    return (
        f'<tr><td>{number}</td><td class="name">{name}{marked}</td>'
        f'<td class="{verdict}">{verdict}</td>{more}</tr>\n'
    )


def article(
    one: JudgedGroup, target: str, encoding: str, evidence: Iterable[str], where: str = ""
) -> str:
    """Returns what is shown of a problem: diagram, name, verdict and evidence."""
    item = one.group.first
    verdict = one.verdict.value
    name = html.escape(name_of(one, encoding))
    drawn = ""
    if isinstance(item, SoundItem) and item.board is not None:
        drawn = f"{diagram.diagram(item.board)}\n"
    position = f"{drawn}<p>{name}</p>\n" if name else drawn
    return (
        f'<article id="{target}">\n<div>\n<h2>{one.group.numbers}</h2>\n{position}{where}'
        f'</div>\n<div>\n<p class="verdict {verdict}">{verdict}</p>\n{"".join(evidence)}</div>\n'
        "</article>\n"
    )


def with_headings(
    one: JudgedGroup, shown: Callable[[Judgement], Iterable[str]]
) -> Iterator[str]:
    """Yields what is shown of a problem, or of each of its twins below its heading."""
    for heading, judgement in one.headings:
        if heading:
            verdict = judgement.verdict.value
            text = html.escape(printable(heading))
            yield f'<h3>{text}: <span class="{verdict}">{verdict}</span></h3>\n'
        yield from shown(judgement)


def finding_text(finding: Finding, most: Optional[int]) -> str:
    """Returns a finding with the moves that show it."""
    moves = "\n".join(lines_of(finding, most))
    below = f"<pre>{html.escape(moves)}</pre>\n" if moves else ""
    text = html.escape(finding.text)
    return f'<p class="finding {finding.weight.value}">{text}</p>\n{below}'
