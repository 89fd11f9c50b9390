"""What was found, as text and as a page of diagrams."""

import html
from collections.abc import Iterable, Sequence
from functools import lru_cache
from typing import NamedTuple, Optional

from pops_companions.find.boards import men_of
from pops_companions.find.collection import Found
from pops_companions.find.entries import Entry
from pops_companions.input.writing import pieces_line
from pops_companions.report.items import Board
from pops_companions.review.naming import counted
from pops_companions.show import diagram
from pops_companions.show.page import framed
from pops_companions.show.titles import printable
from pops_companions.stored import stored_text

_STYLE = stored_text("find/showing.css")
# Like questions find the same positions: how many are kept in words.
_MOST_KEPT = 1024


class Answer(NamedTuple):
    """What was asked for, in words or as a problem, and what was found: the first of `total`."""

    heading: str
    asked: Optional[Entry]
    found: Sequence[Found]
    total: int

    @property
    def counted(self) -> str:
        """How many problems were found, and how many of these are shown."""
        if not self.total:
            return "nothing found"
        text = f"{counted(self.total, 'problem')} found"
        return text if self.total == len(self.found) else f"{text}, the first {len(self.found)} shown"


def as_text(answer: Answer) -> str:
    """Returns a block of lines: what was asked for, below it each problem found."""
    lines = [f"{printable(answer.heading)}: {answer.counted}"]
    for found in answer.found:
        entry = found.entry
        lines.append(f"  {printable(entry.source)}, problem {entry.number}: {printable(entry.name)}")
        if answer.asked is not None:
            lines.append(f"    {found.text}")
        lines.append(f"    {_men_in_words(entry.board)}")
    return "\n".join(lines) + "\n"


@lru_cache(maxsize=_MOST_KEPT)
def _men_in_words(board: str) -> str:
    return pieces_line(men_of(board))[len("Pieces ") :]


def as_page(answers: Iterable[Answer], heading: str) -> str:
    """Returns a page with the diagrams of all that was found."""
    parts = []
    for answer in answers:
        parts.append(f"<h2>{_safe(answer.heading)}: {answer.counted}</h2>\n")
        parts.append('<div class="found">\n')
        if answer.asked is not None:
            parts.append(_figure(answer.asked, "asked", []))
        for found in answer.found:
            how = [("how", found.text)] if answer.asked is not None else []
            where = f"{found.entry.source}, problem {found.entry.number}"
            parts.append(_figure(found.entry, "hit", [*how, ("where", where)]))
        parts.append("</div>\n")
    return framed(_safe(heading), [_STYLE], parts)


def _figure(entry: Entry, kind: str, texts: list["tuple[str, str]"]) -> str:
    board = Board.of_letters(entry.board)
    below = "".join(f'<br/><span class="{name}">{_safe(text)}</span>' for name, text in texts)
    return (
        f'<figure class="{kind}">{diagram.diagram(board)}\n'
        f"<figcaption>{_safe(entry.name)}{below}</figcaption></figure>\n"
    )


def _safe(text: str) -> str:
    return html.escape(printable(text))
