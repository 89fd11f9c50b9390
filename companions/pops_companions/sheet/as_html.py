"""A sheet as a page of HTML, also for print."""

import html
from collections.abc import Iterable, Iterator
from dataclasses import dataclass
from typing import NamedTuple, Optional

from pops_companions.chess.men import Kind
from pops_companions.sheet.entries import Entry, Part, index_of
from pops_companions.sheet.languages import FIGURES, Language, marked_as
from pops_companions.show import diagram
from pops_companions.show.authors import joined
from pops_companions.show.page import STYLE, framed
from pops_companions.show.titles import printable
from pops_companions.stored import stored_text

_STYLE = stored_text("sheet/as_html.css")
# A line of many moves may be broken after each.
_BREAKS = {ord(sign): sign + "<wbr>" for sign in ",/"}


class Layout(NamedTuple):
    """How a page is laid out: figures or letters; with `per_row` diagrams a row, the solutions
    after them, else each solution beside its diagram."""

    heading: str
    figures: bool
    per_row: Optional[int]


def as_html(entries: Iterable[Entry], language: Language, layout: Layout) -> str:
    """Returns the page of a sheet, with the index of authors at its end."""
    marks = marked_as(language, _figures() if layout.figures else {})
    page = _Page(language, {**marks, **_BREAKS}, layout.per_row)
    return page.of(list(entries), html.escape(printable(layout.heading)))


def _figures() -> dict[Kind, str]:
    """Returns the figures of the men; a fairy man is another figure upside down."""
    shown = dict(FIGURES)
    for kind, upright in diagram.UPSIDE_DOWN.items():
        shown[kind] = f'<span class="turned">{FIGURES[upright]}</span>'
    return shown


@dataclass(frozen=True)
class _Page:
    """A page in a language; `marks` are the men of its lines."""

    language: Language
    marks: dict[int, str]
    per_row: Optional[int]

    def of(self, entries: list[Entry], title: str) -> str:
        shown = map(self._article, entries) if self.per_row is None else self._rows(entries)
        parts = [*shown, *self._index(entries)]
        return framed(title, [STYLE, _STYLE], parts, self.language.code)

    def _article(self, entry: Entry) -> str:
        head = "".join([*self._names(entry), *self._diagram(entry)])
        parts = "".join(line for part in entry.parts for line in self._part(part))
        return (
            f'<article id="problem-{entry.anchor}">\n<div>\n<header>\n{head}</header>\n</div>\n'
            f'<div class="solutions">\n{parts}</div>\n</article>\n'
        )

    def _rows(self, entries: list[Entry]) -> Iterator[str]:
        """Yields all diagrams, and the solutions after them."""
        yield f'<div class="row" style="--per-row: {self.per_row}">\n'
        for entry in entries:
            twins = "".join(f'<p class="twin">{self._marked(it)}</p>\n' for it in entry.twins)
            below = twins if entry.board else "".join(map(self._fault, entry.parts))
            yield f'<article id="problem-{entry.anchor}">\n<header>\n{"".join(self._names(entry))}'
            yield f'</header>\n<div>\n{"".join(self._diagram(entry))}{below}</div>\n</article>\n'
        yield f'</div>\n<div class="after">\n<h2>{self.language.solutions}</h2>\n'
        for entry in entries:
            parts = "".join(line for part in entry.parts for line in self._part(part))
            names = html.escape(joined(entry.authors))
            link = f'<a href="#problem-{entry.anchor}">{entry.number}</a>'
            yield f"<article>\n<h2>{link} {names}</h2>\n{parts}</article>\n"
        yield "</div>\n"

    def _marked(self, text: str) -> str:
        return html.escape(text).translate(self.marks)

    def _part(self, part: Part) -> Iterator[str]:
        if part.heading:
            yield f'<h3 class="label">{self._marked(part.heading)}</h3>\n'
        yield self._fault(part)
        for block in part.blocks:
            if len(part.blocks) > 1:
                yield f'<h3 class="block">{html.escape(block.heading)}</h3>\n'
            for line in block.lines:
                text = self._marked(line.text)
                yield f'<p class="line" style="--level: {line.level}">{text}</p>\n'
        if part.note:
            yield f'<p class="note">{html.escape(part.note)}</p>\n'

    def _fault(self, part: Part) -> str:
        return f'<p class="fault">{html.escape(part.fault)}</p>\n' if part.fault else ""

    def _index(self, entries: list[Entry]) -> Iterator[str]:
        index = index_of(entries)
        if index:
            yield f'<h2>{self.language.authors}</h2>\n<div class="index">\n'
            for name, own in index:
                links = (f'<a href="#problem-{it.anchor}">{it.number}</a>' for it in own)
                yield f"<p>{html.escape(name)}: {', '.join(links)}</p>\n"
            yield "</div>\n"

    def _names(self, entry: Entry) -> Iterator[str]:
        """Yields what is above a diagram."""
        names = html.escape(joined(entry.authors))
        number = f'<a href="#problem-{entry.anchor}">{entry.number}</a>'
        yield f"<h2>{number} {names}</h2>\n"
        for label, text in (("title", entry.title), ("origin", entry.origin)):
            if text:
                yield f'<p class="{label}">{html.escape(text)}</p>\n'

    def _diagram(self, entry: Entry) -> Iterator[str]:
        """Yields a diagram and what is below it."""
        if entry.board is not None:
            yield diagram.diagram(entry.board) + "\n"
            yield (
                f'<p class="below"><span class="stipulation">{html.escape(entry.asked)}</span>'
                f' <span class="count">{entry.count}</span></p>\n'
            )
            for name in diagram.fairy_men(entry.board, self.language.fairy_men):
                yield f'<p class="fairy">{html.escape(name)}</p>\n'
