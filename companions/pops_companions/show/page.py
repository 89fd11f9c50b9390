"""A page of HTML that shows a report: a diagram for each problem, its solutions beside it."""

import html
import re
from collections.abc import Iterable, Iterator, Sequence
from dataclasses import dataclass

from pops_companions.input.given import GivenProblem
from pops_companions.report.items import (
    AnyItem,
    Fault,
    FaultyItem,
    Phase,
    PhaseKind,
    SoundItem,
    named_items,
)
from pops_companions.show import diagram
from pops_companions.show.titles import printable, shown
from pops_companions.show.twins import Group, Twin, groups
from pops_companions.stored import stored_text

STYLE = stored_text("show/page.css")

# More lines than this are set in columns, as far as the page is wide enough.
_LINES_OF_A_COLUMN = 20

# A word that a browser would break at its hyphen: a move, with its number where it has one.
_MOVE = re.compile(r"(^|[\s-])([^\s-]+-\S+)")


def _safe(text: str) -> str:
    return html.escape(printable(text))


def framed(
    title: str, styles: Iterable[str], parts: Iterable[str], language: str = "en"
) -> str:
    """Returns a page of HTML with the shapes of the men: its title is also its heading."""
    style = "".join(f"\n{it}" for it in styles)
    head = (
        f'<!DOCTYPE html>\n<html lang="{language}">\n<head>\n<meta charset="utf-8">\n'
        '<meta name="viewport" content="width=device-width">\n'
        f"<title>{title}</title>\n<style>{style}</style>\n</head>\n<body>\n"
    )
    return "".join([head, diagram.shapes(), f"<h1>{title}</h1>\n", *parts, "</body>\n</html>\n"])


class Words:
    """The texts of a page, here as in a report; the page that solves has them in its language."""

    code = "en"
    sound = "sound <small>(no fault in the text; not solved)</small>"
    no_board = "The report shows no board."
    fairy_men = diagram.FAIRY_NAMES

    def numbers(self, first: int, last: int) -> str:
        return f"problem {first}" if first == last else f"problems {first} to {last}"

    def asked(self, text: str) -> str:
        """Returns a stipulation with its condition."""
        return text

    def dated(self, source: str) -> str:
        """Returns an origin with its date."""
        return source

    def fault(self, fault: Fault) -> str:
        return f"line {fault.line}: fault {fault.number}: {fault.text}"

    def phase(self, kind: PhaseKind) -> str:
        return kind.value

    def total(self, phase: Phase) -> str:
        return phase.last_line

    def found(self, keys: int) -> str:
        """Returns what none or several keys mean to a composer."""
        return f"{keys} keys" if keys else "no solution"


@dataclass(frozen=True)
class Page:
    """How a report is shown. `given` are the problems of its input by number, if there is one.

    `apart` shows each twin as a problem of its own.
    """

    heading: str
    encoding: str
    given: Sequence[GivenProblem]
    apart: bool
    words: Words

    def of(self, items: Iterable[AnyItem]) -> str:
        """Returns the page of a report's items."""
        return framed(_safe(self.heading), [STYLE], self._articles(items), self.words.code)

    def _articles(self, items: Iterable[AnyItem]) -> Iterator[str]:
        names: list[str] = []

        def named() -> Iterator[AnyItem]:
            for name, item in named_items(items):
                names.append(name)
                yield item

        place = 0
        for group in groups(named(), self.given, self.encoding, self.apart):
            yield self._article(names[place], group)
            place += len(group.twins)

    def _article(self, name: str, group: Group) -> str:
        """Returns a problem with its twins: diagram and names, next to them the solutions."""
        is_faulty = isinstance(group.first, FaultyItem) and group.is_alone
        kind = "faulty" if is_faulty else "sound"
        numbers = self.words.numbers(group.first.number, group.twins[-1].item.number)
        heading = f'<h2><a href="#problem-{name}">{numbers}</a></h2>\n'
        parts = [f'<article class="{kind}" id="problem-{name}">\n']
        if is_faulty:
            parts.extend([heading, self._names(group), self._solutions(group.first)])
        else:
            parts.append(f"<div>\n<header>\n{heading}{self._names(group)}")
            parts.append(self._position(group.first) if isinstance(group.first, SoundItem) else "")
            parts.append('</header>\n</div>\n<div class="solutions">\n')
            parts.extend(self._twin(group, twin) for twin in group.twins)
            parts.append("</div>\n")
        return "".join([*parts, "</article>\n"])

    def _names(self, group: Group) -> str:
        given = group.twins[0].given
        origin = None if given is None else given.origin
        texts = (
            ("title", group.title),
            ("author", None if group.author is None else shown(group.author, self.encoding)),
            ("origin", None if origin is None else self.words.dated(shown(origin, self.encoding))),
        )
        return "".join(
            f'<p class="{label}">{_safe(text)}</p>\n' for label, text in texts if text is not None
        )

    def _twin(self, group: Group, twin: Twin) -> str:
        """Returns the solutions of a problem, under its label for a twin."""
        if group.is_alone:
            return self._solutions(twin.item)
        item = twin.item
        own = asked = ""
        if twin.has_own_diagram and isinstance(item, SoundItem) and item.board is not None:
            own = f"{diagram.diagram(item.board)}\n"
            asked = f" <span>{self.words.asked(item.asked)}</span>"
        return (
            f'<section class="twin">\n<h3 class="label">{_safe(twin.heading)}{asked}</h3>\n{own}'
            f"{self._solutions(item)}</section>\n"
        )

    def _in_words(self, phase: Phase) -> str:
        """Returns what the total of the play means to a composer: no solution, or several keys."""
        if phase.kind is not PhaseKind.PLAY or phase.total is None or phase.total.stopped:
            return ""
        count = phase.total.count
        if count == 0 or phase.nodes and count > 1:
            return f" <span>({self.words.found(count)})</span>"
        return ""

    def _solutions(self, item: AnyItem) -> str:
        if isinstance(item, FaultyItem):
            return f'<p class="fault">{_safe(self.words.fault(item.fault))}</p>\n'
        shown_phases = ""
        if isinstance(item, SoundItem):
            if item.phases is None:
                return f"<p>{self.words.sound}</p>\n"
            shown_phases = "".join(self._phase(phase) for phase in item.phases)
        if item.unfinished is None:
            return shown_phases
        return f'{shown_phases}<p class="unfinished">unfinished: {_safe(item.unfinished)}</p>\n'

    def _position(self, item: SoundItem) -> str:
        stipulation = f'<span class="stipulation">{self.words.asked(item.asked)}</span>'
        if item.board is None:
            return (
                f'<p class="below">{stipulation}</p>\n'
                f'<p class="without">{self.words.no_board}</p>\n'
            )
        fairy = diagram.fairy_men(item.board, self.words.fairy_men)
        return (
            f"{diagram.diagram(item.board)}\n"
            f'<p class="below">{stipulation}'
            f' <span class="count">{diagram.count(item.board)}</span></p>\n'
            + "".join(f'<p class="fairy">{name}</p>\n' for name in fairy)
        )

    def _phase(self, phase: Phase) -> str:
        lines = _MOVE.sub(r"\g<1><span>\g<2></span>", _safe("\n".join(phase.lines)))
        many = ' class="many"' if len(phase.lines) > _LINES_OF_A_COLUMN else ""
        solutions = f"<pre{many}>{lines}</pre>\n" if phase.lines else ""
        total = ""
        if phase.total is not None or not phase.is_possible:
            said = _safe(self.words.total(phase)) + self._in_words(phase)
            total = f'<p class="total">{said}</p>\n'
        heading = f"<h3>{self.words.phase(phase.kind)}</h3>"
        return f'<section class="phase">\n{heading}\n{solutions}{total}</section>\n'
