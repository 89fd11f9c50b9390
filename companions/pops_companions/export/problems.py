"""The problems of a text in any of the forms that pops-import reads, and twins joined again."""

import re
from collections.abc import Iterable, Iterator, Mapping, Sequence
from dataclasses import dataclass, field, replace
from typing import NamedTuple, Optional

from pops_companions.import_.options import option_left_out
from pops_companions.import_.posing import COLOURS_TURNED, ZERO_POSITION, posed
from pops_companions.import_.sources import read_drafts
from pops_companions.input.given import LONGEST_TEXT
from pops_companions.input.writing import text_of_problems
from pops_companions.show.twins import Label, label_and_title

_FIRST_LABEL = "a)"
# What an import says of a change, and says again of the joined problem.
_SAID_OF_CHANGES = re.compile("the man on [a-h][1-8] is replaced|Rotate [0-9]+ is .*")
_DUPLEX = "Duplex"
# The titles of problems that are left out, by their numbers.
_Lost = Mapping[int, str]


@dataclass(frozen=True)
class Problem:
    """A problem as an input of pops has it; its number is that of the item in a report."""

    number: int
    title: str = ""
    author: str = ""
    origins: tuple[str, ...] = ()
    remarks: tuple[str, ...] = ()
    pieces: str = ""
    stipulation: str = ""
    condition: str = ""
    options: tuple[str, ...] = ()

    @staticmethod
    def of_lines(number: int, lines: Iterable[str]) -> "Problem":
        """Returns the problem of the lines that pops-import writes; an option that it left out is one again.
        """
        texts: dict[str, list[str]] = {}
        for line in lines:
            word, _, text = line.partition(" ")
            texts.setdefault(word.lower(), []).append(text)
        origins, remarks = texts.pop("origin", ()), texts.pop("remark", ())
        left_out = [option_left_out(text) for text in remarks]
        options = [*options_of(texts.pop("option", [""])[-1]), *(it for it in left_out if it)]
        remarks = [text for text, option in zip(remarks, left_out) if not option]
        last = {word: given[-1] for word, given in texts.items()}
        many = {"origins": tuple(origins), "remarks": tuple(remarks), "options": tuple(options)}
        return replace(Problem(number), **many, **last)

    @property
    def posed(self) -> tuple[str, str, str, tuple[str, ...]]:
        """What decides its solutions."""
        return self.pieces, self.stipulation, self.condition, self.options

    def lines(self) -> list[str]:
        """Returns the lines of the problem, without BeginProblem, NextProblem and EndProblem."""
        texts = [("Title", self.title), ("Author", self.author)]
        texts += [("Origin", text) for text in self.origins]
        texts += [("Remark", text) for text in self.remarks]
        texts += [("Pieces", self.pieces), ("Stipulation", self.stipulation)]
        texts += [("Condition", self.condition), ("Option", " ".join(self.options))]
        return [f"{word} {text}" for word, text in texts if text]


def options_of(text: str) -> Iterator[str]:
    """Yields the options of a line, each with its number or squares."""
    option = ""
    for word in text.split():
        if option and re.match("[0-9]|[a-h][1-8]", word):
            option += f" {word}"
            continue
        if option:
            yield option
        option = word
    if option:
        yield option


class Twin(NamedTuple):
    """A twin by its letter, the changes that make it, and its problem."""

    letter: str
    changes: str
    problem: Problem

    @property
    def is_first(self) -> bool:
        """Whether all twins are made of a position that is no problem."""
        return f"{self.letter})" == _FIRST_LABEL

    @property
    def line(self) -> str:
        """Its line in an input of Popeye."""
        return f"{'ZeroPosition' if self.is_first else 'Twin'} {self.changes}"


@dataclass(frozen=True)
class Exported:
    """A problem with its twins; the title has no label then. If a) is among them, the problem itself is
    none: only its twins are.

    With the option Duplex, `turned` are the problem and its twins with colours turned.
    """

    problem: Problem
    twins: tuple[Twin, ...] = ()
    turned: tuple[Problem, ...] = ()

    @property
    def parts(self) -> "list[Part]":
        """All its problems, in the order of a report."""
        plain: list[Part] = []
        if not self.twins or not self.twins[0].is_first:
            plain.append(Part(_FIRST_LABEL if self.twins else "", self.problem, False))
        plain += [Part(f"{it.letter}) {it.changes}", it.problem, False) for it in self.twins]
        if not self.turned:
            return plain
        both: list[Part] = []
        for part, turned in zip(plain, self.turned):
            letter = part.heading.partition(" ")[0]
            both += [part, Part(f"{letter} {_DUPLEX.lower()}".strip(), turned, True)]
        return both

    def lines(self) -> list[str]:
        """Returns its lines in an input of Popeye."""
        return [*self.problem.lines(), *(twin.line for twin in self.twins)]


class Part(NamedTuple):
    """A problem with the heading of its solutions; `is_turned` says that its colours are turned."""

    heading: str
    problem: Problem
    is_turned: bool


class LeftOut(NamedTuple):
    """A problem that pops can't read: its line, its number with the label of a twin, why, and its
    place among all problems with its title.
    """

    line: int
    name: str
    reasons: Sequence[str]
    number: int
    title: str

    @property
    def text(self) -> str:
        return f"line {self.line}, problem {self.name}: left out: {'; '.join(self.reasons)}"


@dataclass
class Reading:
    """The problems of a text, and those that had to be left out."""

    problems: list[Problem] = field(default_factory=list)
    left_out: list[LeftOut] = field(default_factory=list)


def read_problems(text: str) -> Reading:
    """Returns the problems that pops can read. `Unreadable` of pops_import where the text has none.
    """
    reading = Reading()
    for draft in read_drafts(text):
        titles = "; ".join(text for word, text in draft.texts if word == "Title" and text)
        # (no twin that pops reads has a longer one)
        titles = titles[:LONGEST_TEXT]
        for one in posed(draft):
            number = len(reading.problems) + len(reading.left_out) + 1
            if one.faults:
                name = f"{draft.number} {one.label}".rstrip()
                reasons = [fault.text for fault in one.faults]
                title = " ".join(filter(None, (titles, one.label)))
                reading.left_out.append(LeftOut(one.faults[0].line, name, reasons, number, title))
            else:
                reading.problems.append(Problem.of_lines(number, one.lines))
    return reading


def joined(
    problems: Iterable[Problem], with_gaps: bool = True, left_out: Sequence[LeftOut] = ()
) -> Iterator[Exported]:
    """Yields the problems with the twins that pops-import made of one, as one again; twins that are
    left out may be among them.

    They stay apart where an import of the joined problem wouldn't give them back, and, without
    `with_gaps`, after a twin that was left out: Popeye gives its twins no letters.
    """
    yield from _joined(problems, with_gaps, {it.number: it.title for it in left_out})


def _joined(problems: Iterable[Problem], with_gaps: bool, lost: _Lost) -> Iterator[Exported]:
    run: list[Problem] = []
    for problem in problems:
        if run and not _continues(run, problem, with_gaps, lost):
            yield from _joined_run(run, with_gaps, lost)
            run = []
        run.append(problem)
    yield from _joined_run(run, with_gaps, lost)


def _are_lost_twins(title: Optional[str], numbers: Iterable[int], lost: _Lost) -> bool:
    """Returns whether the problems of these numbers are left out, and twins of one with this title."""
    titles = [label_and_title(lost.get(number, "")) for number in numbers]
    return all(label.text != "" and (own or "") == (title or "") for own, label in titles)


def _continues(run: list[Problem], problem: Problem, with_gaps: bool, lost: _Lost) -> bool:
    first_title, first = label_and_title(run[0].title)
    _, last = label_and_title(run[-1].title)
    title, label = label_and_title(problem.title)
    return (
        (label.text in _next_labels(first, last) or with_gaps and _is_later(first, last, label))
        and (title or "", problem.author, problem.origins)
        == (first_title or "", run[0].author, run[0].origins)
        and _are_lost_twins(first_title, range(run[-1].number + 1, problem.number), lost)
    )


def _next_labels(first: Label, last: Label) -> list[str]:
    """Returns the labels that a problem may have after one of a run."""
    labels: list[str] = []
    if first.text == _FIRST_LABEL:
        labels.append(f"{chr(ord('a') + last.number)})")
    if first.text in ("", _FIRST_LABEL) and not last.is_duplex:
        labels.append(f"{last.text} {_DUPLEX.lower()}".strip())
    return labels


def _is_later(first: Label, last: Label, label: Label) -> bool:
    """Returns whether a label is that of a later twin, also after one that was left out."""
    is_duplex = last.is_duplex or label.is_duplex
    return first.text == _FIRST_LABEL and not is_duplex and label.number > last.number


def _joined_run(run: list[Problem], with_gaps: bool, lost: _Lost) -> Iterator[Exported]:
    whole = _whole(run)
    if whole is not None and _gives_back(whole, run):
        yield whole
    elif len(run) == 1:
        yield Exported(_without_lost_twins(run[0], lost))
    elif with_gaps:
        yield from _joined(run, False, lost)
    else:
        yield from map(Exported, run)


def _without_lost_twins(problem: Problem, lost: _Lost) -> Problem:
    """Returns the first of twins that are all left out, with the title that all of them have."""
    title, label = label_and_title(problem.title)
    is_alone = label.text == _FIRST_LABEL and _are_lost_twins(title, [problem.number + 1], lost)
    return replace(problem, title=title or "") if is_alone else problem


def _whole(run: list[Problem]) -> Optional[Exported]:
    """Twins and duplex as one problem; None where their Remarks don't say what changes."""
    remarks = run[0].remarks if run else ()
    zero = [it[len(ZERO_POSITION) :] for it in remarks if it.startswith(ZERO_POSITION)]
    if len(run) < 2 and not zero:
        return None
    twins: list[Twin] = []
    turned: list[Problem] = []
    for problem in run[0 if zero else 1 :]:
        _, label = label_and_title(problem.title)
        letter = label.text.partition(" ")[0]
        said = [text for text in problem.remarks if text.startswith(f"{letter} ")]
        others = {
            text
            for text in problem.remarks
            if text not in said and text != COLOURS_TURNED and not _SAID_OF_CHANGES.fullmatch(text)
        }
        if not others <= set(run[0].remarks):
            return None
        if label.is_duplex:
            turned.append(problem)
        elif said:
            twins.append(Twin(letter[:-1], said[0][len(letter) + 1 :].replace(",", ""), problem))
        else:
            return None
    title, _ = label_and_title(run[0].title)
    options = (*run[0].options, *[_DUPLEX] * bool(turned))
    first = replace(run[0], title=title or "", options=options)
    if zero:
        first = _at_zero(first, twins, zero[0])
    return Exported(first, tuple(twins), tuple(turned))


def _at_zero(first: Problem, twins: Sequence[Twin], pieces: str) -> Problem:
    """Returns the position that all twins are made of, of the first one: with stipulation and condition
    of a twin that changes neither, without what its Remarks say of its changes."""

    def unchanged(word: str) -> Problem:
        return next((it.problem for it in twins if word not in it.changes), first)

    remarks = [
        text
        for text in first.remarks
        if not any(text.startswith(it) for it in (f"{_FIRST_LABEL} ", ZERO_POSITION))
        and not _SAID_OF_CHANGES.fullmatch(text)
    ]
    return replace(
        first,
        remarks=tuple(remarks),
        pieces=pieces,
        stipulation=unchanged("Stipulation").stipulation,
        condition=unchanged("Condition").condition,
    )


def _gives_back(whole: Exported, run: list[Problem]) -> bool:
    """Returns whether an import of the whole makes the same problems."""
    lines = list(whole.problem.lines())
    number = 1
    for twin in whole.twins:
        _, label = label_and_title(f"{twin.letter})")
        # (a twin without a change has a letter, and is left out)
        lines += ["Twin"] * (label.number - number - 1) + [twin.line]
        number = label.number
    reading = read_problems(text_of_problems([lines]))
    return [it.posed for it in reading.problems] == [it.posed for it in run]
