"""Letters of the men and words of a solution, in the languages of a sheet."""

import re
from collections.abc import Mapping
from typing import NamedTuple

from pops_companions.chess.men import FAIRY_KINDS, Colour, Kind
from pops_companions.explain.fault_texts import fault_texts
from pops_companions.import_.origins import MONTHS
from pops_companions.input.reading import FaultKind
from pops_companions.report.items import Fault
from pops_companions.stored import stored

# The men of a line before it is put into letters or figures: characters of private use.
MARKS: Mapping[Kind, str] = {kind: chr(0xE000 + place) for place, kind in enumerate(Kind)}
COLOUR_MARKS: Mapping[Colour, str] = {Colour.WHITE: "\ue010", Colour.BLACK: "\ue011"}
# What pops-import makes of a date: `6 August 1977`.
_DATE = re.compile(rf"(?:([0-9]{{1,2}}) )?\b({'|'.join(MONTHS)}) ([0-9]{{4}})$")
# White's figures stand for the men of both sides; fairy men have none.
FIGURES: Mapping[Kind, str] = dict(zip(Kind, "♔♕♖♗♘♙"))


class Language(NamedTuple):
    """A language: its code, letters in the order of Kind, letters of the colours, and words.

    `sides` are White and Black in a list of men, `no_men` says that a side has none. `day` is how a
    day is written before its month. `{}` in a text is for what it speaks of. `conditions` are their
    names by the words of pops. `continued` comes before the changes of a twin that are made to the
    twin before it.
    """

    code: str
    faults: Mapping[FaultKind, str]
    letters: str
    colours: str
    sides: tuple[str, str]
    no_men: str
    threat: str
    zugzwang: str
    but: str
    stalemate: str
    set_play: str
    tries: str
    solution: str
    impossible: str
    no_solution: str
    stopped: str
    authors: str
    fairy_names: tuple[str, ...]
    day: str
    months: str
    line: str
    unfinished: str
    not_in_report: str
    left_out: str
    solutions: str
    reversed: str
    rotated: str
    mirrored: str
    shifted: str
    exchanged: str
    continued: str
    conditions: Mapping[str, str]

    @property
    def fairy_men(self) -> Mapping[Kind, str]:
        """The names of the fairy men."""
        return dict(zip(FAIRY_KINDS, self.fairy_names))

    def dated(self, source: str) -> str:
        """Returns a source with its date, as pops-import writes it, in this language."""
        date = _DATE.search(source)
        if date is None:
            return source
        day = "" if date[1] is None else self.day.format(day=date[1])
        month = self.months.split()[MONTHS.index(date[2])]
        return f"{source[: date.start()]}{day}{month} {date[3]}"

    def fault(self, fault: Fault) -> str:
        """Returns the text of a fault; what the report says of one that pops doesn't have."""
        kind = next((it for it in FaultKind if it.value == fault.number), None)
        return fault.text if kind is None else self.faults[kind]

    def asked(self, text: str) -> str:
        """Returns a stipulation, with its condition in this language."""
        stipulation, blank, condition = text.partition(" ")
        return stipulation + blank + self.conditions.get(condition, condition)


LANGUAGES: Mapping[str, Language] = {
    code: Language(code=code, faults=fault_texts(code), **words)
    for code, words in stored("sheet/languages.json").items()
}


def marked_as(language: Language, men: Mapping[Kind, str]) -> dict[int, str]:
    """Returns what stands for each mark, for `str.translate`: these men, or the language's letters.
    """
    shown = {MARKS[kind]: men.get(kind, letter) for kind, letter in zip(Kind, language.letters)}
    shown.update(zip(COLOUR_MARKS.values(), language.colours))
    return {ord(mark): text for mark, text in shown.items()}
