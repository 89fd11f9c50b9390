"""Problems as other programs have them, before pops's limits are applied."""

import re
from collections.abc import Callable
from dataclasses import dataclass, field
from typing import NamedTuple, Optional, Union

from pops_companions.chess.men import Man, Square
from pops_companions.import_.words import Message, TextLine, Words

# A man, or the name of one that pops doesn't know.
Placed = Union[Man, str]
_SQUARE = re.compile("[A-Ha-h][1-8]")


@dataclass
class Setting:
    """What a twin may change. The stipulation and the conditions are words, as given."""

    men: dict[Square, Placed] = field(default_factory=dict)
    stipulation: Optional[str] = None
    conditions: tuple[str, ...] = ()


class Impossible(ValueError):
    """A change that a setting doesn't allow, with why."""


class Change(NamedTuple):
    """A step towards a twin: its words, and what it makes of a setting.

    It adds what there is to say to a list, and raises Impossible where it can't be made.
    """

    text: str
    line: int
    made: Callable[[Setting, list[str]], Setting]


@dataclass
class Twin:
    """A twin: the changes that make it of the first setting, or of the twin before it."""

    label: str
    line: int
    continued: bool = False
    changes: list[Change] = field(default_factory=list)
    faults: list[Message] = field(default_factory=list)


@dataclass
class Options:
    """What the options of a problem ask for; `words` are those that stand without a value.

    `refutations` is how many a try may have that is to be shown; 0 shows no tries.
    """

    words: list[str] = field(default_factory=list)
    max_solutions: Optional[int] = None
    crossed: Optional[Square] = None
    may_not_castle: list[Square] = field(default_factory=list)
    plain: bool = True
    turned: bool = False
    white_to_play: bool = False
    refutations: int = 0


@dataclass
class Draft:
    """A problem with all its twins. Notes say what is left out of it, faults why it can't be posed.

    Without `first` the setting is there for the twins alone. `wanted` is the number of solutions
    that the problem should have, `key` by which the source's database knows it.
    """

    number: int
    line: int
    texts: list[TextLine] = field(default_factory=list)
    setting: Setting = field(default_factory=Setting)
    first: bool = True
    wanted: Optional[int] = None
    key: str = ""
    options: Options = field(default_factory=Options)
    twins: list[Twin] = field(default_factory=list)
    notes: list[Message] = field(default_factory=list)
    faults: list[Message] = field(default_factory=list)

    def want(self, number: int, text: str) -> None:
        """Takes a number of solutions; a text that says more than it becomes a Remark."""
        self.wanted = number
        if not text.isdecimal():
            self.texts.append(TextLine("Remark", f"intended-solutions: {text}"))

    def tell_of_skipped(self, words: Words) -> None:
        """Notes what was skipped among words. With a square in it, it may have been meant."""
        for line, text in words.skipped:
            if _SQUARE.search(text):
                self.faults.append(Message(line, f"Popeye skips {text}, with a square in it"))
            else:
                self.notes.append(Message(line, f"skipped, as by Popeye: {text}"))
        words.skipped = []
