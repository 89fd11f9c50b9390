"""Reads a problem as pops does, up to its fault.

The report of pops decides what the fault is; this reading finds the faulty word.
"""

import re
from collections.abc import Iterator, Mapping
from dataclasses import dataclass, field, replace
from enum import Enum, IntEnum
from typing import Optional

from pops_companions.chess.attacks import attackers
from pops_companions.chess.men import Colour, Kind, Man, Square
from pops_companions.chess.stipulation import Condition, Stipulation
from pops_companions.input.pieces import Piece
from pops_companions.input.words import (
    BLANKS,
    LONGEST_WORD,
    Span,
    TextLine,
    Token,
    Word,
    forms_of,
    tokens_in,
)

COLOURS = tuple(colour.name.title() for colour in Colour)
CONDITIONS = tuple(condition.value for condition in Condition)
CLOSING = ("NextProblem", "EndProblem")
MOST_SOLUTIONS = 4_000_000_000
CASTLING_SQUARES = ("a1", "e1", "h1", "a8", "e8", "h8")

_SQUARES = re.compile(rb"(?:[a-h][1-8])+", re.IGNORECASE)
_BLANK = re.compile(rb"[" + BLANKS + rb"]")
# How many words after a fault its explanation looks at.
_WORDS_AFTER = 1000


class Awaited(Enum):
    """What the next word has to be after an option, or may be after squares of NoCastling."""

    NUMBER = "number"
    SQUARE = "square"
    SQUARES = "squares"
    MORE_SQUARES = "more squares"


_AWAITED = {
    "MaxSolutions": Awaited.NUMBER,
    "EnPassant": Awaited.SQUARE,
    "NoCastling": Awaited.SQUARES,
}
# The commands that open the sections of a problem.
SECTIONS = ("Pieces", "Stipulation", "Condition", "Option")
COMMANDS = ("BeginProblem", *SECTIONS, *CLOSING)
OPTIONS = ("SetPlay", "Variation", "NoBoard", *_AWAITED)
# What a word of each kind means. (A look at each name would take most of the time of reading.)
_COMMAND_FORMS = forms_of(COMMANDS)
_CLOSING_FORMS = forms_of(CLOSING)
_COLOUR_FORMS = forms_of(COLOURS, 1)
_CONDITION_FORMS = forms_of(CONDITIONS)
_OPTION_FORMS = forms_of(OPTIONS)


class FaultKind(IntEnum):
    """What a fault is about; its value is the number in a report."""

    BEGIN_PROBLEM_MISSING = 1
    WORD_MISPLACED = 2
    WORD_TOO_LONG = 3
    COLOUR_MISSING = 4
    SQUARE_TAKEN = 5
    PAWN_ON_OUTER_RANK = 6
    SECOND_KING = 7
    BAD_STIPULATION = 8
    SECOND_STIPULATION = 9
    STIPULATION_MISSING = 10
    NO_MEN = 11
    SECOND_CONDITION = 12
    BAD_LIMIT = 13
    SQUARE_MISSING = 14
    EN_PASSANT_IMPOSSIBLE = 15
    NONE_CASTLES_THERE = 16
    KING_MISSING = 17
    WAITING_SIDE_IN_CHECK = 18
    END_PROBLEM_MISSING = 19
    INPUT_TOO_LONG = 20
    DEVICE_FAILED = 21


def squares_of(word: bytes) -> list[Square]:
    """Returns the squares of a word that is nothing but squares, else none."""
    return Square.of_names(word.decode("ascii").lower()) if _SQUARES.fullmatch(word) else []


def kind_of(word: bytes) -> Optional[Kind]:
    """Returns the kind of man whose letter begins a word."""
    try:
        return Kind(word[:1].decode("ascii").upper())
    except ValueError:
        return None


def is_number(word: bytes) -> bool:
    """Returns whether the word is nothing but digits."""
    return re.fullmatch(rb"[0-9]+", word) is not None


def is_man(word: bytes) -> bool:
    """Returns whether the word is a man's letter with squares."""
    return kind_of(word) is not None and bool(squares_of(word[1:]))


def stipulation_of(word: bytes) -> Optional[Stipulation]:
    """Returns the stipulation of a word, where its number is one that pops takes."""
    try:
        stipulation = Stipulation.of_text(word.decode("ascii").lower())
    except ValueError:
        return None
    return stipulation if stipulation.is_in_range else None


@dataclass(frozen=True)
class Placed:
    """A man with the word that put it on its square."""

    man: Man
    word: Word
    span_start: int

    @property
    def span(self) -> Span:
        """Where its square stands."""
        return self.word.part(self.span_start, self.span_start + 2)


@dataclass
class Reading:
    """A problem as far as it was read: up to its fault, if it has one.

    It begins at `start` of the text, on this line, from 1. `at` is the place of the faulty word
    among the tokens, where it is the last one; the end of the text has none. `awaited_before` and
    `option_before` are `awaited` and `option` before the last word.
    """

    text: bytes
    start: int
    line: int
    first: bool
    tokens: list[Token] = field(default_factory=list)
    number: Optional[FaultKind] = None
    at: Optional[int] = None
    section: Optional[str] = None
    opener: Optional[Word] = None
    awaited: Optional[Awaited] = None
    option: Optional[Word] = None
    colour: Optional[Colour] = None
    colours: list[tuple[Colour, Word]] = field(default_factory=list)
    men: dict[Square, Placed] = field(default_factory=dict)
    square: Optional[Square] = None
    square_place: int = 0
    stipulation: Optional[Stipulation] = None
    stipulation_word: Optional[Word] = None
    condition: Optional[Condition] = None
    condition_word: Optional[Word] = None
    limit: Optional[int] = None
    crossed: Optional[Square] = None
    crossed_word: Optional[Word] = None
    openers: list[Word] = field(default_factory=list)
    awaited_before: Optional[Awaited] = None
    option_before: Optional[Word] = None

    @property
    def word(self) -> Word:
        """The faulty word."""
        assert self.at is not None
        token = self.tokens[self.at]
        assert isinstance(token, Word)
        return token

    @property
    def fault_span(self) -> Span:
        """Where the faulty word stands; the end of the text where that is missing."""
        end = len(self.text)
        return Span(end, end) if self.at is None else self.word.span

    @property
    def position(self) -> dict[Square, Man]:
        """The men on their squares."""
        return {square: placed.man for square, placed in self.men.items()}

    @property
    def words(self) -> list[Word]:
        """The words up to the faulty one."""
        return [token for token in self.tokens if isinstance(token, Word)]

    @property
    def text_lines(self) -> list[TextLine]:
        """The text lines before the faulty word."""
        return [token for token in self.tokens if isinstance(token, TextLine)]

    @property
    def is_begun(self) -> bool:
        """Whether its BeginProblem was read, or what stands there."""
        return not self.first or any(isinstance(token, Word) for token in self.tokens)

    @property
    def place(self) -> int:
        """Where in the text its tokens end."""
        return self.tokens[-1].span.stop if self.tokens else self.start

    def later(self) -> Iterator[Token]:
        """Yields the words and text lines after its last one, with the word that closes the problem."""
        for token in () if self.is_closed else self._following():
            yield token
            if _is_closing(token):
                return

    @property
    def is_closed(self) -> bool:
        """Whether its last word closes it."""
        return len(self.tokens) > 0 and _is_closing(self.tokens[-1])

    def _following(self) -> Iterator[Token]:
        line = _line_of(self.tokens[-1]) if self.tokens else self.line
        return tokens_in(self.text, self.place, len(self.text), line)

    def words_after(self) -> Iterator[Word]:
        """Yields the words after the faulty one, in a long problem not all."""
        left = _WORDS_AFTER
        for token in self.later():
            if isinstance(token, Word):
                yield token
                left -= 1
            if left == 0:
                return

    @property
    def word_before(self) -> Optional[Word]:
        """The word before the faulty one, over text lines."""
        return next((it for it in reversed(self.tokens[:-1]) if isinstance(it, Word)), None)

    def before_fault(self) -> "Reading":
        """Returns what was read before the faulty word; all of it at the end of the text."""
        word = None if self.at is None else self.word
        is_bad_stipulation = self.number is FaultKind.BAD_STIPULATION
        return replace(
            self,
            tokens=self.tokens[: self.at],
            number=None,
            at=None,
            awaited=self.awaited if word is None else self.awaited_before,
            option=self.option if word is None else self.option_before,
            awaited_before=None,
            option_before=None,
            colours=list(self.colours),
            men={square: it for square, it in self.men.items() if it.word is not word},
            square=None,
            square_place=0,
            stipulation_word=None if is_bad_stipulation else self.stipulation_word,
            openers=list(self.openers),
        )

    def stays(self, text: bytes, place: int) -> bool:
        """Returns whether all that was read stays as it is in another text, which differs from this place on.
        """
        end = self.place
        if place != end or end == 0:
            return place >= end
        after = text[end : end + 1]
        is_text_line = len(self.tokens) > 0 and isinstance(self.tokens[-1], TextLine)
        return after in (b"", b"\n") or not is_text_line and _BLANK.match(after) is not None


def _is_closing(token: Token) -> bool:
    return isinstance(token, Word) and token.bytes.lower() in _CLOSING_FORMS


def _line_of(token: Token) -> int:
    return token.line if isinstance(token, Word) else token.word.line


def read_piece(text: bytes, piece: Piece) -> Reading:
    """Reads a problem of an input up to its fault."""
    return read_on(text, Reading(text, piece.start, piece.line, piece.number == 1))


def read_on(text: bytes, before: Reading) -> Reading:
    """Goes on with what was read of a problem without a fault, up to its fault. The text may differ after
    it.
    """
    reading = replace(before.before_fault(), text=text)
    begun = reading.is_begun
    if reading.is_closed:
        return reading
    for token in reading._following():
        reading.tokens.append(token)
        if isinstance(token, TextLine):
            continue
        reading.awaited_before, reading.option_before = reading.awaited, reading.option
        fault = _fault_of(reading, token, begun)
        begun = True
        if fault is not None:
            reading.number, reading.at = fault, len(reading.tokens) - 1
        if fault is not None or _is_closing(token):
            return reading
    reading.number = FaultKind.END_PROBLEM_MISSING if begun else FaultKind.BEGIN_PROBLEM_MISSING
    return reading


def _fault_of(reading: Reading, word: Word, begun: bool) -> Optional[FaultKind]:
    """Takes the next word of a problem, also its first or its last one; returns its fault."""
    if len(word.bytes) > LONGEST_WORD:
        return FaultKind.WORD_TOO_LONG
    if begun:
        fault = step(reading, word)
    else:
        is_begin = _COMMAND_FORMS.get(word.bytes.lower()) == "BeginProblem"
        fault = None if is_begin else FaultKind.BEGIN_PROBLEM_MISSING
    return _end_fault(reading) if fault is None and _is_closing(word) else fault


def step(reading: Reading, word: Word) -> Optional[FaultKind]:
    """Takes the next word of a problem; returns its fault, if it has one."""
    if reading.awaited is not None:
        squares = squares_of(word.bytes)
        if reading.awaited is not Awaited.MORE_SQUARES:
            return _value(reading, word, squares)
        if squares:
            return _barred(reading, word, squares)
        reading.awaited = reading.option = None
    command = _COMMAND_FORMS.get(word.bytes.lower())
    if command == "BeginProblem":
        return FaultKind.WORD_MISPLACED
    if command in SECTIONS:
        reading.section, reading.opener = command, word
        reading.openers.append(word)
        reading.colour = None
        return None
    if command is not None:
        return None
    if reading.section is None:
        return FaultKind.WORD_MISPLACED
    return _READERS[reading.section](reading, word)


def _value(reading: Reading, word: Word, squares: list[Square]) -> Optional[FaultKind]:
    """Takes the word that an option awaits."""
    if reading.awaited is Awaited.SQUARES:
        if not squares:
            return FaultKind.SQUARE_MISSING
        reading.awaited = Awaited.MORE_SQUARES
        return _barred(reading, word, squares)
    if reading.awaited is Awaited.SQUARE:
        if len(squares) != 1:
            return FaultKind.SQUARE_MISSING
        reading.crossed, reading.crossed_word = squares[0], word
    elif not is_number(word.bytes) or not 1 <= int(word.bytes) <= MOST_SOLUTIONS:
        return FaultKind.BAD_LIMIT
    else:
        reading.limit = int(word.bytes)
    reading.awaited = reading.option = None
    return None


def _barred(reading: Reading, word: Word, squares: list[Square]) -> Optional[FaultKind]:
    for place, square in enumerate(squares):
        if square.name not in CASTLING_SQUARES:
            reading.square, reading.square_place = square, 2 * place
            return FaultKind.NONE_CASTLES_THERE
    return None


def _piece(reading: Reading, word: Word) -> Optional[FaultKind]:
    colour = _COLOUR_FORMS.get(word.bytes.lower())
    if colour is not None:
        reading.colour = Colour[colour.upper()]
        reading.colours.append((reading.colour, word))
        return None
    kind, squares = kind_of(word.bytes), squares_of(word.bytes[1:])
    if kind is None:
        return FaultKind.WORD_MISPLACED
    if not squares and len(word.bytes) > 2 and not re.search(rb"[0-9]", word.bytes):
        return FaultKind.WORD_MISPLACED
    if reading.colour is None:
        return FaultKind.COLOUR_MISSING
    if not squares:
        return FaultKind.SQUARE_MISSING
    man = Man(reading.colour, kind)
    for place, square in enumerate(squares):
        fault = _man_fault(reading, man, square)
        if fault is not None:
            reading.square, reading.square_place = square, 1 + 2 * place
            return fault
        reading.men[square] = Placed(man, word, 1 + 2 * place)
    return None


def _man_fault(reading: Reading, man: Man, square: Square) -> Optional[FaultKind]:
    if square in reading.men:
        return FaultKind.SQUARE_TAKEN
    if man.kind is Kind.PAWN and square.rank in (1, 8):
        return FaultKind.PAWN_ON_OUTER_RANK
    if man.kind is Kind.KING and king_of(reading, man.colour) is not None:
        return FaultKind.SECOND_KING
    return None


def king_of(reading: Reading, colour: Colour) -> Optional[Square]:
    """Returns the square of a side's king."""
    king = Man(colour, Kind.KING)
    return next((it for it, placed in reading.men.items() if placed.man == king), None)


def _stipulation(reading: Reading, word: Word) -> Optional[FaultKind]:
    if reading.stipulation is not None:
        second = b"#" in word.bytes or b"=" in word.bytes
        return FaultKind.SECOND_STIPULATION if second else FaultKind.WORD_MISPLACED
    reading.stipulation, reading.stipulation_word = stipulation_of(word.bytes), word
    return FaultKind.BAD_STIPULATION if reading.stipulation is None else None


def _condition(reading: Reading, word: Word) -> Optional[FaultKind]:
    name = _CONDITION_FORMS.get(word.bytes.lower())
    if name is None:
        return FaultKind.WORD_MISPLACED
    if reading.condition is not None:
        return FaultKind.SECOND_CONDITION
    reading.condition, reading.condition_word = Condition(name), word
    return None


def _option(reading: Reading, word: Word) -> Optional[FaultKind]:
    name = _OPTION_FORMS.get(word.bytes.lower())
    if name is None:
        return FaultKind.WORD_MISPLACED
    reading.awaited = _AWAITED.get(name)
    reading.option = word
    return None


_READERS = {
    "Pieces": _piece,
    "Stipulation": _stipulation,
    "Condition": _condition,
    "Option": _option,
}


def _end_fault(reading: Reading) -> Optional[FaultKind]:
    """Returns the fault that shows at the word that ends a problem."""
    if reading.stipulation is None:
        return FaultKind.STIPULATION_MISSING
    if not reading.men:
        return FaultKind.NO_MEN
    starter, crossed = reading.stipulation.starter, reading.crossed
    if crossed is not None and not en_passant_wants(reading.position, starter, crossed).holds:
        return FaultKind.EN_PASSANT_IMPOSSIBLE
    if king_of(reading, reading.stipulation.last_side.opponent) is None:
        if reading.stipulation.goal.value == "#":
            return FaultKind.KING_MISSING
    return FaultKind.WAITING_SIDE_IN_CHECK if checkers(reading) else None


@dataclass(frozen=True)
class EnPassantWants:
    """What the en passant square of a problem needs, and whether it has it."""

    rank: int
    pawn: Square
    home: Square
    pawn_stands: bool
    occupied: list[Square]
    right_rank: bool

    @property
    def holds(self) -> bool:
        return self.right_rank and self.pawn_stands and not self.occupied


def en_passant_wants(
    men: Mapping[Square, Man], starter: Colour, crossed: Square
) -> EnPassantWants:
    """Returns what a square of EnPassant needs among these men, and whether it has it."""
    rank, pawn_rank, home_rank = (6, 5, 7) if starter is Colour.WHITE else (3, 4, 2)
    pawn, home = Square(crossed.file, pawn_rank), Square(crossed.file, home_rank)
    return EnPassantWants(
        rank,
        pawn,
        home,
        men.get(pawn) == Man(starter.opponent, Kind.PAWN),
        [square for square in (crossed, home) if square in men],
        crossed.rank == rank,
    )


def checkers(reading: Reading) -> list[Square]:
    """Returns the men that give check to the side that doesn't start."""
    assert reading.stipulation is not None
    waiting = reading.stipulation.starter.opponent
    king = king_of(reading, waiting)
    if king is None:
        return []
    return attackers(reading.position, king, waiting.opponent, reading.condition is Condition.MADRASI)
