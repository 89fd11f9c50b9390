"""Faults of conditions and options: a second condition, and the numbers and squares of options."""

import re
from collections.abc import Iterator
from typing import Optional

from pops_companions.chess.men import Colour, Square
from pops_companions.explain import wordings
from pops_companions.explain.case import Case, Explanation, at, first_cause, known, listed, quoted
from pops_companions.explain.sentences import sentence
from pops_companions.explain.vocabulary import unread
from pops_companions.input.reading import (
    CASTLING_SQUARES,
    COMMANDS,
    MOST_SOLUTIONS,
    OPTIONS,
    Awaited,
    EnPassantWants,
    en_passant_wants,
    is_man,
    is_number,
    squares_of,
)
from pops_companions.input.words import Word, named

_IN_THOUSANDS = re.compile(r"[0-9]{1,3}(?:[,.'_’][0-9]{3})+")
_SIDES = re.compile(r"white|black|w|b|[kq]{1,4}|0-0(-0)?|o-o(-o)?|-|both|yes|no", re.IGNORECASE)


def second_condition(case: Case) -> Explanation:
    """Explains a second condition."""
    given = known(case.reading.condition_word)
    is_same = named(case.word.bytes, [known(case.reading.condition).value]) is not None
    which = "condition_twice" if is_same else "second_condition"
    return case.tells(which, given.span, given=quoted(given))


@first_cause
def bad_limit(case: Case) -> Iterator[Optional[Explanation]]:
    """Explains a wrong or missing number of MaxSolutions."""
    option = known(case.reading.option)
    yield wordings.invisible(case)
    yield wordings.parted(case)
    yield _missing(case, option, "number", "MaxSolutions 5")
    if is_number(case.word.bytes):
        yield case.says(
            sentence("number_range", most=f"{MOST_SOLUTIONS:,}", word=case.quoted)
            + (sentence("all_solutions") if not int(case.word.bytes) else "")
        )
    digits = re.sub(r"[,.'_’]", "", case.plain)
    if _IN_THOUSANDS.fullmatch(case.plain) and case.fits(digits):
        yield case.tells("digits_only", digits=digits)
    yield wordings.signs(case)
    yield case.tells("number_wanted", option.span)


def _missing(case: Case, option: Word, what: str, example: str) -> Optional[Explanation]:
    """Explains a missing value: the next word is another command or option."""
    there = unread(case.plain)
    if there is None and not named(case.word.bytes, (*COMMANDS, *OPTIONS)):
        return None
    text = sentence(
        "value_missing", what=what, option=quoted(option), example=example, word=case.quoted
    )
    if there is not None:
        text = sentence("and_unread", text=text, instead=there.instead)
    return case.says(text, option.span)


@first_cause
def square_missing(case: Case) -> Iterator[Optional[Explanation]]:
    """Explains missing squares of EnPassant and NoCastling."""
    option = known(case.reading.option)
    one = case.reading.awaited is Awaited.SQUARE
    name = "EnPassant" if one else "NoCastling"
    wanted = sentence("wanted_crossed") if one else sentence("wanted_castling")
    example = "EnPassant d6" if one else "NoCastling e1h8"
    yield wordings.invisible(case)
    yield wordings.parted(case)
    yield _missing(case, option, "square", example)
    if one and len(squares_of(case.word.bytes)) > 1:
        yield case.tells("one_square", wanted=wanted)
    if one and is_man(case.word.bytes):
        yield case.tells("only_square", wanted=wanted, rest=case.plain[1:])
    if _SIDES.fullmatch(case.plain):
        yield case.tells("square_names_none", name=name, wanted=wanted, example=example)
    yield wordings.signs(case)
    yield case.tells("square_wanted", name=name, wanted=wanted, example=example)


def en_passant_impossible(case: Case) -> Explanation:
    """Explains a square of EnPassant that no pawn can have crossed."""
    reading = case.reading
    given, crossed = known(reading.crossed_word), known(reading.crossed)
    starter = known(reading.stipulation).starter
    wants = en_passant_wants(reading.position, starter, crossed)
    head = sentence(
        "moves_first", given=quoted(known(reading.stipulation_word)), side=starter.name.title()
    )
    about = {"head": head, "pawn": f"{starter.opponent.value} pawn"}
    if not wants.right_rank:
        text = sentence("passed_rank", **about, rank=wants.rank)
        return case.says(_with_rank(text, wants, starter, crossed), given.span)
    about["square"] = crossed.name
    if not wants.pawn_stands:
        text = sentence("passed_no_pawn", **about, pawn_square=wants.pawn.name)
        return case.says(text, given.span)
    taken = listed([square.name for square in wants.occupied])
    marks = [reading.men[square].span for square in wants.occupied]
    text = sentence("passed_occupied", **about, home=wants.home.name, taken=taken)
    return case.says(text, given.span, *marks)


def _with_rank(text: str, wants: EnPassantWants, starter: Colour, crossed: Square) -> str:
    """Adds to a text which square is meant, or on which rank the named one is."""
    pawn_rank = 5 if starter is Colour.WHITE else 4
    if crossed.rank == pawn_rank:
        name = f"{crossed.name[0]}{wants.rank}"
        return sentence("passed_where", text=text, square=crossed.name, name=name)
    return sentence("passed_other", text=text, square=crossed.name, there=crossed.rank)


def none_castles_there(case: Case) -> Explanation:
    """Explains a square of NoCastling where no king or rook castles."""
    square, place = known(case.reading.square), case.reading.square_place
    text = sentence("no_castling_square", squares=listed(CASTLING_SQUARES), square=square.name)
    return at(text, case.word.part(place, place + 2))
