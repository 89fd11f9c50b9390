"""Faults of men: their colours and squares, and the kings."""

import re
from collections.abc import Iterator
from typing import Optional

from pops_companions.chess.men import LETTERS, Colour, Kind, Square
from pops_companions.chess.stipulation import Condition, Play
from pops_companions.explain import wordings
from pops_companions.explain.case import Case, Explanation, at, first_cause, known, listed, quoted
from pops_companions.explain.characters import decoded, shown
from pops_companions.explain.other_men import man_by_name, squares_alone, two_letters
from pops_companions.explain.sentences import sentence
from pops_companions.input.reading import COLOURS, COMMANDS, checkers, is_man, kind_of, king_of
from pops_companions.input.words import TEXT_WORDS, Span, named

_DIGITS_FIRST = re.compile(f"([{LETTERS}])((?:[1-8][a-h])+)", re.IGNORECASE)


@first_cause
def colour_missing(case: Case) -> Iterator[Optional[Explanation]]:
    """Explains men without a colour before them."""
    opener = known(case.reading.opener)
    yield from wordings.characters_in(case)
    # (`Bbe8` may have a letter too many)
    yield case.by_form("colour")
    yield _short_command(case)
    if len(case.openers_of("Pieces")) > 1:
        yield case.tells("colour_of_each", opener.span, opener=quoted(opener))
    after = case.after
    if after is not None and named(after.bytes, COLOURS, 1):
        yield case.tells("colour_first", after.span, colour=decoded(after.bytes))
    yield case.tells("no_colour", opener.span, opener=quoted(opener))


def _short_command(case: Case) -> Optional[Explanation]:
    word = case.plain.lower()
    names = [it for it in (*COMMANDS, *TEXT_WORDS) if it.lower().startswith(word)]
    if len(word) != 2 or not names:
        return None
    return case.tells("too_short", short=names[0][:3], name=names[0])


def square_taken(case: Case) -> Explanation:
    """Explains a man on a square that is taken."""
    square, placed = _square_of(case)
    before = case.reading.men[square]
    what = f"{before.man.colour.value} {before.man.kind.word}"
    kind, colour = known(kind_of(case.word.bytes)), known(case.reading.colour)
    if before.word is case.word:
        text = sentence("square_twice_in_word", word=case.quoted, square=square.name)
    elif (before.man.kind, before.man.colour) == (kind, colour):
        opener = case.reading.opener
        is_there = opener is not None and before.word.start < opener.start
        which = "man_of_pieces_before" if is_there else "man_given_twice"
        text = sentence(which, what=what, square=square.name, before=quoted(before.word))
    else:
        text = sentence(
            "square_taken",
            what=what,
            before=quoted(before.word),
            square=square.name,
            colour=colour.value,
            kind=kind.word,
            word=case.quoted,
        )
    return at(text, before.span, placed)


def pawn_on_outer_rank(case: Case) -> Explanation:
    """Explains a pawn on rank 1 or 8."""
    square, placed = _square_of(case)
    text = sentence("pawn_outside", square=square.name, rank=square.rank)
    if square.rank == (8 if case.reading.colour is Colour.WHITE else 1):
        text = sentence("pawn_promoted", text=text, square=square.name)
    return at(text, placed)


def second_king(case: Case) -> Explanation:
    """Explains a second king of a colour."""
    square, placed = _square_of(case)
    colour = known(case.reading.colour)
    before = case.reading.men[known(king_of(case.reading, colour))]
    about = {"colour": colour.name.title(), "before": quoted(before.word), "word": case.quoted}
    if before.word is case.word:
        text = sentence("two_kings_in_word", **about)
    elif colour.opponent not in [it for it, _ in case.reading.colours]:
        text = sentence("second_king_colour", **about, other=colour.opponent.name.title())
    else:
        text = sentence("second_king", **about)
    return at(text, before.span, placed)


def _square_of(case: Case) -> tuple[Square, Span]:
    """Returns the square of the fault and where in the word it stands."""
    square, place = known(case.reading.square), case.reading.square_place
    return square, case.word.part(place, place + 2)


@first_cause
def square_missing(case: Case) -> Iterator[Optional[Explanation]]:
    """Explains a man without a square."""
    yield from wordings.characters_in(case)
    yield squares_alone(case)
    yield case.by_form("colour")
    yield _letter_alone(case)
    yield _short_command(case)
    reversed_squares = _DIGITS_FIRST.fullmatch(case.plain)
    if reversed_squares is not None:
        squares = re.sub("(.)(.)", r"\2\1", reversed_squares[2])
        yield case.tells("rank_first", mended=reversed_squares[1] + squares)
    yield wordings.pawn_or_square(case)
    yield wordings.signs(case)
    yield wordings.joined(case)
    if re.match(r"[A-Za-z](?:[a-h][1-8])+(?:-|\.\.+|–)[a-h][1-8]", case.plain):
        yield case.tells("range_of_squares", letter=case.plain[0].upper())
    yield man_by_name(case)
    yield two_letters(case)
    yield _bad_square(case)


def _letter_alone(case: Case) -> Optional[Explanation]:
    if len(case.word.bytes) > 2:
        return None
    if case.after is not None:
        whole = case.plain + decoded(case.after.bytes)
        if case.fits(whole):
            return case.tells("squares_parted", case.after.span, whole=whole)
    if len(case.word.bytes) > 1:
        return None
    return case.tells("no_square")


def _bad_square(case: Case) -> Explanation:
    rest = case.plain[1:]
    good = known(re.match(r"(?:[a-h][1-8])*", rest, re.IGNORECASE))
    bad = rest[good.end() :]
    place = 1 + good.end()
    part = bad[:2]
    if re.fullmatch("[a-h]", bad, re.IGNORECASE):
        text = sentence("rank_missing", word=case.quoted)
    elif re.fullmatch("[1-8]", bad) or (good.end() > 0 and bad[0] in "12345678"):
        text = sentence("file_missing", sign=bad[0], word=case.quoted)
        part = bad[:1]
    else:
        text = sentence("bad_square", part=part, word=case.quoted)
    stop = place + len(part)
    whole = len(decoded(case.word.bytes)) != len(case.word.bytes)
    return at(text, case.word.span if whole else case.word.part(place, stop))


def king_missing(case: Case) -> Explanation:
    """Explains that the side to be mated has no king."""
    stipulation = known(case.reading.stipulation)
    side = stipulation.last_side.opponent
    name, other = side.name.title(), side.opponent.name.title()
    head = sentence("no_king", given=quoted(known(case.reading.stipulation_word)), name=name)
    for line in case.reading.text_lines:
        kings = [it for it in line.text.split() if is_man(it) and kind_of(it) is Kind.KING]
        if kings:
            return case.tells(
                "king_in_text", line.span, head=head, opener=line.name, king=shown(kings[-1])
            )
    men = [it for it in case.reading.men.items() if it[1].man.colour is side]
    last = max(case.reading.men.values(), key=lambda placed: placed.word.start).word
    words = [word for colour, word in case.reading.colours if colour is side]
    if not words:
        text = sentence("no_colour_of_king", head=head, name=name)
        return case.says(f"{text} {quoted(last)}.", last.span)
    if not men:
        return case.tells(
            "no_man_of_colour", words[0].span, head=head, after=quoted(words[0]), other=other
        )
    rooks = [placed for _, placed in men if placed.man.kind is Kind.ROOK]
    here = listed([f"{it.man.kind.value}{square.name}" for square, it in men])
    text = sentence("king_after", head=head, name=name, here=here, after=quoted(words[0]))
    if len(rooks) == 1 and stipulation.play is not Play.SELF:
        text = sentence("french_king", text=text)
    return case.says(text, words[0].span)


def waiting_side_in_check(case: Case) -> Explanation:
    """Explains that the side that waits is in check."""
    reading = case.reading
    starter = known(reading.stipulation).starter
    waiting = starter.opponent
    king = known(king_of(reading, waiting))
    who: list[str] = []
    marks = [reading.men[king].span]
    for square in checkers(reading):
        placed = reading.men[square]
        who.append(sentence("kind_on", kind=placed.man.kind.word, square=square.name))
        marks.append(placed.span)
    text = sentence(
        "in_check_once" if len(who) == 1 else "in_check",
        given=quoted(known(reading.stipulation_word)),
        side=starter.name.title(),
        colour=waiting.value,
        king=king.name,
        men=listed(who),
    )
    if starter is Colour.BLACK:
        text = sentence("in_check_help", text=text)
    if reading.condition is Condition.CIRCE:
        text = sentence("in_check_circe", text=text)
    return case.says(text, *marks)
