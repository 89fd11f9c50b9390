"""Faults of stipulations: a bad one, a second one."""

import re
from collections.abc import Iterator, Sequence
from typing import Any, Optional

from pops_companions.chess.stipulation import MOST_MOVES
from pops_companions.explain import wanted, wordings
from pops_companions.explain.case import Case, Explanation, first_cause, known, quoted
from pops_companions.explain.characters import decoded
from pops_companions.explain.sentences import DATA, sentence
from pops_companions.input.reading import COLOURS, CONDITIONS, OPTIONS, is_man, is_number
from pops_companions.input.words import Word, named

_FORMS = sentence("forms")
_STIPULATION = re.compile(r"(?:[a-zA-Z]{0,5}-)?[a-zA-Z]{0,2}(?:#|==?)[0-9]+(?:\.5)?")
_GOOD = re.compile(r"([shSH]?)([#=])([0-9]+)(\.5)?")
_KNOWN: dict[str, Any] = DATA["stipulations"]
_SIGNS_OF_MATE = re.compile(_KNOWN["mates"])
_WORDS: dict[str, str] = _KNOWN["words"]
_NUMBERS: dict[str, str] = _KNOWN["numbers"]
# What help play and selfmate are called before a number.
_WITHOUT_GOAL = ("h", "s")
_A_NUMBER = "|".join(["[1-9][0-9]*(?:½| 1/2|[.,]5)?", *_NUMBERS])
# As `mate in 2 moves`, `help mate in 2½`, `s 3`: how the play is called, and the number.
_IN_WORDS = re.compile(
    rf"((?:help|self)[- ]?mate|[a-z]+?)[-# ]*(?:(?:in|en)[- ]*)?({_A_NUMBER})"
    r"(?: (?:moves?|zügen?|coups?))?[.,;:!]*(?= |$)"
)
_MOST_WORDS = 6
# As `#two`.
_NUMBER_IN_WORDS = re.compile(rf"([sh]?[#=])({'|'.join(_NUMBERS)})[.,;:]*")
# What may stand before `mate in 2`.
_WHITE_FIRST = re.compile("white (?:to )?(?:(?:play|move)s?,? and )?(?=[a-z -]*mates? )")
_MOST_WORDS_FIRST = 5


def looks_like_stipulation(word: str) -> bool:
    """Returns whether a word would be a stipulation in Popeye, or nearly so."""
    return _STIPULATION.fullmatch(word) is not None


@first_cause
def bad_stipulation(case: Case) -> Iterator[Optional[Explanation]]:
    """Explains a bad stipulation."""
    yield wordings.utf_16(case)
    yield wordings.invisible(case)
    yield _half(case)
    yield case.mends("sign_of_mate", _SIGNS_OF_MATE.sub("#", case.plain))
    yield wordings.look_alike(case)
    yield _white_mates(case)
    yield _section_empty(case)
    yield wordings.of_popeye(case)
    yield _without_number(case)
    yield _wrong_number(case, case.plain)
    yield _star(case)
    yield wanted.joined(case)
    yield case.by_form("stipulation")
    yield _comma(case)
    yield case.mends(
        "sign_first", re.sub(r"^([sh]?)([0-9]+(?:\.5)?)([sh]?[#=])$", r"\1\3\2", case.plain)
    )
    yield wordings.signs(case)
    yield _number_in_words(case)
    if is_number(case.word.bytes):
        yield case.tells("only_number")
    yield _said_in_words(case, case.rest_of_line(_MOST_WORDS))
    yield wordings.in_another_language(case)
    # (as a comment `#three` would leave the problem without a stipulation)
    if not case.plain.startswith("#"):
        yield wordings.comment(case)
    yield case.tells("no_stipulation", forms=_FORMS)


def _bare(word: str) -> str:
    """Returns a word without the brackets, quotation marks and stops around it."""
    return word.lstrip("([\"'").rstrip(")]\"'.,;:!?")


def _half(case: Case) -> Optional[Explanation]:
    word = _bare(case.plain)
    if "½" not in word and not re.search(r"1/2$", word):
        return None
    mended = re.sub(r"½|[- ]?1/2$", ".5", word)
    is_help = word.lower().startswith("h")
    return case.mends("half", mended) or (None if is_help else case.tells("half_only_help"))


def _section_empty(case: Case) -> Optional[Explanation]:
    word, opener = case.word.bytes, case.reading.opener
    kinds = (
        (sentence("an_option"), bool(named(word, OPTIONS)), "Option"),
        (sentence("a_condition"), bool(named(word, CONDITIONS)), "Condition"),
        (sentence("a_colour"), _begins_men(case), "Pieces"),
        (sentence("a_man"), is_man(word), "Pieces"),
    )
    for what, holds, section in kinds:
        if holds and opener is not None:
            return case.tells(
                "stipulation_missing_after",
                opener.span,
                what=what,
                opener=quoted(opener),
                section=section,
            )
    return None


def _begins_men(case: Case) -> bool:
    """Returns whether the word is a colour with men after it."""
    after = case.after
    return bool(named(case.word.bytes, COLOURS, 3)) and (after is None or is_man(after.bytes))


def _without_number(case: Case) -> Optional[Explanation]:
    if not re.fullmatch("[sh]?[#=]", case.plain, re.IGNORECASE):
        return None
    if case.after is not None:
        whole = case.plain + re.sub("(?:,5|½)$", ".5", decoded(case.after.bytes))
        if case.fits(whole):
            return case.tells("number_parted", case.after.span, whole=whole)
    return case.tells("number_missing_in_word")


def _wrong_number(case: Case, stipulation: str) -> Optional[Explanation]:
    """Explains what is wrong with the number of a stipulation; None if its form is another."""
    found = _GOOD.fullmatch(stipulation)
    if found is None:
        return None
    play, number, half = found[1].lower(), found[3], found[4]
    if half and play != "h":
        return case.tells("half_in_help", first=found[1], second=found[2], number=number)
    if len(number) > 1 and number.startswith("0"):
        mended = f"{found[1]}{found[2]}{int(number)}{half or ''}"
        if case.fits(mended):
            return case.tells("leading_zeros", mended=mended)
    least, most = (0, MOST_MOVES - 1) if half else (1, MOST_MOVES)
    form = f"{found[1]}{found[2]}n{half or ''}"
    return case.tells("number_out_of_range", form=form, least=least, most=most, number=int(number))


def _star(case: Case) -> Optional[Explanation]:
    found = re.fullmatch(r"([^*]*)\*+(.*)", re.sub(",5(?=\\*)|½", ".5", _bare(case.plain)))
    if found is None or not case.fits(found[1] + found[2]):
        return None
    # (`#*2` may have a sign too many)
    if found[1] and found[2]:
        return None
    return case.tells("star", first=found[1], second=found[2])


def _comma(case: Case) -> Optional[Explanation]:
    mended = re.sub(r",5$", ".5", case.plain)
    if mended == case.plain:
        return None
    return case.mends("half_point", mended) or _wrong_number(case, mended)


def _number_in_words(case: Case) -> Optional[Explanation]:
    found = _NUMBER_IN_WORDS.fullmatch(case.plain.lower())
    if found is None:
        return None
    whole = found[1] + _NUMBERS[found[2]]
    return case.tells("in_words", whole=whole) if case.fits(whole) else None


def _white_mates(case: Case) -> Optional[Explanation]:
    """Explains `White to mate in 2`."""
    words = case.rest_of_line(_MOST_WORDS + _MOST_WORDS_FIRST)
    first = _WHITE_FIRST.match(_joined(words))
    return None if first is None else _said_in_words(case, words, first[0].count(" "))


def _joined(words: Sequence[Word]) -> str:
    return " ".join(decoded(it.bytes).lower() for it in words)


def _said_in_words(case: Case, words: Sequence[Word], begin: int = 0) -> Optional[Explanation]:
    """Explains a stipulation in words, which may begin after some others."""
    found = _IN_WORDS.match(_joined(words[begin:]))
    sign = None if found is None else _WORDS.get(re.sub("[- ]", "", found[1]))
    if found is not None and sign is not None:
        number = re.sub("(?:½| 1/2|[.,]5)$", ".5", found[2])
        # (White begins a help mate only with half a move more)
        if begin and sign.startswith("h") and not number.endswith(".5"):
            return None
        number = _NUMBERS.get(number, number)
        if sign in _WITHOUT_GOAL:
            if "#" not in found[0]:
                return case.tells("goal_missing", play=sign, number=number)
            sign += "#"
        whole = sign + number
        if not case.fits(whole):
            return _wrong_number(case, whole)
        spans = [it.span for it in words[: begin + found[0].count(" ") + 1]]
        return case.tells("in_words", *spans, whole=whole)
    sign = _WORDS.get(case.plain.lower().rstrip("-#"))
    if sign is None or sign in _WITHOUT_GOAL:
        return None
    return case.tells("in_words_as", sign=sign)


def _has_two_pieces(case: Case) -> bool:
    """Returns whether two Pieces show that there may be two problems."""
    count = len(case.openers_of("Pieces"))
    for word in case.reading.words_after() if count < 2 else ():
        count += 1 if named(word.bytes, ["Pieces"]) else 0
    return count > 1


@first_cause
def second_stipulation(case: Case) -> Iterator[Optional[Explanation]]:
    """Explains a second stipulation."""
    given = known(case.reading.stipulation_word)
    yield wordings.invisible(case)
    if not looks_like_stipulation(case.plain):
        yield wordings.comment(case)
        yield wordings.signs(case)
    if case.word.bytes.lower() == given.bytes.lower() and not _has_two_pieces(case):
        yield case.tells("stipulation_twice", given.span, given=quoted(given))
    yield case.tells("second_stipulation", given.span, given=quoted(given))
