"""Faults of words: the text doesn't begin with BeginProblem, a word isn't known where it stands, a
word is too long."""

import re
from collections.abc import Iterator
from typing import Optional

from pops_companions.explain import wanted, wordings
from pops_companions.explain.case import Case, Explanation, at, first_cause, known, listed, quoted
from pops_companions.explain.other_men import (
    foreign_letter,
    man_by_name,
    squares_alone,
    two_letters,
)
from pops_companions.explain.sentences import DATA, sentence
from pops_companions.explain.stipulations import looks_like_stipulation
from pops_companions.explain.vocabulary import unread
from pops_companions.input.reading import (
    COLOURS,
    COMMANDS,
    CONDITIONS,
    OPTIONS,
    SECTIONS,
    is_man,
    is_number,
    squares_of,
)
from pops_companions.input.words import LONGEST_WORD, Span, named

_COLLECTION = re.compile(DATA["collection"].encode("ascii"))
_SQUARE = re.compile(rb"[a-hA-H][1-8]")
_FILES = tuple((head.encode("latin-1"), what) for head, what in DATA["files"])


def no_problem(text: bytes, has_text_lines: bool) -> Explanation:
    """Explains that a text ends before any word."""
    if has_text_lines:
        if wordings.old_mac(text):
            return at(sentence("old_mac"), Span(0, len(text)))
        return at(sentence("only_text_lines"))
    return at(sentence("empty_text"))


@first_cause
def begin_problem_missing(case: Case) -> Iterator[Optional[Explanation]]:
    """Explains another first word than BeginProblem."""
    # (a collection in YAML or JSON, as Olive and YACPDB have them)
    if _COLLECTION.search(case.text):
        yield case.tells("collection")
    yield from wordings.characters_in(case)
    for head, what in _FILES:
        if case.text.startswith(head):
            yield case.tells("other_file", what=what)
    if case.text.startswith(b"problem 1\n"):
        yield case.tells("report")
    yield case.by_form("position")
    if _belongs_inside(case):
        yield case.tells("begin_missing")
    yield wordings.comment(case)
    yield wordings.signs(case)
    yield wordings.parted(case)
    yield wordings.in_another_language(case)
    yield from wordings.spelling(case)
    yield case.tells("first_word")


def _belongs_inside(case: Case) -> bool:
    """Returns whether a word is one of a problem, or of Popeye."""
    word = case.word.bytes
    is_name = named(word, (*COMMANDS, *CONDITIONS, *OPTIONS, *COLOURS)) is not None
    is_known = is_name or unread(case.plain) is not None
    return is_known or is_man(word) or looks_like_stipulation(case.plain)


@first_cause
def word_misplaced(case: Case) -> Iterator[Optional[Explanation]]:
    """Explains an unknown or misplaced word."""
    section = case.reading.section
    if named(case.word.bytes, ["BeginProblem"]) is not None:
        yield case.tells("begin_again" if case.before is None else "begin_once")
    yield from wordings.characters_in(case)
    yield wanted.numbers(case)
    yield wanted.men(case)
    yield _wrong_section(case)
    yield case.by_form("position")
    if section == "Pieces":
        yield from _causes_among_men(case)
    yield wordings.parted(case)
    yield wordings.in_another_language(case)
    yield wordings.of_popeye(case)
    yield wordings.signs(case)
    yield wordings.comment(case)
    if section == "Option" and is_number(case.word.bytes):
        yield case.tells("number_alone")
    if section == "Option" and squares_of(case.word.bytes):
        yield case.tells("square_alone")
    yield from wordings.spelling(case)
    yield wordings.rest_of_a_text(case)
    yield _unknown(case)


def _wrong_section(case: Case) -> Optional[Explanation]:
    """Explains a word of pops that belongs to another section than the one at hand."""
    section, word = case.reading.section, case.word.bytes
    home = _home_of(word)
    if home is not None and home[0] == "Pieces" and not _is_before_a_man(case):
        return _white_to_play(case)
    if home is not None and home[0] != section:
        return case.tells("belongs", what=sentence(home[1]), section=home[0])
    if section != "Pieces" and is_man(word):
        return case.tells("man_outside")
    if looks_like_stipulation(case.plain):
        return case.tells("belongs", what=sentence("a_stipulation"), section="Stipulation")
    return _wrong_section_with_signs(case)


def _wrong_section_with_signs(case: Case) -> Optional[Explanation]:
    """Explains a word of another section with signs around it, as `White:` before `Pieces`."""
    bare = wordings.without_signs(case.plain)
    home = _home_of(bare.encode("utf-8"))
    if bare == case.plain or home is None or home[0] == case.reading.section:
        return None
    if home[0] == "Pieces" and not _is_before_a_man(case):
        return None
    whole = f"{home[0]} {bare}"
    return case.tells("belongs_with_signs", what=sentence(home[1]), whole=whole)


def _is_before_a_man(case: Case) -> bool:
    """Returns whether a square follows: `h#2 White` and `White Circe` name no men."""
    return case.after is not None and _SQUARE.search(case.after.bytes) is not None


def _white_to_play(case: Case) -> Optional[Explanation]:
    """Explains Popeye's short form of WhiteToPlay."""
    if case.reading.section != "Option" or not named(case.word.bytes, ["White"]):
        return None
    found = known(unread("WhiteToPlay"))
    return case.tells("unread_short", what=found.what, name=found.name, instead=found.instead)


def _home_of(word: bytes) -> Optional[tuple[str, str]]:
    """Returns the section of an option, a condition or a colour, and the sentence of what it is."""
    if named(word, OPTIONS):
        return "Option", "an_option"
    if named(word, CONDITIONS):
        return "Condition", "a_condition"
    return ("Pieces", "a_colour") if named(word, COLOURS, 3) else None


def _causes_among_men(case: Case) -> Iterator[Optional[Explanation]]:
    yield squares_alone(case)
    yield case.by_form("colour")
    yield case.mends("letter_for_digit", re.sub("([a-hA-H])[lI|]", r"\g<1>1", case.plain))
    yield man_by_name(case)
    yield foreign_letter(case)
    yield two_letters(case)


def _unknown(case: Case) -> Explanation:
    section = case.reading.section
    if section is None:
        return case.tells("before_sections", sections=listed(SECTIONS))
    if section == "Pieces":
        return case.tells("unknown_among_men")
    if section == "Stipulation":
        given = quoted(known(case.reading.stipulation_word))
        return case.tells("unknown_after_stipulation", given=given)
    if section == "Condition":
        return case.tells("unknown_condition", names=listed(CONDITIONS))
    return case.tells("unknown_option", names=listed(OPTIONS))


@first_cause
def word_too_long(case: Case) -> Iterator[Optional[Explanation]]:
    """Explains a word that is too long."""
    head = sentence("long_word", bytes=len(case.word.bytes), most=LONGEST_WORD)
    yield wordings.utf_16(case)
    blanks = [it for it in case.plain if it in "\u00a0\u202f\u2007\u3000"]
    if blanks:
        yield case.tells("long_spaces", head=head, count=len(blanks))
    if re.search(rb"[\x00-\x08\x0e-\x1f]", case.word.bytes):
        yield case.tells("long_bytes", head=head)
    commas = re.findall(r"[,;/|]", case.plain)
    if len(commas) > 5:
        yield case.tells("long_signs", head=head, count=len(commas), sign=commas[0])
    yield case.tells("long_blanks", head=head)
