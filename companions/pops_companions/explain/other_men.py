"""Men written otherwise than pops reads them: by name, by two letters, in another language."""

import re
from typing import Optional

from pops_companions.chess.men import LETTERS, Kind
from pops_companions.explain.case import Case, Explanation, known, listed
from pops_companions.explain.characters import decoded
from pops_companions.explain.sentences import DATA, sentence
from pops_companions.explain.vocabulary import Alphabet, alphabets_of, alphabets_with
from pops_companions.input.reading import SECTIONS, is_man, kind_of, king_of, squares_of
from pops_companions.input.words import Word, forms_of

_NAMES = {kind.word: kind for kind in Kind}
_SECTION_FORMS = forms_of(SECTIONS)
_CYRILLIC_MEN: str = DATA["characters"]["cyrillicMen"]


def foreign_letter(case: Case) -> Optional[Explanation]:
    """Explains a letter that isn't English, with squares."""
    found = re.fullmatch(r"([^\W\d_]{1,2})((?:[a-h][1-8])+)", case.plain, re.IGNORECASE)
    if found is None:
        return None
    letter, squares = found[1], found[2]
    if letter[0] in _CYRILLIC_MEN or letter == "Кр":
        return case.tells("cyrillic_man", letter=letter)
    possible = alphabets_with(letter) if len(letter) == 1 else []
    if not possible:
        return None
    text = sentence("no_letter", letter=letter)
    if letter in "wW":
        return case.tells("letter_of_colour", text=text, squares=squares)
    men = men_words(case)
    fitting = [it for it in alphabets_of("".join(letters_of(men))) if it in possible]
    possible = fitting or possible
    kinds = {known(alphabet.kind(letter)) for alphabet in possible}
    if len(kinds) > 1:
        ways = [sentence(
            "kind_in", kind=known(it.kind(letter)).word, languages=listed(it.languages)
        ) for it in possible]
        return case.tells("letter_of_several", text=text, ways=listed(ways, 'or'))
    (kind,) = kinds
    languages = [language for it in possible for language in it.languages]
    text = sentence(
        "letter_of_one" if fitting else "letter_among_others",
        text=text,
        kind=kind.word,
        languages=listed(languages),
        man=kind.value,
        squares=squares,
    )
    others = _others(men, case.word, fitting)
    if others:
        text = sentence("other_letters", text=text, others=listed(others))
    return case.says(text)


def squares_alone(case: Case) -> Optional[Explanation]:
    """Explains squares without a letter: of a pawn, or of the man before."""
    before, squares = case.before, squares_of(case.word.bytes)
    if not squares:
        return None
    if before is not None and before.bytes in (b"B", b"b"):
        return case.tells("bishop_or_black", before.span, before=decoded(before.bytes))
    if before is None or not is_man(before.bytes):
        return case.tells("pawn_without_letter")
    whole = decoded(before.bytes) + case.plain
    kind, is_no_pawn = kind_of(before.bytes), any(it.rank in (1, 8) for it in squares)
    is_of_it = kind is Kind.PAWN or is_no_pawn and kind is not Kind.KING
    which = "squares_parted" if is_of_it else "pawn_or_square"
    return case.tells(which, before.span, whole=whole)


def man_by_name(case: Case) -> Optional[Explanation]:
    """Explains a man by its English name."""
    word = case.plain.lower()
    for name in sorted(_NAMES, key=len, reverse=True):
        letter, rest = _NAMES[name].value, word[len(name) :]
        if word.startswith(name) and (rest in ("", "s") or case.fits(letter + rest)):
            return case.tells("man_by_name", name=name, letter=letter)
    return None


def two_letters(case: Case) -> Optional[Explanation]:
    """Explains a man of two letters, as Popeye has them."""
    word = case.plain
    if not re.fullmatch(r"[a-z]{2}(?:[a-h][1-8])+", word, re.IGNORECASE):
        return None
    # (`KT` is a fairy man of Popeye, and `Kng6` may be the king)
    colour = case.reading.colour
    if word[:2] in ("Kt", "Kn", "kt", "kn") and colour and king_of(case.reading, colour):
        return case.tells("knight_is_s", squares=word[2:])
    kinds = [kind.word for kind in Kind]
    return case.tells(
        "two_letters", kinds=", ".join(kinds[:-1]), last=kinds[-1], letters=" ".join(LETTERS)
    )


def men_words(case: Case) -> list[Word]:
    """Returns the words of the problem's Pieces sections that have the form of a man, before and
    after the fault.
    """
    words = []
    inside = False
    for word in [*case.reading.words, *case.reading.words_after()]:
        name = _SECTION_FORMS.get(word.bytes.lower())
        if name is not None:
            inside = name == "Pieces"
        elif inside and word.bytes[:1].isalpha() and squares_of(word.bytes[1:]):
            words.append(word)
    return words


def letters_of(men: list[Word]) -> list[str]:
    """Returns the letters of men, each once."""
    return list(dict.fromkeys(decoded(man.bytes)[0].upper() for man in men))


def _others(men: list[Word], faulty: Word, alphabets: list[Alphabet]) -> list[str]:
    """Returns what the letters of the other men mean where they mean something else in English, with
    the languages where these differ.
    """
    others = []
    for letter in letters_of(men):
        kinds = dict.fromkeys(it.kind(letter) for it in alphabets)
        if letter == decoded(faulty.bytes)[0].upper():
            continue
        for kind in kinds:
            if kind is None or kind.value == letter:
                continue
            means = sentence("letter_means", letter=letter, man=kind.value, kind=kind.word)
            if len(kinds) > 1:
                there = [it.languages for it in alphabets if it.kind(letter) is kind]
                languages = listed([language for it in there for language in it])
                means = sentence("letter_means_in", means=means, languages=languages)
            others.append(means)
    return others
