"""Causes that a word of any section may have: characters, signs, blanks, comments, spelling."""

import re
from collections.abc import Iterator
from typing import Optional

from pops_companions.chess.men import LETTERS
from pops_companions.explain import characters
from pops_companions.explain.case import NAMES, Case, Explanation
from pops_companions.explain.sentences import DATA, sentence
from pops_companions.explain.vocabulary import foreign, unread
from pops_companions.input.reading import CONDITIONS, is_man, stipulation_of
from pops_companions.input.words import TEXT_WORDS, named

_SIGNS: dict[str, str] = DATA["signs"]
_SIGN = "[" + re.escape("".join(_SIGNS)) + "]"
# (`h#.5` isn't h#5)
_OF_A_NUMBER = re.compile(f"[0-9]{_SIGN}+[0-9]|[#=](?:(?![.,:;]){_SIGN})*[.,:;]{_SIGN}*[0-9]")
_FROM_TO = re.compile("([a-h])([1-8])([-–—.,…<>→/]+)([a-h])([1-8])", re.IGNORECASE)
_COMMENT = re.compile(r"(#(?![0-9=])|%|//|/\*|\*|;|--|<!--|\{|!|\")")
# As in Variationen.
_LONGEST_ENDING = 3
_LONGEST_NAME = max(len(name) for name in NAMES)
# How many letters of a word may be wrong.
_MOST_CHANGED = 2
# Squares that are the man's, or a pawn's without its letter.
_MAY_BE_PAWN = re.compile(
    f"([{LETTERS[1:].replace('P', '')}])[a-h][1-8].*?[^A-Za-z0-9-]([a-h][2-7])(?![a-z])",
    re.IGNORECASE,
)
_THOUSANDS = re.compile("[0-9]{1,3}(?: [0-9]{3})+")
_HALVES = re.compile(rb"^(?:\xff\xfe|\xfe\xff)|^[ -~]\x00|^\x00[ -~]")


def utf_16(case: Case) -> Optional[Explanation]:
    """Explains a text in UTF-16, two bytes a letter."""
    return case.tells("utf_16") if _HALVES.match(case.text) else None


def invisible(case: Case) -> Optional[Explanation]:
    """Characters in the word that don't show, or look like blanks."""
    odd = characters.invisible(case.plain)
    if odd is None:
        return None
    if odd == "\ufeff":
        where = sentence("mark_first" if case.plain.startswith(odd) else "mark_inside")
        cure = sentence("mark_joined" if case.word.start > 0 else "mark_save")
        return case.tells("mark", where=where, cure=cure)
    blanks = characters.with_blanks(case.plain)
    joined_up = [blanks.replace(" ", "")] if _is_one_word(blanks) else []
    mended = next((it for it in (blanks, *joined_up) if case.fits(it)), None)
    cure = sentence("blank_in_place") if mended is None else sentence("write", mended=mended)
    looks = sentence("looks_like_blank" if characters.is_wide_blank(odd) else "does_not_show")
    return case.tells("invisible", name=characters.name_of(odd), looks=looks, cure=cure)


def _is_one_word(blanks: str) -> bool:
    """Returns whether blanks in place of a word's signs can't be meant: `h#1 5` may be h#1 or h#15."""
    if re.search("[0-9] +[0-9]", blanks) and not _THOUSANDS.fullmatch(blanks):
        return False
    return _MAY_BE_PAWN.search(blanks) is None


def pawn_or_square(case: Case) -> Optional[Explanation]:
    """Explains squares that a sign parts, as `Ra1,a2`."""
    found = _MAY_BE_PAWN.match(case.plain)
    if found is None:
        return None
    whole = re.sub("[^A-Za-z0-9]", "", case.plain)
    return case.tells("pawn_or_squares", whole=whole, pawn=f"P{found[2]}") if case.fits(whole) else None


def look_alike(case: Case) -> Optional[Explanation]:
    """Explains a letter of another alphabet, or a figurine, in place of one of ours."""
    odd = characters.look_alike(case.plain)
    if odd is None:
        return None
    mended = characters.plain(case.plain)
    if odd in characters.FIGURINES:
        return case.tells("figurine", letter=odd, mended=mended)
    if not case.fits(mended):
        return None
    script, like = characters.script_of(odd), characters.plain(odd)
    return case.tells("look_alike", letter=odd, script=script, like=like, mended=mended)


def comment(case: Case) -> Optional[Explanation]:
    """Explains a sign that begins a comment elsewhere."""
    found = _COMMENT.match(case.plain)
    if found is None or case.fits(case.plain.strip("".join(_SIGNS))):
        return None
    # (a second goal alone, as in `=2 #`, is no comment)
    if case.plain == "#" and len(case.rest_of_line(2)) < 2:
        return None
    # (in a stipulation's line a star means set play)
    opener, section = case.reading.opener, case.reading.section
    is_beside = opener is not None and opener.line == case.word.line
    if found[1] == "*" and section == "Stipulation" and is_beside:
        return case.tells("star_apart") if case.plain.strip("*") == "" else None
    return case.tells("comment", first=found[1])


def without_signs(word: str) -> str:
    """Returns a word without the punctuation around it."""
    return word.strip("".join(_SIGNS))


def signs(case: Case) -> Optional[Explanation]:
    """Punctuation that belongs to the word, since blanks alone part words."""
    inside = re.findall(_SIGN, case.plain)
    # (`#=2` and `#2=` may be either, and -1 isn't 1)
    if not inside or re.match("[sh]?(?:#.*=|=.*#)|-[0-9]", case.plain, re.IGNORECASE):
        return None
    # (a star means set play, a plus may be another goal)
    if case.reading.section == "Stipulation" and any(sign in "*+" for sign in inside):
        return None
    if _is_range(case.plain.lower()):
        return None
    stripped = without_signs(case.plain)
    parted = " ".join(re.sub(_SIGN, " ", case.plain).split())
    # (without the comma `h#1,5.` would be h#15)
    joined = [] if _OF_A_NUMBER.search(case.plain) else [re.sub(_SIGN, "", case.plain)]
    whole = [it for it in joined if _is_name(it)]
    mended = next((it for it in (stripped, *whole, parted, *joined) if case.fits(it)), None)
    if mended is None:
        return None
    kinds = {_SIGNS[it] for it in inside}
    if len(kinds) > 1:
        listed_signs = " ".join(dict.fromkeys(inside))
        return case.tells("signs", signs=listed_signs, mended=mended)
    (kind,) = kinds
    if len(inside) == 1:
        return case.tells("sign", kind=kind, mended=mended)
    kinds_said = kind + ("es" if kind.endswith("sh") else "s")
    return case.tells("sign_often", kinds=kinds_said, mended=mended)


def _is_range(word: str) -> bool:
    """Returns whether a word may name all squares of a line, as `Pa2-h2`, one of two, or a move, as
    `Ra1->b1`."""
    found = _FROM_TO.search(word)
    if found is None or found[3] in (".", ","):
        return False
    if found[3] not in ("-", "–", "—"):
        return True
    files = "abcdefgh".find(found[1]) - "abcdefgh".find(found[4])
    ranks = int(found[2]) - int(found[5])
    return (files == 0 or ranks == 0) and abs(files + ranks) > 1


def parted(case: Case) -> Optional[Explanation]:
    """Explains a word that a blank parts in two."""
    word = case.plain
    if case.after is not None:
        whole = word + characters.decoded(case.after.bytes)
        if case.fits(whole) and _is_name(whole):
            return case.tells("parted", case.after.span, whole=whole)
    before = case.span_before
    # (`SetPlay ; Variation` may have a comment)
    if before is not None and without_signs(word) and _COMMENT.match(word) is None:
        whole = without_signs(characters.decoded(case.text[before.start : before.stop]) + word)
        if _is_name(whole):
            return case.tells("parted", before, whole=whole)
    return None


def _is_name(word: str) -> bool:
    return any(word.lower() == name.lower() for name in NAMES)


def joined(case: Case) -> Optional[Explanation]:
    """Explains two words without a blank between them."""
    word = case.plain
    if re.fullmatch("endproblembeg[a-z]*", word, re.IGNORECASE):
        return case.tells("texts_joined")
    for place in range(len(word) - 1, 0, -1):
        first, second = word[:place], word[place:]
        # (`Qh8B`, `BKg8` and `Pa7rb7` may have a letter too many)
        is_short = len(second) < 3 and second.isalpha()
        is_small = word[0].isupper() and second[0].islower() and is_man(second.encode("utf-8"))
        # (without a digit no word of pops is longer than the names)
        is_long = any(len(it) > _LONGEST_NAME and not re.search("[0-9]", it) for it in (first, second))
        if place < 2 or is_short or is_small or is_long:
            continue
        # (`Stipulations#2` may be one for several)
        if first.lower() == "stipulation" and second[0] in "sS":
            continue
        if second.islower() and named(first.encode("utf-8"), TEXT_WORDS):
            continue
        if case.fits(f"{first} {second}"):
            return case.tells("joined", first=first, second=second)
    return None


def of_popeye(case: Case) -> Optional[Explanation]:
    """Explains a word of Popeye that pops doesn't read."""
    found = unread(case.plain.rstrip(":,;."))
    if found is None:
        return None
    is_whole = case.plain.lower() == found.name.lower()
    return case.tells(
        "unread" if is_whole else "unread_short",
        what=found.what,
        name=found.name,
        instead=found.instead,
    )


def in_another_language(case: Case) -> Optional[Explanation]:
    """Explains a German or French word."""
    found = foreign(case.plain.rstrip(":,;."))
    if found is None:
        return None
    text = sentence("foreign", word=case.quoted, language=found.language)
    there = unread(found.english)
    if there is not None:
        return case.tells("foreign_unread", text=text, name=there.name, instead=there.instead)
    return case.tells("foreign_written", text=text, english=found.english)


def accented(case: Case) -> Optional[Explanation]:
    """Explains an accent on a letter of a word of pops."""
    return case.mends("accented", characters.without_accents(case.plain))


def lengthened(case: Case) -> Optional[Explanation]:
    """Explains a word of pops with letters after it."""
    word = without_signs(case.plain).lower()
    for name in NAMES:
        rest = word[len(name) :]
        if word.startswith(name.lower()) and rest.isalpha() and len(rest) <= _LONGEST_ENDING:
            if case.fits(name) and not _names_more(word, name) and not _goes_on(case, rest):
                return case.tells("lengthened", name=name)
    return None


def _goes_on(case: Case, ending: str) -> bool:
    """Returns whether letters may belong to the next word: `WhiteK g6`, `Stipulations #2`."""
    if case.after is None:
        return False
    whole = ending.encode("utf-8") + case.after.bytes
    return is_man(whole) or stipulation_of(whole) is not None


def too_short(case: Case) -> Optional[Explanation]:
    """Explains two letters of a word of pops."""
    word = case.plain
    if len(word) != 2 or not word.isalpha() or word.lower() == "no":
        return None
    begins_line = case.before is None or case.before.line != case.word.line
    for name in case.names_here():
        # (in `#3 or #2` it is no Origin)
        if name.lower().startswith(word.lower()) and (begins_line or name not in TEXT_WORDS):
            return case.tells("too_short", short=name[:3], name=name)
    return None


def misspelt(case: Case) -> Optional[Explanation]:
    """Explains a word that is nearly one of pops, also with signs around it."""
    word = without_signs(case.plain).lower()
    # (a longer word differs from each name in more letters)
    if not 3 <= len(word) <= _LONGEST_NAME + _MOST_CHANGED or _goes_on(case, word[-1]):
        return None
    best = min(case.names_here(), key=lambda name: _nearness(word, name), default=None)
    if best is None or _nearness(word, best) > (1 if len(word) < 6 else _MOST_CHANGED):
        return None
    # (a digit may be of what was beside it; `0ption` is as long)
    digits = set(re.findall("[0-9]", word))
    if digits and (len(word) != len(best) or not digits <= {"0", "1"}):
        return None
    if _names_more(word, best) or _denies(word, best):
        return None
    return case.tells("misspelt", best=best)


def _denies(word: str, name: str) -> bool:
    """Returns whether a word may be the opposite of a name: `NoVariation`, or `Castling`."""
    small = name.lower()
    if word.startswith("no"):
        return not small.startswith("no")
    return small.startswith("no") and small[2:].startswith(word)


def _names_more(word: str, name: str) -> bool:
    """Returns whether a word may be another condition that begins or ends as this one, as
    CirceParrain."""
    small, plain = name.lower(), characters.without_accents(word)
    if name not in CONDITIONS or plain in (small, f"{small}s", small + small[-1]):
        return False
    return plain.startswith(small) or plain.endswith(small)


def _nearness(word: str, name: str) -> float:
    """Returns how many letters of the word have to be changed to make it a short form of the name.
    """
    small = name.lower()
    # (read backwards Madrasi is another condition, Isardam)
    if sorted(word) == sorted(small) and word != "".join(reversed(small)):
        return 1
    ends = range(max(3, len(word) - 1), min(len(small), len(word) + 1) + 1)
    distances = _distances(word, small)
    forms = [distances[end] + 0.1 for end in ends if end < len(small)]
    return min([distances[-1], *forms])


def _distances(one: str, other: str) -> list[int]:
    """Letters put in, left out, changed or exchanged with a neighbour: for no letter of the other word,
    its first one, its first two, and so on.
    """
    rows: list[list[int]] = [list(range(len(other) + 1))]
    for i, a in enumerate(one, start=1):
        row = [i]
        for j, b in enumerate(other, start=1):
            least = min(row[-1] + 1, rows[-1][j] + 1, rows[-1][j - 1] + (a != b))
            if i > 1 and j > 1 and a == other[j - 2] and one[i - 2] == b:
                least = min(least, rows[-2][j - 2] + 1)
            row.append(least)
        rows.append(row)
    return rows[-1]


def rest_of_a_text(case: Case) -> Optional[Explanation]:
    """Explains a line that seems to go on with the text line above it."""
    above = case.line_above
    if above is None or above.word.line != case.word.line - 1:
        return None
    return case.tells("rest_of_a_text", above.span, name=above.name)


def characters_in(case: Case) -> Iterator[Optional[Explanation]]:
    """Yields the causes that lie in single characters."""
    yield utf_16(case)
    yield invisible(case)
    yield look_alike(case)


def spelling(case: Case) -> Iterator[Optional[Explanation]]:
    """Yields the causes that lie in how a word of pops is written."""
    yield accented(case)
    yield joined(case)
    yield lengthened(case)
    yield too_short(case)
    yield misspelt(case)


def old_mac(text: bytes) -> bool:
    """Returns whether carriage returns alone stand in a text, in place of line ends."""
    return b"\r" in text and b"\n" not in text
