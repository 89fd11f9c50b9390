"""Letters beyond ASCII in commands of LaTeX."""

import re
import unicodedata
from typing import Any

# Accents as LaTeX writes them, by the names that Unicode gives them.
_ACCENTS = {
    "GRAVE ACCENT": "`",
    "ACUTE ACCENT": "'",
    "CIRCUMFLEX ACCENT": "^",
    "TILDE": "~",
    "DIAERESIS": '"',
    "DOUBLE ACUTE ACCENT": "H",
    "RING ABOVE": "r",
    "CARON": "v",
    "BREVE": "u",
    "MACRON": "=",
    "DOT ABOVE": ".",
    "DOT BELOW": "d",
    "MACRON BELOW": "b",
    "CEDILLA": "c",
    "OGONEK": "k",
    "COMMA BELOW": "textcommabelow",
    "HORN": "horned",
    "HOOK ABOVE": "hooked",
    "TILDE BELOW": r"belowletter{\~}",
    "DIAERESIS BELOW": r'belowletter{\"}',
    "CIRCUMFLEX ACCENT BELOW": r"belowletter{\^}",
    "BREVE BELOW": r"belowletter{\u}",
    "RING BELOW": r"belowletter{\r}",
}
_ABOVE = frozenset([*"`'^~\"Hrvu=.", "hooked"])
# Letters that are no letter of ASCII with an accent.
_LETTERS = {
    "Ø": r"\O", "ø": r"\o", "Ł": r"\L", "ł": r"\l", "Đ": r"\DJ", "đ": r"\dj", "ı": r"\i", "ȷ": r"\j", "ĸ": r"\textsc{k}",
    "Æ": r"\AE", "æ": r"\ae", "Œ": r"\OE", "œ": r"\oe", "ß": r"\ss", "ẞ": r"\SS", "Ð": r"\DH", "ð": r"\dh", "Þ": r"\TH", "þ": r"\th",
    "Ŋ": r"\NG", "ŋ": r"\ng", "·": r"\textperiodcentered", "ʼ": "'",
}  # fmt: skip
CYRILLIC = range(0x0400, 0x0530)
_RUSSIAN = range(0x0410, 0x0450)
_STROKED = re.compile(r"LATIN (CAPITAL|SMALL) LETTER (?:DOTLESS )?([A-Z]) WITH (?:DIAGONAL )?STROKE\b")
_BASE = re.compile(r"LATIN (CAPITAL|SMALL) LETTER (?:[A-Z]+ )??([A-Z])(?: WITH .*)?$")


def letters_of_page() -> dict[str, Any]:
    """Returns what the page that solves needs for `in_commands`: each letter of Latin and Cyrillic and
    each accent in commands, and in `exact` the characters that these set as they are.
    """
    codes = [*range(0xA1, 0x250), *range(0x300, 0x370), *CYRILLIC]
    codes += [*range(0x1E00, 0x1F00), *range(0x2010, 0x2050)]
    known = [chr(code) for code in codes if unicodedata.name(chr(code), "")]
    return {
        "letters": {it: in_commands(it)[0] for it in known},
        "exact": "".join(it for it in known if in_commands(it)[1]),
    }


def in_commands(character: str) -> tuple[str, bool]:
    """Returns a character in commands of LaTeX, and whether they set it as it is; `?` where there
    are none. An accent of its own is set over the letter before it.
    """
    base, *accents = list(unicodedata.normalize("NFD", character))
    commands = [_ACCENTS[name] for name in map(_accent, accents) if name in _ACCENTS]
    is_exact = len(commands) == len(accents)
    if _accent(base) in _ACCENTS:
        return rf"\overlast{{\{_ACCENTS[_accent(base)]}}}", is_exact
    text, is_plain = _plain(base)
    # (those below a letter come last: around them an accent above would lose its place)
    for command in sorted(commands, key=lambda it: it not in _ABOVE):
        inner = {"i": r"\i", "j": r"\j"}.get(text, text) if command in _ABOVE else text
        text = rf"\{command}{{{inner}}}"
    return text, is_exact and is_plain


def _accent(character: str) -> str:
    """Returns the name of an accent that is a character of its own; empty for another one."""
    name = unicodedata.name(character, "")
    return name.removeprefix("COMBINING ") if name.startswith("COMBINING ") else ""


def _plain(base: str) -> tuple[str, bool]:
    """Returns a letter without accents, and whether it is this letter."""
    code = ord(base)
    if code < 0x80 or code in CYRILLIC:
        return (base if code < 0x80 or code in _RUSSIAN else "?"), True
    if base in _LETTERS:
        return _LETTERS[base], True
    name = unicodedata.name(base, "")
    parts = _STROKED.match(name)
    if parts is not None:
        letter = parts[2] if parts[1] == "CAPITAL" else parts[2].lower()
        return rf"\stroked{{{letter}}}", True
    alike = unicodedata.normalize("NFKC", base)
    if alike != base and alike[0] != " ":
        found = [in_commands(it) for it in alike]
        return "".join(it for it, _ in found), len(found) > 1 and all(it for _, it in found)
    parts = _BASE.match(name)
    if parts is None:
        return "?", False
    return (parts[2] if parts[1] == "CAPITAL" else parts[2].lower()), False
