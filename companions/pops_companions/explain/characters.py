"""Characters that don't show, or that look like others."""

import unicodedata
from typing import Any, Optional

from pops_companions.explain.sentences import DATA
from pops_companions.show import titles

_KNOWN: dict[str, Any] = DATA["characters"]
_LIKE = {name: dict(zip(*_KNOWN[name])) for name in ("cyrillic", "greek")}
# The chessmen of Unicode.
FIGURINES: dict[str, str] = dict(zip(*_KNOWN["figurines"]))
_NAMES: dict[str, str] = _KNOWN["names"]


def name_of(character: str) -> str:
    """As `no-break space`."""
    code = f"{ord(character):04X}"
    return _NAMES.get(code, f"character U+{code}")


def decoded(text: bytes) -> str:
    """Returns the text of some bytes: as UTF-8 if they are, else as Latin-1."""
    return titles.shown(text, "utf-8")


def shown(text: bytes) -> str:
    """Returns the text of some bytes, with each character that doesn't show as `<U+00A0>`."""
    return "".join(_shown(character) for character in decoded(text))


def beginning(text: bytes, most: int) -> str:
    """Returns the text of some bytes as it is shown; of a long one the first characters, and `..`."""
    said = "".join(_shown(character) for character in decoded(text)[: most + 1])
    return said if len(said) <= most else f"{said[:most]}.."


def _shown(character: str) -> str:
    is_control = unicodedata.category(character) in ("Cc", "Co", "Cs", "Cn")
    if character == " " or not (is_control or _is_invisible(character)):
        return character
    return f"<U+{ord(character):04X}>"


def _is_invisible(character: str) -> bool:
    return character > "\x7f" and unicodedata.category(character) in ("Zs", "Zl", "Zp", "Cf")


def width(text: str) -> int:
    """Returns how many columns a text takes on a terminal."""
    shown_ones = [it for it in text if not unicodedata.combining(it)]
    return len(shown_ones) + sum(unicodedata.east_asian_width(it) in "WF" for it in shown_ones)


def invisible(text: str) -> Optional[str]:
    """Returns the first character that doesn't show, or shows as a blank and is none."""
    return next((it for it in text if _is_invisible(it)), None)


def is_wide_blank(character: str) -> bool:
    """Returns whether it takes room, as a blank does."""
    return unicodedata.category(character).startswith("Z")


def with_blanks(text: str) -> str:
    """Returns the text with a blank for each invisible character that takes room, without the others."""
    changed = ((" " if is_wide_blank(it) else "") if _is_invisible(it) else it for it in text)
    return " ".join("".join(changed).split())


def look_alike(text: str) -> Optional[str]:
    """Returns the first letter of another alphabet that looks like one of ours, or a wide one."""
    return next((it for it in text if _plain(it) != it), None)


def plain(text: str) -> str:
    """Returns the text with plain letters in place of those that look like them."""
    return "".join(_plain(character) for character in text)


def _plain(character: str) -> str:
    tables: list[dict[str, str]] = [*_LIKE.values(), FIGURINES]
    for table in tables:
        if character in table:
            return table[character]
    is_wide = unicodedata.east_asian_width(character) == "F"
    return unicodedata.normalize("NFKC", character) if is_wide else character


def script_of(character: str) -> str:
    """Returns the script of a letter that looks like one of ours, as `a Greek`."""
    script = next((name for name, table in _LIKE.items() if character in table), "fullwidth")
    scripts: dict[str, str] = _KNOWN["scripts"]
    return scripts[script]


def without_accents(text: str) -> str:
    """Returns the text with its letters alone, as `pieces` of `pièces`."""
    parts = unicodedata.normalize("NFKD", text.replace("ß", "ss"))
    return "".join(it for it in parts if not unicodedata.combining(it))
