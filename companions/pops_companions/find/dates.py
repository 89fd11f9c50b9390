"""The date in an origin: `1977-08`, `15.8.1977`, `8/1977`, `VIII/1977`, `August 1977`."""

import re
from collections.abc import Iterable
from typing import Optional

from pops_companions.sheet.languages import LANGUAGES

_ROMAN = "I II III IV V VI VII VIII IX X XI XII".split()
_MONTHS = [language.months.split() for language in LANGUAGES.values()]
_NUMBERS = {
    name.casefold(): number
    for names in (*_MONTHS, _ROMAN)
    for number, name in enumerate(names, start=1)
}
_ANY_ROMAN = "|".join(_ROMAN).casefold()
_NAMES = "|".join(name for names in _MONTHS for name in names).casefold()
_YEAR = r"(?P<year>(?:1[4-9]|20)[0-9]{2})\b"
# Dates in small letters (a Roman number before a blank and a year is a tourney's).
_DATES = (
    rf"\b{_YEAR}-(?P<month>[0-9]{{2}})(?:-(?P<day>[0-9]{{2}}))?\b",
    rf"\b(?:(?P<day>[0-9]{{1,2}})\. ?)?(?P<month>[0-9]{{1,2}}|{_ANY_ROMAN})[./] ?{_YEAR}",
    rf"\b(?:(?P<day>[0-9]{{1,2}})\.? )?(?P<month>{_NAMES}) {_YEAR}",
    rf"\b{_YEAR}",
)
_LAST_DAY = 31


def date_of(origin: str) -> str:
    """Returns an origin's date, as `1977-08-15`, `1977-08` or `1977`; empty where there is none."""
    return _first(re.search(date, origin.casefold()) for date in _DATES)


def whole_date(text: str) -> str:
    """Returns the date that a text is, as `date_of` does; empty for another text."""
    return _first(re.fullmatch(date, text.casefold()) for date in _DATES)


def _first(found: Iterable[Optional["re.Match[str]"]]) -> str:
    dates = (_dated(**one.groupdict()) for one in found if one is not None)
    return next(filter(None, dates), "")


def _dated(year: str, month: str = "", day: str = "") -> str:
    """Returns a date of its parts; empty for a month or day that is none."""
    if not month:
        return year
    number = _NUMBERS.get(month) or int(month)
    if not 1 <= number <= len(_ROMAN) or not 1 <= int(day or 1) <= _LAST_DAY:
        return ""
    return f"{year}-{number:02}" + (f"-{int(day):02}" if day else "")
