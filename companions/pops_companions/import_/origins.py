"""Where a problem was published, as magazines print it: `Die Schwalbe, August 1977`."""

import re
from collections.abc import Sequence
from typing import NamedTuple

MONTHS = tuple(
    "January February March April May June July August September October November December".split()
)
# What the parts of a date in a source are named by, as in `date.year`.
BELOW_DATE = "date."
_PARTS_OF_DATE = ("year", "month", "day")
_DATE = re.compile(r"([0-9]{4})(?:[-/.]([0-9]{1,2}))?(?:[-/.]([0-9]{1,2}))?")


class Origin(NamedTuple):
    """The line of Origin, and what it has no room for: a Remark."""

    line: str
    rest: str


def origin_of(parts: Sequence[tuple[str, str]]) -> Origin:
    """Returns the origin of named parts, such as `name`, `date`, `volume`; unknown ones are the
    rest.

    `year`, `month` and `day` may stand in place of `date`. Where they are below the date of a source,
    as `date.year`, the rest has them too.
    """
    names = [text for name, text in parts if name == "name"]
    numbers = [text for name, text in parts if name == "problemid"]
    dates = [date_text(text) for name, text in parts if name == "date"]
    named = [(name.replace(BELOW_DATE, ""), text) for name, text in parts]
    by_name = {name: text for name, text in named if name in _PARTS_OF_DATE}
    if "year" in by_name:
        text = "-".join(by_name[name] for name in ("year", "month", "day") if name in by_name)
        dates.append(date_text(text))
    known = {"name", "problemid", "date", *(by_name if "year" in by_name else ())}
    rest = ", ".join(f"{name} {text}" for name, text in parts if name not in known)
    return Origin(_joined(names, numbers, dates), rest)


def _joined(names: list[str], numbers: list[str], dates: list[str]) -> str:
    """Joins name and date; a year alone follows without a comma, as in `Die Schwalbe 1977`."""
    line = ", ".join(names + numbers)
    for date in dates:
        between = " " if re.fullmatch("[0-9]{4}", date) and names and not numbers else ", "
        line = f"{line}{between}{date}" if line else date
    return line


def date_text(text: str) -> str:
    """Returns a date of a collection, as `1977-08`, in words: `August 1977`; other texts as they
    are.
    """
    parts = _DATE.fullmatch(text.strip())
    if parts is None or parts[2] is None:
        return text.strip() if parts is None else parts[1]
    month = int(parts[2])
    if month == 0:
        return parts[1]
    if month > len(MONTHS):
        return text.strip()
    day = f"{int(parts[3])} " if parts[3] is not None and int(parts[3]) else ""
    return f"{day}{MONTHS[month - 1]} {parts[1]}"
