"""The Remarks that pops-import made of keys in YAML, as these keys again; source and date apart."""

import re
from collections.abc import Iterable, Iterator, Sequence
from typing import NamedTuple, Optional, Union

from pops_companions.import_.origins import BELOW_DATE, MONTHS, origin_of

Value = Union["dict[str, Value]", "list[str]"]

# Keys of Olive and YACPDB that an input of pops keeps as Remarks, `key: text` or `key.below: text`.
_KEYS = (
    *("id", "source-id", "sourceid", "issue-id", "volume", "issue", "round", "keywords", "solution"),
    *("distinction", "award", "awards", "tourney", "judge", "judges"),
    *("reprint", "reprints", "legend", "dedication", "ash", "version"),
)
# (a collection has fewer levels)
_FIELD = re.compile(rf"((?:{'|'.join(_KEYS)})(?:\.[\w-]+){{0,40}}):(?: (.*))?", re.IGNORECASE)
# As Popeye's input has it.
_AWARD = re.compile(r"Award (.+)")
_SOURCE = re.compile("source: (.+)")
_NUMBER = re.compile(r"(.+), (\d+[a-z]?)")
_DATE = re.compile(rf"(?:(.*?)(?:, | ))??(?:(?:(\d\d?) )?({'|'.join(MONTHS)}) )?(\d{{4}})")


class Fields(NamedTuple):
    """What Remarks say: keys with their texts, and the Remarks that are comments."""

    keys: dict[str, Value]
    comments: list[str]


class Source(NamedTuple):
    """Where a problem was published: a name with more keys, and a date; either may be empty."""

    name: str
    more: tuple[tuple[str, str], ...]
    date: str


def fields_of(remarks: Iterable[str]) -> Fields:
    """Returns the keys of YAML that Remarks were made of."""
    fields = Fields({}, [])
    for remark in remarks:
        found, award = _FIELD.fullmatch(remark), _AWARD.fullmatch(remark)
        path, text = remark, ""
        if found is not None:
            path, text = found[1], found[2] or ""
        elif award is not None:
            path, text = "award", award[1]
        if (found or award) is None or not put(fields.keys, path.split("."), text):
            fields.comments.append(remark)
    return fields


def put(keys: dict[str, Value], path: Sequence[str], text: str) -> bool:
    """Adds a text below keys; returns whether there was room."""
    first, below = path[0], path[1:]
    if below:
        inner = keys.setdefault(first, {})
        return isinstance(inner, dict) and put(inner, below, text)
    texts = keys.setdefault(first, [])
    if isinstance(texts, dict):
        return False
    texts.append(text)
    return True


def source_of(origin: str, remarks: Sequence[str]) -> Optional[tuple[Source, list[str]]]:
    """Returns source and date of an origin, and the Remarks without those on it.

    None where an import wouldn't give the origin back.
    """
    rests = [found[1] for found in (_SOURCE.fullmatch(text) for text in remarks) if found]
    others = [text for text in remarks if not _SOURCE.fullmatch(text)]
    # (as in `volume 5, issue 3`)
    parts = [it.partition(" ") for it in rests[0].split(", ")] if len(rests) == 1 else []
    more = tuple((name, text) for name, _, text in parts)
    dated = _DATE.fullmatch(origin)
    changed = more if dated is None else tuple(_dated(more, dated))
    # (four digits at the end are a year, or the number of a problem)
    for date, rest in ((dated, more), (dated, changed), (None, more)):
        source = _source_of(origin, date, rest)
        named = [("name", source.name)] * bool(source.name) + [*source.more]
        made = origin_of(named + [("date", source.date)] * bool(source.date))
        kept = rests if rest is more else [", ".join(f"{name} {text}" for name, text in rest)]
        if (made.line, [made.rest] if made.rest else []) == (origin, kept):
            return source, others
    return None


def _dated(more: tuple[tuple[str, str], ...], parts: "re.Match[str]") -> Iterator[tuple[str, str]]:
    """Yields the keys of a source, with the date of its origin in place of its own."""
    month = MONTHS.index(parts[3]) + 1 if parts[3] else None
    numbers = {"year": parts[4], "month": month, "day": parts[2]}
    date = [(BELOW_DATE + name, str(it)) for name, it in numbers.items() if it is not None]
    for name, text in more:
        if not name.startswith(BELOW_DATE):
            yield name, text
        elif date:
            yield from date
            date = []


def _source_of(
    origin: str, parts: "Optional[re.Match[str]]", more: tuple[tuple[str, str], ...]
) -> Source:
    """Returns the source of an origin, with a date if these are its parts."""
    name, date = origin, ""
    if parts is not None:
        month = f"-{MONTHS.index(parts[3]) + 1:02}" if parts[3] else ""
        day = f"-{int(parts[2]):02}" if parts[2] else ""
        is_below = any(it.startswith(BELOW_DATE) for it, _ in more)
        name, date = parts[1] or "", "" if is_below else f"{parts[4]}{month}{day}"
    number = _NUMBER.fullmatch(name)
    if number is not None:
        name, more = number[1], (("problemid", number[2]), *more)
    return Source(name, more, date)
