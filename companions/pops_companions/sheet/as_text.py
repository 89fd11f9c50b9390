"""A sheet as plain text."""

from collections.abc import Iterable, Iterator

from pops_companions.sheet.entries import Entry, Part, index_of
from pops_companions.sheet.languages import Language, marked_as
from pops_companions.sheet.solution import lines_of
from pops_companions.show.authors import joined
from pops_companions.show.diagram import position_in_words

_INDENT = "  "


def as_text(entries: Iterable[Entry], language: Language) -> str:
    """Returns the text of a sheet, with the index of authors at its end."""
    all_entries = list(entries)
    parts = ["".join(f"{line}\n" for line in _entry(one, language)) for one in all_entries]
    index = index_of(all_entries)
    if index:
        lines = [f"{name}: {', '.join(it.number for it in own)}\n" for name, own in index]
        parts.append("".join([f"{language.authors}\n", *(_INDENT + line for line in lines)]))
    return "\n".join(parts)


def _entry(entry: Entry, language: Language) -> Iterator[str]:
    title = ": ".join(filter(None, (joined(entry.authors), entry.title)))
    yield f"{entry.number}. {title}".rstrip()
    if entry.origin:
        yield _INDENT + entry.origin
    if entry.board is not None:
        men = position_in_words(entry.board, language.letters, language.sides, language.no_men)
        yield _INDENT + men
        yield f"{_INDENT}{entry.asked} ({entry.count})"
    for part in entry.parts:
        yield from _part(part, language)


def _part(part: Part, language: Language) -> Iterator[str]:
    marks = marked_as(language, {})
    if part.heading:
        yield _INDENT + part.heading.translate(marks)
    if part.fault:
        yield _INDENT + part.fault
    yield from (_INDENT + line for line in lines_of(part.blocks, marks))
    if part.note:
        yield _INDENT + part.note
