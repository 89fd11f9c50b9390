"""Recognizes the form of a collection."""

import re

from pops_companions.import_.draft import Draft
from pops_companions.import_.popeye import begins, read_popeye
from pops_companions.import_.words import Message, Unreadable
from pops_companions.import_.yaml_problems import read_yaml

# A line with which collections in YAML begin: a document's mark, a directive, a key, or what begins
# in JSON, which is YAML too.
_YAML = re.compile(
    r"(?:[^\S\n]*(?:#.*)?\n)*(?:---(?:\s|$)|%YAML|(?:- )?[A-Za-z-]+:(?:\s|$)|[^\S\n]*[\[{])"
)
# The mark of a document, or a directive: words of Popeye begin no problem there.
_MARKED = re.compile(r"(?:[^\S\n]*(?:#.*)?\n)*(?:---(?:\s|$)|%YAML)")
# How much is said of a problem or a twin.
_MOST_SAID = 100


def read_drafts(text: str) -> list[Draft]:
    """Returns the problems of a text in one of the forms. Unreadable where it holds none."""
    drafts = _read(text)
    for draft in drafts:
        draft.notes = _first(draft.notes)
        draft.faults = _first(draft.faults)
        for twin in draft.twins:
            twin.faults = _first(twin.faults)
    return drafts


def _first(said: list[Message]) -> list[Message]:
    """Returns the first messages, then how many there are besides."""
    if len(said) <= _MOST_SAID:
        return said
    more = Message(said[_MOST_SAID].line, f"and {len(said) - _MOST_SAID} more")
    return [*said[:_MOST_SAID], more]


def _read(text: str) -> list[Draft]:
    text = text.replace("\r\n", "\n").lstrip("\ufeff")
    if "\n" not in text:
        text = text.replace("\r", "\n")
    if not text.strip():
        raise Unreadable(1, "there is no problem: the text is empty")
    if _MARKED.match(text) or _YAML.match(text) and not begins(text):
        drafts = read_yaml(text)
        if not drafts:
            raise Unreadable(1, "there is no problem: all documents are empty")
        return drafts
    return read_popeye(text)
