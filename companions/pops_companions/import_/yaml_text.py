"""YAML as collections of chess problems are written in it, read by PyYAML.

Every value is a text, or nothing. Each text knows its line. A document that is no YAML leaves the
others readable. Refused are anchors and aliases, keys that aren't texts and keys that occur twice;
tags have no meaning. Line ends at the end of a block text are dropped.
"""

import importlib
import re
from collections.abc import Iterator
from typing import Any, NamedTuple, Union

from pops_companions.command import DeviceError

Node = Union[None, "Scalar", "list[Node]", "dict[str, Node]"]

# The line that begins a document, or ends one.
_MARK = re.compile(r"(?:---|\.\.\.)(?=\s|$)")
# What PyYAML says of a text, and what it means for the one who wrote it.
_MEANINGS = (
    (r"mapping values are not .*", "a colon with a blank after it is in a text without quotes"),
    (r"could not find expected ':'", "a key with a colon and a blank after it is missing"),
    (r"found character '\\t' that .*", "a tab is where blanks show the level"),
    (r"found character '(.+)' that .*", r"a text can't begin with \1: put it in quotes"),
    (r"found unexpected end of stream", "the quote isn't closed"),
    (r"expected ',' or '(.)', .*", r"a comma or \1 is missing"),
    (r"expected <block end>, .*", "this line belongs to nothing above it"),
)
# A text in double quotes, or one up to the end whose quote isn't closed: after it no other is. An
# escape in it.
_IN_QUOTES = re.compile(r'"(?:[^"\\]|\\.)*(?:(")|\\?\Z)', re.S)
_ESCAPE = re.compile(r"\\(.)", re.S)
# The characters that begin escapes of YAML.
_ESCAPES = '0abt\tnvfre "/\\N_LP\nxuU'
_NOTHING = ("", "~", "null", "Null", "NULL")
# A collection has five levels or fewer.
_MOST_LEVELS = 40


class YamlError(ValueError):
    """A text that can't be read as YAML, with the line and what is wrong."""

    def __init__(self, line: int, text: str):
        super().__init__(text)
        self.line = line


class Scalar(str):
    """A text with the line where it begins."""

    line: int

    def __new__(cls, text: str, line: int) -> "Scalar":
        made = super().__new__(cls, text)
        made.line = line
        return made


def line_of(key: str) -> int:
    """Returns the line of a key of a mapping that was read."""
    assert isinstance(key, Scalar)
    return key.line


class Document(NamedTuple):
    """A document of a stream: its text, from `line` on, which `node` reads."""

    line: int
    text: str

    def node(self) -> Node:
        """Returns what the document holds. YamlError where that can't be read.

        An unknown escape is read as it stands.
        """
        try:
            return _read(self.text, self.line)
        except YamlError:
            mended = _with_known_escapes(self.text)
            if mended == self.text:
                raise
        return _read(mended, self.line)


def documents(text: str) -> Iterator[Document]:
    """Yields the documents of a stream that have more than comments."""
    line, is_empty = 1, True
    lines: list[str] = []
    for number, row in enumerate([*text.split("\n"), "..."], start=1):
        if _MARK.match(row):
            if not is_empty:
                yield Document(line, "\n".join(lines))
            line, lines, is_empty = number, [], True
            row = f"   {row[3:]}" if row.startswith("-") else ""
        elif row.startswith("%") and is_empty:
            row = ""
        lines.append(row)
        is_empty = is_empty and row.lstrip()[:1] in ("", "#")


def _pyyaml() -> Any:
    """Returns the module of PyYAML. CommandError where it isn't installed."""
    try:
        return importlib.import_module("yaml")
    except ImportError:
        message = "a collection in YAML needs PyYAML (Debian: python3-yaml), which isn't installed"
        raise DeviceError(message) from None


def _with_known_escapes(text: str) -> str:
    r"""Doubles the backslashes in quotes that begin no escape of YAML, as in `"\Diagram"`."""

    def read(escape: "re.Match[str]") -> str:
        return escape[0] if escape[1] in _ESCAPES else f"\\{escape[0]}"

    return _IN_QUOTES.sub(
        lambda quoted: _ESCAPE.sub(read, quoted[0]) if quoted[1] else quoted[0], text
    )


def _read(text: str, first: int) -> Node:
    """Returns what a document holds whose first line has this number."""
    yaml = _pyyaml()
    if yaml.__with_libyaml__:
        try:
            return _Reader(yaml, yaml.parse(text, yaml.CBaseLoader), first).document()
        except yaml.YAMLError:
            # The slower parser names the same faults on every machine, and reads surrogates.
            pass
    try:
        loader = yaml.BaseLoader(text)
        return _Reader(yaml, iter(loader.get_event, None), first).document()
    except yaml.MarkedYAMLError as error:
        ends = "end of stream" in error.problem and error.context_mark is not None
        mark = error.context_mark if ends else error.problem_mark
        raise YamlError(first + mark.line, _meaning(error.problem)) from None
    except yaml.reader.ReaderError as error:
        line = first + text.count("\n", 0, error.position)
        raise YamlError(line, f"U+{error.character:04X} isn't allowed") from None
    except YamlError:
        raise
    except (ValueError, OverflowError):
        # (PyYAML refuses none by itself)
        raise YamlError(first + loader.line, "a code or a number is too large") from None


def _meaning(problem: str) -> str:
    for said, meaning in _MEANINGS:
        found = re.fullmatch(said, problem)
        if found is not None:
            return found.expand(meaning)
    return problem


class _Reader:
    """Makes nodes of the events of a document whose first line has the number `first`."""

    def __init__(self, yaml: Any, events: Iterator[Any], first: int):
        self._yaml = yaml
        self._events = events
        self._first = first

    def document(self) -> Node:
        nodes = (it for it in self._events if isinstance(it, self._yaml.NodeEvent))
        node = self._node(next(nodes))
        for _ in self._events:
            # (what follows may be refused)
            pass
        return node

    def _fault(self, event: Any, text: str) -> YamlError:
        return YamlError(self._first + event.start_mark.line, text)

    def _node(self, event: Any, level: int = 0) -> Node:
        """Refuses too many levels before PyYAML has read them, which would take long."""
        if event.anchor is not None:
            raise self._fault(event, "anchors and aliases aren't read")
        if isinstance(event, self._yaml.ScalarEvent):
            return self._text(event)
        if level == _MOST_LEVELS:
            raise self._fault(event, f"there are more than {_MOST_LEVELS} levels")
        if isinstance(event, self._yaml.SequenceStartEvent):
            return [self._node(inner, level + 1) for inner in self._inside()]
        mapping: dict[str, Node] = {}
        for inner in self._inside():
            key = self._node(inner, level + 1)
            if not isinstance(key, Scalar):
                raise self._fault(inner, "a key has to be a text")
            if key in mapping:
                raise YamlError(key.line, f"the key {key} occurs twice")
            mapping[key] = self._node(next(self._events), level + 1)
        return mapping

    def _inside(self) -> Iterator[Any]:
        """Yields the first events of the nodes up to the end of a sequence or a mapping."""
        for event in self._events:
            if isinstance(event, self._yaml.CollectionEndEvent):
                return
            yield event

    def _text(self, event: Any) -> Node:
        """Returns the text of a scalar; nothing for one without quotes that stands for nothing."""
        text: str = event.value
        if not event.style and text in _NOTHING:
            return None
        try:
            # (a character outside the first plane may be written as two codes of four digits)
            text = text.encode("utf-16", "surrogatepass").decode("utf-16")
        except UnicodeDecodeError:
            raise self._fault(event, "a code stands for no character") from None
        line = self._first + event.start_mark.line
        return Scalar(text.rstrip() if event.style in ("|", ">") else text, line)
