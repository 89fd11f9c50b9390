"""Man pages of the companions, made of their help.

`python3 -m tests.man_pages`, called in companions/, writes docs/man/*.1 again.
"""

import argparse
import re
import textwrap
from collections.abc import Iterator
from typing import NoReturn
from unittest import mock

from tests import support

FOLDER = support.REPOSITORY / "docs" / "man"
_WIDTH = 80


def companions() -> list[str]:
    """The names of all companions that are installed."""
    files = (path for path in support.COMPANIONS.iterdir() if path.is_file())
    names = (path.name for path in files if path.stat().st_mode & 0o100)
    return sorted(name for name in names if not name.startswith("try-"))


class _Parser(Exception):
    """The reader of a companion's arguments, as it is called."""

    def __init__(self, parser: argparse.ArgumentParser):
        super().__init__()
        self.parser = parser


def _caught(parser: argparse.ArgumentParser, *_: object) -> NoReturn:
    raise _Parser(parser)


def page_of(name: str) -> str:
    """The man page of a companion."""
    module = support.loaded(name)
    with mock.patch.object(argparse.ArgumentParser, "parse_args", _caught):
        try:
            module.main([])
        except _Parser as found:
            parser = found.parser
    summary = (module.__doc__ or "").strip().rstrip(".")
    parts = [
        f'.TH {name.upper()} 1 "" pops "User Commands"',
        ".SH NAME",
        f"{_safe(name)} \\- {_safe(summary[0].lower() + summary[1:])}",
        ".SH SYNOPSIS",
        f".B {_safe(name)}",
        *_synopsis(parser),
        ".SH DESCRIPTION",
        *_paragraphs(parser.description or ""),
        ".SH OPTIONS",
        *(line for action in parser._actions for line in _option(parser, action)),
        *_epilog(parser.epilog or ""),
        ".SH SEE ALSO",
        ".BR pops (1),",
        ".I COMPANIONS.md",
        "in",
        ".IR PREFIX/share/doc/pops .",
    ]
    return "\n".join(parts) + "\n"


def _safe(text: str) -> str:
    """A text without what the formatter would take for its own."""
    text = text.replace("\\", "\\e").replace("-", "\\-")
    return re.sub(r"^(?=[.'])", r"\\&", text, flags=re.M)


def _filled(text: str) -> list[str]:
    lines = textwrap.wrap(text, _WIDTH, break_long_words=False, break_on_hyphens=False)
    return [_safe(line) for line in lines]


def _synopsis(parser: argparse.ArgumentParser) -> Iterator[str]:
    places = [_value(action) for action in parser._actions if not action.option_strings]
    needed = [
        f"{action.option_strings[0]} {_value(action)}"
        for action in parser._actions
        if action.option_strings and action.required
    ]
    yield _safe(" ".join(["[OPTION ...]", *needed, *places]))


def _value(action: argparse.Action) -> str:
    """What an option or a place takes, as `FILE`; empty for an option without a value."""
    if action.nargs == 0:
        return ""
    name = action.metavar or "|".join(map(str, action.choices or [action.dest.upper()]))
    assert isinstance(name, str)
    return {"?": f"[{name}]", "*": f"[{name} ...]", "+": f"{name} ..."}.get(str(action.nargs), name)


def _paragraphs(text: str) -> Iterator[str]:
    for place, paragraph in enumerate(text.split("\n\n")):
        if place:
            yield ".PP"
        yield from _filled(" ".join(paragraph.split()))


def _option(parser: argparse.ArgumentParser, action: argparse.Action) -> Iterator[str]:
    text = parser._get_formatter()._expand_help(action)
    yield ".TP"
    yield f".B {_safe(f'{names_of(action)} {_value(action)}'.strip())}"
    yield from _filled(" ".join(text.split()))


def names_of(action: argparse.Action) -> str:
    """The names of an option, as `-o, --output`; empty for a place."""
    return ", ".join(action.option_strings)


def _epilog(text: str) -> Iterator[str]:
    """The examples and the exit status that end a help."""
    for heading, lines in _sections(text):
        yield f".SH {heading}"
        if heading == "EXAMPLES":
            yield from [".nf", ".RS", *map(_safe, lines), ".RE", ".fi"]
        else:
            yield from _filled(" ".join(lines))


def _sections(text: str) -> Iterator[tuple[str, list[str]]]:
    heading, lines = "", [""]
    for line in text.split("\n"):
        found = re.match(r"(examples?|exit status): ", line)
        if found is None:
            lines.append(line.strip())
            continue
        if heading:
            yield heading, lines
        heading = "EXIT STATUS" if found[1] == "exit status" else "EXAMPLES"
        lines = [line[found.end() :]]
    if heading:
        yield heading, lines


def main() -> None:
    FOLDER.mkdir(exist_ok=True)
    for name in companions():
        (FOLDER / f"{name}.1").write_text(page_of(name), "utf-8")


if __name__ == "__main__":
    main()
