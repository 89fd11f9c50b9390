"""Problems in YAML, with the keys of the Olive editor and of YACPDB as we remember them.

Texts are in double quotes; a solution is a block text.
"""

import json
import re
from collections.abc import Iterable, Iterator, Mapping, Sequence
from typing import Optional

from pops_companions.chess.men import Colour
from pops_companions.export.problems import Exported
from pops_companions.export.yaml_fields import Fields, Source, Value, fields_of, put, source_of
from pops_companions.import_.sections import wanted_of
from pops_companions.input.writing import men_in
from pops_companions.report.items import SoundItem
from pops_companions.show.authors import persons

_INTENDED = "intended-solutions"
_WANTED = re.compile("solutions [1-9][0-9]{0,8}")
_SAID = re.compile(rf"{_INTENDED}: (.*\..*)")
# Keys that have a list, also of one, and a key whose texts are a list.
_LISTS = ("awards", "judges", "keywords", "reprints")
_LISTS_OF_TEXTS = (*_LISTS, "judge")
# What YAML allows only as a code, or takes for the end of a line. JSON leaves it as it is.
_UNPRINTABLE = re.compile("[\x7f-\x9f\u2028\u2029\ufeff\ufffe\uffff]")
_SIGNS = re.compile("(.*?)([#+=]?)([!?]?)")
# What Popeye prints after a first move in place of the line that a text of tries has below it.
_MENACES = {"threat": " threat:", "zugzwang": " zugzwang.", "check": ""}
# What Popeye prints after solutions that may not be all.
PARTIAL = "Partial solution"


def yaml_of(problems: Iterable[Exported], items: Mapping[int, SoundItem]) -> Iterator[str]:
    """Yields a document for each problem, with the solutions of the items by their numbers."""
    for one in problems:
        yield "---\n" + "".join(f"{line}\n" for line in _document(one, items))


def _document(one: Exported, items: Mapping[int, SoundItem]) -> Iterator[str]:
    problem = one.problem
    origin, *more_origins = problem.origins or ("",)
    remarks: Sequence[str] = problem.remarks
    parted = source_of(origin, remarks) if origin else None
    if parted is not None:
        remarks = parted[1]
    fields = fields_of(remarks)
    yield from _field("id", fields.keys.pop("id", []))
    if problem.author:
        yield from _list("authors", [person.text for person in persons(problem.author)])
    if problem.title:
        yield f"title: {_quoted(problem.title)}"
    if parted is not None:
        yield from _origin(parted[0])
    elif origin:
        yield f"source: {_quoted(origin)}"
    if more_origins:
        yield from _list("origins", more_origins)
    yield "algebraic:"
    men: dict[Colour, list[str]] = {}
    for square, man in men_in(problem.pieces):
        men.setdefault(man.colour, []).append(man.kind.value + square.name)
    for colour, words in men.items():
        yield f"  {colour.value}: [{', '.join(words)}]"
    yield f"stipulation: {_quoted(problem.stipulation)}"
    if problem.condition:
        yield f"conditions: [{problem.condition}]"
    if problem.options:
        yield from _list("options", problem.options)
    if one.twins:
        yield "twins:"
        for twin in one.twins:
            yield f"  {twin.letter}: {_quoted(twin.changes)}"
    stored = fields.keys.pop("solution", [])
    yield from _remarks(fields)
    solution = list(_solution(one, items))
    yield from solution or _stored(stored)


def _origin(source: Source) -> Iterator[str]:
    """Yields the keys of source and date."""
    if source.more:
        keys: dict[str, Value] = {}
        for key, text in [("name", source.name)] * bool(source.name) + [*source.more]:
            put(keys, key.split("."), text)
        yield from _field("source", keys)
    elif source.name:
        yield f"source: {_quoted(source.name)}"
    if source.date:
        yield f"date: {_scalar(source.date)}"


def _field(key: str, value: Value, indent: str = "") -> Iterator[str]:
    """Yields a key with what is below it."""
    # (without quotes it would be nothing)
    key = _quoted(key) if key.lower() == "null" else key
    if isinstance(value, dict):
        yield f"{indent}{key}:"
        is_list = list(value) == [str(number) for number in range(1, len(value) + 1)]
        if is_list or key.lower() in _LISTS:
            members = value if is_list else {"1": value}
            yield from (f"{indent}  {line}" for line in _members(members))
            return
        for name, below in value.items():
            yield from _field(name, below, f"{indent}  ")
    elif len(value) == 1 and key.lower() not in _LISTS_OF_TEXTS:
        yield f"{indent}{key}: {_scalar(value[0])}"
    elif value:
        yield from (f"{indent}{line}" for line in _list(key, value))


def _members(value: "dict[str, Value]") -> Iterator[str]:
    """Yields the members of a list, of which some have keys."""
    for member in value.values():
        if isinstance(member, dict):
            lines = [line for name, below in member.items() for line in _field(name, below)]
            yield from (f"{'  ' if place else '- '}{line}" for place, line in enumerate(lines))
        else:
            yield f"- {_scalar(member[0]) if len(member) == 1 else json.dumps(member)}"


def _scalar(text: str) -> str:
    return text if re.fullmatch("[1-9][0-9]{0,17}", text) else _quoted(text)


def _stored(value: Value) -> Iterator[str]:
    """Yields a solution that the input keeps, as it was."""
    if isinstance(value, dict):
        yield from _field("solution", value)
    elif any(not line.isprintable() for line in value):
        yield f"solution: {_quoted(chr(10).join(value))}"
    elif value:
        # (where the first line is set in, the number of blanks before each line has to be named)
        yield f"solution: |{'2' if value[0][:1] in (' ', '') else ''}"
        yield from (f"  {line}".rstrip() for line in value)


def _quoted(text: str) -> str:
    quoted = json.dumps(text, ensure_ascii=False)
    return _UNPRINTABLE.sub(lambda found: f"\\u{ord(found[0]):04X}", quoted)


def _list(key: str, texts: Iterable[str]) -> Iterator[str]:
    yield f"{key}:"
    for text in texts:
        yield f"  - {_quoted(text)}"


def _remarks(fields: Fields) -> Iterator[str]:
    """Yields the number of solutions, the keys that Remarks were made of, and the other Remarks."""
    comments = list(fields.comments)
    numbers = [place for place, text in enumerate(comments) if _WANTED.fullmatch(text)]
    if numbers:
        wanted = comments[numbers[-1]].partition(" ")[2]
        said = [place for place, text in enumerate(comments) if _says(text, wanted)][:1]
        text = comments[said[0]].partition(" ")[2] if said else wanted
        left_out = [numbers[-1], *said]
        comments = [it for place, it in enumerate(comments) if place not in left_out]
        yield f"{_INTENDED}: {_scalar(text)}"
    for key, value in fields.keys.items():
        yield from _field(key, value)
    if comments:
        yield from _list("comments", comments)


def _says(text: str, wanted: str) -> bool:
    """Whether a Remark says more, as 2.1 does, than the number that it stands for."""
    said = _SAID.fullmatch(text)
    return said is not None and wanted_of(said[1]) == int(wanted)


def _solution(one: Exported, items: Mapping[int, SoundItem]) -> Iterator[str]:
    lines: list[str] = []
    for part in one.parts:
        found = solution_lines(items.get(part.problem.number))
        if found and part.heading:
            lines += [part.heading, ""]
        if found:
            lines += [*(map(_turned_back, found) if part.is_turned else found), ""]
    if lines:
        yield "solution: |"
        yield from (f"  {line}".rstrip() for line in lines[:-1])


def _turned_back(line: str) -> str:
    """Returns a line of a problem with colours turned as it is played on the diagram."""
    line = re.sub("([a-h])([1-8])", lambda found: f"{found[1]}{9 - int(found[2])}", line)
    return re.sub(r"\[\+([wb])", lambda found: "[+b" if found[1] == "w" else "[+w", line)


def solution_lines(item: Optional[SoundItem]) -> list[str]:
    """Returns the solutions of an item as Popeye prints moves: keys with `!`, signs after a blank.
    """
    lines: list[str] = []
    for phase in () if item is None else item.phases or ():
        lines += [""] if lines and phase.lines else []
        for line in phase.lines:
            menace = _MENACES.get(line.strip())
            if menace is None:
                lines.append(_line(line, _is_key(line, phase.kind.value, item)))
            else:
                lines[-1] += menace
    if item is None or not lines:
        return lines
    # (its limit, or the user, may have stopped the search)
    totals = [phase.total for phase in item.phases or () if phase.is_possible]
    is_partial = item.unfinished is not None or any(it is None or it.stopped for it in totals)
    return [*lines, "", PARTIAL] if is_partial else lines


def _is_key(line: str, phase: str, item: Optional[SoundItem]) -> bool:
    is_battle = item is not None and item.stipulation.play.value != "help"
    return is_battle and phase == "play" and not line.startswith(" ") and not line.endswith("!")


def _line(line: str, is_key: bool) -> str:
    text = line.lstrip(" ")
    indent = 2 * (len(line) - len(text))
    return " " * indent + " ".join(map(_parted, text.split(" "))) + (" !" if is_key else "")


def _parted(word: str) -> str:
    """Returns a move with its signs apart."""
    parts = _SIGNS.fullmatch(word)
    return word if parts is None else " ".join(filter(None, parts.groups()))
