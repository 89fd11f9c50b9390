"""Reads collections in YAML, as the Olive editor keeps them and as YACPDB gives them out."""

from collections.abc import Callable, Iterator

from pops_companions.import_.draft import Draft, Twin
from pops_companions.import_.language import ENGLISH
from pops_companions.import_.men import read_men
from pops_companions.import_.options import read_options
from pops_companions.import_.origins import BELOW_DATE, origin_of
from pops_companions.import_.popeye import place
from pops_companions.import_.sections import is_condition, take_conditions, wanted_of
from pops_companions.import_.twins import read_twin
from pops_companions.import_.words import Message, TextLine, Unreadable, Words
from pops_companions.import_.yaml_text import Node, Scalar, YamlError, documents, line_of

_COLOURS = ("white", "black", "neutral")
# The keys of one line, with what their texts are.
_ORIGIN = {"source": "name", "date": "date"}
# The key of other places where the problem was published, a line each.
_MORE_ORIGINS = "origins"
# The twin that stands in place of the position itself.
_FIRST_TWIN = "a"
# The longest names of twins, and of values that become Remarks, each of which repeats its name.
_LONGEST_LABEL = 40
_LONGEST_NAME = 200


def read_yaml(text: str) -> list[Draft]:
    """Returns the problems of a stream of documents, each of them a problem or a list of problems.
    """
    drafts: list[Draft] = []
    for document in documents(text):
        try:
            node = document.node()
        except YamlError as error:
            drafts.append(Draft(len(drafts) + 1, document.line))
            drafts[-1].faults.append(Message(error.line, f"this isn't read as YAML: {error}"))
            continue
        for problem in _problems_in(node):
            draft = Draft(len(drafts) + 1, document.line)
            drafts.append(draft)
            if isinstance(problem, dict):
                draft.line = min(map(line_of, problem), default=document.line)
                for key, value in problem.items():
                    _read_key(key, value, draft)
                _read_origin(problem, draft)
            else:
                line = problem.line if isinstance(problem, Scalar) else draft.line
                draft.faults.append(Message(line, "there are no keys of a problem"))
    return drafts


def _problems_in(node: Node) -> list[Node]:
    """Returns the problems of a document: of a list, also one below `entries` as YACPDB's JSON has it,
    or the document itself.
    """
    while isinstance(node, dict):
        below = node.get("entries", node.get("result"))
        if not isinstance(below, (list, dict)):
            return [node]
        node = below
    return node if isinstance(node, list) else [node]


def _read_key(key: str, value: Node, draft: Draft) -> None:
    # (source and date are read together, after all keys)
    if key.lower() in (*_ORIGIN, _MORE_ORIGINS):
        return
    readers = {
        "title": _read_names,
        "author": _read_names,
        "authors": _read_names,
        "algebraic": _read_men,
        "stipulation": _read_stipulation,
        "conditions": _read_conditions,
        "options": _read_options,
        "twins": _read_twins,
        "intended-solutions": _read_wanted,
        "comments": _read_comments,
        "id": _read_key_of_database,
        "award": _read_award,
    }
    reader = readers.get(key.lower(), _read_other)
    try:
        reader(key, value, draft)
    except Unreadable as error:
        draft.faults.append(error.message)


def _read_key_of_database(key: str, value: Node, draft: Draft) -> None:
    # (a table of twins has it in each row)
    draft.key = draft.key or _shortened(_one_line(value, " "))
    _read_other(key, value, draft)


def _read_award(key: str, value: Node, draft: Draft) -> None:
    if isinstance(value, Scalar):
        draft.texts.append(TextLine("Award", _one_line(value, " ")))
    else:
        _read_other(key, value, draft)


def _texts(node: Node) -> list[Scalar]:
    """Returns the texts of a node, the text of a key with the key before it."""
    if node is None:
        return []
    if isinstance(node, list):
        return [text for one in node for text in _texts(one)]
    if isinstance(node, dict):
        return [
            Scalar(f"{key} {' '.join(_texts(value))}".rstrip(), line_of(key))
            for key, value in node.items()
        ]
    return [node]


def _one_line(node: Node, between: str) -> str:
    return between.join(text.replace("\n", " ") for text in _texts(node))


def _read_names(key: str, value: Node, draft: Draft) -> None:
    command = "Title" if key.lower() == "title" else "Author"
    draft.texts.append(TextLine(command, _one_line(value, "; ")))


def _read_origin(keys: dict[str, Node], draft: Draft) -> None:
    """Reads source and date, which are one line, and further origins, which are one each."""
    parts: list[tuple[str, str]] = []
    more: list[TextLine] = []
    for key, value in keys.items():
        if key.lower() == _MORE_ORIGINS:
            more += [TextLine("Origin", text.replace("\n", " ")) for text in _texts(value)]
        elif key.lower() in _ORIGIN:
            parts.extend(_parts_of_origin(_ORIGIN[key.lower()], value))
    line, rest = origin_of(parts)
    if line:
        draft.texts.append(TextLine("Origin", line))
    draft.texts.extend(more)
    if rest:
        draft.texts.append(TextLine("Remark", f"source: {rest}"))


def _parts_of_origin(name: str, node: Node) -> Iterator[tuple[str, str]]:
    """Yields the named texts of a source or a date; a text without a key has this name, what is below the
    date of a source `date.` before its own.
    """
    if isinstance(node, dict):
        for key, value in node.items():
            if key.lower() == "date" and isinstance(value, dict):
                for part, text in _parts_of_origin("date", value):
                    yield f"{BELOW_DATE}{part}", text
            else:
                yield from _parts_of_origin(key.lower(), value)
    else:
        text = _one_line(node, ", ")
        if text:
            yield name, text


def _read_stipulation(key: str, value: Node, draft: Draft) -> None:
    texts = _texts(value)
    if not texts:
        raise Unreadable(
            line_of(key), "the stipulation is empty: in YAML # begins a comment, so put it in quotes"
        )
    text = " ".join(texts)
    stipulation, _, number = text.rpartition(" ")
    wanted = wanted_of(number) if stipulation else None
    if wanted is None:
        draft.setting.stipulation = text
        return
    draft.setting.stipulation = stipulation
    draft.want(wanted, number)


def _read_wanted(key: str, value: Node, draft: Draft) -> None:
    """The number of solutions wanted: as it is, or as 2.1.1, of which the product is meant."""
    text = _one_line(value, " ")
    wanted = wanted_of(text)
    if wanted is None:
        _read_other(key, value, draft)
    else:
        draft.want(wanted, text)


def _read_comments(_: str, value: Node, draft: Draft) -> None:
    for text in _texts(value):
        draft.texts.extend(TextLine("Remark", line) for line in text.split("\n"))


def _read_other(key: str, value: Node, draft: Draft) -> None:
    """Keeps what pops has no word for: a Remark for each line."""
    for name, text in _named_texts(_shortened(key), value):
        for line in text.split("\n"):
            draft.texts.append(TextLine("Remark", f"{name}: {line}".rstrip()))


def _named_texts(name: str, node: Node) -> Iterator[tuple[str, Scalar]]:
    if isinstance(node, dict):
        for key, value in node.items():
            yield from _named_texts(_shortened(f"{name}.{key}"), value)
    elif isinstance(node, list):
        # (where some have keys, numbers say which keys belong together)
        has_keys = len(node) > 1 and any(isinstance(one, dict) for one in node)
        for number, one in enumerate(node, start=1):
            yield from _named_texts(_shortened(f"{name}.{number}") if has_keys else name, one)
    elif node is not None:
        yield name, node


def _shortened(name: str) -> str:
    return name if len(name) <= _LONGEST_NAME else f"{name[:_LONGEST_NAME]}.."


def _words_of(text: Scalar, read: Callable[[Words], None], draft: Draft, before: str = "") -> None:
    """Reads the words of a text; all have to be taken. What is skipped is noted."""
    words = Words(f"{before}{text}", ENGLISH, 0, text.line)
    read(words)
    left = words.peek()
    for unknown in [left.text] if left is not None else [one.command for one in words.texts]:
        raise Unreadable(text.line, f"{unknown} isn't known here")
    draft.tell_of_skipped(words)


def _read_men(key: str, value: Node, draft: Draft) -> None:
    if not isinstance(value, dict):
        raise Unreadable(line_of(key), "algebraic holds no lists white and black")
    for colour, node in value.items():
        if colour not in _COLOURS:
            raise Unreadable(line_of(colour), f"{colour} is none of white, black and neutral")
        for text in _texts(node):
            _words_of(text, lambda words: place(draft, read_men(words)), draft, f"{colour} ")


def _read_conditions(_: str, value: Node, draft: Draft) -> None:
    def read(words: Words) -> None:
        draft.setting.conditions = take_conditions(words, draft.setting.conditions)

    for text in _texts(value):
        _words_of(text, read, draft)


def _read_options(key: str, value: Node, draft: Draft) -> None:
    """Options; a condition among them, as YACPDB has it, is a condition."""
    for text in _texts(value):
        if is_condition(text):
            _read_conditions(key, text, draft)
        else:
            _words_of(text, lambda words: read_options(words, draft), draft)


def _read_twins(key: str, value: Node, draft: Draft) -> None:
    if value is None:
        return
    if not isinstance(value, dict):
        raise Unreadable(line_of(key), "twins holds no keys b, c ..")
    for label, node in value.items():
        if len(label) > _LONGEST_LABEL:
            reason = f"the name of a twin has more than {_LONGEST_LABEL} characters"
            raise Unreadable(line_of(label), reason)
        twin = Twin(f"{label})", line_of(label))
        draft.twins.append(twin)
        if label == _FIRST_TWIN:
            draft.first = False
        try:
            for text in _texts(node):
                _words_of(text, lambda words: read_twin(words, twin), draft)
        except Unreadable as error:
            twin.faults.append(error.message)
