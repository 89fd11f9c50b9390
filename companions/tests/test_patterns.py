"""Patterns take no time that grows by the square: each is tried as it is used, on long texts of its own letters."""

import ast
import importlib
import itertools
import pkgutil
import re
import time
import unittest
import warnings
from collections.abc import Iterable, Iterator
from typing import Any, NamedTuple, Optional

import pops_companions
from pops_companions.input.words import LONGEST_WORD

with warnings.catch_warnings():
    warnings.simplefilter("ignore", DeprecationWarning)
    # (no Python before 3.11 has its new name)
    import sre_parse

USES = ("search", "match", "fullmatch", "findall", "finditer", "sub", "split")
# What modules call texts no longer than a word of pops, or a sentence of their own.
SHORT_TEXTS = {"case.plain", "case.word.bytes", "blanks", "said", "said.text"}
# A pattern of a file of the package itself.
OF_OWN_FILE = "pops_companions.show.men_shapes"
# The lengths of texts: four times as many characters take four times the time, or sixteen times where it grows by the square.
SHORT, LONG, MOST_GROWTH = 512, 2048, 9
# Lengths of texts before them, for patterns that take twice the time for each character more.
FIRST = (12, 18, 24)
# Seconds of the processor: fewer may be chance, more are too many for any text.
FEW, MANY = 0.004, 0.1
OF_CATEGORIES = {"SPACE": " ", "NOT_SPACE": "x", "DIGIT": "0", "NOT_DIGIT": "x", "WORD": "a", "NOT_WORD": "-"}
MOST_LETTERS, MOST_HEADS = 16, 8


class Use(NamedTuple):
    """A pattern, the method that uses it, where, and whether it reads short texts alone."""

    pattern: "re.Pattern[Any]"
    method: str
    where: str
    is_short: bool


def uses() -> Iterator[Use]:
    """Yields each use of a pattern; one that a module keeps and that isn't seen in use is searched."""
    held: dict[re.Pattern[Any], str] = {}
    seen = set()
    for found in pkgutil.walk_packages(pops_companions.__path__, "pops_companions."):
        module = importlib.import_module(found.name)
        assert module.__file__ is not None
        with open(module.__file__, encoding="utf-8") as file:
            nodes = list(ast.walk(ast.parse(file.read())))
        for node in nodes:
            if isinstance(node, ast.Call) and isinstance(node.func, ast.Attribute) and node.func.attr in USES:
                given = {ast.unparse(it) for word in node.args for it in ast.walk(word)}
                for pattern in patterns_of(node.func.value, node.args, vars(module)):
                    seen.add(pattern)
                    is_short = bool(given & SHORT_TEXTS)
                    yield Use(pattern, node.func.attr, f"{found.name}, line {node.lineno}", is_short)
        held.update((pattern, found.name) for pattern in held_in(vars(module).values()))
    for pattern, name in held.items():
        if pattern not in seen:
            is_form = name.startswith("pops_companions.explain.")
            yield Use(pattern, "fullmatch" if is_form else "search", name, is_form)


def patterns_of(owner: ast.expr, words: list[ast.expr], names: dict[str, Any]) -> Iterator["re.Pattern[Any]"]:
    """Yields the patterns of a call, as far as they are known before it."""
    if isinstance(owner, ast.Name) and owner.id == "re":
        flags = [value_of(it, names) for it in words if "IGNORECASE" in ast.unparse(it)]
        text = value_of(words[0], names)
        if text is not None:
            yield re.compile(text, *flags)
        return
    for node in ast.walk(owner):
        value = value_of(node, names) if isinstance(node, (ast.Name, ast.Attribute)) else None
        if isinstance(value, re.Pattern):
            yield value


def value_of(node: ast.expr, names: dict[str, Any]) -> Any:
    """Returns a value that a module has; None where it isn't known before a call."""
    try:
        return eval(ast.unparse(node), names)
    except (NameError, AttributeError):
        return None


def held_in(values: Iterable[Any]) -> Iterator["re.Pattern[Any]"]:
    """Yields the patterns among values, also in lists, tables and tuples."""
    for value in values:
        if isinstance(value, re.Pattern):
            yield value
        elif isinstance(value, (dict, list, tuple)):
            yield from held_in(value.values() if isinstance(value, dict) else value)


def letters_of(parsed: Any) -> Iterator[str]:
    """Yields a letter for each part of a pattern."""
    for code, value in parsed:
        name = str(code)
        if name == "LITERAL":
            yield chr(value)
        elif name in ("NOT_LITERAL", "ANY", "NEGATE"):
            yield "x"
        elif name == "RANGE":
            yield chr(value[0])
        elif name == "CATEGORY":
            yield OF_CATEGORIES.get(str(value).partition("_")[2], "x")
        elif name == "IN":
            yield from itertools.islice(letters_of(value), 4)
        else:
            for part in parts_of(value):
                yield from letters_of(part)


def parts_of(value: Any) -> Iterator[Any]:
    """Yields the patterns that a part of a pattern is made of."""
    if isinstance(value, sre_parse.SubPattern):
        yield value
    elif isinstance(value, (tuple, list)):
        for one in value:
            yield from parts_of(one)


def shortest(parsed: Any) -> str:
    """Returns a short text that a pattern takes."""
    said = ""
    for code, value in parsed:
        name, part = str(code), next(parts_of(value), None)
        if part is None:
            said += next(letters_of([(code, value)]), "")
        elif name.endswith("REPEAT"):
            said += shortest(part) * max(value[0], 1)
        elif not name.startswith("ASSERT"):
            said += shortest(part)
    return said


def heads_of(parsed: Any) -> Iterator[str]:
    """Yields a text up to each part of a pattern."""
    for place in range(len(parsed) + 1):
        head = shortest(parsed[:place])
        yield head
        for part in parts_of(parsed[place][1]) if place < len(parsed) else ():
            yield from (head + one for one in heads_of(part))


def texts_of(pattern: "re.Pattern[Any]") -> Iterator[tuple[str, str]]:
    """Yields beginnings of texts, each with what is repeated after it."""
    is_text = isinstance(pattern.pattern, str)
    text = pattern.pattern if is_text else pattern.pattern.decode("latin-1")
    parsed = sre_parse.parse(text, pattern.flags & (~0 if is_text else ~re.UNICODE))
    letters = list(dict.fromkeys(letters_of(parsed)))[:MOST_LETTERS]
    heads = list(dict.fromkeys(heads_of(parsed)))[:MOST_HEADS]
    pairs = [one + other for one, other in zip(letters, letters[1:])]
    yield from itertools.product(heads, dict.fromkeys([*letters, *pairs]))
    yield from itertools.product([""], filter(None, heads))


def seconds(use: Use, text: str) -> float:
    """Returns the time of the processor that a use of a pattern takes on a text."""
    given: Any = text if isinstance(use.pattern.pattern, str) else text.encode("latin-1", "replace")
    words = (given[:0], given) if use.method == "sub" else (given,)
    begin = time.process_time()
    found = getattr(use.pattern, use.method)(*words)
    if use.method == "finditer":
        list(found)
    return time.process_time() - begin


def grows(use: Use, head: str, unit: str) -> bool:
    """Returns whether the time of a use grows by the square, or by more."""

    def taken(length: int, times: int = 1) -> float:
        text = head + unit * (length // len(unit)) + ("\0" if use.is_short else "\n\0")
        return min(seconds(use, text) for _ in range(times))

    if any(taken(length) > MANY for length in FIRST):
        return True
    if use.is_short:
        return taken(LONGEST_WORD) > FEW and taken(LONGEST_WORD, 5) > FEW
    if taken(SHORT) > MANY:
        return True
    return taken(LONG) > FEW and taken(LONG, 2) > MOST_GROWTH * taken(SHORT, 2)


def slow_text(use: Use) -> Optional[str]:
    """Returns a text of which a use of a pattern takes time by the square, as `head + unit`."""
    found = (f"{head!r} + {unit!r}" for head, unit in texts_of(use.pattern) if grows(use, head, unit))
    return next(found, None)


class Patterns(unittest.TestCase):
    def test_none_takes_time_by_the_square(self) -> None:
        found = {it[:2] + it[3:]: it for it in uses() if not it.where.startswith(OF_OWN_FILE)}
        self.assertGreater(len(found), 150)
        for use in found.values():
            with self.subTest(use.pattern.pattern, method=use.method, where=use.where):
                self.assertIsNone(slow_text(use))

    def test_slow_patterns_are_found(self) -> None:
        slow = [("[-#]+$", "search"), (r"\s+$", "search"), ("x*y", "search"), (r"(\w+)-", "sub"), ("(?:a|b)*c", "search")]
        slow += [("(?:a+)+b", "match"), (" +$", "sub"), ("a*a*b", "match"), (r"(.*?)\*+(.*)", "fullmatch"), ("Q(?:a1)+.*?;+b", "search")]
        for pattern, method in slow:
            with self.subTest(pattern, method=method):
                self.assertIsNotNone(slow_text(Use(re.compile(pattern), method, "here", False)))


if __name__ == "__main__":
    unittest.main()
