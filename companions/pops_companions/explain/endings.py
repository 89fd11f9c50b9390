"""Faults that pops reports where a problem or the text ends."""

from collections.abc import Iterator
from typing import Optional

from pops_companions.explain import wordings
from pops_companions.explain.case import Case, Explanation, at, first_cause, known, quoted
from pops_companions.explain.characters import shown
from pops_companions.explain.sentences import sentence
from pops_companions.input.reading import Awaited
from pops_companions.input.words import named


@first_cause
def stipulation_missing(case: Case) -> Iterator[Optional[Explanation]]:
    """Explains a missing stipulation."""
    if len(case.reading.words) <= (2 if case.reading.first else 1):
        yield case.tells("nothing_between" if case.reading.first else "no_problem_between")
    yield from _lacking(case, "Stipulation", "`Stipulation #2`")


@first_cause
def no_men(case: Case) -> Iterator[Optional[Explanation]]:
    """Explains that there are no men."""
    yield from _lacking(case, "Pieces", "`Pieces White Kg6 Ra1 Black Kg8`")


def _lacking(case: Case, section: str, example: str) -> Iterator[Optional[Explanation]]:
    """Yields why the problem has nothing in a section: it is part of a text, empty or not there."""
    yield _swallowed(case, section)
    for opener in reversed(case.openers_of(section)):
        yield case.tells(f"{section}_empty", opener.span, opener=quoted(opener), example=example)
    yield _absent(case, sentence(f"{section}_absent"), example)


def _absent(case: Case, what: str, example: str) -> Explanation:
    """Returns what the problem lacks, with the word after which it may be."""
    before = known(case.before)
    place = sentence(
        "below_line", line=before.line
    ) if before.line < case.word.line else sentence("before_word", word=case.quoted)
    return case.tells("absent", before.span, what=what, place=place, example=example)


def _swallowed(case: Case, name: str) -> Optional[Explanation]:
    """Explains a text line that holds the command with what may follow it."""
    for line in case.reading.text_lines:
        words = line.text.split()
        for word, after in zip(words, [*words[1:], b""]):
            short = named(word, [name]) is not None
            if short and (word.lower() == name.lower().encode("ascii") or after):
                return case.tells("swallowed", line.span, opener=line.name, name=name)
    return None


@first_cause
def end_problem_missing(case: Case) -> Iterator[Optional[Explanation]]:
    """Explains that the text ends before EndProblem."""
    text, reading = case.text, case.reading
    if wordings.old_mac(text):
        for line in reading.text_lines[:1]:
            yield at(sentence("old_mac_line", opener=line.name), line.word.span)
    for line in reading.text_lines:
        closing = [word for word in line.text.split() if named(word, ["EndProblem"]) and len(word) > 4]
        if closing:
            yield at(sentence("end_swallowed", opener=line.name, word=shown(closing[0])), line.span)
    words = reading.words
    last = words[-1] if words else None
    if reading.awaited not in (None, Awaited.MORE_SQUARES) and reading.option is not None:
        yield at(sentence("value_awaited", option=quoted(reading.option)), reading.option.span)
    if not reading.first and last is None:
        yield at(sentence("no_problem_after"))
    marks = [] if last is None else [last.span]
    missing = "men" if not reading.men else "stipulation" if reading.stipulation is None else ""
    if text and not text.endswith(b"\n") and missing:
        yield at(sentence("cut_text", missing=missing), *marks)
    yield at(sentence("end_missing"), *marks)
